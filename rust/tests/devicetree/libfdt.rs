//! The same blobs beside libfdt's `fdt_check_full`: where one of both refuses what the other takes,
//! there is a reason that is known. Seen with libfdt 1.6.1.

use crate::case::Case;
use crate::fault::Fault;
use crate::header::{blocks, word, Header};
use crate::tree::{tree, NOP, PROP};
use crate::{generator, seed, BLOBS};
use std::collections::BTreeMap;
use std::ffi::{c_int, c_void};

const HEADER_SIZE: usize = 40;
/// How often a run must meet each reason.
const AT_LEAST: u64 = 100;

/// With this length a property ends where it begins by libfdt's arithmetic, so that `fdt_check_full`
/// does not return. With a greater one it ends before its value.
const LENGTH_WITHOUT_END: u32 = 0xffff_fff4;

/// The reason that a libfdt with other arithmetic does not give.
const WRAPPING_LENGTH: &str = "a length that wraps around in libfdt";

/// Of blobs of lower versions `fdt_check_full` may read a null pointer.
const LOWEST_VERSION: u32 = 16;

#[link(name = "fdt")]
extern "C" {
    fn fdt_check_full(fdt: *const c_void, size: usize) -> c_int;
}

fn libfdt_takes(slice: &[u8]) -> bool {
    // It asks for an address that is a multiple of 8.
    let words = slice.chunks(8).map(|bytes| {
        let mut word = [0; 8];
        word[..bytes.len()].copy_from_slice(bytes);
        u64::from_ne_bytes(word)
    });
    let memory: Vec<u64> = words.collect();
    // SAFETY: it reads no byte past the size that it is given, and that many are there.
    unsafe { fdt_check_full(memory.as_ptr().cast(), slice.len()) == 0 }
}

/// Whether `fdt_check_full` returns.
fn can_be_asked(slice: &[u8]) -> bool {
    slice.len() < HEADER_SIZE
        || Header::of(slice).version >= LOWEST_VERSION && !has_length(slice, |length| length == LENGTH_WITHOUT_END)
}

/// Whether a length fulfils the condition, of those that libfdt could take for a property's.
fn has_length(slice: &[u8], condition: fn(u32) -> bool) -> bool {
    let tokens = slice.get(Header::of(slice).off_dt_struct..).unwrap_or(&[]);
    let words: Vec<_> = tokens.chunks_exact(4).map(|bytes| word(bytes, 0)).collect();
    words.windows(2).any(|pair| pair[0] == PROP && condition(pair[1]))
}

fn has_empty_reservation(slice: &[u8]) -> bool {
    let Header { off_mem_rsvmap, totalsize, .. } = Header::of(slice);
    slice[off_mem_rsvmap..totalsize].chunks_exact(16).any(|entry| entry[8..] == [0; 8])
}

/// Why the archive refuses with 21 what libfdt takes.
fn refused_here(fault: Fault, slice: &[u8]) -> Option<&'static str> {
    Some(match fault {
        Fault::TotalsizeAboveLimit => "totalsize above 64 KiB",
        Fault::Version => "version below 17",
        Fault::ReservationsUnaligned => "memory reservations not at a multiple of 8",
        Fault::StructureUnaligned => "structure block not at a multiple of 4",
        Fault::ReservationsUnended if has_empty_reservation(slice) => "memory reservations end with a size of 0 alone",
        Fault::NoRoot => "no root",
        Fault::PropertyOutside => "a property before the root",
        Fault::PropertyAfterSubnode => "a property after a subnode",
        Fault::EndBeforeBlocksEnd => "FDT_END before the structure block's end",
        Fault::NodeNamePadding => "padding of a node's name",
        Fault::ValuePadding => "padding of a value",
        Fault::AddressCellsLength | Fault::SizeCellsLength => "length of a cell count",
        Fault::RaggedReg => "reg no whole number of pairs",
        Fault::ValueCut if has_length(slice, |length| length > LENGTH_WITHOUT_END) => WRAPPING_LENGTH,
        _ => return None,
    })
}

/// Why libfdt refuses what the archive does not refuse with 21.
fn refused_there(slice: &[u8]) -> Option<&'static str> {
    let header = Header::of(slice);
    let blocks = blocks(slice).ok()?;
    let root = tree(&blocks).ok()?;
    let offsets = [header.off_mem_rsvmap, header.off_dt_struct, header.off_dt_strings];
    if offsets.iter().any(|offset| *offset < HEADER_SIZE) {
        Some("a block that begins in the header")
    } else if !root.name.is_empty() {
        Some("a root with a name")
    } else if word(blocks.structure, blocks.structure.len() - 8) == NOP {
        Some("FDT_NOP after the root's end")
    } else {
        None
    }
}

/// How many reasons there are, besides the one that depends on libfdt's arithmetic.
const REASONS: usize = 16;

#[derive(Default)]
struct Compared {
    both_take: u64,
    both_refuse: u64,
    not_asked: u64,
    refused_here: BTreeMap<&'static str, u64>,
    refused_there: BTreeMap<&'static str, u64>,
}

impl Compared {
    /// Counts what both make of a slice; a difference without a reason is wrong.
    fn count(&mut self, slice: &[u8], fault: Option<Fault>) -> Result<(), String> {
        let fault = fault.filter(|fault| fault.number() == 21);
        let times = match (fault, can_be_asked(slice).then(|| libfdt_takes(slice))) {
            (_, None) => &mut self.not_asked,
            (None, Some(true)) => &mut self.both_take,
            (Some(_), Some(false)) => &mut self.both_refuse,
            (Some(fault), Some(true)) => {
                let reason = refused_here(fault, slice).ok_or_else(|| unexplained(slice, Some(fault)))?;
                self.refused_here.entry(reason).or_default()
            }
            (None, Some(false)) => {
                let reason = refused_there(slice).ok_or_else(|| unexplained(slice, None))?;
                self.refused_there.entry(reason).or_default()
            }
        };
        *times += 1;
        Ok(())
    }

    fn print(&self) {
        println!("libfdt: both take {}, both refuse {}", self.both_take, self.both_refuse);
        println!("libfdt: not asked, since it would not return or would crash: {}", self.not_asked);
        for (who, reasons) in [("21 here", &self.refused_here), ("refused there", &self.refused_there)] {
            for (reason, times) in reasons {
                println!("libfdt: {who}: {reason}: {times}");
            }
        }
    }

    fn often_enough(&self) -> bool {
        let reasons = self.refused_here.iter().chain(&self.refused_there);
        let often = reasons.filter(|(reason, times)| **reason != WRAPPING_LENGTH && **times >= AT_LEAST);
        often.count() == REASONS
    }
}

fn unexplained(slice: &[u8], fault: Option<Fault>) -> String {
    format!("libfdt differs without a reason, with the fault {fault:?}: {slice:02x?}")
}

#[test]
fn differences_from_libfdt_have_reasons() {
    let seed = seed();
    let mut compared = Compared::default();
    for number in 0..BLOBS {
        let case = Case::random(&mut generator(seed, number));
        let checked = case.check().and_then(|(read, _)| compared.count(case.slice(), read.err()));
        if let Err(wrong) = checked {
            panic!("seed {seed}, blob {number}: {wrong}");
        }
    }
    compared.print();
    assert!(compared.often_enough(), "a reason was met too seldom");
}
