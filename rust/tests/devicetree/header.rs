//! The header, the blocks that it names, and the memory reservations.

use crate::fault::Fault;

const HEADER_SIZE: usize = 40;
const MAX_SIZE: usize = 0x1_0000;
const MAGIC: u32 = 0xd00d_feed;
const VERSION: u32 = 17;
const RESERVATION_SIZE: usize = 16;

/// The header's fields that count, in their order.
#[derive(Clone, Copy, Debug)]
pub struct Header {
    pub magic: u32,
    pub totalsize: usize,
    pub off_dt_struct: usize,
    pub off_dt_strings: usize,
    pub off_mem_rsvmap: usize,
    pub version: u32,
    pub last_comp_version: u32,
    pub size_dt_strings: usize,
    pub size_dt_struct: usize,
}

pub struct Blocks<'a> {
    pub structure: &'a [u8],
    pub strings: &'a [u8],
}

pub fn word(bytes: &[u8], at: usize) -> u32 {
    u32::from_be_bytes(bytes[at..at + 4].try_into().expect("four bytes"))
}

pub fn ensure(holds: bool, fault: Fault) -> Result<(), Fault> {
    if holds {
        Ok(())
    } else {
        Err(fault)
    }
}

impl Header {
    pub fn of(bytes: &[u8]) -> Self {
        let field = |k: usize| word(bytes, 4 * k);
        Self {
            magic: field(0),
            totalsize: field(1) as usize,
            off_dt_struct: field(2) as usize,
            off_dt_strings: field(3) as usize,
            off_mem_rsvmap: field(4) as usize,
            version: field(5),
            last_comp_version: field(6),
            size_dt_strings: field(8) as usize,
            size_dt_struct: field(9) as usize,
        }
    }

    fn check(&self) -> Result<(), Fault> {
        ensure(self.magic == MAGIC, Fault::Magic)?;
        ensure(self.totalsize >= HEADER_SIZE, Fault::TotalsizeBelowHeader)?;
        ensure(self.totalsize <= MAX_SIZE, Fault::TotalsizeAboveLimit)?;
        ensure(self.version >= VERSION, Fault::Version)?;
        ensure(self.last_comp_version <= VERSION, Fault::LastCompVersion)?;
        ensure(self.off_mem_rsvmap % 8 == 0, Fault::ReservationsUnaligned)?;
        ensure(self.off_dt_struct % 4 == 0, Fault::StructureUnaligned)
    }
}

/// The blocks of a slice. Of the slice only the blob, its first totalsize bytes, is read.
pub fn blocks(slice: &[u8]) -> Result<Blocks<'_>, Fault> {
    ensure(slice.len() >= HEADER_SIZE, Fault::SliceBelowHeader)?;
    let header = Header::of(slice);
    header.check()?;
    let blob = slice.get(..header.totalsize).ok_or(Fault::SliceBelowTotalsize)?;
    let structure = block(blob, header.off_dt_struct, header.size_dt_struct).ok_or(Fault::StructureOutside)?;
    let strings = block(blob, header.off_dt_strings, header.size_dt_strings).ok_or(Fault::StringsOutside)?;
    ensure(reservations_end(blob, header.off_mem_rsvmap), Fault::ReservationsUnended)?;
    Ok(Blocks { structure, strings })
}

/// The bytes of a block, if it lies inside the blob. Two numbers of 32 bits do not wrap here.
fn block(blob: &[u8], offset: usize, size: usize) -> Option<&[u8]> {
    blob.get(offset..offset + size)
}

/// Whether one of the entries from the offset on, inside the blob whole, is all zero.
fn reservations_end(blob: &[u8], offset: usize) -> bool {
    let entries = blob.get(offset..).unwrap_or(&[]);
    entries.chunks_exact(RESERVATION_SIZE).any(|entry| entry.iter().all(|byte| *byte == 0))
}
