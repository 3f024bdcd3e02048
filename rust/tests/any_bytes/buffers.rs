//! The buffers, what they may hold before a call, and what a result may hold after it.

use crate::blob;
use crate::random::Random;
use ritm::ffi;

pub const ALLOWED_WORDS: usize = 4;
pub const ALLOWED_COUNT: usize = 128;
pub const REGIONS: usize = 129;
pub const REGION_WORDS: usize = 5;
pub const REGION_COUNT: usize = 209;
pub const CORE_WORDS: usize = 38;
pub const COUNTER: usize = 304;
pub const MAP_WORDS: usize = 4;
pub const TRAP_HINT: usize = 19;
const WAIT: usize = 37;

/// Bit 16 of x0: in a fast call the hint, and no part of the function identifier.
const SVE_HINT: u64 = 1 << 16;

/// The value that the filtered MMIO page takes, by a store at offset 8.
const FILTERED_MMIO_STORE: u64 = 0x1234_5678_9abc_def0;

/// A list of a policy: where its records and their count stand, the words of a record, and how many
/// are held at most. A record begins with its base, its size and its end.
pub struct List {
    pub start: usize,
    pub words: usize,
    pub count: usize,
    pub limit: usize,
}

pub static ALLOWED: List = List { start: 0, words: ALLOWED_WORDS, count: ALLOWED_COUNT, limit: 32 };
pub static HANDLED: List = List { start: REGIONS, words: REGION_WORDS, count: REGION_COUNT, limit: 16 };
pub static LISTS: [&List; 2] = [&ALLOWED, &HANDLED];

impl List {
    /// Where a record begins.
    pub fn at(&self, place: usize) -> usize {
        self.start + place * self.words
    }

    /// How many are held: a count above the limit reads as the limit.
    pub fn held(&self, policy: &[u8]) -> usize {
        word(policy, self.count).min(self.limit as u64) as usize
    }
}

/// Whether a word of a policy is the code of a region's handler.
pub fn is_code(k: usize) -> bool {
    (REGIONS..REGION_COUNT).contains(&k) && (k - REGIONS) % REGION_WORDS >= 3
}

#[derive(Clone, Copy, Debug, PartialEq)]
pub enum Buffer {
    Policy,
    Cores,
    Map,
    Registers,
    Values,
    TrapResult,
    FindResult,
    EntryResult,
    AccessResult,
    WordResult,
    /// A devicetree blob, the only buffer of any size.
    Blob,
}

impl Buffer {
    pub fn size(self) -> usize {
        match self {
            Buffer::Policy => ffi::POLICY_SIZE,
            Buffer::Cores => ffi::CORES_SIZE,
            Buffer::Map => ffi::MAP_SIZE,
            Buffer::Registers => ffi::REGISTERS_SIZE,
            Buffer::Values => ffi::VALUES_SIZE,
            Buffer::TrapResult => ffi::TRAP_RESULT_SIZE,
            Buffer::FindResult => ffi::FIND_RESULT_SIZE,
            Buffer::EntryResult => ffi::ENTRY_RESULT_SIZE,
            Buffer::AccessResult => ffi::ACCESS_RESULT_SIZE,
            Buffer::WordResult => ffi::WORD_RESULT_SIZE,
            Buffer::Blob => blob::SIZE,
        }
    }

    /// Random bytes. A state is also, and more often, near to one that calls lead to.
    pub fn contents(self, random: &mut Random) -> Vec<u8> {
        let mut bytes = random.bytes(self.size());
        if !random.once_in(4) {
            match self {
                Buffer::Policy => fill_policy(&mut bytes, random),
                Buffer::Cores => fill_cores(&mut bytes, random),
                Buffer::Map => fill_map(&mut bytes, random),
                Buffer::Blob => blob::fill(&mut bytes, random),
                _ => {}
            }
        }
        bytes
    }

    /// Whether each field of an accepted call's result is one that the call can give.
    pub fn result_fits(self, bytes: &[u8]) -> bool {
        let words: Vec<u64> = (0..bytes.len() / 8).map(|k| word(bytes, k)).collect();
        match self {
            Buffer::TrapResult => trap_result_fits(&words),
            Buffer::FindResult => words[0] == 1 && words[1] < 16 || words == [0; 3],
            Buffer::EntryResult => words[0] == 1 || words == [0; 3],
            Buffer::AccessResult => {
                [8, 16, 32, 64].contains(&words[1])
                    && words[3] < 32
                    && [words[2], words[4], words[5]].iter().all(|bit| *bit < 2)
            }
            _ => true,
        }
    }
}

/// As many values as the kind has, and zeros past them; of a forwarded call the first is a function
/// identifier of its recipient's, and the hint a fast call's.
fn trap_result_fits(words: &[u64]) -> bool {
    let (id, hint) = (words[1], words[TRAP_HINT]);
    let is_fast_call = id >> 31 == 1;
    let is_psci = matches!(id, 0x8400_0000..=0x8400_001f | 0xc400_0000..=0xc400_001f);
    let values = match words[0] {
        1..=3 => 0,
        4 if is_psci => 4,
        5 if !is_psci => 18,
        _ => return false,
    };
    words[1 + values..TRAP_HINT].iter().all(|value| *value == 0)
        && id <= u64::from(u32::MAX)
        && (hint == 0 || hint == 1 && is_fast_call)
        && !(is_fast_call && id & SVE_HINT != 0)
}

pub fn word(bytes: &[u8], k: usize) -> u64 {
    u64::from_le_bytes(bytes[8 * k..8 * k + 8].try_into().expect("eight bytes"))
}

pub fn put(bytes: &mut [u8], k: usize, word: u64) {
    bytes[8 * k..8 * k + 8].copy_from_slice(&word.to_le_bytes());
}

/// Base, size and end of one to three pages.
fn put_range(bytes: &mut [u8], k: usize, random: &mut Random) {
    let base = random.page();
    let size = 0x1000 * (1 + random.below(3));
    put(bytes, k, base);
    put(bytes, k + 1, size);
    put(bytes, k + 2, base.wrapping_add(size));
}

/// The codes of regions' handlers, of which those above 2 are unknown.
const HANDLERS: [u64; 8] = [0, 0, 1, 1, 1, 2, 3, u64::MAX];

fn fill_policy(bytes: &mut [u8], random: &mut Random) {
    for k in 0..32 {
        put_range(bytes, k * ALLOWED_WORDS, random);
    }
    for k in 0..16 {
        let at = REGIONS + k * REGION_WORDS;
        put_range(bytes, at, random);
        put(bytes, at + 3, random.one_of(&HANDLERS));
        put(bytes, at + 4, random.one_of(&HANDLERS));
    }
    if random.once_in(2) {
        repeat_range(bytes, random);
    }
    let counts = [0, 0, 1, 2, 4, 8, 15, 16, 17, 20, 31, 32, 33, 40, u64::MAX];
    put(bytes, ALLOWED_COUNT, random.one_of(&counts));
    put(bytes, REGION_COUNT, random.one_of(&counts));
}

/// One base and size in several places of both lists, as often as not with the ends of others.
fn repeat_range(bytes: &mut [u8], random: &mut Random) {
    let (base, size) = (random.page(), 0x1000 * (1 + random.below(3)));
    for list in LISTS {
        for at in (0..list.limit).map(|place| list.at(place)) {
            if random.once_in(4) {
                put(bytes, at, base);
                put(bytes, at + 1, size);
                if random.once_in(2) {
                    put(bytes, at + 2, base.wrapping_add(size));
                }
            }
        }
    }
}

/// Cores that wait as often as not, x0 of a call near the firmware's, and registers that may be
/// stored.
fn fill_cores(bytes: &mut [u8], random: &mut Random) {
    for core in 0..8 {
        let start = core * CORE_WORDS;
        for x in 1..31 {
            if random.once_in(2) {
                put(bytes, start + x, FILTERED_MMIO_STORE);
            }
        }
        put(bytes, start, x0_of_call(random));
        let wait = if random.once_in(2) { random.below(6) } else { 0 };
        put(bytes, start + WAIT, wait);
    }
    put(bytes, COUNTER, random.any());
}

/// A function identifier near the firmware's or of a yielding call, often with bit 16 set, and at
/// times with bits of the upper half.
fn x0_of_call(random: &mut Random) -> u64 {
    let id = random.one_of(&[0x8400_0000, 0xc400_0000, 0x400_0000]) + random.below(0x24);
    let hint = if random.once_in(2) { SVE_HINT } else { 0 };
    let upper = if random.once_in(4) { random.number() << 32 } else { 0 };
    upper | hint | id
}

/// Keys are few, so that they are often held; the map is often full.
fn fill_map(bytes: &mut [u8], random: &mut Random) {
    let full = random.once_in(3);
    for k in 0..8 {
        let taken = if full { 1 } else { random.one_of(&[0, 1, 1, 2]) };
        put(bytes, k * MAP_WORDS, taken);
        put(bytes, k * MAP_WORDS + 1, random.below(12));
    }
}
