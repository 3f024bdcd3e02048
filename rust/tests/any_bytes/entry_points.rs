//! The twenty-one entry points: their buffers, their refusals, how to call them, with which numbers,
//! and which words of a state an accepted call may change.

use crate::buffers::{
    word, Buffer, ALLOWED_COUNT, ALLOWED_WORDS, CORE_WORDS, COUNTER, LISTS, MAP_WORDS, REGIONS, REGION_COUNT,
    REGION_WORDS,
};
use crate::random::Random;
use crate::raw::*;
use crate::release::Release;
use ritm::MemoryHandler;
use std::ptr::null;

/// What a call may do with a buffer.
#[derive(Clone, Copy, Debug, PartialEq)]
pub enum Use {
    /// Read it.
    Read,
    /// Change some words of it.
    Change,
    /// Write it whole, whatever it held.
    Write,
}

pub type Numbers = [u64; 5];

pub struct EntryPoint {
    pub name: &'static str,
    /// How often it is called, as a share of all.
    pub weight: u64,
    /// In the order of the parameters.
    pub buffers: &'static [(Buffer, Use)],
    pub refusals: &'static [u64],
    pub call: fn(&[*mut u8], Numbers) -> u64,
    /// The numbers of a call with these buffers.
    pub numbers: fn(&mut Random, &[Vec<u8>]) -> Numbers,
    /// Whether an accepted call may change this word of a state that held these bytes.
    pub may_change: fn(Numbers, &[u8], usize) -> bool,
}

use Buffer::*;
use Use::*;

// SAFETY, of every `call`: the pointers are those of buffers of the sizes that the entry point
// names, which do not overlap. `call.rs` sees to that.
pub static ENTRY_POINTS: [EntryPoint; 21] = [
    EntryPoint {
        name: "ritm_fresh_policy",
        weight: 1,
        buffers: &[(Policy, Write)],
        refusals: &[],
        call: |b, _| unsafe { ritm_fresh_policy(b[0]) },
        numbers: no_numbers,
        may_change: nothing,
    },
    EntryPoint {
        name: "ritm_allow_range",
        weight: 4,
        buffers: &[(Policy, Change)],
        refusals: &[1, 2, 3, 4, 5, 6, 7],
        call: |b, n| unsafe { ritm_allow_range(b[0], n[0], n[1], n[2]) },
        numbers: range_numbers,
        may_change: allowed_place,
    },
    EntryPoint {
        name: "ritm_handle_range",
        weight: 4,
        buffers: &[(Policy, Change)],
        refusals: &[20, 1, 2, 3, 4, 6, 8, 9],
        call: |b, n| unsafe { ritm_handle_range(b[0], n[0], n[1], n[2], n[3]) },
        numbers: range_numbers,
        may_change: region_places,
    },
    EntryPoint {
        name: "ritm_import_memory",
        weight: 4,
        buffers: &[(Policy, Change), (Blob, Read)],
        refusals: &[21, 22, 1, 2, 3, 4, 5, 6, 7],
        // An empty slice may stand nowhere.
        call: |b, n| unsafe { ritm_import_memory(b[0], if n[0] == 0 { null() } else { b[1] }, n[0], n[1]) },
        numbers: |random, before| [before[1].len() as u64, random.any(), 0, 0, 0],
        may_change: allowed_places,
    },
    EntryPoint {
        name: "ritm_release_range",
        weight: 4,
        buffers: &[(Policy, Change)],
        refusals: &[1, 2, 3, 4, 23],
        call: |b, n| unsafe { ritm_release_range(b[0], n[0], n[1]) },
        numbers: release_numbers,
        may_change: |n, before, k| Release::of(n, before).may_change(k),
    },
    EntryPoint {
        name: "ritm_find",
        weight: 2,
        buffers: &[(Policy, Read), (FindResult, Write)],
        refusals: &[],
        call: |b, n| unsafe { ritm_find(b[0], n[0], b[1]) },
        numbers: |random, before| [address(random, &before[0]), 0, 0, 0, 0],
        may_change: nothing,
    },
    EntryPoint {
        name: "ritm_fresh_cores",
        weight: 1,
        buffers: &[(Cores, Write)],
        refusals: &[],
        call: |b, _| unsafe { ritm_fresh_cores(b[0]) },
        numbers: no_numbers,
        may_change: nothing,
    },
    EntryPoint {
        name: "ritm_save",
        weight: 2,
        buffers: &[(Cores, Change), (Registers, Read)],
        refusals: &[10, 11],
        call: |b, n| unsafe { ritm_save(b[0], n[0], b[1]) },
        numbers: |random, _| [random.mostly_below(8), 0, 0, 0, 0],
        may_change: core_words,
    },
    EntryPoint {
        name: "ritm_trap",
        weight: 16,
        buffers: &[(Policy, Read), (Cores, Change), (TrapResult, Write)],
        refusals: &[10, 11, 12, 13],
        call: |b, n| unsafe { ritm_trap(b[0], b[1], n[0], n[1], n[2], n[3], n[4], b[2]) },
        numbers: trap_numbers,
        may_change: core_words_and_counter,
    },
    EntryPoint {
        name: "ritm_reply",
        weight: 4,
        buffers: &[(Cores, Change), (Values, Read)],
        refusals: &[10, 14, 15],
        call: |b, n| unsafe { ritm_reply(b[0], n[0], n[1], b[1], n[2] as i32) },
        numbers: |random, _| [random.mostly_below(8), random.mostly_below(6), random.any(), 0, 0],
        may_change: core_words,
    },
    EntryPoint {
        name: "ritm_read_gpr",
        weight: 1,
        buffers: &[(Cores, Read), (WordResult, Write)],
        refusals: &[10, 17],
        call: |b, n| unsafe { ritm_read_gpr(b[0], n[0], n[1], b[1]) },
        numbers: register_numbers,
        may_change: nothing,
    },
    EntryPoint {
        name: "ritm_write_gpr",
        weight: 2,
        buffers: &[(Cores, Change)],
        refusals: &[10, 17],
        call: |b, n| unsafe { ritm_write_gpr(b[0], n[0], n[1], n[2]) },
        numbers: register_numbers,
        may_change: core_words,
    },
    EntryPoint {
        name: "ritm_fresh_map",
        weight: 1,
        buffers: &[(Map, Write)],
        refusals: &[],
        call: |b, _| unsafe { ritm_fresh_map(b[0]) },
        numbers: no_numbers,
        may_change: nothing,
    },
    EntryPoint {
        name: "ritm_insert",
        weight: 2,
        buffers: &[(Map, Change)],
        refusals: &[16],
        call: |b, n| unsafe { ritm_insert(b[0], n[0], n[1], n[2]) },
        numbers: key_numbers,
        may_change: inserted_places,
    },
    EntryPoint {
        name: "ritm_get",
        weight: 1,
        buffers: &[(Map, Read), (EntryResult, Write)],
        refusals: &[],
        call: |b, n| unsafe { ritm_get(b[0], n[0], b[1]) },
        numbers: key_numbers,
        may_change: nothing,
    },
    EntryPoint {
        name: "ritm_remove",
        weight: 2,
        buffers: &[(Map, Change), (EntryResult, Write)],
        refusals: &[],
        call: |b, n| unsafe { ritm_remove(b[0], n[0], b[1]) },
        numbers: key_numbers,
        may_change: removed_place,
    },
    EntryPoint {
        name: "ritm_decode",
        weight: 1,
        buffers: &[(AccessResult, Write)],
        refusals: &[19],
        call: |b, n| unsafe { ritm_decode(n[0] as u32, n[1], n[2], b[0]) },
        numbers: any_numbers,
        may_change: nothing,
    },
    EntryPoint {
        name: "ritm_extend_read_result",
        weight: 1,
        buffers: &[(WordResult, Write)],
        refusals: &[19],
        call: |b, n| unsafe { ritm_extend_read_result(n[0] as u32, n[1], b[0]) },
        numbers: any_numbers,
        may_change: nothing,
    },
    EntryPoint {
        name: "ritm_align_down_to_page",
        weight: 1,
        buffers: &[(WordResult, Write)],
        refusals: &[],
        call: |b, n| unsafe { ritm_align_down_to_page(n[0], b[0]) },
        numbers: any_numbers,
        may_change: nothing,
    },
    EntryPoint {
        name: "ritm_align_up_to_page",
        weight: 1,
        buffers: &[(WordResult, Write)],
        refusals: &[18],
        call: |b, n| unsafe { ritm_align_up_to_page(n[0], b[0]) },
        numbers: any_numbers,
        may_change: nothing,
    },
    EntryPoint {
        name: "ritm_buffer_size",
        weight: 1,
        buffers: &[],
        refusals: &[],
        call: |_, n| unsafe { ritm_buffer_size(n[0]) },
        numbers: |random, _| [random.mostly_below(12), 0, 0, 0, 0],
        may_change: nothing,
    },
];

fn no_numbers(_: &mut Random, _: &[Vec<u8>]) -> Numbers {
    [0; 5]
}

fn any_numbers(random: &mut Random, _: &[Vec<u8>]) -> Numbers {
    std::array::from_fn(|_| random.any())
}

/// Base, size, and the handlers, of which an allowed range takes the first as its attributes.
fn range_numbers(random: &mut Random, _: &[Vec<u8>]) -> Numbers {
    let base = if random.once_in(4) { random.any() } else { random.page() };
    let size = if random.once_in(4) { random.any() } else { 0x1000 * (1 + random.below(3)) };
    [base, size, handler_number(random), handler_number(random), 0]
}

/// Mostly the base and the size of one of the policy's records, held or not.
fn release_numbers(random: &mut Random, before: &[Vec<u8>]) -> Numbers {
    let [base, size, ..] = range_numbers(random, before);
    let list = random.one_of(&LISTS);
    let at = list.at(random.below(list.limit as u64) as usize);
    let base = if random.once_in(8) { base } else { word(&before[0], at) };
    let size = if random.once_in(8) { size } else { word(&before[0], at + 1) };
    [base, size, 0, 0, 0]
}

/// Mostly the number of a handler, at times the first that is none, or any.
fn handler_number(random: &mut Random) -> u64 {
    let handlers = MemoryHandler::ALL.len() as u64;
    if random.once_in(16) {
        handlers
    } else {
        random.mostly_below(handlers)
    }
}

/// Core, index, value.
fn register_numbers(random: &mut Random, _: &[Vec<u8>]) -> Numbers {
    [random.mostly_below(8), random.mostly_below(34), random.any(), 0, 0]
}

/// Key, entry point, context id.
fn key_numbers(random: &mut Random, _: &[Vec<u8>]) -> Numbers {
    [random.mostly_below(12), random.any(), random.any(), 0, 0]
}

/// Mostly an address in one of the policy's regions, at a word of the filtered MMIO page or near
/// one.
fn address(random: &mut Random, policy: &[u8]) -> u64 {
    if random.once_in(4) {
        return random.any();
    }
    let count = word(policy, REGION_COUNT).clamp(1, 16);
    let region = REGIONS + random.below(count) as usize * REGION_WORDS;
    let offset = random.one_of(&[0, 8, 8, 8, 16, 24, 32, 40, 44, 48, 0xfff, 0x1000]);
    word(policy, region).wrapping_add(offset)
}

/// Core, ESR, FIPA, FAR, VBAR.
fn trap_numbers(random: &mut Random, before: &[Vec<u8>]) -> Numbers {
    let ipa = address(random, &before[0]);
    // A FIPA's bits from 52 on do not count.
    let fipa = ipa >> 12 | if random.once_in(4) { random.any() << 52 } else { 0 };
    let far = ipa & 0xfff | random.any() << 12;
    let vbar = if random.once_in(4) { 0 } else { random.any() };
    [random.mostly_below(8), syndrome(random), fipa, far, vbar]
}

/// ESR_EL2, mostly of a class that is expected, and mostly of a 64-bit access where it is an abort.
fn syndrome(random: &mut Random) -> u64 {
    let any_class = random.below(64);
    let class = random.one_of(&[0x16, 0x17, 0x24, 0x24, 0x24, 0x24, 0x25, any_class]);
    let isv = if random.once_in(8) { 0 } else { 1 << 24 };
    let sas = if random.once_in(4) { 0 } else { 3 << 22 };
    let upper = if random.once_in(4) { random.any() << 32 } else { 0 };
    upper | class << 26 | isv | sas | random.below(1 << 24)
}

fn nothing(_: Numbers, _: &[u8], _: usize) -> bool {
    false
}

/// The first free place, and the count.
fn allowed_place(_: Numbers, before: &[u8], k: usize) -> bool {
    let count = word(before, ALLOWED_COUNT) as usize;
    k / ALLOWED_WORDS == count || k == ALLOWED_COUNT
}

/// The free places, and the count.
fn allowed_places(_: Numbers, before: &[u8], k: usize) -> bool {
    let count = word(before, ALLOWED_COUNT) as usize;
    (count..32).contains(&(k / ALLOWED_WORDS)) || k == ALLOWED_COUNT
}

/// The places from the new region's up to the first free one, and the count.
fn region_places(numbers: Numbers, before: &[u8], k: usize) -> bool {
    let place = |region: usize| REGIONS + region * REGION_WORDS;
    let count = word(before, REGION_COUNT) as usize;
    let base_not_below = |region: &usize| word(before, place(*region)) >= numbers[0];
    let new = (0..count).find(base_not_below).unwrap_or(count);
    (place(new)..place(count + 1)).contains(&k) || k == REGION_COUNT
}

/// The named core.
fn core_words(numbers: Numbers, _: &[u8], k: usize) -> bool {
    (k / CORE_WORDS) as u64 == numbers[0]
}

fn core_words_and_counter(numbers: Numbers, before: &[u8], k: usize) -> bool {
    core_words(numbers, before, k) || k == COUNTER
}

/// The place of the first entry with the key.
fn place_of_key(key: u64, map: &[u8]) -> Option<usize> {
    (0..8).find(|place| {
        let at = place * MAP_WORDS;
        word(map, at) == 1 && word(map, at + 1) == key
    })
}

fn removed_place(numbers: Numbers, before: &[u8], k: usize) -> bool {
    Some(k / MAP_WORDS) == place_of_key(numbers[0], before)
}

/// The place of the entry that is removed first, and the first that is then free.
fn inserted_places(numbers: Numbers, before: &[u8], k: usize) -> bool {
    let removed = place_of_key(numbers[0], before);
    let is_free = |place: &usize| Some(*place) == removed || word(before, place * MAP_WORDS) != 1;
    let place = Some(k / MAP_WORDS);
    place == removed || place == (0..8).find(is_free)
}
