//! Damage to the bytes of a blob.

use crate::blob::Blob;
use crate::header::{word, Header};
use crate::random::Random;

// Where the header's fields stand.
const TOTALSIZE: usize = 4;
const OFF_DT_STRINGS: usize = 12;
const VERSION: usize = 20;
const LAST_COMP_VERSION: usize = 24;
const SIZE_DT_STRINGS: usize = 32;
const SIZE_DT_STRUCT: usize = 36;
const FIELDS: usize = 10;

pub fn damage(blob: &mut Blob, random: &mut Random) {
    let bytes = &mut blob.bytes;
    match random.below(13) {
        0 | 1 => change_field(bytes, random),
        2 => change_versions(bytes, random),
        3 => cut_structure(bytes, random),
        4 => empty_strings(bytes, random),
        5 => truncate(bytes, random),
        6 => change_byte(bytes, random),
        7 => change_word(bytes, random),
        8 => insert(bytes, random),
        9 => remove(bytes, random),
        10 => change_padding(blob, random),
        11 => unend_string(bytes, random),
        _ => unend_reservations(bytes, random),
    }
}

fn put_word(bytes: &mut [u8], at: usize, word: u32) {
    if let Some(place) = bytes.get_mut(at..at + 4) {
        place.copy_from_slice(&word.to_be_bytes());
    }
}

/// The header, of what may be cut by damage before.
fn header(bytes: &[u8]) -> Option<Header> {
    (bytes.len() >= 4 * FIELDS).then(|| Header::of(bytes))
}

/// A field off by a little, at an edge, any number, or one that wraps around with another.
fn change_field(bytes: &mut [u8], random: &mut Random) {
    let Some(Header { totalsize, off_dt_struct, .. }) = header(bytes) else { return };
    let at = 4 * random.place(FIELDS);
    let old = word(bytes, at);
    let (totalsize, wrapping) = (totalsize as u32, (off_dt_struct as u32).wrapping_neg());
    let near = random.near(old);
    let edges = [0, 39, 40, totalsize, 0x1_0000, 0x1_0001, wrapping, old << 8, old.swap_bytes()];
    let new = if random.once_in(2) { near } else { random.one_of(&edges) };
    put_word(bytes, at, new);
}

fn change_versions(bytes: &mut [u8], random: &mut Random) {
    let at = random.one_of(&[VERSION, LAST_COMP_VERSION]);
    put_word(bytes, at, random.one_of(&[0, 1, 16, 18, 0x1100_0000, u32::MAX]));
}

/// A structure block that ends elsewhere, mostly too early.
fn cut_structure(bytes: &mut [u8], random: &mut Random) {
    let Some(header) = header(bytes) else { return };
    let size = random.place(header.size_dt_struct + 5);
    put_word(bytes, SIZE_DT_STRUCT, size as u32);
}

/// A strings block that is empty, near the blob's end: inside it or not.
fn empty_strings(bytes: &mut [u8], random: &mut Random) {
    let Some(header) = header(bytes) else { return };
    let offset = header.totalsize + random.place(3);
    put_word(bytes, OFF_DT_STRINGS, (offset as u32).wrapping_sub(1));
    put_word(bytes, SIZE_DT_STRINGS, 0);
}

fn truncate(bytes: &mut Vec<u8>, random: &mut Random) {
    let end = if random.once_in(4) { 48 } else { bytes.len() };
    bytes.truncate(random.place(end));
    follow_length(bytes, random);
}

/// Has totalsize say what the slice's length is, as often as not.
fn follow_length(bytes: &mut [u8], random: &mut Random) {
    if random.once_in(2) {
        put_word(bytes, TOTALSIZE, bytes.len() as u32);
    }
}

fn change_byte(bytes: &mut [u8], random: &mut Random) {
    let (flipped, any) = (1 << random.below(8), random.number() as u8);
    let at = random.place(bytes.len());
    if let Some(byte) = bytes.get_mut(at) {
        *byte = random.one_of(&[0, 0xff, *byte ^ flipped, any]);
    }
}

/// A word of the structure block that is a token, or any.
fn change_word(bytes: &mut [u8], random: &mut Random) {
    let Some(header) = header(bytes) else { return };
    let at = header.off_dt_struct + 4 * random.place(header.size_dt_struct / 4);
    let word = if random.once_in(4) { random.number() } else { random.below(10) };
    put_word(bytes, at, word as u32);
}

fn insert(bytes: &mut Vec<u8>, random: &mut Random) {
    let at = random.place(bytes.len() + 1);
    for _ in 0..=random.below(4) {
        bytes.insert(at, random.one_of(&[0, 0, 1, b'a']));
    }
    follow_length(bytes, random);
}

fn remove(bytes: &mut Vec<u8>, random: &mut Random) {
    let start = random.place(bytes.len());
    let end = start + 1 + random.place(4);
    bytes.drain(start..end.min(bytes.len()));
    follow_length(bytes, random);
}

fn change_padding(blob: &mut Blob, random: &mut Random) {
    if blob.padding.is_empty() {
        return;
    }
    let at = random.one_of(&blob.padding);
    if let Some(byte) = blob.bytes.get_mut(at) {
        *byte = random.one_of(&[1, 0x20, 0x80, 0xff]);
    }
}

/// A zero byte of the strings block, mostly the last one, that is one no more.
fn unend_string(bytes: &mut [u8], random: &mut Random) {
    let Some(Header { off_dt_strings, size_dt_strings, .. }) = header(bytes) else { return };
    let Some(strings) = bytes.get_mut(off_dt_strings..off_dt_strings + size_dt_strings) else { return };
    let zeros: Vec<_> = (0..strings.len()).filter(|place| strings[*place] == 0).collect();
    let Some(last) = zeros.last() else { return };
    let at = if random.once_in(4) { random.one_of(&zeros) } else { *last };
    strings[at] = b'x';
}

/// The entry that ends the memory reservations, and ends them no more.
fn unend_reservations(bytes: &mut [u8], random: &mut Random) {
    let Some(Header { off_mem_rsvmap, .. }) = header(bytes) else { return };
    let Some(entries) = bytes.get_mut(off_mem_rsvmap..) else { return };
    let end = entries.chunks_exact_mut(16).find(|entry| entry.iter().all(|byte| *byte == 0));
    if let Some(entry) = end {
        entry[random.place(16)] = 1;
    }
}
