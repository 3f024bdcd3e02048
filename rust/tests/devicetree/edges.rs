//! Blobs at the limits, and every truncation of one.

use crate::blob::Blob;
use crate::case::Case;
use crate::random::Random;
use crate::tokens::{Parts, Token};
use ritm::Policy;
use std::thread;

/// As many bytes of tokens and strings as fit into 64 KiB beside the rest, wherever the blocks stand.
const ROOM: usize = 0x1_0000 - 256;
/// The plain reader calls itself for each level of nodes.
const STACK: usize = 1 << 28;

fn begin(name: &[u8]) -> Token {
    Token::BeginNode(name.to_vec())
}

fn property(nameoff: usize, value: &[u8]) -> Token {
    Token::Prop { length: value.len() as u32, nameoff: nameoff as u32, value: value.to_vec() }
}

/// The blob with these tokens in a root, and what the archive and the plain reader make of it.
fn number(tokens: Vec<Token>, strings: &[u8]) -> u64 {
    let tokens = [vec![begin(b"")], tokens, vec![Token::EndNode, Token::End]].concat();
    let parts = Parts { tokens, strings: strings.to_vec(), reservations: vec![0; 16] };
    let mut random = Random(1);
    let blob = Blob::of(&parts, &mut random);
    checked(&blob.bytes, &mut random)
}

fn checked(slice: &[u8], random: &mut Random) -> u64 {
    match Case::with(slice, Policy::new(), random).check() {
        Ok((_, outcome)) => outcome.number,
        Err(wrong) => panic!("{wrong}"),
    }
}

/// A memory child of default cell counts, whose strings are "device_type" and "reg".
fn memory(reg: &[u8]) -> Vec<Token> {
    vec![begin(b"memory"), property(0, b"memory\0"), property(12, reg), Token::EndNode]
}

const STRINGS: &[u8] = b"device_type\0reg\0";

fn page(k: u32) -> Vec<u8> {
    [0, k << 12, 0x1000].iter().flat_map(|cell| cell.to_be_bytes()).collect()
}

#[test]
fn nodes_as_deep_as_a_blob_has_room_for() {
    let deep = || {
        let levels = ROOM / 12;
        number([vec![begin(b""); levels], vec![Token::EndNode; levels]].concat(), b"")
    };
    let reader = thread::Builder::new().stack_size(STACK).spawn(deep).expect("a thread");
    assert_eq!(reader.join().expect("no panic"), 0);
}

#[test]
fn as_many_nodes_as_a_blob_has_room_for() {
    let nodes = vec![[begin(b""), Token::EndNode]; ROOM / 12 - 10].concat();
    assert_eq!(number([nodes, memory(&page(1))].concat(), STRINGS), 0);
}

#[test]
fn as_many_pairs_as_a_blob_has_room_for() {
    let pages = |count: u32| (0..count).flat_map(page).collect::<Vec<_>>();
    assert_eq!(number(memory(&pages(32)), STRINGS), 0);
    assert_eq!(number(memory(&pages(33)), STRINGS), 5);
    assert_eq!(number(memory(&pages(ROOM as u32 / 12 - 10)), STRINGS), 5);
    assert_eq!(number(memory(&[pages(31), page(30), pages(9)].concat()), STRINGS), 6);
}

#[test]
fn properties_that_all_have_one_long_name() {
    let name = [vec![b'n'; ROOM / 2], vec![0]].concat();
    assert_eq!(number(vec![property(0, b""); ROOM / 24], &name), 0);
}

/// A slice with a small blob that is accepted.
fn small(random: &mut Random) -> Vec<u8> {
    let tokens = [vec![begin(b"")], memory(&page(1)), vec![Token::EndNode, Token::End]].concat();
    let parts = Parts { tokens, strings: STRINGS.to_vec(), reservations: vec![0; 16] };
    Blob::of(&parts, random).bytes
}

#[test]
fn every_truncation_is_refused() {
    let mut random = Random(2);
    let whole = small(&mut random);
    let totalsize = u32::from_be_bytes(whole[4..8].try_into().expect("four bytes")) as usize;
    for length in 0..=whole.len() {
        let expected = if length < totalsize { 21 } else { 0 };
        assert_eq!(checked(&whole[..length], &mut random), expected, "{length} bytes");
    }
}

#[test]
fn every_byte_holds_every_value() {
    let mut random = Random(3);
    let mut bytes = small(&mut random);
    let (mut accepted, mut refused) = (0, 0);
    for at in 0..bytes.len() {
        let held = bytes[at];
        for value in 0..=u8::MAX {
            bytes[at] = value;
            match checked(&bytes, &mut random) {
                21 => refused += 1,
                _ => accepted += 1,
            }
        }
        bytes[at] = held;
    }
    println!("devicetree: a byte changed in {} bytes: 21 for {refused}, not for {accepted}", bytes.len());
    assert!(refused > 1000 && accepted > 1000);
}
