//! Random trees, most of them with memory.

use crate::random::Random;
use crate::ranges::Ranges;
use crate::tree::{Node, Property};

const ADDRESS_CELLS: &[u8] = b"#address-cells";
const SIZE_CELLS: &[u8] = b"#size-cells";
const DEVICE_TYPE: &[u8] = b"device_type";
const REG: &[u8] = b"reg";

/// Names that nobody looks for, some of them near to those that count.
const OTHER_NAMES: [&[u8]; 12] = [
    b"",
    b"compatible",
    b"status",
    b"phandle",
    b"#address-cell",
    b"#address-cells-",
    b"size-cells",
    b"#size-cell",
    b"eg",
    b"regs",
    b"device_typ",
    b"Device_type",
];

/// Values that are near to a memory's device_type.
const OTHER_DEVICE_TYPES: [&[u8]; 9] =
    [b"", b"memory", b"memory\0\0", b"memory\0x\0", b"memorx\0", b"Memory\0", b"memory\x01", b"cpu\0", b"\0memory\0"];

const OTHER_COUNTS: [u32; 9] = [0, 3, 4, 0x0101, 0x0100_0001, 0x0200_0000, 0x8000_0001, 0xffff_fffe, u32::MAX];

fn property(name: &[u8], value: Vec<u8>) -> Property {
    Property { name: name.to_vec(), value }
}

fn other_property(random: &mut Random) -> Property {
    let length = if random.once_in(32) { random.place(200) } else { random.place(10) };
    let name = random.one_of(&OTHER_NAMES);
    property(name, random.bytes(length))
}

/// A name without a zero byte; most are of letters.
fn node_name(random: &mut Random) -> Vec<u8> {
    let length = if random.once_in(16) { random.place(64) } else { random.place(10) };
    let mut bytes = random.bytes(length);
    let any = random.once_in(8);
    bytes.iter_mut().for_each(|byte| *byte = if any { (*byte).max(1) } else { b'a' + *byte % 26 });
    bytes
}

/// Puts a property at a random place.
fn put(random: &mut Random, node: &mut Node, property: Property) {
    let place = random.place(node.properties.len() + 1);
    node.properties.insert(place, property);
}

fn put_others(random: &mut Random, node: &mut Node) {
    for _ in 0..random.below(3) {
        let other = other_property(random);
        put(random, node, other);
    }
}

/// A root with its children.
pub fn root(random: &mut Random) -> Node {
    let mut root = Node::default();
    if random.once_in(24) {
        // No property at all, and so no string.
        root.children.resize(random.place(3), Node::default());
        return root;
    }
    if random.once_in(16) {
        root.name = node_name(random);
    }
    put_others(random, &mut root);
    for name in [ADDRESS_CELLS, SIZE_CELLS] {
        put_cell_counts(random, &mut root, name);
    }
    let cells = (cells(&root, ADDRESS_CELLS, 2), cells(&root, SIZE_CELLS, 1));
    let mut ranges = Ranges::random(random, cells);
    for _ in 0..random.below(6) {
        let child = child(random, &mut ranges, 0);
        root.children.push(child);
    }
    root
}

/// None, one or two properties of the name.
fn put_cell_counts(random: &mut Random, root: &mut Node, name: &[u8]) {
    for _ in 0..random.one_of(&[0, 1, 1, 1, 1, 2]) {
        let value = cell_count(random);
        put(random, root, property(name, value));
    }
}

/// Mostly 1 or 2, in four bytes.
fn cell_count(random: &mut Random) -> Vec<u8> {
    let count = if random.once_in(24) { random.one_of(&OTHER_COUNTS) } else { random.one_of(&[1, 2]) };
    let mut value = count.to_be_bytes().to_vec();
    if random.once_in(48) {
        value.resize(random.one_of(&[0, 1, 3, 5, 8]), 0);
    }
    value
}

/// As many cells as a reg of the root's children is written with.
fn cells(root: &Node, name: &[u8], default: usize) -> usize {
    match root.first(name) {
        Some([0, 0, 0, count @ 1..=4]) => usize::from(*count),
        _ => default,
    }
}

/// A node below the root, memory as often as not.
fn child(random: &mut Random, ranges: &mut Ranges, depth: u64) -> Node {
    let mut node = Node { name: node_name(random), ..Node::default() };
    put_others(random, &mut node);
    if random.once_in(2) {
        put_memory(random, ranges, &mut node);
    } else if random.once_in(4) {
        put_cell_counts(random, &mut node, ADDRESS_CELLS);
        put_reg(random, ranges, &mut node);
    }
    if depth < 4 && random.once_in(4) {
        for _ in 0..=random.below(3) {
            let below = child(random, ranges, depth + 1);
            node.children.push(below);
        }
    }
    node
}

fn put_memory(random: &mut Random, ranges: &mut Ranges, node: &mut Node) {
    for _ in 0..random.one_of(&[1, 1, 1, 1, 2]) {
        let value: &[u8] = if random.once_in(8) { random.one_of(&OTHER_DEVICE_TYPES) } else { b"memory\0" };
        put(random, node, property(DEVICE_TYPE, value.to_vec()));
    }
    for _ in 0..random.one_of(&[0, 1, 1, 1, 1, 1, 1, 2]) {
        put_reg(random, ranges, node);
    }
}

fn put_reg(random: &mut Random, ranges: &mut Ranges, node: &mut Node) {
    let mut value = ranges.reg(random);
    if random.once_in(48) {
        value.resize((value.len() + random.place(9)).saturating_sub(4), 0);
    }
    put(random, node, property(REG, value));
}
