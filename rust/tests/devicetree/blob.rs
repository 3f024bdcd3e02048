//! The parts of a blob at many places.

use crate::random::Random;
use crate::tokens::{Parts, Structure};

const HEADER_SIZE: usize = 40;

// The blocks, and their alignments.
const RESERVATIONS: usize = 0;
const STRUCTURE: usize = 1;
const STRINGS: usize = 2;
const ALIGNMENTS: [usize; 3] = [8, 4, 1];

/// A slice with a blob in it, and where the blob has padding.
pub struct Blob {
    pub bytes: Vec<u8>,
    pub padding: Vec<usize>,
}

impl Blob {
    /// The parts at random places, in a slice that may be longer.
    pub fn of(parts: &Parts, random: &mut Random) -> Self {
        let length = Structure::of(&parts.tokens, 0).bytes.len();
        let layout = Layout::random([parts.reservations.len(), length, parts.strings.len()], random);
        let named = layout.named(random);
        let moved = layout.blocks[STRINGS].offset - named[STRINGS].offset;
        let structure = Structure::of(&parts.tokens, moved as u32);
        let bytes = layout.fill([&parts.reservations, &structure.bytes, &parts.strings], &named, random);
        let start = layout.blocks[STRUCTURE].offset;
        Self { bytes, padding: structure.padding.iter().map(|place| start + place).collect() }
    }
}

#[derive(Clone, Copy, Default)]
struct Block {
    offset: usize,
    size: usize,
}

/// Where the blocks stand.
struct Layout {
    blocks: [Block; 3],
    totalsize: usize,
}

impl Layout {
    /// Blocks after each other in any order, often with gaps; rarely one that is not aligned.
    fn random(sizes: [usize; 3], random: &mut Random) -> Self {
        let mut order = [RESERVATIONS, STRUCTURE, STRINGS];
        if random.once_in(2) {
            order.swap(0, random.place(3));
            order.swap(1, random.place(3));
        }
        let mut layout = Self { blocks: [Block::default(); 3], totalsize: HEADER_SIZE };
        for block in order {
            layout.leave_gap(random);
            layout.align(ALIGNMENTS[block], random);
            layout.blocks[block] = Block { offset: layout.totalsize, size: sizes[block] };
            layout.totalsize += sizes[block];
        }
        layout.leave_gap(random);
        layout.come_to_limit(random);
        layout
    }

    fn leave_gap(&mut self, random: &mut Random) {
        if random.once_in(4) {
            self.totalsize += random.place(24);
        }
    }

    fn align(&mut self, alignment: usize, random: &mut Random) {
        self.totalsize = self.totalsize.next_multiple_of(alignment);
        if random.once_in(128) {
            self.totalsize += random.place(alignment);
        }
    }

    /// At times a totalsize near to 64 KiB.
    fn come_to_limit(&mut self, random: &mut Random) {
        if random.once_in(256) {
            let limit = random.one_of(&[0xffff, 0x1_0000, 0x1_0001, 0x1_0010]);
            self.totalsize = self.totalsize.max(limit);
        }
    }

    /// The blocks that the header names: these, at times others that have them in them, and so
    /// overlap with other blocks or the header.
    fn named(&self, random: &mut Random) -> [Block; 3] {
        let mut named = self.blocks;
        if random.once_in(8) {
            named[STRINGS] = wider(named[STRINGS], self.totalsize, random);
        }
        if random.once_in(8) {
            let offset = &mut named[RESERVATIONS].offset;
            *offset -= 16 * random.place(*offset / 16 + 1);
        }
        named
    }

    /// The header, the blocks, anything in the gaps, and at times more bytes after the blob.
    fn fill(&self, contents: [&[u8]; 3], named: &[Block; 3], random: &mut Random) -> Vec<u8> {
        let mut bytes = vec![0; self.totalsize];
        if random.once_in(2) {
            bytes = random.bytes(self.totalsize);
        }
        copy(&mut bytes, 0, &header(self.totalsize, named, random));
        for (block, content) in self.blocks.iter().zip(contents) {
            copy(&mut bytes, block.offset, content);
        }
        if random.once_in(4) {
            let most = if random.once_in(64) { 0x1_0000 } else { 40 };
            let more = random.place(most);
            bytes.extend(random.bytes(more));
        }
        bytes
    }
}

fn copy(bytes: &mut [u8], at: usize, content: &[u8]) {
    bytes[at..at + content.len()].copy_from_slice(content);
}

/// A block that has another in it and lies inside the blob.
fn wider(block: Block, totalsize: usize, random: &mut Random) -> Block {
    let end = block.offset + block.size;
    let offset = random.place(block.offset + 1);
    Block { offset, size: end + random.place(totalsize - end + 1) - offset }
}

fn header(totalsize: usize, named: &[Block; 3], random: &mut Random) -> Vec<u8> {
    let version = if random.once_in(8) { random.one_of(&[18, 0x100, u32::MAX]) } else { 17 };
    let last_comp_version = if random.once_in(8) { random.one_of(&[0, 2, 17]) } else { 16 };
    let fields = [
        0xd00d_feed,
        totalsize as u32,
        named[STRUCTURE].offset as u32,
        named[STRINGS].offset as u32,
        named[RESERVATIONS].offset as u32,
        version,
        last_comp_version,
        random.any() as u32,
        named[STRINGS].size as u32,
        named[STRUCTURE].size as u32,
    ];
    fields.iter().flat_map(|field| field.to_be_bytes()).collect()
}
