//! The pairs of a tree's regs: some trees have ranges that can be allowed, others meet refusals.

use crate::random::Random;

const PAGE: u64 = 0x1000;

pub struct Ranges {
    /// How many cells a base and a size have.
    cells: (usize, usize),
    /// At most as many pairs in a reg.
    most: u64,
    /// Whether some pairs cannot be allowed.
    wild: bool,
    /// Where the next range may begin.
    next: u64,
}

impl Ranges {
    pub fn random(random: &mut Random, cells: (usize, usize)) -> Self {
        let most = if random.once_in(16) { 48 } else { random.one_of(&[1, 2, 3, 5]) };
        let next = random.page() % if cells.0 == 1 { 1 << 31 } else { 1 << 52 };
        Self { cells, most, wild: random.once_in(3), next }
    }

    /// The bytes of a reg.
    pub fn reg(&mut self, random: &mut Random) -> Vec<u8> {
        let mut bytes = Vec::new();
        for _ in 0..random.below(self.most + 1) {
            let (base, size) = self.pair(random);
            put_cells(&mut bytes, base, self.cells.0);
            put_cells(&mut bytes, size, self.cells.1);
        }
        bytes
    }

    fn pair(&mut self, random: &mut Random) -> (u64, u64) {
        let base = self.next;
        let size = PAGE * (1 + random.below(3));
        self.next = base + size + PAGE * random.below(2);
        if self.wild && random.once_in(8) {
            spoilt(random, base, size)
        } else {
            (base, size)
        }
    }
}

/// A range that meets one of allow's refusals, or any numbers.
fn spoilt(random: &mut Random, base: u64, size: u64) -> (u64, u64) {
    match random.below(7) {
        0 => (base + 1 + random.below(PAGE - 1), size),
        1 => (base, 0),
        2 => (base, size + 1 + random.below(PAGE - 1)),
        3 => (0u64.wrapping_sub(size), size),
        4 => (base.saturating_sub(PAGE), size),
        5 => (0u64.wrapping_sub(size + PAGE), size),
        _ => (random.any(), random.any()),
    }
}

/// The number's low cells, zeros before them where there are more than two.
fn put_cells(bytes: &mut Vec<u8>, number: u64, cells: usize) {
    let wide = u128::from(number).to_be_bytes();
    bytes.extend(&wide[wide.len() - 4 * cells..]);
}
