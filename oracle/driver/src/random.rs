//! Random numbers from a seed, weighted to the edges.

/// What the filtered MMIO page takes, by a store at offset 8.
pub const FILTERED_MMIO_STORE: u64 = 0x1234_5678_9ABC_DEF0;

/// Numbers at which something changes: pages, widths, wraps of ELR, VBAR and the counter, the firmware's calls.
const EDGES: [u64; 40] = [
    0,
    1,
    2,
    3,
    4,
    7,
    8,
    16,
    0x7F,
    0x80,
    0xFF,
    0xFFF,
    0x1000,
    0x1001,
    0x7FFF,
    0x8000,
    0xFFFF,
    0x7FFF_FFFF,
    0x8000_0000,
    0x83FF_FFFF,
    0x8400_0000,
    0x8400_001F,
    0x8400_0020,
    0xC3FF_FFFF,
    0xC400_0000,
    0xC400_001F,
    0xC400_0020,
    0xFFFF_FFFF,
    0x1_0000_0000,
    0x1_8400_0000,
    FILTERED_MMIO_STORE,
    i64::MAX as u64,
    1 << 63,
    0u64.wrapping_sub(0x1001),
    0u64.wrapping_sub(0x1000),
    0u64.wrapping_sub(0x200),
    0u64.wrapping_sub(4),
    0u64.wrapping_sub(3),
    0u64.wrapping_sub(2),
    u64::MAX,
];

/// The generator SplitMix64.
pub struct Random(u64);

impl Random {
    /// The numbers of one list of a seed.
    pub fn new(seed: u64, list: u64) -> Self {
        let mut mixed = Self(seed);
        let start = mixed.next();
        Self(start ^ list.wrapping_mul(0xD134_2543_DE82_EF95))
    }

    /// Any 64 bits.
    pub fn next(&mut self) -> u64 {
        self.0 = self.0.wrapping_add(0x9E37_79B9_7F4A_7C15);
        let mut z = self.0;
        z = (z ^ z >> 30).wrapping_mul(0xBF58_476D_1CE4_E5B9);
        z = (z ^ z >> 27).wrapping_mul(0x94D0_49BB_1331_11EB);
        z ^ z >> 31
    }

    /// A number below the limit.
    pub fn below(&mut self, limit: u64) -> u64 {
        ((u128::from(self.next()) * u128::from(limit)) >> 64) as u64
    }

    /// Once in so many times.
    pub fn once_in(&mut self, times: u64) -> bool {
        self.below(times) == 0
    }

    /// One of these.
    pub fn pick<T: Copy>(&mut self, choices: &[T]) -> T {
        choices[self.below(choices.len() as u64) as usize]
    }

    /// One of these, each with its weight: the heavier the more often.
    pub fn weighted<T: Copy>(&mut self, choices: &[(u64, T)]) -> T {
        let mut left = self.below(choices.iter().map(|(weight, _)| weight).sum());
        for (weight, choice) in choices {
            match left.checked_sub(*weight) {
                Some(rest) => left = rest,
                None => return *choice,
            }
        }
        unreachable!("the number is below the sum of the weights")
    }

    /// A word, often an edge.
    pub fn word(&mut self) -> u64 {
        match self.below(8) {
            0..=2 => self.pick(&EDGES),
            3 => self.below(0x100),
            4 => (1 << self.below(64)) - self.below(2),
            5 => self.next() >> 32,
            _ => self.next(),
        }
    }

    /// A word of few digits, or an edge.
    pub fn short_word(&mut self) -> u64 {
        match self.below(8) {
            0 => self.pick(&EDGES),
            1 => self.next(),
            _ => self.below(0x10),
        }
    }

    /// Puts these in any order.
    pub fn shuffle<T>(&mut self, items: &mut [T]) {
        for last in (1..items.len()).rev() {
            items.swap(last, self.below(last as u64 + 1) as usize);
        }
    }
}
