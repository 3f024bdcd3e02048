//! A small generator of numbers, the same for the same seed.

/// Numbers at which something changes: pages, limits, widths.
const EDGES: [u64; 16] = [
    0,
    1,
    7,
    8,
    31,
    32,
    0xfff,
    0x1000,
    0x1001,
    1 << 32,
    1 << 52,
    1 << 63,
    u64::MAX - 0x1fff,
    u64::MAX - 0xfff,
    u64::MAX - 0xffe,
    u64::MAX,
];

/// SplitMix64.
pub struct Random(pub u64);

impl Random {
    pub fn number(&mut self) -> u64 {
        self.0 = self.0.wrapping_add(0x9e37_79b9_7f4a_7c15);
        let mut z = self.0;
        z = (z ^ z >> 30).wrapping_mul(0xbf58_476d_1ce4_e5b9);
        z = (z ^ z >> 27).wrapping_mul(0x94d0_49bb_1331_11eb);
        z ^ z >> 31
    }

    pub fn below(&mut self, limit: u64) -> u64 {
        self.number() % limit
    }

    /// True once in `times` times.
    pub fn once_in(&mut self, times: u64) -> bool {
        self.below(times) == 0
    }

    pub fn one_of<T: Copy>(&mut self, choices: &[T]) -> T {
        choices[self.below(choices.len() as u64) as usize]
    }

    /// Any number, an edge as often as not.
    pub fn any(&mut self) -> u64 {
        if self.once_in(2) {
            self.one_of(&EDGES)
        } else {
            self.number()
        }
    }

    /// Mostly a number below the limit.
    pub fn mostly_below(&mut self, limit: u64) -> u64 {
        if self.once_in(8) {
            self.any()
        } else {
            self.below(limit)
        }
    }

    /// The base of a page, often one of few, at times one of the last.
    pub fn page(&mut self) -> u64 {
        if self.once_in(8) {
            return u64::MAX - 0xfff - self.below(4) * 0x1000;
        }
        let pages = self.one_of(&[16, 256, 0x1_0000]);
        self.below(pages) * 0x1000
    }

    pub fn bytes(&mut self, length: usize) -> Vec<u8> {
        let words = std::iter::repeat_with(|| self.number().to_le_bytes());
        words.flatten().take(length).collect()
    }
}
