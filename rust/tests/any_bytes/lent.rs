//! Memory that is lent to the archive.

use crate::random::Random;

const GUARD: usize = 64;

/// A buffer at any alignment, with guard bytes before and after it.
pub struct Lent {
    memory: Vec<u8>,
    start: usize,
    end: usize,
}

impl Lent {
    pub fn new(bytes: &[u8], random: &mut Random) -> Self {
        let start = GUARD + random.below(8) as usize;
        let end = start + bytes.len();
        let mut memory: Vec<u8> = (0..end + GUARD).map(guard_byte).collect();
        memory[start..end].copy_from_slice(bytes);
        Self { memory, start, end }
    }

    pub fn pointer(&mut self) -> *mut u8 {
        self.memory.as_mut_ptr().wrapping_add(self.start)
    }

    pub fn guards_hold(&self) -> bool {
        let mut guards = (0..self.start).chain(self.end..self.memory.len());
        guards.all(|i| self.memory[i] == guard_byte(i))
    }

    pub fn into_bytes(mut self) -> Vec<u8> {
        self.memory.truncate(self.end);
        self.memory.split_off(self.start)
    }
}

fn guard_byte(i: usize) -> u8 {
    (i as u8).wrapping_mul(31) ^ 0xa5
}
