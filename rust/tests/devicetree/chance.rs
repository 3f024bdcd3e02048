//! What the generators of trees and damage draw, besides numbers.

use crate::random::Random;

impl Random {
    /// A place below the limit, and 0 where there is none.
    pub fn place(&mut self, limit: usize) -> usize {
        self.below(limit.max(1) as u64) as usize
    }

    /// A number off by a little, an edge, or any.
    pub fn near(&mut self, number: u32) -> u32 {
        let step = self.one_of(&[1, 2, 3, 4, 8, 16]);
        match self.below(6) {
            0 | 1 => number.wrapping_add(step),
            2 | 3 => number.wrapping_sub(step),
            4 => self.any() as u32,
            _ => step.wrapping_neg(),
        }
    }
}
