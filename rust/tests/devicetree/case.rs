//! One slice and one policy, what must come of them, and what the archive makes of them.

use crate::blob::Blob;
use crate::grow;
use crate::memory::{pairs, Pair, Read};
use crate::policies::random_policy;
use crate::random::Random;
use crate::tokens::Parts;
use crate::{damaged_bytes, damaged_parts};
use ritm::{Policy, Refusal};

pub struct Case {
    memory: Vec<u8>,
    /// Where the slice begins in memory: its address is not judged.
    start: usize,
    policy: Policy,
    attributes: u64,
    /// How often the blob was damaged.
    pub damages: u64,
}

/// What an import came to.
#[derive(Debug, PartialEq)]
pub struct Outcome {
    pub number: u64,
    policy: Policy,
}

impl Case {
    /// A slice with a blob in it, whole or damaged.
    pub fn random(random: &mut Random) -> Self {
        let damages = random.one_of(&[0, 0, 1, 1, 1, 2, 4]);
        let to_parts = random.below(damages + 1);
        let mut parts = Parts::of(&grow::root(random), random);
        (0..to_parts).for_each(|_| damaged_parts::damage(&mut parts, random));
        let mut blob = Blob::of(&parts, random);
        (to_parts..damages).for_each(|_| damaged_bytes::damage(&mut blob, random));
        Self { damages, ..Self::with(&blob.bytes, random_policy(random), random) }
    }

    /// The slice of these bytes.
    pub fn with(bytes: &[u8], policy: Policy, random: &mut Random) -> Self {
        let start = random.below(8) as usize;
        let memory = [&vec![0; start], bytes].concat();
        Self { memory, start, policy, attributes: random.mostly_below(0x800), damages: 0 }
    }

    pub fn slice(&self) -> &[u8] {
        &self.memory[self.start..]
    }

    /// What the archive makes of it must be what the plain reader and single calls make of it.
    pub fn check(&self) -> Result<(Read, Outcome), String> {
        let read = pairs(self.slice());
        let (expected, got) = (self.expected(&read), self.imported());
        if got == expected {
            return Ok((read, got));
        }
        let (number, wanted) = (got.number, expected.number);
        let slice: String = self.slice().iter().map(|byte| format!("{byte:02x}")).collect();
        Err(format!("{read:x?}: the archive returned {number}, expected is {wanted} (or policies differ): {slice}"))
    }

    fn imported(&self) -> Outcome {
        let mut policy = self.policy.clone();
        let number = number(policy.import_memory(self.slice(), self.attributes));
        Outcome { number, policy }
    }

    fn expected(&self, read: &Read) -> Outcome {
        match read {
            Ok(pairs) => self.allowed(pairs),
            Err(fault) => self.refused(fault.number()),
        }
    }

    /// All pairs allowed one by one, or none of them.
    fn allowed(&self, pairs: &[Pair]) -> Outcome {
        let mut policy = self.policy.clone();
        for (base, size) in pairs {
            match number(policy.allow_range(*base, *size, self.attributes)) {
                0 => {}
                number => return self.refused(number),
            }
        }
        Outcome { number: 0, policy }
    }

    fn refused(&self, number: u64) -> Outcome {
        Outcome { number, policy: self.policy.clone() }
    }
}

fn number(answer: Result<(), Refusal>) -> u64 {
    answer.err().map_or(0, Refusal::number)
}
