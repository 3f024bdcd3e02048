//! One random call, and what must hold of it.

use crate::buffers::{word, Buffer, TRAP_HINT};
use crate::entry_points::{EntryPoint, Numbers, Use, ENTRY_POINTS};
use crate::handlers::{handled_region_fits, Access};
use crate::lent::Lent;
use crate::random::Random;
use crate::release::Release;

/// The sizes that `ritm_buffer_size` gives.
const SIZES: [u64; 10] = [1680, 2440, 256, 264, 144, 160, 24, 24, 48, 8];

/// What is wrong, if anything.
type Checked = Result<(), String>;

fn ensure(holds: bool, fault: impl FnOnce() -> String) -> Checked {
    if holds {
        Ok(())
    } else {
        Err(fault())
    }
}

/// The entry point, its numbers, and what its buffers hold before the call.
pub struct Call {
    pub entry: &'static EntryPoint,
    pub numbers: Numbers,
    before: Vec<Vec<u8>>,
}

/// What the call returned, and what its buffers then hold.
#[derive(PartialEq)]
pub struct Outcome {
    pub number: u64,
    after: Vec<Vec<u8>>,
}

impl Call {
    pub fn random(random: &mut Random) -> Self {
        let entry = random_entry(random);
        let buffers = entry.buffers.iter();
        let before: Vec<_> = buffers.map(|(buffer, _)| buffer.contents(random)).collect();
        let numbers = (entry.numbers)(random, &before);
        Self { entry, numbers, before }
    }

    /// Makes the call twice, with other bytes where it has to write, and checks what it came to.
    pub fn run_and_check(&self, random: &mut Random) -> Result<Outcome, String> {
        let outcome = self.run(random)?;
        self.check(&outcome)?;
        let again = self.with_other_results().run(random)?;
        ensure(again == outcome, || "a second run came to something else".to_string())?;
        Ok(outcome)
    }

    /// The same call where each byte that it has to write holds another value before.
    fn with_other_results(&self) -> Self {
        let mut before = self.before.clone();
        for (bytes, (_, usage)) in before.iter_mut().zip(self.entry.buffers) {
            if *usage == Use::Write {
                bytes.iter_mut().for_each(|byte| *byte = !*byte);
            }
        }
        Self { before, ..*self }
    }

    fn run(&self, random: &mut Random) -> Result<Outcome, String> {
        let before = self.before.iter();
        let mut lent: Vec<_> = before.map(|bytes| Lent::new(bytes, random)).collect();
        let pointers: Vec<_> = lent.iter_mut().map(Lent::pointer).collect();
        let number = (self.entry.call)(&pointers, self.numbers);
        let guards_hold = lent.iter().all(Lent::guards_hold);
        ensure(guards_hold, || "it wrote outside of its buffers".to_string())?;
        let after = lent.into_iter().map(Lent::into_bytes).collect();
        Ok(Outcome { number, after })
    }

    fn check(&self, outcome: &Outcome) -> Checked {
        let number = outcome.number;
        ensure(self.may_return(number), || format!("it returned {number}"))?;
        for (k, (buffer, usage)) in self.entry.buffers.iter().enumerate() {
            let (before, after) = (&self.before[k], &outcome.after[k]);
            let holds = match usage {
                Use::Read => before == after,
                Use::Change if number != 0 => before == after,
                Use::Change => self.changes_fit(before, after),
                Use::Write if number != 0 => after.iter().all(|byte| *byte == 0),
                Use::Write => buffer.result_fits(after),
            };
            ensure(holds, || format!("it returned {number} and left wrong bytes in {buffer:?}"))?;
        }
        ensure(self.handlers_fit(outcome), || format!("it returned {number}, which its handlers do not call for"))?;
        ensure(self.release_fits(outcome), || format!("it returned {number}, and is no such release"))
    }

    /// Whether a handle call stored its region's handlers, and an access went by them.
    fn handlers_fit(&self, outcome: &Outcome) -> bool {
        let (before, after) = (&self.before, &outcome.after);
        if self.entry.name == "ritm_handle_range" && outcome.number == 0 {
            return handled_region_fits(self.numbers, &before[0], &after[0]);
        }
        let kind = self.trap_kind_and_hint(outcome).map_or(0, |(kind, _)| kind);
        self.access(outcome)
            .is_none_or(|access| access.fits(self.numbers, outcome.number, kind, &before[1], &after[1]))
    }

    /// Whether a release gave its very number and left its very bytes.
    fn release_fits(&self, outcome: &Outcome) -> bool {
        self.release().is_none_or(|release| match release.after() {
            Ok(after) => outcome.number == 0 && outcome.after[0] == after,
            Err(number) => outcome.number == number,
        })
    }

    fn may_return(&self, number: u64) -> bool {
        if self.entry.buffers.is_empty() {
            let buffer = self.numbers[0].min(SIZES.len() as u64) as usize;
            number == SIZES.get(buffer).copied().unwrap_or(0)
        } else {
            number == 0 || self.entry.refusals.contains(&number)
        }
    }

    fn changes_fit(&self, before: &[u8], after: &[u8]) -> bool {
        let changed = |k: &usize| word(before, *k) != word(after, *k);
        let mut words = (0..before.len() / 8).filter(changed);
        words.all(|k| (self.entry.may_change)(self.numbers, before, k))
    }

    /// The access to a region that a trap describes, if its core took the trap.
    pub fn access(&self, outcome: &Outcome) -> Option<Access> {
        let was_taken = self.entry.name == "ritm_trap" && [0, 13].contains(&outcome.number);
        was_taken.then(|| Access::of(self.numbers, &self.before[0])).flatten()
    }

    /// The release, if the call is one.
    pub fn release(&self) -> Option<Release<'_>> {
        (self.entry.name == "ritm_release_range").then(|| Release::of(self.numbers, &self.before[0]))
    }

    /// The kind that a trap came to, 0 for a refused one, and its hint.
    pub fn trap_kind_and_hint(&self, outcome: &Outcome) -> Option<(u64, u64)> {
        let mut buffers = self.entry.buffers.iter();
        let place = buffers.position(|(buffer, _)| *buffer == Buffer::TrapResult)?;
        let result = &outcome.after[place];
        Some((word(result, 0), word(result, TRAP_HINT)))
    }
}

fn random_entry(random: &mut Random) -> &'static EntryPoint {
    let mut left = random.below(ENTRY_POINTS.iter().map(|entry| entry.weight).sum());
    for entry in &ENTRY_POINTS {
        if left < entry.weight {
            return entry;
        }
        left -= entry.weight;
    }
    unreachable!("the weights sum to their total")
}
