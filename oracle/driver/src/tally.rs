//! How often each answer was met.

use crate::asked::{Asked, OUTSIDE, Reading};
use crate::call::{Answer, Call, TRAP_HINT, TRAP_KIND};
use crate::compare::Step;
use crate::ritm_rust::{Released, is_guest_call};
use reference::oracle::Half;
use std::collections::BTreeMap;
use std::fmt;

/// The numbers of refusals up to the last, and 0.
const NUMBERS: usize = 24;
/// The refusals that RITM gives.
const DOMAIN: [u64; 11] = [1, 2, 3, 4, 5, 6, 7, 8, 9, 17, 19];
const TRAPS: [&str; 5] = ["load handled", "store handled", "abort injected", "to the firmware", "to the platform"];
/// What the halves are, by their codes.
const HALVES: [&str; 3] = ["0, quiet", "1, the page", "2, fault"];

/// What is released.
const RELEASED: [&str; 2] = ["allowed range", "region"];

/// How often a number was returned.
type Times = [u64; NUMBERS];

/// What came of the calls of one name.
#[derive(Default)]
struct Counts {
    /// Those that RITM was asked.
    compared: Times,
    /// Those that the port took alone.
    alone: Times,
    /// Find, look-up and remove that found something.
    found: u64,
}

/// Guests' calls, HVC and SMC, by what RITM was asked.
#[derive(Default)]
struct GuestCalls {
    /// In the agreement: x0 as it stands.
    as_it_stands: u64,
    by_identifier: u64,
    /// Of the latter, those with hint 1.
    hinted: u64,
}

/// Accesses that are answered, by the code of the half that they go through: loads handled, stores handled, aborts
/// injected.
#[derive(Default)]
struct Accesses([[u64; 3]; HALVES.len()]);

/// Releases that are accepted, by what is released: all, those from a full list, and those while a core waits.
#[derive(Default)]
struct Releases([[u64; 3]; RELEASED.len()]);

/// Counts of answers.
#[derive(Default)]
pub struct Tally {
    pub lists: u64,
    pub calls: u64,
    by_name: BTreeMap<&'static str, Counts>,
    traps: [u64; TRAPS.len()],
    guest_calls: GuestCalls,
    accesses: Accesses,
    releases: Releases,
    replies: [u64; 5],
}

impl GuestCalls {
    fn count(&mut self, asked: &Asked, answer: &Answer) {
        match asked {
            Asked::Nothing { .. } | Asked::Ritm { read: Reading::Quiet | Reading::Rebuilt, .. } => {}
            Asked::Ritm { read: Reading::Same, .. } => self.as_it_stands += 1,
            Asked::Ritm { read: Reading::ByIdentifier { .. }, .. } => {
                self.by_identifier += 1;
                self.hinted += u64::from(answer.words()[TRAP_HINT] == 1);
            }
        }
    }
}

impl fmt::Display for GuestCalls {
    fn fmt(&self, f: &mut fmt::Formatter) -> fmt::Result {
        let calls = self.as_it_stands + self.by_identifier;
        writeln!(f, "{calls} calls of guests, HVC and SMC, by what RITM was asked:")?;
        writeln!(f, "  {:>15} {:>12}", "x0 as it stands", self.as_it_stands)?;
        writeln!(f, "  {:>15} {:>12}", "the identifier", self.by_identifier)?;
        writeln!(f, "  {:>15} {:>12}", "of these hint 1", self.hinted)
    }
}

impl Accesses {
    fn count(&mut self, half: Half, answer: &Answer) {
        let kind = answer.words()[TRAP_KIND].wrapping_sub(1) as usize;
        if let Some(counted) = self.0[half as usize].get_mut(kind) {
            *counted += 1;
        }
    }
}

impl fmt::Display for Accesses {
    fn fmt(&self, f: &mut fmt::Formatter) -> fmt::Result {
        let accesses: u64 = self.0.iter().flatten().sum();
        writeln!(f, "{accesses} accesses to regions, by the half: loads handled, stores handled, aborts injected:")?;
        for (name, [loads, stores, aborts]) in HALVES.iter().zip(self.0) {
            writeln!(f, "  {name:>15} {loads:>12} {stores:>12} {aborts:>12}")?;
        }
        Ok(())
    }
}

impl Releases {
    fn count(&mut self, released: Released) {
        let [all, full, waiting] = &mut self.0[usize::from(released.region)];
        *all += 1;
        *full += u64::from(released.full);
        *waiting += u64::from(released.waiting);
    }
}

impl fmt::Display for Releases {
    fn fmt(&self, f: &mut fmt::Formatter) -> fmt::Result {
        let releases: u64 = self.0.iter().map(|[all, ..]| all).sum();
        writeln!(f, "{releases} releases, RITM built anew for each: all, from a full list, while a core waits:")?;
        for (name, [all, full, waiting]) in RELEASED.iter().zip(self.0) {
            writeln!(f, "  {name:>15} {all:>12} {full:>12} {waiting:>12}")?;
        }
        Ok(())
    }
}

impl Tally {
    /// Counts a call and what came of it.
    pub fn count(&mut self, call: &Call, step: &Step) {
        self.calls += 1;
        let answer = &step.port;
        let counts = self.by_name.entry(call.name()).or_default();
        let times = if step.asked.of_ritm() { &mut counts.compared } else { &mut counts.alone };
        if let Some(counted) = times.get_mut(answer.number as usize) {
            *counted += 1;
        }
        if answer.number != 0 {
            return;
        }
        match *call {
            Call::Trap { trap, .. } => {
                if let Some(counted) = self.traps.get_mut(answer.words()[TRAP_KIND].wrapping_sub(1) as usize) {
                    *counted += 1;
                }
                if is_guest_call(trap) {
                    self.guest_calls.count(&step.asked, answer);
                } else if let Some(half) = step.half {
                    self.accesses.count(half, answer);
                }
            }
            Call::Find { .. } | Call::LookUp { .. } | Call::Remove { .. } => counts.found += answer.words()[0],
            Call::Reply { kind, .. } => self.replies[kind as usize] += 1,
            Call::Release { .. } => {
                if let Some(released) = step.released {
                    self.releases.count(released);
                }
            }
            _ => {}
        }
    }

    /// How often each number was returned by calls that RITM was asked, and by those that the port took alone.
    fn compared(&self) -> Times {
        sum(self.by_name.values().map(|counts| &counts.compared))
    }

    fn alone(&self) -> Times {
        sum(self.by_name.values().map(|counts| &counts.alone))
    }

    /// Each answer that RITM gives, with how often it was met.
    fn answers(&self) -> Vec<(String, u64)> {
        let compared = self.compared();
        let numbers = [0].into_iter().chain(DOMAIN).map(|number| (number.to_string(), compared[number as usize]));
        let traps = TRAPS.iter().zip(self.traps).map(|(name, times)| ((*name).to_owned(), times));
        numbers.chain(traps).collect()
    }

    /// The answer met least often.
    pub fn fewest(&self) -> (String, u64) {
        self.answers().into_iter().min_by_key(|(_, times)| *times).expect("there are answers")
    }

    /// A line of the calls of one name.
    fn write_calls(&self, f: &mut fmt::Formatter, name: &str, counts: &Counts) -> fmt::Result {
        let times = sum([&counts.compared, &counts.alone].into_iter());
        write!(f, "  {name:>15} {:>12}:", times.iter().sum::<u64>())?;
        for (number, times) in times.iter().enumerate().filter(|(_, times)| **times > 0) {
            write!(f, " {number}: {times}")?;
        }
        match name {
            "find" | "look-up" | "remove" => writeln!(f, " ({} found)", counts.found),
            "reply" => writeln!(f, " (kinds 0 to 4: {:?})", self.replies),
            _ => writeln!(f),
        }
    }
}

fn sum<'a>(all: impl Iterator<Item = &'a Times>) -> Times {
    all.fold([0; NUMBERS], |sums, times| std::array::from_fn(|number| sums[number] + times[number]))
}

impl fmt::Display for Tally {
    fn fmt(&self, f: &mut fmt::Formatter) -> fmt::Result {
        let [compared, alone] = [self.compared(), self.alone()];
        writeln!(f, "{} calls compared with RITM, by their answers:", compared.iter().sum::<u64>())?;
        for (answer, times) in self.answers() {
            writeln!(f, "  {answer:>15} {times:>12}")?;
        }
        write!(f, "{}{}{}", self.guest_calls, self.accesses, self.releases)?;
        writeln!(
            f,
            "{} calls that RITM is not asked, refused by the port with nothing changed:",
            alone.iter().sum::<u64>()
        )?;
        for number in OUTSIDE {
            writeln!(f, "  {number:>15} {:>12}", alone[number as usize])?;
        }
        writeln!(f, "By call:")?;
        for (name, counts) in &self.by_name {
            self.write_calls(f, name, counts)?;
        }
        let (answer, times) = self.fewest();
        write!(f, "Met least often of RITM's answers: {answer}, {times} times.")
    }
}
