//! What RITM is asked where the port takes a call, and how its answer is read as the one that the port owes.
//!
//! Agreement is the first case: RITM is asked the same call, and what it answers and then holds is the port's. Outside
//! document 01's domain RITM has no such call, panics, or answers with a wrapped sum. A change that makes the port
//! depart from the Rust adds its case here: the function identifier is one (document 02's Ask 3), the absent half
//! another (Ask 4), the release of a range a third (Ask 5).

use crate::call::{Answer, Call};
use crate::function::{self, Function};
use crate::ritm_rust::{CORES, DATA_ABORT, HVC, RitmRust, SMC, class, is_guest_call};
use reference::oracle::{self, Half, Reply, Trap};
use ritm::MemoryHandler;
use std::{fmt, mem};

/// The refusals outside document 01's domain.
pub const OUTSIDE: [u64; 10] = [10, 11, 12, 13, 14, 15, 16, 18, 20, 23];

/// The highest address that can be rounded up.
const LAST_PAGE: u64 = 0u64.wrapping_sub(4096);

/// What RITM is asked where the port takes a call.
#[derive(Clone, Debug, Eq, PartialEq)]
#[expect(clippy::large_enum_variant, reason = "one is held at a time")]
pub enum Asked {
    /// Nothing: the port alone takes the call. This refusal is due, and nothing changes.
    Nothing { due: u64 },
    /// This call, whose answer is read in this way.
    Ritm { call: Call, read: Reading },
}

/// How RITM's answer, and the state in which the call leaves RITM, are read as the port's.
#[derive(Clone, Copy, Debug, Eq, PartialEq)]
pub enum Reading {
    /// As they are. So is a call that handles a range with an absent half, for which RITM is given a function: no
    /// answer to that call, and no field of the region but the half, goes by what serves it.
    Same,
    /// As they are, but this is no agreement: the access goes through an absent half, where RITM has our function that
    /// serves quietly. RITM's own case of an absent half is a missing function, at which it injects the abort.
    Quiet,
    /// A guest's call, HVC or SMC, whose x0 has bits set that the port does not read as RITM does: 63:32 or 16. RITM
    /// takes the call with the function identifier in this core's x0, which is then put back. The hint, which RITM does
    /// not have, is added.
    ByIdentifier { core: usize, function: Function },
    /// A release, of which there is no agreement: RITM has none. The refusal of arguments that are those of no range is
    /// its own, and where there is none its builder begins anew and takes the calls that are still held.
    Rebuilt,
}

impl Reading {
    /// How RITM's answer to this call is read, where RITM has the call.
    fn of(call: &Call, rust: &RitmRust) -> Self {
        match *call {
            Call::Trap { core, trap } if is_guest_call(trap) => {
                let core = core as usize;
                let x0 = rust.cores[core].x[0];
                if function::agrees(x0) { Self::Same } else { Self::ByIdentifier { core, function: Function::of(x0) } }
            }
            Call::Trap { trap, .. } if rust.half(trap) == Some(Half::Quiet) => Self::Quiet,
            Call::Release { .. } => Self::Rebuilt,
            _ => Self::Same,
        }
    }
}

impl Asked {
    /// What RITM is asked for this call, as it now stands.
    pub fn of(call: &Call, rust: &mut RitmRust) -> Self {
        match outside(call, rust) {
            Some(due) => Self::Nothing { due },
            None => Self::Ritm { call: call.clone(), read: Reading::of(call, rust) },
        }
    }

    /// Whether RITM is asked at all.
    pub fn of_ritm(&self) -> bool {
        matches!(self, Self::Ritm { .. })
    }

    /// Whether agreement is promised: RITM is asked the call as it stands, with what it has itself, and answers as the
    /// port does.
    pub fn in_agreement(&self) -> bool {
        matches!(self, Self::Ritm { read: Reading::Same, .. })
    }

    /// Asks it, and gives the answer that the port owes. RITM is left with the state that the port must then have: the
    /// mirror is made from it, and the next call starts there.
    pub fn answer(&self, rust: &mut RitmRust) -> Answer {
        match self {
            Self::Nothing { due } => Answer::number(*due),
            Self::Ritm { call, read: Reading::Same | Reading::Quiet | Reading::Rebuilt } => rust.take(call),
            Self::Ritm { call, read: Reading::ByIdentifier { core, function } } => {
                let x0 = mem::replace(&mut rust.cores[*core].x[0], function.identifier);
                let answer = rust.take(call);
                rust.cores[*core].x[0] = x0;
                answer.with_hint(function.hint)
            }
        }
    }
}

/// Who says what the port owes.
impl fmt::Display for Asked {
    fn fmt(&self, f: &mut fmt::Formatter) -> fmt::Result {
        match self {
            Self::Nothing { .. } => f.write_str("due"),
            Self::Ritm { read: Reading::Same, .. } => f.write_str("RITM"),
            Self::Ritm { read: Reading::Quiet, .. } => f.write_str("RITM, given a handler that serves quietly"),
            Self::Ritm { read: Reading::ByIdentifier { function, .. }, .. } => {
                write!(f, "RITM, asked with x0 {:#x}", function.identifier)
            }
            Self::Ritm { read: Reading::Rebuilt, .. } => f.write_str("RITM, built anew from what is still held"),
        }
    }
}

/// The refusal of a call outside document 01's domain, the first one met.
fn outside(call: &Call, rust: &mut RitmRust) -> Option<u64> {
    match *call {
        Call::Handle { read, write, .. } if read.max(write) >= MemoryHandler::ALL.len() as u64 => Some(20),
        Call::Release { base, size }
            if oracle::check_range(base, size) == 0 && rust.released(base, size).is_none() =>
        {
            Some(23)
        }
        Call::Save { core, .. }
        | Call::Trap { core, .. }
        | Call::Reply { core, .. }
        | Call::ReadGpr { core, .. }
        | Call::WriteGpr { core, .. }
            if core >= CORES as u64 =>
        {
            Some(10)
        }
        Call::Save { core, .. } | Call::Trap { core, .. } if rust.waits_for_firmware(core as usize).is_some() => {
            Some(11)
        }
        Call::Trap { core, trap } => outside_trap(rust, core as usize, trap),
        Call::Reply { core, kind, .. } => match rust.waits_for_firmware(core as usize) {
            None => Some(14),
            Some(firmware) if kind > 4 || firmware && !matches!(kind, 1 | 4) => Some(15),
            Some(_) => None,
        },
        Call::Insert { key, .. } if rust.map.places().all(|place| place.is_some_and(|(held, _)| *held != key)) => {
            Some(16)
        }
        Call::AlignUp { address } if address > LAST_PAGE => Some(18),
        _ => None,
    }
}

fn outside_trap(rust: &mut RitmRust, core: usize, trap: Trap) -> Option<u64> {
    match class(trap) {
        HVC | SMC => None,
        DATA_ABORT if trap.vbar == 0 && injects(rust, core, trap) => Some(13),
        DATA_ABORT => None,
        _ => Some(12),
    }
}

/// Whether the abort is injected where there is a vector: asked of a copy of the core.
fn injects(rust: &mut RitmRust, core: usize, trap: Trap) -> bool {
    let counter = rust.oracle.counter();
    let with_vector = Trap { vbar: 1, ..trap };
    let answer = rust.oracle.trap(&mut rust.cores[core].clone(), with_vector, Reply::Unhandled);
    rust.oracle.set_counter(counter);
    answer == oracle::Answer::AbortInjected
}

#[cfg(test)]
mod tests {
    use super::*;
    use crate::generate;
    use crate::port::Port;
    use std::collections::BTreeSet;

    const SEED: u64 = 1;
    const LISTS: u64 = 500;

    /// Bits 63:32 and 16 of x0.
    const ZERO_IN_AGREEMENT: u64 = 0xFFFF_FFFF_0001_0000;

    /// How an answer is to be read, by the bits of x0 and by the port's words.
    #[derive(Debug, Eq, Ord, PartialEq, PartialOrd)]
    enum Due {
        /// A guest's call.
        AsItStands,
        ByIdentifier,
        /// An access through a half with code 0, with a vector or with none.
        Quiet {
            vector: bool,
        },
        /// An access through a half with another code.
        Through(u64),
        /// A release.
        Rebuilt,
        /// Any other call.
        Other,
    }

    impl Due {
        /// Of a call that was not refused; a trap has changed neither x0 nor the policy.
        fn of(call: &Call, port: &Port) -> Self {
            match *call {
                Call::Trap { core, trap } if is_guest_call(trap) => {
                    let agreement = port.x0(core) & ZERO_IN_AGREEMENT == 0;
                    if agreement { Self::AsItStands } else { Self::ByIdentifier }
                }
                Call::Trap { trap, .. } => match port.half_code(trap) {
                    Some(0) => Self::Quiet { vector: trap.vbar != 0 },
                    Some(code) => Self::Through(code),
                    None => Self::Other,
                },
                Call::Release { .. } => Self::Rebuilt,
                _ => Self::Other,
            }
        }

        fn is(&self, read: Reading) -> bool {
            match self {
                Self::ByIdentifier => matches!(read, Reading::ByIdentifier { .. }),
                Self::Quiet { .. } => read == Reading::Quiet,
                Self::Rebuilt => read == Reading::Rebuilt,
                _ => read == Reading::Same,
            }
        }
    }

    /// Document 01's domain, by the port's answers: RITM is asked every call that returns none of the refusals outside,
    /// unchanged, and no other. Its answer is read as it is, but by the identifier where it is asked a guest's call and
    /// bits 63:32 and 16 of x0 are not all zero, as a quiet one where the access goes through a half with code 0, and
    /// as one of a builder made anew where the call is a release. All of these are met.
    #[test]
    fn the_domain_is_document_01s() {
        let mut met = BTreeSet::new();
        let mut met_due = BTreeSet::new();
        for number in 0..LISTS {
            let list = generate::list(SEED, number);
            let mut port = Port::fresh(list.counter);
            let mut rust = RitmRust::fresh(list.counter);
            for call in &list.calls {
                let answer = port.take(call);
                let asked = Asked::of(call, &mut rust);
                if OUTSIDE.contains(&answer.number) {
                    assert_eq!(asked, Asked::Nothing { due: answer.number }, "{call}");
                    met.insert(answer.number);
                } else {
                    let due = Due::of(call, &port);
                    let Asked::Ritm { call: asked_call, read } = &asked else { panic!("RITM is not asked: {call}") };
                    assert!(asked_call == call && due.is(*read), "{due:?}, {read:?}: {call}");
                    assert_eq!(asked.in_agreement(), *read == Reading::Same, "{call}");
                    met_due.insert(due);
                }
                assert_eq!(asked.answer(&mut rust), answer, "{call}");
            }
        }
        assert_eq!(met, BTreeSet::from(OUTSIDE));
        let quiet = [false, true].map(|vector| Due::Quiet { vector });
        let others = [Due::AsItStands, Due::ByIdentifier, Due::Through(1), Due::Through(2), Due::Rebuilt, Due::Other];
        assert_eq!(met_due, quiet.into_iter().chain(others).collect());
    }
}
