//! RITM's own Rust, as the side with which the port is compared.

use crate::call::{Answer, Call, MAX_WORDS, TRAP_HINT, TRAP_KIND, TRAP_VALUES};
use crate::mirror::{MAX_RANGES, MAX_REGIONS};
use memory_access::{MemoryAccess, MemoryAccessKind};
use reference::hypervisor::SuspendMap;
use reference::oracle::{self, Core, Half, Oracle, Reply, Trap};
use reference::stage2::{align_down_to_page, align_up_to_page};
use std::mem;

/// How many cores there are.
pub const CORES: usize = 8;

/// The exception classes that RITM handles.
pub const HVC: u64 = 0x16;
pub const SMC: u64 = 0x17;
pub const DATA_ABORT: u64 = 0x24;

/// Where a result has a flag: something was found.
const FOUND: u64 = 1;

/// A call that a core has made and that is not replied to.
///
/// RITM calls out within one function, so its trap is taken twice: on a copy of the core, with a reply that the
/// recipient may give, to see what is handed out; and with the reply that then comes, to see what that changes.
#[derive(Clone, Copy)]
struct Forwarded {
    trap: Trap,
    /// The x0 that RITM was asked with, by which it chooses the recipient.
    x0: u64,
    firmware: bool,
}

impl Forwarded {
    /// The code by which the port says what the core waits for.
    fn wait(self) -> u64 {
        let conduit = if class(self.trap) == HVC { 0 } else { 2 };
        conduit + if self.firmware { 1 } else { 2 }
    }
}

/// What a release takes away: the first allowed range with its base and size, else the first such region.
#[derive(Clone, Copy, Debug, Eq, PartialEq)]
pub struct Released {
    /// The place of its call among those held.
    at: usize,
    pub region: bool,
    /// Whether its list is full, and whether a core waits for a reply meanwhile.
    pub full: bool,
    pub waiting: bool,
}

/// RITM's state, and what the port adds to it: what each core waits for, and what can be released.
pub struct RitmRust {
    pub oracle: Oracle,
    pub map: SuspendMap,
    pub cores: [Core; CORES],
    forwarded: [Option<Forwarded>; CORES],
    /// The allow and handle calls that RITM accepted and whose ranges were not released since, in order of arrival.
    held: Vec<Call>,
}

/// EC, ESR_EL2's bits 31:26.
pub fn class(trap: Trap) -> u64 {
    trap.esr >> 26 & 0x3F
}

/// Whether the trap is a guest's call, which x0 names.
pub fn is_guest_call(trap: Trap) -> bool {
    matches!(class(trap), HVC | SMC)
}

impl RitmRust {
    /// Fresh states, but for the counter.
    pub fn fresh(counter: u64) -> Self {
        Self {
            oracle: Oracle::fresh(counter),
            map: SuspendMap::new(),
            cores: [Core::default(); CORES],
            forwarded: [None; CORES],
            held: Vec::new(),
        }
    }

    /// What a core waits for, as the port's code.
    pub fn wait(&self, core: usize) -> u64 {
        self.forwarded[core].map_or(0, Forwarded::wait)
    }

    /// Whether a core waits for the firmware; none if it waits for nothing.
    pub fn waits_for_firmware(&self, core: usize) -> Option<bool> {
        self.forwarded[core].map(|call| call.firmware)
    }

    /// The half that an access goes through: of a data abort with ISV set, at an address that a region has.
    pub fn half(&self, trap: Trap) -> Option<Half> {
        if class(trap) != DATA_ABORT {
            return None;
        }
        let access = MemoryAccess::decode(trap.esr as u32, trap.fipa, trap.far, |_| Some(0))?;
        let [read, write] = self.oracle.halves_at(access.ipa)?;
        Some(if access.kind == MemoryAccessKind::Read { read } else { write })
    }

    /// Takes a call as it is, which RITM must have: it panics where RITM does.
    pub fn take(&mut self, call: &Call) -> Answer {
        match *call {
            Call::Allow { base, size, attributes } => {
                let number = self.oracle.allow_range(base, size, attributes);
                self.built(call, number)
            }
            Call::Handle { base, size, read, write } => {
                let [read, write] = [read, write].map(|code| Half::of_code(code).expect("a half has this code"));
                let number = self.oracle.handle_range(base, size, read, write);
                self.built(call, number)
            }
            Call::Release { base, size } => self.release(base, size),
            Call::Find { ipa } => self.find(ipa),
            Call::Save { core, ref registers } => self.save(core as usize, registers),
            Call::Trap { core, trap } => self.trap(core as usize, trap),
            Call::Reply { core, kind, ref values, error } => {
                self.reply(core as usize, reply_of_kind(kind, values, error))
            }
            Call::ReadGpr { core, index } => match oracle::read_gpr(&self.cores[core as usize], index) {
                Some(value) => Answer::accepted(&[value]),
                None => Answer::number(17),
            },
            Call::WriteGpr { core, index, value } => {
                let written = oracle::write_gpr(&mut self.cores[core as usize], index, value);
                Answer::number(if written { 0 } else { 17 })
            }
            Call::Insert { key, entry_point, context_id } => {
                self.map.insert(key, (entry_point, context_id));
                Answer::number(0)
            }
            Call::LookUp { key } => entry(self.map.get_mut(&key).copied()),
            Call::Remove { key } => entry(self.map.remove(&key)),
            Call::Decode { iss, fipa, far } => decode(iss, fipa, far),
            Call::Extend { iss, value } => match MemoryAccess::decode(iss, 0, 0, |_| Some(0)) {
                Some(access) => Answer::accepted(&[access.extend_read_result(value)]),
                None => Answer::number(19),
            },
            Call::AlignDown { address } => Answer::accepted(&[align_down_to_page(address as usize) as u64]),
            Call::AlignUp { address } => Answer::accepted(&[align_up_to_page(address as usize) as u64]),
        }
    }

    /// The number of a builder's call, which is held if it was accepted.
    fn built(&mut self, call: &Call, number: u64) -> Answer {
        if number == 0 {
            self.held.push(call.clone());
        }
        Answer::number(number)
    }

    /// What a release of this range takes away, by the calls that are held; none if no range or region has both.
    pub fn released(&self, base: u64, size: u64) -> Option<Released> {
        let range = [base, size];
        let is_allowed = |call: &Call| matches!(*call, Call::Allow { base, size, .. } if [base, size] == range);
        let is_handled = |call: &Call| matches!(*call, Call::Handle { base, size, .. } if [base, size] == range);
        let allowed = self.held.iter().position(is_allowed);
        let region = allowed.is_none();
        let at = allowed.or_else(|| self.held.iter().position(is_handled))?;
        let full = if region {
            self.oracle.regions().count() == MAX_REGIONS
        } else {
            self.oracle.ranges().count() == MAX_RANGES
        };
        Some(Released { at, region, full, waiting: self.forwarded.iter().any(Option::is_some) })
    }

    /// RITM has no release. Its own checks of a range come first; then its builder begins anew, and takes the calls
    /// that are still held again, in order of arrival. That it accepts each of them, and then holds what the port
    /// holds, is what is promised of a release.
    fn release(&mut self, base: u64, size: u64) -> Answer {
        let number = oracle::check_range(base, size);
        if number == 0 {
            let released = self.released(base, size).expect("RITM is asked for a release of what is held");
            let mut held = mem::take(&mut self.held);
            held.remove(released.at);
            self.oracle.begin_anew();
            for call in &held {
                assert_eq!(self.take(call).number, 0, "RITM takes what is still held again: {call}");
            }
        }
        Answer::number(number)
    }

    /// The place of the region and the offset, as the port has them; RITM's match holds the region itself.
    fn find(&self, ipa: u64) -> Answer {
        let found = self.oracle.find(ipa).and_then(|(base, offset)| {
            let place = self.oracle.regions().position(|region| region[0] == base)?;
            Some([FOUND, place as u64, offset])
        });
        Answer::accepted(&found.unwrap_or_default())
    }

    /// What the hardware does: RITM has no such function.
    fn save(&mut self, core: usize, registers: &[u64; 33]) -> Answer {
        let core = &mut self.cores[core];
        core.x.copy_from_slice(&registers[..31]);
        [core.elr, core.spsr] = [registers[31], registers[32]];
        Answer::number(0)
    }

    fn trap(&mut self, at: usize, trap: Trap) -> Answer {
        // One value: a reply that the firmware may give, and the platform too.
        let mut core = self.cores[at];
        let answer = self.oracle.trap(&mut core, trap, Reply::One(0));
        let x0 = self.cores[at].x[0];
        match answer {
            oracle::Answer::ToFirmware(_) => self.forwarded[at] = Some(Forwarded { trap, x0, firmware: true }),
            oracle::Answer::ToPlatform(_) => self.forwarded[at] = Some(Forwarded { trap, x0, firmware: false }),
            _ => self.cores[at] = core,
        }
        trap_answer(&answer)
    }

    /// RITM's trap again, on the core as it now is and with this reply. Its x0 may be another than the one that RITM
    /// was asked with, which chose the recipient and is put back: every reply writes x0.
    fn reply(&mut self, at: usize, reply: Reply) -> Answer {
        let call = self.forwarded[at].take().expect("RITM is asked for a reply where a core waits for one");
        self.cores[at].x[0] = call.x0;
        let answer = self.oracle.trap(&mut self.cores[at], call.trap, reply);
        let firmware = matches!(answer, oracle::Answer::ToFirmware(_));
        assert_eq!(firmware, call.firmware, "RITM forwards the same call to the same recipient");
        Answer::number(0)
    }
}

/// The kind and the values of a trap's answer. RITM has no hint: it is 0.
fn trap_answer(answer: &oracle::Answer) -> Answer {
    let (kind, values) = match answer {
        oracle::Answer::LoadHandled => (1, &[0; 18]),
        oracle::Answer::StoreHandled => (2, &[0; 18]),
        oracle::Answer::AbortInjected => (3, &[0; 18]),
        oracle::Answer::ToFirmware(values) => (4, values),
        oracle::Answer::ToPlatform(values) => (5, values),
    };
    let mut words = [0; MAX_WORDS];
    words[TRAP_KIND] = kind;
    words[TRAP_VALUES..TRAP_HINT].copy_from_slice(values);
    Answer::accepted(&words)
}

fn reply_of_kind(kind: u64, values: &[u64; 18], error: i32) -> Reply {
    match kind {
        0 => Reply::Unhandled,
        1 => Reply::One(values[0]),
        2 => Reply::Four([values[0], values[1], values[2], values[3]]),
        3 => Reply::Eighteen(*values),
        4 => Reply::Error(error),
        _ => unreachable!("RITM is not asked for a reply of kind {kind}"),
    }
}

fn entry(found: Option<(u64, u64)>) -> Answer {
    Answer::accepted(&found.map_or([0; 3], |(entry_point, context_id)| [FOUND, entry_point, context_id]))
}

fn decode(iss: u32, fipa: u64, far: u64) -> Answer {
    let Some(access) = MemoryAccess::decode(iss, fipa, far, |_| Some(0)) else {
        return Answer::number(19);
    };
    Answer::accepted(&[
        access.ipa,
        access.width.bits().into(),
        matches!(access.kind, MemoryAccessKind::Write { .. }).into(),
        access.register_index as u64,
        access.sign_extend.into(),
        access.register_width_64.into(),
    ])
}
