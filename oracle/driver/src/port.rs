//! The proved port, through its C interface.

use crate::call::{Answer, Call};
#[cfg(test)]
use reference::oracle::Trap;
use ritm::ffi;

/// What each word of a result buffer holds before a call, which writes it whole.
const STALE: u64 = 0xA5A5_A5A5_A5A5_A5A5;
/// The word of the counter, the last.
pub const COUNTER: usize = ffi::CORES_SIZE / 8 - 1;

/// The states that a host lends.
#[derive(Clone, Eq, PartialEq)]
pub struct Port {
    pub policy: ffi::Policy,
    pub cores: ffi::Cores,
    pub map: ffi::SuspendMap,
}

impl Port {
    /// Fresh states, but for the counter.
    pub fn fresh(counter: u64) -> Self {
        let mut port = Self { policy: [STALE; _].into(), cores: [STALE; _].into(), map: [STALE; _].into() };
        let numbers = [
            ffi::ritm_fresh_policy(&mut port.policy),
            ffi::ritm_fresh_cores(&mut port.cores),
            ffi::ritm_fresh_map(&mut port.map),
        ];
        assert_eq!(numbers, [0; 3], "the calls for fresh states have no refusal");
        port.cores.put(COUNTER, counter);
        port
    }

    /// Makes the call.
    pub fn take(&mut self, call: &Call) -> Answer {
        match call {
            Call::Allow { .. } | Call::Handle { .. } | Call::Release { .. } | Call::Find { .. } => {
                self.take_policy_call(call)
            }
            Call::Insert { .. } | Call::LookUp { .. } | Call::Remove { .. } => self.take_map_call(call),
            Call::Decode { .. } | Call::Extend { .. } | Call::AlignDown { .. } | Call::AlignUp { .. } => {
                take_stateless_call(call)
            }
            _ => self.take_core_call(call),
        }
    }

    /// A core's x0, for the tests.
    #[cfg(test)]
    pub fn x0(&self, core: u64) -> u64 {
        self.cores.get(38 * core as usize)
    }

    /// The code of the half that a data abort's access goes through, by the port's words and the bits of the trap: for
    /// the tests, which judge by it what the driver decides by RITM's functions.
    #[cfg(test)]
    pub fn half_code(&self, trap: Trap) -> Option<u64> {
        let [class, isv, wnr] = [trap.esr >> 26 & 0x3F, trap.esr >> 24 & 1, trap.esr >> 6 & 1];
        let ipa = trap.fipa << 12 | trap.far & 0xFFF;
        let mut regions = (0..self.policy.get(209) as usize).map(|place| self.policy.get_all::<5>(129 + 5 * place));
        let [.., read, write] = regions.find(|[base, _, end, ..]| (*base..*end).contains(&ipa))?;
        (class == 0x24 && isv == 1).then_some(if wnr == 1 { write } else { read })
    }

    fn take_policy_call(&mut self, call: &Call) -> Answer {
        let policy = &mut self.policy;
        match *call {
            Call::Allow { base, size, attributes } => {
                Answer::number(ffi::ritm_allow_range(policy, base, size, attributes))
            }
            Call::Handle { base, size, read, write } => {
                Answer::number(ffi::ritm_handle_range(policy, base, size, read, write))
            }
            Call::Release { base, size } => Answer::number(ffi::ritm_release_range(policy, base, size)),
            Call::Find { ipa } => answered(|found| ffi::ritm_find(policy, ipa, found)),
            _ => unreachable!("a call of the policy"),
        }
    }

    fn take_core_call(&mut self, call: &Call) -> Answer {
        let cores = &mut self.cores;
        match *call {
            Call::Save { core, ref registers } => Answer::number(ffi::ritm_save(cores, core, &(*registers).into())),
            Call::Trap { core, trap } => answered(|trapped| {
                ffi::ritm_trap(&self.policy, cores, core, trap.esr, trap.fipa, trap.far, trap.vbar, trapped)
            }),
            Call::Reply { core, kind, ref values, error } => {
                Answer::number(ffi::ritm_reply(cores, core, kind, &(*values).into(), error))
            }
            Call::ReadGpr { core, index } => answered(|word| ffi::ritm_read_gpr(cores, core, index, word)),
            Call::WriteGpr { core, index, value } => Answer::number(ffi::ritm_write_gpr(cores, core, index, value)),
            _ => unreachable!("a call of a core"),
        }
    }

    fn take_map_call(&mut self, call: &Call) -> Answer {
        let map = &mut self.map;
        match *call {
            Call::Insert { key, entry_point, context_id } => {
                Answer::number(ffi::ritm_insert(map, key, entry_point, context_id))
            }
            Call::LookUp { key } => answered(|entry| ffi::ritm_get(map, key, entry)),
            Call::Remove { key } => answered(|entry| ffi::ritm_remove(map, key, entry)),
            _ => unreachable!("a call of the map"),
        }
    }
}

fn take_stateless_call(call: &Call) -> Answer {
    match *call {
        Call::Decode { iss, fipa, far } => answered(|access| ffi::ritm_decode(iss, fipa, far, access)),
        Call::Extend { iss, value } => answered(|word| ffi::ritm_extend_read_result(iss, value, word)),
        Call::AlignDown { address } => answered(|word| ffi::ritm_align_down_to_page(address, word)),
        Call::AlignUp { address } => answered(|word| ffi::ritm_align_up_to_page(address, word)),
        _ => unreachable!("a call without state"),
    }
}

/// A call with a result buffer.
fn answered<B, const WORDS: usize>(call: impl FnOnce(&mut B) -> u64) -> Answer
where
    B: From<[u64; WORDS]> + Into<[u64; WORDS]>,
{
    let mut result = [STALE; WORDS].into();
    let number = call(&mut result);
    Answer::new(number, &result.into())
}
