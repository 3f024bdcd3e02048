//! RITM's state in the words of the port's buffers, and the comparison with what those hold.

use crate::call::Call;
use crate::port::Port;
use crate::ritm_rust::{CORES, RitmRust};
use reference::oracle::Core;
use std::ops::Range;

/// Words of the port's records, by their order in `include/ritm.h`.
const RANGE: [&str; 4] = ["base", "size", "end", "attributes"];
const REGION: [&str; 5] = ["base", "size", "end", "read", "write"];
const ENTRY: [&str; 4] = ["taken", "key", "entry point", "context id"];
const AFTER_X: [&str; 7] = ["ELR", "SPSR", "ELR_EL1", "SPSR_EL1", "FAR_EL1", "ESR_EL1", "wait"];

pub const MAX_RANGES: usize = 32;
pub const MAX_REGIONS: usize = 16;
const RANGE_COUNT: usize = MAX_RANGES * RANGE.len();
const REGIONS: usize = RANGE_COUNT + 1;
const REGION_COUNT: usize = REGIONS + MAX_REGIONS * REGION.len();
const CORE_WORDS: usize = 31 + AFTER_X.len();
const COUNTER: usize = CORES * CORE_WORDS;
const MAP_WORDS: usize = CORES * ENTRY.len();

/// What the port's buffers must hold. Words past a count and those of a free place are not looked at.
pub struct Mirror {
    policy: [u64; REGION_COUNT + 1],
    cores: [u64; COUNTER + 1],
    map: [u64; MAP_WORDS],
}

/// A core's words but for the last, what it waits for.
pub fn core_words(core: &Core) -> [u64; CORE_WORDS - 1] {
    let mut words = [0; CORE_WORDS - 1];
    words[..31].copy_from_slice(&core.x);
    words[31..].copy_from_slice(&[core.elr, core.spsr, core.elr_el1, core.spsr_el1, core.far_el1, core.esr_el1]);
    words
}

impl Mirror {
    /// Fresh states, but for the counter.
    pub fn fresh(counter: u64) -> Self {
        let mut cores = [0; COUNTER + 1];
        cores[COUNTER] = counter;
        Self { policy: [0; _], cores, map: [0; _] }
    }

    /// Takes over what the call may have changed.
    pub fn follow(&mut self, call: &Call, rust: &RitmRust) {
        match call {
            Call::Allow { .. } | Call::Handle { .. } | Call::Release { .. } => self.follow_policy(rust),
            Call::Insert { .. } | Call::Remove { .. } => self.follow_map(rust),
            _ => {}
        }
        if let Some(core) = call.core() {
            self.follow_core(core as usize, rust);
        }
    }

    fn follow_policy(&mut self, rust: &RitmRust) {
        let mut ranges = 0;
        for range in rust.oracle.ranges() {
            self.policy[ranges * RANGE.len()..][..RANGE.len()].copy_from_slice(&range);
            ranges += 1;
        }
        let mut regions = 0;
        for region in rust.oracle.regions() {
            self.policy[REGIONS + regions * REGION.len()..][..REGION.len()].copy_from_slice(&region);
            regions += 1;
        }
        self.policy[RANGE_COUNT] = ranges as u64;
        self.policy[REGION_COUNT] = regions as u64;
    }

    fn follow_core(&mut self, core: usize, rust: &RitmRust) {
        let words = &mut self.cores[core * CORE_WORDS..][..CORE_WORDS];
        words[..CORE_WORDS - 1].copy_from_slice(&core_words(&rust.cores[core]));
        words[CORE_WORDS - 1] = rust.wait(core);
        self.cores[COUNTER] = rust.oracle.counter();
    }

    fn follow_map(&mut self, rust: &RitmRust) {
        for (place, entry) in rust.map.places().enumerate() {
            let words = entry.map_or([0; 4], |(key, (entry_point, context_id))| [1, *key, *entry_point, *context_id]);
            self.map[place * ENTRY.len()..][..ENTRY.len()].copy_from_slice(&words);
        }
    }

    /// The first word that differs, by its name, with what the port and what RITM has.
    pub fn difference(&self, port: &Port) -> Option<String> {
        let ranges = 0..self.policy[RANGE_COUNT] as usize * RANGE.len();
        let regions = REGIONS..REGIONS + self.policy[REGION_COUNT] as usize * REGION.len();
        let held = [RANGE_COUNT..RANGE_COUNT + 1, REGION_COUNT..REGION_COUNT + 1, ranges, regions];
        let policy: [u64; REGION_COUNT + 1] = port.policy.get_all(0);
        if let Some(k) = held.into_iter().find_map(|places| differing(&policy, &self.policy, places)) {
            return Some(told(&policy_word(k), policy[k], self.policy[k]));
        }
        let cores: [u64; COUNTER + 1] = port.cores.get_all(0);
        if let Some(k) = differing(&cores, &self.cores, 0..COUNTER + 1) {
            return Some(told(&cores_word(k), cores[k], self.cores[k]));
        }
        let k = self.map_place(port)?;
        let name = format!("map place {} {}", k / ENTRY.len(), ENTRY[k % ENTRY.len()]);
        Some(told(&name, port.map.get(k), self.map[k]))
    }

    /// The first word of the map that differs; a free place is compared by its first word alone.
    fn map_place(&self, port: &Port) -> Option<usize> {
        (0..MAP_WORDS).find(|k| {
            let looked_at = k % ENTRY.len() == 0 || self.map[k - k % ENTRY.len()] == 1;
            looked_at && port.map.get(*k) != self.map[*k]
        })
    }
}

/// The first of these places at which the words differ. Mostly none do, which one comparison tells.
fn differing(port: &[u64], rust: &[u64], mut places: Range<usize>) -> Option<usize> {
    if port[places.clone()] == rust[places.clone()] { None } else { places.find(|k| port[*k] != rust[*k]) }
}

fn told(name: &str, port: u64, rust: u64) -> String {
    format!("{name}: port {port:#x}, RITM {rust:#x}")
}

fn policy_word(k: usize) -> String {
    match k {
        RANGE_COUNT => "count of allowed ranges".to_owned(),
        REGION_COUNT => "count of regions".to_owned(),
        0..RANGE_COUNT => format!("allowed range {} {}", k / RANGE.len(), RANGE[k % RANGE.len()]),
        _ => format!("region {} {}", (k - REGIONS) / REGION.len(), REGION[(k - REGIONS) % REGION.len()]),
    }
}

fn cores_word(k: usize) -> String {
    if k == COUNTER {
        return "counter".to_owned();
    }
    match k % CORE_WORDS {
        x @ 0..31 => format!("core {} x{x}", k / CORE_WORDS),
        after => format!("core {} {}", k / CORE_WORDS, AFTER_X[after - 31]),
    }
}

#[cfg(test)]
mod tests {
    use super::*;

    /// The comparison sees each word of the cores and each word that is held of the policy and the map.
    #[test]
    fn each_word_is_compared() {
        let mut port = Port::fresh(5);
        let mut rust = RitmRust::fresh(5);
        let mut mirror = Mirror::fresh(5);
        let calls = [
            Call::Allow { base: 0x1000, size: 0x1000, attributes: 9 },
            Call::Handle { base: 0x3000, size: 0x1000, read: 2, write: 0 },
            Call::Insert { key: 1, entry_point: 2, context_id: 3 },
        ];
        for call in &calls {
            assert_eq!(port.take(call), rust.take(call));
            mirror.follow(call, &rust);
        }
        assert_eq!(mirror.difference(&port), None);
        let changed = |k: usize, change: fn(&mut Port, usize)| {
            let mut other = port.clone();
            change(&mut other, k);
            mirror.difference(&other)
        };
        let change_policy = |port: &mut Port, k: usize| port.policy.put(k, port.policy.get(k) ^ 0x40);
        // A fault becomes absent, and an absent half a fault.
        let change_half = |port: &mut Port, k: usize| port.policy.put(k, 2 - port.policy.get(k));
        let change_cores = |port: &mut Port, k: usize| port.cores.put(k, port.cores.get(k) ^ 0x40);
        let change_map = |port: &mut Port, k: usize| port.map.put(k, port.map.get(k) ^ 0x40);
        let held = (0..RANGE.len()).chain([RANGE_COUNT]).chain(REGIONS..REGIONS + REGION.len()).chain([REGION_COUNT]);
        for k in held {
            assert!(changed(k, change_policy).is_some_and(|text| text.starts_with(&policy_word(k))));
        }
        for k in [REGIONS + 3, REGIONS + 4] {
            assert!(changed(k, change_half).is_some_and(|text| text.starts_with(&policy_word(k))));
        }
        for k in 0..=COUNTER {
            assert!(changed(k, change_cores).is_some_and(|text| text.starts_with(&cores_word(k))));
        }
        for k in (0..ENTRY.len()).chain([ENTRY.len()]) {
            assert!(changed(k, change_map).is_some());
        }
        assert_eq!(changed(ENTRY.len() + 1, change_map), None);
    }
}
