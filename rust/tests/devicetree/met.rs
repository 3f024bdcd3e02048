//! How often each fault and each number was met: a run that misses one shows nothing of it.

use crate::fault::Fault;
use crate::memory::Read;
use std::collections::BTreeMap;

/// How often a run must meet each, and each fault by blobs that were damaged at most once.
const AT_LEAST: u64 = 300;

pub struct Met {
    numbers: BTreeMap<u64, u64>,
    /// Imports that allowed a range or more.
    with_ranges: u64,
    /// In all, and by blobs that were not damaged or only once.
    faults: BTreeMap<Fault, (u64, u64)>,
}

impl Met {
    pub fn new() -> Self {
        Self {
            numbers: (0..=7).chain(21..=22).map(|number| (number, 0)).collect(),
            with_ranges: 0,
            faults: Fault::ALL.iter().map(|fault| (*fault, (0, 0))).collect(),
        }
    }

    pub fn count(&mut self, number: u64, read: &Read, damages: u64) {
        *self.numbers.get_mut(&number).expect("an import's number") += 1;
        match read {
            Ok(pairs) => self.with_ranges += u64::from(number == 0 && !pairs.is_empty()),
            Err(fault) => {
                let (all, once) = self.faults.get_mut(fault).expect("all faults are there");
                *all += 1;
                *once += u64::from(damages <= 1);
            }
        }
    }

    pub fn print(&self) {
        let numbers: Vec<_> = self.numbers.iter().map(|(number, times)| format!("{number}: {times}")).collect();
        println!("devicetree: numbers: {}", numbers.join(", "));
        println!("devicetree: imports that allowed ranges: {}", self.with_ranges);
        let faults = self.faults.iter().map(|(fault, (all, once))| format!("{fault:?}: {all} ({once})"));
        let faults: Vec<_> = faults.collect();
        println!("devicetree: faults (with one damage at most): {}", faults.join(", "));
    }

    pub fn often_enough(&self) -> bool {
        self.with_ranges >= AT_LEAST
            && self.numbers.values().all(|times| *times >= AT_LEAST)
            && self.faults.values().all(|(_, once)| *once >= AT_LEAST)
    }
}
