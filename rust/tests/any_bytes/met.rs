//! How often each answer was met: a run that misses one shows nothing of it.

use crate::call::{Call, Outcome};
use crate::entry_points::ENTRY_POINTS;
use crate::release::SHOWN;
use std::collections::BTreeMap;
use std::fmt::Display;

/// How often each answer must be met.
const AT_LEAST: u64 = 100;

type Counts<K> = BTreeMap<K, u64>;

pub struct Met {
    refusals: Counts<u64>,
    kinds: Counts<u64>,
    /// Of the calls that are forwarded, those with the hint.
    hinted_kinds: Counts<u64>,
    /// Of the traps, accesses to a region, by direction and handler.
    accesses: Counts<String>,
    /// Of the releases, what they show.
    releases: Counts<&'static str>,
    accepted: Counts<&'static str>,
}

impl Met {
    pub fn new() -> Self {
        Self {
            refusals: (1..=23).map(|number| (number, 0)).collect(),
            kinds: (1..=5).map(|kind| (kind, 0)).collect(),
            hinted_kinds: (4..=5).map(|kind| (kind, 0)).collect(),
            accesses: access_names().map(|name| (name, 0)).collect(),
            releases: SHOWN.iter().map(|(name, _)| (*name, 0)).collect(),
            accepted: ENTRY_POINTS.iter().map(|entry| (entry.name, 0)).collect(),
        }
    }

    pub fn count(&mut self, call: &Call, outcome: &Outcome) {
        if let Some((kind, hint)) = call.trap_kind_and_hint(outcome) {
            self.kinds.entry(kind).and_modify(|times| *times += 1);
            self.hinted_kinds.entry(kind).and_modify(|times| *times += hint);
        }
        if let Some(access) = call.access(outcome) {
            self.accesses.entry(access.name()).and_modify(|times| *times += 1);
        }
        if let Some(release) = call.release() {
            release.shown().for_each(|name| *self.releases.entry(name).or_default() += 1);
        }
        let is_size = call.entry.buffers.is_empty();
        let times = if outcome.number == 0 || is_size {
            self.accepted.get_mut(call.entry.name)
        } else {
            self.refusals.get_mut(&outcome.number)
        };
        *times.expect("the answer is one that the call may give") += 1;
    }

    pub fn print(&self) {
        print_counts("refusals", &self.refusals);
        print_counts("kinds of trap", &self.kinds);
        print_counts("kinds of trap with the hint", &self.hinted_kinds);
        print_counts("accesses by handler", &self.accesses);
        print_counts("releases", &self.releases);
        print_counts("accepted", &self.accepted);
    }

    pub fn often_enough(&self) -> bool {
        let kinds = self.kinds.values().chain(self.hinted_kinds.values()).chain(self.accesses.values());
        let counts = self.refusals.values().chain(kinds).chain(self.releases.values());
        counts.chain(self.accepted.values()).all(|times| *times >= AT_LEAST)
    }
}

fn access_names() -> impl Iterator<Item = String> {
    let handlers = ["0", "1", "2", "unknown"];
    ["load", "store"].into_iter().flat_map(move |direction| handlers.map(|handler| format!("{direction} {handler}")))
}

fn print_counts<K: Display>(name: &str, counts: &Counts<K>) {
    let counts: Vec<_> = counts.iter().map(|(key, times)| format!("{key}: {times}")).collect();
    println!("any bytes: {name}: {}", counts.join(", "));
}
