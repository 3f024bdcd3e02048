//! The edges of releases that lists must meet, counted where RITM's Rust answers.

use crate::asked::Asked;
use crate::call::{Answer, Call, TRAP_KIND};
use crate::generate;
use crate::mirror::{MAX_RANGES, MAX_REGIONS};
use crate::ritm_rust::{CORES, DATA_ABORT, RitmRust, class};
use reference::oracle::Trap;
use std::collections::BTreeSet;

const SEED: u64 = 1;
const LISTS: u64 = 2000;

/// Which list a record stands in.
#[derive(Clone, Copy, Debug, Eq, Ord, PartialEq, PartialOrd)]
enum Kind {
    Range,
    Region,
}

const KINDS: [Kind; 2] = [Kind::Range, Kind::Region];

/// The place of a record in its list.
#[derive(Clone, Copy, Debug, Eq, Ord, PartialEq, PartialOrd)]
enum Place {
    First,
    Between,
    Last,
}

/// What the tests look for.
#[derive(Clone, Copy, Debug, Eq, Ord, PartialEq, PartialOrd)]
enum Edge {
    /// A release with this answer.
    Number(u64),
    /// The release of a record that stands here, of a list that is full or not.
    Released { kind: Kind, full: bool, place: Place },
    /// The release of the only record of a list.
    Only(Kind),
    /// The base of what is held, with another size: not held.
    OtherSize(Kind),
    /// What is gone is not held.
    Gone(Kind),
    /// A list was full, lost a record, and is full again.
    Refilled(Kind),
    /// What was released came again, as what it was or as the other.
    Again { before: Kind, after: Kind },
    /// A region moved down to a place whose read half or write half had another code.
    MovedDown { write: bool, before: u64, after: u64 },
    /// A range or a region came while a core waited for a reply.
    CameMeanwhile(Kind),
    /// A reply to a core that waited while something was released.
    RepliedAfter(Kind),
    /// An access where a region was, with a vector or with none: the abort, or its refusal.
    AbortAfter { store: bool, vector: bool },
}

fn expected() -> BTreeSet<Edge> {
    let mut edges: BTreeSet<Edge> = [0, 1, 2, 3, 4, 23].map(Edge::Number).into();
    for kind in KINDS {
        for place in [Place::First, Place::Between, Place::Last] {
            edges.extend([false, true].map(|full| Edge::Released { kind, full, place }));
        }
        edges.extend([Edge::Only(kind), Edge::OtherSize(kind), Edge::Gone(kind), Edge::Refilled(kind)]);
        edges.extend(KINDS.map(|after| Edge::Again { before: kind, after }));
        edges.extend([Edge::CameMeanwhile(kind), Edge::RepliedAfter(kind)]);
    }
    for (before, after) in [(0, 1), (0, 2), (1, 0), (1, 2), (2, 0), (2, 1)] {
        edges.extend([false, true].map(|write| Edge::MovedDown { write, before, after }));
    }
    let accesses = [(false, false), (false, true), (true, false), (true, true)];
    edges.extend(accesses.map(|(store, vector)| Edge::AbortAfter { store, vector }));
    edges
}

/// A base and a size.
type Range = [u64; 2];

/// The lists that RITM holds.
struct Held {
    ranges: Vec<Range>,
    regions: Vec<[u64; 5]>,
}

impl Held {
    fn by(rust: &RitmRust) -> Self {
        Self { ranges: rust.oracle.ranges().map(first_two).collect(), regions: rust.oracle.regions().collect() }
    }

    fn of(&self, kind: Kind) -> Vec<Range> {
        match kind {
            Kind::Range => self.ranges.clone(),
            Kind::Region => self.regions.iter().copied().map(first_two).collect(),
        }
    }

    fn is_full(&self, kind: Kind) -> bool {
        match kind {
            Kind::Range => self.ranges.len() == MAX_RANGES,
            Kind::Region => self.regions.len() == MAX_REGIONS,
        }
    }
}

fn first_two<const WORDS: usize>(record: [u64; WORDS]) -> Range {
    [record[0], record[1]]
}

/// The cores that wait for a reply.
fn waiting(rust: &RitmRust) -> impl Iterator<Item = usize> {
    (0..CORES).filter(|core| rust.wait(*core) != 0)
}

/// What a list has released so far.
#[derive(Default)]
struct Seen {
    edges: BTreeSet<Edge>,
    gone: Vec<(Kind, Range)>,
    /// Lists that were full and lost a record.
    lost: BTreeSet<Kind>,
    /// What was released while each core waited, as it still does.
    waited: [BTreeSet<Kind>; CORES],
}

impl Seen {
    fn release(&mut self, range: Range, number: u64, before: &Held, after: &RitmRust) {
        self.edges.insert(Edge::Number(number));
        for kind in KINDS {
            let records = before.of(kind);
            match records.iter().position(|record| *record == range) {
                Some(place) => self.released(kind, range, place, before, after),
                None if number == 23 => {
                    let other_size = records.iter().any(|record| record[0] == range[0]);
                    self.edges.extend(other_size.then_some(Edge::OtherSize(kind)));
                    self.edges.extend(self.gone.contains(&(kind, range)).then_some(Edge::Gone(kind)));
                }
                None => {}
            }
        }
    }

    fn released(&mut self, kind: Kind, range: Range, at: usize, before: &Held, after: &RitmRust) {
        let (full, last) = (before.is_full(kind), before.of(kind).len() - 1);
        let place = match at {
            0 => Place::First,
            _ if at == last => Place::Last,
            _ => Place::Between,
        };
        self.edges.insert(if last == 0 { Edge::Only(kind) } else { Edge::Released { kind, full, place } });
        if kind == Kind::Region {
            for (before, after) in before.regions.iter().zip(after.oracle.regions()) {
                let half =
                    |write: bool, word: usize| Edge::MovedDown { write, before: before[word], after: after[word] };
                self.edges.extend([half(false, 3), half(true, 4)]);
            }
        }
        self.gone.push((kind, range));
        self.lost.extend(full.then_some(kind));
        for core in waiting(after) {
            self.waited[core].insert(kind);
        }
    }

    /// A range or a region that was accepted.
    fn built(&mut self, kind: Kind, range: Range, after: &RitmRust) {
        let came_again = self.gone.iter().filter(|(_, gone)| *gone == range);
        self.edges.extend(came_again.map(|(before, _)| Edge::Again { before: *before, after: kind }));
        let refilled = Held::by(after).is_full(kind) && self.lost.remove(&kind);
        self.edges.extend(refilled.then_some(Edge::Refilled(kind)));
        self.edges.extend(waiting(after).next().map(|_| Edge::CameMeanwhile(kind)));
    }

    fn replied(&mut self, core: u64) {
        let waited = std::mem::take(&mut self.waited[core as usize]);
        self.edges.extend(waited.into_iter().map(Edge::RepliedAfter));
    }

    /// A data abort with a syndrome, where no region has the address.
    fn abort(&mut self, trap: Trap, answer: &Answer) {
        let ipa = trap.fipa << 12 | trap.far & 0xFFF;
        let was_in =
            |(kind, [base, size]): &(Kind, Range)| *kind == Kind::Region && (*base..base + size).contains(&ipa);
        if self.gone.iter().any(was_in) {
            let vector = trap.vbar != 0;
            let due = if vector { (0, 3) } else { (13, 0) };
            assert_eq!((answer.number, answer.words()[TRAP_KIND]), due, "the abort comes where a region was");
            self.edges.insert(Edge::AbortAfter { store: trap.esr >> 6 & 1 == 1, vector });
        }
    }
}

/// The edges of a list.
fn edges(number: u64) -> BTreeSet<Edge> {
    let list = generate::list(SEED, number);
    let mut rust = RitmRust::fresh(list.counter);
    let mut seen = Seen::default();
    for call in &list.calls {
        let before = Held::by(&rust);
        let answer = Asked::of(call, &mut rust).answer(&mut rust);
        match *call {
            Call::Release { base, size } => seen.release([base, size], answer.number, &before, &rust),
            Call::Allow { base, size, .. } if answer.number == 0 => seen.built(Kind::Range, [base, size], &rust),
            Call::Handle { base, size, .. } if answer.number == 0 => seen.built(Kind::Region, [base, size], &rust),
            Call::Reply { core, .. } if answer.number == 0 => seen.replied(core),
            Call::Trap { trap, .. } if class(trap) == DATA_ABORT && matches!(answer.number, 0 | 13) => {
                let with_syndrome = trap.esr >> 24 & 1 == 1;
                if with_syndrome && rust.half(trap).is_none() {
                    seen.abort(trap, &answer);
                }
            }
            _ => {}
        }
    }
    seen.edges
}

#[test]
fn lists_meet_the_edges_of_releases() {
    let met: BTreeSet<Edge> = (0..LISTS).flat_map(edges).collect();
    let missed: Vec<Edge> = expected().difference(&met).copied().collect();
    assert_eq!(missed, []);
}
