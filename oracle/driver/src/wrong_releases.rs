//! Wrong releases in place of the port's, each of which the comparison must find; and the right one, by which words
//! past a count are compared too.
//!
//! From fresh states no two records have the same base and size: which of two would go is not for lists to show.

use crate::call::{Answer, Call};
use crate::compare::Sides;
use crate::generate;
use crate::port::Port;
use reference::oracle;
use ritm::ffi;

const SEED: u64 = 1;
/// Within how many lists a wrong release must be found.
const LISTS: u64 = 50;

/// A release, by what is wrong with it.
#[derive(Clone, Copy, Debug, Eq, PartialEq)]
enum Release {
    /// Nothing is.
    Right,
    /// The base is looked at alone, or the size.
    ByBase,
    BySize,
    /// Regions are not looked at, or allowed ranges.
    RangesAlone,
    RegionsAlone,
    /// The first record is not looked at, or the last place of a list.
    FirstMissed,
    LastPlaceMissed,
    /// 23 comes before 1 to 4, or 2 before 1.
    NotHeldFirst,
    EmptyFirst,
    /// What is not held is refused, but the last allowed range goes.
    RefusedLoses,
    /// Nothing goes, at all or from a full list.
    AllStay,
    AllOfFullStay,
    /// The last record goes.
    LastGoes,
    /// Zeros stay in its place, and no record moves.
    HoleStays,
    /// The last record moves to its place, and no other moves.
    LastMoves,
    /// The others move but for this word of each.
    WordStays(usize),
    /// The others move, but the count stays.
    CountStays,
    /// The last record of the other list goes too.
    BothLose,
}

const WRONG: [Release; 19] = [
    Release::ByBase,
    Release::BySize,
    Release::RangesAlone,
    Release::RegionsAlone,
    Release::FirstMissed,
    Release::LastPlaceMissed,
    Release::NotHeldFirst,
    Release::EmptyFirst,
    Release::RefusedLoses,
    Release::AllStay,
    Release::AllOfFullStay,
    Release::LastGoes,
    Release::HoleStays,
    Release::LastMoves,
    Release::WordStays(2),
    Release::WordStays(3),
    Release::WordStays(4),
    Release::CountStays,
    Release::BothLose,
];

/// Where the words of a list stand in a policy.
#[derive(Clone, Copy)]
struct Records {
    first: usize,
    words: usize,
    places: usize,
    count: usize,
}

const RANGES: Records = Records { first: 0, words: 4, places: 32, count: 128 };
const REGIONS: Records = Records { first: 129, words: 5, places: 16, count: 209 };

impl Records {
    fn held(self, policy: &ffi::Policy) -> usize {
        policy.get(self.count) as usize
    }

    fn lower_count(self, policy: &mut ffi::Policy) {
        policy.put(self.count, policy.get(self.count).saturating_sub(1));
    }

    fn at(self, place: usize, word: usize) -> usize {
        self.first + place * self.words + word
    }

    fn copy(self, policy: &mut ffi::Policy, from: usize, to: usize, word: usize) {
        policy.put(self.at(to, word), policy.get(self.at(from, word)));
    }
}

impl Release {
    /// Makes the release.
    fn make(self, policy: &mut ffi::Policy, range: [u64; 2]) -> u64 {
        let found = self.find(policy, range);
        let refusal = match range {
            [_, 0] if self == Self::EmptyFirst => 2,
            [base, size] => oracle::check_range(base, size),
        };
        if refusal != 0 && (found.is_some() || self != Self::NotHeldFirst) {
            return refusal;
        }
        let Some((list, place)) = found else {
            if self == Self::RefusedLoses {
                RANGES.lower_count(policy);
            }
            return 23;
        };
        self.close(policy, list, place);
        self.count(policy, list);
        0
    }

    /// The first record with this base and size.
    fn find(self, policy: &ffi::Policy, range: [u64; 2]) -> Option<(Records, usize)> {
        let lists = match self {
            Self::RangesAlone => &[RANGES][..],
            Self::RegionsAlone => &[REGIONS],
            _ => &[RANGES, REGIONS],
        };
        lists.iter().find_map(|list| Some((*list, self.find_in(policy, *list, range)?)))
    }

    fn find_in(self, policy: &ffi::Policy, list: Records, range: [u64; 2]) -> Option<usize> {
        (0..list.held(policy)).find(|place| {
            let [base, size] = [0, 1].map(|word| policy.get(list.at(*place, word)) == range[word]);
            match self {
                Self::ByBase => base,
                Self::BySize => size,
                Self::FirstMissed if *place == 0 => false,
                Self::LastPlaceMissed if *place + 1 == list.places => false,
                _ => base && size,
            }
        })
    }

    /// Writes the places of the list.
    fn close(self, policy: &mut ffi::Policy, list: Records, place: usize) {
        let last = list.held(policy) - 1;
        for word in 0..list.words {
            match self {
                Self::LastGoes | Self::AllStay => {}
                Self::AllOfFullStay if last + 1 == list.places => {}
                Self::WordStays(stays) if stays == word => {}
                Self::HoleStays => policy.put(list.at(place, word), 0),
                Self::LastMoves => list.copy(policy, last, place, word),
                _ => (place..last).for_each(|to| list.copy(policy, to + 1, to, word)),
            }
        }
    }

    /// Writes the counts.
    fn count(self, policy: &mut ffi::Policy, list: Records) {
        match self {
            Self::AllStay | Self::CountStays => {}
            Self::AllOfFullStay if list.held(policy) == list.places => {}
            Self::BothLose => [RANGES, REGIONS].iter().for_each(|list| list.lower_count(policy)),
            _ => list.lower_count(policy),
        }
    }

    /// The port's call, but that a release is this one.
    fn take(self, port: &mut Port, call: &Call) -> Answer {
        match *call {
            Call::Release { base, size } => Answer::number(self.make(&mut port.policy, [base, size])),
            _ => port.take(call),
        }
    }

    /// Whether the comparison finds a difference in a list.
    fn is_found(self, number: u64) -> bool {
        let list = generate::list(SEED, number);
        let mut sides = Sides::fresh(&list);
        list.calls.iter().any(|call| sides.step_by(call, |port| self.take(port, call)).1.is_some())
    }
}

#[test]
fn wrong_releases_are_found() {
    let missed: Vec<Release> =
        WRONG.into_iter().filter(|wrong| !(0..LISTS).any(|number| wrong.is_found(number))).collect();
    assert_eq!(missed, []);
}

/// The right release leaves every word of the policy as the port's does, also those past a count.
#[test]
fn the_right_release_is_the_ports() {
    for number in 0..LISTS {
        let list = generate::list(SEED, number);
        let mut port = Port::fresh(list.counter);
        for call in &list.calls {
            let mut right = port.clone();
            let answer = port.take(call);
            assert_eq!(Release::Right.take(&mut right, call), answer, "{call}");
            assert!(right == port, "the words after {call}");
        }
    }
}
