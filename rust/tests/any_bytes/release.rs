//! Releases: what one must come to, word by word, and which of its rules it shows.

use crate::buffers::{is_code, put, word, List, ALLOWED, HANDLED, LISTS};
use crate::entry_points::Numbers;

/// The code of the fault, which an unknown one means too.
const FAULT: u64 = 2;

const NOT_HELD: u64 = 23;

/// A release from the policy in these bytes. The record that goes has a list and a place, or there is
/// the number of the refusal.
pub struct Release<'a> {
    base: u64,
    size: u64,
    before: &'a [u8],
    goes: Result<(&'static List, usize), u64>,
}

impl<'a> Release<'a> {
    pub fn of(numbers: Numbers, before: &'a [u8]) -> Self {
        let [base, size, ..] = numbers;
        let mut release = Self { base, size, before, goes: Err(NOT_HELD) };
        release.goes = match range_refusal(base, size) {
            Some(number) => Err(number),
            None => LISTS.into_iter().find_map(|list| Some((list, release.first(list)?))).ok_or(NOT_HELD),
        };
        release
    }

    /// Whether a record has its base and its size.
    fn is_of(&self, list: &List, place: usize) -> bool {
        let at = list.at(place);
        word(self.before, at) == self.base && word(self.before, at + 1) == self.size
    }

    fn first(&self, list: &List) -> Option<usize> {
        (0..list.held(self.before)).find(|place| self.is_of(list, *place))
    }

    /// The policy that it leaves, or the number of its refusal.
    pub fn after(&self) -> Result<Vec<u8>, u64> {
        let (list, _) = self.goes?;
        let mut after = self.before.to_vec();
        for (k, there, moved) in self.moved_words() {
            put(&mut after, k, if is_code(k) { stored_code(there, moved) } else { moved });
        }
        put(&mut after, list.count, list.held(self.before) as u64 - 1);
        Ok(after)
    }

    /// The words that those behind the record move to: their places, what they hold and what comes.
    fn moved_words(&self) -> impl Iterator<Item = (usize, u64, u64)> + '_ {
        let (start, end, words) = match self.goes {
            Ok((list, place)) => (list.at(place), list.at(list.held(self.before) - 1), list.words),
            Err(_) => (0, 0, 0),
        };
        (start..end).map(move |k| (k, word(self.before, k), word(self.before, k + words)))
    }

    /// Of the list that a record leaves, the places from the record's up to the last but one, and the
    /// count.
    pub fn may_change(&self, k: usize) -> bool {
        self.moved_words().any(|(moved, ..)| k == moved) || self.goes.is_ok_and(|(list, _)| k == list.count)
    }

    fn leaves(&self, list: &List) -> bool {
        self.goes.is_ok_and(|(left, _)| left.count == list.count)
    }

    /// Whether more than one record of the list has its base and its size.
    fn has_another(&self, list: &List) -> bool {
        (0..list.held(self.before)).filter(|place| self.is_of(list, *place)).count() > 1
    }

    fn count_is_above(&self, list: &List) -> bool {
        word(self.before, list.count) > list.limit as u64
    }

    fn has_another_end(&self) -> bool {
        self.goes.is_ok_and(|(list, place)| word(self.before, list.at(place) + 2) != self.base + self.size)
    }

    /// Whether a code of a region is moved to where such a one stands.
    fn moves_code(&self, is_such: fn(u64, u64) -> bool) -> bool {
        self.moved_words().any(|(k, there, moved)| is_code(k) && is_such(there, moved))
    }

    fn is_refused_by_its_size(&self) -> bool {
        let has_base =
            |list: &List| (0..list.held(self.before)).any(|place| word(self.before, list.at(place)) == self.base);
        self.goes.is_err_and(|number| number == NOT_HELD) && LISTS.into_iter().any(has_base)
    }

    /// The names of what it shows.
    pub fn shown(&self) -> impl Iterator<Item = &'static str> + '_ {
        SHOWN.iter().filter(|(_, holds)| holds(self)).map(|(name, _)| *name)
    }
}

/// A name, and whether a release shows it.
type Rule = (&'static str, fn(&Release) -> bool);

/// What releases may show.
pub const SHOWN: [Rule; 11] = [
    ("range", |release| release.leaves(&ALLOWED)),
    ("region", |release| release.leaves(&HANDLED)),
    ("first of two ranges", |release| release.leaves(&ALLOWED) && release.has_another(&ALLOWED)),
    ("first of two regions", |release| release.leaves(&HANDLED) && release.has_another(&HANDLED)),
    ("range before region", |release| release.leaves(&ALLOWED) && release.first(&HANDLED).is_some()),
    ("range of a count above 32", |release| release.leaves(&ALLOWED) && release.count_is_above(&ALLOWED)),
    ("region of a count above 16", |release| release.leaves(&HANDLED) && release.count_is_above(&HANDLED)),
    ("whatever its end", |release| release.has_another_end()),
    ("code that stays", |release| {
        release.moves_code(|there, moved| there != moved && stored_code(there, moved) == there)
    }),
    ("unknown code as 2", |release| release.moves_code(|there, moved| moved > FAULT && there < FAULT)),
    ("23 for its size", |release| release.is_refused_by_its_size()),
];

/// Refusals 1 to 4.
fn range_refusal(base: u64, size: u64) -> Option<u64> {
    let refusals = [base % 0x1000 != 0, size == 0, size % 0x1000 != 0, base.checked_add(size).is_none()];
    (1..).zip(refusals).find_map(|(number, is_met)| is_met.then_some(number))
}

/// The code that stands for a moved region's: the one that was there, if it means the same.
fn stored_code(there: u64, moved: u64) -> u64 {
    if there.min(FAULT) == moved.min(FAULT) {
        there
    } else {
        moved.min(FAULT)
    }
}
