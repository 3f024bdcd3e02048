//! Cuts a list that shows a difference down to a short one.

use crate::call::{Call, List};

/// The shortest list that is had by leaving calls out, as long as `differs` holds of what is left: first runs of calls,
/// each half as long as the last, then single calls, until none can be left out. The counter becomes 0 where that does.
pub fn shrink(list: &List, differs: impl Fn(&List) -> bool) -> List {
    let mut short = list.clone();
    let mut run = short.calls.len().div_ceil(2).max(1);
    loop {
        let removed = remove_runs(&mut short, run, &differs);
        if run == 1 && !removed {
            break;
        }
        run = run.div_ceil(2);
    }
    let from_zero = List { counter: 0, ..short.clone() };
    if differs(&from_zero) { from_zero } else { short }
}

/// Leaves out every run of this length that can be; whether there was one.
fn remove_runs(list: &mut List, run: usize, differs: impl Fn(&List) -> bool) -> bool {
    let mut removed = false;
    let mut at = 0;
    while at < list.calls.len() {
        let end = (at + run).min(list.calls.len());
        let calls: Vec<Call> = [&list.calls[..at], &list.calls[end..]].concat();
        let shorter = List { counter: list.counter, calls };
        if differs(&shorter) {
            *list = shorter;
            removed = true;
        } else {
            at = end;
        }
    }
    removed
}

#[cfg(test)]
mod tests {
    use super::*;

    fn made_up(keys: std::ops::Range<u64>) -> List {
        List { counter: 7, calls: keys.map(|key| Call::LookUp { key }).collect() }
    }

    /// A difference that needs three calls in their order.
    fn differs(list: &List) -> bool {
        let wanted = [3, 50, 199];
        let found = list.calls.iter().filter(|call| wanted.iter().any(|key| **call == Call::LookUp { key: *key }));
        found.count() == wanted.len()
    }

    #[test]
    fn three_calls_of_two_hundred_stay() {
        let short = shrink(&made_up(0..200), differs);
        let calls = [3, 50, 199].map(|key| Call::LookUp { key }).to_vec();
        assert_eq!(short, List { counter: 0, calls });
    }

    #[test]
    fn a_counter_that_is_needed_stays() {
        let short = shrink(&made_up(0..9), |list| list.counter == 7 && list.calls.len() >= 2);
        assert_eq!((short.counter, short.calls.len()), (7, 2));
    }
}
