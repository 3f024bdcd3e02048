//! Any bytes and any numbers: each entry point returns a number of its own, leaves every state as
//! it was when it refuses, writes its results whole, and writes nothing else. Regions go by their
//! handlers' codes, whatever these are, and a release leaves the very words that it must.
//!
//! The seed is fixed; `RITM_SEED` names another.

mod blob;
mod buffers;
mod call;
mod entry_points;
mod handlers;
mod lent;
mod met;
mod random;
mod raw;
mod release;

use call::Call;
use met::Met;
use random::Random;
use std::env;

const CALLS: u64 = 1_000_000;
const DEFAULT_SEED: u64 = 0x5249_544d;

fn seed() -> u64 {
    match env::var("RITM_SEED") {
        Ok(seed) => seed.parse().expect("RITM_SEED is a decimal number"),
        Err(_) => DEFAULT_SEED,
    }
}

#[test]
fn any_call_answers_or_refuses() {
    let seed = seed();
    println!("any bytes: {CALLS} calls, each twice, seed {seed}");
    let mut random = Random(seed);
    let mut met = Met::new();
    for number in 0..CALLS {
        let call = Call::random(&mut random);
        match call.run_and_check(&mut random) {
            Ok(outcome) => met.count(&call, &outcome),
            Err(fault) => panic!("seed {seed}, call {number}: {} with {:x?}: {fault}", call.entry.name, call.numbers),
        }
    }
    met.print();
    assert!(met.often_enough(), "an answer was met too seldom");
}
