//! Devicetrees, whole and damaged: the archive imports what a plain reader of our own finds in them,
//! as if each pair were allowed by a call of its own, and is refused where a rule is broken.
//!
//! The reader follows the readings of the specification's chapter 5 in docs/DECISIONS.md and shares
//! nothing with the library. The seed is fixed; `RITM_SEED` names another.

mod blob;
mod case;
mod chance;
mod damaged_bytes;
mod damaged_parts;
mod edges;
mod fault;
mod grow;
mod header;
#[cfg(feature = "libfdt")]
mod libfdt;
mod memory;
mod met;
mod policies;
#[path = "../any_bytes/random.rs"]
mod random;
mod ranges;
mod strings;
mod tokens;
mod tree;

use case::Case;
use met::Met;
use random::Random;
use std::env;

/// Five in seven are damaged: about a million.
const BLOBS: u64 = 1_400_000;
const DEFAULT_SEED: u64 = 0x5249_544d;

fn seed() -> u64 {
    match env::var("RITM_SEED") {
        Ok(seed) => seed.parse().expect("RITM_SEED is a decimal number"),
        Err(_) => DEFAULT_SEED,
    }
}

/// The generator of one blob, so that each can be made alone.
fn generator(seed: u64, number: u64) -> Random {
    Random(Random(seed ^ number << 32).number())
}

#[test]
fn imports_are_what_the_blobs_say() {
    let seed = seed();
    println!("devicetree: {BLOBS} blobs, seed {seed}");
    let mut met = Met::new();
    for number in 0..BLOBS {
        let case = Case::random(&mut generator(seed, number));
        match case.check() {
            Ok((read, outcome)) => met.count(outcome.number, &read, case.damages),
            Err(wrong) => panic!("seed {seed}, blob {number}: {wrong}"),
        }
    }
    met.print();
    assert!(met.often_enough(), "a fault or a number was met too seldom");
}
