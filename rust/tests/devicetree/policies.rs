//! Policies to import into: fresh ones, built ones, and any bytes.

use crate::random::Random;
use ritm::{ffi, MemoryAccessHandler, Policy};

const ALLOWED_COUNT: usize = 128;
const REGION_COUNT: usize = 209;
const COUNTS: [u64; 9] = [0, 1, 2, 16, 17, 31, 32, 33, u64::MAX];

pub fn random_policy(random: &mut Random) -> Policy {
    match random.below(8) {
        0..=2 => Policy::new(),
        3..=6 => built(random),
        _ => any_bytes(random),
    }
}

/// A policy after some calls, whose refusals do not matter, and at times one that is nearly full.
fn built(random: &mut Random) -> Policy {
    let mut policy = Policy::new();
    let calls = if random.once_in(8) { 36 } else { random.below(4) };
    for _ in 0..calls {
        let _ = policy.allow_range(random.page(), 0x1000, random.any());
        if random.once_in(2) {
            let _ = policy.handle_range(random.page(), 0x1000, MemoryAccessHandler::FILTERED_MMIO);
        }
    }
    policy
}

/// Random words, as often as not with counts that are near to their limits.
fn any_bytes(random: &mut Random) -> Policy {
    let bytes = random.bytes(ffi::POLICY_SIZE).try_into().expect("as many bytes");
    let mut policy = ffi::Policy::from_bytes(bytes);
    if random.once_in(2) {
        policy.put(ALLOWED_COUNT, random.one_of(&COUNTS));
        policy.put(REGION_COUNT, random.one_of(&COUNTS));
    }
    Policy::from_bytes(*policy.as_bytes())
}
