//! Roundings at every address of the pages where a mask that is wrong would show.

use crate::call::{Call, List};
use crate::compare;
use crate::tally::Tally;

const PAGE: u64 = 4096;

/// Between the first two pages, where a word of 32 or 63 bits would end, and between the last two pages.
const BOUNDARIES: [u64; 4] = [PAGE, 1 << 32, 1 << 63, 0u64.wrapping_sub(PAGE)];

#[test]
fn roundings_agree_at_every_address_of_two_pages() {
    for boundary in BOUNDARIES {
        let addresses = (0..2 * PAGE).map(|byte| (boundary - PAGE) + byte);
        let calls = addresses.flat_map(|address| [Call::AlignDown { address }, Call::AlignUp { address }]).collect();
        let difference = compare::run(&List { counter: 0, calls }, &mut Tally::default());
        assert_eq!(difference, None, "by {boundary:#x}");
    }
}
