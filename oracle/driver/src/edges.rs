//! The edges that lists must meet, counted where RITM's Rust answers.

use crate::asked::Asked;
use crate::call::{Answer, Call, TRAP_KIND, TRAP_VALUES};
use crate::generate;
use crate::ritm_rust::RitmRust;
use reference::oracle::{Core, Trap};
use std::collections::BTreeSet;

const SEED: u64 = 1;
const LISTS: u64 = 2000;

/// What the tests look for.
#[derive(Clone, Copy, Debug, Eq, Ord, PartialEq, PartialOrd)]
enum Edge {
    /// A trap of this class, refused or not.
    Class(u64),
    /// An access with this SAS, SSE, SF and WnR through a half of this code.
    Access {
        half: u64,
        sas: u64,
        sse: u64,
        sf: u64,
        wnr: u64,
    },
    /// An access with this SAS and WnR through a half of this code, whether there was a vector, and the kind of the
    /// answer, 0 where the lack of a vector was its refusal.
    Answered {
        half: u64,
        sas: u64,
        wnr: u64,
        vector: bool,
        kind: u64,
    },
    /// An access of this kind with this register.
    Register(u64, u64),
    /// An access through an absent half, of this kind: with this register, at this offset.
    QuietRegister(u64, u64),
    QuietOffset(u64, u64),
    /// A region came to a place whose read half or write half had another code.
    StoredOver {
        write: bool,
        before: u64,
        after: u64,
    },
    /// ELR wrapped at this kind of trap; at 0 with the reply to an SMC.
    ElrWraps(u64),
    VbarWraps,
    /// An abort injected where the saved SPSR had this mode.
    Mode(u64),
    CounterWraps,
    /// A call of this class that hands out this function identifier, with this bit 16 of x0; and whether x0 has an
    /// upper half.
    Function {
        class: u64,
        identifier: u64,
        bit_16: u64,
        upper_half: bool,
    },
    /// So many allowed ranges or regions.
    Ranges(usize),
    Regions(usize),
    /// A range that ends at the last page boundary, or would end at 2^64.
    LastPage(u64),
}

/// Identifiers of fast calls, which x0 holds with and without bit 16: the first of all; by the limits of the firmware's
/// calls, the next below the first, the first, the last and the next above; and the platform's own call.
const FAST: [u64; 10] = [
    0x8000_0000,
    0x83FE_FFFF,
    0x8400_0000,
    0x8400_001F,
    0x8400_0020,
    0xC3FE_FFFF,
    0xC400_0000,
    0xC400_001F,
    0xC400_0020,
    0xFF00_0000,
];
/// Identifiers of yielding calls, of which bit 16 is a part, with the value that it has: those with the other bits of
/// the firmware's first calls, and the last of all.
const YIELDING: [(u64, u64); 6] =
    [(0x0400_0000, 0), (0x0401_0000, 1), (0x4400_0000, 0), (0x4401_0000, 1), (0x7FFE_FFFF, 0), (0x7FFF_FFFF, 1)];

/// Calls of both classes, with and without an upper half.
fn functions() -> impl Iterator<Item = Edge> {
    let fast = FAST.into_iter().flat_map(|identifier| [(identifier, 0), (identifier, 1)]);
    let forms = [(0x16, false), (0x16, true), (0x17, false), (0x17, true)];
    fast.chain(YIELDING).flat_map(move |(identifier, bit_16)| {
        forms.map(|(class, upper_half)| Edge::Function { class, identifier, bit_16, upper_half })
    })
}

/// Accesses through each half, of each width and in both directions: with all values of SSE and SF, and with each kind
/// of answer that there can be.
fn accesses() -> impl Iterator<Item = Edge> {
    let directions = (0..3).flat_map(|half| (0..4).flat_map(move |sas| [(half, sas, 0), (half, sas, 1)]));
    directions.flat_map(|(half, sas, wnr)| {
        let bits = [(0, 0), (0, 1), (1, 0), (1, 1)].map(|(sse, sf)| Edge::Access { half, sas, sse, sf, wnr });
        let answered = [false, true].into_iter().flat_map(move |vector| {
            let [handled, injected] = [1 + wnr, if vector { 3 } else { 0 }];
            // The absent half serves all, the page words of 64 bits alone, and not all of these.
            let kinds: &[u64] = match (half, sas) {
                (0, _) => &[handled],
                (1, 3) => &[handled, injected],
                _ => &[injected],
            };
            kinds.iter().map(|kind| Edge::Answered { half, sas, wnr, vector, kind: *kind }).collect::<Vec<_>>()
        });
        bits.into_iter().chain(answered)
    })
}

/// Each code stored over each other one, in both halves.
fn stored_over() -> impl Iterator<Item = Edge> {
    let codes = [(0, 1), (0, 2), (1, 0), (1, 2), (2, 0), (2, 1)];
    codes.into_iter().flat_map(|(before, after)| [false, true].map(|write| Edge::StoredOver { write, before, after }))
}

fn expected() -> BTreeSet<Edge> {
    let mut edges: BTreeSet<Edge> = (0..64).map(Edge::Class).collect();
    edges.extend(accesses());
    edges.extend(stored_over());
    for kind in [1, 2] {
        edges.extend([0, 29, 30, 31].map(|rt| Edge::QuietRegister(kind, rt)));
        edges.extend([0, 1, 8, 16, 0xFFF, 0x1000].map(|offset| Edge::QuietOffset(kind, offset)));
    }
    edges.extend([29, 30, 31].into_iter().flat_map(|rt| [Edge::Register(1, rt), Edge::Register(3, rt)]));
    edges.extend([Edge::Register(2, 29), Edge::Register(2, 30)]);
    edges.extend([0, 1, 2].map(Edge::ElrWraps));
    edges.extend((0..32).map(Edge::Mode));
    edges.extend([Edge::VbarWraps, Edge::CounterWraps, Edge::Ranges(32), Edge::Regions(16)]);
    edges.extend(functions());
    edges.extend([Edge::LastPage(0), Edge::LastPage(4)]);
    edges
}

/// Adds the edges of an access at this offset of a region, of this kind or 0.
fn of_access(met: &mut BTreeSet<Edge>, trap: Trap, kind: u64, half: u64, offset: u64) {
    let bit = |place: u64| trap.esr >> place & 1;
    let (sas, wnr) = (trap.esr >> 22 & 3, bit(6));
    met.insert(Edge::Answered { half, sas, wnr, vector: trap.vbar != 0, kind });
    if kind != 0 {
        met.insert(Edge::Access { half, sas, sse: bit(21), sf: bit(15), wnr });
    }
    if half == 0 {
        met.extend([Edge::QuietRegister(kind, trap.esr >> 16 & 31), Edge::QuietOffset(kind, offset)]);
    }
}

/// Adds the edges of a trap.
fn of_trap(met: &mut BTreeSet<Edge>, trap: Trap, answer: &Answer, before: &Core, after: &Core) {
    let class = trap.esr >> 26 & 0x3F;
    // 0 where the trap was refused.
    let kind = answer.words()[TRAP_KIND];
    met.insert(Edge::Class(class));
    if class == 0x24 && kind != 0 {
        met.insert(Edge::Register(kind, trap.esr >> 16 & 31));
    }
    if matches!(kind, 1 | 2) && after.elr < before.elr {
        met.insert(Edge::ElrWraps(kind));
    }
    if kind == 3 {
        met.insert(Edge::Mode(before.spsr & 0x1F));
    }
    if kind == 3 && after.elr < trap.vbar {
        met.insert(Edge::VbarWraps);
    }
    if matches!(kind, 4 | 5) {
        let (x0, identifier) = (before.x[0], answer.words()[TRAP_VALUES]);
        met.insert(Edge::Function { class, identifier, bit_16: x0 >> 16 & 1, upper_half: x0 >> 32 != 0 });
    }
}

/// Adds the edges of a handle call, by the codes that each place had before it.
fn of_region(met: &mut BTreeSet<Edge>, before: &[[u64; 5]], after: impl Iterator<Item = [u64; 5]>) {
    for (before, after) in before.iter().zip(after) {
        for (write, half) in [(false, 3), (true, 4)] {
            met.insert(Edge::StoredOver { write, before: before[half], after: after[half] });
        }
    }
}

fn of_list(met: &mut BTreeSet<Edge>, number: u64) {
    let list = generate::list(SEED, number);
    let mut rust = RitmRust::fresh(list.counter);
    for call in &list.calls {
        let core = call.core().filter(|core| *core < 8).unwrap_or_default() as usize;
        let (before, counter) = (rust.cores[core], rust.oracle.counter());
        let regions: Vec<[u64; 5]> = rust.oracle.regions().collect();
        let answer = Asked::of(call, &mut rust).answer(&mut rust);
        let after = rust.cores[core];
        match *call {
            Call::Trap { trap, .. } => {
                of_trap(met, trap, &answer, &before, &after);
                let found = rust.oracle.find(trap.fipa << 12 | trap.far & 0xFFF);
                if let (Some(half), Some((_, offset)), 0 | 13) = (rust.half(trap), found, answer.number) {
                    of_access(met, trap, answer.words()[TRAP_KIND], half as u64, offset);
                }
            }
            Call::Handle { .. } => of_region(met, &regions, rust.oracle.regions()),
            Call::Reply { .. } if after.elr < before.elr => {
                met.insert(Edge::ElrWraps(0));
            }
            Call::Allow { base, size, .. } if base.wrapping_add(size).wrapping_add(4096) <= 4096 && size > 0 => {
                met.insert(Edge::LastPage(answer.number));
            }
            _ => {}
        }
        if rust.oracle.counter() < counter {
            met.insert(Edge::CounterWraps);
        }
    }
    met.insert(Edge::Ranges(rust.oracle.ranges().count()));
    met.insert(Edge::Regions(rust.oracle.regions().count()));
}

#[test]
fn lists_meet_the_edges() {
    let mut met = BTreeSet::new();
    (0..LISTS).for_each(|number| of_list(&mut met, number));
    let missed: Vec<Edge> = expected().difference(&met).copied().collect();
    assert_eq!(missed, []);
}
