//! The builder's calls, and the search for a region.

use crate::side::{Call, Sides, State};
use reference::aarch64_paging::descriptor::Stage2Attributes;
use reference::oracle;
use reference::platform::qemu;
use reference::stage2::{
    MemoryAccessHandler, MemoryAccessHandlerMatch, MemoryAccessHandlerRegistry, Stage2Builder, Stage2Config,
    Stage2ConfigError,
};
use ritm::{MemoryHandler, Policy, ffi};

const PAGE_SIZE: u64 = 0x1000;
/// Ranges and regions stand one page apart from each other.
const STEP: u64 = 2 * PAGE_SIZE;
const FIRST_ALLOWED: u64 = 0x4000_0000;
const FIRST_REGION: u64 = 0x0f00_0000;
const ATTRIBUTES: u64 = 0x7fd;
const OVERLAP: u64 = 6;
const NOT_HELD: u64 = 23;
/// Full lists.
const MAX_RANGES: u64 = 32;
const MAX_REGIONS: u64 = 16;

const HANDLER: MemoryAccessHandler = MemoryAccessHandler::read_write(qemu::READ, qemu::WRITE);

type AllowFunction = extern "C" fn(&mut ffi::Policy, u64, u64, u64) -> u64;
type HandleFunction = extern "C" fn(&mut ffi::Policy, u64, u64, u64, u64) -> u64;
type ReleaseFunction = extern "C" fn(&mut ffi::Policy, u64, u64) -> u64;
type FindFunction = extern "C" fn(&ffi::Policy, u64, &mut ffi::FindResult) -> u64;
type FreshFunction = extern "C" fn(&mut ffi::Policy) -> u64;
type RustAllow = fn(&mut Stage2Builder, u64, usize, Stage2Attributes) -> Result<(), Stage2ConfigError>;
type RustHandle = fn(&mut Stage2Builder, u64, usize, MemoryAccessHandler) -> Result<(), Stage2ConfigError>;
type RustFind = fn(&MemoryAccessHandlerRegistry, u64) -> Option<MemoryAccessHandlerMatch>;

/// The base of the last of so many regions.
pub fn last_region(regions: u64) -> u64 {
    FIRST_REGION + STEP * (regions - 1)
}

/// The first page above so many regions that leaves one between.
pub fn above_regions(regions: u64) -> u64 {
    FIRST_REGION + STEP * regions
}

/// The bases of so many ranges, and of so many regions.
fn bases(ranges: u64, regions: u64) -> (impl Iterator<Item = u64>, impl Iterator<Item = u64>) {
    ((0..ranges).map(|k| FIRST_ALLOWED + STEP * k), (0..regions).map(|k| FIRST_REGION + STEP * k))
}

/// The port's policy with so many ranges, and so many regions of the filtered MMIO page.
pub fn port_with(ranges: u64, regions: u64) -> ffi::Policy {
    port_served_by(MemoryHandler::FilteredMmio, ranges, regions)
}

/// The port's policy with so many ranges and regions, whose loads and stores this handler serves.
pub fn port_served_by(handler: MemoryHandler, ranges: u64, regions: u64) -> ffi::Policy {
    let half = handler as u64;
    let mut policy = ffi::Policy::ZERO;
    assert_eq!(ffi::ritm_fresh_policy(&mut policy), 0, "a fresh policy");
    let (ranges, regions) = bases(ranges, regions);
    for base in ranges {
        assert_eq!(ffi::ritm_allow_range(&mut policy, base, PAGE_SIZE, ATTRIBUTES), 0, "a range fits");
    }
    for base in regions {
        assert_eq!(ffi::ritm_handle_range(&mut policy, base, PAGE_SIZE, half, half), 0, "a region fits");
    }
    policy
}

/// RITM's policy with so many ranges and regions.
pub fn rust_with(ranges: u64, regions: u64) -> Stage2Builder {
    let mut builder = Stage2Builder::new();
    let (ranges, regions) = bases(ranges, regions);
    for base in ranges {
        let attributes = Stage2Attributes::from_bits_retain(ATTRIBUTES as usize);
        builder.allow_range(base, PAGE_SIZE as usize, attributes).expect("a range fits");
    }
    for base in regions {
        builder.handle_range(base, PAGE_SIZE as usize, HANDLER).expect("a region fits");
    }
    builder
}

/// The port's policy, and the base of a call.
#[derive(Clone)]
struct PortPolicy {
    policy: ffi::Policy,
    base: u64,
}

impl State for PortPolicy {
    fn put_back(&mut self, before: &Self) {
        self.policy.clone_from(&before.policy);
    }

    fn words(&self) -> Vec<u64> {
        let policy = Policy::from_bytes(*self.policy.as_bytes());
        let ranges = policy.allowed_ranges().flat_map(|range| [range.base_ipa, range.size, range.end_ipa]);
        let regions = policy.regions().flat_map(|region| {
            let halves = [region.handler.read as u64, region.handler.write as u64];
            [region.base_ipa, region.size, region.end_ipa].into_iter().chain(halves)
        });
        ranges.chain(regions).collect()
    }
}

/// RITM's builder, and the base of a call.
struct Builder {
    builder: Stage2Builder,
    base: u64,
}

impl Clone for Builder {
    fn clone(&self) -> Self {
        Self { builder: self.builder.copy(), base: self.base }
    }
}

impl State for Builder {
    fn put_back(&mut self, before: &Self) {
        self.builder.put_back(&before.builder);
    }

    fn words(&self) -> Vec<u64> {
        let regions = self.builder.regions().flat_map(|(region, end)| {
            let halves = oracle::halves(&region.handler).map(|half| half as u64);
            [region.base_ipa, region.size as u64, end].into_iter().chain(halves)
        });
        self.builder.ranges().flatten().chain(regions).collect()
    }
}

/// RITM's builder, and the bases of what is still held after a release.
#[derive(Clone)]
struct Rebuilt {
    builder: Builder,
    ranges: Vec<u64>,
    regions: Vec<u64>,
}

impl Rebuilt {
    /// Makes the builder anew.
    fn rebuild(&mut self, allow: RustAllow, handle: RustHandle) -> Result<(), Stage2ConfigError> {
        let builder = &mut self.builder.builder;
        *builder = Stage2Builder::new();
        for base in &self.ranges {
            allow(builder, *base, PAGE_SIZE as usize, Stage2Attributes::from_bits_retain(ATTRIBUTES as usize))?;
        }
        for base in &self.regions {
            handle(builder, *base, PAGE_SIZE as usize, HANDLER)?;
        }
        Ok(())
    }
}

impl State for Rebuilt {
    fn put_back(&mut self, before: &Self) {
        self.builder.put_back(&before.builder);
    }

    fn words(&self) -> Vec<u64> {
        self.builder.words()
    }
}

/// Both sides' policies, and the base of a call.
struct Held {
    ranges: u64,
    regions: u64,
    base: u64,
}

impl Held {
    fn port(&self) -> PortPolicy {
        PortPolicy { policy: port_with(self.ranges, self.regions), base: self.base }
    }

    fn rust(&self) -> Builder {
        Builder { builder: rust_with(self.ranges, self.regions), base: self.base }
    }

    fn allow(&self, number: u64) -> Sides {
        let port = Call {
            state: self.port(),
            function: ffi::ritm_allow_range as AllowFunction,
            call: |state: &mut PortPolicy, function| function(&mut state.policy, state.base, PAGE_SIZE, ATTRIBUTES),
            answer: |_, number| vec![number],
        };
        let rust = Call {
            state: self.rust(),
            function: Stage2Builder::allow_range as RustAllow,
            call: |state: &mut Builder, function| {
                let attributes = Stage2Attributes::from_bits_retain(ATTRIBUTES as usize);
                function(&mut state.builder, state.base, PAGE_SIZE as usize, attributes)
            },
            answer: |_, result| vec![oracle::number(result)],
        };
        Sides::compared(number, port, rust)
    }

    fn handle(&self) -> Sides {
        let port = Call {
            state: self.port(),
            function: ffi::ritm_handle_range as HandleFunction,
            call: |state: &mut PortPolicy, function| function(&mut state.policy, state.base, PAGE_SIZE, 1, 1),
            answer: |_, number| vec![number],
        };
        let rust = Call {
            state: self.rust(),
            function: Stage2Builder::handle_range as RustHandle,
            call: |state: &mut Builder, function| {
                function(&mut state.builder, state.base, PAGE_SIZE as usize, HANDLER)
            },
            answer: |_, result| vec![oracle::number(result)],
        };
        Sides::compared(0, port, rust)
    }

    fn release_by_port(&self) -> Call<PortPolicy, ReleaseFunction, u64> {
        Call {
            state: self.port(),
            function: ffi::ritm_release_range as ReleaseFunction,
            call: |state: &mut PortPolicy, function| function(&mut state.policy, state.base, PAGE_SIZE),
            answer: |_, number| vec![number],
        }
    }

    /// The release beside RITM's builder made anew.
    fn release(&self) -> Sides {
        let (ranges, regions) = bases(self.ranges, self.regions);
        let is_held = |base: &u64| *base != self.base;
        let (ranges, regions) = (ranges.filter(is_held).collect(), regions.filter(is_held).collect());
        let rust = Call {
            state: Rebuilt { builder: self.rust(), ranges, regions },
            function: (Stage2Builder::allow_range as RustAllow, Stage2Builder::handle_range as RustHandle),
            call: |state: &mut Rebuilt, (allow, handle)| state.rebuild(allow, handle),
            answer: |_, result| vec![oracle::number(result)],
        };
        Sides::compared(0, self.release_by_port(), rust)
    }
}

/// A range that is apart from so many ranges and regions.
pub fn allow(ranges: u64, regions: u64) -> Sides {
    Held { ranges, regions, base: FIRST_ALLOWED + STEP * ranges }.allow(0)
}

/// A range that is the last of so many, which is refused.
pub fn allow_overlap(ranges: u64) -> Sides {
    Held { ranges, regions: 0, base: FIRST_ALLOWED + STEP * (ranges - 1) }.allow(OVERLAP).repeated()
}

/// A region above so many regions.
pub fn handle_above(ranges: u64, regions: u64) -> Sides {
    Held { ranges, regions, base: above_regions(regions) }.handle()
}

/// A region below so many regions.
pub fn handle_below(ranges: u64, regions: u64) -> Sides {
    Held { ranges, regions, base: FIRST_REGION - STEP }.handle()
}

/// Full lists, and the base of a call.
const fn full(base: u64) -> Held {
    Held { ranges: MAX_RANGES, regions: MAX_REGIONS, base }
}

/// The first of all ranges.
pub fn release_range() -> Sides {
    full(FIRST_ALLOWED).release()
}

/// The first of all regions.
pub fn release_region() -> Sides {
    full(FIRST_REGION).release()
}

/// A range above all regions, which is not held: RITM's builder stays as it is.
pub fn release_none() -> Sides {
    Sides::port_answering(NOT_HELD, full(above_regions(MAX_REGIONS)).release_by_port()).repeated()
}

/// The port's search.
#[derive(Clone)]
struct PortSearch {
    policy: &'static ffi::Policy,
    ipa: u64,
    found: ffi::FindResult,
}

impl State for PortSearch {
    fn put_back(&mut self, _: &Self) {}

    fn words(&self) -> Vec<u64> {
        vec![self.ipa]
    }
}

/// RITM's search.
#[derive(Clone)]
struct Search {
    config: &'static Stage2Config,
    ipa: u64,
}

impl State for Search {
    fn put_back(&mut self, _: &Self) {}

    fn words(&self) -> Vec<u64> {
        vec![self.ipa]
    }
}

/// The result as both sides have it: whether a region was found, its base, and the offset.
fn found_by_port(state: &PortSearch) -> [u64; 3] {
    match state.found.get_all(0) {
        [1, index, offset] => {
            let policy = Policy::from_bytes(*state.policy.as_bytes());
            let region = policy.regions().nth(index as usize).expect("a region is there");
            [1, region.base_ipa, offset]
        }
        other => other,
    }
}

fn find(regions: u64, ipa: u64, found: bool) -> Sides {
    let policy = Box::leak(Box::new(port_with(0, regions)));
    let port = Call {
        state: PortSearch { policy, ipa, found: ffi::FindResult::ZERO },
        function: ffi::ritm_find as FindFunction,
        call: |state: &mut PortSearch, function| function(state.policy, state.ipa, &mut state.found),
        answer: |state, number| [&[number][..], &found_by_port(state)].concat(),
    };
    let rust = Call {
        state: Search { config: Box::leak(Box::new(rust_with(0, regions).build())), ipa },
        function: MemoryAccessHandlerRegistry::find as RustFind,
        call: |state: &mut Search, function| function(&state.config.memory_access_handlers, state.ipa),
        answer: |_, result| match result {
            Some(found) => vec![0, 1, found.region.base_ipa, found.offset],
            None => vec![0; 4],
        },
    };
    let sides = Sides::compared(0, port, rust).repeated();
    assert_eq!(sides.port.answer(1)[1], u64::from(found), "the address is found, or not, as the case says");
    sides
}

/// An address in the last of so many regions.
pub fn find_last(regions: u64) -> Sides {
    find(regions, last_region(regions) + 24, true)
}

/// An address above all of so many regions.
pub fn find_none(regions: u64) -> Sides {
    find(regions, above_regions(regions), false)
}

pub fn fresh_policy() -> Sides {
    let call = |state: &mut PortPolicy, function: FreshFunction| function(&mut state.policy);
    let state = Held { ranges: 8, regions: 8, base: 0 }.port();
    let function = ffi::ritm_fresh_policy as FreshFunction;
    Sides::port_alone(Call { state, function, call, answer: |_, number| vec![number] }).repeated()
}
