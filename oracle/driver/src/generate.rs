//! Lists of calls from a seed: explicit calls, with arguments weighted to the edges, that need no state to be read.
//!
//! The generator remembers what it asked for (bases, ranges that should be held, cores that should wait), not what was
//! answered, so that a list can be cut down and still means the same calls.

use crate::call::{Call, List};
use crate::function::Function;
use crate::mirror::{MAX_RANGES, MAX_REGIONS};
use crate::random::{FILTERED_MMIO_STORE, Random};
use reference::oracle::Trap;
use ritm::MemoryHandler;

const PAGE: u64 = 4096;
/// The bases and sizes of a list are mostly pages of one stretch of addresses; here are the starts that matter.
const STRETCHES: [u64; 3] = [0, 0xF000, 1 << 20];
const PAGES: u64 = 1 << 52;

/// Modes from which a trap may come, SPSR's bits 4:0: EL0, EL1 on EL0's stack, EL1 on its own; and the bit that those of
/// AArch32 have.
const EL0T: u64 = 0;
const EL1T: u64 = 4;
const EL1H: u64 = 5;
const AARCH32: u64 = 0x10;

/// What a guest adds to a function identifier in x0.
#[derive(Clone, Copy)]
struct Added {
    /// Bit 16, the hint of a fast call.
    bit_16: bool,
    upper_half: bool,
}

/// How often each is added. Mostly nothing is, so that most calls are asked of RITM with x0 as it stands.
const ADDED: [(u64, Added); 4] = [
    (9, Added { bit_16: false, upper_half: false }),
    (1, Added { bit_16: true, upper_half: false }),
    (1, Added { bit_16: false, upper_half: true }),
    (1, Added { bit_16: true, upper_half: true }),
];

const BIT_16: u64 = 1 << 16;
/// Bit 31 of x0, which a fast call has and a yielding one has not.
const FAST_CALL: u64 = 1 << 31;

/// What a list is for.
#[derive(Clone, Copy, Eq, PartialEq)]
enum Purpose {
    Comparison,
    /// Records of RITM's answers. No record is of a release, so the list has none.
    Records,
    /// The sample of such records: few cores, and words of few digits.
    Sample,
}

/// What a list is mostly about.
#[derive(Clone, Copy, Eq, PartialEq)]
enum Theme {
    /// Builder calls among few pages.
    Overlaps,
    /// Builder calls until the tables are full.
    FullTables,
    /// Data aborts over regions with all combinations of halves.
    Aborts,
    /// HVC and SMC calls, and replies.
    Calls,
    /// The suspend map, mostly full.
    Map,
    /// Calls without state.
    Stateless,
    /// Everything.
    Mixed,
}

/// How often each theme is chosen.
const THEMES: [(u64, Theme); 7] = [
    (3, Theme::Overlaps),
    (3, Theme::FullTables),
    (6, Theme::Aborts),
    (5, Theme::Calls),
    (2, Theme::Map),
    (1, Theme::Stateless),
    (4, Theme::Mixed),
];

/// What may be added to a list next, each with its weight.
type Actions = &'static [(u64, fn(&mut Generator))];

const OVERLAPS: Actions =
    &[(20, Generator::allow), (14, Generator::handle), (8, Generator::find), (3, Generator::abort)];
const FULL_TABLES: Actions =
    &[(12, Generator::allow), (12, Generator::handle), (6, Generator::find), (2, Generator::abort)];
const ABORTS: Actions = &[
    (1, Generator::allow),
    (2, Generator::handle),
    (4, Generator::find),
    (4, Generator::save),
    (50, Generator::abort),
    (2, Generator::forwarded_call),
    (1, Generator::any_trap),
    (2, Generator::reply),
    (2, Generator::read_gpr),
    (6, Generator::write_gpr),
];
const CALLS: Actions = &[
    (5, Generator::save),
    (2, Generator::abort),
    (30, Generator::forwarded_call),
    (2, Generator::any_trap),
    (36, Generator::reply),
    (3, Generator::read_gpr),
    (6, Generator::write_gpr),
];
const MAP: Actions = &[(12, Generator::insert), (6, Generator::look_up), (4, Generator::remove)];
const STATELESS: Actions =
    &[(8, Generator::decode), (8, Generator::extend), (2, Generator::align_down), (3, Generator::align_up)];
const MIXED: Actions = &[
    (3, Generator::allow),
    (3, Generator::handle),
    (2, Generator::find),
    (3, Generator::save),
    (10, Generator::abort),
    (5, Generator::forwarded_call),
    (1, Generator::any_trap),
    (6, Generator::reply),
    (2, Generator::read_gpr),
    (3, Generator::write_gpr),
    (3, Generator::insert),
    (2, Generator::look_up),
    (1, Generator::remove),
    (2, Generator::decode),
    (2, Generator::extend),
    (1, Generator::align_down),
    (1, Generator::align_up),
];

/// Ranges that come and go, among all that.
const CHANGES: Actions =
    &[(6, Generator::release), (5, Generator::refill), (1, Generator::allow), (1, Generator::handle)];

impl Theme {
    /// Once in how many times a change of the policy comes instead.
    fn times_to_a_change(self) -> u64 {
        match self {
            Self::FullTables => 2,
            Self::Overlaps => 4,
            Self::Aborts | Self::Calls | Self::Mixed => 10,
            Self::Map | Self::Stateless => 32,
        }
    }

    fn actions(self) -> Actions {
        match self {
            Self::Overlaps => OVERLAPS,
            Self::FullTables => FULL_TABLES,
            Self::Aborts => ABORTS,
            Self::Calls => CALLS,
            Self::Map => MAP,
            Self::Stateless => STATELESS,
            Self::Mixed => MIXED,
        }
    }
}

/// A range that was asked for, by an allow or a handle call.
#[derive(Clone, Copy)]
struct Range {
    base: u64,
    size: u64,
    region: bool,
}

impl Range {
    fn is_whole_pages(self) -> bool {
        let ends = self.base.checked_add(self.size).is_some();
        ends && self.size > 0 && self.base.is_multiple_of(PAGE) && self.size.is_multiple_of(PAGE)
    }

    /// Whether no byte of the two, of whole pages each, is the same.
    fn is_apart_from(self, other: Self) -> bool {
        self.base + self.size <= other.base || other.base + other.size <= self.base
    }
}

/// A list under way.
struct Generator {
    random: Random,
    purpose: Purpose,
    calls: Vec<Call>,
    /// The stretch of pages that the list is about.
    first_page: u64,
    pages: u64,
    /// Bases of handle calls.
    handled: Vec<u64>,
    /// What should be held, in order of arrival, and what was and should not be.
    held: Vec<Range>,
    gone: Vec<Range>,
    /// Whether each core should wait, and for the firmware.
    waiting: [Option<bool>; 8],
    keys: [u64; 10],
    /// How many cores the list names.
    cores: u64,
}

/// The list of this number.
pub fn list(seed: u64, number: u64) -> List {
    make(Random::new(seed, number), Purpose::Comparison)
}

/// A list for records of RITM's answers.
pub fn list_for_records(seed: u64, number: u64) -> List {
    make(Random::new(seed, number), Purpose::Records)
}

/// A list for the recorded sample.
pub fn list_for_sample(seed: u64, number: u64) -> List {
    make(Random::new(seed, number), Purpose::Sample)
}

fn make(mut random: Random, purpose: Purpose) -> List {
    let theme = random.weighted(&THEMES);
    let counter = match random.below(8) {
        0 => 0u64.wrapping_sub(random.below(4)),
        1 => random.word(),
        _ => 0,
    };
    let length = 60 + random.below(if purpose == Purpose::Sample { 40 } else { 240 }) as usize;
    let mut generator = Generator::new(random, purpose);
    generator.open(theme);
    while generator.calls.len() < length {
        let actions = if generator.is_to_change(theme) { CHANGES } else { theme.actions() };
        let action = generator.random.weighted(actions);
        action(&mut generator);
    }
    List { counter, calls: generator.calls }
}

impl Generator {
    fn new(mut random: Random, purpose: Purpose) -> Self {
        let pages = random.pick(&[6, 12, 24, 64, 128]);
        let first_page = match random.below(5) {
            0 => PAGES - pages,
            1 => random.below(PAGES - pages),
            _ => random.pick(&STRETCHES),
        };
        let keys = std::array::from_fn(|k| if k < 4 { k as u64 } else { random.word() });
        let cores = if purpose == Purpose::Sample { 2 } else { random.pick(&[1, 2, 8, 8]) };
        Self {
            random,
            purpose,
            calls: Vec::new(),
            first_page,
            pages,
            handled: Vec::new(),
            held: Vec::new(),
            gone: Vec::new(),
            waiting: [None; 8],
            keys,
            cores,
        }
    }

    fn is_short(&self) -> bool {
        self.purpose == Purpose::Sample
    }

    /// Whether a change of the policy comes next. Lists for records are as they were when there was no release.
    fn is_to_change(&mut self, theme: Theme) -> bool {
        self.purpose == Purpose::Comparison && self.random.once_in(theme.times_to_a_change())
    }

    /// What a theme begins with.
    fn open(&mut self, theme: Theme) {
        match theme {
            Theme::FullTables => self.fill_tables(),
            Theme::Aborts | Theme::Mixed => {
                for _ in 0..self.random.below(12) {
                    self.handle();
                    let page = self.page();
                    self.handle_range(page * PAGE, PAGE);
                }
                for core in 0..self.cores {
                    self.save_core(core);
                }
            }
            Theme::Map => {
                for key in self.keys {
                    self.insert_key(key);
                }
            }
            _ => {}
        }
    }

    /// Builder calls for each page of a stretch, in any order, mostly one page each.
    fn fill_tables(&mut self) {
        self.pages = 64 + self.random.below(32);
        self.first_page = self.first_page.min(PAGES - self.pages);
        let mut pages: Vec<u64> = (self.first_page..self.first_page + self.pages).collect();
        self.random.shuffle(&mut pages);
        let allowed_of_eight = 3 + self.random.below(4);
        for page in pages {
            let size = if self.random.once_in(8) { 2 * PAGE } else { PAGE };
            if self.random.below(8) < allowed_of_eight {
                self.allow_range(page * PAGE, size);
            } else {
                self.handle_range(page * PAGE, size);
            }
        }
    }

    fn word(&mut self) -> u64 {
        if self.is_short() { self.random.short_word() } else { self.random.word() }
    }

    fn core(&mut self) -> u64 {
        if self.random.once_in(50) {
            return self.random.pick(&[8, 9, 1 << 32, u64::MAX]);
        }
        self.random.below(self.cores)
    }

    /// A page of the stretch, at times the one below or above it.
    fn page(&mut self) -> u64 {
        let page = self.first_page + self.random.below(self.pages + 1);
        page.wrapping_sub(u64::from(self.random.once_in(16))) % PAGES
    }

    fn base(&mut self) -> u64 {
        let base = self.page() * PAGE;
        match self.random.below(24) {
            0 => base | self.random.pick(&[1, 8, 0x800, 0xFFF]),
            1 => 0u64.wrapping_sub(PAGE * (1 + self.random.below(3))),
            2 => self.word(),
            _ => base,
        }
    }

    fn size(&mut self, base: u64) -> u64 {
        let to_the_end = 0u64.wrapping_sub(base);
        match self.random.below(32) {
            0 => 0,
            1 => self.random.pick(&[1, 8, 0xFFF, 0x1001, 0x1FFF, u64::MAX]),
            2 => self.random.pick(&[to_the_end, to_the_end.wrapping_sub(PAGE), to_the_end.wrapping_add(PAGE)]),
            3 => self.word(),
            4 => 0u64.wrapping_sub(PAGE),
            5 => PAGE * self.random.below(self.pages + 2),
            6..=11 => PAGE * (2 + self.random.below(3)),
            _ => PAGE,
        }
    }

    fn allow(&mut self) {
        let base = self.base();
        let size = self.size(base);
        self.allow_range(base, size);
    }

    fn allow_range(&mut self, base: u64, size: u64) {
        let attributes = self.word();
        self.calls.push(Call::Allow { base, size, attributes });
        self.note(Range { base, size, region: false });
    }

    fn handle(&mut self) {
        let base = self.base();
        let size = self.size(base);
        self.handle_range(base, size);
    }

    /// Mostly the page serves both halves, else any handler each; at times there is no such handler.
    fn handle_range(&mut self, base: u64, size: u64) {
        let known = MemoryHandler::ALL.len() as u64;
        let [read, write] = match self.random.below(40) {
            0 => [known, self.random.below(known + 1)],
            1 => [self.random.below(known + 1), self.random.pick(&[known, known + 1, u64::MAX])],
            2..=20 => [self.random.below(known), self.random.below(known)],
            _ => [MemoryHandler::FilteredMmio as u64; 2],
        };
        self.handled.push(base);
        self.calls.push(Call::Handle { base, size, read, write });
        if read.max(write) < known {
            self.note(Range { base, size, region: true });
        }
    }

    /// Notes what was asked for, if it should now be held.
    fn note(&mut self, range: Range) {
        let room = if range.region { MAX_REGIONS } else { MAX_RANGES };
        let alike = self.held.iter().filter(|held| held.region == range.region).count();
        if range.is_whole_pages() && alike < room && self.held.iter().all(|held| held.is_apart_from(range)) {
            self.held.push(range);
        }
    }

    /// Mostly a release of what should be held; at times by its base with another size, at another base, of what is
    /// gone, or with arguments that are those of no range.
    fn release(&mut self) {
        let Range { base, size, .. } = self.held_range();
        let unfit = [0, size | 8, u64::MAX, 0u64.wrapping_sub(PAGE), 0u64.wrapping_sub(base)];
        let (base, size) = match self.random.below(16) {
            0 | 1 => (base, PAGE * (1 + self.random.below(4))),
            2 => (base.wrapping_add(PAGE), size),
            3 => (self.base(), size),
            4 => self.gone.last().map_or((base, size), |gone| (gone.base, gone.size)),
            5 => (base, self.random.pick(&unfit)),
            6 => (base | self.random.pick(&[1, 8, 0x800]), self.random.pick(&[size, unfit[0], unfit[1], unfit[2]])),
            _ => (base, size),
        };
        self.calls.push(Call::Release { base, size });
        if let Some(place) = self.held.iter().position(|held| (held.base, held.size) == (base, size)) {
            let released = self.held.remove(place);
            self.gone.push(released);
        }
    }

    /// One that should be held, often the first or the last to have come; if there is none, any.
    fn held_range(&mut self) -> Range {
        let Some(last) = self.held.len().checked_sub(1) else {
            let base = self.base();
            return Range { base, size: self.size(base), region: false };
        };
        let place = match self.random.below(4) {
            0 => 0,
            1 => last,
            _ => self.random.below(last as u64 + 1) as usize,
        };
        self.held[place]
    }

    /// Asks again for what is gone, mostly as what it was; if there is none, for a page.
    fn refill(&mut self) {
        let Range { base, size, region } = self.gone.pop().unwrap_or_else(|| {
            let base = self.page() * PAGE;
            Range { base, size: PAGE, region: self.random.once_in(2) }
        });
        if region == self.random.once_in(4) {
            self.allow_range(base, size);
        } else {
            self.handle_range(base, size);
        }
    }

    /// An address, mostly of a word in a region that was asked for.
    fn ipa(&mut self) -> u64 {
        if self.handled.is_empty() || self.random.once_in(8) {
            let page = self.page();
            return page * PAGE + self.random.pick(&[0, 1, 8, 16, 0xFFF]);
        }
        let base = self.random.pick(&self.handled);
        let offset = match self.random.below(16) {
            0..=5 => self.random.pick(&[16, 16, 8]),
            6..=12 => self.random.pick(&[0, 8, 24, 32, 40]),
            13 => self.random.pick(&[1, 4, 7, 9, 12, 15, 17, 20, 41, 47, 48]),
            14 => self.random.pick(&[0xFF8, 0xFFF, 0x1000, 0x1010, 0x1FFF, 0x2000, 0u64.wrapping_sub(1)]),
            _ => self.random.below(0x40),
        };
        base.wrapping_add(offset)
    }

    fn find(&mut self) {
        let ipa = if self.random.once_in(16) { self.word() } else { self.ipa() };
        self.calls.push(Call::Find { ipa });
    }

    fn save(&mut self) {
        let core = self.core();
        self.save_core(core);
    }

    fn save_core(&mut self, core: u64) {
        let mut registers = [0; 33];
        for register in &mut registers[..32] {
            *register = self.word();
        }
        registers[32] = self.spsr();
        // ELR where an instruction's length takes it past 2^64.
        if self.random.once_in(4) {
            registers[31] = 0u64.wrapping_sub(self.random.below(6));
        }
        self.calls.push(Call::Save { core, registers });
    }

    /// Any word, often with the mode of a guest at EL1.
    fn spsr(&mut self) -> u64 {
        let word = self.word();
        let mode = match self.random.below(8) {
            0..=2 => EL1H,
            3 => EL1T,
            4 => EL0T,
            5 => AARCH32 | self.random.below(16),
            _ => word & 0x1F,
        };
        word & !0x1F | mode
    }

    /// The bits of an ESR outside of EC and the ISS.
    fn esr(&mut self, class: u64, iss: u64) -> u64 {
        let upper = if self.random.once_in(4) { self.random.next() << 32 } else { 0 };
        upper | class << 26 | self.random.below(2) << 25 | iss
    }

    /// An ISS of a data abort.
    fn iss(&mut self) -> u64 {
        let valid = u64::from(!self.random.once_in(12));
        let width = if self.random.once_in(3) { self.random.below(4) } else { 3 };
        let register = if self.random.once_in(3) { 29 + self.random.below(3) } else { self.random.below(32) };
        // SSE, SF, WnR and the bits that are not looked at.
        let rest = self.random.next() & 0x20_FFFF;
        valid << 24 | width << 22 | register << 16 | rest
    }

    fn vbar(&mut self) -> u64 {
        match self.random.below(16) {
            0 => 0,
            1 => self.word(),
            2 => 0u64.wrapping_sub(0x1FF + self.random.below(3)),
            3 => u64::MAX,
            4 => 1,
            _ => 0x8_0000,
        }
    }

    fn abort(&mut self) {
        let core = self.free_core();
        let iss = self.iss();
        let store = iss >> 6 & 1 == 1;
        let mut ipa = self.ipa();
        if store && self.random.once_in(2) {
            let register = iss >> 16 & 31;
            let value = if self.random.once_in(8) { FILTERED_MMIO_STORE ^ 1 << 63 } else { FILTERED_MMIO_STORE };
            self.calls.push(Call::WriteGpr { core, index: register, value });
            ipa = if self.handled.is_empty() { ipa } else { self.random.pick(&self.handled).wrapping_add(8) };
        }
        let above = if self.random.once_in(4) { self.random.next() << 52 } else { 0 };
        let beyond_page = if self.random.once_in(2) { self.random.next() << 12 } else { 0 };
        let trap = Trap {
            esr: self.esr(0x24, iss),
            fipa: (ipa / PAGE) | above,
            far: (ipa % PAGE) | beyond_page,
            vbar: self.vbar(),
        };
        self.calls.push(Call::Trap { core, trap });
    }

    /// A core that should not wait: one that does is mostly replied to first.
    fn free_core(&mut self) -> u64 {
        let core = self.core();
        if self.waits(core).is_some() && !self.random.once_in(16) {
            self.reply_to(core);
        }
        core
    }

    /// Whether a core should wait, and for the firmware.
    fn waits(&self, core: u64) -> Option<bool> {
        self.waiting.get(usize::try_from(core).ok()?).copied().flatten()
    }

    /// The x0 of a call: mostly a function identifier, with nothing added or with bits that the port does not read as
    /// RITM does; at times any word, which often has an upper half.
    fn function(&mut self) -> u64 {
        if self.random.once_in(8) {
            return self.word();
        }
        let added = self.random.weighted(&ADDED);
        let bit_16 = if added.bit_16 { BIT_16 } else { 0 };
        let upper_half = if added.upper_half { self.upper_half() } else { 0 };
        upper_half | bit_16 | self.identifier()
    }

    fn upper_half(&mut self) -> u64 {
        let any = self.random.next() << 32;
        self.random.pick(&[1 << 32, 1 << 63, any])
    }

    /// A function identifier with bit 16 clear, mostly by the limits of the firmware's calls; the one next below
    /// 0x84000000 is then 0x83FEFFFF. Others are by the limit of fast and yielding calls, or yielding calls whose other
    /// bits are those of the firmware's.
    fn identifier(&mut self) -> u64 {
        let first = self.random.pick(&[0x8400_0000, 0xC400_0000]);
        match self.random.below(8) {
            0..=2 => first + self.random.below(0x20),
            3 | 4 => self.random.pick(&[(first - 1) & !BIT_16, first, first + 0x1E, first + 0x1F, first + 0x20]),
            5 => self.random.pick(&[0xFF00_0000, FAST_CALL, (FAST_CALL - 1) & !BIT_16]),
            6 => first - FAST_CALL + self.random.pick(&[0, 0x1F]),
            _ => self.random.next() >> 32 & !BIT_16,
        }
    }

    fn forwarded_call(&mut self) {
        let core = self.free_core();
        let mut firmware = false;
        if !self.random.once_in(5) {
            let x0 = self.function();
            let identifier = Function::of(x0).identifier;
            firmware = matches!(identifier, 0x8400_0000..=0x8400_001F | 0xC400_0000..=0xC400_001F);
            self.calls.push(Call::WriteGpr { core, index: 0, value: x0 });
        }
        let class = self.random.pick(&[0x16, 0x17]);
        let iss = self.random.below(1 << 25);
        let trap = Trap { esr: self.esr(class, iss), fipa: self.word(), far: self.word(), vbar: self.vbar() };
        self.calls.push(Call::Trap { core, trap });
        if let Some(waiting) = self.waiting.get_mut(core as usize) {
            waiting.get_or_insert(firmware);
        }
    }

    /// A trap of any class.
    fn any_trap(&mut self) {
        let core = self.core();
        let class = self.random.below(64);
        let iss = self.iss();
        let trap = Trap { esr: self.esr(class, iss), fipa: self.word(), far: self.word(), vbar: self.vbar() };
        self.calls.push(Call::Trap { core, trap });
    }

    /// A reply to a core that should wait, mostly; if there is none, a call first.
    fn reply(&mut self) {
        let waiting: Vec<u64> = (0..8).filter(|core| self.waits(*core).is_some()).collect();
        if waiting.is_empty() && !self.random.once_in(8) {
            return self.forwarded_call();
        }
        let core =
            if waiting.is_empty() || self.random.once_in(16) { self.core() } else { self.random.pick(&waiting) };
        self.reply_to(core);
    }

    fn reply_to(&mut self, core: u64) {
        let kind = match self.random.below(16) {
            0 => self.random.pick(&[0, 2, 3, 5, 6, u64::MAX]),
            _ if self.waits(core) == Some(true) => self.random.pick(&[1, 4]),
            _ => self.random.below(5),
        };
        let mut values = [0; 18];
        let used = if self.is_short() { [0, 1, 4, 18, 0, 0][kind.min(5) as usize] } else { 18 };
        for value in &mut values[..used] {
            *value = self.word();
        }
        let error = match self.random.below(4) {
            0 => self.random.pick(&[0, -1, -2, -3, -4, 1, i32::MIN, i32::MAX]),
            _ => self.random.next() as i32,
        };
        let error = if self.is_short() && kind != 4 { 0 } else { error };
        self.calls.push(Call::Reply { core, kind, values, error });
        if let Some(waiting) = self.waiting.get_mut(core as usize) {
            *waiting = None;
        }
    }

    fn index(&mut self) -> u64 {
        match self.random.below(8) {
            0 => self.random.pick(&[32, 33, 63, 1 << 32, u64::MAX]),
            1 | 2 => 29 + self.random.below(3),
            3 => self.random.pick(&[18, 19, 28]),
            _ => self.random.below(32),
        }
    }

    fn read_gpr(&mut self) {
        let call = Call::ReadGpr { core: self.core(), index: self.index() };
        self.calls.push(call);
    }

    fn write_gpr(&mut self) {
        let call = Call::WriteGpr { core: self.core(), index: self.index(), value: self.word() };
        self.calls.push(call);
    }

    fn key(&mut self) -> u64 {
        let keys = self.keys;
        if self.random.once_in(20) { self.word() } else { self.random.pick(&keys) }
    }

    fn insert(&mut self) {
        let key = self.key();
        self.insert_key(key);
    }

    fn insert_key(&mut self, key: u64) {
        let call = Call::Insert { key, entry_point: self.word(), context_id: self.word() };
        self.calls.push(call);
    }

    fn look_up(&mut self) {
        let call = Call::LookUp { key: self.key() };
        self.calls.push(call);
    }

    fn remove(&mut self) {
        let call = Call::Remove { key: self.key() };
        self.calls.push(call);
    }

    /// An ISS with any bits past the syndrome too.
    fn wide_iss(&mut self) -> u32 {
        let above = if self.random.once_in(2) { self.random.next() << 25 } else { 0 };
        (self.iss() | above) as u32
    }

    fn decode(&mut self) {
        let call = Call::Decode { iss: self.wide_iss(), fipa: self.word(), far: self.word() };
        self.calls.push(call);
    }

    /// Mostly the widths below 64 bits, where the sign may be extended.
    fn extend(&mut self) {
        let mut iss = self.wide_iss();
        if !self.random.once_in(3) {
            iss = iss & !(3 << 22) | (self.random.below(3) as u32) << 22;
        }
        let value = self.word();
        self.calls.push(Call::Extend { iss, value });
    }

    fn address(&mut self) -> u64 {
        match self.random.below(4) {
            0 => 0u64.wrapping_sub(PAGE).wrapping_add(self.random.below(4)).wrapping_sub(2),
            1 => (self.page() * PAGE).wrapping_add(self.random.below(4)).wrapping_sub(2),
            _ => self.word(),
        }
    }

    fn align_down(&mut self) {
        let call = Call::AlignDown { address: self.address() };
        self.calls.push(call);
    }

    fn align_up(&mut self) {
        let call = Call::AlignUp { address: self.address() };
        self.calls.push(call);
    }
}
