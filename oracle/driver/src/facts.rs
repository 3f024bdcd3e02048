//! What RITM does where the port refuses with 10 to 16, 18 or 20, where it goes by the function identifier, where a
//! half is absent, where a range is released, and where a sum wraps: each asked once, as a table.

use crate::call::{Answer, Call, TRAP_HINT, TRAP_KIND, TRAP_VALUES};
use crate::compare;
use crate::mirror;
use crate::port::{self, Port};
use crate::ritm_rust::RitmRust;
use reference::oracle::{Half, Trap};
use std::collections::BTreeMap;
use std::fmt::Write;
use std::panic::{self, AssertUnwindSafe};
use std::slice;

const HVC: u64 = 0x16 << 26;
const SMC: u64 = 0x17 << 26;
const DATA_ABORT: u64 = 0x24 << 26;
/// ISS of a 64-bit load into x5, SF set; the one of 32 bits; into x31; with SF clear; a 64-bit store from x5.
const LOAD: u64 = 0x1C5_8000;
const LOAD_32: u64 = 0x185_8000;
const LOAD_TO_31: u64 = 0x1DF_8000;
const LOAD_SF_CLEAR: u64 = 0x1C5_0000;
const STORE: u64 = 0x1C5_8040;
const PAGE: u64 = 0x0F00_0000;
const COUNTER_WORD: u64 = PAGE + 16;
const VECTOR: u64 = 0x8_0000;
/// The SPSR of a guest at EL1, on its own stack.
const EL1H: u64 = 5;
/// 2^64, from which addresses are counted back.
const END: u64 = 0;

/// A call after some others, on fresh states.
#[derive(Clone)]
struct Case {
    counter: u64,
    before: Vec<Call>,
    call: Call,
}

/// What there is to be seen after a call: its answer, the first core and the counter.
struct View {
    answer: Answer,
    core: [u64; 37],
    counter: u64,
}

impl View {
    fn elr(&self) -> u64 {
        self.core[31]
    }
}

impl Case {
    fn new(before: &[Call], call: Call) -> Self {
        Self { counter: 0, before: before.to_vec(), call }
    }

    /// A data abort of a guest at EL1.
    fn abort(before: &[Call], iss: u64, ipa: u64, vbar: u64) -> Self {
        Self::new(&[before, &[saved(0)]].concat(), trap(DATA_ABORT | iss, ipa, vbar))
    }

    /// The view of RITM's Rust, or the first line of its panic.
    fn on_rust(&self) -> Result<View, String> {
        let run = AssertUnwindSafe(|| {
            let mut rust = RitmRust::fresh(self.counter);
            self.before.iter().for_each(|call| assert_eq!(rust.take(call).number, 0));
            let answer = rust.take(&self.call);
            View { answer, core: mirror::core_words(&rust.cores[0]), counter: rust.oracle.counter() }
        });
        panic::catch_unwind(run).map_err(|_| first_line(&compare::noted_panic()))
    }

    fn on_port(&self) -> View {
        let mut port = Port::fresh(self.counter);
        self.before.iter().for_each(|call| assert_eq!(port.take(call).number, 0));
        let answer = port.take(&self.call);
        View { answer, core: port.cores.get_all(0), counter: port.cores.get(port::COUNTER) }
    }
}

/// The first line of a message, up to the values that it shows.
fn first_line(message: &str) -> String {
    let line = message.lines().next().unwrap_or_default();
    let end = [", register_state=", " at "].iter().filter_map(|mark| line.find(mark)).min().unwrap_or(line.len());
    format!("panics: {}", &line[..end])
}

fn trap(esr: u64, ipa: u64, vbar: u64) -> Call {
    Call::Trap { core: 0, trap: Trap { esr, fipa: ipa / 4096, far: ipa % 4096, vbar } }
}

fn region(read: u64, write: u64) -> Call {
    Call::Handle { base: PAGE, size: 4096, read, write }
}

/// The registers of a guest at EL1.
fn saved(elr: u64) -> Call {
    let mut registers = [0; 33];
    [registers[31], registers[32]] = [elr, EL1H];
    Call::Save { core: 0, registers }
}

fn reply(kind: u64) -> Call {
    Call::Reply { core: 0, kind, values: [7; 18], error: 0 }
}

/// The table of all facts.
pub fn text() -> String {
    let mut table = Table::default();
    table.title("Calls that the port refuses and RITM cannot be asked");
    not_asked(&mut table);
    table.title("Calls that the port refuses and RITM panics at or answers with a wrapped sum");
    refused(&mut table);
    above_the_last_page(&mut table);
    table.title("Guests' calls, which the port takes by the function identifier and RITM by all of x0");
    guest_calls(&mut table);
    table.title(
        "Accesses through an absent half, x5 holding 7: the port serves them quietly, RITM has no handler there",
    );
    absent_halves(&mut table);
    table.title("Releases, which RITM does not have");
    releases(&mut table);
    table.title("Calls that both answer: sums that wrap, and what counts");
    sums(&mut table);
    limits(&mut table);
    table.text
}

/// The table of the sums alone, at which RITM built with overflow checks panics.
pub fn sums_text() -> String {
    let mut table = Table::default();
    table.title("Sums that wrap");
    above_the_last_page(&mut table);
    sums(&mut table);
    table.text
}

#[derive(Default)]
struct Table {
    text: String,
}

impl Table {
    fn title(&mut self, title: &str) {
        let gap = if self.text.is_empty() { "" } else { "\n" };
        writeln!(self.text, "{gap}{title}").expect("a string takes any text");
    }

    fn row(&mut self, asked: &str, rust: &str, port: &str) {
        writeln!(self.text, "  {asked}\n    RITM: {rust}\n    port: {port}").expect("a string takes any text");
    }

    /// A case that both sides take, as seen by `show`.
    fn both(&mut self, asked: &str, case: &Case, show: impl Fn(&View) -> String) {
        let rust = case.on_rust().map_or_else(|panic| panic, |view| show(&view));
        self.row(asked, &rust, &show(&case.on_port()));
    }
}

fn number(view: &View) -> String {
    view.answer.to_string()
}

/// The value of an accepted call that has one.
fn value(view: &View) -> String {
    match view.answer.number {
        0 => format!("accepted, {:#x}", view.answer.words()[0]),
        refusal => refusal.to_string(),
    }
}

fn not_asked(table: &mut Table) {
    let hvc = trap(HVC, 0, 0);
    let firmware = [Call::WriteGpr { core: 0, index: 0, value: 0x8400_0000 }, hvc.clone()];
    let no_number = "one core's registers are at hand; cores have no number";
    let no_wait = "a call is answered within its trap; no core waits";
    let no_kind = "a reply is an HvcResult, which has no other kind";
    let no_half = "a half is an optional function";
    let rows: [(&str, &[Call], Call, &str); 7] = [
        ("save, core 8", &[], Call::Save { core: 8, registers: [0; 33] }, no_number),
        ("write_gpr, core 8", &[], Call::WriteGpr { core: 8, index: 0, value: 0 }, no_number),
        ("a trap after an HVC, with no reply between", slice::from_ref(&hvc), hvc.clone(), no_wait),
        ("a reply on a fresh core", &[], reply(1), no_wait),
        ("a reply of kind 5", slice::from_ref(&hvc), reply(5), no_kind),
        ("a reply of kind 2 for the firmware", &firmware, reply(2), "try_handle_psci gives one value or an error"),
        ("handle, read half 3", &[], region(3, 0), no_half),
    ];
    for (asked, before, call, why) in rows {
        table.row(asked, why, &number(&Case::new(before, call).on_port()));
    }
}

fn refused(table: &mut Table) {
    classes(table);
    let aborts: [(&str, &[Call], u64, u64); 5] = [
        ("no region", &[], LOAD, PAGE),
        ("ISV clear", &[region(1, 1)], 0, PAGE),
        ("read half 2", &[region(2, 1)], LOAD, PAGE),
        ("write half 2", &[region(1, 2)], STORE, PAGE + 8),
        ("a fault of the page", &[region(1, 1)], LOAD_32, COUNTER_WORD),
    ];
    for (why, before, iss, ipa) in aborts {
        let case = Case::abort(before, iss, ipa, 0);
        table.both(&format!("a data abort to be injected, {why}, VBAR 0"), &case, number);
    }
    let entries: Vec<Call> = (0..8).map(|key| Call::Insert { key, entry_point: 1, context_id: 2 }).collect();
    let ninth = Case::new(&entries, Call::Insert { key: 8, entry_point: 1, context_id: 2 });
    table.both("insert, a ninth key", &ninth, number);
}

fn above_the_last_page(table: &mut Table) {
    for below in [4095, 1] {
        let case = Case::new(&[], Call::AlignUp { address: END.wrapping_sub(below) });
        table.both(&format!("align up, 2^64 - {below}"), &case, value);
    }
}

/// Calls with an upper half in x0 and with bit 16, of a fast call and of a yielding one.
fn guest_calls(table: &mut Table) {
    for x0 in [0x1_8400_0000, 0x8401_0000, 0x0401_0000] {
        let case = Case::new(&[Call::WriteGpr { core: 0, index: 0, value: x0 }], trap(HVC, 0, 0));
        let rust = case.on_rust().map_or_else(|panic| panic, |view| handed_out(&view));
        let port = case.on_port();
        let hint = port.answer.words()[TRAP_HINT];
        table.row(&format!("HVC, x0 {x0:#x}"), &rust, &format!("{}, hint {hint}", handed_out(&port)));
    }
}

/// Loads and stores through an absent half, with a vector and with none. RITM is asked as it is, with a missing
/// handler: the functions that serve quietly in the comparison are not its own.
fn absent_halves(table: &mut Table) {
    let rows = [
        ("a load of 64 bits into x5 at offset 0", LOAD, PAGE),
        ("a load of 32 bits into x5 at offset 3", LOAD_32, PAGE + 3),
        ("a load of 64 bits into x5 at offset 16, the counter word's", LOAD, COUNTER_WORD),
        ("a store of 64 bits from x5 at offset 8", STORE, PAGE + 8),
    ];
    let x5 = Call::WriteGpr { core: 0, index: 5, value: 7 };
    for (access, iss, ipa) in rows {
        for (vector, vbar) in [("VBAR 0x80000", VECTOR), ("VBAR 0", 0)] {
            let through = |half: Half| {
                let before = [region(half as u64, half as u64), saved(0), x5.clone()];
                Case { counter: 3, ..Case::new(&before, trap(DATA_ABORT | iss, ipa, vbar)) }
            };
            let rust = through(Half::Missing).on_rust().map_or_else(|panic| panic, |view| accessed(&view));
            table.row(&format!("{access}, {vector}"), &rust, &accessed(&through(Half::Quiet).on_port()));
        }
    }
}

/// Releases of what is held and of what is not.
fn releases(table: &mut Table) {
    let why = "Stage2Builder has no call that takes a range back, and Stage2Config has none at all";
    let before = [Call::Allow { base: 0, size: 4096, attributes: 0 }, region(1, 1)];
    let rows = [
        ("release, an allowed range", 0, 4096),
        ("release, a region", PAGE, 4096),
        ("release, the base of an allowed range and another size", 0, 8192),
    ];
    for (asked, base, size) in rows {
        table.row(asked, why, &number(&Case::new(&before, Call::Release { base, size }).on_port()));
    }
}

/// What came of an access with x5.
fn accessed(view: &View) -> String {
    let kind = view.answer.words()[TRAP_KIND];
    format!("kind {kind}, x5 {:#x}, ELR {:#x}, counter {:#x}", view.core[5], view.elr(), view.counter)
}

/// Who is handed a call, and what in place of x0.
fn handed_out(view: &View) -> String {
    let words = view.answer.words();
    let recipient = match words[TRAP_KIND] {
        4 => "the firmware",
        5 => "the platform",
        kind => return format!("kind {kind}"),
    };
    format!("to {recipient} with {:#x}", words[TRAP_VALUES])
}

/// Every exception class but the three, counted by what comes of it.
fn classes(table: &mut Table) {
    let mut rust = BTreeMap::new();
    let mut port = BTreeMap::new();
    for class in (0..64).filter(|class| ![0x16, 0x17, 0x24].contains(class)) {
        let case = Case::new(&[], trap(class << 26, 0, VECTOR));
        let answer = case.on_rust().map_or_else(|panic| panic, |view| number(&view));
        let (esr, ec) = (format!("esr={:#x}", class << 26), format!("ec={class:#x}"));
        *rust.entry(answer.replace(&esr, "esr=ESR").replace(&ec, "ec=EC")).or_insert(0) += 1;
        *port.entry(number(&case.on_port())).or_insert(0) += 1;
    }
    let told = |counts: BTreeMap<String, u64>| {
        let each: Vec<String> = counts.iter().map(|(answer, times)| format!("{times} times {answer}")).collect();
        each.join("; ")
    };
    table.row("a trap of each class but 0x16, 0x17, 0x24", &told(rust), &told(port));
}

fn sums(table: &mut Table) {
    let elr = |view: &View| format!("ELR {:#x}", view.elr());
    for below in [4, 1] {
        let at = END.wrapping_sub(below);
        let smc = [saved(at), trap(SMC, 0, 0)];
        table.both(&format!("SMC and reply, ELR 2^64 - {below}"), &Case::new(&smc, reply(1)), elr);
        let hvc = [saved(at), trap(HVC, 0, 0)];
        table.both(&format!("HVC and reply, ELR 2^64 - {below}"), &Case::new(&hvc, reply(1)), elr);
        let load = Case::new(&[region(1, 1), saved(at)], trap(DATA_ABORT | LOAD, PAGE, VECTOR));
        table.both(&format!("load, ELR 2^64 - {below}"), &load, elr);
    }
    for below in [0x200, 1] {
        let case = Case::abort(&[], LOAD, PAGE, END.wrapping_sub(below));
        table.both(&format!("abort, VBAR 2^64 - {below:#x}"), &case, elr);
    }
    counters(table);
}

/// The last address, range and page number that do not wrap, and the first that does.
fn limits(table: &mut Table) {
    for below in [4097, 4096] {
        let case = Case::new(&[], Call::AlignUp { address: END.wrapping_sub(below) });
        table.both(&format!("align up, 2^64 - {below}"), &case, value);
    }
    for below in [8192, 4096] {
        let case = Case::new(&[], Call::Allow { base: END.wrapping_sub(below), size: 4096, attributes: 0 });
        table.both(&format!("allow, 4096 bytes at 2^64 - {below}"), &case, number);
    }
    let fipa = Case::new(&[], Call::Decode { iss: LOAD as u32, fipa: 1 << 52 | 0xF000, far: 16 });
    table.both("decode, FIPA 2^52 + 0xf000, FAR 0x10: the IPA", &fipa, value);
}

/// Loads of the counter word.
fn counters(table: &mut Table) {
    let show =
        |view: &View| format!("kind {}, x5 {:#x}, counter {:#x}", view.answer.words()[0], view.core[5], view.counter);
    let rows = [
        ("counter 2^64 - 1, its word loaded into x5", u64::MAX, LOAD),
        ("counter 2^64 - 1, its word loaded into x31", u64::MAX, LOAD_TO_31),
        ("counter 2^64 - 1, its word loaded into x5 with SF clear", u64::MAX, LOAD_SF_CLEAR),
        ("counter 3, 32 bits of its word loaded into x5", 3, LOAD_32),
    ];
    for (asked, counter, iss) in rows {
        let case = Case { counter, ..Case::abort(&[region(1, 1)], iss, COUNTER_WORD, VECTOR) };
        table.both(asked, &case, show);
    }
}

#[cfg(test)]
mod tests {
    #[test]
    fn the_facts_are_as_recorded() {
        crate::compare::note_panics();
        assert_eq!(super::text(), include_str!("../../facts.txt"));
    }
}
