//! What each call costs: the proved port's, and that of RITM's own Rust.
//!
//! Without arguments: nanoseconds a call on both sides and their ratio, as a table. `--names` lists the cases.
//! `--only SIDE NAME COUNT` makes one side's call COUNT times, each on a state of its own, for a tool that counts
//! instructions; SIDE is `port`, `rust`, or `port-loop` or `rust-loop` for the loop around that call alone.
//!
//! # The rules of the comparison
//!
//! - A case is one call, with a state prepared beforehand on each side. The two states hold the same, and before
//!   anything is measured the call is made once on a copy of each: both must give the number and the kind that the case
//!   says, the same result, and states that again hold the same.
//! - In the measured loop stands nothing but the call. Both sides' calls are made in the same way: the loop calls a
//!   function pointer with the state, that function takes the arguments from the state and calls, through a second
//!   pointer, the port's C function or RITM's Rust function. Both pointers are hidden from the compiler, so that neither
//!   side is inlined into the loop or computed beforehand. A result stays where the function puts it. A fence after each
//!   call lets it end before the next begins. The same loop with a call that does nothing is subtracted.
//! - Where a call can be repeated on its state it is, sixteen times on each state of a batch: traps leave the guest about
//!   to take the same trap again. What other calls changed is put back between batches, outside of the time.
//! - RITM's functions run on RITM's own data: the two register banks in place, the builder, the registry, the map. The
//!   system registers, the policy in force and the replies are set before the batch; all calls of a batch are the same.
//! - Both sides share one policy among the calls of a batch in traps and searches, as RITM's is one static.
//! - RITM answers a forwarded call in one step, the port in two: the port's trap and its reply are compared with one
//!   `handle_sync_lower`. What the port alone has, or what is half of RITM's step, has no ratio.
//! - RITM has no release. Beside the port's stands what its user would do: a builder made anew, which takes what is
//!   still held by `allow_range` and `handle_range`.
//! - Both sides are release builds: this workspace's profile (no checks of sums, no LTO across crates, the default
//!   codegen units), and the archive as `rt lib` makes it. CARGO_PROFILE_RELEASE_LTO=fat measures RITM with LTO.
//!
//! RITM's environment is stubs. What RITM hands to them is made, and nothing is done with it: no page table is written, no
//! PSCI call is parsed, no monitor is called; messages are dropped. The platform is Qemu's, which answers with a constant
//! of one value, and two more calls that it answers alike, of four values and of eighteen. What the stubs add is small:
//! these two calls are told from Qemu's, the firmware's call is looked at for a refusal, and a system register is read and
//! written by two instructions where the hardware has one.

mod cases;
mod map;
mod numbers;
mod policy;
mod registers;
mod side;
mod traps;

use cases::{CASES, Case};
use side::{Side, Sides};
use std::env;
use std::fs;
use std::process::{self, Command};

/// How many samples are taken on each side, and the batches of a sample. Their sum is taken because a clock may tick
/// every ten nanoseconds.
const SAMPLES: usize = 301;
const BATCHES: usize = 16;
/// Nanoseconds under which a call cannot be told from the call and the return of the loop alone, which hide it.
const HIDDEN: f64 = 1.0;

fn main() {
    if reference::oracle::NOTES {
        fail("the stubs were built to note calls, which costs time; build with --package ritm-bench alone");
    }
    let arguments: Vec<String> = env::args().skip(1).collect();
    let arguments: Vec<&str> = arguments.iter().map(String::as_str).collect();
    match arguments[..] {
        [] => print_times(),
        ["--names"] => print_names(),
        ["--only", side, name, count] => call_only(side, find_case(name), parse_count(count)),
        _ => fail("usage: ritm-bench [--names | --only SIDE NAME COUNT]"),
    }
}

fn fail(message: &str) -> ! {
    eprintln!("ritm-bench: {message}");
    process::exit(2);
}

fn find_case(name: &str) -> &'static Case {
    match CASES.iter().find(|case| case.name == name) {
        Some(case) => case,
        None => fail("there is no such case; --names lists them"),
    }
}

fn parse_count(count: &str) -> usize {
    match count.parse() {
        Ok(count) => count,
        Err(_) => fail("a count is a number"),
    }
}

/// Each case's name, whether it has RITM's side, and what is held.
fn print_names() {
    for case in &CASES {
        let sides = if case.prepare().rust.is_some() { "both" } else { "port" };
        println!("{} {sides} {}", case.name, case.held);
    }
}

fn call_only(side: &str, case: &Case, count: usize) {
    let sides = case.prepare();
    match (side, &sides.rust) {
        ("port", _) => sides.port.call(count),
        ("port-loop", _) => sides.port.call_nothing(count),
        ("rust", Some(rust)) => rust.call(count),
        ("rust-loop", Some(rust)) => rust.call_nothing(count),
        ("rust" | "rust-loop", None) => fail("RITM has no such call"),
        _ => fail("a side is port, rust, port-loop or rust-loop"),
    }
}

fn print_times() {
    println!("{}, {}", processor(), date());
    println!("nanoseconds a call: median of {SAMPLES} samples of {BATCHES} batches, less the loop alone;");
    println!(
        "less than {HIDDEN} is hidden by the loop's own call and return, and counts as up to {HIDDEN} in the ratio"
    );
    println!("{:<20} {:<34} {:>9} {:>9} {:>7}", "call", "held", "port ns", "Rust ns", "ratio");
    for case in &CASES {
        let (port, rust) = time(case.prepare());
        let (rust, ratio) = match rust {
            Some(rust) => (format!("{rust:.2}"), ratio(port, rust)),
            None => ("-".into(), "-".into()),
        };
        println!("{:<20} {:<34} {port:>9.2} {rust:>9} {ratio:>7}", case.name, case.held);
    }
}

/// The ratio of two times: none if the loop hides both, and a bound if it hides RITM's.
fn ratio(port: f64, rust: f64) -> String {
    match (port < HIDDEN, rust < HIDDEN) {
        (true, true) => "-".into(),
        (false, true) => format!(">{:.2}", port / HIDDEN),
        (_, false) => format!("{:.2}", port / rust),
    }
}

/// Nanoseconds a call on each side. Their batches take turns, so that other work on the machine hits both.
fn time(mut sides: Sides) -> (f64, Option<f64>) {
    let mut port = Times::default();
    let mut rust = Times::default();
    for k in 0..SAMPLES * BATCHES {
        port.take_batch(k, &mut *sides.port, sides.rounds);
        if let Some(side) = &mut sides.rust {
            rust.take_batch(k, &mut **side, sides.rounds);
        }
    }
    let calls = |side: &dyn Side| (BATCHES * side.batch() * sides.rounds) as f64;
    (port.median() / calls(&*sides.port), sides.rust.map(|side| rust.median() / calls(&*side)))
}

/// Nanoseconds of each sample, and of each sample of the loop alone.
#[derive(Default)]
struct Times {
    calls: Vec<u128>,
    nothing: Vec<u128>,
}

impl Times {
    /// Times batch `k` of all.
    fn take_batch(&mut self, k: usize, side: &mut dyn Side, rounds: usize) {
        self.calls.resize(k / BATCHES + 1, 0);
        self.nothing.resize(k / BATCHES + 1, 0);
        self.calls[k / BATCHES] += side.time(rounds);
        self.nothing[k / BATCHES] += side.time_nothing(rounds);
    }

    /// The median of the calls' samples less that of the loop's.
    fn median(&mut self) -> f64 {
        self.calls.sort_unstable();
        self.nothing.sort_unstable();
        self.calls[SAMPLES / 2] as f64 - self.nothing[SAMPLES / 2] as f64
    }
}

fn processor() -> String {
    let description = fs::read_to_string("/proc/cpuinfo").unwrap_or_default();
    let model = description.lines().find_map(|line| line.strip_prefix("model name"));
    match model.and_then(|rest| rest.split_once(": ")) {
        Some((_, name)) => name.to_string(),
        None => String::from("an unknown processor"),
    }
}

fn date() -> String {
    match Command::new("date").arg("+%Y-%m-%d").output() {
        Ok(output) => String::from_utf8_lossy(&output.stdout).trim().to_string(),
        Err(_) => String::from("an unknown date"),
    }
}

#[cfg(test)]
mod tests {
    use super::CASES;

    /// The states of RITM are statics, so this is one test.
    #[test]
    fn both_sides_of_every_case_agree() {
        for (k, case) in CASES.iter().enumerate() {
            case.prepare();
            assert!(CASES[..k].iter().all(|other| other.name != case.name), "{} stands twice", case.name);
        }
    }
}
