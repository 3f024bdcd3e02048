//! RITM's own Rust and the proved port take the same lists of calls, and every answer and state is compared.

mod asked;
mod call;
mod compare;
#[cfg(test)]
mod edges;
mod facts;
mod function;
mod generate;
mod mirror;
mod port;
mod random;
mod record;
#[cfg(test)]
mod releases;
mod ritm_rust;
#[cfg(test)]
mod roundings;
mod shrink;
mod tally;
#[cfg(test)]
mod wrong_releases;

use call::List;
use compare::Difference;
use std::process::ExitCode;
use std::time::Instant;
use tally::Tally;

const USAGE: &str =
    "oracle compare SEED LISTS | oracle records SEED LISTS | oracle facts | oracle sums | oracle record";

fn main() -> ExitCode {
    let arguments: Vec<String> = std::env::args().skip(1).collect();
    let arguments: Vec<&str> = arguments.iter().map(String::as_str).collect();
    compare::note_panics();
    match arguments[..] {
        [what @ ("compare" | "records"), seed, lists] => match (what, seed.parse(), lists.parse()) {
            ("compare", Ok(seed), Ok(lists)) => compare_lists(seed, lists),
            ("records", Ok(seed), Ok(lists)) => write_records(seed, lists),
            _ => usage(),
        },
        ["facts"] => print_text(&facts::text()),
        ["sums"] => print_text(&facts::sums_text()),
        ["record"] => print_text(&record::text()),
        _ => usage(),
    }
}

fn usage() -> ExitCode {
    eprintln!("{USAGE}");
    ExitCode::from(2)
}

fn print_text(text: &str) -> ExitCode {
    print!("{text}");
    ExitCode::SUCCESS
}

/// Writes records of lists, and on standard error how many they are. Whoever reads them may stop before the end.
fn write_records(seed: u64, lists: u64) -> ExitCode {
    match record::write(seed, lists) {
        Ok(count) => {
            eprint!("{count}");
            ExitCode::SUCCESS
        }
        Err(error) => {
            eprintln!("oracle: {error}");
            ExitCode::FAILURE
        }
    }
}

/// Both sides take lists until they differ; prints how often each answer was met, and the first difference.
fn compare_lists(seed: u64, lists: u64) -> ExitCode {
    let start = Instant::now();
    let mut tally = Tally::default();
    let mut different = None;
    while tally.lists < lists && different.is_none() {
        let list = generate::list(seed, tally.lists);
        different = compare::run(&list, &mut tally).map(|difference| (list, difference));
        tally.lists += 1;
    }
    let seconds = start.elapsed().as_secs_f64();
    let (lists, calls) = (tally.lists, tally.calls);
    println!("{tally}");
    println!(
        "Seed {seed}: {lists} lists, {calls} calls, {seconds:.1} s, {:.2} million calls a second.",
        calls as f64 / seconds / 1e6
    );
    match different {
        None => print_text("No difference.\n"),
        Some((list, difference)) => report(lists, list, &difference),
    }
}

/// Prints the list of the first difference, cut down to what shows one.
fn report(number: u64, mut list: List, difference: &Difference) -> ExitCode {
    list.calls.truncate(difference.at + 1);
    let run = |list: &List| compare::run(list, &mut Tally::default());
    let short = shrink::shrink(&list, |list| run(list).is_some());
    let difference = run(&short).expect("a list that was cut down shows a difference");
    println!("Difference in list {number}; {} of its calls show one:", short.calls.len());
    compare::print(&short, &difference);
    ExitCode::FAILURE
}
