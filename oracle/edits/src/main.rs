//! The test of the oracle itself: each edited copy of RITM must be found.
//!
//! `edits SOURCES TARGET` makes the copies in a folder of TARGET, builds the driver against each, with TARGET for the
//! build too so that only what depends on the sources is built again, and runs it.

mod list;

use list::{EDITS, Edit};
use std::path::{Path, PathBuf};
use std::process::{Command, ExitCode};
use std::time::Instant;
use std::{env, fs};

/// The lists that the driver makes.
const SEED: &str = "1";
/// How the driver begins the report of a difference, before the number of its list.
const REPORT: &str = "Difference in list ";

fn main() -> ExitCode {
    let arguments: Vec<PathBuf> = env::args_os().skip(1).map(PathBuf::from).collect();
    let [sources, target] = &arguments[..] else {
        eprintln!("edits SOURCES TARGET");
        return ExitCode::from(2);
    };
    let start = Instant::now();
    let copy = Copy { sources: sources.clone(), folder: target.join("sources"), target: target.clone() };
    match check_all(&copy) {
        Ok(()) => {
            println!("{} edits found, {:.0} s.", EDITS.len(), start.elapsed().as_secs_f64());
            ExitCode::SUCCESS
        }
        Err(failure) => {
            println!("{failure}");
            ExitCode::FAILURE
        }
    }
}

/// A copy of RITM's sources, and where the driver is built against it.
struct Copy {
    sources: PathBuf,
    folder: PathBuf,
    target: PathBuf,
}

/// The copy as it is shows no difference, and then each edit one.
fn check_all(copy: &Copy) -> Result<(), String> {
    copy_folder(&copy.sources, &copy.folder).map_err(|error| format!("RITM's sources cannot be copied: {error}"))?;
    let most = EDITS.iter().map(|edit| edit.lists).max().unwrap_or_default();
    if let Some(list) = copy.first_difference(most)? {
        return Err(format!("a difference in list {list} with no edit at all"));
    }
    EDITS.iter().try_for_each(|edit| check(copy, edit))
}

/// Makes the edit, finds it, and takes it back.
fn check(copy: &Copy, edit: &Edit) -> Result<(), String> {
    let file = copy.folder.join(edit.file);
    let text = fs::read_to_string(&file).map_err(|error| format!("{}: {error}", file.display()))?;
    let times = text.matches(edit.old).count();
    if times != 1 {
        return Err(format!("{}: the text to be edited stands {times} times in {}", edit.name, edit.file));
    }
    let write = |text: &str| fs::write(&file, text).map_err(|error| format!("{}: {error}", file.display()));
    write(&text.replace(edit.old, edit.new))?;
    let found = copy.first_difference(edit.lists);
    write(&text)?;
    match found? {
        Some(list) => println!("{}: found in list {list} of {}", edit.name, edit.lists),
        None => return Err(format!("{}: not found in {} lists", edit.name, edit.lists)),
    }
    Ok(())
}

impl Copy {
    /// Builds the driver against the copy, runs it, and gives the list of its first difference.
    fn first_difference(&self, lists: u64) -> Result<Option<u64>, String> {
        let built = Command::new("cargo")
            .args(["build", "--quiet", "--package", "oracle"])
            .env("RITM_SRC", &self.folder)
            .env("CARGO_TARGET_DIR", &self.target)
            .env("RUSTFLAGS", "--cap-lints=allow")
            .status();
        if !built.is_ok_and(|status| status.success()) {
            return Err("the driver cannot be built against the copy".to_owned());
        }
        let driver = self.target.join("debug/oracle");
        let output = Command::new(&driver).args(["compare", SEED, &lists.to_string()]).output();
        let output = output.map_err(|error| format!("{}: {error}", driver.display()))?;
        let text = String::from_utf8_lossy(&output.stdout);
        let report = text.lines().find_map(|line| line.strip_prefix(REPORT));
        match (output.status.code(), report) {
            (Some(0), None) => Ok(None),
            (Some(1), Some(report)) => {
                let number: String = report.chars().take_while(char::is_ascii_digit).collect();
                number.parse().map(Some).map_err(|_| format!("no list is named: {text}"))
            }
            _ => Err(format!("the driver ended with {}: {text}", output.status)),
        }
    }
}

/// Copies a folder, so that the copies can be written.
fn copy_folder(from: &Path, to: &Path) -> std::io::Result<()> {
    fs::create_dir_all(to)?;
    for entry in fs::read_dir(from)? {
        let entry = entry?;
        let copy = to.join(entry.file_name());
        if entry.file_type()?.is_dir() {
            copy_folder(&entry.path(), &copy)?;
        } else {
            fs::write(copy, fs::read(entry.path())?)?;
        }
    }
    Ok(())
}
