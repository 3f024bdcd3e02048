//! Both sides take a list, and everything is compared after every call.

use crate::asked::Asked;
use crate::call::{Answer, Call, List};
use crate::mirror::Mirror;
use crate::port::Port;
use crate::ritm_rust::{Released, RitmRust};
use crate::tally::Tally;
use reference::oracle::Half;
use std::cell::{Cell, RefCell};
use std::panic::{self, AssertUnwindSafe};

/// Where a list was first answered differently, and how.
#[derive(Clone, Debug, Eq, PartialEq)]
pub struct Difference {
    /// The place of the call in its list.
    pub at: usize,
    pub what: String,
}

/// What came of one call.
pub struct Step {
    pub port: Answer,
    pub asked: Asked,
    /// The answer that the port owes: RITM's, as it is read, or the refusal that is due where RITM is not asked.
    pub owed: Answer,
    /// The half that the access of a trap goes through.
    pub half: Option<Half>,
    /// What a release takes away.
    pub released: Option<Released>,
}

/// The two sides.
pub struct Sides {
    port: Port,
    rust: RitmRust,
    mirror: Mirror,
}

impl Sides {
    /// Fresh states on both sides, with the list's counter.
    pub fn fresh(list: &List) -> Self {
        Self {
            port: Port::fresh(list.counter),
            rust: RitmRust::fresh(list.counter),
            mirror: Mirror::fresh(list.counter),
        }
    }

    /// Both sides take the call; what differs, if anything, comes with it.
    pub fn step(&mut self, call: &Call) -> (Step, Option<String>) {
        self.step_by(call, |port| port.take(call))
    }

    /// The same, where this makes the port's call: a test may make a wrong one.
    pub fn step_by(&mut self, call: &Call, take: impl FnOnce(&mut Port) -> Answer) -> (Step, Option<String>) {
        let before = self.port.clone();
        let port = take(&mut self.port);
        let asked = Asked::of(call, &mut self.rust);
        let half = if let Call::Trap { trap, .. } = *call { self.rust.half(trap) } else { None };
        let released = if let Call::Release { base, size } = *call { self.rust.released(base, size) } else { None };
        let owed = asked.answer(&mut self.rust);
        if asked.of_ritm() {
            self.mirror.follow(call, &self.rust);
        }
        let what = if port != owed {
            Some("the answers".to_owned())
        } else if port.number != 0 && self.port != before {
            Some("the port's bytes after a refusal".to_owned())
        } else {
            self.mirror.difference(&self.port)
        };
        (Step { port, asked, owed, half, released }, what)
    }
}

thread_local! {
    static PANIC: RefCell<String> = const { RefCell::new(String::new()) };
}

/// Keeps the message of a panic instead of printing it; tests print it too.
pub fn note_panics() {
    panic::set_hook(Box::new(|info| {
        let message = info.payload_as_str().unwrap_or("no message");
        let place = info.location().map_or(String::new(), |at| format!(" at {}:{}", at.file(), at.line()));
        if cfg!(test) {
            eprintln!("{message}{place}");
        }
        PANIC.with_borrow_mut(|noted| *noted = format!("{message}{place}"));
    }));
}

/// The message of the last panic.
pub fn noted_panic() -> String {
    PANIC.with_borrow(String::clone)
}

/// Both sides take the list, until they differ. RITM's panic within its domain is a difference too.
pub fn run(list: &List, tally: &mut Tally) -> Option<Difference> {
    let at = Cell::new(0);
    let run = AssertUnwindSafe(|| {
        let mut sides = Sides::fresh(list);
        for (place, call) in list.calls.iter().enumerate() {
            at.set(place);
            let (step, what) = sides.step(call);
            tally.count(call, &step);
            if let Some(what) = what {
                return Some(what);
            }
        }
        None
    });
    let what = panic::catch_unwind(run).unwrap_or_else(|_| Some(format!("RITM panicked: {}", noted_panic())));
    what.map(|what| Difference { at: at.get(), what })
}

/// Prints each call of the list with both answers, up to the difference.
pub fn print(list: &List, difference: &Difference) {
    println!("fresh states, counter {:#x}", list.counter);
    let mut sides = Sides::fresh(list);
    for (place, call) in list.calls.iter().take(difference.at + 1).enumerate() {
        println!("{}. {call}", place + 1);
        match panic::catch_unwind(AssertUnwindSafe(|| sides.step(call).0)) {
            Ok(Step { port, asked, owed, .. }) => {
                println!("     port: {port}");
                println!("     {asked}: {owed}");
            }
            Err(_) => println!("     RITM panics"),
        }
    }
    println!("Different: {}", difference.what);
}
