//! Stands for `smccc`: a secure monitor that notes a call and answers what was set.
//!
//! Without the feature `notes` nothing is noted: RITM hands the call over, and nothing is done with it.
#![no_std]

use core::cell::Cell;
use core::sync::atomic::{AtomicU64, Ordering};

extern crate std;

std::thread_local! {
    static CALL: Cell<Option<[u64; 18]>> = const { Cell::new(None) };
}

static ANSWER: AtomicU64 = AtomicU64::new(0);

/// Sets what the next calls give in x0.
pub fn set_answer(x0: u64) {
    ANSWER.store(x0, Ordering::Relaxed);
}

/// x0 to x17 of the last call that was noted, which is then forgotten.
pub fn take_call() -> Option<[u64; 18]> {
    CALL.take()
}

/// A way to call the monitor.
pub trait Call {}

/// The SMC instruction.
pub struct Smc;

impl Call for Smc {}

/// Calls the monitor with a function in x0 and x1 to x17.
#[inline]
pub fn smc64(function: u32, args: [u64; 17]) -> [u64; 18] {
    note(function, &args);
    let mut results = [0; 18];
    results[0] = ANSWER.load(Ordering::Relaxed);
    results
}

#[cfg(feature = "notes")]
fn note(function: u32, args: &[u64; 17]) {
    let mut registers = [0; 18];
    registers[0] = function.into();
    registers[1..].copy_from_slice(args);
    CALL.set(Some(registers));
}

#[cfg(not(feature = "notes"))]
#[inline]
fn note(function: u32, args: &[u64; 17]) {
    core::hint::black_box((function, args));
}

/// The Arm Architecture Calls.
pub mod arch {
    /// DEN0028, section 7.1: return codes.
    #[derive(Clone, Copy, Debug, Eq, PartialEq)]
    pub enum Error {
        NotSupported,
        NotRequired,
        InvalidParameter,
        Unknown(i32),
    }

    impl From<i32> for Error {
        #[inline]
        fn from(code: i32) -> Self {
            match code {
                -1 => Self::NotSupported,
                -2 => Self::NotRequired,
                -3 => Self::InvalidParameter,
                _ => Self::Unknown(code),
            }
        }
    }

    impl From<Error> for i32 {
        #[inline]
        fn from(error: Error) -> Self {
            match error {
                Error::NotSupported => -1,
                Error::NotRequired => -2,
                Error::InvalidParameter => -3,
                Error::Unknown(code) => code,
            }
        }
    }
}

/// PSCI's return codes.
pub mod psci {
    #[derive(Clone, Copy, Debug, Eq, PartialEq)]
    pub struct Error(pub i64);

    impl From<Error> for i64 {
        fn from(error: Error) -> Self {
            error.0
        }
    }
}
