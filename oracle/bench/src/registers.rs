//! A core's registers, read and written one by one.

use crate::side::{Call, Sides, State};
use reference::aarch64_rt::RegisterState;
use reference::exceptions::{GuestRegisterStateRef, GuestRegisterWriteError, GuestRegisters};
use ritm::ffi;

const WRITTEN: u64 = 0x55aa;

type ReadFunction = extern "C" fn(&ffi::Cores, u64, u64, &mut ffi::WordResult) -> u64;
type WriteFunction = extern "C" fn(&mut ffi::Cores, u64, u64, u64) -> u64;
type View = GuestRegisterStateRef<'static>;
type RustRead = fn(&View, usize) -> Option<u64>;
type RustWrite = unsafe fn(&mut View, usize, u64) -> Result<(), GuestRegisterWriteError>;

/// The port's cores, and the arguments.
#[derive(Clone)]
struct PortRegisters {
    cores: ffi::Cores,
    core: u64,
    index: u64,
    value: u64,
    word: ffi::WordResult,
}

impl PortRegisters {
    fn new(index: u64) -> Self {
        let mut state = Self { cores: ffi::Cores::ZERO, core: 0, index, value: WRITTEN, word: ffi::WordResult::ZERO };
        assert_eq!(ffi::ritm_fresh_cores(&mut state.cores), 0, "fresh cores");
        for index in 0..31 {
            assert_eq!(ffi::ritm_write_gpr(&mut state.cores, state.core, index, held_in(index)), 0, "a register");
        }
        state
    }
}

/// What a register holds before the call.
fn held_in(index: u64) -> u64 {
    0x100 + index
}

impl State for PortRegisters {
    fn put_back(&mut self, _: &Self) {}

    fn words(&self) -> Vec<u64> {
        self.cores.get_all::<31>(0).to_vec()
    }
}

/// RITM's view of its register banks, which it makes once a trap, and the arguments.
struct Viewed {
    view: View,
    index: usize,
    value: u64,
}

impl Viewed {
    fn new(index: u64) -> Self {
        Self { view: view(held_in), index: index as usize, value: WRITTEN }
    }
}

/// A view of banks of its own.
fn view(held: impl Fn(u64) -> u64) -> View {
    let banks = Box::leak(Box::new(GuestRegisters::new(RegisterState::default(), [0; 10])));
    let mut view = banks.view();
    for index in 0..31 {
        // SAFETY: no guest runs on these registers.
        unsafe { view.write_gpr(index as usize, held(index)) }.expect("a register");
    }
    view
}

impl Clone for Viewed {
    fn clone(&self) -> Self {
        let view = view(|index| self.view.read_gpr(index as usize).expect("a register"));
        Self { view, index: self.index, value: self.value }
    }
}

impl State for Viewed {
    fn put_back(&mut self, _: &Self) {}

    fn words(&self) -> Vec<u64> {
        (0..31).map(|index| self.view.read_gpr(index).expect("a register")).collect()
    }
}

pub fn read(index: u64) -> Sides {
    let port = Call {
        state: PortRegisters::new(index),
        function: ffi::ritm_read_gpr as ReadFunction,
        call: |state: &mut PortRegisters, function| function(&state.cores, state.core, state.index, &mut state.word),
        answer: |state, number| vec![number, state.word.get(0)],
    };
    let rust = Call {
        state: Viewed::new(index),
        function: GuestRegisterStateRef::read_gpr as RustRead,
        call: |state: &mut Viewed, function| function(&state.view, state.index),
        answer: |_, result| vec![0, result.expect("a register")],
    };
    Sides::compared(0, port, rust).repeated()
}

pub fn write(index: u64) -> Sides {
    let port = Call {
        state: PortRegisters::new(index),
        function: ffi::ritm_write_gpr as WriteFunction,
        call: |state: &mut PortRegisters, function| function(&mut state.cores, state.core, state.index, state.value),
        answer: |_, number| vec![number],
    };
    let rust = Call {
        state: Viewed::new(index),
        function: GuestRegisterStateRef::write_gpr as RustWrite,
        // SAFETY: no guest runs on these registers.
        call: |state: &mut Viewed, function| unsafe { function(&mut state.view, state.index, state.value) },
        answer: |_, result| vec![u64::from(result.is_err())],
    };
    Sides::compared(0, port, rust).repeated()
}
