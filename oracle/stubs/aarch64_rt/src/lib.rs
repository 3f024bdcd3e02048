//! Stands for `aarch64-rt`: the registers that its vector code saves, and no core to start.
#![no_std]

use core::ops::Deref;
use smccc::{Call, psci::Error};

/// x0 to x18, x29, x30, ELR and SPSR.
#[derive(Clone, Debug, Default, Eq, PartialEq)]
#[repr(C)]
pub struct RegisterState {
    pub registers: [u64; 19],
    pub fp: u64,
    /// The link register: the field bears this name in `aarch64-rt`.
    pub sp: u64,
    pub elr: usize,
    pub spsr: u64,
}

#[derive(Debug)]
#[repr(transparent)]
pub struct RegisterStateRef<'a>(&'a mut RegisterState);

impl<'a> RegisterStateRef<'a> {
    #[inline]
    pub fn new(state: &'a mut RegisterState) -> Self {
        Self(state)
    }

    /// # Safety
    ///
    /// In `aarch64-rt` the change must be one that the interrupted code can bear.
    #[inline]
    pub unsafe fn get_mut(&mut self) -> &mut RegisterState {
        self.0
    }
}

impl Deref for RegisterStateRef<'_> {
    type Target = RegisterState;

    #[inline]
    fn deref(&self) -> &RegisterState {
        self.0
    }
}

pub trait ExceptionHandlers {
    extern "C" fn sync_lower(register_state: RegisterStateRef);
}

/// Room for a core's stack. Nothing runs on it.
pub struct Stack<const PAGES: usize>([[u8; 4096]; PAGES]);

impl<const PAGES: usize> Default for Stack<PAGES> {
    fn default() -> Self {
        Self([[0; 4096]; PAGES])
    }
}

/// # Safety
///
/// Nothing is started.
pub unsafe fn start_core<C: Call, F: FnOnce() + Send + 'static, const PAGES: usize>(
    _mpidr: u64,
    _stack: *mut Stack<PAGES>,
    _run: F,
) -> Result<(), Error> {
    unimplemented!("no core is started")
}

/// # Safety
///
/// Nothing is suspended.
pub unsafe fn suspend_core<C: Call>(
    _power_state: u32,
    _stack: *mut u64,
    _resume: extern "C" fn(u64) -> !,
    _data: u64,
) -> Result<(), Error> {
    unimplemented!("no core is suspended")
}

pub struct InitialPagetable(pub [usize; 512]);

#[macro_export]
macro_rules! initial_pagetable {
    ($table:expr) => {
        const _: $crate::InitialPagetable = $table;
    };
}
