//! Stands for `arm-psci` with no parsing: each call is noted, and either forwarded to the monitor or refused, as was set.
//!
//! Without the feature `notes` nothing is noted: RITM hands the call over, and nothing is done with it.

use std::cell::Cell;

thread_local! {
    static CALL: Cell<Option<[u64; 4]>> = const { Cell::new(None) };
    static REFUSAL: Cell<Option<i32>> = const { Cell::new(None) };
}

/// x0 to x3 of the last call that was noted, which is then forgotten.
pub fn take_call() -> Option<[u64; 4]> {
    CALL.take()
}

/// With `Some(code)` the next calls end in that error; with `None` they go to the monitor.
pub fn set_refusal(code: Option<i32>) {
    REFUSAL.set(code);
}

#[derive(Clone, Copy, Debug)]
pub struct Error(i32);

#[derive(Clone, Copy, Debug)]
pub struct ErrorCode(i32);

impl From<Error> for ErrorCode {
    fn from(error: Error) -> Self {
        Self(error.0)
    }
}

impl From<ErrorCode> for i32 {
    fn from(code: ErrorCode) -> Self {
        code.0
    }
}

pub enum ReturnCode {
    Success,
}

impl From<ReturnCode> for i32 {
    fn from(_: ReturnCode) -> Self {
        0
    }
}

#[derive(Clone, Copy, Debug)]
pub struct Mpidr(u64);

impl From<Mpidr> for u64 {
    fn from(mpidr: Mpidr) -> Self {
        mpidr.0
    }
}

#[derive(Clone, Copy, Debug)]
pub struct PowerState(u32);

impl From<PowerState> for u32 {
    fn from(state: PowerState) -> Self {
        state.0
    }
}

#[derive(Clone, Copy, Debug)]
pub struct EntryPoint {
    address: u64,
    context_id: u64,
}

impl EntryPoint {
    pub fn entry_point_address(&self) -> u64 {
        self.address
    }

    pub fn context_id(&self) -> u64 {
        self.context_id
    }
}

/// Every variant that RITM's `handle_psci` names. Only `Version`, which it forwards, is made here.
#[derive(Clone, Copy, Debug)]
pub enum Function {
    Version,
    CpuSuspend { state: PowerState, entry: EntryPoint },
    CpuOff,
    CpuOn { target_cpu: Mpidr, entry: EntryPoint },
    AffinityInfo {},
    Migrate {},
    MigrateInfoType,
    MigrateInfoUpCpu {},
    SystemOff,
    SystemOff2 {},
    SystemReset,
    SystemReset2 {},
    MemProtect {},
    MemProtectCheckRange {},
    Features {},
    CpuFreeze,
    CpuDefaultSuspend {},
    NodeHwState {},
    SystemSuspend {},
    SetSuspendMode {},
    StatResidency {},
    StatCount {},
}

impl TryFrom<&[u64; 4]> for Function {
    type Error = Error;

    #[inline]
    fn try_from(call: &[u64; 4]) -> Result<Self, Error> {
        #[cfg(feature = "notes")]
        CALL.set(Some(*call));
        #[cfg(not(feature = "notes"))]
        std::hint::black_box(call);
        match REFUSAL.get() {
            Some(code) => Err(Error(code)),
            None => Ok(Self::Version),
        }
    }
}
