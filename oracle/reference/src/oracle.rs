//! The interface for comparing: each call is answered by RITM's own function, with everything that it gives and changes.

use crate::exceptions::{GuestRegisterStateRef, GuestRegisters};
use crate::hvc_response::HvcResult;
use crate::hypervisor;
use crate::platform::qemu::{self, Qemu};
use crate::platform::{BootMode, Platform, PlatformParts};
use crate::stage2::{
    MemoryAccessHandler, MemoryAccessWidth, MemoryReadAccess, MemoryReadHandler, MemoryReadResult, MemoryWriteAccess,
    MemoryWriteHandler, MemoryWriteResult, Stage2Builder, Stage2ConfigError,
};
use aarch64_paging::descriptor::Stage2Attributes;
use aarch64_rt::{InitialPagetable, RegisterState};
use arm_sysregs as sys;
use dtoolkit::fdt::Fdt;
use std::cell::Cell;
use std::sync::atomic::{AtomicBool, Ordering};
use std::sync::{Mutex, MutexGuard, PoisonError};

/// Whether what RITM hands to the stubs is noted.
pub const NOTES: bool = cfg!(feature = "notes");

/// A core's registers, and the EL1 registers that an injected abort writes.
#[derive(Clone, Copy, Debug, Default, Eq, PartialEq)]
pub struct Core {
    pub x: [u64; 31],
    pub elr: u64,
    pub spsr: u64,
    pub elr_el1: u64,
    pub spsr_el1: u64,
    pub far_el1: u64,
    pub esr_el1: u64,
}

/// What the hardware says of a trap.
#[derive(Clone, Copy, Debug, Default, Eq, PartialEq)]
pub struct Trap {
    pub esr: u64,
    pub fipa: u64,
    pub far: u64,
    pub vbar: u64,
}

/// What the firmware or the platform answers to a call.
#[derive(Clone, Copy, Debug)]
pub enum Reply {
    Unhandled,
    One(u64),
    Four([u64; 4]),
    Eighteen([u64; 18]),
    Error(i32),
}

/// What a trap came to. A call has the registers with which it was made.
#[derive(Clone, Copy, Debug, Eq, PartialEq)]
pub enum Answer {
    LoadHandled,
    StoreHandled,
    AbortInjected,
    ToFirmware([u64; 18]),
    ToPlatform([u64; 18]),
}

/// Who serves a region's loads, or its stores. Its number is the port's code; in RITM it is an optional function.
#[derive(Clone, Copy, Debug, Eq, PartialEq)]
pub enum Half {
    /// A function that answers every load with 0, or takes every store. RITM has none such: these two are ours.
    Quiet = 0,
    /// RITM's function of the filtered MMIO page.
    FilteredMmio = 1,
    /// No function, so that the guest gets the abort.
    Missing = 2,
}

impl Half {
    /// The half with the port's code, if there is one.
    pub fn of_code(code: u64) -> Option<Self> {
        [Self::Quiet, Self::FilteredMmio, Self::Missing].into_iter().find(|half| *half as u64 == code)
    }

    fn read(self) -> Option<MemoryReadHandler> {
        match self {
            Self::Quiet => Some(quiet_read),
            Self::FilteredMmio => Some(noted_read),
            Self::Missing => None,
        }
    }

    fn write(self) -> Option<MemoryWriteHandler> {
        match self {
            Self::Quiet => Some(quiet_write),
            Self::FilteredMmio => Some(noted_write),
            Self::Missing => None,
        }
    }
}

/// The read half and the write half that a region of RITM's has. Functions are told apart by what they do with a byte,
/// which the page refuses at any offset. Their addresses would not do: the compiler may give two functions one address,
/// or one function two.
pub fn halves(handler: &MemoryAccessHandler) -> [Half; 2] {
    let (ipa, offset, width, value) = (0, 0, MemoryAccessWidth::U8, 0);
    let read = match handler.read.map(|read| read(MemoryReadAccess { ipa, offset, width })) {
        Some(MemoryReadResult::Value(_)) => Half::Quiet,
        Some(MemoryReadResult::Fault) => Half::FilteredMmio,
        None => Half::Missing,
    };
    let write = match handler.write.map(|write| write(MemoryWriteAccess { ipa, offset, width, value })) {
        Some(MemoryWriteResult::Handled) => Half::Quiet,
        Some(MemoryWriteResult::Fault) => Half::FilteredMmio,
        None => Half::Missing,
    };
    [read, write]
}

/// What a handler did.
#[derive(Clone, Copy, Debug, Eq, PartialEq)]
enum Access {
    Load,
    Store,
}

thread_local! {
    static REPLY: Cell<Reply> = const { Cell::new(Reply::Unhandled) };
    static PLATFORM_CALL: Cell<Option<[u64; 18]>> = const { Cell::new(None) };
    static ACCESS: Cell<Option<Access>> = const { Cell::new(None) };
}

/// The filtered MMIO page's loads; one that succeeds is noted.
fn noted_read(access: MemoryReadAccess) -> MemoryReadResult {
    let result = qemu::READ(access);
    if matches!(result, MemoryReadResult::Value(_)) {
        ACCESS.set(Some(Access::Load));
    }
    result
}

/// The filtered MMIO page's stores; one that succeeds is noted.
fn noted_write(access: MemoryWriteAccess) -> MemoryWriteResult {
    let result = qemu::WRITE(access);
    if result == MemoryWriteResult::Handled {
        ACCESS.set(Some(Access::Store));
    }
    result
}

/// A load that gives 0, noted.
fn quiet_read(_: MemoryReadAccess) -> MemoryReadResult {
    ACCESS.set(Some(Access::Load));
    MemoryReadResult::Value(0)
}

/// A store that is dropped, noted.
fn quiet_write(_: MemoryWriteAccess) -> MemoryWriteResult {
    ACCESS.set(Some(Access::Store));
    MemoryWriteResult::Handled
}

/// The call that Qemu's platform answers with one value, and its answer.
pub const CALL_FOR_1: u64 = 0xFF00_0000;
pub const REPLY_OF_1: u64 = 0x1234_5678_9ABC_DEF0;
/// Calls that a benchmark makes, and the replies: Qemu's platform has none of four or eighteen values. As there, a reply
/// is a constant. Its first value is the call, so that a guest can make the call again.
pub const CALL_FOR_4: u64 = 0xFF00_0004;
pub const REPLY_OF_4: [u64; 4] = [CALL_FOR_4, 0xAB01, 0xAB02, 0xAB03];
pub const CALL_FOR_18: u64 = 0xFF00_0018;
pub const REPLY_OF_18: [u64; 18] = {
    let mut values = [CALL_FOR_18; 18];
    let mut k = 1;
    while k < 18 {
        values[k] = 0xAB00 + k as u64;
        k += 1;
    }
    values
};

/// The platform: Qemu's with two more calls, but that while an [`Oracle`] is held calls are noted and answered with what
/// was set.
pub struct PlatformImpl;

impl PlatformImpl {
    pub const fn initial_idmap() -> InitialPagetable {
        Qemu::initial_idmap()
    }
}

impl Platform for PlatformImpl {
    type Console = <Qemu as Platform>::Console;

    const MAX_CORES: usize = Qemu::MAX_CORES;

    unsafe fn create() -> Self {
        Self
    }

    fn parts(&mut self) -> Option<PlatformParts<Self::Console>> {
        None
    }

    fn boot_mode(&self, _fdt: &Fdt) -> BootMode {
        BootMode::El1
    }

    fn payload_address(&self) -> u64 {
        crate::platform::PAYLOAD_ADDRESS
    }

    fn configure_memory_access(builder: &mut Stage2Builder) -> Result<(), Stage2ConfigError> {
        Qemu::configure_memory_access(builder)
    }

    fn handle_hvc(function_id: u64, args: &[u64]) -> HvcResult {
        if NOTES && HELD.load(Ordering::Relaxed) {
            return noted_hvc(function_id, args);
        }
        match function_id {
            CALL_FOR_4 => HvcResult::Handled(Ok(REPLY_OF_4.into())),
            CALL_FOR_18 => HvcResult::Handled(Ok(REPLY_OF_18.into())),
            _ => Qemu::handle_hvc(function_id, args),
        }
    }
}

/// A call to the platform, noted and answered with what was set.
fn noted_hvc(function_id: u64, args: &[u64]) -> HvcResult {
    let mut registers = [0; 18];
    registers[0] = function_id;
    registers[1..].copy_from_slice(args);
    PLATFORM_CALL.set(Some(registers));
    match REPLY.get() {
        Reply::Unhandled => HvcResult::Unhandled,
        Reply::One(value) => HvcResult::Handled(Ok(value.into())),
        Reply::Four(values) => HvcResult::Handled(Ok(values.into())),
        Reply::Eighteen(values) => HvcResult::Handled(Ok(values.into())),
        Reply::Error(code) => HvcResult::Handled(Err(code.into())),
    }
}

/// The number of a builder's answer; 0 is accepted.
pub fn number(result: Result<(), Stage2ConfigError>) -> u64 {
    use Stage2ConfigError as Error;
    match result {
        Ok(()) => 0,
        Err(Error::RangeBaseNotPageAligned) => 1,
        Err(Error::EmptyRange) => 2,
        Err(Error::RangeSizeNotPageMultiple) => 3,
        Err(Error::RangeEndOverflow) => 4,
        Err(Error::TooManyAllowedRanges) => 5,
        Err(Error::AllowedRangeOverlap) => 6,
        Err(Error::AllowedRangeOverlapsMemoryAccessHandler) => 7,
        Err(Error::TooManyMemoryAccessHandlerRegions) => 8,
        Err(Error::MemoryAccessHandlerRangeOverlap) => 9,
        Err(Error::RangeAddressNotRepresentable) => unreachable!("usize has 64 bits"),
        Err(Error::MapRange(never)) => match never {},
    }
}

/// What RITM's own checks say of a range, before they look at others: 1 to 4, or 0. A builder that holds nothing has no
/// other refusal.
pub fn check_range(base: u64, size: u64) -> u64 {
    number(Stage2Builder::new().allow_range(base, size as usize, Stage2Attributes::from_bits_retain(0)))
}

/// RITM's policy and statics. A process has one set of statics, so one `Oracle` is held at a time: a second waits until
/// the first is dropped, and a thread that makes two at once waits for ever.
pub struct Oracle {
    builder: Stage2Builder,
    _alone: MutexGuard<'static, ()>,
}

static ALONE: Mutex<()> = Mutex::new(());
/// Whether there is an `Oracle`.
static HELD: AtomicBool = AtomicBool::new(false);

impl Drop for Oracle {
    fn drop(&mut self) {
        HELD.store(false, Ordering::Relaxed);
    }
}

impl Oracle {
    /// No range, no region, and this counter.
    ///
    /// # Panics
    ///
    /// If nothing is noted, which an `Oracle` needs.
    pub fn fresh(counter: u64) -> Self {
        assert!(NOTES, "the crate was built without the feature notes");
        let alone = ALONE.lock().unwrap_or_else(PoisonError::into_inner);
        HELD.store(true, Ordering::Relaxed);
        let oracle = Self { builder: Stage2Builder::new(), _alone: alone };
        oracle.set_counter(counter);
        oracle.put_in_force();
        oracle
    }

    /// No range and no region again; the counter stays.
    pub fn begin_anew(&mut self) {
        self.builder = Stage2Builder::new();
        self.put_in_force();
    }

    /// Traps go by what the builder now holds.
    fn put_in_force(&self) {
        // SAFETY: this is the one oracle, it is borrowed, and nothing else takes traps while it is held.
        unsafe { hypervisor::set_policy(&self.builder) };
    }

    fn built(&mut self, result: Result<(), Stage2ConfigError>) -> u64 {
        let number = number(result);
        if number == 0 {
            self.put_in_force();
        }
        number
    }

    /// `Stage2Builder::allow_range`.
    pub fn allow_range(&mut self, base: u64, size: u64, attributes: u64) -> u64 {
        let attributes = Stage2Attributes::from_bits_retain(attributes as usize);
        let result = self.builder.allow_range(base, size as usize, attributes);
        self.built(result)
    }

    /// `Stage2Builder::handle_range`.
    pub fn handle_range(&mut self, base: u64, size: u64, read: Half, write: Half) -> u64 {
        let handler = MemoryAccessHandler { read: read.read(), write: write.write() };
        let result = self.builder.handle_range(base, size as usize, handler);
        self.built(result)
    }

    /// `MemoryAccessHandlerRegistry::find` in the policy in force: the region's base, and the offset.
    pub fn find(&self, ipa: u64) -> Option<(u64, u64)> {
        let found = hypervisor::policy().memory_access_handlers.find(ipa)?;
        Some((found.region.base_ipa, found.offset))
    }

    /// The read half and the write half of the region that `find` gives.
    pub fn halves_at(&self, ipa: u64) -> Option<[Half; 2]> {
        let found = hypervisor::policy().memory_access_handlers.find(ipa)?;
        Some(halves(&found.region.handler))
    }

    /// Base, size, end and attributes of each allowed range.
    pub fn ranges(&self) -> impl Iterator<Item = [u64; 4]> {
        self.builder.ranges().zip(self.builder.attributes()).map(|([base, size, end], word)| [base, size, end, word])
    }

    /// Base, size and end of each region, and the port's codes of its read half and its write half.
    pub fn regions(&self) -> impl Iterator<Item = [u64; 5]> {
        self.builder.regions().map(|(region, end)| {
            let [read, write] = halves(&region.handler).map(|half| half as u64);
            [region.base_ipa, region.size as u64, end, read, write]
        })
    }

    /// The counter of the filtered MMIO page.
    pub fn counter(&self) -> u64 {
        qemu::counter()
    }

    /// Sets the counter of the filtered MMIO page.
    pub fn set_counter(&self, value: u64) {
        qemu::set_counter(value);
    }

    /// `handle_sync_lower`. RITM calls out at once, so the reply is given with the trap; a data abort does not read it.
    ///
    /// # Panics
    ///
    /// Where RITM does.
    pub fn trap(&mut self, core: &mut Core, trap: Trap, reply: Reply) -> Answer {
        set_system_registers(core, trap);
        set_reply(reply);
        ACCESS.set(None);
        with_registers(core, hypervisor::handle_sync_lower);
        core.elr_el1 = sys::read_elr_el1().bits();
        core.spsr_el1 = sys::read_spsr_el1().bits();
        core.far_el1 = sys::read_far_el1().bits();
        core.esr_el1 = sys::read_esr_el1().bits();
        answer()
    }
}

/// Sets what the firmware answers, for a benchmark.
pub fn set_firmware_answer(value: u64) {
    set_reply(Reply::One(value));
}

/// What the hardware holds when the trap is taken.
pub fn set_system_registers(core: &Core, trap: Trap) {
    sys::set_esr_el2(sys::EsrEl2::from_bits_retain(trap.esr));
    sys::set_hpfar_el2(sys::HpfarEl2::from_bits_retain(trap.fipa));
    sys::set_far_el2(sys::FarEl2::from_bits_retain(trap.far));
    // SAFETY: the registers are simulated.
    unsafe {
        sys::write_vbar_el1(sys::VbarEl1::from_bits_retain(trap.vbar));
        sys::write_elr_el1(sys::ElrEl1::from_bits_retain(core.elr_el1));
        sys::write_spsr_el1(sys::SpsrEl1::from_bits_retain(core.spsr_el1));
        sys::write_far_el1(sys::FarEl1::from_bits_retain(core.far_el1));
    }
    sys::write_esr_el1(sys::EsrEl1::from_bits_retain(core.esr_el1));
}

/// What a call will be answered, by the platform or by the firmware; the notes of earlier calls are dropped. The
/// firmware has no other reply than one value or an error, and answers any other by the value 0.
fn set_reply(reply: Reply) {
    REPLY.set(reply);
    PLATFORM_CALL.set(None);
    arm_psci::take_call();
    smccc::take_call();
    smccc::set_answer(if let Reply::One(value) = reply { value } else { 0 });
    arm_psci::set_refusal(if let Reply::Error(code) = reply { Some(code) } else { None });
}

/// What was noted of the trap. A call to the firmware has the registers that the monitor saw, or, where the firmware's
/// answer is an error, those that were parsed.
fn answer() -> Answer {
    if let Some(parsed) = arm_psci::take_call() {
        let mut registers = [0; 18];
        registers[..4].copy_from_slice(&parsed);
        return Answer::ToFirmware(smccc::take_call().unwrap_or(registers));
    }
    if let Some(registers) = PLATFORM_CALL.take() {
        return Answer::ToPlatform(registers);
    }
    match ACCESS.get() {
        Some(Access::Load) => Answer::LoadHandled,
        Some(Access::Store) => Answer::StoreHandled,
        None => Answer::AbortInjected,
    }
}

/// `read_gpr`; none for an index above 31.
pub fn read_gpr(core: &Core, index: u64) -> Option<u64> {
    let mut copy = *core;
    with_registers(&mut copy, |registers| registers.read_gpr(index as usize))
}

/// `write_gpr`; whether there is such a register.
pub fn write_gpr(core: &mut Core, index: u64, value: u64) -> bool {
    // SAFETY: the registers are a record of the caller's.
    with_registers(core, |mut registers| unsafe { registers.write_gpr(index as usize, value) }).is_ok()
}

/// Lays a core's registers out in RITM's two banks, and takes them back.
fn with_registers<T>(core: &mut Core, run: impl FnOnce(GuestRegisterStateRef) -> T) -> T {
    let mut volatile =
        RegisterState { registers: [0; 19], fp: core.x[29], sp: core.x[30], elr: core.elr as usize, spsr: core.spsr };
    volatile.registers.copy_from_slice(&core.x[..19]);
    let mut nonvolatile = [0; 10];
    nonvolatile.copy_from_slice(&core.x[19..29]);
    let mut registers = GuestRegisters::new(volatile, nonvolatile);
    let result = run(registers.view());
    core.x[..19].copy_from_slice(&registers.volatile.registers);
    core.x[19..29].copy_from_slice(registers.nonvolatile());
    core.x[29] = registers.volatile.fp;
    core.x[30] = registers.volatile.sp;
    core.elr = registers.volatile.elr as u64;
    core.spsr = registers.volatile.spsr;
    result
}
