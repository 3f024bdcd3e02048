//! The eight cores and the counter of the filtered MMIO page.

use crate::ffi;
use crate::policy::Policy;
use crate::refusal::{accepted, never_refused, Refusal};

/// How many cores there are.
pub const MAX_CORES: u64 = 8;

const CORE_WORDS: usize = 38;
const ELR: usize = 31;
const SPSR: usize = 32;
const FAULT_REGISTERS: usize = 33;
const WAIT: usize = 37;
const COUNTER: usize = MAX_CORES as usize * CORE_WORDS;

const TRAP_KIND: usize = 0;
const TRAP_VALUES: usize = 1;
const TRAP_HINT: usize = 19;

/// A core's registers as the hardware saves them.
#[derive(Clone, Copy, Debug, Default, Eq, PartialEq)]
pub struct Registers {
    /// x0 to x30.
    pub x: [u64; 31],
    /// ELR_EL2.
    pub elr: u64,
    /// SPSR_EL2.
    pub spsr: u64,
}

/// The EL1 registers that an injected abort writes.
#[derive(Clone, Copy, Debug, Default, Eq, PartialEq)]
pub struct FaultRegisters {
    /// ELR_EL1.
    pub elr: u64,
    /// SPSR_EL1.
    pub spsr: u64,
    /// FAR_EL1.
    pub far: u64,
    /// ESR_EL1.
    pub esr: u64,
}

/// What the hardware says of a trap.
#[derive(Clone, Copy, Debug, Default, Eq, PartialEq)]
pub struct TrapRegisters {
    /// ESR_EL2.
    pub esr: u64,
    /// The FIPA of HPFAR_EL2: a page number.
    pub fipa: u64,
    /// FAR_EL2.
    pub far: u64,
    /// The guest's VBAR_EL1.
    pub vbar: u64,
}

/// What an accepted trap came to.
#[derive(Clone, Copy, Debug, Eq, PartialEq)]
pub enum TrapAnswer {
    /// The load is done: its register is written, and ELR is past the instruction.
    LoadHandled,
    /// The store is done, and ELR is past the instruction.
    StoreHandled,
    /// The core goes on at the guest's vector, with the EL1 registers of
    /// [`Cores::fault_registers`].
    AbortInjected,
    /// The call is the firmware's to answer; the core waits for the reply.
    ToFirmware {
        /// The function identifier, and x1 to x3.
        values: [u64; 4],
        /// Whether the guest says that it holds no live SVE state.
        sve_hint: bool,
    },
    /// The call is the platform's to answer; the core waits for the reply.
    ToPlatform {
        /// The function identifier, and x1 to x17.
        values: [u64; 18],
        /// Whether the guest says that it holds no live SVE state.
        sve_hint: bool,
    },
}

/// How a call left the guest: the SMCCC's conduit.
#[derive(Clone, Copy, Debug, Eq, PartialEq)]
pub enum Conduit {
    /// By the instruction HVC.
    Hvc,
    /// By the instruction SMC.
    Smc,
}

/// Who is to answer a forwarded call.
#[derive(Clone, Copy, Debug, Eq, PartialEq)]
pub enum Recipient {
    /// The firmware at EL3.
    Firmware,
    /// The host's own platform code.
    Platform,
}

/// What a core waits for.
#[derive(Clone, Copy, Debug, Eq, PartialEq)]
pub enum Wait {
    /// Nothing.
    Nothing,
    /// The reply to a forwarded call.
    Call(Conduit, Recipient),
}

/// The reply to a forwarded call.
#[derive(Clone, Copy, Debug, Eq, PartialEq)]
pub enum HvcReply {
    /// The call is not known: x0 takes -1.
    Unhandled,
    /// x0 takes the value, x1 to x3 take zero.
    Value(u64),
    /// x0 to x3 take the values.
    Success([u64; 4]),
    /// x0 to x17 take the values.
    SuccessLarge([u64; 18]),
    /// x0 takes the error, sign-extended.
    Error(i32),
}

impl HvcReply {
    /// Its kind, its values from the first on, and its error.
    fn parts(&self) -> (u64, &[u64], i32) {
        match self {
            Self::Unhandled => (0, &[], 0),
            Self::Value(value) => (1, core::slice::from_ref(value), 0),
            Self::Success(values) => (2, values, 0),
            Self::SuccessLarge(values) => (3, values, 0),
            Self::Error(error) => (4, &[], *error),
        }
    }
}

/// The eight cores and the counter of the filtered MMIO page, which is one for all of them.
///
/// ```
/// use ritm::{Cores, HvcReply, Policy, Refusal, Registers, TrapAnswer, TrapRegisters};
///
/// let policy = Policy::new();
/// let mut cores = Cores::new();
/// let mut guest = Registers { elr: 0x4020_0000, ..Registers::default() };
/// guest.x[0] = 0x8401_0000; // PSCI_VERSION, with the hint of SMCCC 1.3
/// cores.save(0, &guest)?;
/// let smc = TrapRegisters { esr: 0x17 << 26, ..TrapRegisters::default() };
/// let call = TrapAnswer::ToFirmware { values: [0x8400_0000, 0, 0, 0], sve_hint: true };
/// assert_eq!(cores.trap(0, &policy, &smc), Ok(call));
/// assert_eq!(cores.trap(0, &policy, &smc), Err(Refusal::CoreWaiting));
/// cores.reply(0, &HvcReply::Value(0x1_0001))?;
/// assert_eq!(cores.registers(0)?.elr, 0x4020_0004);
/// assert_eq!(cores.read_gpr(0, 0), Ok(0x1_0001));
/// # Ok::<(), Refusal>(())
/// ```
#[derive(Clone, Debug, Eq, PartialEq)]
pub struct Cores(ffi::Cores);

impl Cores {
    /// Fresh cores: all zero, waiting for nothing, the counter 0.
    #[must_use]
    pub fn new() -> Self {
        let mut cores = ffi::Cores::ZERO;
        never_refused(ffi::ritm_fresh_cores(&mut cores));
        Self(cores)
    }

    /// The cores that stand in these bytes. Any bytes are some.
    #[must_use]
    pub fn from_bytes(bytes: [u8; ffi::CORES_SIZE]) -> Self {
        Self(ffi::Cores::from_bytes(bytes))
    }

    /// Their bytes.
    #[must_use]
    pub fn as_bytes(&self) -> &[u8; ffi::CORES_SIZE] {
        self.0.as_bytes()
    }

    /// Puts in a core's registers as the hardware saved them.
    ///
    /// # Errors
    ///
    /// [`Refusal::NoSuchCore`], [`Refusal::CoreWaiting`].
    pub fn save(&mut self, core: u64, registers: &Registers) -> Result<(), Refusal> {
        let mut saved = ffi::Registers::ZERO;
        saved.put_all(0, &registers.x);
        saved.put(ELR, registers.elr);
        saved.put(SPSR, registers.spsr);
        accepted(ffi::ritm_save(&mut self.0, core, &saved))
    }

    /// Takes a core's trap. A call goes to its recipient by its function identifier (Arm DEN0028 from version 1.3 on),
    /// which is handed out in place of x0: the low 32 bits of x0, with bit 16 cleared in a fast call, one with bit 31
    /// set. That bit is the hint; a yielding call has none.
    ///
    /// # Errors
    ///
    /// Refusals 10 to 13, the first that applies.
    pub fn trap(&mut self, core: u64, policy: &Policy, trap: &TrapRegisters) -> Result<TrapAnswer, Refusal> {
        let mut result = ffi::TrapResult::ZERO;
        accepted(ffi::ritm_trap(&policy.0, &mut self.0, core, trap.esr, trap.fipa, trap.far, trap.vbar, &mut result))?;
        Ok(trap_answer(&result))
    }

    /// Gives a core the reply that it waits for.
    ///
    /// # Errors
    ///
    /// [`Refusal::NoSuchCore`], [`Refusal::NothingWaiting`], and [`Refusal::UnknownReplyKind`]
    /// where the firmware is to answer with other than one value or an error.
    pub fn reply(&mut self, core: u64, reply: &HvcReply) -> Result<(), Refusal> {
        let (kind, first, error) = reply.parts();
        let mut values = ffi::Values::ZERO;
        values.put_all(0, first);
        accepted(ffi::ritm_reply(&mut self.0, core, kind, &values, error))
    }

    /// Reads a core's register: x0 to x30 by their index, and 0 for index 31.
    ///
    /// # Errors
    ///
    /// [`Refusal::NoSuchCore`], [`Refusal::NoSuchRegister`].
    pub fn read_gpr(&self, core: u64, index: u64) -> Result<u64, Refusal> {
        let mut word = ffi::WordResult::ZERO;
        accepted(ffi::ritm_read_gpr(&self.0, core, index, &mut word))?;
        Ok(word.get(0))
    }

    /// Writes a core's register, whether it waits or not; index 31 takes no write.
    ///
    /// # Errors
    ///
    /// [`Refusal::NoSuchCore`], [`Refusal::NoSuchRegister`].
    pub fn write_gpr(&mut self, core: u64, index: u64, value: u64) -> Result<(), Refusal> {
        accepted(ffi::ritm_write_gpr(&mut self.0, core, index, value))
    }

    /// A core's registers, with which the guest goes on.
    ///
    /// # Errors
    ///
    /// [`Refusal::NoSuchCore`].
    pub fn registers(&self, core: u64) -> Result<Registers, Refusal> {
        let start = core_start(core)?;
        Ok(Registers { x: self.0.get_all(start), elr: self.0.get(start + ELR), spsr: self.0.get(start + SPSR) })
    }

    /// A core's EL1 registers of the last injected abort.
    ///
    /// # Errors
    ///
    /// [`Refusal::NoSuchCore`].
    pub fn fault_registers(&self, core: u64) -> Result<FaultRegisters, Refusal> {
        let [elr, spsr, far, esr] = self.0.get_all(core_start(core)? + FAULT_REGISTERS);
        Ok(FaultRegisters { elr, spsr, far, esr })
    }

    /// What a core waits for. An unknown code reads as nothing.
    ///
    /// # Errors
    ///
    /// [`Refusal::NoSuchCore`].
    pub fn wait(&self, core: u64) -> Result<Wait, Refusal> {
        Ok(match self.0.get(core_start(core)? + WAIT) {
            1 => Wait::Call(Conduit::Hvc, Recipient::Firmware),
            2 => Wait::Call(Conduit::Hvc, Recipient::Platform),
            3 => Wait::Call(Conduit::Smc, Recipient::Firmware),
            4 => Wait::Call(Conduit::Smc, Recipient::Platform),
            _ => Wait::Nothing,
        })
    }

    /// The counter of the filtered MMIO page.
    #[must_use]
    pub fn counter(&self) -> u64 {
        self.0.get(COUNTER)
    }
}

impl Default for Cores {
    fn default() -> Self {
        Self::new()
    }
}

/// The first word of a core.
fn core_start(core: u64) -> Result<usize, Refusal> {
    if core < MAX_CORES {
        Ok(core as usize * CORE_WORDS)
    } else {
        Err(Refusal::NoSuchCore)
    }
}

/// The answer that stands in an accepted trap's result.
fn trap_answer(result: &ffi::TrapResult) -> TrapAnswer {
    let sve_hint = result.get(TRAP_HINT) == 1;
    match result.get(TRAP_KIND) {
        1 => TrapAnswer::LoadHandled,
        2 => TrapAnswer::StoreHandled,
        3 => TrapAnswer::AbortInjected,
        4 => TrapAnswer::ToFirmware { values: result.get_all(TRAP_VALUES), sve_hint },
        5 => TrapAnswer::ToPlatform { values: result.get_all(TRAP_VALUES), sve_hint },
        kind => unreachable!("the archive gives no trap of kind {kind}"),
    }
}
