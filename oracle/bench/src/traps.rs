//! Traps, and the replies to forwarded calls.

use crate::policy;
use crate::side::{Call, Sides, State};
use reference::aarch64_rt::RegisterState;
use reference::arm_sysregs::{read_elr_el1, read_esr_el1, read_far_el1, read_spsr_el1};
use reference::exceptions::{GuestRegisterStateRef, GuestRegisters};
use reference::hypervisor;
use reference::oracle::{self, Core, Trap};
use reference::platform::qemu;
use ritm::{MemoryHandler, ffi};
use std::array;

/// The register of the guest's loads and stores.
const RT: usize = 5;
/// What the filtered MMIO page takes, by a store at offset 8.
const STORED: u64 = 0x1234_5678_9abc_def0;
/// Offsets in the filtered MMIO page: a constant, where a store is taken, and the counter.
const AT_CONSTANT: u64 = 0;
const AT_STORED: u64 = 8;
const AT_COUNTER: u64 = 16;

// ESR_EL2 (Arm DDI 0601).
const HVC: u64 = 0x16 << 26;
const SMC: u64 = 0x17 << 26;
const LOAD: u64 = 0x24 << 26 | 1 << 24 | 3 << 22 | (RT as u64) << 16 | 1 << 15;
const STORE: u64 = LOAD | 1 << 6;
const VBAR: u64 = 0x4021_0800;

/// SPSR_EL2: the guest is at EL1, on its own stack, with all exceptions masked, as an injected abort leaves it.
const SPSR: u64 = 0x3c5;

// Kinds of a trap's result.
const LOAD_HANDLED: u64 = 1;
const STORE_HANDLED: u64 = 2;
const ABORT_INJECTED: u64 = 3;
const TO_FIRMWARE: u64 = 4;
const TO_PLATFORM: u64 = 5;

// Words of a trap's result.
const TRAP_KIND: usize = 0;
const TRAP_FUNCTION: usize = 1;
const TRAP_HINT: usize = 19;

// Kinds of a reply.
const ONE_VALUE: u64 = 1;
const FOUR_VALUES: u64 = 2;
const EIGHTEEN_VALUES: u64 = 3;

/// PSCI_VERSION, which goes to the firmware.
const FIRMWARE_CALL: u64 = 0x8400_0000;

/// Words of a core, and those of them that RITM has too: not what the core waits for.
const CORE_WORDS: usize = 38;
const COUNTER: usize = 8 * CORE_WORDS;

type TrapFunction = extern "C" fn(&ffi::Policy, &mut ffi::Cores, u64, u64, u64, u64, u64, &mut ffi::TrapResult) -> u64;
type ReplyFunction = extern "C" fn(&mut ffi::Cores, u64, u64, &ffi::Values, i32) -> u64;
type SaveFunction = extern "C" fn(&mut ffi::Cores, u64, &ffi::Registers) -> u64;
type FreshFunction = extern "C" fn(&mut ffi::Cores) -> u64;
type HandleSyncLower = fn(GuestRegisterStateRef<'_>);

/// The port's cores, of which one takes a trap, a reply or a save.
#[derive(Clone)]
struct PortCores {
    policy: &'static ffi::Policy,
    cores: ffi::Cores,
    core: u64,
    trap: Trap,
    trapped: ffi::TrapResult,
    /// The kind that the trap's result must have.
    expected: u64,
    reply_kind: u64,
    values: ffi::Values,
    registers: ffi::Registers,
}

impl State for PortCores {
    fn put_back(&mut self, before: &Self) {
        let start = self.core as usize * CORE_WORDS;
        self.cores.put_all(start, &before.cores.get_all::<CORE_WORDS>(start));
        self.cores.put(COUNTER, before.cores.get(COUNTER));
    }

    fn words(&self) -> Vec<u64> {
        let mut held = self.cores.get_all::<{ CORE_WORDS - 1 }>(self.core as usize * CORE_WORDS).to_vec();
        held.push(self.cores.get(COUNTER));
        held
    }
}

/// RITM's two register banks, and the guest that fills them. The rest of RITM's state are statics.
struct Banks {
    banks: GuestRegisters,
    guest: Guest,
}

impl Banks {
    fn new(guest: Guest) -> Self {
        let core = &guest.core;
        let x = &core.x;
        let registers = x[..19].try_into().expect("19 registers");
        let [fp, sp] = [x[29], x[30]];
        let volatile = RegisterState { registers, fp, sp, elr: core.elr as usize, spsr: core.spsr };
        Self { banks: GuestRegisters::new(volatile, x[19..29].try_into().expect("10 registers")), guest }
    }
}

impl Clone for Banks {
    fn clone(&self) -> Self {
        Self { banks: GuestRegisters::new(self.banks.volatile.clone(), *self.banks.nonvolatile()), guest: self.guest }
    }
}

impl State for Banks {
    fn put_back(&mut self, before: &Self) {
        self.banks = GuestRegisters::new(before.banks.volatile.clone(), *before.banks.nonvolatile());
    }

    fn set_statics(&self) {
        let guest = &self.guest;
        // SAFETY: traps are taken by this thread alone, and none is under way.
        unsafe { hypervisor::set_policy(&policy::rust_with(0, guest.regions)) };
        oracle::set_system_registers(&guest.core, guest.trap);
        oracle::set_firmware_answer(guest.reply.values[0]);
        qemu::set_counter(0);
    }

    fn words(&self) -> Vec<u64> {
        let banks = &self.banks.volatile;
        let mut held = banks.registers.to_vec();
        held.extend(self.banks.nonvolatile());
        held.extend([banks.fp, banks.sp, banks.elr as u64, banks.spsr]);
        held.extend([read_elr_el1().bits(), read_spsr_el1().bits(), read_far_el1().bits(), read_esr_el1().bits()]);
        held.push(qemu::counter());
        held
    }
}

/// A reply as the port is given it: its kind, and the values of which the kind uses the first.
#[derive(Clone, Copy)]
struct GivenReply {
    kind: u64,
    values: [u64; 18],
}

impl GivenReply {
    fn new(kind: u64, first: &[u64]) -> Self {
        let mut values = [0; 18];
        values[..first.len()].copy_from_slice(first);
        Self { kind, values }
    }
}

/// A guest's registers, its trap under a policy of so many regions, and the reply to it, as both sides have them.
#[derive(Clone, Copy)]
struct Guest {
    core: Core,
    trap: Trap,
    regions: u64,
    /// The kind that the trap's result must have.
    kind: u64,
    reply: GivenReply,
}

impl Guest {
    /// A guest that accesses an address.
    fn accessing(esr: u64, regions: u64, ipa: u64, kind: u64) -> Self {
        let mut core = Core { x: array::from_fn(|k| 0x100 + k as u64), elr: 0x4020_0000, ..Core::default() };
        (core.x[RT], core.spsr) = (STORED, SPSR);
        let trap = Trap { esr, fipa: ipa >> 12, far: ipa & 0xfff, vbar: VBAR };
        Self { core, trap, regions, kind, reply: GivenReply::new(0, &[]) }
    }

    /// A guest that makes a call.
    fn calling(esr: u64, function: u64, kind: u64, reply: GivenReply) -> Self {
        let mut guest = Self { reply, ..Self::accessing(esr, 1, 0, kind) };
        guest.core.x[0] = function;
        guest
    }

    fn port(&self, core: u64) -> PortCores {
        let mut state = PortCores {
            policy: Box::leak(Box::new(policy::port_with(0, self.regions))),
            cores: ffi::Cores::ZERO,
            core,
            trap: self.trap,
            trapped: ffi::TrapResult::ZERO,
            expected: self.kind,
            reply_kind: self.reply.kind,
            values: self.reply.values.into(),
            registers: ffi::Registers::ZERO,
        };
        state.registers.put_all(0, &self.core.x);
        state.registers.put_all(31, &[self.core.elr, self.core.spsr]);
        assert_eq!(ffi::ritm_fresh_cores(&mut state.cores), 0, "fresh cores");
        assert_eq!(ffi::ritm_save(&mut state.cores, core, &state.registers), 0, "a fresh core takes a save");
        state
    }

    /// The trap that is handled at once.
    fn handled(self) -> Sides {
        Sides::compared(0, trap(self.port(0)), handle_sync_lower(self)).repeated()
    }

    /// The trap that is forwarded, and the reply.
    fn replied(self) -> Sides {
        Sides::compared(0, trap_and_reply(self.port(0)), handle_sync_lower(self))
    }

    /// The port's trap alone.
    fn trap_alone(self) -> Sides {
        Sides::port_alone(trap(self.port(0)))
    }

    /// The port's trap where both halves are absent: RITM has no handler that serves quietly.
    fn quiet(self) -> Sides {
        let mut state = self.port(0);
        state.policy = Box::leak(Box::new(policy::port_served_by(MemoryHandler::Absent, 0, self.regions)));
        Sides::port_alone(trap(state)).repeated()
    }

    /// The port's reply alone, to a core that waits for it.
    fn reply_alone(self) -> Sides {
        let mut state = self.port(0);
        assert_eq!(trap_in(&mut state, ffi::ritm_trap), 0, "the call is forwarded");
        let function = ffi::ritm_reply as ReplyFunction;
        Sides::port_alone(Call { state, function, call: reply_in, answer: |_, number| vec![number] })
    }
}

fn trap_in(state: &mut PortCores, function: TrapFunction) -> u64 {
    let Trap { esr, fipa, far, vbar } = state.trap;
    function(state.policy, &mut state.cores, state.core, esr, fipa, far, vbar, &mut state.trapped)
}

fn reply_in(state: &mut PortCores, function: ReplyFunction) -> u64 {
    function(&mut state.cores, state.core, state.reply_kind, &state.values, 0)
}

/// The number of the port's answer, if its trap was of the kind that the case says. A call is one that the port hands
/// out as RITM does, with x0 as it stands and no hint.
fn number_of_trap(state: &PortCores, number: u64) -> Vec<u64> {
    let trapped = &state.trapped;
    assert_eq!(trapped.get(TRAP_KIND), state.expected, "the trap is of the kind that the case says");
    if matches!(state.expected, TO_FIRMWARE | TO_PLATFORM) {
        let handed_out = [TRAP_FUNCTION, TRAP_HINT].map(|word| trapped.get(word));
        assert_eq!(handed_out, [state.registers.get(0), 0], "RITM hands out the same call");
    }
    vec![number]
}

/// The port's trap.
fn trap(state: PortCores) -> Call<PortCores, TrapFunction, u64> {
    Call { state, function: ffi::ritm_trap as TrapFunction, call: trap_in, answer: number_of_trap }
}

/// The port's trap and the reply.
fn trap_and_reply(state: PortCores) -> Call<PortCores, (TrapFunction, ReplyFunction), u64> {
    let function = (ffi::ritm_trap as TrapFunction, ffi::ritm_reply as ReplyFunction);
    let call = |state: &mut PortCores, (trap, reply): (TrapFunction, ReplyFunction)| match trap_in(state, trap) {
        0 => reply_in(state, reply),
        number => number,
    };
    Call { state, function, call, answer: number_of_trap }
}

/// RITM's trap, with the reply in it.
fn handle_sync_lower(guest: Guest) -> Call<Banks, HandleSyncLower, ()> {
    let function = hypervisor::handle_sync_lower as HandleSyncLower;
    let call = |state: &mut Banks, function: HandleSyncLower| function(state.banks.view());
    Call { state: Banks::new(guest), function, call, answer: |_, ()| vec![0] }
}

/// A load of a constant, in the last of so many regions.
pub fn load(regions: u64) -> Sides {
    Guest::accessing(LOAD, regions, policy::last_region(regions) + AT_CONSTANT, LOAD_HANDLED).handled()
}

/// A load of the counter, which RITM increments atomically, in the last of so many regions.
pub fn load_counter(regions: u64) -> Sides {
    Guest::accessing(LOAD, regions, policy::last_region(regions) + AT_COUNTER, LOAD_HANDLED).handled()
}

/// A store that is taken, in the last of so many regions.
pub fn store(regions: u64) -> Sides {
    Guest::accessing(STORE, regions, policy::last_region(regions) + AT_STORED, STORE_HANDLED).handled()
}

/// A load above all of so many regions.
pub fn injected(regions: u64) -> Sides {
    Guest::accessing(LOAD, regions, policy::above_regions(regions), ABORT_INJECTED).handled()
}

/// An HVC that the platform answers with one value, four or eighteen.
fn guest_of_hvc_1() -> Guest {
    Guest::calling(HVC, oracle::CALL_FOR_1, TO_PLATFORM, GivenReply::new(ONE_VALUE, &[oracle::REPLY_OF_1]))
}

fn guest_of_hvc_4() -> Guest {
    Guest::calling(HVC, oracle::CALL_FOR_4, TO_PLATFORM, GivenReply::new(FOUR_VALUES, &oracle::REPLY_OF_4))
}

fn guest_of_hvc_18() -> Guest {
    Guest::calling(HVC, oracle::CALL_FOR_18, TO_PLATFORM, GivenReply::new(EIGHTEEN_VALUES, &oracle::REPLY_OF_18))
}

/// An SMC that the firmware answers with one value: the call, so that the guest can make it again.
fn guest_of_smc_1() -> Guest {
    Guest::calling(SMC, FIRMWARE_CALL, TO_FIRMWARE, GivenReply::new(ONE_VALUE, &[FIRMWARE_CALL]))
}

pub fn hvc_1() -> Sides {
    guest_of_hvc_1().replied()
}

pub fn hvc_4() -> Sides {
    guest_of_hvc_4().replied().repeated()
}

pub fn hvc_18() -> Sides {
    guest_of_hvc_18().replied().repeated()
}

pub fn smc_1() -> Sides {
    guest_of_smc_1().replied().repeated()
}

pub fn trap_platform() -> Sides {
    guest_of_hvc_1().trap_alone()
}

pub fn trap_firmware() -> Sides {
    guest_of_smc_1().trap_alone()
}

pub fn reply_1() -> Sides {
    guest_of_smc_1().reply_alone()
}

pub fn reply_4() -> Sides {
    guest_of_hvc_4().reply_alone()
}

pub fn reply_18() -> Sides {
    guest_of_hvc_18().reply_alone()
}

/// The load of [`load`] in 1 region, by the last core.
pub fn load_on_core_7() -> Sides {
    let guest = Guest::accessing(LOAD, 1, policy::last_region(1) + AT_CONSTANT, LOAD_HANDLED);
    Sides::port_alone(trap(guest.port(7))).repeated()
}

/// The load of [`load`] in 1 region with absent halves, which gives 0.
pub fn quiet_load() -> Sides {
    Guest::accessing(LOAD, 1, policy::last_region(1) + AT_CONSTANT, LOAD_HANDLED).quiet()
}

/// The store of [`store`] in 1 region with absent halves, which is dropped.
pub fn quiet_store() -> Sides {
    Guest::accessing(STORE, 1, policy::last_region(1) + AT_STORED, STORE_HANDLED).quiet()
}

pub fn save() -> Sides {
    let call =
        |state: &mut PortCores, function: SaveFunction| function(&mut state.cores, state.core, &state.registers);
    let state = guest_of_hvc_1().port(0);
    let function = ffi::ritm_save as SaveFunction;
    Sides::port_alone(Call { state, function, call, answer: |_, number| vec![number] }).repeated()
}

pub fn fresh_cores() -> Sides {
    let call = |state: &mut PortCores, function: FreshFunction| function(&mut state.cores);
    let state = guest_of_hvc_1().port(0);
    let function = ffi::ritm_fresh_cores as FreshFunction;
    Sides::port_alone(Call { state, function, call, answer: |_, number| vec![number] }).repeated()
}
