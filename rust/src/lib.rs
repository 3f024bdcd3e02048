//! Malfroek for hosts in Rust: RITM's stage-2 policy, guest traps and suspend map, as a proved
//! static archive behind safe types.
//!
//! State stands in [`Policy`], [`Cores`] and [`SuspendMap`], each of 64-bit words at fixed places,
//! which `include/ritm.h` gives. Each call answers, or is refused with a [`Refusal`] and then changes
//! nothing.
//!
//! The archive has no data of its own: a call reads and writes what it is lent. Where several
//! processors take traps, [`Cores`] as a whole stands behind one lock, since its counter is one for
//! all cores, and so does a [`SuspendMap`]; a [`Policy`] may be shared while no call changes it.
//!
//! The build links `libritm.a` from the folder that the environment variable `RITM_LIB_DIR` names,
//! by default from where `board/build-archive` writes it beside this crate: `target/staticlib` for
//! x86-64, and `target/staticlib/aarch64` for 64-bit Arm. The latter is compiled from the same
//! proved module; that LLVM's AArch64 back end compiles it rightly is trusted.

#![no_std]
#![deny(missing_docs, unsafe_code, unsafe_op_in_unsafe_fn)]

mod cores;
#[allow(unsafe_code)]
pub mod ffi;
mod memory_access;
mod policy;
mod refusal;
mod suspend_map;

pub use cores::{
    Conduit, Cores, FaultRegisters, HvcReply, Recipient, Registers, TrapAnswer, TrapRegisters, Wait, MAX_CORES,
};
pub use memory_access::{
    align_down_to_page, align_up_to_page, decode, extend_read_result, MemoryAccess, MemoryAccessKind,
};
pub use policy::{
    MemoryAccessHandler, MemoryAccessRegion, MemoryHandler, Policy, RegionMatch, Stage2Range, MAX_ALLOWED_RANGES,
    MAX_MEMORY_ACCESS_HANDLERS,
};
pub use refusal::{NoRefusal, Refusal};
pub use suspend_map::{SuspendCoreData, SuspendMap};

#[cfg(test)]
mod tests {
    use super::*;

    /// The SPSR of a guest at EL1, on its own stack.
    const EL1H: u64 = 5;

    /// A register with bits in both halves.
    const WIDE: u64 = 0x1234_5678_9ABC_DEF0;

    #[test]
    fn refusals_are_the_numbers_from_1_to_23() {
        for number in 1..=23 {
            assert_eq!(Refusal::try_from(number).map(Refusal::number), Ok(number));
        }
        for number in [0, 24, u64::MAX] {
            assert_eq!(Refusal::try_from(number), Err(NoRefusal(number)));
        }
    }

    #[test]
    fn sizes_are_the_archives() {
        let sizes = [
            ffi::POLICY_SIZE,
            ffi::CORES_SIZE,
            ffi::MAP_SIZE,
            ffi::REGISTERS_SIZE,
            ffi::VALUES_SIZE,
            ffi::TRAP_RESULT_SIZE,
            ffi::FIND_RESULT_SIZE,
            ffi::ENTRY_RESULT_SIZE,
            ffi::ACCESS_RESULT_SIZE,
            ffi::WORD_RESULT_SIZE,
        ];
        for (buffer, size) in (0..).zip(sizes) {
            assert_eq!(ffi::ritm_buffer_size(buffer), size as u64);
        }
        assert_eq!(ffi::ritm_buffer_size(sizes.len() as u64), 0);
    }

    #[test]
    fn a_policy_reads_back() {
        let mut policy = Policy::new();
        policy.allow_range(0x3000, 0x2000, 0x7fd).unwrap();
        policy.allow_range(0x1000, 0x1000, 0x4c1).unwrap();
        let read_only = MemoryAccessHandler { read: MemoryHandler::FilteredMmio, write: MemoryHandler::Fault };
        let probed = MemoryAccessHandler { read: MemoryHandler::Absent, write: MemoryHandler::Absent };
        policy.handle_range(0x9000, 0x1000, probed).unwrap();
        policy.handle_range(0x8000, 0x1000, read_only).unwrap();
        assert!(policy.allowed_ranges().map(|range| range.attributes).eq([0x7fd, 0x4c1]));
        assert!(policy.regions().map(|region| region.end_ipa).eq([0x9000, 0xa000]));
        assert!(policy.regions().map(|region| region.handler).eq([read_only, probed]));
        assert_eq!(Policy::from_bytes(*policy.as_bytes()), policy);
    }

    #[test]
    fn a_freed_place_is_used_again() {
        let mut policy = Policy::new();
        for k in 1..=MAX_ALLOWED_RANGES as u64 {
            policy.allow_range(0x1000 * k, 0x1000, k).unwrap();
        }
        assert_eq!(policy.allow_range(0, 0x1000, 33), Err(Refusal::TooManyAllowedRanges));
        policy.release_range(0x2000, 0x1000).unwrap();
        policy.allow_range(0, 0x1000, 33).unwrap();
        assert!(policy.allowed_ranges().map(|range| range.attributes).eq((1..=33).filter(|k| *k != 2)));
    }

    #[test]
    fn a_release_is_refused() {
        let mut policy = Policy::new();
        policy.allow_range(0x1000, 0x1000, 0).unwrap();
        let before = policy.clone();
        assert_eq!(policy.release_range(1, 0), Err(Refusal::RangeBaseNotPageAligned));
        assert_eq!(policy.release_range(0x1000, 0), Err(Refusal::EmptyRange));
        assert_eq!(policy.release_range(0x1000, 1), Err(Refusal::RangeSizeNotPageMultiple));
        assert_eq!(policy.release_range(0x1000, u64::MAX - 0xFFF), Err(Refusal::RangeEndOverflow));
        assert_eq!(policy.release_range(0x1000, 0x2000), Err(Refusal::RangeNotHeld));
        assert_eq!(policy, before);
    }

    #[test]
    fn a_core_reads_back() {
        let mut cores = Cores::new();
        let registers = Registers { x: core::array::from_fn(|i| i as u64), elr: 31, spsr: EL1H };
        cores.save(7, &registers).unwrap();
        assert_eq!(cores.registers(7), Ok(registers));
        assert_eq!(cores.registers(8), Err(Refusal::NoSuchCore));
        let hvc = TrapRegisters { esr: 0x16 << 26, ..TrapRegisters::default() };
        let values = core::array::from_fn(|i| i as u64);
        assert_eq!(cores.trap(7, &Policy::new(), &hvc), Ok(TrapAnswer::ToPlatform { values, sve_hint: false }));
        assert_eq!(cores.wait(7), Ok(Wait::Call(Conduit::Hvc, Recipient::Platform)));
        cores.reply(7, &HvcReply::Error(-3)).unwrap();
        assert_eq!(cores.read_gpr(7, 0), Ok(u64::MAX - 2));
        assert_eq!(cores.wait(7), Ok(Wait::Nothing));
    }

    /// What a guest's SMC comes to on core 0, with this in x0 and [`WIDE`] in every other register.
    fn smc(cores: &mut Cores, x0: u64) -> TrapAnswer {
        let mut guest = Registers { x: [WIDE; 31], ..Registers::default() };
        guest.x[0] = x0;
        cores.save(0, &guest).unwrap();
        let trap = TrapRegisters { esr: 0x17 << 26, ..TrapRegisters::default() };
        cores.trap(0, &Policy::new(), &trap).unwrap()
    }

    #[test]
    fn the_firmware_is_called_by_the_identifier() {
        for (x0, sve_hint) in [(0x1_8400_0000, false), (0x8401_0000, true), (0xFFFF_FFFF_8401_0000, true)] {
            let mut cores = Cores::new();
            let values = [0x8400_0000, WIDE, WIDE, WIDE];
            assert_eq!(smc(&mut cores, x0), TrapAnswer::ToFirmware { values, sve_hint });
            assert_eq!(cores.read_gpr(0, 0), Ok(x0));
            assert_eq!(cores.wait(0), Ok(Wait::Call(Conduit::Smc, Recipient::Firmware)));
            assert_eq!(cores.reply(0, &HvcReply::Success([0; 4])), Err(Refusal::UnknownReplyKind));
        }
    }

    #[test]
    fn bit_16_is_a_hint_in_a_fast_call_alone() {
        for (x0, id, sve_hint) in [(0x1_FF01_0000, 0xFF00_0000, true), (0x1_0401_0000, 0x401_0000, false)] {
            let mut cores = Cores::new();
            let mut values = [WIDE; 18];
            values[0] = id;
            assert_eq!(smc(&mut cores, x0), TrapAnswer::ToPlatform { values, sve_hint });
            assert_eq!(cores.read_gpr(0, 0), Ok(x0));
            assert_eq!(cores.wait(0), Ok(Wait::Call(Conduit::Smc, Recipient::Platform)));
        }
    }

    #[test]
    fn an_abort_without_a_region_is_injected() {
        let mut cores = Cores::new();
        cores.save(0, &Registers { spsr: EL1H, ..Registers::default() }).unwrap();
        let abort = TrapRegisters { esr: 0x93C5_8000, fipa: 0xF000, far: 0x10, vbar: 0x8_0000 };
        assert_eq!(cores.trap(0, &Policy::new(), &abort), Ok(TrapAnswer::AbortInjected));
        assert_eq!(cores.registers(0).unwrap().elr, 0x8_0200);
        assert_eq!(cores.fault_registers(0).unwrap().esr, 0x97C5_8000);
        assert_eq!(cores.counter(), 0);
    }

    /// A 64-bit load into x5, 16 above [`REGION`], and a store from it, by a guest without a vector.
    const LOAD: TrapRegisters = TrapRegisters { esr: 0x93C5_8000, fipa: 0xF000, far: 0x10, vbar: 0 };
    const STORE: TrapRegisters = TrapRegisters { esr: LOAD.esr | 0x40, ..LOAD };
    const REGION: u64 = 0x0F00_0000;

    /// A guest at the last instruction that there is.
    const GUEST: Registers = Registers { x: [7; 31], elr: u64::MAX - 3, spsr: EL1H };

    fn guest_core() -> Cores {
        let mut cores = Cores::new();
        cores.save(0, &GUEST).unwrap();
        cores
    }

    fn one_region(read: MemoryHandler, write: MemoryHandler) -> Policy {
        let mut policy = Policy::new();
        policy.handle_range(REGION, 0x1000, MemoryAccessHandler { read, write }).unwrap();
        policy
    }

    #[test]
    fn an_absent_handler_answers_quietly() {
        let mut cores = guest_core();
        let store = cores.trap(0, &one_region(MemoryHandler::Fault, MemoryHandler::Absent), &STORE);
        assert_eq!(store, Ok(TrapAnswer::StoreHandled));
        assert_eq!(cores.registers(0), Ok(Registers { elr: 0, ..GUEST }));
        let load = cores.trap(0, &one_region(MemoryHandler::Absent, MemoryHandler::Fault), &LOAD);
        assert_eq!(load, Ok(TrapAnswer::LoadHandled));
        let mut x = GUEST.x;
        x[5] = 0;
        assert_eq!(cores.registers(0), Ok(Registers { x, elr: 4, ..GUEST }));
        assert_eq!(cores.counter(), 0);
    }

    /// Each access gives the guest the abort, or is refused where it has no vector.
    fn expect_faults(policy: &Policy, accesses: &[TrapRegisters]) {
        for access in accesses {
            let mut cores = guest_core();
            assert_eq!(cores.trap(0, policy, access), Err(Refusal::NoGuestVector));
            assert_eq!(cores, guest_core());
            let with_vector = TrapRegisters { vbar: 0x8_0000, ..*access };
            assert_eq!(cores.trap(0, policy, &with_vector), Ok(TrapAnswer::AbortInjected));
            assert_eq!(cores.fault_registers(0).map(|el1| el1.elr), Ok(GUEST.elr));
        }
    }

    #[test]
    fn a_fault_is_the_guests_abort() {
        expect_faults(&one_region(MemoryHandler::Fault, MemoryHandler::Absent), &[LOAD]);
        expect_faults(&one_region(MemoryHandler::Absent, MemoryHandler::Fault), &[STORE]);
    }

    #[test]
    fn a_region_comes_and_goes_between_traps() {
        let mut cores = guest_core();
        let mut policy = one_region(MemoryHandler::Absent, MemoryHandler::Fault);
        assert_eq!(cores.trap(0, &policy, &LOAD), Ok(TrapAnswer::LoadHandled));
        assert_eq!(cores.read_gpr(0, 5), Ok(0));
        policy.release_range(REGION, 0x1000).unwrap();
        assert_eq!(policy.find(REGION), None);
        expect_faults(&policy, &[LOAD, STORE]);
        policy.handle_range(REGION, 0x2000, MemoryAccessHandler::FILTERED_MMIO).unwrap();
        assert_eq!(cores.trap(0, &policy, &LOAD), Ok(TrapAnswer::LoadHandled));
        assert_eq!(cores.counter(), 1);
    }

    #[test]
    fn an_unknown_handler_in_bytes_is_a_fault() {
        for code in [3, u64::MAX] {
            let mut bytes = *one_region(MemoryHandler::Absent, MemoryHandler::Absent).as_bytes();
            // The words of the first region's handlers.
            for word in [132, 133] {
                bytes[8 * word..8 * word + 8].copy_from_slice(&code.to_le_bytes());
            }
            let policy = Policy::from_bytes(bytes);
            let fault = MemoryAccessHandler { read: MemoryHandler::Fault, write: MemoryHandler::Fault };
            assert!(policy.regions().map(|region| region.handler).eq([fault]));
            expect_faults(&policy, &[LOAD, STORE]);
        }
    }

    #[test]
    fn an_access_is_decoded() {
        let access = decode(0x01C5_8000, 0xF000, 0x0ABC_D010).unwrap();
        assert_eq!((access.ipa, access.width, access.register_index), (0x0F00_0010, 64, 5));
        assert_eq!(access.kind, MemoryAccessKind::Read);
        assert!(access.register_width_64 && !access.sign_extend);
        assert_eq!(decode(0x00C5_8000, 0, 0), Err(Refusal::NoSyndrome));
        assert_eq!(extend_read_result(0x0120_8000, 0x80), Ok(0xFFFF_FFFF_FFFF_FF80));
        assert_eq!(align_down_to_page(0x1FFF), 0x1000);
        assert_eq!(align_up_to_page(0x1001), Ok(0x2000));
        assert_eq!(align_up_to_page(u64::MAX), Err(Refusal::NoPageAbove));
    }
}
