//! A small EL2 host, the same as `examples/host.c` in Rust: it sets up the policy of RITM's
//! src/platform/qemu.rs, and two pages of its own, then takes the traps of a guest that boots, while
//! a module is pulled out and another plugged in. There is no guest: where a host would enter EL1,
//! this one sets the register that a guest would have set. Each step prints a line. A step that
//! answers otherwise than expected ends the program with status 1.

use ritm::{
    align_down_to_page, align_up_to_page, Cores, HvcReply, MemoryAccessHandler, MemoryHandler, Policy, Refusal,
    Registers, SuspendCoreData, SuspendMap, TrapAnswer, TrapRegisters,
};
use std::fmt::Debug;
use std::process;

const PAGE_SIZE: u64 = 0x1000;

// Addresses of src/platform/qemu.rs.
const UART_BASE_ADDRESS: u64 = 0x900_0000;
const FILTERED_MMIO_BASE: u64 = 0x0f00_0000;
const FILTERED_MMIO_END: u64 = FILTERED_MMIO_BASE + PAGE_SIZE;
const DRAM_START: u64 = 0x4000_0000;
const RITM_IMAGE_SIZE: u64 = 4 * 1024 * 1024;
const NORMAL_MEMORY_END: u64 = 0x1_0000_0000;
const HIGH_ECAM_START: u64 = 0x40_1000_0000;
const HIGH_ECAM_END: u64 = 0x40_2000_0000;
const HIGH_MMIO_START: u64 = 0x80_0000_0000;
const HIGH_MMIO_END: u64 = 0x100_0000_0000;
const SHARED_HEAP_SIZE: u64 = 16 * PAGE_SIZE;

// Chosen here: RITM's build gives the address of its image, and the linker that of the heap in it.
const RITM_IMAGE_ADDRESS: u64 = 0x7000_0000;
const SHARED_HEAP_ADDRESS: u64 = RITM_IMAGE_ADDRESS + 0x2a_0840;

// Chosen here: a page of which the loads alone are served, and one of which nothing is.
const HALF_SERVED_BASE: u64 = 0x3_0000_0000;
const UNSERVED_BASE: u64 = HALF_SERVED_BASE + PAGE_SIZE;
const UNSERVED_END: u64 = UNSERVED_BASE + PAGE_SIZE;

// Chosen here: the page of a module that is plugged in while the guest runs.
const MODULE_BASE: u64 = 0x2_0000_0000;
const MODULE_END: u64 = MODULE_BASE + PAGE_SIZE;

// Stage-2 descriptors (Arm DDI 0487): valid, read and write, access flag; memory is write-back and
// inner shareable.
const STAGE2_DEVICE_ATTRIBUTES: u64 = 0x4c1;
const STAGE2_MEMORY_ATTRIBUTES: u64 = 0x7fd;

// ESR_EL2 and its ISS for a data abort (Arm DDI 0601).
const ESR_EC_SHIFT: u64 = 26;
const ESR_IL: u64 = 1 << 25;
const ISS_ISV: u64 = 1 << 24;
const ISS_SAS_64_BIT: u64 = 3 << 22;
const ISS_SRT_SHIFT: u64 = 16;
const ISS_SF: u64 = 1 << 15;
const ISS_WNR: u64 = 1 << 6;
const ISS_DFSC_TRANSLATION_LEVEL_3: u64 = 7;

const ESR_HVC: u64 = 0x16 << ESR_EC_SHIFT | ESR_IL;
const ESR_SMC: u64 = 0x17 << ESR_EC_SHIFT | ESR_IL;
const ESR_DATA_ABORT: u64 = 0x24 << ESR_EC_SHIFT | ESR_IL | ISS_DFSC_TRANSLATION_LEVEL_3;
const ESR_LOAD: u64 = ESR_DATA_ABORT | ISS_ISV | ISS_SAS_64_BIT | RT << ISS_SRT_SHIFT | ISS_SF;
const ESR_STORE: u64 = ESR_LOAD | ISS_WNR;

// The guest: where it starts, in which mode (EL1h), its exception vectors, the register of its
// loads and stores.
const GUEST_ENTRY: u64 = 0x4020_0000;
const GUEST_SPSR: u64 = 5;
const GUEST_VBAR: u64 = 0x4021_0800;
const RT: u64 = 5;

// Arm DEN0022.
const PSCI_VERSION: u64 = 0x8400_0000;
const PSCI_1_1: u64 = 0x1_0001;

// A call that RITM's QEMU platform answers for tests, and its answer; and one that it does not
// know.
const TEST_CALL: u64 = 0xff00_0000;
const TEST_CALL_ANSWER: u64 = 0x1234_5678_9abc_def0;
const UNKNOWN_CALL: u64 = 0xc500_0000;

// What may stand in x0 beside a function identifier (Arm DEN0028 from version 1.3 on): bits of the
// upper half, which mean nothing, and in a fast call the hint that the guest holds no live SVE
// state.
const UPPER_HALF: u64 = 0x1_0000_0000;
const SVE_HINT: u64 = 0x1_0000;

// What the filtered MMIO page takes, and where its counter is.
const STORE_OFFSET: u64 = 8;
const STORE_VALUE: u64 = 0x1234_5678_9abc_def0;
const COUNTER_OFFSET: u64 = 16;

struct Host {
    policy: Policy,
    cores: Cores,
    map: SuspendMap,
}

fn main() {
    let mut host = Host { policy: Policy::new(), cores: Cores::new(), map: SuspendMap::new() };
    if let Err(refusal) = host.run() {
        eprintln!("host: refused {}: {refusal}", refusal.number());
        process::exit(1);
    }
}

fn expect<T: Debug + PartialEq>(what: &str, answer: T, expected: T) {
    if answer != expected {
        eprintln!("host: {what}: {answer:x?} instead of {expected:x?}");
        process::exit(1);
    }
}

impl Host {
    fn run(&mut self) -> Result<(), Refusal> {
        self.configure_memory_access()?;
        self.handle_pages_in_part()?;
        self.allow_a_page_twice();
        self.count_ranges(3);
        self.find_addresses();
        self.boot()?;
        self.suspend_and_resume()
    }
}

/// The policy.
impl Host {
    fn allow(&mut self, start: u64, end: u64, attributes: u64, what: &str) -> Result<(), Refusal> {
        self.policy.allow_range(start, end - start, attributes)?;
        println!("policy: allow {start:#x} to {end:#x}, {what}");
        Ok(())
    }

    fn handle(&mut self, start: u64, end: u64, handler: MemoryAccessHandler, what: &str) -> Result<(), Refusal> {
        self.policy.handle_range(start, end - start, handler)?;
        let (read, write) = (handler.read as u64, handler.write as u64);
        println!("policy: handle {start:#x} to {end:#x}, {what}: loads by handler {read}, stores by {write}");
        Ok(())
    }

    fn release(&mut self, start: u64, end: u64, what: &str) -> Result<(), Refusal> {
        self.policy.release_range(start, end - start)?;
        println!("policy: release {start:#x} to {end:#x}, {what}");
        Ok(())
    }

    /// RITM's function of this name for QEMU.
    fn configure_memory_access(&mut self) -> Result<(), Refusal> {
        let device = STAGE2_DEVICE_ATTRIBUTES;
        let memory = STAGE2_MEMORY_ATTRIBUTES;
        let filtered = MemoryAccessHandler::FILTERED_MMIO;
        let ritm_start = RITM_IMAGE_ADDRESS;
        let ritm_end = RITM_IMAGE_ADDRESS + RITM_IMAGE_SIZE;
        let before_page = "device memory before the filtered MMIO page";
        let after_page = "device memory after the filtered MMIO page";
        let before_image = "normal memory before the RITM image";
        let after_image = "normal memory after the RITM image";
        self.allow(0, FILTERED_MMIO_BASE, device, before_page)?;
        self.handle(FILTERED_MMIO_BASE, FILTERED_MMIO_END, filtered, "the filtered MMIO page")?;
        self.allow(FILTERED_MMIO_END, DRAM_START, device, after_page)?;
        self.allow(DRAM_START, ritm_start, memory, before_image)?;
        self.allow(ritm_end, NORMAL_MEMORY_END, memory, after_image)?;
        self.allow(HIGH_ECAM_START, HIGH_ECAM_END, device, "high PCIe ECAM")?;
        self.allow(HIGH_MMIO_START, HIGH_MMIO_END, device, "high MMIO")?;
        // The linker may put the heap anywhere: its whole pages are allowed.
        let heap_start = align_down_to_page(SHARED_HEAP_ADDRESS);
        let heap_end = align_up_to_page(SHARED_HEAP_ADDRESS + SHARED_HEAP_SIZE)?;
        self.allow(heap_start, heap_end, memory, "the shared heap")
    }

    /// Each direction has its own handler. The one page's stores are dropped; the other's loads give
    /// 0, and its stores are a fault.
    fn handle_pages_in_part(&mut self) -> Result<(), Refusal> {
        let half_served = MemoryAccessHandler { read: MemoryHandler::FilteredMmio, write: MemoryHandler::Absent };
        let unserved = MemoryAccessHandler { read: MemoryHandler::Absent, write: MemoryHandler::Fault };
        self.handle(HALF_SERVED_BASE, UNSERVED_BASE, half_served, "a page that is half served")?;
        self.handle(UNSERVED_BASE, UNSERVED_END, unserved, "a page that is not served")
    }

    fn allow_a_page_twice(&mut self) {
        let uart = UART_BASE_ADDRESS;
        let answer = self.policy.allow_range(uart, PAGE_SIZE, STAGE2_DEVICE_ATTRIBUTES);
        let refusal = Refusal::AllowedRangeOverlap;
        expect("the UART allowed twice", answer, Err(refusal));
        let number = refusal.number();
        println!("policy: allow {uart:#x}, the UART, which is allowed already: refused {number}");
    }

    fn release_a_page_twice(&mut self) {
        let answer = self.policy.release_range(MODULE_BASE, PAGE_SIZE);
        let refusal = Refusal::RangeNotHeld;
        expect("the module released twice", answer, Err(refusal));
        println!("policy: release {MODULE_BASE:#x}, which is held no more: refused {}", refusal.number());
    }

    fn count_ranges(&self, expected_regions: usize) {
        let allowed = self.policy.allowed_ranges().count();
        let regions = self.policy.regions().count();
        expect("allowed ranges", allowed, 7);
        expect("regions", regions, expected_regions);
        println!("policy: allowed ranges {allowed}, regions {regions}");
    }

    fn find_addresses(&self) {
        for ipa in [FILTERED_MMIO_BASE + COUNTER_OFFSET, UART_BASE_ADDRESS] {
            let found = self.policy.find(ipa);
            expect("an address that is handled", found.is_some(), ipa >= FILTERED_MMIO_BASE);
            match found {
                Some(at) => println!("policy: find {ipa:#x}: region {}, offset {}", at.index, at.offset),
                None => println!("policy: find {ipa:#x}: none"),
            }
        }
    }
}

/// The cores.
impl Host {
    fn boot(&mut self) -> Result<(), Refusal> {
        self.start_guest(0)?;
        self.start_guest(1)?;
        self.call_firmware(0)?;
        self.call_platform(0)?;
        self.call_by_identifier(0)?;
        self.load_words()?;
        self.store_words(0)?;
        self.probe_pages(1)?;
        self.change_modules(0)?;
        self.expect_refused_trap(8, "a trap on a ninth core", Refusal::NoSuchCore);
        Ok(())
    }

    fn start_guest(&mut self, core: u64) -> Result<(), Refusal> {
        let registers = Registers { elr: GUEST_ENTRY, spsr: GUEST_SPSR, ..Registers::default() };
        self.cores.save(core, &registers)
    }

    /// The guest runs on with the registers that its core holds, and sets one of them before it
    /// traps.
    fn run_guest(&mut self, core: u64, index: u64, value: u64) -> Result<(), Refusal> {
        let mut registers = self.cores.registers(core)?;
        registers.x[index as usize] = value;
        self.cores.save(core, &registers)
    }

    /// Takes a trap. The guest's MMU is off: the faulting virtual address is the IPA.
    fn trap(&mut self, core: u64, esr: u64, ipa: u64) -> Result<TrapAnswer, Refusal> {
        let trap = TrapRegisters { esr, fipa: ipa / PAGE_SIZE, far: ipa, vbar: GUEST_VBAR };
        self.cores.trap(core, &self.policy, &trap)
    }

    fn expect_refused_trap(&mut self, core: u64, what: &str, refusal: Refusal) {
        let answer = self.trap(core, ESR_LOAD, FILTERED_MMIO_BASE);
        expect(what, answer, Err(refusal));
        println!("core {core}: {what}: refused {}", refusal.number());
    }

    fn reply(&mut self, core: u64, kind: u64, reply: &HvcReply, x0: u64) -> Result<(), Refusal> {
        self.cores.reply(core, reply)?;
        expect("x0 after a reply", self.cores.read_gpr(core, 0)?, x0);
        let elr = self.cores.registers(core)?.elr;
        println!("core {core}: reply of kind {kind}: x0 {x0:#x}, ELR {elr:#x}");
        Ok(())
    }

    fn call_firmware(&mut self, core: u64) -> Result<(), Refusal> {
        self.run_guest(core, 0, PSCI_VERSION)?;
        let answer = self.trap(core, ESR_SMC, 0)?;
        let values = [PSCI_VERSION, 0, 0, 0];
        expect("PSCI_VERSION", answer, TrapAnswer::ToFirmware { values, sve_hint: false });
        println!("core {core}: SMC {PSCI_VERSION:#x}, PSCI_VERSION: to the firmware");
        let waiting = "a trap while the call waits for its reply";
        self.expect_refused_trap(core, waiting, Refusal::CoreWaiting);
        self.reply(core, 1, &HvcReply::Value(PSCI_1_1), PSCI_1_1)
    }

    fn call_platform(&mut self, core: u64) -> Result<(), Refusal> {
        self.expect_platform_call(core, TEST_CALL, "RITM's test call")?;
        self.reply(core, 1, &HvcReply::Value(TEST_CALL_ANSWER), TEST_CALL_ANSWER)?;
        self.expect_platform_call(core, UNKNOWN_CALL, "an unknown call")?;
        self.reply(core, 0, &HvcReply::Unhandled, u64::MAX)
    }

    fn expect_platform_call(&mut self, core: u64, call: u64, what: &str) -> Result<(), Refusal> {
        self.run_guest(core, 0, call)?;
        let answer = self.trap(core, ESR_HVC, 0)?;
        expect(what, matches!(answer, TrapAnswer::ToPlatform { values, .. } if values[0] == call), true);
        println!("core {core}: HVC {call:#x}, {what}: to the platform");
        Ok(())
    }

    /// A call goes to its recipient by its function identifier, whatever else stands in x0.
    fn call_by_identifier(&mut self, core: u64) -> Result<(), Refusal> {
        let calls = [
            ("SMC", ESR_SMC, PSCI_VERSION | UPPER_HALF, ("firmware", PSCI_VERSION, 0), PSCI_1_1),
            ("HVC", ESR_HVC, PSCI_VERSION | SVE_HINT, ("firmware", PSCI_VERSION, 1), PSCI_1_1),
            ("HVC", ESR_HVC, TEST_CALL | UPPER_HALF | SVE_HINT, ("platform", TEST_CALL, 1), TEST_CALL_ANSWER),
        ];
        for (conduit, esr, x0, expected, value) in calls {
            self.run_guest(core, 0, x0)?;
            let answer = self.trap(core, esr, 0)?;
            expect("a function identifier and an SVE hint", handed_out(&answer), Some(expected));
            let (recipient, identifier, hint) = expected;
            println!("core {core}: {conduit} {x0:#x}: to the {recipient} as {identifier:#x}, SVE hint {hint}");
            self.reply(core, 1, &HvcReply::Value(value), value)?;
        }
        Ok(())
    }

    fn load(&mut self, core: u64, what: &str, ipa: u64, word: u64) -> Result<(), Refusal> {
        expect("a load", self.trap(core, ESR_LOAD, ipa)?, TrapAnswer::LoadHandled);
        expect("a loaded word", self.cores.read_gpr(core, RT)?, word);
        let elr = self.cores.registers(core)?.elr;
        println!("core {core}: {what} at {ipa:#x}: x{RT} {word:#x}, ELR {elr:#x}");
        Ok(())
    }

    /// Each word of the filtered MMIO page, and the counter once more, from another core too: it
    /// grows by each load.
    fn load_words(&mut self) -> Result<(), Refusal> {
        let loads = [
            (0, 0, 0xfeed_face_cafe_beef),
            (0, COUNTER_OFFSET, 0),
            (0, COUNTER_OFFSET, 1),
            (0, 24, 0x1111_2222_3333_4444),
            (0, 32, 0x5555_6666_7777_8888),
            (0, 40, 0x9999_aaaa_bbbb_cccc),
            (1, COUNTER_OFFSET, 2),
        ];
        for (core, offset, word) in loads {
            self.load(core, "load", FILTERED_MMIO_BASE + offset, word)?;
        }
        Ok(())
    }

    fn store(&mut self, core: u64, what: &str, ipa: u64, value: u64) -> Result<(), Refusal> {
        self.run_guest(core, RT, value)?;
        expect("a store", self.trap(core, ESR_STORE, ipa)?, TrapAnswer::StoreHandled);
        let elr = self.cores.registers(core)?.elr;
        println!("core {core}: {what} of {value:#x} at {ipa:#x}: handled, ELR {elr:#x}");
        Ok(())
    }

    fn store_aborted(&mut self, core: u64, ipa: u64, value: u64) -> Result<(), Refusal> {
        self.run_guest(core, RT, value)?;
        expect("a bad store", self.trap(core, ESR_STORE, ipa)?, TrapAnswer::AbortInjected);
        let Registers { elr, spsr, .. } = self.cores.registers(core)?;
        expect("ELR at the guest's vector", elr, GUEST_VBAR + 0x200);
        println!("core {core}: store of {value:#x} at {ipa:#x}: abort injected, ELR {elr:#x}");
        let el1 = self.cores.fault_registers(core)?;
        println!(
            "core {core}: SPSR {spsr:#x}, ELR_EL1 {:#x}, SPSR_EL1 {:#x}, FAR_EL1 {:#x}, ESR_EL1 {:#x}",
            el1.elr, el1.spsr, el1.far, el1.esr
        );
        Ok(())
    }

    fn store_words(&mut self, core: u64) -> Result<(), Refusal> {
        let ipa = FILTERED_MMIO_BASE + STORE_OFFSET;
        self.store(core, "store", ipa, STORE_VALUE)?;
        self.store_aborted(core, ipa, STORE_VALUE + 1)
    }

    /// A guest probes pages that are served in part. Through an absent handler a store is dropped and
    /// a load gives 0, and does not count; handler 2 is the abort.
    fn probe_pages(&mut self, core: u64) -> Result<(), Refusal> {
        self.load(core, "load", HALF_SERVED_BASE + COUNTER_OFFSET, 3)?;
        self.store(core, "quiet store", HALF_SERVED_BASE + COUNTER_OFFSET, 7)?;
        self.load(core, "quiet load", UNSERVED_BASE + COUNTER_OFFSET, 0)?;
        self.load(core, "load", HALF_SERVED_BASE + COUNTER_OFFSET, 4)?;
        self.store_aborted(core, UNSERVED_BASE + COUNTER_OFFSET, 7)
    }

    /// A module is plugged in and used; it is pulled out, and the same store is the abort; another
    /// takes its place. Pages above it are served as before.
    fn change_modules(&mut self, core: u64) -> Result<(), Refusal> {
        let ipa = MODULE_BASE + STORE_OFFSET;
        let half_served = MemoryAccessHandler { read: MemoryHandler::FilteredMmio, write: MemoryHandler::Absent };
        self.handle(MODULE_BASE, MODULE_END, MemoryAccessHandler::FILTERED_MMIO, "a module")?;
        self.store(core, "store", ipa, STORE_VALUE)?;
        self.release(MODULE_BASE, MODULE_END, "the module")?;
        self.store_aborted(core, ipa, STORE_VALUE)?;
        self.release_a_page_twice();
        self.handle(MODULE_BASE, MODULE_END, half_served, "another module")?;
        self.store(core, "quiet store", ipa, 7)?;
        self.load(core, "load", HALF_SERVED_BASE + COUNTER_OFFSET, 5)?;
        self.count_ranges(4);
        Ok(())
    }
}

/// The recipient of a forwarded call, its function identifier and its SVE hint.
fn handed_out(answer: &TrapAnswer) -> Option<(&'static str, u64, u64)> {
    match answer {
        TrapAnswer::ToFirmware { values, sve_hint } => Some(("firmware", values[0], u64::from(*sve_hint))),
        TrapAnswer::ToPlatform { values, sve_hint } => Some(("platform", values[0], u64::from(*sve_hint))),
        _ => None,
    }
}

/// The suspend map.
impl Host {
    /// A core suspends, is looked up, resumes, and is suspended no more. The key is its MPIDR_EL1.
    fn suspend_and_resume(&mut self) -> Result<(), Refusal> {
        let mpidr = 0x8000_0001;
        let data = SuspendCoreData { entry_point: GUEST_ENTRY, context_id: 7 };
        self.map.insert(mpidr, data)?;
        println!("suspend map: insert {mpidr:#x}");
        let held = self.map.get(mpidr);
        expect("the entry held", held, Some(data));
        print_entry("get", mpidr, held);
        let removed = self.map.remove(mpidr);
        expect("the entry removed", removed, Some(data));
        print_entry("remove", mpidr, removed);
        let held = self.map.get(mpidr);
        expect("an entry removed before", held, None);
        print_entry("get", mpidr, held);
        Ok(())
    }
}

fn print_entry(what: &str, key: u64, entry: Option<SuspendCoreData>) {
    match entry {
        None => println!("suspend map: {what} {key:#x}: none"),
        Some(data) => println!(
            "suspend map: {what} {key:#x}: entry point {:#x}, context id {:#x}",
            data.entry_point, data.context_id
        ),
    }
}
