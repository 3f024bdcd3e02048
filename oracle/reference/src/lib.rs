//! RITM's own Rust, unchanged, on x86-64.
//!
//! Each module below includes a file of RITM byte for byte from the folder RITM_SRC. What follows an `include!` in the
//! same module is not RITM's: it stands there because the file's private items are visible there alone.
//!
//! The modules offer RITM's functions as they are, for a benchmark: [`exceptions::GuestRegisters`] has RITM's two
//! register banks, on which [`hypervisor::handle_sync_lower`] and the register accesses run with no layout work, the
//! system registers are set through [`arm_sysregs`], and [`hypervisor::set_policy`] puts a policy in force. [`oracle`]
//! is the interface for comparing: each call with all that it answers.
#![allow(dead_code, unused_doc_comments, clippy::new_without_default)]

extern crate alloc;
// `core::arch::naked_asm!` becomes an undefined instruction; all else is `core`.
extern crate shadow_core as core;

pub use {aarch64_paging, aarch64_rt, arm_sysregs, memory_access};

mod arch;
pub mod oracle;

pub mod exceptions {
    include!(concat!(env!("RITM_SOURCES"), "/src/exceptions.rs"));

    /// One core's registers in RITM's two banks: what the vector code and RITM's wrapper around it save.
    pub struct GuestRegisters {
        /// x0 to x18, x29, x30, ELR and SPSR.
        pub volatile: aarch64_rt::RegisterState,
        nonvolatile: NonVolatileRegisters,
    }

    impl GuestRegisters {
        /// The banks with x19 to x28 in the second.
        #[inline]
        pub fn new(volatile: aarch64_rt::RegisterState, nonvolatile: [u64; 10]) -> Self {
            Self { volatile, nonvolatile: NonVolatileRegisters { registers: nonvolatile } }
        }

        /// x19 to x28.
        #[inline]
        pub fn nonvolatile(&self) -> &[u64; 10] {
            &self.nonvolatile.registers
        }

        /// RITM's view of the two banks, as `sync_lower_with_nonvolatile` makes it.
        #[inline]
        pub fn view(&mut self) -> GuestRegisterStateRef<'_> {
            GuestRegisterStateRef::new(VolatileRegisterStateRef::new(&mut self.volatile), &mut self.nonvolatile)
        }
    }
}

pub mod hvc_response {
    include!(concat!(env!("RITM_SOURCES"), "/src/hvc_response.rs"));
}

pub mod hypervisor {
    include!(concat!(env!("RITM_SOURCES"), "/src/hypervisor.rs"));

    /// Puts a policy in force: data aborts go by a copy of what the builder holds.
    ///
    /// # Safety
    ///
    /// No trap is under way, on any thread.
    pub unsafe fn set_policy(builder: &Stage2Builder) {
        // SAFETY: traps alone use the policy, and as the caller promises none is under way.
        unsafe { LazyLock::set(&STAGE2_CONFIG, builder.copy().build()) };
    }

    /// The policy in force; if none was set, that of the platform Qemu.
    pub fn policy() -> &'static Stage2Config {
        stage2_config()
    }

    /// The suspend map as `SUSPEND_CONTEXTS` is one, by numbers for keys and values.
    pub type SuspendMap = SimpleMap<u64, (u64, u64), MAX_CORES>;
}

pub mod pagetable {
    include!(concat!(env!("RITM_SOURCES"), "/src/pagetable.rs"));
}

pub mod platform {
    include!(concat!(env!("RITM_SOURCES"), "/src/platform.rs"));
}

pub mod simple_map {
    include!(concat!(env!("RITM_SOURCES"), "/src/simple_map.rs"));

    impl<K, V, const CAPACITY: usize> SimpleMap<K, V, CAPACITY> {
        /// Each place's entry.
        pub fn places(&self) -> impl Iterator<Item = Option<(&K, &V)>> {
            self.items.iter().map(|item| item.as_ref().map(|item| (&item.key, &item.value)))
        }
    }
}

pub mod stage2 {
    include!(concat!(env!("RITM_SOURCES"), "/src/stage2.rs"));

    impl Stage2Builder {
        /// The same policy again.
        pub fn copy(&self) -> Self {
            Self {
                idmap: self.idmap,
                memory_access_handlers: MemoryAccessHandlerRegistry { regions: self.memory_access_handlers.regions },
                allowed_ranges: self.allowed_ranges,
            }
        }

        /// Puts back what `before` has, but for what the page table notes: for a benchmark, where it notes nothing.
        pub fn put_back(&mut self, before: &Self) {
            self.memory_access_handlers.regions = before.memory_access_handlers.regions;
            self.allowed_ranges = before.allowed_ranges;
        }

        /// Base, size and end of each allowed range in its place.
        pub fn ranges(&self) -> impl Iterator<Item = [u64; 3]> {
            self.allowed_ranges.iter().map(|range| [range.base_ipa, range.size as u64, range.end_ipa])
        }

        /// Attributes of each allowed range in its place, which RITM keeps in the page table alone.
        pub fn attributes(&self) -> impl Iterator<Item = u64> {
            self.idmap.mapped().iter().map(|mapped| mapped.2.bits() as u64)
        }

        /// Each region in its place, and its stored end.
        pub fn regions(&self) -> impl Iterator<Item = (&MemoryAccessRegion, u64)> {
            self.memory_access_handlers.regions.iter().map(|region| (region, region.end_ipa))
        }
    }
}

// What RITM's main.rs gives to the modules above.
static SHARED_HEAP: spin::mutex::SpinMutex<[u8; <platform::PlatformImpl as platform::Platform>::SHARED_HEAP_SIZE]> =
    spin::mutex::SpinMutex::new([0; _]);

fn shared_alloc(_layout: std::alloc::Layout) -> &'static mut [u8] {
    unimplemented!("no devicetree is written")
}

#[cfg(test)]
mod tests {
    use crate::aarch64_rt::RegisterState;
    use crate::arm_sysregs::{EsrEl2, FarEl2, HpfarEl2, set_esr_el2, set_far_el2, set_hpfar_el2};
    use crate::exceptions::GuestRegisters;
    use crate::hypervisor;
    use crate::platform::qemu;
    use crate::stage2::{MemoryAccessHandler, Stage2Builder};

    /// RITM's functions with nothing between, as a benchmark calls them.
    #[test]
    fn traps_are_taken_on_the_banks() {
        let mut builder = Stage2Builder::new();
        let handler = MemoryAccessHandler::read_write(qemu::READ, qemu::WRITE);
        assert_eq!(builder.handle_range(0x0F00_0000, 4096, handler), Ok(()));
        // SAFETY: the trap below comes after, and no other test of this crate takes one.
        unsafe { hypervisor::set_policy(&builder) };
        let mut registers = GuestRegisters::new(RegisterState::default(), [0; 10]);
        set_esr_el2(EsrEl2::from_bits_retain(0x93D9_8000));
        set_hpfar_el2(HpfarEl2::from_bits_retain(0xF000));
        set_far_el2(FarEl2::from_bits_retain(0));
        hypervisor::handle_sync_lower(registers.view());
        assert_eq!(registers.nonvolatile()[25 - 19], 0xFEED_FACE_CAFE_BEEF);
        assert_eq!(registers.volatile.elr, 4);

        registers.volatile.registers[0] = 0xFF00_0000;
        set_esr_el2(EsrEl2::from_bits_retain(0x16 << 26));
        hypervisor::handle_sync_lower(registers.view());
        assert_eq!(registers.volatile.registers[0], 0x1234_5678_9ABC_DEF0);
    }
}
