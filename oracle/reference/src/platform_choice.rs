// What RITM's build script writes: the platform, and two addresses of the image. Their values are not among the
// sources; nothing but the policy of the platform Qemu sees them.
pub mod qemu {
    include!(concat!(env!("RITM_SOURCES"), "/src/platform/qemu.rs"));

    /// The filtered MMIO page, for loads.
    pub const READ: crate::stage2::MemoryReadHandler = Qemu::read_filtered_mmio;
    /// The filtered MMIO page, for stores.
    pub const WRITE: crate::stage2::MemoryWriteHandler = Qemu::write_filtered_mmio;

    /// The counter of the filtered MMIO page.
    pub fn counter() -> u64 {
        FILTERED_MMIO_COUNTER.load(Ordering::Relaxed)
    }

    /// Sets the counter of the filtered MMIO page.
    pub fn set_counter(value: u64) {
        FILTERED_MMIO_COUNTER.store(value, Ordering::Relaxed);
    }
}

pub use crate::oracle::PlatformImpl;

pub const RITM_IMAGE_ADDRESS: usize = 0x4020_0000;
pub const PAYLOAD_ADDRESS: u64 = 0x4060_0000;
