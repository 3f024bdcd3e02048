//! The stage-2 policy.

use crate::ffi;
use crate::refusal::{accepted, never_refused, Refusal};

/// The most ranges that a policy allows.
pub const MAX_ALLOWED_RANGES: usize = 32;
/// The most regions that a policy handles.
pub const MAX_MEMORY_ACCESS_HANDLERS: usize = 16;

const ALLOWED_WORDS: usize = 4;
const ALLOWED_COUNT: usize = MAX_ALLOWED_RANGES * ALLOWED_WORDS;
const REGIONS: usize = ALLOWED_COUNT + 1;
const REGION_WORDS: usize = 5;
const REGION_COUNT: usize = REGIONS + MAX_MEMORY_ACCESS_HANDLERS * REGION_WORDS;

/// Who serves the loads or the stores of a region.
#[derive(Clone, Copy, Debug, Eq, PartialEq)]
#[repr(u64)]
pub enum MemoryHandler {
    /// Nobody, quietly: a load of any width gives 0 and a store is dropped, and the guest goes on
    /// past the instruction.
    Absent = 0,
    /// The filtered MMIO page of RITM's QEMU platform.
    FilteredMmio = 1,
    /// Nobody: the guest gets the abort, as it does in RITM where a handler is missing.
    Fault = 2,
}

impl MemoryHandler {
    /// All of them, by number.
    pub const ALL: &'static [Self] = &[Self::Absent, Self::FilteredMmio, Self::Fault];

    /// The handler of a code in a policy's bytes: an unknown one reads as the fault.
    fn from_code(code: u64) -> Self {
        Self::ALL.iter().copied().find(|&handler| handler as u64 == code).unwrap_or(Self::Fault)
    }
}

/// The handlers of a region, one for loads and one for stores.
#[derive(Clone, Copy, Debug, Eq, PartialEq)]
pub struct MemoryAccessHandler {
    /// Serves the loads.
    pub read: MemoryHandler,
    /// Serves the stores.
    pub write: MemoryHandler,
}

impl MemoryAccessHandler {
    /// The filtered MMIO page, for loads and stores.
    pub const FILTERED_MMIO: Self = Self { read: MemoryHandler::FilteredMmio, write: MemoryHandler::FilteredMmio };
}

/// A range that the guest may access directly.
#[derive(Clone, Copy, Debug, Eq, PartialEq)]
pub struct Stage2Range {
    /// Its first address.
    pub base_ipa: u64,
    /// Its size in bytes.
    pub size: u64,
    /// The first address after it.
    pub end_ipa: u64,
    /// The attribute word of its page table entries.
    pub attributes: u64,
}

/// A range whose accesses are handled.
#[derive(Clone, Copy, Debug, Eq, PartialEq)]
pub struct MemoryAccessRegion {
    /// Its first address.
    pub base_ipa: u64,
    /// Its size in bytes.
    pub size: u64,
    /// The first address after it.
    pub end_ipa: u64,
    /// Who handles them.
    pub handler: MemoryAccessHandler,
}

/// Where an address was found.
#[derive(Clone, Copy, Debug, Eq, PartialEq)]
pub struct RegionMatch {
    /// The place of the region in [`Policy::regions`].
    pub index: usize,
    /// The offset of the address from the region's base.
    pub offset: u64,
}

/// The stage-2 policy: the ranges that the guest may access directly, and the regions whose
/// accesses are handled.
///
/// ```
/// use ritm::{MemoryAccessHandler, Policy, Refusal};
///
/// let mut policy = Policy::new();
/// policy.allow_range(0x4000_0000, 0x1000_0000, 0x7fd)?;
/// policy.handle_range(0x0f00_0000, 0x1000, MemoryAccessHandler::FILTERED_MMIO)?;
/// assert_eq!(policy.find(0x0f00_0fff).unwrap().offset, 4095);
/// assert_eq!(policy.find(0x0f00_1000), None);
/// assert_eq!(policy.allow_range(0x4fff_f000, 0x1000, 0x7fd), Err(Refusal::AllowedRangeOverlap));
/// # Ok::<(), Refusal>(())
/// ```
#[derive(Clone, Debug, Eq, PartialEq)]
pub struct Policy(pub(crate) ffi::Policy);

impl Policy {
    /// The fresh policy: no range, no region.
    #[must_use]
    pub fn new() -> Self {
        let mut policy = ffi::Policy::ZERO;
        never_refused(ffi::ritm_fresh_policy(&mut policy));
        Self(policy)
    }

    /// The policy that stands in these bytes. Any bytes are one.
    #[must_use]
    pub fn from_bytes(bytes: [u8; ffi::POLICY_SIZE]) -> Self {
        Self(ffi::Policy::from_bytes(bytes))
    }

    /// Its bytes.
    #[must_use]
    pub fn as_bytes(&self) -> &[u8; ffi::POLICY_SIZE] {
        self.0.as_bytes()
    }

    /// Allows the guest direct access to a range, with any attribute word.
    ///
    /// # Errors
    ///
    /// Refusals 1 to 7, the first that applies.
    pub fn allow_range(&mut self, base_ipa: u64, size: u64, attributes: u64) -> Result<(), Refusal> {
        accepted(ffi::ritm_allow_range(&mut self.0, base_ipa, size, attributes))
    }

    /// Allows the memory that the board's flattened devicetree describes: each `reg` pair of each
    /// child of the root whose `device_type` is `memory`, in the blob's order, all with this attribute
    /// word. What stands in the slice after the blob's `totalsize` bytes is not read.
    ///
    /// An accepted import is the calls of [`Policy::allow_range`] for all its pairs; a refused one
    /// allows none of them.
    ///
    /// A blob as QEMU hands it out is refused: its `totalsize` is 1 MiB, and some of its values are
    /// padded with bytes that are not zero. Run `dtc -I dtb -O dtb` over it first.
    ///
    /// ```
    /// use ritm::{Policy, Refusal};
    ///
    /// let text = |bytes: &[u8; 4]| u32::from_be_bytes(*bytes);
    /// let words = [
    ///     // The header, and the end of the memory reservations.
    ///     0xd00d_feed, 144, 56, 128, 40, 17, 16, 0, 16, 72,
    ///     0, 0, 0, 0,
    ///     // The root and its child.
    ///     1, 0,
    ///     1, text(b"mem\0"),
    ///     // device_type = "memory", reg = <0 0x40000000 0x10000000>: cell counts are 2 and 1 by default.
    ///     3, 7, 0, text(b"memo"), text(b"ry\0\0"),
    ///     3, 12, 12, 0, 0x4000_0000, 0x1000_0000,
    ///     // The end of both nodes and of the structure; the names of the properties.
    ///     2, 2, 9,
    ///     text(b"devi"), text(b"ce_t"), text(b"ype\0"), text(b"reg\0"),
    /// ];
    /// let blob: Vec<u8> = words.iter().flat_map(|word: &u32| word.to_be_bytes()).collect();
    ///
    /// let mut policy = Policy::new();
    /// policy.import_memory(&blob, 0x7fd)?;
    /// assert!(policy.allowed_ranges().map(|range| (range.base_ipa, range.size)).eq([(0x4000_0000, 0x1000_0000)]));
    /// assert_eq!(policy.import_memory(&blob, 0x7fd), Err(Refusal::AllowedRangeOverlap));
    /// assert_eq!(policy.import_memory(&blob[..143], 0x7fd), Err(Refusal::InvalidDevicetree));
    /// # Ok::<(), Refusal>(())
    /// ```
    ///
    /// It works on a copy of the policy, and takes some 2.7 KiB of stack.
    ///
    /// # Errors
    ///
    /// [`Refusal::InvalidDevicetree`], then [`Refusal::UnsupportedCellCounts`], then refusals 1 to 7,
    /// the number that the first refused pair meets.
    pub fn import_memory(&mut self, blob: &[u8], attributes: u64) -> Result<(), Refusal> {
        accepted(ffi::ritm_import_memory(&mut self.0, blob, attributes))
    }

    /// Has the guest's accesses to a range handled, loads by one handler and stores by another.
    ///
    /// # Errors
    ///
    /// Refusals 1 to 4, 6, 8, 9, the first that applies.
    pub fn handle_range(&mut self, base_ipa: u64, size: u64, handler: MemoryAccessHandler) -> Result<(), Refusal> {
        accepted(ffi::ritm_handle_range(&mut self.0, base_ipa, size, handler.read as u64, handler.write as u64))
    }

    /// Releases the first allowed range with this base and size, or else the first such region.
    ///
    /// The others keep their order, and the freed place is used again. A range may be released, and
    /// others allowed or handled, at any time, between traps too.
    ///
    /// ```
    /// use ritm::{MemoryAccessHandler, Policy, Refusal};
    ///
    /// let mut policy = Policy::new();
    /// policy.handle_range(0x0f00_0000, 0x1000, MemoryAccessHandler::FILTERED_MMIO)?;
    /// assert_eq!(policy.release_range(0x0f00_0000, 0x2000), Err(Refusal::RangeNotHeld));
    /// policy.release_range(0x0f00_0000, 0x1000)?;
    /// assert_eq!(policy.find(0x0f00_0000), None);
    /// policy.allow_range(0x0f00_0000, 0x2000, 0x7fd)?;
    /// # Ok::<(), Refusal>(())
    /// ```
    ///
    /// # Errors
    ///
    /// Refusals 1 to 4, then [`Refusal::RangeNotHeld`].
    pub fn release_range(&mut self, base_ipa: u64, size: u64) -> Result<(), Refusal> {
        accepted(ffi::ritm_release_range(&mut self.0, base_ipa, size))
    }

    /// The first region that has the address.
    #[must_use]
    pub fn find(&self, ipa: u64) -> Option<RegionMatch> {
        let mut result = ffi::FindResult::ZERO;
        never_refused(ffi::ritm_find(&self.0, ipa, &mut result));
        let [found, index, offset] = result.get_all(0);
        (found == 1).then_some(RegionMatch { index: index as usize, offset })
    }

    /// The allowed ranges, in order of arrival: what the host writes into its page tables.
    pub fn allowed_ranges(&self) -> impl Iterator<Item = Stage2Range> + '_ {
        (0..self.count(ALLOWED_COUNT, MAX_ALLOWED_RANGES)).map(|k| {
            let [base_ipa, size, end_ipa, attributes] = self.0.get_all(k * ALLOWED_WORDS);
            Stage2Range { base_ipa, size, end_ipa, attributes }
        })
    }

    /// The handled regions, ascending by base.
    pub fn regions(&self) -> impl Iterator<Item = MemoryAccessRegion> + '_ {
        (0..self.count(REGION_COUNT, MAX_MEMORY_ACCESS_HANDLERS)).map(|k| {
            let [base_ipa, size, end_ipa, read, write] = self.0.get_all(REGIONS + k * REGION_WORDS);
            MemoryAccessRegion {
                base_ipa,
                size,
                end_ipa,
                handler: MemoryAccessHandler {
                    read: MemoryHandler::from_code(read),
                    write: MemoryHandler::from_code(write),
                },
            }
        })
    }

    /// A stored count; one above its limit reads as the limit.
    fn count(&self, place: usize, limit: usize) -> usize {
        self.0.get(place).min(limit as u64) as usize
    }
}

impl Default for Policy {
    fn default() -> Self {
        Self::new()
    }
}
