//! Stands for `aarch64-paging`: page tables that only note what was mapped. `map_range` accepts every range.
//!
//! Without the feature `notes` nothing is noted: RITM hands its arguments over, and nothing is done with them.
#![no_std]

pub type MapError = paging::MapError;

/// Addresses, and the two types that page tables are made from.
pub mod paging {
    /// Bytes in a page.
    pub const PAGE_SIZE: usize = 4096;

    /// The stage-2 translation regime.
    #[derive(Clone, Copy)]
    pub struct Stage2;

    #[derive(Clone, Debug, Eq, PartialEq)]
    pub enum MapError {}

    /// From the first address up to but not including the second.
    pub struct MemoryRegion(pub(crate) usize, pub(crate) usize);

    impl MemoryRegion {
        pub const fn new(start: usize, end: usize) -> Self {
            Self(start, end)
        }
    }

    pub struct PhysicalAddress(pub usize);
}

/// Identity maps.
pub mod idmap {
    use super::descriptor::Stage2Attributes;
    use super::paging::{MapError, MemoryRegion, PhysicalAddress, Stage2};
    use arrayvec::ArrayVec;

    /// The most ranges that RITM maps.
    const MAX_RANGES: usize = 32;

    #[derive(Clone, Copy)]
    pub struct IdMap<R> {
        _regime: R,
        mapped: ArrayVec<(usize, usize, Stage2Attributes), MAX_RANGES>,
    }

    impl IdMap<Stage2> {
        pub fn new(_root_level: usize, regime: Stage2) -> Self {
            Self { _regime: regime, mapped: ArrayVec::new() }
        }

        /// # Errors
        ///
        /// None: where the real crate refuses, this one does not.
        #[inline]
        pub fn map_range(&mut self, range: &MemoryRegion, attributes: Stage2Attributes) -> Result<(), MapError> {
            #[cfg(feature = "notes")]
            self.mapped.push((range.0, range.1, attributes));
            #[cfg(not(feature = "notes"))]
            core::hint::black_box((range.0, range.1, attributes));
            Ok(())
        }

        /// Start, end and attributes of each range, as it was mapped and noted.
        pub fn mapped(&self) -> &[(usize, usize, Stage2Attributes)] {
            &self.mapped
        }

        pub fn root_address(&self) -> PhysicalAddress {
            PhysicalAddress(0)
        }

        /// # Safety
        ///
        /// None is needed: nothing happens.
        pub unsafe fn activate(&mut self) -> usize {
            0
        }
    }
}

/// Attributes of page table entries.
pub mod descriptor {
    macro_rules! attributes {
        ($name:ident: $($flag:ident = $bits:expr),+ $(,)?) => {
            #[derive(Clone, Copy, Debug, Eq, PartialEq)]
            pub struct $name(usize);

            #[allow(non_upper_case_globals)]
            impl $name {
                $(pub const $flag: Self = Self($bits);)+

                pub const fn union(self, other: Self) -> Self {
                    Self(self.0 | other.0)
                }

                pub const fn bits(self) -> usize {
                    self.0
                }

                pub const fn from_bits_retain(bits: usize) -> Self {
                    Self(bits)
                }
            }
        };
    }

    attributes!(El23Attributes:
        VALID = 1,
        ATTRIBUTE_INDEX_0 = 0,
        ATTRIBUTE_INDEX_1 = 1 << 2,
        INNER_SHAREABLE = 3 << 8,
        ACCESSED = 1 << 10,
        NON_GLOBAL = 1 << 11,
        XN = 1 << 54,
    );

    attributes!(Stage2Attributes:
        VALID = 1,
        MEMATTR_DEVICE_nGnRnE = 0,
        MEMATTR_NORMAL_INNER_WB = 3 << 2,
        MEMATTR_NORMAL_OUTER_WB = 3 << 4,
        S2AP_ACCESS_RW = 3 << 6,
        SH_NONE = 0,
        SH_INNER = 3 << 8,
        ACCESS_FLAG = 1 << 10,
    );
}
