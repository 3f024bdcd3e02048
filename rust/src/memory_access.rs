//! The access that a data abort's syndrome describes, and page rounding.

use crate::ffi;
use crate::refusal::{accepted, never_refused, Refusal};

/// The direction of an access.
#[derive(Clone, Copy, Debug, Eq, PartialEq)]
pub enum MemoryAccessKind {
    /// A load.
    Read,
    /// A store.
    Write,
}

/// A guest's memory access.
#[derive(Clone, Copy, Debug, Eq, PartialEq)]
pub struct MemoryAccess {
    /// The address of its first byte.
    pub ipa: u64,
    /// Its width in bits: 8, 16, 32 or 64.
    pub width: u64,
    /// Whether it loads or stores.
    pub kind: MemoryAccessKind,
    /// Rt, its register, 31 for the zero register.
    pub register_index: u64,
    /// SSE: whether a loaded value is sign-extended.
    pub sign_extend: bool,
    /// SF: whether its register is 64 bits wide.
    pub register_width_64: bool,
}

/// Decodes the access of a data abort from the ISS, the FIPA (a page number) and the FAR.
///
/// # Errors
///
/// [`Refusal::NoSyndrome`].
pub fn decode(iss: u32, fipa: u64, far: u64) -> Result<MemoryAccess, Refusal> {
    let mut result = ffi::AccessResult::ZERO;
    accepted(ffi::ritm_decode(iss, fipa, far, &mut result))?;
    let [ipa, width, wnr, register_index, sse, sf] = result.get_all(0);
    Ok(MemoryAccess {
        ipa,
        width,
        kind: if wnr == 1 { MemoryAccessKind::Write } else { MemoryAccessKind::Read },
        register_index,
        sign_extend: sse == 1,
        register_width_64: sf == 1,
    })
}

/// The loaded value as the access of this ISS puts it into its register.
///
/// # Errors
///
/// [`Refusal::NoSyndrome`].
pub fn extend_read_result(iss: u32, value: u64) -> Result<u64, Refusal> {
    let mut word = ffi::WordResult::ZERO;
    accepted(ffi::ritm_extend_read_result(iss, value, &mut word))?;
    Ok(word.get(0))
}

/// Rounds an address down to a page boundary.
#[must_use]
pub fn align_down_to_page(address: u64) -> u64 {
    let mut word = ffi::WordResult::ZERO;
    never_refused(ffi::ritm_align_down_to_page(address, &mut word));
    word.get(0)
}

/// Rounds an address up to a page boundary.
///
/// # Errors
///
/// [`Refusal::NoPageAbove`].
pub fn align_up_to_page(address: u64) -> Result<u64, Refusal> {
    let mut word = ffi::WordResult::ZERO;
    accepted(ffi::ritm_align_up_to_page(address, &mut word))?;
    Ok(word.get(0))
}
