//! The handlers of regions: what an access through one must come to, and which regions a policy
//! must hold after a handle call.

use crate::buffers::{put, word, CORE_WORDS, REGIONS, REGION_COUNT, REGION_WORDS};
use crate::entry_points::Numbers;
use ritm::{MemoryAccessHandler, MemoryAccessRegion, MemoryHandler, Policy};

const ELR: usize = 31;
const NO_GUEST_VECTOR: u64 = 13;

/// A load or store by the general-purpose register of this index, through a handler of this code.
pub struct Access {
    is_store: bool,
    register: usize,
    code: u64,
}

impl Access {
    /// The access of a trap with these numbers, if the policy in these bytes has a region for it.
    pub fn of(numbers: Numbers, policy: &[u8]) -> Option<Self> {
        let [_, esr, fipa, far, _] = numbers;
        let is_data_abort = esr >> 26 & 0x3f == 0x24;
        let is_valid = esr >> 24 & 1 == 1;
        if !(is_data_abort && is_valid) {
            return None;
        }
        let ipa = fipa << 12 | far & 0xfff;
        let count = word(policy, REGION_COUNT).min(16) as usize;
        let mut regions = (0..count).map(|k| REGIONS + k * REGION_WORDS);
        let region = regions.find(|at| (word(policy, *at)..word(policy, at + 2)).contains(&ipa))?;
        let is_store = esr >> 6 & 1 == 1;
        let code = word(policy, if is_store { region + 4 } else { region + 3 });
        Some(Self { is_store, register: (esr >> 16 & 31) as usize, code })
    }

    /// Its direction and its handler.
    pub fn name(&self) -> String {
        let direction = if self.is_store { "store" } else { "load" };
        match self.code {
            0..=2 => format!("{direction} {}", self.code),
            _ => format!("{direction} unknown"),
        }
    }

    /// Whether the access may come to this number and this kind, and leave this of the cores. The
    /// filtered MMIO page serves some, and else it is a fault, as is any other handler but absent.
    pub fn fits(&self, numbers: Numbers, number: u64, kind: u64, before: &[u8], after: &[u8]) -> bool {
        let [core, _, _, _, vbar] = numbers;
        let handled = if self.is_store { 2 } else { 1 };
        let is_handled = number == 0 && kind == handled;
        let is_fault = if vbar == 0 { number == NO_GUEST_VECTOR } else { number == 0 && kind == 3 };
        match self.code {
            0 => is_handled && after == self.quiet(core as usize, before),
            1 => is_handled || is_fault,
            _ => is_fault,
        }
    }

    /// The cores after the access, where its handler is absent: a load's register is 0, and ELR is
    /// past the instruction.
    fn quiet(&self, core: usize, before: &[u8]) -> Vec<u8> {
        let mut cores = before.to_vec();
        let start = core * CORE_WORDS;
        if !self.is_store && self.register < 31 {
            put(&mut cores, start + self.register, 0);
        }
        put(&mut cores, start + ELR, word(before, start + ELR).wrapping_add(4));
        cores
    }
}

/// Whether the policy holds the new region before the first whose base is not below its own, and
/// all others as they were, whatever codes stood where each is stored.
pub fn handled_region_fits(numbers: Numbers, before: &[u8], after: &[u8]) -> bool {
    let [base_ipa, size, read, write, _] = numbers;
    let named = |number: u64| MemoryHandler::ALL.iter().copied().find(|handler| *handler as u64 == number);
    let (Some(read), Some(write)) = (named(read), named(write)) else {
        return false;
    };
    let mut regions = regions_of(before);
    let below = regions.iter().take_while(|region| region.base_ipa < base_ipa).count();
    let handler = MemoryAccessHandler { read, write };
    regions.insert(below, MemoryAccessRegion { base_ipa, size, end_ipa: base_ipa + size, handler });
    regions == regions_of(after)
}

fn regions_of(policy: &[u8]) -> Vec<MemoryAccessRegion> {
    Policy::from_bytes(policy.try_into().expect("a policy's bytes")).regions().collect()
}
