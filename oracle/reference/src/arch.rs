//! Stands for RITM's arch.rs, which is not among the sources: instructions that have no effect here.

pub fn dsb() {}
pub fn isb() {}
pub fn tlbi_vmalls12e1() {}
