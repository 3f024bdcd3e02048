//! The edits. Each changes one place of RITM's sources and is to be found within a number of lists.

/// One edit: `old` stands once in the file, and becomes `new`.
pub struct Edit {
    pub name: &'static str,
    pub file: &'static str,
    pub old: &'static str,
    pub new: &'static str,
    /// The number of lists within which it must be found.
    pub lists: u64,
}

const EXCEPTIONS: &str = "src/exceptions.rs";
const HVC_RESPONSE: &str = "src/hvc_response.rs";
const HYPERVISOR: &str = "src/hypervisor.rs";
const MEMORY_ACCESS: &str = "memory_access/src/lib.rs";
const QEMU: &str = "src/platform/qemu.rs";
const SIMPLE_MAP: &str = "src/simple_map.rs";
const STAGE2: &str = "src/stage2.rs";

pub const EDITS: &[Edit] = &[
    Edit {
        name: "an HVC advances ELR",
        file: HYPERVISOR,
        old: "if ec == ExceptionClass::SmcTrappedInAArch64 {",
        new: "if ec == ExceptionClass::SmcTrappedInAArch64 || ec == ExceptionClass::HvcTrappedInAArch64 {",
        lists: 50,
    },
    Edit {
        name: "adjacent ranges overlap",
        file: STAGE2,
        old: "later_base < earlier_end",
        new: "later_base <= earlier_end",
        lists: 50,
    },
    Edit {
        name: "rounding down goes to half a page",
        file: STAGE2,
        old: "address / PAGE_SIZE * PAGE_SIZE",
        new: "address / (PAGE_SIZE / 2) * (PAGE_SIZE / 2)",
        lists: 50,
    },
    Edit {
        name: "rounding up leaves no boundary where it is",
        file: STAGE2,
        old: "address.next_multiple_of(PAGE_SIZE)",
        new: "(address + 1).next_multiple_of(PAGE_SIZE)",
        lists: 50,
    },
    Edit {
        name: "x3 stays at a reply of one value",
        file: HVC_RESPONSE,
        old: "HvcResult::Handled(Ok(HvcResponse::Success(results))) => {
                write_response_registers(register_state, &results);",
        new: "HvcResult::Handled(Ok(HvcResponse::Success(results))) => {
                write_response_registers(register_state, &results[..3]);",
        lists: 50,
    },
    Edit {
        name: "an error is not sign-extended",
        file: HVC_RESPONSE,
        old: "i64::from(i32::from(error)).cast_unsigned()",
        new: "u64::from(i32::from(error).cast_unsigned())",
        lists: 50,
    },
    Edit {
        name: "a load of the counter word counts twice",
        file: QEMU,
        old: "FILTERED_MMIO_COUNTER.fetch_add(1,",
        new: "FILTERED_MMIO_COUNTER.fetch_add(2,",
        lists: 50,
    },
    Edit {
        name: "loads of 32 bits are served, and count",
        file: QEMU,
        old: "if access.width != MemoryAccessWidth::U64 {",
        new: "if access.width != MemoryAccessWidth::U64 && access.width != MemoryAccessWidth::U32 {",
        lists: 50,
    },
    Edit {
        name: "an insert leaves the old entry",
        file: SIMPLE_MAP,
        old: "        self.remove(&key);\n",
        new: "",
        lists: 50,
    },
    Edit {
        name: "an insert takes the last free place",
        file: SIMPLE_MAP,
        old: "        self.remove(&key);
        for item in &mut self.items {",
        new: "        self.remove(&key);
        for item in self.items.iter_mut().rev() {",
        lists: 50,
    },
    Edit {
        name: "the sign is that of the register's width",
        file: MEMORY_ACCESS,
        old: "let shift = 64 - width.bits();",
        new: "let shift = if register_width_64 { 0 } else { 32 };",
        lists: 200,
    },
    Edit {
        name: "16 bits are masked like 8",
        file: MEMORY_ACCESS,
        old: "Self::U16 => u16::MAX as u64,",
        new: "Self::U16 => u8::MAX as u64,",
        lists: 200,
    },
    Edit {
        name: "SF is taken as set",
        file: MEMORY_ACCESS,
        old: "(iss & DATA_ABORT_ISS_SF) != 0",
        new: "(iss | DATA_ABORT_ISS_SF) != 0",
        lists: 50,
    },
    Edit {
        name: "the page offset has 11 bits",
        file: MEMORY_ACCESS,
        old: "(1 << FAULT_IPA_PAGE_SHIFT) - 1",
        new: "(1 << (FAULT_IPA_PAGE_SHIFT - 1)) - 1",
        lists: 200,
    },
    Edit {
        name: "x29 and x30 are swapped where they are read",
        file: EXCEPTIONS,
        old: "29 => Some(self.volatile.fp),
            30 => Some(self.volatile.sp),",
        new: "29 => Some(self.volatile.sp),
            30 => Some(self.volatile.fp),",
        lists: 50,
    },
    Edit {
        name: "a write to x31 lands in x30",
        file: EXCEPTIONS,
        old: "31 => {}",
        new: "31 => unsafe { self.volatile.get_mut().sp = value },",
        lists: 50,
    },
    Edit {
        name: "ESR_EL1 keeps the class of a lower level",
        file: HYPERVISOR,
        old: "guest_esr.set_ec(EC_DATA_ABORT_SAME_EL);",
        new: "guest_esr.set_ec(EC_DATA_ABORT_LOWER_EL);",
        lists: 50,
    },
    Edit {
        name: "the vector lies 0x180 above VBAR",
        file: HYPERVISOR,
        old: "vbar + 0x200;",
        new: "vbar + 0x180;",
        lists: 50,
    },
    Edit {
        name: "FIQ is not masked when an abort is injected",
        file: HYPERVISOR,
        old: "    spsr |= SpsrEl1::F;\n",
        new: "",
        lists: 50,
    },
    Edit {
        name: "the firmware's calls end at 0xC400001E",
        file: HYPERVISOR,
        old: "0xC400_0000..=0xC400_001F",
        new: "0xC400_0000..=0xC400_001E",
        lists: 200,
    },
    Edit {
        name: "bit 16 of a yielding call is cleared",
        file: HYPERVISOR,
        old: "let function_id = volatile_gprs[0];",
        new: "let function_id = volatile_gprs[0] & if volatile_gprs[0] < 1 << 31 { !(1 << 16) } else { u64::MAX };",
        lists: 50,
    },
    Edit {
        name: "allowing tests overlap before capacity",
        file: STAGE2,
        old: "self.check_allowed_range_capacity()?;
        self.check_no_allowed_overlap(range)?;",
        new: "self.check_no_allowed_overlap(range)?;
        self.check_allowed_range_capacity()?;",
        lists: 100,
    },
    Edit {
        name: "handling does not look at allowed ranges",
        file: STAGE2,
        old: "self.check_no_allowed_overlap(range)?;
        self.memory_access_handlers",
        new: "self.memory_access_handlers",
        lists: 50,
    },
    Edit {
        name: "a region has the byte at its end",
        file: STAGE2,
        old: "} else if ipa >= region.end_ipa() {",
        new: "} else if ipa > region.end_ipa() {",
        lists: 200,
    },
    Edit {
        name: "a new region goes to the end",
        file: STAGE2,
        old: "self.regions.insert(insert_at, region);",
        new: "self.regions.push(region);",
        lists: 50,
    },
    Edit {
        name: "a load with no handler gives 0",
        file: HYPERVISOR,
        old: "handler_match.region.handler.read.ok_or(())?",
        new: "handler_match.region.handler.read.unwrap_or(|_| MemoryReadResult::Value(0))",
        lists: 50,
    },
    Edit {
        name: "a store needs the read handler too",
        file: HYPERVISOR,
        old: "handler_match.region.handler.write.ok_or(())?",
        new: "handler_match.region.handler.read.and(handler_match.region.handler.write).ok_or(())?",
        lists: 50,
    },
    // The page serves 64 bits alone, so that quiet accesses show these three.
    Edit {
        name: "an access below 64 bits finds no region",
        file: HYPERVISOR,
        old: "        .find(decoded.ipa)
        .ok_or(())?;",
        new: "        .find(decoded.ipa)
        .filter(|_| decoded.width.bits() == 64)
        .ok_or(())?;",
        lists: 50,
    },
    Edit {
        name: "a load below 64 bits leaves Rt",
        file: HYPERVISOR,
        old: "unsafe { register_state.write_gpr(decoded.register_index, value) }",
        new: "let index = if decoded.width.bits() == 64 { decoded.register_index } else { 31 };
                    unsafe { register_state.write_gpr(index, value) }",
        lists: 50,
    },
    Edit {
        name: "a store below 64 bits leaves ELR",
        file: HYPERVISOR,
        old: "MemoryWriteResult::Handled => {
                    advance_guest_pc(register_state);",
        new: "MemoryWriteResult::Handled => {
                    if decoded.width.bits() == 64 { advance_guest_pc(register_state) }",
        lists: 50,
    },
];
