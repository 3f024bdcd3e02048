//! The measured calls.

use crate::side::Sides;
use crate::{map, numbers, policy, registers, traps};

/// A call to measure.
pub struct Case {
    pub name: &'static str,
    /// What is held, or what the call meets.
    pub held: &'static str,
    /// Makes both sides' states. RITM's statics are among them, so one case is measured before the next is made.
    make: fn() -> Sides,
}

impl Case {
    /// Both sides, which were found to answer the same.
    pub fn prepare(&self) -> Sides {
        (self.make)()
    }
}

const fn case(name: &'static str, held: &'static str, make: fn() -> Sides) -> Case {
    Case { name, held, make }
}

pub static CASES: [Case; 67] = [
    case("trap_load_1", "1 region", || traps::load(1)),
    case("trap_load_8", "8 regions, the last", || traps::load(8)),
    case("trap_load_16", "16 regions, the last", || traps::load(16)),
    case("trap_load_counter_1", "1 region", || traps::load_counter(1)),
    case("trap_load_counter_8", "8 regions, the last", || traps::load_counter(8)),
    case("trap_load_counter_16", "16 regions, the last", || traps::load_counter(16)),
    case("trap_store_1", "1 region", || traps::store(1)),
    case("trap_store_8", "8 regions, the last", || traps::store(8)),
    case("trap_store_16", "16 regions, the last", || traps::store(16)),
    case("trap_injected_1", "1 region, below the address", || traps::injected(1)),
    case("trap_injected_8", "8 regions, below the address", || traps::injected(8)),
    case("trap_injected_16", "16 regions, below the address", || traps::injected(16)),
    case("hvc_1", "trap and reply of 1 value", traps::hvc_1),
    case("hvc_4", "trap and reply of 4 values", traps::hvc_4),
    case("hvc_18", "trap and reply of 18 values", traps::hvc_18),
    case("smc_1", "trap and firmware's reply, 1 value", traps::smc_1),
    case("allow_1", "1 range", || policy::allow(1, 0)),
    case("allow_8", "8 ranges", || policy::allow(8, 0)),
    case("allow_31", "31 ranges", || policy::allow(31, 0)),
    case("allow_31_16", "31 ranges, 16 regions", || policy::allow(31, 16)),
    case("allow_overlap_1", "1 range, refused by it", || policy::allow_overlap(1)),
    case("allow_overlap_8", "8 ranges, refused by the last", || policy::allow_overlap(8)),
    case("allow_overlap_31", "31 ranges, refused by the last", || policy::allow_overlap(31)),
    case("handle_above_1", "1 region, below the new one", || policy::handle_above(0, 1)),
    case("handle_above_8", "8 regions, below the new one", || policy::handle_above(0, 8)),
    case("handle_above_15", "15 regions, below the new one", || policy::handle_above(0, 15)),
    case("handle_below_1", "1 region, above the new one", || policy::handle_below(0, 1)),
    case("handle_below_8", "8 regions, above the new one", || policy::handle_below(0, 8)),
    case("handle_below_15", "15 regions, above the new one", || policy::handle_below(0, 15)),
    case("handle_below_15_32", "15 regions above, 32 ranges", || policy::handle_below(32, 15)),
    case("release_range", "the first of 32 ranges, 16 regions", policy::release_range),
    case("release_region", "the first of 16 regions, 32 ranges", policy::release_region),
    case("find_last_1", "1 region", || policy::find_last(1)),
    case("find_last_8", "8 regions, the last", || policy::find_last(8)),
    case("find_last_16", "16 regions, the last", || policy::find_last(16)),
    case("find_none_1", "1 region, below the address", || policy::find_none(1)),
    case("find_none_8", "8 regions, below the address", || policy::find_none(8)),
    case("find_none_16", "16 regions, below the address", || policy::find_none(16)),
    case("insert_1", "1 entry, another key", || map::insert_another(1)),
    case("insert_7", "7 entries, another key", || map::insert_another(7)),
    case("insert_8", "8 entries, the last key", || map::insert_held(8)),
    case("get_1", "1 entry", || map::get(1)),
    case("get_8", "8 entries, the last key", || map::get(8)),
    case("remove_1", "1 entry", || map::remove(1)),
    case("remove_8", "8 entries, the last key", || map::remove(8)),
    case("decode", "a load of 64 bits", numbers::decode),
    case("extend", "64 bits", numbers::extend),
    case("extend_signed", "16 bits, signed, to 32", numbers::extend_signed),
    case("align_down", "", numbers::align_down),
    case("align_up", "", numbers::align_up),
    case("read_gpr_5", "x5", || registers::read(5)),
    case("read_gpr_30", "x30", || registers::read(30)),
    case("write_gpr_5", "x5", || registers::write(5)),
    case("write_gpr_30", "x30", || registers::write(30)),
    case("trap_platform", "the trap of hvc_1 alone", traps::trap_platform),
    case("trap_firmware", "the trap of smc_1 alone", traps::trap_firmware),
    case("reply_1", "the reply of smc_1 alone", traps::reply_1),
    case("reply_4", "the reply of hvc_4 alone", traps::reply_4),
    case("reply_18", "the reply of hvc_18 alone", traps::reply_18),
    case("trap_load_core_7", "trap_load_1 on core 7", traps::load_on_core_7),
    case("trap_quiet_load", "trap_load_1 with absent halves", traps::quiet_load),
    case("trap_quiet_store", "trap_store_1 with absent halves", traps::quiet_store),
    case("save", "", traps::save),
    case("release_none", "none of 32 ranges and 16 regions", policy::release_none),
    case("fresh_policy", "8 ranges, 8 regions before", policy::fresh_policy),
    case("fresh_cores", "", traps::fresh_cores),
    case("fresh_map", "8 entries before", map::fresh_map),
];
