//! The calls without state.

use crate::side::{Call, Sides, State};
use memory_access::{MemoryAccess, MemoryAccessKind};
use reference::stage2::{align_down_to_page, align_up_to_page};
use ritm::ffi;

// The ISS of a data abort (Arm DDI 0601): a load by x5 of 64 bits, and one of 16 bits, sign-extended to 32.
const LOAD: u32 = 1 << 24 | 3 << 22 | 5 << 16 | 1 << 15;
const LOAD_SIGNED: u32 = 1 << 24 | 1 << 22 | 1 << 21 | 5 << 16;

const IPA: u64 = 0x0f00_0018;
const VALUE: u64 = 0xfedc_ba98_7654_f321;

type DecodeFunction = extern "C" fn(u32, u64, u64, &mut ffi::AccessResult) -> u64;
type ExtendFunction = extern "C" fn(u32, u64, &mut ffi::WordResult) -> u64;
type AlignFunction = extern "C" fn(u64, &mut ffi::WordResult) -> u64;
type RustDecode = fn(u32, u64, u64) -> Option<MemoryAccess>;
type RustExtend = fn(&MemoryAccess, u64) -> u64;
type RustAlign = fn(usize) -> usize;

/// The arguments of both sides, and the port's results.
#[derive(Clone)]
struct Numbers {
    iss: u32,
    fipa: u64,
    far: u64,
    number: u64,
    /// The access of the ISS, as RITM's `extend_read_result` takes it.
    decoded: &'static MemoryAccess,
    access: ffi::AccessResult,
    word: ffi::WordResult,
}

impl Numbers {
    fn new(iss: u32, number: u64) -> Self {
        let (fipa, far) = (IPA >> 12, IPA & 0xfff);
        let decoded = Box::leak(Box::new(decoded(iss, fipa, far).expect("ISV is set")));
        Self { iss, fipa, far, number, decoded, access: ffi::AccessResult::ZERO, word: ffi::WordResult::ZERO }
    }
}

impl State for Numbers {
    fn put_back(&mut self, _: &Self) {}

    fn words(&self) -> Vec<u64> {
        Vec::new()
    }
}

/// RITM's `decode`, which is generic in how a stored register is read. A load reads none.
fn decoded(iss: u32, fipa: u64, far: u64) -> Option<MemoryAccess> {
    MemoryAccess::decode(iss, fipa, far, |_| Some(0))
}

pub fn decode() -> Sides {
    let port = Call {
        state: Numbers::new(LOAD, 0),
        function: ffi::ritm_decode as DecodeFunction,
        call: |state: &mut Numbers, function| function(state.iss, state.fipa, state.far, &mut state.access),
        answer: |state, number| [&[number][..], &state.access.get_all::<6>(0)].concat(),
    };
    let rust = Call {
        state: Numbers::new(LOAD, 0),
        function: decoded as RustDecode,
        call: |state: &mut Numbers, function| function(state.iss, state.fipa, state.far),
        answer: |_, access| {
            let access = access.expect("ISV is set");
            let stores = access.kind != MemoryAccessKind::Read;
            let flags = [access.sign_extend.into(), access.register_width_64.into()];
            let [width, index] = [access.width.bits().into(), access.register_index as u64];
            [&[0, access.ipa, width, stores.into(), index][..], &flags].concat()
        },
    };
    Sides::compared(0, port, rust).repeated()
}

fn extend_by(iss: u32) -> Sides {
    let port = Call {
        state: Numbers::new(iss, VALUE),
        function: ffi::ritm_extend_read_result as ExtendFunction,
        call: |state: &mut Numbers, function| function(state.iss, state.number, &mut state.word),
        answer: |state, number| vec![number, state.word.get(0)],
    };
    let rust = Call {
        state: Numbers::new(iss, VALUE),
        function: MemoryAccess::extend_read_result as RustExtend,
        call: |state: &mut Numbers, function| function(state.decoded, state.number),
        answer: |_, value| vec![0, value],
    };
    Sides::compared(0, port, rust).repeated()
}

/// A load of 64 bits: the port takes the ISS, RITM an access that is decoded before.
pub fn extend() -> Sides {
    extend_by(LOAD)
}

/// A load of 16 bits, sign-extended to 32.
pub fn extend_signed() -> Sides {
    extend_by(LOAD_SIGNED)
}

fn align(port: AlignFunction, rust: RustAlign) -> Sides {
    let port = Call {
        state: Numbers::new(LOAD, IPA),
        function: port,
        call: |state: &mut Numbers, function: AlignFunction| function(state.number, &mut state.word),
        answer: |state, number| vec![number, state.word.get(0)],
    };
    let rust = Call {
        state: Numbers::new(LOAD, IPA),
        function: rust,
        call: |state: &mut Numbers, function: RustAlign| function(state.number as usize),
        answer: |_, address| vec![0, address as u64],
    };
    Sides::compared(0, port, rust).repeated()
}

pub fn align_down() -> Sides {
    align(ffi::ritm_align_down_to_page, align_down_to_page)
}

pub fn align_up() -> Sides {
    align(ffi::ritm_align_up_to_page, align_up_to_page)
}
