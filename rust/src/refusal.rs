//! Why a call is refused.

use core::error::Error;
use core::fmt;

/// Defines the refusals once: variant, number, and the sentence that says when.
macro_rules! refusals {
    ($($variant:ident = $number:literal, $when:literal;)*) => {
        /// Why a call is refused. A refusal changes no state.
        #[derive(Clone, Copy, Debug, Eq, Hash, PartialEq)]
        #[repr(u64)]
        pub enum Refusal {
            $(#[doc = $when] $variant = $number,)*
        }

        impl TryFrom<u64> for Refusal {
            type Error = NoRefusal;

            fn try_from(number: u64) -> Result<Self, NoRefusal> {
                match number {
                    $($number => Ok(Self::$variant),)*
                    _ => Err(NoRefusal(number)),
                }
            }
        }

        impl fmt::Display for Refusal {
            fn fmt(&self, f: &mut fmt::Formatter<'_>) -> fmt::Result {
                f.write_str(match self {
                    $(Self::$variant => $when,)*
                })
            }
        }
    };
}

refusals! {
    RangeBaseNotPageAligned = 1, "the base is not a multiple of 4096";
    EmptyRange = 2, "the size is 0";
    RangeSizeNotPageMultiple = 3, "the size is not a multiple of 4096";
    RangeEndOverflow = 4, "base + size is 2^64 or more";
    TooManyAllowedRanges = 5, "32 ranges are allowed already";
    AllowedRangeOverlap = 6, "the range shares a byte with an allowed range";
    AllowedRangeOverlapsMemoryAccessHandler = 7, "the range to allow shares a byte with a region";
    TooManyMemoryAccessHandlerRegions = 8, "16 regions are handled already";
    MemoryAccessHandlerRangeOverlap = 9, "the range to handle shares a byte with a region";
    NoSuchCore = 10, "the core's number is above 7";
    CoreWaiting = 11, "the core waits for a reply";
    UnexpectedExceptionClass = 12, "the exception class is none of 0x16, 0x17 and 0x24";
    NoGuestVector = 13, "an abort is to be injected and VBAR_EL1 is 0";
    NothingWaiting = 14, "the core waits for no reply";
    UnknownReplyKind = 15, "the reply is of no kind that the call may have";
    CapacityExceeded = 16, "all places of the suspend map are taken";
    NoSuchRegister = 17, "the register's index is above 31";
    NoPageAbove = 18, "no page boundary above the address is below 2^64";
    NoSyndrome = 19, "the ISS has ISV clear";
    UnknownMemoryHandler = 20, "a handler's number is above 2";
    InvalidDevicetree = 21, "the blob is no devicetree of at most 64 KiB, or a cell count or reg has a wrong length";
    UnsupportedCellCounts = 22, "a cell count of the devicetree's root is neither 1 nor 2";
    RangeNotHeld = 23, "no allowed range and no region with this base and size is held";
}

impl Refusal {
    /// Its number, which the archive returns.
    #[must_use]
    pub fn number(self) -> u64 {
        self as u64
    }
}

impl Error for Refusal {}

/// A number that is no refusal's.
#[derive(Clone, Copy, Debug, Eq, PartialEq)]
pub struct NoRefusal(pub u64);

impl fmt::Display for NoRefusal {
    fn fmt(&self, f: &mut fmt::Formatter<'_>) -> fmt::Result {
        write!(f, "{} is the number of no refusal", self.0)
    }
}

impl Error for NoRefusal {}

/// What the archive returned: 0, or the number of a refusal.
pub(crate) fn accepted(number: u64) -> Result<(), Refusal> {
    match number {
        0 => Ok(()),
        _ => Err(Refusal::try_from(number).expect("the archive returns 0 or a refusal's number")),
    }
}

/// What a call without refusals returned.
pub(crate) fn never_refused(number: u64) {
    assert_eq!(number, 0, "a call without refusals was refused");
}
