//! The function of a guest's call, HVC or SMC, as DEN0028 has it from version 1.3 on. RITM takes all of x0 for it, so
//! the port's identifier and hint are compared with these few lines.

/// Bit 16 of W0, the hint of a fast call.
const BIT_16: u32 = 0x1_0000;
/// The first W0 of a fast call, which has bit 31 set. A yielding call is below.
const FIRST_FAST: u32 = 0x8000_0000;

/// What x0 says of a call.
#[derive(Clone, Copy, Debug, Eq, PartialEq)]
pub struct Function {
    /// The function identifier, which chooses the recipient and is handed out in place of x0.
    pub identifier: u64,
    /// 1 where the guest says that it holds no live SVE state, else 0.
    pub hint: u64,
}

impl Function {
    /// The function that x0 names; every x0 names one.
    pub fn of(x0: u64) -> Self {
        let w0 = x0 as u32;
        let hinted = w0 >= FIRST_FAST && has_bit_16(w0);
        Self { identifier: u64::from(if hinted { w0 - BIT_16 } else { w0 }), hint: hinted.into() }
    }
}

/// Whether agreement with RITM is promised of a call with this x0: its bits 63:32 and its bit 16 are zero.
pub fn agrees(x0: u64) -> bool {
    u32::try_from(x0).is_ok_and(|w0| !has_bit_16(w0))
}

fn has_bit_16(w0: u32) -> bool {
    w0 / BIT_16 % 2 == 1
}

#[cfg(test)]
mod tests {
    use super::*;

    /// x0 of fast and yielding calls with and without bit 16 and an upper half: the identifier, the hint, and whether
    /// the call is in the agreement.
    #[test]
    fn identifiers_and_hints() {
        let rows = [
            (0, 0, 0, true),
            (0x8400_0000, 0x8400_0000, 0, true),
            (0x8401_0000, 0x8400_0000, 1, false),
            (0x1_8400_0000, 0x8400_0000, 0, false),
            (0x1_8401_0000, 0x8400_0000, 1, false),
            (0x83FE_FFFF, 0x83FE_FFFF, 0, true),
            (0x83FF_FFFF, 0x83FE_FFFF, 1, false),
            (0x8000_0000, 0x8000_0000, 0, true),
            (0x7FFF_FFFF, 0x7FFF_FFFF, 0, false),
            (0x7FFE_FFFF, 0x7FFE_FFFF, 0, true),
            (0x0401_0000, 0x0401_0000, 0, false),
            (0x1_0401_0000, 0x0401_0000, 0, false),
            (0x8000_0000_0401_0000, 0x0401_0000, 0, false),
            (1 << 32, 0, 0, false),
            (u64::MAX, 0xFFFE_FFFF, 1, false),
        ];
        for (x0, identifier, hint, agreement) in rows {
            assert_eq!((Function::of(x0), agrees(x0)), (Function { identifier, hint }, agreement), "{x0:#x}");
        }
    }
}
