//! Stands for `arm-sysregs`: the system registers of one simulated core. Field positions are those of DDI 0601.
//!
//! A register is a static word, so that reading it is one load and writing it one store. `read_X` and `write_X` are safe
//! or unsafe as RITM calls them.
#![no_std]

use core::sync::atomic::{AtomicU64, Ordering};

macro_rules! register {
    ($type:ident $cell:ident: $($flag:ident = $bit:expr),* $(,)?) => {
        #[derive(Clone, Copy, Debug, Default, Eq, Hash, PartialEq)]
        pub struct $type(u64);

        impl $type {
            $(pub const $flag: Self = Self(1 << $bit);)*

            pub const fn empty() -> Self {
                Self(0)
            }

            pub const fn from_bits_retain(bits: u64) -> Self {
                Self(bits)
            }

            pub const fn bits(self) -> u64 {
                self.0
            }

            #[allow(dead_code)]
            const fn with(self, low: u32, width: u32, value: u64) -> Self {
                let mask = ((1 << width) - 1) << low;
                Self(self.0 & !mask | (value << low) & mask)
            }

            #[allow(dead_code)]
            const fn field(self, low: u32, width: u32) -> u64 {
                self.0 >> low & ((1 << width) - 1)
            }
        }

        impl core::ops::BitOrAssign for $type {
            #[inline]
            fn bitor_assign(&mut self, other: Self) {
                self.0 |= other.0;
            }
        }

        impl core::ops::SubAssign for $type {
            fn sub_assign(&mut self, other: Self) {
                self.0 &= !other.0;
            }
        }

        impl core::fmt::LowerHex for $type {
            fn fmt(&self, f: &mut core::fmt::Formatter) -> core::fmt::Result {
                core::fmt::LowerHex::fmt(&self.0, f)
            }
        }

        static $cell: AtomicU64 = AtomicU64::new(0);
    };
}

macro_rules! read {
    ($($name:ident: $type:ident $cell:ident),+ $(,)?) => {
        $(#[inline]
        pub fn $name() -> $type {
            $type($cell.load(Ordering::Relaxed))
        })+
    };
}

macro_rules! write {
    ($($name:ident: $type:ident $cell:ident),+ $(,)?) => {
        $(#[inline]
        pub fn $name(value: $type) {
            $cell.store(value.0, Ordering::Relaxed);
        })+
    };
}

macro_rules! unsafe_write {
    ($($name:ident: $type:ident $cell:ident),+ $(,)?) => {
        $(
            /// # Safety
            ///
            /// On hardware the write changes what the core does.
            #[inline]
            pub unsafe fn $name(value: $type) {
                $cell.store(value.0, Ordering::Relaxed);
            }
        )+
    };
}

register!(CnthctlEl2 CNTHCTL_EL2: EL0PCTEN = 0, EL1PCEN = 1);
register!(CntvoffEl2 CNTVOFF_EL2:);
register!(ElrEl1 ELR_EL1:);
register!(ElrEl2 ELR_EL2:);
register!(EsrEl1 ESR_EL1:);
register!(EsrEl2 ESR_EL2:);
register!(FarEl1 FAR_EL1:);
register!(FarEl2 FAR_EL2:);
register!(HcrEl2 HCR_EL2: VM = 0, IMO = 4, TSC = 19, RW = 31);
register!(HpfarEl2 HPFAR_EL2:);
register!(IccSreEl2 ICC_SRE_EL2: SRE = 0, DFB = 1, DIB = 2, ENABLE = 3);
register!(MairEl1 MAIR_EL1:);
register!(MpidrEl1 MPIDR_EL1:);
register!(SctlrEl1 SCTLR_EL1: EOS = 11, TSCXT = 20, EIS = 22, SPAN = 23, NTLSMD = 28, LSMAOE = 29);
register!(SpEl1 SP_EL1:);
register!(SpsrEl1 SPSR_EL1: F = 6, I = 7, A = 8, D = 9);
register!(SpsrEl2 SPSR_EL2: F = 6, I = 7, A = 8, D = 9);
register!(TcrEl1 TCR_EL1:);
register!(Ttbr0El1 TTBR0_EL1:);
register!(VbarEl1 VBAR_EL1:);
register!(VtcrEl2 VTCR_EL2:);

read! {
    read_cnthctl_el2: CnthctlEl2 CNTHCTL_EL2,
    read_elr_el1: ElrEl1 ELR_EL1,
    read_esr_el1: EsrEl1 ESR_EL1,
    read_esr_el2: EsrEl2 ESR_EL2,
    read_far_el1: FarEl1 FAR_EL1,
    read_far_el2: FarEl2 FAR_EL2,
    read_hpfar_el2: HpfarEl2 HPFAR_EL2,
    read_icc_sre_el2: IccSreEl2 ICC_SRE_EL2,
    read_mpidr_el1: MpidrEl1 MPIDR_EL1,
    read_spsr_el1: SpsrEl1 SPSR_EL1,
    read_spsr_el2: SpsrEl2 SPSR_EL2,
    read_vbar_el1: VbarEl1 VBAR_EL1,
}

write! {
    write_cnthctl_el2: CnthctlEl2 CNTHCTL_EL2,
    write_cntvoff_el2: CntvoffEl2 CNTVOFF_EL2,
    write_esr_el1: EsrEl1 ESR_EL1,
    // The three that hardware sets when it takes an exception.
    set_esr_el2: EsrEl2 ESR_EL2,
    set_far_el2: FarEl2 FAR_EL2,
    set_hpfar_el2: HpfarEl2 HPFAR_EL2,
}

unsafe_write! {
    write_elr_el1: ElrEl1 ELR_EL1,
    write_elr_el2: ElrEl2 ELR_EL2,
    write_far_el1: FarEl1 FAR_EL1,
    write_hcr_el2: HcrEl2 HCR_EL2,
    write_icc_sre_el2: IccSreEl2 ICC_SRE_EL2,
    write_mair_el1: MairEl1 MAIR_EL1,
    write_sctlr_el1: SctlrEl1 SCTLR_EL1,
    write_sp_el1: SpEl1 SP_EL1,
    write_spsr_el1: SpsrEl1 SPSR_EL1,
    write_spsr_el2: SpsrEl2 SPSR_EL2,
    write_tcr_el1: TcrEl1 TCR_EL1,
    write_ttbr0_el1: Ttbr0El1 TTBR0_EL1,
    write_vbar_el1: VbarEl1 VBAR_EL1,
    write_vtcr_el2: VtcrEl2 VTCR_EL2,
}

impl EsrEl2 {
    #[inline]
    pub fn ec(self) -> u8 {
        self.field(26, 6) as u8
    }

    #[inline]
    pub fn iss(self) -> u32 {
        self.field(0, 25) as u32
    }
}

impl EsrEl1 {
    #[inline]
    pub fn ec(self) -> u8 {
        self.field(26, 6) as u8
    }

    #[inline]
    pub fn set_ec(&mut self, ec: u8) {
        *self = self.with(26, 6, ec.into());
    }
}

impl FarEl2 {
    #[inline]
    pub fn va(self) -> u64 {
        self.bits()
    }
}

impl HpfarEl2 {
    /// A trap is given its FIPA as a number, which the register holds whole, also beyond the field's width.
    #[inline]
    pub fn fipa(self) -> u64 {
        self.bits()
    }
}

impl ElrEl2 {
    pub fn set_addr(&mut self, address: u64) {
        self.0 = address;
    }
}

impl SpsrEl1 {
    #[inline]
    pub fn set_m_3_0(&mut self, mode: u8) {
        *self = self.with(0, 4, mode.into());
    }
}

impl SpsrEl2 {
    #[inline]
    pub fn set_m_3_0(&mut self, mode: u8) {
        *self = self.with(0, 4, mode.into());
    }
}

impl VtcrEl2 {
    pub fn set_t0sz(&mut self, value: u8) {
        *self = self.with(0, 6, value.into());
    }

    pub fn set_sl0(&mut self, value: u8) {
        *self = self.with(6, 2, value.into());
    }

    pub fn set_irgn0(&mut self, value: u8) {
        *self = self.with(8, 2, value.into());
    }

    pub fn set_orgn0(&mut self, value: u8) {
        *self = self.with(10, 2, value.into());
    }

    pub fn set_sh0(&mut self, value: u8) {
        *self = self.with(12, 2, value.into());
    }

    pub fn set_tg0(&mut self, value: u8) {
        *self = self.with(14, 2, value.into());
    }

    pub fn set_ps(&mut self, value: u8) {
        *self = self.with(16, 3, value.into());
    }
}
