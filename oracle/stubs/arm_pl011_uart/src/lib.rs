//! Stands for `arm-pl011-uart`: a console that is never made.
#![no_std]

use core::marker::PhantomData;
use core::ptr::NonNull;

pub struct PL011Registers;

pub struct UniqueMmioPointer<'a>(PhantomData<&'a PL011Registers>);

impl UniqueMmioPointer<'_> {
    /// # Safety
    ///
    /// Never called.
    pub unsafe fn new(_registers: NonNull<PL011Registers>) -> Self {
        unimplemented!("no console")
    }
}

pub struct Interrupts;

impl Interrupts {
    pub const RXI: Self = Self;
}

pub struct Uart<'a>(PhantomData<&'a PL011Registers>);

impl<'a> Uart<'a> {
    pub fn new(_registers: UniqueMmioPointer<'a>) -> Self {
        unimplemented!("no console")
    }

    pub fn set_interrupt_masks(&mut self, _masks: Interrupts) {}
}

impl embedded_io::Write for Uart<'_> {}
impl embedded_io::WriteReady for Uart<'_> {}
