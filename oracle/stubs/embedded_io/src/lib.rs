//! Stands for `embedded-io`: the two traits that a console must have.
#![no_std]

pub trait Write {}
pub trait WriteReady {}
