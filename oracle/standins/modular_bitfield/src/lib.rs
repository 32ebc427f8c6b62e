//! Stands for the crate `modular-bitfield`, for structs of one byte. Fields lie from the low bit up: a `bool` has 1 bit, `Bn` has n, an enum that
//! derives `Specifier` as many as its variants need. Left out: setters, constructors, wider structs, `Bn` other than the two that are used.
//!
//! The original takes the control byte apart with this, so its decoding is judged partly by our own bit field. That is why the driver also takes
//! the byte apart by shifts and masks and asks that both ways agree (original/src/pit/control.rs).

pub mod prelude {
    pub use crate::{Specifier, B2, B3};
    pub use modular_bitfield_macros::{bitfield, Specifier};
}

/// A type of field: how many bits it has, and what a getter makes of them.
pub trait Specifier {
    const BITS: u32;
    type InOut;
    fn from_bits(bits: u8) -> Self::InOut;
}

impl Specifier for bool {
    const BITS: u32 = 1;
    type InOut = bool;
    fn from_bits(bits: u8) -> bool {
        bits == 1
    }
}

/// A number of so many bits.
macro_rules! number {
    ($name:ident, $bits:literal) => {
        pub enum $name {}

        impl Specifier for $name {
            const BITS: u32 = $bits;
            type InOut = u8;
            fn from_bits(bits: u8) -> u8 {
                bits
            }
        }
    };
}

number!(B2, 2);
number!(B3, 3);
