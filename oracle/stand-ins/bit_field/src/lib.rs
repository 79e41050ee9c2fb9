//! Stands in for the crate `bit_field`: written from the names that the Rust original uses, and from how it uses them. The crate itself
//! was not at hand.
//!
//! What is assumed of it, beside the meaning of the names: a place that the number does not have panics, and so does a value that does
//! not fit in its bits.

use std::ops::Range;

/// Bits of a number, the lowest of which is bit 0.
pub trait BitField: Copy {
    fn get_bit(&self, bit: usize) -> bool;
    fn get_bits(&self, bits: Range<usize>) -> Self;
    fn set_bit(&mut self, bit: usize, value: bool) -> &mut Self;
    fn set_bits(&mut self, bits: Range<usize>, value: Self) -> &mut Self;
}

macro_rules! bit_fields {
    ($($number:ty)*) => {$(
        impl BitField for $number {
            fn get_bit(&self, bit: usize) -> bool {
                self.get_bits(bit..bit + 1) == 1
            }

            fn get_bits(&self, bits: Range<usize>) -> Self {
                (*self >> bits.start) & most(&bits, Self::BITS) as Self
            }

            fn set_bit(&mut self, bit: usize, value: bool) -> &mut Self {
                self.set_bits(bit..bit + 1, value.into())
            }

            fn set_bits(&mut self, bits: Range<usize>, value: Self) -> &mut Self {
                let most = most(&bits, Self::BITS) as Self;
                assert!(value <= most, "value does not fit in the bits");
                *self = *self & !(most << bits.start) | value << bits.start;
                self
            }
        }
    )*};
}

bit_fields!(u8 u32);

/// The most that so many bits of a number hold.
fn most(bits: &Range<usize>, all: u32) -> u64 {
    assert!(bits.start < bits.end && bits.end <= all as usize, "the number has no such bits");
    (1 << (bits.end - bits.start)) - 1
}
