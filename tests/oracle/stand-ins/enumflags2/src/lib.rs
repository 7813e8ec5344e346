//! Stands for the crate `enumflags2`: does what its public documentation says,
//! and only what the carried files use.

use std::marker::PhantomData;
use std::ops::BitOr;

pub use enumflags2_derive::bitflags;

/// An enum whose variants are one bit each; implemented by `bitflags`
pub trait BitFlag: Copy {
    /// Get the variant's bit
    fn bit(self) -> u64;
}

/// A set of flags
#[derive(Clone, Copy, Debug, Eq, PartialEq)]
pub struct BitFlags<T> {
    bits: u64,
    of: PhantomData<T>,
}

impl<T: BitFlag> BitFlags<T> {
    /// Create an empty set
    pub fn empty() -> Self {
        BitFlags {
            bits: 0,
            of: PhantomData,
        }
    }

    /// Check if all of the other flags are in the set
    pub fn contains<B: Into<BitFlags<T>>>(self, other: B) -> bool {
        let other = other.into();
        self.bits & other.bits == other.bits
    }
}

impl<T: BitFlag> From<T> for BitFlags<T> {
    fn from(flag: T) -> Self {
        BitFlags {
            bits: flag.bit(),
            of: PhantomData,
        }
    }
}

impl<T: BitFlag, B: Into<BitFlags<T>>> BitOr<B> for BitFlags<T> {
    type Output = Self;

    fn bitor(self, other: B) -> Self {
        BitFlags {
            bits: self.bits | other.into().bits,
            of: PhantomData,
        }
    }
}
