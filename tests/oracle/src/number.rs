//! The number readers: Rust's own, and the carried reader of version ids.

use std::str::{FromStr, from_utf8};

/// Read an unsigned decimal number of 8, 16 or 32 bits
pub fn decimal(bits: u8, bytes: &[u8]) -> Option<u32> {
    match bits {
        8 => parse::<u8>(bytes),
        16 => parse::<u16>(bytes),
        32 => parse::<u32>(bytes),
        _ => None,
    }
}

/// Read a hexadecimal number of 16 bits
pub fn hexadecimal(bytes: &[u8]) -> Option<u16> {
    u16::from_str_radix(from_utf8(bytes).ok()?, 16).ok()
}

/// Read a version id
pub fn version_id(bytes: &[u8]) -> Option<u16> {
    crate::dms::multi::oracle::version_id(from_utf8(bytes).ok()?)
}

/// Read a number as the carried files do
fn parse<T: FromStr + Into<u32>>(bytes: &[u8]) -> Option<u32> {
    from_utf8(bytes).ok()?.parse::<T>().ok().map(Into::into)
}
