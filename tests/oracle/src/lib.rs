//! The oracle: the carried Rust, unchanged, asked for what `tests/FORMAT.md`
//! compares. Sign files are read here, by documents 01 and 02; everything after
//! the refusals 1 to 3 is decided by the Rust, which has no options.

include!(concat!(env!("OUT_DIR"), "/carried.rs"));

mod answer;
mod guard;
mod number;
mod sign;
mod stream;
mod values;

pub use answer::{Answer, Item, Record, Refusal};
pub use number::{decimal, hexadecimal, version_id};
pub use sign::{CAPITALS, GROUP_NUMBERS, LONG_TIMES, Sign, with_version_ids};
pub use stream::{StreamError, answer_stream};
pub use values::{next_slices, run_values, values};

/// Characters of a font: the 256 of a sign file, and one entry that is never
/// used. Its number is 0, which is what `Font::character` finds for code 0 in
/// a full font too.
const CHARACTERS: usize = 257;
/// Fonts of a sign
const FONTS: usize = 24;
/// Graphics of a sign: none is ever defined
const GRAPHICS: usize = 1;

/// The real sign
type Board = dms::sign::Dms<CHARACTERS, FONTS, GRAPHICS>;

/// Longest message
pub const MESSAGE_MAX: usize = 2048;

/// List a message on a sign file, up to the end, a refusal or a stop
pub fn listing(sign: &[u8], message: &[u8]) -> Vec<Answer> {
    match Sign::read(sign) {
        Ok(sign) => sign.listing(message),
        Err(refusal) => vec![Answer::Refused(refusal)],
    }
}

/// Number and real version id of each font of a sign file
pub fn version_ids(sign: &[u8]) -> Result<Vec<(u8, u16)>, Refusal> {
    Sign::read(sign).map(|sign| sign.version_ids().to_vec())
}

/// Check a message as document 01 does in front of the Rust
fn checked_message(message: &[u8]) -> Result<&str, Refusal> {
    if message.len() > MESSAGE_MAX {
        return Err(Refusal::at(2, 0, 0));
    }
    std::str::from_utf8(message).map_err(|_| Refusal::at(3, 0, 0))
}
