//! Stands for the crate `fstr`: does what its public documentation says, and
//! only what the carried files use.

use std::fmt;

/// A string of exactly `N` bytes of UTF-8
#[derive(Clone, Copy, Debug, Eq, PartialEq)]
pub struct FStr<const N: usize> {
    bytes: [u8; N],
}

/// Writes into a string from a place on
pub struct Writer<'a, const N: usize> {
    to: &'a mut FStr<N>,
    at: usize,
}

impl<const N: usize> Default for FStr<N> {
    fn default() -> Self {
        FStr::from_ascii_filler(b' ')
    }
}

impl<const N: usize> FStr<N> {
    /// Create a string filled with one ASCII byte
    pub const fn from_ascii_filler(filler: u8) -> Self {
        assert!(filler.is_ascii());
        FStr { bytes: [filler; N] }
    }

    /// Get the whole string
    fn as_str(&self) -> &str {
        std::str::from_utf8(&self.bytes).expect("FStr holds UTF-8")
    }

    /// Get the part before the first terminator, or all of it
    pub fn slice_to_terminator(&self, terminator: char) -> &str {
        let all = self.as_str();
        all.split(terminator).next().unwrap_or(all)
    }

    /// Get a writer that starts at a place
    pub fn writer_at(&mut self, index: usize) -> Writer<'_, N> {
        assert!(index <= N && self.as_str().is_char_boundary(index));
        Writer {
            to: self,
            at: index,
        }
    }
}

impl<const N: usize> fmt::Display for FStr<N> {
    fn fmt(&self, f: &mut fmt::Formatter<'_>) -> fmt::Result {
        f.write_str(self.as_str())
    }
}

impl<const N: usize> fmt::Write for Writer<'_, N> {
    fn write_str(&mut self, s: &str) -> fmt::Result {
        let end = self.at + s.len();
        if end > N || !self.to.as_str().is_char_boundary(end) {
            return Err(fmt::Error);
        }
        self.to.bytes[self.at..end].copy_from_slice(s.as_bytes());
        self.at = end;
        Ok(())
    }
}

#[cfg(test)]
mod tests {
    use super::*;
    use std::fmt::Write;

    fn written(c: char) -> FStr<4> {
        let mut fs = FStr::from_ascii_filler(0);
        write!(fs.writer_at(0), "{c}").unwrap();
        fs
    }

    #[test]
    fn one_character() {
        for c in ['A', '\u{e9}', '\u{ffff}'] {
            assert_eq!(written(c).slice_to_terminator('\0'), c.to_string());
        }
        assert_eq!(written('\0').slice_to_terminator('\0'), "");
    }

    #[test]
    fn no_room() {
        let mut fs = FStr::<2>::from_ascii_filler(0);
        assert!(write!(fs.writer_at(0), "ABC").is_err());
    }
}
