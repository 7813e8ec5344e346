//! Where the Rust stops, and what document 01 gives there: the table of
//! docs/DIFFERENCES.md.

use crate::kambelohi::ListAnswer;

/// Why the Rust stops
#[derive(Clone, Copy, Debug, Eq, Ord, PartialEq, PartialOrd)]
pub enum Why {
    /// A [fl] or [mv] is cut inside a character
    Cut,
    /// The edge of a text rectangle overflows
    Rectangle,
    /// The number of a line or span overflows
    Number,
    /// A sum overflows while a later span of the group may still have a fault
    Sum,
    /// A sum overflows that is the last to be looked at
    LastSum,
    /// The rounded baseline is less than the font height
    Baseline,
}

/// Every reason, with the refusals that come here
pub const EVERY: [(Why, &[u16]); 6] = [
    (Why::Cut, &[6]),
    (Why::Rectangle, &[6]),
    (Why::Number, &[8]),
    (Why::Sum, &[10, 11, 12, 13]),
    (Why::LastSum, &[13]),
    (Why::Baseline, &[14]),
];

impl Why {
    /// Get the reason from the Rust's words: file, line and what it says. The
    /// lines are those of the carried files, which do not change.
    pub fn of(said: &str) -> Option<Self> {
        let (at, words) = said.split_once(": ")?;
        let (file, line) = at.rsplit_once(':')?;
        let overflow = words == "attempt to add with overflow";
        match (file, line.parse::<u32>().ok()?) {
            ("dms/multi.rs", 1077 | 1214 | 1228 | 1246) => {
                words.contains("char boundary").then_some(Why::Cut)
            }
            ("dms/multi.rs", 639 | 641) if overflow => Some(Why::Rectangle),
            ("dms/render.rs", 625 | 663 | 673) if overflow => Some(Why::Number),
            // text_width, and the walk of offset_horiz
            ("font/mod.rs", 237 | 239) if overflow => Some(Why::Sum),
            ("dms/render.rs", 799 | 801 | 807 | 809) if overflow => {
                Some(Why::Sum)
            }
            // the end of offset_horiz; offset_vert, which has looked at every
            // font of its lines before it adds
            ("dms/render.rs", 814 | 894 | 896 | 902 | 904 | 908)
                if overflow =>
            {
                Some(Why::LastSum)
            }
            ("dms/render.rs", 825) => {
                (words == "assertion failed: b >= h").then_some(Why::Baseline)
            }
            _ => None,
        }
    }

    /// The refusals that come here
    fn numbers(self) -> &'static [u16] {
        let found = EVERY.iter().find(|(why, _)| *why == self);
        found.expect("every reason").1
    }

    /// Whether an answer is one that comes here, placed in the message
    pub fn gives(self, got: &ListAnswer, msg: &[u8]) -> bool {
        let detail = matches!(got.number, 10 | 12);
        self.numbers().contains(&got.number)
            && (got.detail != 0) == detail
            && usize::from(got.start) + usize::from(got.length) <= msg.len()
            && *got
                == ListAnswer::refused(
                    got.number, got.start, got.length, got.detail,
                )
    }
}
