//! Answers as plain data, and their lines in an answer stream.

use std::fmt;

/// A refusal of document 01
#[derive(Clone, Debug, Eq, PartialEq)]
pub struct Refusal {
    /// Number of the refusal
    pub number: u8,
    /// Start and length, where they are known
    pub place: Option<(usize, usize)>,
    /// Detail
    pub detail: u32,
}

/// One placed span
#[derive(Clone, Copy, Debug, Default, Eq, PartialEq)]
pub struct Record {
    /// 0 text, 1 hexadecimal character, 2 empty line
    pub kind: u8,
    /// First byte in the message
    pub start: usize,
    /// Length in bytes
    pub length: usize,
    /// Character code, of kind 1
    pub code: u16,
    /// Left edge from 0
    pub x: u16,
    /// Top edge from 0
    pub y: u16,
    /// Width in pixels
    pub width: u16,
    /// Height in pixels
    pub height: u16,
    /// Font number
    pub font: u8,
    /// Line number
    pub line: u8,
    /// Span number
    pub span: u8,
    /// Text rectangle: x and y from 1, width, height
    pub rectangle: [u16; 4],
}

/// One answer of a listing
#[derive(Clone, Debug, Eq, PartialEq)]
pub enum Answer {
    /// A page that is on, with its duration in tenths of a second
    On { duration: u16, records: Vec<Record> },
    /// A page that is off
    Off { duration: u16 },
    /// The end, with the count of answers
    End { count: usize },
    /// A refusal
    Refused(Refusal),
    /// The Rust stops, with its own words
    Stop(String),
    /// A font's version id in the sign file is not the real one
    NotComparable,
}

/// The value of one slice, as `tests/FORMAT.md` numbers it
#[derive(Clone, Debug, Eq, PartialEq)]
pub struct Item {
    /// First byte in the message
    pub start: usize,
    /// Length in bytes
    pub length: usize,
    /// Code of the value, 0 where it is refused
    pub code: u8,
    /// Numbers of the value
    pub numbers: Vec<u32>,
}

impl Refusal {
    /// Make a refusal with a place and no detail
    pub(crate) fn at(number: u8, start: usize, length: usize) -> Self {
        Refusal {
            number,
            place: Some((start, length)),
            detail: 0,
        }
    }
}

impl fmt::Display for Refusal {
    fn fmt(&self, f: &mut fmt::Formatter<'_>) -> fmt::Result {
        write!(f, "4 {} ", self.number)?;
        match self.place {
            Some((start, length)) => write!(f, "{start} {length} ")?,
            None => write!(f, "- - ")?,
        }
        write!(f, "{}", self.detail)
    }
}

impl fmt::Display for Record {
    fn fmt(&self, f: &mut fmt::Formatter<'_>) -> fmt::Result {
        let Record {
            kind,
            start,
            length,
            code,
            x,
            y,
            width,
            height,
            font,
            line,
            span,
            rectangle: [rx, ry, rw, rh],
        } = self;
        write!(
            f,
            "{kind} {start} {length} {code} {x} {y} {width} {height} "
        )?;
        write!(f, "{font} {line} {span} {rx} {ry} {rw} {rh}")
    }
}

impl fmt::Display for Answer {
    fn fmt(&self, f: &mut fmt::Formatter<'_>) -> fmt::Result {
        match self {
            Answer::On { duration, records } => {
                write!(f, "1 {duration} {}", records.len())?;
                records.iter().try_for_each(|r| write!(f, "\n{r}"))
            }
            Answer::Off { duration } => write!(f, "2 {duration}"),
            Answer::End { count } => write!(f, "3 {count}"),
            Answer::Refused(refusal) => refusal.fmt(f),
            Answer::Stop(_) => write!(f, "5"),
            Answer::NotComparable => write!(f, "6"),
        }
    }
}

impl fmt::Display for Item {
    fn fmt(&self, f: &mut fmt::Formatter<'_>) -> fmt::Result {
        write!(f, "{} {} {}", self.start, self.length, self.code)?;
        self.numbers.iter().try_for_each(|n| write!(f, " {n}"))
    }
}
