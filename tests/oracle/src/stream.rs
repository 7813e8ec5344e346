//! Case streams in, answer streams out, by `tests/FORMAT.md`.

use crate::answer::Refusal;
use crate::sign::Sign;
use crate::{decimal, hexadecimal, values, version_id};
use std::fmt;
use std::io::{self, BufRead, Read, Write};

/// Longest line that is read
const LINE_MAX: u64 = 1 << 22;

/// A stream that could not be answered
#[derive(Debug)]
pub struct StreamError {
    /// Number of the line, from 1
    pub line: usize,
    /// What is wrong there
    pub what: String,
}

impl fmt::Display for StreamError {
    fn fmt(&self, f: &mut fmt::Formatter<'_>) -> fmt::Result {
        write!(f, "line {}: {}", self.line, self.what)
    }
}

impl std::error::Error for StreamError {}

/// What is wrong with a line
type Wrong = String;

/// A case stream being read
struct Lines<R> {
    input: R,
    number: usize,
}

/// A case stream being answered
struct Answering<W> {
    output: W,
    check: bool,
    sign: Option<Result<Sign, Refusal>>,
    cases: usize,
}

/// Read a case stream and write its answer stream
///
/// * `check` Run the real page iterator beside each listing.
pub fn answer_stream(
    input: impl BufRead,
    output: impl Write,
    check: bool,
) -> Result<(), StreamError> {
    let mut lines = Lines { input, number: 0 };
    let mut answering = Answering {
        output,
        check,
        sign: None,
        cases: 0,
    };
    let result = run(&mut lines, &mut answering);
    result.map_err(|what| StreamError {
        line: lines.number,
        what,
    })
}

/// Answer the lines of a stream
fn run<R: BufRead, W: Write>(
    lines: &mut Lines<R>,
    answering: &mut Answering<W>,
) -> Result<(), Wrong> {
    match lines.next()?.as_deref() {
        Some("kambelohi cases 1") => (),
        Some(_) => return Err("not `kambelohi cases 1`".into()),
        None => return Err("the stream is empty".into()),
    }
    answering.put("kambelohi answers 1")?;
    loop {
        let Some(line) = lines.next()? else {
            return Err("the stream ends without an `end` line".into());
        };
        if let Some(count) = line.strip_prefix("end ") {
            answering.end(count)?;
            break;
        }
        answering.line(&line)?;
    }
    if lines.next()?.is_some() {
        return Err("a line after `end`".into());
    }
    answering.output.flush().map_err(cannot_write)
}

impl<R: BufRead> Lines<R> {
    /// Read a line without its newline; none at the end
    fn next(&mut self) -> Result<Option<String>, Wrong> {
        self.number += 1;
        let mut bytes = Vec::new();
        let mut input = self.input.by_ref().take(LINE_MAX);
        let read = input.read_until(b'\n', &mut bytes);
        read.map_err(|e| format!("cannot read: {e}"))?;
        if bytes.is_empty() {
            return Ok(None);
        }
        if bytes.pop() != Some(b'\n') {
            return Err("no newline at the line's end".into());
        }
        if !bytes.is_ascii() {
            return Err("not ASCII".into());
        }
        Ok(String::from_utf8(bytes).ok())
    }
}

impl<W: Write> Answering<W> {
    /// Write a line
    fn put(&mut self, line: impl fmt::Display) -> Result<(), Wrong> {
        writeln!(self.output, "{line}").map_err(cannot_write)
    }

    /// Write a line of a case, and count it
    fn put_case(&mut self, line: &str) -> Result<(), Wrong> {
        self.cases += 1;
        self.put(line)
    }

    /// Answer the last line
    fn end(&mut self, count: &str) -> Result<(), Wrong> {
        if count != self.cases.to_string() {
            return Err(format!("`end {}` expected", self.cases));
        }
        self.put(format_args!("end {count}"))
    }

    /// Answer one line between the first and the last
    fn line(&mut self, line: &str) -> Result<(), Wrong> {
        let words: Vec<_> = line.split(' ').collect();
        match words[..] {
            ["D", bits, hex] => {
                let bits = match bits {
                    "8" => 8,
                    "16" => 16,
                    "32" => 32,
                    _ => return Err("bits are 8, 16 or 32".into()),
                };
                let bytes = unhex(hex)?;
                self.put_case(line)?;
                self.number(decimal(bits, &bytes))
            }
            ["X", hex] => {
                let bytes = unhex(hex)?;
                self.put_case(line)?;
                self.number(hexadecimal(&bytes).map(Into::into))
            }
            ["Q", hex] => {
                let bytes = unhex(hex)?;
                self.put_case(line)?;
                self.number(version_id(&bytes).map(Into::into))
            }
            ["S", hex] => {
                self.sign = Some(Sign::read(&unhex(hex)?));
                self.put(line)
            }
            ["I"] => self.version_ids(line),
            // the Rust has no long times: T as V
            ["V" | "T", hex] => {
                let bytes = unhex(hex)?;
                self.put_case(line)?;
                self.values(&bytes)
            }
            ["L", hex] => self.listing(line, &unhex(hex)?),
            _ => Err("no line of a case stream".into()),
        }
    }

    /// Answer a number
    fn number(&mut self, number: Option<u32>) -> Result<(), Wrong> {
        match number {
            Some(n) => self.put(format_args!("1 {n}")),
            None => self.put("0"),
        }
    }

    /// Answer the values of a message
    fn values(&mut self, message: &[u8]) -> Result<(), Wrong> {
        match values(message) {
            Ok(items) => {
                self.put(items.len())?;
                items.iter().try_for_each(|item| self.put(item))
            }
            Err(refusal) => self.put(refusal),
        }
    }

    /// Answer the version ids of the sign file
    fn version_ids(&mut self, line: &str) -> Result<(), Wrong> {
        let ids = match self.sign.as_ref().ok_or("no S line before")? {
            Ok(sign) => Ok(sign.version_ids().to_vec()),
            Err(refusal) => Err(refusal.clone()),
        };
        self.put_case(line)?;
        match ids {
            Ok(ids) => {
                self.put(ids.len())?;
                ids.iter()
                    .try_for_each(|(n, id)| self.put(format_args!("{n} {id}")))
            }
            Err(refusal) => self.put(refusal),
        }
    }

    /// Answer the listing of a message
    fn listing(&mut self, line: &str, message: &[u8]) -> Result<(), Wrong> {
        let answers = match self.sign.as_ref().ok_or("no S line before")? {
            Ok(sign) => Ok(sign.list(message, self.check)),
            Err(refusal) => Err(refusal.clone()),
        };
        self.put_case(line)?;
        match answers {
            Ok(answers) => answers.iter().try_for_each(|a| self.put(a)),
            Err(refusal) => self.put(refusal),
        }
    }
}

/// Say that writing failed
fn cannot_write(error: io::Error) -> Wrong {
    format!("cannot write the answer: {error}")
}

/// Read bytes from lowercase hexadecimal pairs, `-` for none
fn unhex(hex: &str) -> Result<Vec<u8>, Wrong> {
    if hex == "-" {
        return Ok(Vec::new());
    }
    let digit = |b: u8| match b {
        b'0'..=b'9' => Some(b - b'0'),
        b'a'..=b'f' => Some(b - b'a' + 10),
        _ => None,
    };
    let pair = |p: &[u8]| match p {
        [high, low] => Some(digit(*high)? << 4 | digit(*low)?),
        _ => None,
    };
    let bytes: Option<Vec<u8>> = hex.as_bytes().chunks(2).map(pair).collect();
    match bytes {
        Some(bytes) if !bytes.is_empty() => Ok(bytes),
        _ => Err("not lowercase hexadecimal pairs".into()),
    }
}
