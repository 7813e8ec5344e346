//! Compares the listing call with the Rust, on the messages and sign files of
//! a stream, and with the model where the stream has its answers.
//!
//! The Rust has no options. It is given a sign file without its option records,
//! and a listing in which an option matters is passed over, and counted:
//! - kind 4: a capital stands in. The Rust refuses the small letter with 12, and
//!   the model, which has been compared before, answers otherwise.
//! - kind 5: a time is above 255. The Rust refuses the [pt] with 6, and the model
//!   answers otherwise.
//! - kind 6: always. Such a listing is compared with the model alone.

use crate::Fault;
use crate::counts::ask_place;
use crate::kambelohi::{ListAnswer, Span, list};
use crate::stops::{EVERY, Why};
use kambelohi_oracle::{
    Answer, CAPITALS, GROUP_NUMBERS, LONG_TIMES, Record, Refusal, Sign,
};
use std::collections::BTreeMap;

/// Records that a lent slice must have
pub const ROOM: usize = 1400;

impl ListAnswer {
    pub fn on(duration: u16, count: u16) -> Self {
        ListAnswer {
            kind: 1,
            duration,
            count,
            ..Default::default()
        }
    }

    pub fn off(duration: u16) -> Self {
        ListAnswer {
            kind: 2,
            duration,
            ..Default::default()
        }
    }

    pub fn end(count: u16) -> Self {
        ListAnswer {
            kind: 3,
            count,
            ..Default::default()
        }
    }

    pub fn refused(number: u16, start: u16, length: u16, detail: u16) -> Self {
        ListAnswer {
            kind: 4,
            number,
            start,
            length,
            detail,
            ..Default::default()
        }
    }
}

/// A sign file, as bytes for the call and read for the Rust
pub struct SignFile {
    pub bytes: Vec<u8>,
    pub read: Result<Sign, Refusal>,
}

impl SignFile {
    pub fn new(bytes: Vec<u8>) -> Self {
        let read = Sign::read(&bytes);
        SignFile { bytes, read }
    }

    /// Whether it is accepted with an option record of a kind
    pub fn has(&self, option: u16) -> bool {
        self.read.as_ref().is_ok_and(|sign| sign.has(option))
    }

    /// Whether it is accepted with options, so that the Rust alone can not tell
    /// what is right
    pub fn has_options(&self) -> bool {
        OPTIONS.iter().any(|(kind, _)| self.has(*kind))
    }

    /// What the Rust lists
    fn listing(&self, msg: &[u8]) -> Vec<Answer> {
        match &self.read {
            Ok(sign) => sign.listing(msg),
            Err(refusal) => vec![Answer::Refused(refusal.clone())],
        }
    }
}

/// Kinds of option records, and where a listing is passed over
const OPTIONS: [(u16, &str); 3] = [
    (CAPITALS, "a capital stands in"),
    (LONG_TIMES, "a time above 255"),
    (GROUP_NUMBERS, "always"),
];

/// Listings on files with an option record of a kind: compared with the Rust,
/// and passed over
#[derive(Default)]
pub struct Optional {
    pub compared: usize,
    pub passed: usize,
}

/// Listings by their last answer, and where the Rust gives none to compare
#[derive(Default)]
pub struct Spread {
    pub listings: usize,
    pub answers: usize,
    pub records: usize,
    pub ends: usize,
    pub refusals: BTreeMap<u16, usize>,
    pub stops: BTreeMap<(Why, u16), usize>,
    pub field_0: usize,
    pub not_comparable: usize,
    pub options: BTreeMap<u16, Optional>,
    pub modelled: usize,
}

impl Spread {
    pub fn print(&self) {
        println!("listed to the end: {}", self.ends);
        for (number, n) in &self.refusals {
            println!("refusal {number:2}: {n}");
        }
        for ((why, number), n) in &self.stops {
            println!("the Rust stops, {why:?}, here {number:2}: {n}");
        }
        println!("[f0], here 5 by position: {}", self.field_0);
        println!("version ids not the Rust's: {}", self.not_comparable);
        for (kind, why) in OPTIONS {
            let Some(n) = self.options.get(&kind) else {
                continue;
            };
            if kind == GROUP_NUMBERS {
                println!("kind {kind}: {} not compared with the Rust", n.passed);
            } else {
                println!(
                    "kind {kind}: {} compared with the Rust, {} passed over \
                     ({why})",
                    n.compared, n.passed
                );
            }
        }
        println!("compared with the model: {}", self.modelled);
        println!(
            "{} listings, {} answers, {} records: none differs",
            self.listings, self.answers, self.records
        );
    }

    /// What does not occur: a refusal that the Rust gives too, or one that
    /// comes where it stops
    pub fn missing(&self) -> Vec<String> {
        let shared = [1, 2, 3, 5, 6, 7, 9, 10, 11, 12, 13, 15];
        let refused = shared.iter().filter(|n| !self.refusals.contains_key(n));
        let mut all: Vec<_> = refused.map(|n| format!("refusal {n}")).collect();
        for (why, numbers) in EVERY {
            let gone = |n: &&u16| !self.stops.contains_key(&(why, **n));
            let gone = numbers.iter().filter(gone);
            all.extend(gone.map(|n| format!("a stop, {why:?}, here {n}")));
        }
        if self.ends == 0 {
            all.push("an end".to_string());
        }
        if self.field_0 == 0 {
            all.push("[f0]".to_string());
        }
        for (kind, why) in OPTIONS {
            let n = self.options.get(&kind);
            if kind != GROUP_NUMBERS && n.is_none_or(|n| n.compared == 0) {
                all.push(format!("kind {kind}, compared"));
            }
            if n.is_none_or(|n| n.passed == 0) {
                all.push(format!("kind {kind}, {why}"));
            }
        }
        all
    }

    /// Count a listing on a file with options
    fn count(&mut self, file: &SignFile, passed: Option<u16>) {
        for (kind, _) in OPTIONS {
            if file.has(kind) {
                let n = self.options.entry(kind).or_default();
                n.compared += usize::from(passed.is_none());
                n.passed += usize::from(passed == Some(kind));
            }
        }
    }
}

/// A record that no call writes
pub fn pattern(i: usize) -> Span {
    let k = (i % 60000) as u16;
    Span([k, !k, 7, k, !k, 9, k, 1, 2, 3, !k, 5, k, 8, 13])
}

pub fn numbers(r: &Record) -> Span {
    let [rx, ry, rw, rh] = r.rectangle;
    Span([
        r.kind.into(),
        r.start as u16,
        r.length as u16,
        r.code,
        r.x,
        r.y,
        r.width,
        r.height,
        r.font.into(),
        r.line.into(),
        r.span.into(),
        rx,
        ry,
        rw,
        rh,
    ])
}

/// Fill a slice with records that no call writes
pub fn fill(slice: &mut [Span]) {
    for (i, s) in slice.iter_mut().enumerate() {
        *s = pattern(i);
    }
}

/// Ask for an answer, see that all but its records stay, and that the placing
/// call gives the same with the counts of the records
pub fn ask(
    sign: &[u8],
    msg: &[u8],
    number: usize,
    slice: &mut [Span],
) -> Result<ListAnswer, String> {
    fill(slice);
    let a = list(sign, msg, number, slice);
    let written = if a.kind == 1 { a.count.into() } else { 0 };
    if let Some((i, _)) =
        slice.iter().enumerate().skip(written).find(|(i, s)| **s != pattern(*i))
    {
        return Err(format!("answer {number} {a:?}: record {i} changed"));
    }
    ask_place(sign, msg, number, &a, slice)?;
    Ok(a)
}

/// A tag of field 0, which the Rust's scan passes over
fn is_field_0(tag: &[u8]) -> bool {
    let Some(rest) = tag.strip_prefix(b"[") else {
        return false;
    };
    let Some((b'f' | b'F', digits)) = rest.split_first() else {
        return false;
    };
    let n = digits.iter().take_while(|b| **b == b'0' || **b == b'+').count();
    n > 0 && matches!(digits.get(n), Some(b']' | b','))
}

fn differs(number: usize, want: &Answer, got: &ListAnswer) -> String {
    let want = match want {
        Answer::On { duration, records } => {
            format!("On {duration}, {} records", records.len())
        }
        w => format!("{w:?}"),
    };
    format!("answer {number}\nRust {want}\nhere {got:?}")
}

/// Whether a part of a message is a [pt]
pub fn is_page_time(msg: &[u8], start: usize, length: usize) -> bool {
    let tag = msg.get(start..start + length).unwrap_or_default();
    tag.get(..3).is_some_and(|t| t.eq_ignore_ascii_case(b"[pt"))
}

/// The option that makes the Rust refuse where an answer is another
fn passed_over(
    file: &SignFile,
    msg: &[u8],
    want: &Answer,
    got: &ListAnswer,
) -> Option<u16> {
    let Answer::Refused(r) = want else {
        return None;
    };
    let place = r.place.map(|(start, length)| (start as u16, length as u16));
    let same = got.kind == 4
        && got.number == u16::from(r.number)
        && u32::from(got.detail) == r.detail
        && place.is_none_or(|p| p == (got.start, got.length));
    let letter = (u32::from(b'a')..=u32::from(b'z')).contains(&r.detail);
    let time = r.place.is_some_and(|(s, n)| is_page_time(msg, s, n));
    match r.number {
        _ if same => None,
        12 if letter && file.has(CAPITALS) => Some(CAPITALS),
        6 if time && file.has(LONG_TIMES) => Some(LONG_TIMES),
        _ => None,
    }
}

/// Compare a whole listing with the Rust. On a file with options the answers
/// have been compared with the model's before.
pub fn compare(
    file: &SignFile,
    msg: &[u8],
    slice: &mut [Span],
    spread: &mut Spread,
) -> Result<(), String> {
    spread.listings += 1;
    if file.has(GROUP_NUMBERS) {
        spread.count(file, Some(GROUP_NUMBERS));
        return Ok(());
    }
    let wanted = file.listing(msg);
    for (number, want) in wanted.iter().enumerate() {
        spread.answers += 1;
        let got = ask(&file.bytes, msg, number, slice)?;
        if let Some(option) = passed_over(file, msg, want, &got) {
            spread.count(file, Some(option));
            return Ok(());
        }
        // the Rust's scan passes over it; the page never comes
        if matches!(want, Answer::Refused(_) | Answer::Stop(_))
            && got.kind == 4
            && got.number == 5
            && msg
                .get(got.start.into()..(got.start + got.length).into())
                .is_some_and(is_field_0)
        {
            spread.field_0 += 1;
            spread.count(file, None);
            return Ok(());
        }
        let same = match want {
            Answer::On { duration, records } => {
                spread.records += records.len();
                got == ListAnswer::on(*duration, records.len() as u16)
                    && records.iter().zip(&*slice).all(|(r, s)| numbers(r) == *s)
            }
            Answer::Off { duration } => got == ListAnswer::off(*duration),
            Answer::End { count } => {
                spread.ends += 1;
                got == ListAnswer::end(*count as u16)
            }
            Answer::Refused(r) => {
                *spread.refusals.entry(r.number.into()).or_default() += 1;
                let place = r.place.map_or((got.start, got.length), |(s, n)| {
                    (s as u16, n as u16)
                });
                got == ListAnswer::refused(
                    r.number.into(),
                    place.0,
                    place.1,
                    r.detail as u16,
                )
            }
            Answer::Stop(said) => Why::of(said).is_some_and(|why| {
                *spread.stops.entry((why, got.number)).or_default() += 1;
                why.gives(&got, msg)
            }),
            Answer::NotComparable => {
                spread.not_comparable += 1;
                return Ok(());
            }
        };
        if !same {
            return Err(differs(number, want, &got));
        }
    }
    spread.count(file, None);
    Ok(())
}

/// The numbers of a line
fn line_numbers(line: &str) -> Option<Vec<u16>> {
    line.split(' ').map(|n| n.parse().ok()).collect()
}

/// An answer from the first of its lines
fn model_answer(line: &str) -> Option<ListAnswer> {
    match line_numbers(line)?[..] {
        [1, duration, count] => Some(ListAnswer::on(duration, count)),
        [2, duration] => Some(ListAnswer::off(duration)),
        [3, count] => Some(ListAnswer::end(count)),
        [4, number, start, length, detail] => {
            Some(ListAnswer::refused(number, start, length, detail))
        }
        _ => None,
    }
}

/// Compare a whole listing with the lines of the model's, places and details
/// included
pub fn compare_model(
    file: &SignFile,
    msg: &[u8],
    lines: &[String],
    slice: &mut [Span],
    spread: &mut Spread,
) -> Result<(), Fault> {
    spread.modelled += 1;
    let no_answer = || Fault::stream("no answer of a listing");
    let (mut rest, mut number) = (lines, 0);
    while let Some((line, after)) = rest.split_first() {
        let want = model_answer(line).ok_or_else(no_answer)?;
        let got = ask(&file.bytes, msg, number, slice).map_err(Fault::Differs)?;
        if got != want {
            let said = format!("answer {number}\nmodel {want:?}\nhere {got:?}");
            return Err(Fault::Differs(said));
        }
        let count = if want.kind == 1 { want.count.into() } else { 0 };
        let records = after.get(..count).ok_or_else(no_answer)?;
        for (i, line) in records.iter().enumerate() {
            let want = line_numbers(line).ok_or_else(no_answer)?;
            if slice[i].0[..] != want {
                let got = slice[i];
                let said = format!(
                    "answer {number}, record {i}\nmodel {want:?}\nhere {got:?}"
                );
                return Err(Fault::Differs(said));
            }
        }
        if matches!(want.kind, 3 | 4) != after.is_empty() {
            return Err(no_answer());
        }
        rest = &after[count..];
        number += 1;
    }
    if number == 0 { Err(no_answer()) } else { Ok(()) }
}

/// Slices that are too short, and answers past the last: any bytes
pub fn compare_rest(
    sign: &[u8],
    msg: &[u8],
    slice: &mut [Span],
) -> Result<(), String> {
    let last = ask(sign, msg, usize::MAX, slice)?;
    if !matches!(last.kind, 3 | 4) {
        return Err(format!("past all answers: {last:?}"));
    }
    for short in [0, 1, ROOM - 1] {
        let a = ask(sign, msg, 0, &mut slice[..short])?;
        if a.kind != 4 || !matches!(a.number, 1..=4) {
            return Err(format!("a slice of {short}: {a:?}"));
        }
    }
    Ok(())
}
