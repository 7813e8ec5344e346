//! Compares the calls with the Rust, on the messages of a case stream, and with
//! the model where it is an answer stream of the model.
//!
//! For each V line: every slice of the message by the real `next_slice` and
//! `Value::try_from` against `kambelohi_read` at its start; every other offset
//! against the rules for offsets; all slices by `kambelohi_read_all` on a
//! patterned slice, against the same. This without long times, and with them,
//! but for a [pt] that the Rust refuses, where `kambelohi_read` says what is
//! wanted of all slices. For each T line, which needs the model's answer: the
//! same with long times, each value against the model's, and against the Rust's
//! unless a time is above 255. For each L line: every answer of the real
//! `Pages` with its records against `kambelohi_list` on a patterned slice, and
//! so the model's answers; `kambelohi_place` against that, with the counts of
//! the records; all of them together against `kambelohi_list_all`. Of sign files
//! with options the Rust alone can not tell what is right: an L line on one needs
//! the model's answers.
//! The first difference ends the run with 1, and its case is written to the
//! file compare-failed.txt. Standard input is one stream or several, one
//! after the other; one that is cut or damaged ends the run with 2, and so does
//! a run without a V, T or L line. `--progress` tells how far the run is. With
//! `--every` the run ends with 1 where a value, a refusal, a stop of the Rust
//! or a use of an option that can come does not.
//!
//! With `--sentences` standard input has no streams but sentences (see
//! sentences.rs), which are compared with those of `kambelohi_sentence`; with
//! `--counts` messages and the model's counts (see counts.rs).

mod counts;
mod kambelohi;
mod listings;
mod sentences;
mod stops;
mod whole;

use kambelohi::{ReadAllAnswer, ReadAnswer, Reading, Span, read, read_all};
use kambelohi_oracle::{Item, values};
use listings::{SignFile, is_page_time};
use std::collections::BTreeMap;
use std::io::BufRead;

/// Where the Rust stops, document 01 gives 6
const STOPS: u32 = 0;

#[derive(Default)]
struct Counts {
    messages: usize,
    slices: usize,
    offsets: usize,
    stops: usize,
    codes: BTreeMap<(u32, u32), usize>,
    whole: BTreeMap<u8, usize>,
    /// Messages of T lines, their slices that are the Rust's, and those with a
    /// time above 255
    long: (usize, usize, usize),
}

impl Counts {
    /// What does not occur: a value, a refused one, or a message refused whole
    fn missing(&self) -> Vec<String> {
        let values = (1..=22).map(|code| (code, 0));
        let refused = [5, 6, 7].into_iter().map(|number| (0, number));
        let gone = values.chain(refused).filter(|k| !self.codes.contains_key(k));
        let mut all: Vec<_> = gone
            .map(|(code, number)| format!("code {code} refusal {number}"))
            .collect();
        let gone = [2, 3].into_iter().filter(|n| !self.whole.contains_key(n));
        all.extend(gone.map(|n| format!("a message refused with {n}")));
        if self.stops == 0 {
            all.push("a value where the Rust stops".to_string());
        }
        if self.long.1 == 0 || self.long.2 == 0 {
            all.push("a [pt] with long times".to_string());
        }
        all
    }
}

fn decode(hex: &str) -> Option<Vec<u8>> {
    if hex == "-" {
        return Some(Vec::new());
    }
    if hex.len() % 2 != 0 {
        return None;
    }
    (0..hex.len() / 2)
        .map(|i| u8::from_str_radix(hex.get(2 * i..2 * i + 2)?, 16).ok())
        .collect()
}

fn refused(number: u32, start: usize, length: usize) -> ReadAnswer {
    ReadAnswer {
        kind: 2,
        number,
        start: start as u32,
        length: length as u32,
        detail: 0,
        code: 0,
        n: [0; 8],
    }
}

fn end() -> ReadAnswer {
    ReadAnswer {
        kind: 1,
        ..refused(0, 0, 0)
    }
}

fn expect(
    msg: &[u8],
    offset: usize,
    long: bool,
    want: ReadAnswer,
) -> Result<(), String> {
    let got = read(msg, offset, long);
    if got == want {
        return Ok(());
    }
    let at = format!("offset {offset}, long times {long}");
    Err(format!("{at}\nwant {want:?}\nhere {got:?}"))
}

/// The answer to a slice, by the Rust; with 6 where it stops
fn slice_answer(item: &Item) -> ReadAnswer {
    let mut want = refused(0, item.start, item.length);
    if item.code == 0 {
        want.number = item.numbers[0];
        if want.number == STOPS {
            want.number = 6;
        }
    } else {
        want.kind = 0;
        want.code = item.code.into();
        want.n.copy_from_slice(&item.numbers);
    }
    want
}

/// Offsets that are no slice's start: inside a character, the end, and past it
fn compare_offsets(
    msg: &[u8],
    long: bool,
    counts: &mut Counts,
) -> Result<(), String> {
    let ms = std::str::from_utf8(msg).expect("read by the Rust");
    for offset in 0..msg.len() {
        if !ms.is_char_boundary(offset) {
            counts.offsets += 1;
            expect(msg, offset, long, refused(4, 0, 0))?;
        }
    }
    counts.offsets += 2;
    expect(msg, msg.len(), long, end())?;
    expect(msg, msg.len() + 1, long, refused(4, 0, 0))
}

/// A message that is refused as a whole
fn compare_whole(
    msg: &[u8],
    long: bool,
    number: u8,
    counts: &mut Counts,
) -> Result<(), String> {
    for offset in [0, msg.len(), msg.len() + 1] {
        counts.offsets += 1;
        expect(msg, offset, long, refused(number.into(), 0, 0))?;
    }
    compare_slices(msg, long, Err(number.into()), counts.offsets)
}

/// The same of the call for all slices
fn as_reading(answer: &ReadAnswer) -> Reading {
    Reading {
        start: answer.start,
        length: answer.length,
        number: answer.number,
        code: answer.code,
        n: answer.n,
    }
}

/// A patterned reading
fn pattern(i: usize, turn: usize) -> Reading {
    let n = (i * 31 + turn * 7) as u32;
    Reading {
        start: n,
        length: !n,
        number: n ^ 0x5555,
        code: n << 8,
        n: [n, !n, n, !n, n, !n, n, !n],
    }
}

/// Compare the call for all slices with what is wanted of it: the slices, or
/// the number of a refusal; on a slice that is long enough and on one that is
/// too short
fn compare_slices(
    msg: &[u8],
    long: bool,
    want: Result<&[Reading], u16>,
    turn: usize,
) -> Result<(), String> {
    for lent in [2048 + turn % 3, 2047 - turn % 2048] {
        let before: Vec<Reading> = (0..lent).map(|i| pattern(i, turn)).collect();
        let mut after = before.clone();
        let got = read_all(msg, long, &mut after);
        let want = if lent < 2048 { Err(want.err().unwrap_or(4)) } else { want };
        let (answer, slices) = match want {
            Ok(all) => {
                let count = all.len() as u16;
                (ReadAllAnswer { kind: 1, count, ..Default::default() }, all)
            }
            Err(number) => {
                (ReadAllAnswer { kind: 2, number, ..Default::default() }, &[][..])
            }
        };
        let same = got == answer
            && after.starts_with(slices)
            && after[slices.len()..] == before[slices.len()..];
        if !same {
            return Err(format!(
                "{lent} readings, long times {long}\nwant {answer:?} {slices:?}\n\
                 here {got:?} {:?}",
                &after[..slices.len().min(lent)]
            ));
        }
    }
    Ok(())
}

/// Compare all offsets of a message with the Rust, without long times, and with
/// them but for a [pt] that it refuses
fn compare(msg: &[u8], counts: &mut Counts) -> Result<(), String> {
    counts.messages += 1;
    let items = match values(msg) {
        Ok(items) => items,
        Err(r) => {
            *counts.whole.entry(r.number).or_default() += 1;
            compare_whole(msg, false, r.number, counts)?;
            return compare_whole(msg, true, r.number, counts);
        }
    };
    let mut all = Vec::with_capacity(items.len());
    let mut long = Vec::with_capacity(items.len());
    for item in &items {
        counts.slices += 1;
        counts.stops += usize::from(is_stop(item));
        let want = slice_answer(item);
        *counts.codes.entry((want.code, want.number)).or_default() += 1;
        expect(msg, item.start, false, want)?;
        all.push(as_reading(&want));
        if !is_page_time(msg, item.start, item.length) || item.code != 0 {
            expect(msg, item.start, true, want)?;
            long.push(as_reading(&want));
        } else {
            long.push(as_reading(&read(msg, item.start, true)));
        }
    }
    compare_slices(msg, false, Ok(&all), counts.messages)?;
    compare_slices(msg, true, Ok(&long), counts.messages)?;
    compare_offsets(msg, false, counts)?;
    compare_offsets(msg, true, counts)
}

/// Whether the Rust stops at a slice
fn is_stop(item: &Item) -> bool {
    item.code == 0 && item.numbers[0] == STOPS
}

/// The answer to a slice, from the model's line: start, length, code and eight
/// numbers, the first of which is the refusal of code 0
fn model_slice(line: &str) -> Option<ReadAnswer> {
    let words = line.split(' ').map(|n| n.parse().ok());
    let words: Vec<u32> = words.collect::<Option<_>>()?;
    let [start, length, code, n @ ..] = &words[..] else {
        return None;
    };
    let item = Item {
        start: *start as usize,
        length: *length as usize,
        code: u8::try_from(*code).ok()?,
        numbers: n.to_vec(),
    };
    (n.len() == 8).then(|| slice_answer(&item))
}

/// Whether a value is a [pt] with a time above 255
fn has_long_time(value: &ReadAnswer) -> bool {
    value.code == 18 && value.n[1].max(value.n[3]) > 255
}

/// Compare all offsets of a message where long times hold with the model, and
/// with the Rust but for times above 255
fn compare_long(
    msg: &[u8],
    lines: &[String],
    counts: &mut Counts,
) -> Result<(), Fault> {
    counts.long.0 += 1;
    let no_answer = || Fault::stream("no answer of values");
    let (head, lines) = lines.split_first().ok_or_else(no_answer)?;
    let items = match values(msg) {
        Ok(items) => items,
        Err(r) => {
            if *head != r.to_string() || !lines.is_empty() {
                return Err(no_answer());
            }
            return compare_whole(msg, true, r.number, counts)
                .map_err(Fault::Differs);
        }
    };
    if *head != items.len().to_string() || lines.len() != items.len() {
        return Err(no_answer());
    }
    let mut all = Vec::with_capacity(items.len());
    for (item, line) in items.iter().zip(lines) {
        let want = model_slice(line).ok_or_else(no_answer)?;
        expect(msg, item.start, true, want).map_err(Fault::Differs)?;
        all.push(as_reading(&want));
        let rust = slice_answer(item);
        if want == rust {
            counts.long.1 += 1;
        } else if rust.number == 6 && has_long_time(&want) {
            counts.long.2 += 1;
        } else {
            let said = format!("Rust {rust:?}\nmodel {want:?}");
            return Err(Fault::Differs(said));
        }
    }
    compare_slices(msg, true, Ok(&all), counts.long.0)
        .map_err(Fault::Differs)?;
    compare_offsets(msg, true, counts).map_err(Fault::Differs)
}

/// A stream of the one case that differs
fn save(sign: Option<&str>, line: &str) {
    // a V line's answer does not depend on it
    let sign = sign.filter(|_| line.starts_with('L'));
    let sign = sign.map_or(String::new(), |s| format!("S {s}\n"));
    let text = format!("kambelohi cases 1\n{sign}{line}\nend 1\n");
    if let Err(e) = std::fs::write("compare-failed.txt", text) {
        eprintln!("compare-failed.txt: {e}");
    }
}

/// A stream being read
#[derive(Default)]
struct Stream {
    cases: usize,
    /// It has the model's answers
    answered: bool,
}

/// A case, with the number of its line, and the lines of the model's answer if
/// the stream has them
struct Case {
    number: usize,
    line: String,
    answer: Option<Vec<String>>,
}

/// Where a run stands
#[derive(Default)]
struct Run {
    /// The stream at hand; none between streams
    stream: Option<Stream>,
    counts: Counts,
    spread: listings::Spread,
    /// The number of the line that is read
    number: usize,
    sign: Option<(String, SignFile)>,
    case: Option<Case>,
    slice: Vec<Span>,
    lent: whole::Lent,
}

/// What ends a run before its time
enum Fault {
    /// An answer differs
    Differs(String),
    /// The stream is not as FORMAT.md has it
    Stream(String),
}

impl Fault {
    pub fn stream(said: &str) -> Self {
        Fault::Stream(said.to_string())
    }
}

impl Run {
    fn list(
        &mut self,
        msg: &[u8],
        answer: Option<&[String]>,
    ) -> Result<(), Fault> {
        let Some((_, file)) = &self.sign else {
            return Err(Fault::stream("no sign file before it"));
        };
        self.slice.resize(1403, Span::default());
        let n = 1400 + self.spread.listings % 4;
        let slice = &mut self.slice[..n];
        match answer {
            Some(lines) => {
                let spread = &mut self.spread;
                listings::compare_model(file, msg, lines, slice, spread)?;
            }
            None if file.has_options() => {
                return Err(Fault::stream("a file with options, no answers"));
            }
            None => (),
        }
        listings::compare(file, msg, slice, &mut self.spread)
            .map_err(Fault::Differs)?;
        whole::compare(file, msg, &mut self.lent, self.spread.listings)
            .map_err(Fault::Differs)?;
        if self.spread.listings % 8 == 0 {
            listings::compare_rest(&file.bytes, msg, slice)
                .map_err(Fault::Differs)?;
        }
        Ok(())
    }

    /// Compare the case at hand, if there is one
    fn settle(&mut self) -> Result<(), Fault> {
        let Some(case) = self.case.take() else {
            return Ok(());
        };
        let result = self.compare(&case);
        // kept for what is told of it
        self.case = result.is_err().then_some(case);
        result
    }

    /// Compare a case
    fn compare(&mut self, case: &Case) -> Result<(), Fault> {
        let line = &case.line;
        let (kind, hex) = line.split_once(' ').unwrap_or((line, "-"));
        if kind == "I" && self.sign.is_none() {
            return Err(Fault::stream("no sign file before it"));
        }
        match (kind, decode(hex)) {
            ("V", Some(msg)) => {
                compare(&msg, &mut self.counts).map_err(Fault::Differs)
            }
            ("T", Some(msg)) => {
                let lines = case.answer.as_deref();
                let lines = lines.ok_or(Fault::stream("no answer"))?;
                compare_long(&msg, lines, &mut self.counts)
            }
            ("L", Some(msg)) => self.list(&msg, case.answer.as_deref()),
            // numbers and version ids, which no call gives alone
            ("D" | "X" | "Q" | "I", _) => Ok(()),
            _ => Err(Fault::stream("no line of a stream")),
        }
    }

    /// Take a line of a stream
    fn line(&mut self, line: &str) -> Result<(), Fault> {
        let Some(stream) = &mut self.stream else {
            let answered = match line {
                "kambelohi cases 1" => false,
                "kambelohi answers 1" => true,
                _ => return Err(Fault::stream("not the head of a stream")),
            };
            self.stream = Some(Stream { cases: 0, answered });
            return Ok(());
        };
        if stream.answered && line.starts_with(|c: char| c.is_ascii_digit()) {
            let lines = self.case.as_mut().and_then(|c| c.answer.as_mut());
            let lines = lines.ok_or(Fault::stream("no case before it"))?;
            lines.push(line.to_string());
            return Ok(());
        }
        self.settle()?;
        self.next_case(line)
    }

    /// Take a line that is no answer
    fn next_case(&mut self, line: &str) -> Result<(), Fault> {
        let stream = self.stream.as_mut().expect("a stream at hand");
        if let Some(hex) = line.strip_prefix("S ") {
            let bytes = decode(hex).ok_or(Fault::stream("bad bytes"))?;
            self.sign = Some((hex.to_string(), SignFile::new(bytes)));
            return Ok(());
        }
        if line.starts_with("end ") {
            if line != format!("end {}", stream.cases) {
                return Err(Fault::stream("not the count of its cases"));
            }
            (self.stream, self.sign) = (None, None);
            return Ok(());
        }
        stream.cases += 1;
        let answered = stream.answered;
        self.case = Some(Case {
            number: self.number,
            line: line.to_string(),
            answer: answered.then(Vec::new),
        });
        if answered { Ok(()) } else { self.settle() }
    }

    /// Take the lines of standard input
    fn lines(&mut self, progress: bool) -> Result<(), Fault> {
        for (i, line) in std::io::stdin().lock().lines().enumerate() {
            let line = line.map_err(|e| Fault::Stream(e.to_string()))?;
            self.number = i + 1;
            let result = self.line(&line);
            let case = self.case.as_ref();
            let (n, case) = case.map_or((i + 1, &line), |c| (c.number, &c.line));
            let told = |e| format!("line {n}: {case}\n{e}");
            match result {
                Ok(()) => (),
                Err(Fault::Stream(e)) => return Err(Fault::Stream(told(e))),
                Err(Fault::Differs(e)) => {
                    save(self.sign.as_ref().map(|(hex, _)| &**hex), case);
                    return Err(Fault::Differs(told(e)));
                }
            }
            if progress && i % 10_000 == 0 {
                eprint!("\r{} listings", self.spread.listings);
            }
        }
        if self.stream.is_some() {
            return Err(Fault::stream("the stream has no end"));
        }
        let c = &self.counts;
        if c.messages + c.long.0 + self.spread.listings == 0 {
            return Err(Fault::stream("no V, T or L line"));
        }
        Ok(())
    }

    fn print(&self) {
        let c = &self.counts;
        if c.messages > 0 {
            for ((code, number), n) in &c.codes {
                println!("code {code:2} refusal {number}: {n}");
            }
            println!(
                "{} messages, {} slices, {} other offsets: none differs \
                 ({} where the Rust stops)",
                c.messages, c.slices, c.offsets, c.stops
            );
        }
        if c.long.0 > 0 {
            println!(
                "{} messages with long times: {} slices are the Rust's, {} have \
                 a time above 255",
                c.long.0, c.long.1, c.long.2
            );
        }
        if self.spread.listings > 0 {
            self.spread.print();
        }
    }

    /// What does not occur, of the cases that came
    fn missing(&self) -> Vec<String> {
        let mut all = Vec::new();
        if self.counts.messages > 0 {
            all.extend(self.counts.missing());
        }
        if self.spread.listings > 0 {
            all.extend(self.spread.missing());
        }
        all
    }
}

/// Compare the streams, the sentences or the counts of standard input
fn compare_all() -> Result<(), Fault> {
    let wants = |name: &str| std::env::args().any(|a| a == name);
    if wants("--sentences") {
        return sentences::compare();
    }
    if wants("--counts") {
        return counts::compare();
    }
    let mut run = Run::default();
    let done = run.lines(wants("--progress"));
    if wants("--progress") {
        eprintln!();
    }
    done?;
    run.print();
    let missing = run.missing();
    if wants("--every") && !missing.is_empty() {
        return Err(Fault::Differs(format!("none has {}", missing.join(", "))));
    }
    Ok(())
}

fn main() {
    let status = match compare_all() {
        Err(Fault::Stream(e)) => {
            eprintln!("compare: {e}");
            2
        }
        Err(Fault::Differs(e)) => {
            eprintln!("compare: {e}");
            1
        }
        Ok(()) => 0,
    };
    std::process::exit(status);
}
