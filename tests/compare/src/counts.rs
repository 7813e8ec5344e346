//! Compares the placing call with the listing call and with the model's counts,
//! on patterned slices.
//!
//! A line of standard input is `S HEX`, the sign file of the lines that follow,
//! or `C HEX` with a message and, for each of its answers from 0 on up to and
//! with the first that is an end or a refusal, the characters that its page
//! prints and its spans, as tests/gen/counts writes them.

use crate::kambelohi::{ListAnswer, PlaceAnswer, Span, place};
use crate::listings::{ROOM, ask, fill};
use crate::{Fault, decode};
use std::io::BufRead;

impl PlaceAnswer {
    /// The same without the counts
    pub fn listed(&self) -> ListAnswer {
        ListAnswer {
            kind: self.kind.into(),
            duration: self.duration,
            count: self.count,
            number: self.number.into(),
            start: self.start,
            length: self.length,
            detail: self.detail,
        }
    }
}

/// Characters that a record prints: those of its text, one of an [hc]
fn printed(msg: &[u8], s: &Span) -> usize {
    let [kind, start, length, ..] = s.0;
    let text = &msg[start.into()..(start + length).into()];
    match kind {
        0 => std::str::from_utf8(text).expect("a text").chars().count(),
        1 => 1,
        _ => 0,
    }
}

/// Ask for an answer that the listing call gave, and its records: all of it
/// must be the same, and the counts those of the records
pub fn ask_place(
    sign: &[u8],
    msg: &[u8],
    number: usize,
    listed: &ListAnswer,
    records: &[Span],
) -> Result<PlaceAnswer, String> {
    let mut slice = vec![Span::default(); records.len()];
    fill(&mut slice);
    let a = place(sign, msg, number, &mut slice);
    let written = if a.kind == 1 { a.count.into() } else { 0 };
    if a.listed() != *listed || slice != records {
        return Err(format!("answer {number}\nlisted {listed:?}\nplaced {a:?}"));
    }
    let looked: usize = records[..written].iter().map(|s| printed(msg, s)).sum();
    if (a.looked.into(), a.spans.into()) != (looked, written) {
        return Err(format!("answer {number}: {looked} {written}\nplaced {a:?}"));
    }
    Ok(a)
}

#[derive(Default)]
struct Seen {
    messages: usize,
    answers: usize,
    characters: usize,
    spans: usize,
    none: usize,
}

/// Compare the answers of a message with its counts
fn message(sign: &[u8], msg: &[u8], counts: &[u16], seen: &mut Seen) -> Result<(), String> {
    seen.messages += 1;
    let mut slice = vec![Span::default(); ROOM + seen.messages % 4];
    for (number, pair) in counts.chunks(2).enumerate() {
        let listed = ask(sign, msg, number, &mut slice)?;
        let a = ask_place(sign, msg, number, &listed, &slice)?;
        if [a.looked, a.spans] != pair {
            return Err(format!("answer {number}: the model has {pair:?}\nhere {a:?}"));
        }
        if (a.kind > 2) != (number + 1 == counts.len() / 2) {
            return Err(format!("answer {number} of {}: {a:?}", counts.len() / 2));
        }
        seen.answers += 1;
        seen.characters += usize::from(a.looked);
        seen.spans += usize::from(a.spans);
        seen.none += usize::from(a.kind != 1);
    }
    Ok(())
}

/// A message and its counts
fn parts(line: &str) -> Option<(Vec<u8>, Vec<u16>)> {
    let mut words = line.strip_prefix("C ")?.split(' ');
    let msg = decode(words.next()?)?;
    let counts: Vec<u16> = words.map(|n| n.parse().ok()).collect::<Option<_>>()?;
    (counts.len() >= 2 && counts.len() % 2 == 0).then_some((msg, counts))
}

/// Compare the counts of standard input
pub fn compare() -> Result<(), Fault> {
    let mut seen = Seen::default();
    let mut sign = None;
    for (i, line) in std::io::stdin().lock().lines().enumerate() {
        let line = line.map_err(|e| Fault::Stream(e.to_string()))?;
        let told = |e: &str| format!("line {}: {line}\n{e}", i + 1);
        if let Some(hex) = line.strip_prefix("S ") {
            sign = decode(hex);
            continue;
        }
        let (Some(sign), Some((msg, counts))) = (&sign, parts(&line)) else {
            return Err(Fault::Stream(told("no message and its counts")));
        };
        message(sign, &msg, &counts, &mut seen).map_err(|e| Fault::Differs(told(&e)))?;
    }
    if seen.characters == 0 || seen.none == 0 {
        return Err(Fault::stream("no counts"));
    }
    println!(
        "counts of {} messages, {} answers, {} characters, {} spans: none differs",
        seen.messages, seen.answers, seen.characters, seen.spans
    );
    Ok(())
}
