//! Compares the call for a whole listing with the calls one by one and with
//! the Rust, on patterned slices.

use crate::kambelohi::{ListAllAnswer, Shown, Span, list, list_all};
use crate::listings::{SignFile, numbers, pattern};
use kambelohi_oracle::{Answer, GROUP_NUMBERS, listing};

/// Answers and records that the lent slices must have
const ANSWERS: usize = 1026;
const RECORDS: usize = 2048;

/// The lent slices, and one for the calls
#[derive(Default)]
pub struct Lent {
    answers: Vec<Shown>,
    spans: Vec<Span>,
    one: Vec<Span>,
}

/// An answer that no call writes
fn shown(i: usize) -> Shown {
    let k = (i % 60000) as u16;
    Shown { kind: 7, duration: !k, first: k, count: 9 }
}

/// Ask on slices of so many, and see that all but what is counted stays
fn ask(
    sign: &[u8],
    msg: &[u8],
    answers: &mut [Shown],
    spans: &mut [Span],
) -> Result<ListAllAnswer, String> {
    for (i, a) in answers.iter_mut().enumerate() {
        *a = shown(i);
    }
    for (i, s) in spans.iter_mut().enumerate() {
        *s = pattern(i);
    }
    let a = list_all(sign, msg, answers, spans);
    let rest = answers.iter().enumerate().skip(a.answers.into());
    if let Some((i, _)) = rest.into_iter().find(|(i, s)| **s != shown(*i)) {
        return Err(format!("whole listing {a:?}: answer {i} changed"));
    }
    let rest = spans.iter().enumerate().skip(a.records.into());
    if let Some((i, _)) = rest.into_iter().find(|(i, s)| **s != pattern(*i)) {
        return Err(format!("whole listing {a:?}: record {i} changed"));
    }
    Ok(a)
}

/// What the calls one by one give, up to the end or a refusal
fn by_calls(
    sign: &[u8],
    msg: &[u8],
    one: &mut [Span],
) -> (ListAllAnswer, Vec<Shown>, Vec<Span>) {
    let (mut answers, mut spans) = (Vec::new(), Vec::new());
    loop {
        let a = list(sign, msg, answers.len(), one);
        if a.kind == 4 {
            let refused = ListAllAnswer {
                kind: 2,
                number: a.number,
                start: a.start,
                length: a.length,
                detail: a.detail,
                ..Default::default()
            };
            return (refused, Vec::new(), Vec::new());
        }
        if a.kind == 3 {
            let told = ListAllAnswer {
                kind: 1,
                answers: answers.len() as u16,
                records: spans.len() as u16,
                ..Default::default()
            };
            return (told, answers, spans);
        }
        let (first, count) = (spans.len() as u16, a.count);
        answers.push(Shown { kind: a.kind, duration: a.duration, first, count });
        spans.extend_from_slice(&one[..count.into()]);
    }
}

/// The answers and records of the Rust, where it lists to the end
fn by_rust(sign: &[u8], msg: &[u8]) -> Option<(Vec<Shown>, Vec<Span>)> {
    let (mut answers, mut spans) = (Vec::new(), Vec::new());
    for a in listing(sign, msg) {
        let first = spans.len() as u16;
        match a {
            Answer::On { duration, records } => {
                let count = records.len() as u16;
                answers.push(Shown { kind: 1, duration, first, count });
                spans.extend(records.iter().map(numbers));
            }
            Answer::Off { duration } => {
                answers.push(Shown { kind: 2, duration, first, count: 0 });
            }
            Answer::End { .. } => return Some((answers, spans)),
            _ => return None,
        }
    }
    None
}

/// Compare a whole listing; turn varies the lengths of the slices. The Rust
/// does not number spans by group (kind 6)
pub fn compare(
    file: &SignFile,
    msg: &[u8],
    lent: &mut Lent,
    turn: usize,
) -> Result<(), String> {
    let sign = &file.bytes[..];
    lent.answers.resize(ANSWERS + 3, Shown::default());
    lent.spans.resize(RECORDS + 3, Span::default());
    lent.one.resize(1400, Span::default());
    let (n, k) = (ANSWERS + turn % 4, RECORDS + turn / 4 % 4);
    let (answers, spans) = (&mut lent.answers[..n], &mut lent.spans[..k]);
    let got = ask(sign, msg, answers, spans)?;
    let (want, shown, listed) = by_calls(sign, msg, &mut lent.one);
    let same = got == want
        && shown == answers[..got.answers.into()]
        && listed == spans[..got.records.into()];
    if !same {
        return Err(format!("whole listing\nby calls {want:?}\nhere {got:?}"));
    }
    if got.kind == 1 && !file.has(GROUP_NUMBERS) {
        if let Some((shown, listed)) = by_rust(sign, msg) {
            if shown != answers[..got.answers.into()]
                || listed != spans[..got.records.into()]
            {
                return Err(format!("whole listing\nhere {got:?}, not the Rust's"));
            }
        }
    }
    for (a, b) in [(ANSWERS - 1, k), (n, RECORDS - 1), (0, 0)] {
        let short = ask(sign, msg, &mut answers[..a], &mut spans[..b])?;
        if short.kind != 2 || !matches!(short.number, 1..=4) {
            return Err(format!("slices of {a} and {b}: {short:?}"));
        }
    }
    Ok(())
}
