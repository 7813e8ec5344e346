//! Compares the sentence call with an independent writer, on patterned buffers.
//!
//! A line of standard input has number, start, length and detail of a refusal,
//! a tab, and its sentence, as tests/gen/sentences writes them.

use crate::Fault;
use crate::kambelohi::{SentenceAnswer, sentence};
use std::collections::BTreeSet;
use std::io::BufRead;

/// Buffers with room, and without
const ENOUGH: [usize; 3] = [96, 97, 4096];
const FEW: [usize; 3] = [95, 1, 0];

/// What buffers hold before a call: another pattern at each turn
struct Buffers {
    turn: usize,
    pattern: Vec<u8>,
    lent: Vec<u8>,
}

impl Buffers {
    fn new() -> Self {
        Buffers {
            turn: 0,
            pattern: (0..8192).map(|i| (i * 37 + i / 256) as u8).collect(),
            lent: vec![0; 4096],
        }
    }

    /// Call on a buffer of a size, which must then hold the text, and past it
    /// what it held before
    fn must(
        &mut self,
        r: (u8, u16, u16, u16),
        size: usize,
        want: SentenceAnswer,
        text: &[u8],
    ) -> Result<(), String> {
        self.turn = (self.turn + 41) % 4093;
        let before = &self.pattern[self.turn..self.turn + size];
        let lent = &mut self.lent[..size];
        lent.copy_from_slice(before);
        let got = sentence(r.0, r.1, r.2, r.3, lent);
        if got != want {
            return Err(format!("{size} bytes\nwant {want:?}\nhere {got:?}"));
        }
        if lent[..text.len()] != *text {
            let here = String::from_utf8_lossy(&lent[..text.len()]);
            return Err(format!("{size} bytes\nhere {here}"));
        }
        if lent[text.len()..] != before[text.len()..] {
            return Err(format!("{size} bytes: one past the sentence moved"));
        }
        Ok(())
    }
}

/// A refusal's numbers and its sentence
fn parts(line: &str) -> Option<((u8, u16, u16, u16), &str)> {
    let (numbers, text) = line.split_once('\t')?;
    let n: Vec<u16> = numbers
        .split(' ')
        .map(|n| n.parse().ok())
        .collect::<Option<_>>()?;
    match n[..] {
        [number, a, b, c] => Some(((number.try_into().ok()?, a, b, c), text)),
        _ => None,
    }
}

/// Compare the sentences of standard input
pub fn compare() -> Result<(), Fault> {
    let mut buffers = Buffers::new();
    let mut numbers = BTreeSet::new();
    let mut sentences = 0;
    for (i, line) in std::io::stdin().lock().lines().enumerate() {
        let line = line.map_err(|e| Fault::Stream(e.to_string()))?;
        let told = |e: &str| format!("line {}: {line}\n{e}", i + 1);
        let Some((r, text)) = parts(&line) else {
            return Err(Fault::Stream(told("no refusal and its sentence")));
        };
        if text.len() > 96 {
            return Err(Fault::Stream(told("a sentence of more than 96 bytes")));
        }
        let written = SentenceAnswer {
            kind: 1,
            count: text.len() as u16,
            ..Default::default()
        };
        let refused = SentenceAnswer {
            kind: 2,
            number: 16,
            ..Default::default()
        };
        let enough = ENOUGH.map(|size| (size, written, text.as_bytes()));
        let few = FEW.map(|size| (size, refused, &b""[..]));
        for (size, want, bytes) in enough.into_iter().chain(few) {
            buffers
                .must(r, size, want, bytes)
                .map_err(|e| Fault::Differs(told(&e)))?;
        }
        numbers.insert(r.0);
        sentences += 1;
    }
    if sentences == 0 {
        return Err(Fault::stream("no sentence"));
    }
    let numbers = numbers.len();
    println!("{sentences} sentences of {numbers} numbers: none differs");
    Ok(())
}
