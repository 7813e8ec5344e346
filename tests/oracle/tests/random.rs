//! Random boards and messages: the hand loop agrees with the real iterator, and
//! the Rust stops only in the known ways. `ORACLE_CASES` sets how many.

mod common;

use common::{Board, TAGS, board_p};
use kambelohi_oracle::Answer;
use std::collections::BTreeMap;

/// A small random generator (xorshift)
struct Random(u64);

impl Random {
    fn below(&mut self, n: u64) -> u64 {
        self.0 ^= self.0 << 13;
        self.0 ^= self.0 >> 7;
        self.0 ^= self.0 << 17;
        (self.0 >> 11) % n
    }

    fn pick<T: Copy>(&mut self, from: &[T]) -> T {
        from[self.below(from.len() as u64) as usize]
    }
}

const PIECES: &[&str] = &[
    "A",
    "B",
    "AB",
    "BA",
    "A",
    "B",
    "[[",
    "]]",
    "[nl]",
    "[nl]",
    "[nl0]",
    "[nl2]",
    "[jl2]",
    "[jl3]",
    "[jl4]",
    "[jl]",
    "[jp2]",
    "[jp3]",
    "[jp4]",
    "[jp]",
    "[sc3]",
    "[sc0]",
    "[/sc]",
    "[fo1]",
    "[fo2]",
    "[fo3]",
    "[fo]",
    "[np]",
    "[pt5]",
    "[pto7]",
    "[pt0o0]",
    "[tr1,1,0,0]",
    "[tr3,3,20,10]",
    "[tr1,8,0,7]",
    "[tr6,1,30,0]",
    "[hc41]",
    "[hc0]",
    "[hcd8]",
];

const RARE: &[&str] = &[
    "]",
    "[",
    "[x]",
    "[f0]",
    "[f1]",
    "[fl\u{e9}]",
    "\u{100}",
    "[cf1]",
    "[jl1]",
    "[jl5]",
    "[jp1]",
    "[hcd800]",
    "[fo1,0000]",
    "[fo9]",
    "C",
    "\u{e9}",
    "[tr65535,1,1,1]",
    "[tr1,1,99,99]",
    "[nl9]",
    "[sc99]",
];

fn board(r: &mut Random) -> Board {
    let mut board = board_p();
    board.size = [r.pick(&[50, 60, 100]), r.pick(&[7, 14, 24, 70])];
    board.char_size = r.pick(&[[0, 0], [0, 0], [0, 7], [5, 7], [1, 1]]);
    board.just = [r.pick(&[2, 3, 4]), r.pick(&[2, 3, 4])];
    board.times[1] = r.pick(&[0, 0, 9]);
    board.tags = r.pick(&[TAGS, TAGS, TAGS, TAGS & !(1 << 10)]);
    let heights = [r.pick(&[5, 7]), r.pick(&[1, 7, 9])];
    board.fonts = vec![
        (
            [1, heights[0], 2, 3],
            vec![(65, 5), (66, 6), (91, 3), (0xd8, 1)],
        ),
        ([2, heights[1], 1, 0], vec![(93, 2), (65, 4), (66, 5)]),
    ];
    board
}

fn message(r: &mut Random) -> String {
    let n = r.below(14);
    let rare = r.below(3) == 0;
    let mut message = String::new();
    for _ in 0..n {
        let from = if rare && r.below(8) == 0 {
            RARE
        } else {
            PIECES
        };
        message += r.pick(from);
    }
    message
}

/// What a listing's last answer is, in short
fn short(answer: &Answer) -> String {
    match answer {
        Answer::Refused(refusal) => format!("refused {}", refusal.number),
        Answer::Stop(said) => format!("stop {said}"),
        Answer::End { .. } => "end".into(),
        other => panic!("{other:?}"),
    }
}

#[test]
fn random_messages() {
    let cases = std::env::var("ORACLE_CASES").ok();
    let cases: u64 = cases.map_or(20_000, |n| n.parse().unwrap());
    let mut r = Random(0x9e37_79b9_7f4a_7c15);
    let mut seen = BTreeMap::new();
    let mut sign = board(&mut r).sign();
    for n in 0..cases {
        if n % 50 == 0 {
            sign = board(&mut r).sign();
        }
        let message = message(&mut r);
        let answers = sign.listing(message.as_bytes());
        let last = short(answers.last().unwrap());
        assert!(
            !last.starts_with("stop")
                || last.contains("not implemented")
                || last.contains("char boundary")
                || last.contains("b >= h")
                || last.contains("add with overflow"),
            "{message}: {last}"
        );
        *seen.entry(last).or_insert(0) += 1;
    }
    println!("{seen:#?}");
    assert!(seen.len() >= 10);
}
