//! Case streams, whole and damaged.

mod common;

use common::{board_p, hex};
use kambelohi_oracle::answer_stream;

/// Answer a stream; gives the answers, or line number and words
fn answered(stream: &[u8]) -> Result<String, (usize, String)> {
    let mut out = Vec::new();
    match answer_stream(stream, &mut out, true) {
        Ok(()) => Ok(String::from_utf8(out).unwrap()),
        Err(error) => Err((error.line, error.what)),
    }
}

/// Line number of a damaged stream's fault
fn damaged(stream: &str) -> usize {
    answered(stream.as_bytes()).expect_err(stream).0
}

/// A stream with every kind of line
fn whole() -> String {
    let board = board_p();
    let long = "41".repeat(2049);
    format!(
        "kambelohi cases 1
D 8 323535
D 8 323536
D 16 2b3030
D 32 -
X 2b46
Q 2b304646
Q 30
S {}
I
L 4142
L 5d
L ff
S -
I
L -
S {}
L 4142
V -
V 415b5b5b6e6c355d5b
V {long}
V 5b6d766c316c352c362c372c415d5b666cc3a95d
end 18
",
        hex(&board.file()),
        hex(&board.raw()),
    )
}

#[test]
fn every_kind_of_line() {
    let (_, id) = board_p().sign().version_ids()[0];
    let answers = answered(whole().as_bytes()).unwrap();
    let sign = |line: &&str| !line.starts_with("S ");
    let lines: Vec<_> = answers.lines().filter(sign).collect();
    let long = "V ".to_string() + &"41".repeat(2049);
    let ids = format!("1 {id}");
    let expected = [
        "kambelohi answers 1",
        "D 8 323535",
        "1 255",
        "D 8 323536",
        "0",
        "D 16 2b3030",
        "1 0",
        "D 32 -",
        "0",
        "X 2b46",
        "1 15",
        "Q 2b304646",
        "1 255",
        "Q 30",
        "0",
        "I",
        "1",
        &ids,
        "L 4142",
        "1 30 1",
        "0 0 2 0 0 0 13 7 1 0 0 1 1 50 24",
        "3 1",
        "L 5d",
        "4 5 0 1 0",
        "L ff",
        "4 3 0 0 0",
        "I",
        "4 1 0 0 0",
        "L -",
        "4 1 0 0 0",
        "L 4142",
        "6",
        "V -",
        "0",
        "V 415b5b5b6e6c355d5b",
        "4",
        "0 1 21 0 1 0 0 0 0 0 0",
        "1 2 21 1 1 0 0 0 0 0 0",
        "3 5 15 1 5 0 0 0 0 0 0",
        "8 1 0 5 0 0 0 0 0 0 0",
        &long,
        "4 2 0 0 0",
        "V 5b6d766c316c352c362c372c415d5b666cc3a95d",
        "2",
        "0 14 14 1 1 0 5 6 7 12 1",
        "14 6 0 0 0 0 0 0 0 0 0",
        "end 18",
    ];
    assert_eq!(lines, expected);
}

#[test]
fn damaged_lines() {
    assert_eq!(damaged(""), 1);
    assert_eq!(damaged("kambelohi cases 1"), 1);
    assert_eq!(damaged("kambelohi cases 2\nend 0\n"), 1);
    assert_eq!(damaged("kambelohi cases 1\n"), 2);
    assert_eq!(damaged("kambelohi cases 1\nend 1\n"), 2);
    assert_eq!(damaged("kambelohi cases 1\nend 00\n"), 2);
    assert_eq!(damaged("kambelohi cases 1\nend\n"), 2);
    assert_eq!(damaged("kambelohi cases 1\nend 0\n\n"), 3);
    assert_eq!(damaged("kambelohi cases 1\nend 0\nx"), 3);
    for line in [
        "", "D 8", "D 9 31", "D 08 31", "X", "X 4", "X 4g", "X 4A", "X  41",
        "X 41 ", " X 41", "X -1", "V 41\r", "I 1", "L 41", "I", "S", "Y 41",
        "V \u{e9}",
    ] {
        let stream = format!("kambelohi cases 1\n{line}\nend 1\n");
        assert_eq!(damaged(&stream), 2, "{line}");
    }
    assert!(answered(b"kambelohi cases 1\nend 0\n").is_ok());
    let long = "4".repeat(1 << 22);
    assert_eq!(damaged(&format!("kambelohi cases 1\nV {long}\nend 1\n")), 2);
}

/// Cut at any place, the stream is refused at the line of the cut
#[test]
fn cut_anywhere() {
    let stream = whole();
    for n in (0..stream.len()).step_by(7) {
        let before = stream[..n].bytes().filter(|b| *b == b'\n').count();
        let (line, _) = answered(&stream.as_bytes()[..n]).unwrap_err();
        assert_eq!(line, before + 1, "{n} bytes");
    }
}
