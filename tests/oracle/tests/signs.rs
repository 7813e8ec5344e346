//! Sign files that are refused, and version ids.

mod common;

use common::{board_p, record};
use kambelohi_oracle::{
    Answer, CAPITALS, GROUP_NUMBERS, LONG_TIMES, Sign, listing, version_ids,
};

/// The refusal of a sign file, as a line
fn refused(file: &[u8]) -> String {
    match Sign::read(file) {
        Ok(_) => "accepted".into(),
        Err(refusal) => refusal.to_string(),
    }
}

/// Board P's file with one byte of its first record's body changed
fn changed(at: usize, byte: u8) -> String {
    let mut file = board_p().raw();
    file[4 + at] = byte;
    refused(&file)
}

#[test]
fn configuration() {
    assert_eq!(changed(0, 49), "accepted");
    assert_eq!(changed(0, 0), "4 1 0 0 0");
    assert_eq!(changed(1, 16), "4 1 0 0 0");
    assert_eq!(changed(6, 0), "4 1 0 0 0");
    for at in [7, 8] {
        assert_eq!(changed(at, 1), "4 1 0 0 0");
        assert_eq!(changed(at, 4), "accepted");
        assert_eq!(changed(at, 5), "4 1 0 0 0");
    }
    assert_eq!(changed(11, 0), "accepted");
    assert_eq!(changed(11, 1), "4 1 0 0 0");
    assert_eq!(changed(14, 0x80), "4 1 0 0 0");
    let mut wide = board_p();
    wide.size = [4096, 4096];
    assert_eq!(refused(&wide.raw()), "accepted");
}

#[test]
fn cut_short() {
    let file = board_p().raw();
    assert_eq!(refused(&file), "accepted");
    // records start at 0, 19, 29, 41, 54; the file has 64 bytes
    let starts = [0, 19, 29, 41, 54, file.len()];
    for n in 0..file.len() {
        let start = starts.iter().rev().find(|s| **s <= n).unwrap();
        let whole = *start == n && n > 0;
        let expected = format!("4 1 {start} 0 0");
        let expected = if whole { "accepted" } else { &expected };
        assert_eq!(refused(&file[..n]), expected, "{n} bytes");
    }
}

#[test]
fn kinds() {
    let file = board_p().raw();
    let first = file[..19].to_vec();
    let end = file.len();
    let with = |record: Vec<u8>| refused(&[&file[..], &record].concat());
    assert_eq!(with(first.clone()), format!("4 1 {end} 0 0"));
    assert_eq!(with(record(4, &[])), format!("4 1 {end} 0 0"));
    assert_eq!(
        with(record(2, &[1, 7, 0, 0, 0, 0])),
        format!("4 1 {end} 0 0")
    );
    assert_eq!(with(record(2, &[2, 7, 0, 0, 0, 0])), "accepted");
    assert_eq!(
        with(record(2, &[2, 0, 0, 0, 0, 0])),
        format!("4 1 {end} 0 0")
    );
    assert_eq!(
        with(record(2, &[0, 7, 0, 0, 0, 0])),
        format!("4 1 {end} 0 0")
    );
    assert_eq!(with(record(3, &[65, 0, 0])), format!("4 1 {end} 0 0"));
    assert_eq!(with(record(3, &[67, 0, 0])), "accepted");
    assert_eq!(with(record(3, &[67, 0, 0, 0])), format!("4 1 {end} 0 0"));
    assert_eq!(with(record(3, &[0, 0, 0])), format!("4 1 {end} 0 0"));
    assert_eq!(with(record(3, &[67, 0])), format!("4 1 {end} 0 0"));
    let no_font = [&first[..], &record(3, &[65, 0, 0])].concat();
    assert_eq!(refused(&no_font), "4 1 19 0 0");
    assert_eq!(refused(&file[19..]), "4 1 0 0 0");
}

#[test]
fn options() {
    let file = board_p().file();
    let (first, rest) = file.split_at(19);
    let with = |parts: &[&[u8]]| refused(&parts.concat());
    for kind in [CAPITALS, LONG_TIMES, GROUP_NUMBERS] {
        let option = record(kind, &[]);
        let whole = [first, &option[..], rest].concat();
        let sign = Sign::read(&whole).unwrap();
        assert!(sign.has(kind) && !board_p().sign().has(kind));
        // the Rust lists as without it
        for message in ["AB", "ab", "[pt256]A", "[pt255]A", "A[jl2]B"] {
            let plain = board_p().list(message);
            assert_eq!(listing(&whole, message.as_bytes()), plain);
        }
        assert_eq!(with(&[&option, first, rest]), "4 1 0 0 0");
        assert_eq!(with(&[first, &option]), "accepted");
        assert_eq!(with(&[first, &option, &option, rest]), "4 1 23 0 0");
        assert_eq!(with(&[first, &record(kind, &[0]), rest]), "4 1 19 0 0");
        assert_eq!(with(&[first, rest, &option]), "4 1 64 0 0");
        assert_eq!(with(&[first, &rest[..10], &option]), "4 1 29 0 0");
        assert_eq!(with(&[first, &option, first]), "4 1 23 0 0");
        for n in 1..4 {
            assert_eq!(with(&[first, &option[..n]]), "4 1 19 0 0");
        }
    }
    for kind in [7, 260] {
        assert_eq!(with(&[first, &record(kind, &[]), rest]), "4 1 19 0 0");
    }
    let (four, five) = (record(CAPITALS, &[]), record(LONG_TIMES, &[]));
    assert_eq!(with(&[first, &four, &five, rest]), "accepted");
    assert_eq!(with(&[first, &five, &four, rest]), "4 1 23 0 0");
    let six = record(GROUP_NUMBERS, &[]);
    assert_eq!(with(&[first, &four, &six, rest]), "accepted");
    assert_eq!(with(&[first, &four, &five, &six, rest]), "accepted");
    assert_eq!(with(&[first, &four, &six, &five, rest]), "4 1 27 0 0");
    assert_eq!(with(&[first, &six, &four, rest]), "4 1 23 0 0");
}

#[test]
fn counts() {
    let mut board = board_p();
    board.fonts = (1..=24).map(|n| ([n, 1, 0, 0], vec![])).collect();
    assert_eq!(refused(&board.raw()), "accepted");
    board.fonts.push(([25, 1, 0, 0], vec![]));
    assert_eq!(refused(&board.raw()), "4 1 259 0 0");
    let mut board = board_p();
    board.fonts[0].1 = (1..=256).map(|n| (n, 0)).collect();
    assert_eq!(refused(&board.raw()), "accepted");
    board.fonts[0].1.push((257, 0));
    assert_eq!(refused(&board.raw()), "4 1 1821 0 0");
}

#[test]
fn too_long() {
    let mut board = board_p();
    let mut widths = vec![255; 8];
    widths.extend([12, 0, 0, 0, 0]);
    let characters = (1..).zip(widths).collect();
    board.fonts = vec![([1, 255, 0, 0], characters)];
    let mut file = board.raw();
    assert_eq!(file.len(), 65_535);
    assert_eq!(refused(&file), "accepted");
    file.push(0);
    assert_eq!(refused(&file), "4 1 0 0 0");
}

#[test]
fn real_version_ids() {
    let board = board_p();
    let ids = version_ids(&board.raw()).unwrap();
    assert_eq!(ids, version_ids(&board.file()).unwrap());
    assert_eq!(ids.len(), 1);
    assert_eq!(ids[0].0, 1);
    assert_ne!(ids[0].1, 0);
    assert_eq!(listing(&board.raw(), b"A"), [Answer::NotComparable]);
    assert_eq!(listing(&board.file(), b"A").len(), 2);
    assert_eq!(listing(b"", b"A")[0].to_string(), "4 1 0 0 0");
}
