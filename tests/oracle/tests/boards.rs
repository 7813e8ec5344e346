//! The worked boards of document 01, and others that tell readings apart.

mod common;

use common::{Board, board_p};

/// Board P with height 7, character height 7, middle
fn board_14(font_height: u8) -> Board {
    let mut board = board_p();
    board.size[1] = 7;
    board.char_size[1] = 7;
    board.just[1] = 3;
    board.fonts[0].0[1] = font_height;
    board
}

#[test]
fn empty_message() {
    assert_eq!(board_p().lines(""), ["1 30 0", "3 1"]);
}

#[test]
fn one_text() {
    let lines = board_p().lines("AB");
    let record = "0 0 2 0 0 0 13 7 1 0 0 1 1 50 24";
    assert_eq!(lines, ["1 30 1", record, "3 1"]);
}

#[test]
fn justified() {
    assert_eq!(board_p().xy("[jl4]AB"), [(5, 37, 0)]);
    assert_eq!(board_p().xy("[jl3]AB"), [(5, 18, 0)]);
    assert_eq!(board_p().xy("A[nl]B"), [(0, 0, 0), (5, 0, 10)]);
    assert_eq!(board_p().refused("[jp3]A[jp2]B"), "4 9 - - 0");
}

#[test]
fn spaced() {
    assert_eq!(board_p().xy("A[sc4]B"), [(0, 0, 0), (6, 9, 0)]);
    // a half spacing is rounded up
    assert_eq!(board_p().xy("[sc3]A[/sc]B"), [(5, 0, 0), (11, 8, 0)]);
}

#[test]
fn brackets() {
    let records = board_p().records("[[A");
    assert_eq!((records[0].start, records[0].length), (0, 1));
    assert_eq!((records[1].start, records[1].x), (2, 5));
    assert_eq!(board_p().refused("]"), "4 5 0 1 0");
}

#[test]
fn rectangles() {
    let records = board_p().records("[tr1,1,13,7]AB");
    assert_eq!(records[0].rectangle, [1, 1, 13, 7]);
    assert_eq!(board_p().refused("[tr1,1,12,7]AB"), "4 13 - - 0");
    let records = board_p().records("[tr11,3,0,0]A");
    assert_eq!(records[0].rectangle, [11, 3, 40, 22]);
    assert_eq!((records[0].x, records[0].y), (10, 2));
}

#[test]
fn rectangle_restarts_with_each_page() {
    let lines = board_p().lines("[tr11,3,0,0]A[np]B");
    assert_eq!(lines[1], "0 12 1 0 10 2 5 7 1 0 0 11 3 40 22");
    assert_eq!(lines[3], "0 17 1 0 0 0 6 7 1 0 0 1 1 50 24");
}

#[test]
fn rectangle_off_the_grid() {
    let mut board = board_p();
    board.char_size = [5, 8];
    assert_eq!(board.refused("[tr2,1,5,8]"), "4 6 - - 0");
    assert_eq!(board.refused("[tr1,1,6,8]"), "4 6 - - 0");
    assert_eq!(board.refused("[tr1,2,5,8]"), "4 6 - - 0");
    assert_eq!(board.refused("[tr1,1,5,7]"), "4 6 - - 0");
    assert_eq!(board.xy("[tr6,9,5,8]A"), [(11, 5, 8)]);
}

#[test]
fn bad_parameters() {
    assert_eq!(board_p().refused("[nl10]"), "4 6 0 6 0");
    assert_eq!(board_p().refused("[fo0]"), "4 6 0 5 0");
    assert_eq!(board_p().refused("[hc]"), "4 6 0 4 0");
    assert_eq!(board_p().refused("A[cf999]"), "4 6 1 7 0");
    assert_eq!(board_p().refused("A[cf9]"), "4 5 1 5 0");
    assert_eq!(board_p().refused("A\u{100}"), "4 7 0 3 0");
    assert_eq!(board_p().refused("[hcd800]"), "4 6 - - 0");
    assert_eq!(board_p().refused("[jl5]"), "4 6 - - 0");
    assert_eq!(board_p().refused("[jp1]"), "4 6 - - 0");
}

#[test]
fn hexadecimal_characters() {
    let lines = board_p().lines("[hc+41]");
    assert_eq!(lines[1], "1 0 7 65 0 0 5 7 1 0 0 1 1 50 24");
    let lines = board_p().lines("[hc0]");
    assert_eq!(lines[1], "1 0 5 0 0 0 0 7 1 0 0 1 1 50 24");
    assert_eq!(board_p().refused("[hcffff]"), "4 12 - - 65535");
    // spacing between spans is due beside a width of 0 too
    assert_eq!(board_p().xy("[hc0]A"), [(0, 0, 0), (5, 2, 0)]);
}

#[test]
fn passes() {
    let tr = "[tr1,1,0,0]";
    assert_eq!(board_p().lines(&tr.repeat(49)), ["1 30 0", "3 1"]);
    assert_eq!(board_p().refused(&tr.repeat(50)), "4 15 - - 0");
}

/// The Rust cannot decide the board that gives 14: it stops
#[test]
fn baseline() {
    let said = board_14(5).stops("A");
    assert!(said.ends_with("assertion failed: b >= h"), "{said}");
    assert_eq!(board_14(7).xy("A"), [(0, 0, 0)]);
}

/// Middle placing on a character grid can leave a rectangle that is not at the
/// top; the Rust stops only where the text would leave the sign
#[test]
fn above_its_rectangle() {
    let mut board = board_14(5);
    board.size[1] = 14;
    let records = board.records("[tr1,8,0,7]A");
    assert_eq!((records[0].y, records[0].height), (2, 5));
    assert_eq!(records[0].rectangle, [1, 8, 50, 7]);
}

#[test]
fn signlist_example() {
    let lines = board_p().lines("[pt10o5]A[np]B");
    let expected = [
        "1 10 1",
        "0 8 1 0 0 0 5 7 1 0 0 1 1 50 24",
        "2 5",
        "1 10 1",
        "0 13 1 0 0 0 6 7 1 0 0 1 1 50 24",
        "2 5",
        "3 4",
    ];
    assert_eq!(lines, expected);
}

#[test]
fn shortcuts_that_put_text_elsewhere() {
    assert_eq!(board_p().xy("A[jl2]B"), [(0, 2, 0), (6, 2, 0)]);
    let xy = board_p().xy("A[jp3][nl]B[sc3]B");
    assert_eq!(xy, [(0, 0, 0), (10, 0, 13), (16, 9, 13)]);
}

#[test]
fn empty_lines() {
    let lines = board_p().lines("[nl]A");
    assert_eq!(lines[1], "2 0 0 0 0 0 0 7 1 0 0 1 1 50 24");
    assert_eq!(lines[2], "0 4 1 0 0 10 5 7 1 1 0 1 1 50 24");
    // a blank mark that [jp] does not reset
    assert_eq!(board_p().records("A[jp3][nl]").len(), 1);
    assert_eq!(board_p().records("[jp3][nl]").len(), 1);
}

#[test]
fn fonts_and_characters() {
    assert_eq!(board_p().refused("[fo2]A"), "4 10 - - 2");
    assert_eq!(board_p().refused("AC"), "4 12 - - 67");
    let (_, id) = board_p().sign().version_ids()[0];
    assert_eq!(board_p().xy(&format!("[fo1,{id:04x}]A")), [(10, 0, 0)]);
    let other = format!("[fo1,{:04X}]A", id ^ 1);
    assert_eq!(board_p().refused(&other), "4 11 - - 0");
}

#[test]
fn refused_on_a_later_page() {
    let lines = board_p().lines("[pto3]A[np]C[np]B");
    assert_eq!(lines[2..], ["2 3", "4 12 - - 67"]);
    let lines = board_p().lines("A[np]B[");
    assert_eq!(lines[2..], ["4 5 6 1 0"]);
}

#[test]
fn messages_refused_in_front() {
    let sign = board_p().sign();
    let last = |m: &[u8]| sign.listing(m)[0].to_string();
    assert_eq!(last(&[b'A'; 2049]), "4 2 0 0 0");
    assert_eq!(last(&[b'A'; 2048]), "4 13 - - 0");
    assert_eq!(last(b"A\xff"), "4 3 0 0 0");
    assert_eq!(last(&[0xff; 2049]), "4 2 0 0 0");
}

#[test]
fn full_fonts() {
    let mut board = board_p();
    board.fonts[0].1 = (1..=256).map(|n| (n, 1)).collect();
    assert_eq!(board.records("[hc0]")[0].width, 0);
    assert_eq!(board.records("[hc100]A")[1].x, 3);
}
