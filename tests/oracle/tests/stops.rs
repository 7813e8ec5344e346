//! The smallest inputs known for each way the Rust stops.

mod common;

use common::{Board, board_p};

/// Check what the Rust says where it stops
fn stops(board: &Board, message: &str, words: &str) {
    let said = board.stops(message);
    assert!(said.contains(words), "{message}: {said}");
}

/// A board with wide and high characters and spacings
fn wide() -> Board {
    let mut board = board_p();
    board.size = [4096, 4096];
    board.fonts[0] = ([1, 255, 255, 255], vec![(65, 255)]);
    board
}

#[test]
fn field_0() {
    stops(&board_p(), "[f0]", "not implemented");
    assert_eq!(board_p().refused("[f1]"), "4 5 0 4 0");
}

#[test]
fn cut_inside_a_character() {
    for tag in ["[fl\u{e9}]", "[mv\u{e9}]", "[mvc\u{e9}]", "[mvl\u{e9}]"] {
        stops(&board_p(), tag, "char boundary");
    }
    stops(&board_p(), "[mvl1\u{e9}]", "char boundary");
    assert_eq!(board_p().refused("[mvcl\u{e9}]"), "4 6 0 8 0");
    assert_eq!(board_p().refused("[flt\u{e9}]"), "4 6 0 7 0");
}

#[test]
fn rectangles() {
    let overflow = "attempt to add with overflow";
    stops(&board_p(), "[tr65535,1,1,1]", overflow);
    stops(&board_p(), "[tr1,65535,1,1]", overflow);
    stops(&board_p(), "[tr1,1,65535,1]", overflow);
    stops(&board_p(), "[tr1,1,1,65535]", overflow);
    assert_eq!(board_p().refused("[tr65535,1,0,0]"), "4 6 - - 0");
    assert_eq!(board_p().refused("[tr65534,1,1,1]"), "4 6 - - 0");
}

#[test]
fn numbers_of_spans_and_lines() {
    let overflow = "attempt to add with overflow";
    stops(&board_p(), &"[[A".repeat(128), overflow);
    stops(&board_p(), &"[[".repeat(256), overflow);
    stops(&board_p(), &"[hc41]".repeat(256), overflow);
    stops(&board_p(), &"[nl]".repeat(256), overflow);
    assert_eq!(board_p().refused(&"[[".repeat(255)), "4 13 - - 0");
    assert_eq!(board_p().refused(&"[nl]".repeat(255)), "4 13 - - 0");
}

#[test]
fn sums_across() {
    // one text
    assert_eq!(wide().refused(&"A".repeat(129)), "4 13 - - 0");
    stops(&wide(), &"A".repeat(130), "mod.rs:237: attempt to add");
    // after a span: the width of the next, the spacing before it
    let two = format!("{}[fo]{}", "A".repeat(65), "A".repeat(65));
    stops(&wide(), &two, "render.rs:809: attempt to add");
    let bracket = format!("{}[[", "A".repeat(129));
    stops(&wide(), &bracket, "render.rs:801: attempt to add");
    // before what 10 and 11 refuse; where that comes first, no stop
    let run = "A".repeat(130);
    for later in ["[fo9]B", "[fo1,0001]A", "[fo]C"] {
        stops(&wide(), &(run.clone() + later), "mod.rs:237: attempt");
    }
    assert_eq!(wide().refused(&format!("[fo9]B[fo]{run}")), "4 10 - - 9");
    // both together, where span numbers restart
    let restarted =
        "A".repeat(44) + &format!("[jl]{}", "A".repeat(43)).repeat(2);
    stops(&wide(), &restarted, "render.rs:814: attempt to add");
}

#[test]
fn sums_down() {
    let lines = "[nl]".repeat(129);
    assert_eq!(wide().refused(&lines), "4 13 - - 0");
    stops(
        &wide(),
        &(lines.clone() + "A"),
        "render.rs:904: attempt to add",
    );
    // every font is looked up before
    assert_eq!(wide().refused(&(lines.clone() + "[fo9]A")), "4 10 - - 9");
    let mut board = wide();
    board.fonts.push(([2, 1, 0, 0], vec![]));
    let lower = lines + "[fo2][nl]";
    stops(&board, &lower, "render.rs:908: attempt to add");
}

#[test]
fn baseline() {
    let mut board = board_p();
    board.size[1] = 7;
    board.char_size[1] = 7;
    board.just[1] = 3;
    board.fonts[0].0[1] = 5;
    stops(&board, "A", "assertion failed: b >= h");
    stops(&board, "[nl]", "assertion failed: b >= h");
}

#[test]
fn after_pages() {
    let lines = board_p().lines("A[np][f0]");
    assert_eq!(lines[2..], ["5"]);
    assert_eq!(lines[0], "1 30 1");
}
