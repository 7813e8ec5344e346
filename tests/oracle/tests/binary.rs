//! The program: exit status, standard output and standard error.

use std::io::Write;
use std::process::{Command, Stdio};

/// Run the program; gives status, standard output and standard error
fn run(arguments: &[&str], input: &[u8]) -> (i32, String, String) {
    let mut child = Command::new(env!("CARGO_BIN_EXE_oracle"))
        .args(arguments)
        .stdin(Stdio::piped())
        .stdout(Stdio::piped())
        .stderr(Stdio::piped())
        .spawn()
        .unwrap();
    // a program that has already given up does not read
    let _ = child.stdin.take().unwrap().write_all(input);
    let out = child.wait_with_output().unwrap();
    let text = |bytes| String::from_utf8(bytes).unwrap();
    (
        out.status.code().unwrap(),
        text(out.stdout),
        text(out.stderr),
    )
}

#[test]
fn answers() {
    let cases = b"kambelohi cases 1\nX 46\nend 1\n";
    let answers = "kambelohi answers 1\nX 46\n1 15\nend 1\n".to_string();
    assert_eq!(run(&[], cases), (0, answers.clone(), String::new()));
    assert_eq!(run(&["--unchecked"], cases), (0, answers, String::new()));
}

#[test]
fn damaged() {
    let said = |what: &str| format!("oracle: {what}\n");
    let empty = run(&[], b"");
    let words = said("line 1: the stream is empty");
    assert_eq!(empty, (2, String::new(), words));
    let (status, _, words) = run(&[], b"kambelohi cases 1\nX 46\nX 4");
    let cut = said("line 3: no newline at the line's end");
    assert_eq!((status, words), (2, cut));
    let (status, _, words) = run(&[], &[0; 10_000_000]);
    let long = said("line 1: no newline at the line's end");
    assert_eq!((status, words), (2, long));
    let (status, _, words) = run(&["-x"], b"");
    assert_eq!(status, 2);
    assert!(words.starts_with("usage"));
}
