//! Reads a case stream on standard input and writes the answer stream on
//! standard output. With `--unchecked`, listings are not compared with the real
//! page iterator.

use kambelohi_oracle::answer_stream;
use std::io::{BufWriter, Write, stderr, stdin, stdout};
use std::process::ExitCode;

fn main() -> ExitCode {
    let arguments: Vec<_> = std::env::args_os().skip(1).collect();
    let check = match &arguments[..] {
        [] => true,
        [only] if only == "--unchecked" => false,
        _ => {
            return fail("usage: oracle [--unchecked] < cases > answers");
        }
    };
    let output = BufWriter::with_capacity(1 << 16, stdout().lock());
    match answer_stream(stdin().lock(), output, check) {
        Ok(()) => ExitCode::SUCCESS,
        Err(error) => fail(&format!("oracle: {error}")),
    }
}

/// Say what is wrong; exit status 2
fn fail(what: &str) -> ExitCode {
    // nothing is left to do where standard error is closed too
    let _ = writeln!(stderr(), "{what}");
    ExitCode::from(2)
}
