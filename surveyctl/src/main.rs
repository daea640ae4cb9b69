//! surveyctl: the van's survey store from the command line.

use std::io::{stderr, stdin, stdout, BufWriter, IsTerminal, Write};
use std::process::ExitCode;
use surveyctl::{run, Streams};

fn main() -> ExitCode {
    let words: Vec<String> = match std::env::args_os().skip(1).map(|w| w.into_string()).collect() {
        Ok(words) => words,
        Err(word) => {
            eprintln!("surveyctl: {word:?} is not text");
            return ExitCode::from(2);
        }
    };
    let mut out = BufWriter::new(stdout().lock());
    let mut streams = Streams {
        input: &mut stdin().lock(),
        out: &mut out,
        err: &mut stderr(),
        asks: stdin().is_terminal(),
        shows: stdout().is_terminal(),
        tells: stderr().is_terminal(),
    };
    let status = run(&words, &mut streams);
    // Who reads may be gone; then there is nobody to tell.
    let _ = out.flush();
    ExitCode::from(status)
}
