//! Commands one after the other: from the command line, from a script, or typed at a prompt.

use crate::command::Command;
use crate::failure::Failure;
use crate::options::Options;
use crate::session::Session;
use crate::{help, Streams};
use std::io::{BufRead, Write};

/// The words of the command line as one command; without any, a prompt or a script from standard input.
pub fn one(options: &Options, streams: &mut Streams) -> Result<(), Failure> {
    if options.command.is_empty() {
        let session = Session::begin(options, streams.err)?;
        return match streams.asks {
            true => prompt(session, streams),
            false => script(session, &[], streams),
        };
    }
    // Known words first: a store is not opened for words that mean nothing.
    let Some(command) = Command::of(&line_of(options)).map_err(hinted)? else { return Ok(()) };
    let begun = Session::begin(options, streams.err);
    if let (Command::Check, Err(failure)) = (&command, &begun) {
        // The answer to what was asked, where `sound` would stand; scripts sort by it.
        if let Some(rule) = failure.first_broken() {
            writeln!(streams.out, "first broken rule {}", rule.letter())?;
        }
    }
    let mut session = begun?;
    if command.wants_store() && !session.is_kept() {
        let words = "no --store FILE is named, so this is done on a new store and then forgotten";
        writeln!(streams.err, "surveyctl: {words}")?;
    }
    let mut answer = Vec::new();
    let done = session.perform(command, &mut answer);
    // What is not kept is not told as done.
    session.keep()?;
    streams.out.write_all(&answer)?;
    done
}

/// The words of the command line as one line. A last word without letters is an empty value, which has quotes in a line.
fn line_of(options: &Options) -> String {
    let mut words = [std::slice::from_ref(&options.command), &options.rest].concat();
    match words.last_mut() {
        Some(last) if last.is_empty() && options.command == "put" => *last = "\"\"".into(),
        _ => {}
    }
    words.join(" ")
}

fn hinted(words: String) -> Failure {
    Failure::Words(words.replace("`help` lists them", "see `surveyctl --help`"))
}

/// `script`: runs the lines of a file or of standard input, up to the first that fails or, if so asked, to the end.
pub fn script(session: Session, rest: &[&str], streams: &mut Streams) -> Result<(), Failure> {
    let (keep_going, names) = match rest {
        ["-k" | "--keep-going", names @ ..] => (true, names),
        names => (false, names),
    };
    match names {
        [] | ["-"] => {
            lines(session, streams.input, "standard input", keep_going, streams.out, streams.err)
        }
        [name] => {
            let text = std::fs::read(name).map_err(|error| Failure::file(name, error))?;
            lines(session, &mut &text[..], name, keep_going, streams.out, streams.err)
        }
        _ => Err(Failure::usage("script", "takes one file at most")),
    }
}

fn lines(
    mut session: Session,
    input: &mut dyn BufRead,
    name: &str,
    keep_going: bool,
    out: &mut dyn Write,
    err: &mut dyn Write,
) -> Result<(), Failure> {
    let mut result = Ok(());
    for number in 1.. {
        match next_line(input).and_then(|line| obey_line(&mut session, line, out)) {
            Ok(true) => break,
            // A look-up without a value has been answered; it is no reason to stop.
            Ok(false) | Err(Failure::NoValue) => {}
            Err(failure) => {
                let fatal = matches!(failure, Failure::Output(_) | Failure::File(_));
                let failure = failure.at(&format!("{name}, line {number}"));
                if fatal || !keep_going {
                    result = Err(failure);
                    break;
                }
                // Where these can't be written, the next answer can't be either.
                let _ = out.flush().and_then(|()| writeln!(err, "surveyctl: {failure}"));
                result = Err(Failure::Words("some lines failed".into()));
            }
        }
    }
    // What was done before a line that failed is done, whatever the failure.
    session.keep()?;
    result
}

/// The next line of the input, or none at its end.
fn next_line(input: &mut dyn BufRead) -> Result<Option<String>, Failure> {
    let mut bytes = Vec::new();
    let read = input.read_until(b'\n', &mut bytes);
    read.map_err(|error| Failure::File(format!("the input can't be read: {error}")))?;
    if bytes.is_empty() {
        return Ok(None);
    }
    let words = "these bytes are no text (UTF-8); a value of any bytes is hex:DIGITS";
    String::from_utf8(bytes).map(Some).map_err(|_| Failure::Words(words.into()))
}

/// Does one line; true at the end of the input and if the line asks to end.
fn obey_line(
    session: &mut Session,
    line: Option<String>,
    out: &mut dyn Write,
) -> Result<bool, Failure> {
    let Some(line) = line else { return Ok(true) };
    let Some(command) = Command::of(&line).map_err(Failure::Words)? else { return Ok(false) };
    let ends = command == Command::Quit;
    session.perform(command, out)?;
    Ok(ends)
}

/// `prompt`: asks for a line, does it, and goes on whatever came of it. The file is kept after every line.
pub fn prompt(mut session: Session, streams: &mut Streams) -> Result<(), Failure> {
    if streams.asks {
        streams.out.write_all(help::GREETING.as_bytes())?;
        if !session.is_kept() {
            writeln!(streams.out, "No --store FILE is named: this store is forgotten at the end.")?;
        }
    }
    loop {
        if streams.asks {
            write!(streams.out, "survey> ")?;
            streams.out.flush()?;
        }
        let line = next_line(streams.input);
        if streams.asks && matches!(line, Ok(None)) {
            writeln!(streams.out)?;
        }
        let mut answer = Vec::new();
        let ended = line.and_then(|line| obey_line(&mut session, line, &mut answer));
        // What is not kept is not told as done.
        session.keep()?;
        streams.out.write_all(&answer)?;
        // Another program may type the lines and wait for the answer.
        streams.out.flush()?;
        match ended {
            Ok(true) => return Ok(()),
            Ok(false) | Err(Failure::NoValue) => {}
            Err(failure @ (Failure::Output(_) | Failure::File(_))) => return Err(failure),
            Err(failure) => writeln!(streams.err, "{failure}")?,
        }
    }
}
