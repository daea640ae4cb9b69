//! The command line over the package `zilgwern`: what words ask for is done here, on streams that a test can hold too.

mod codec;
mod command;
mod disk;
mod failure;
mod file;
mod form;
mod help;
mod loops;
mod options;
mod picture;
mod probe;
mod replay;
mod saved;
mod session;
mod words;

pub use command::Command;
pub use words::{key_words, value_words};

use failure::Failure;
use options::Options;
use session::Session;
use std::io::{BufRead, Write};

/// Where a call reads and writes.
pub struct Streams<'a> {
    pub input: &'a mut dyn BufRead,
    pub out: &'a mut dyn Write,
    pub err: &'a mut dyn Write,
    /// Whether a person types the input.
    pub asks: bool,
    /// Whether the output goes to a terminal.
    pub shows: bool,
    /// Whether errors and progress go to a terminal.
    pub tells: bool,
}

/// Does what the words ask for and gives the exit status.
pub fn run(words: &[String], streams: &mut Streams) -> u8 {
    let done = obey(words, streams).and_then(|()| Ok(streams.out.flush()?));
    let Err(failure) = done else { return 0 };
    let words = failure.to_string();
    if !words.is_empty() {
        // What was answered comes before why it ended.
        let _ = streams.out.flush();
        let _ = writeln!(streams.err, "surveyctl: {words}");
    }
    failure.status()
}

fn obey(words: &[String], streams: &mut Streams) -> Result<(), Failure> {
    let options = Options::of(words)?;
    if let Some(text) = options.wanted_help()? {
        return Ok(streams.out.write_all(text.as_bytes())?);
    }
    let rest: Vec<&str> = options.rest.iter().map(String::as_str).collect();
    match (options.command.as_str(), &rest[..]) {
        ("new", []) => file::make(&options, streams),
        ("new", _) => Err(Failure::usage("new", "takes no words behind it")),
        ("encode", rest) => codec::encode(rest, streams),
        ("decode", rest) => codec::decode(rest, &options, streams),
        ("save", rest) => saved::save(&options, rest, streams),
        ("open", rest) => saved::open(&options, rest, streams),
        ("grow", rest) => saved::grow(&options, rest, streams),
        ("prompt", []) => loops::prompt(Session::begin(&options, streams.err)?, streams),
        ("prompt", _) => Err(Failure::usage("prompt", "takes no words behind it")),
        ("script", rest) => loops::script(Session::begin(&options, streams.err)?, rest, streams),
        ("replay", rest) => replay::replay(Session::begin(&options, streams.err)?, rest, streams),
        ("show", rest) => picture::show(&Session::begin(&options, streams.err)?, rest, streams),
        _ => loops::one(&options, streams),
    }
}
