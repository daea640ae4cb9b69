//! `encode` and `decode`: between text and the binary lists and answers of the program `survey`.

use crate::command::Command;
use crate::failure::Failure;
use crate::options::Options;
use crate::session::{refusal_words, reply_words};
use crate::words::{hexadecimal, key_words, value_words};
use crate::Streams;
use std::io::Write;
use zilgwern::{Error, List, Reply, Request};

/// Takes the flag `--hex` off the words.
fn take_hex<'a>(rest: &[&'a str]) -> (bool, Vec<&'a str>) {
    let names: Vec<&str> = rest.iter().copied().filter(|word| *word != "--hex").collect();
    (names.len() < rest.len(), names)
}

/// All bytes of a file, or of standard input for `-` or nothing.
pub fn read(names: &[&str], command: &str, streams: &mut Streams) -> Result<Vec<u8>, Failure> {
    let mut bytes = Vec::new();
    match names {
        [] | ["-"] => {
            let read = streams.input.read_to_end(&mut bytes);
            read.map_err(|error| Failure::file("standard input", error))?;
        }
        [name] => bytes = std::fs::read(name).map_err(|error| Failure::file(name, error))?,
        _ => return Err(Failure::usage(command, "takes one file at most")),
    }
    Ok(bytes)
}

/// Writes the list of a script's requests to standard output.
pub fn encode(rest: &[&str], streams: &mut Streams) -> Result<(), Failure> {
    let (hex, names) = take_hex(rest);
    if streams.shows && !hex {
        return Err(Failure::usage("encode", "a list is bytes: send it to a file, or add --hex"));
    }
    let text = read(&names, "encode", streams)?;
    let text = String::from_utf8(text).map_err(|_| Failure::usage("encode", "no text"))?;
    let mut list = List::new();
    for (number, line) in text.lines().enumerate() {
        let place = format!("line {}", number + 1);
        let command = Command::of(line).map_err(|words| Failure::Words(words).at(&place))?;
        let Some(command) = command else { continue };
        let Some(request) = command.request() else {
            let words = format!("{place}: `{}` is no single request of a list", line.trim());
            return Err(Failure::Words(words));
        };
        list.add(&request).map_err(|error| Failure::from(Error::from(error)).at(&place))?;
    }
    match hex {
        false => streams.out.write_all(list.as_bytes())?,
        true => writeln!(streams.out, "{}", hex_text(list.as_bytes()))?,
    }
    Ok(())
}

fn hex_text(bytes: &[u8]) -> String {
    let digits: Vec<String> = bytes.iter().map(|byte| format!("{byte:02X}")).collect();
    digits.join(" ")
}

/// Writes a list as a script, or answers in words.
pub fn decode(rest: &[&str], options: &Options, streams: &mut Streams) -> Result<(), Failure> {
    let (hex, words) = take_hex(rest);
    let (what, names) = match &words[..] {
        [what @ ("list" | "answers"), names @ ..] => (*what, names),
        _ => return Err(Failure::usage("decode", "say whether it is a `list` or `answers`")),
    };
    let mut bytes = read(names, "decode", streams)?;
    if hex {
        let text = String::from_utf8_lossy(&bytes).into_owned();
        bytes = hexadecimal(&text).map_err(|words| Failure::usage("decode", &words))?;
    }
    match what {
        "list" => write_list(&bytes, options.whole, streams.out),
        _ => write_answers(&bytes, options.whole, streams.out),
    }
}

/// A line for each request, which `encode` takes back; those that the store will refuse become comments.
fn write_list(list: &[u8], whole: bool, out: &mut dyn Write) -> Result<(), Failure> {
    for (number, request) in Request::read_list(list)?.into_iter().enumerate() {
        match request {
            Ok(request) => writeln!(out, "{}", request_words(&request, whole))?,
            Err(refusal) => writeln!(out, "# request {}: {}", number + 1, refusal_words(refusal))?,
        }
    }
    Ok(())
}

/// The name of a kind of request.
fn kind_words(kind: u16) -> String {
    let names = ["put", "del", "get", "scan", "flush", "tidy", "report", "probe"];
    let name = names.get(usize::from(kind).wrapping_sub(1));
    name.map_or_else(|| format!("kind {kind}"), |name| name.to_string())
}

/// A request as a script says it.
pub fn request_words(request: &Request, whole: bool) -> String {
    let name = kind_words(request.kind());
    let key = |key| key_words(key, whole);
    match request {
        Request::Put(at, value) => format!("{name} {} {}", key(*at), value_words(value)),
        Request::Delete(at) | Request::LookUp(at) | Request::Probe(at) => {
            format!("{name} {}", key(*at))
        }
        Request::Scan(low, high) => format!("{name} {} {}", key(*low), key(*high)),
        Request::Flush | Request::Tidy | Request::Report => name,
    }
}

/// A line for each reply, up to the first byte that is none.
fn write_answers(answers: &[u8], whole: bool, out: &mut dyn Write) -> Result<(), Failure> {
    let mut rest = answers;
    while !rest.is_empty() {
        let at = answers.len() - rest.len();
        let (kind, reply) = Reply::take(&mut rest).ok_or_else(|| {
            Failure::Words(format!("byte {at}: these are no answers of the store"))
        })?;
        // Values of a scan stand below its name.
        let words = reply_words(&reply, whole).replace('\n', "\n  ");
        let gap = if matches!(reply, Reply::Page(_)) { "\n  " } else { " " };
        writeln!(out, "{}:{gap}{words}", kind_words(kind))?;
    }
    Ok(())
}
