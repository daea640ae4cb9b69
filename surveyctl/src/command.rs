//! One line of the prompt or of a script as a command.

use crate::words::{take_key, take_put, take_range, take_word};
use zilgwern::{Key, Request};

/// What a line asks for.
#[derive(Clone, PartialEq, Eq, Debug)]
pub enum Command {
    /// A request, just as it is: put, get, del, flush, tidy, report, probe.
    Ask(Request),
    /// All values of a range, however many.
    Scan(Key, Key),
    TidyAll,
    Check,
    Show,
    Help(String),
    Quit,
}

impl Command {
    /// Reads a line; none where it is empty or a comment.
    pub fn of(line: &str) -> Result<Option<Command>, String> {
        let mut rest = line.trim();
        if rest.is_empty() || rest.starts_with('#') {
            return Ok(None);
        }
        let name = take_word(&mut rest);
        let command =
            Command::named(name, &mut rest).map_err(|words| format!("{name}: {words}"))?;
        match rest {
            "" => Ok(Some(command)),
            _ => Err(format!("{name}: `{rest}` is too much")),
        }
    }

    fn named(name: &str, rest: &mut &str) -> Result<Command, String> {
        Ok(match name {
            "put" => {
                let (key, value) = take_put(rest)?;
                Command::Ask(Request::Put(key, value))
            }
            "get" => Command::Ask(Request::LookUp(take_key(rest)?)),
            "del" => Command::Ask(Request::Delete(take_key(rest)?)),
            "scan" => {
                let (low, high) = take_range(rest)?;
                Command::Scan(low, high)
            }
            "flush" => Command::Ask(Request::Flush),
            "tidy" if *rest == "all" => {
                take_word(rest);
                Command::TidyAll
            }
            "tidy" => Command::Ask(Request::Tidy),
            "report" => Command::Ask(Request::Report),
            "probe" => Command::Ask(Request::Probe(take_key(rest)?)),
            "check" => Command::Check,
            "show" => Command::Show,
            "help" | "?" => Command::Help(take_word(rest).into()),
            "quit" | "exit" => Command::Quit,
            _ => return Err("no such command; `help` lists them".into()),
        })
    }

    /// The request that a list holds for this command, or none where it is no single request.
    pub fn request(self) -> Option<Request> {
        match self {
            Command::Ask(request) => Some(request),
            Command::Scan(low, high) => Some(Request::Scan(low, high)),
            _ => None,
        }
    }

    /// Whether the command makes little sense on a new store that is forgotten at once.
    pub fn wants_store(&self) -> bool {
        let asks = matches!(self, Command::Ask(request) if *request != Request::Report);
        asks || matches!(self, Command::Scan(..) | Command::TidyAll)
    }
}
