//! Why a call did not do what it was asked for, and the exit status that says so.

use std::fmt;
use std::io::ErrorKind;
use zilgwern::{Error, Refusal, Refused, Rule};

#[derive(Debug)]
pub enum Failure {
    /// A look-up found nothing. It has said so already.
    NoValue,
    /// The words are not understood.
    Words(String),
    /// The store refused, by number.
    Refused(Error),
    /// The same, for what came out of a file or a line of it.
    RefusedIn(String, Error),
    /// Another failure, and what may help to understand it.
    Hinted(Box<Failure>, String),
    /// A file can't be read or written.
    File(String),
    /// Nobody reads the output any more, or it can't be written.
    Output(std::io::Error),
}

impl Failure {
    /// Words that do not fit a command.
    pub fn usage(command: &str, words: &str) -> Failure {
        Failure::Words(format!("{command}: {words}; see `surveyctl help {command}`"))
    }

    pub fn file(name: &str, error: impl fmt::Display) -> Failure {
        Failure::File(format!("{name}: {error}"))
    }

    /// The same failure, explained.
    pub fn hinted(self, words: String) -> Failure {
        Failure::Hinted(Box::new(self), words)
    }

    /// The same failure, with where it was met.
    pub fn at(self, place: &str) -> Failure {
        match self {
            Failure::Words(words) => Failure::Words(format!("{place}: {words}")),
            Failure::Hinted(inner, words) => Failure::Hinted(Box::new(inner.at(place)), words),
            Failure::Refused(error) => Failure::RefusedIn(place.into(), error),
            Failure::File(words) => Failure::File(format!("{place}: {words}")),
            Failure::RefusedIn(inner, error) => {
                Failure::RefusedIn(format!("{place}: {inner}"), error)
            }
            other => other,
        }
    }

    /// The first broken rule, where the store is not sound.
    pub fn first_broken(&self) -> Option<Rule> {
        match self {
            Failure::Hinted(inner, _) => inner.first_broken(),
            Failure::Refused(Error::Refused(Refused::NotSound(rule)))
            | Failure::RefusedIn(_, Error::Refused(Refused::NotSound(rule))) => Some(*rule),
            _ => None,
        }
    }

    /// As the help text lists them.
    pub fn status(&self) -> u8 {
        match self {
            Failure::Hinted(inner, _) => inner.status(),
            Failure::NoValue => 1,
            Failure::Words(_) => 2,
            Failure::Refused(_) | Failure::RefusedIn(..) => 3,
            Failure::File(_) | Failure::Output(_) => 4,
        }
    }
}

impl fmt::Display for Failure {
    fn fmt(&self, out: &mut fmt::Formatter) -> fmt::Result {
        match self {
            Failure::NoValue => Ok(()),
            Failure::Words(words) | Failure::File(words) => out.write_str(words),
            Failure::Refused(error) => refusal(out, error),
            Failure::RefusedIn(place, error) => {
                write!(out, "{place}: ")?;
                refusal(out, error)
            }
            Failure::Hinted(inner, words) => {
                write!(out, "{inner}")?;
                paragraph(out, words)
            }
            // Who reads has heard enough; the exit status alone says that there was more.
            Failure::Output(error) if error.kind() == ErrorKind::BrokenPipe => Ok(()),
            Failure::Output(error) => write!(out, "the output can't be written: {error}"),
        }
    }
}

/// A refusal by its number, with what can be done about it; that of a damaged store with the text of the first broken rule and
/// what is known of the others.
fn refusal(out: &mut fmt::Formatter, error: &Error) -> fmt::Result {
    write!(out, "refused, {error}")?;
    match error {
        Error::Request(Refusal::MemoryFull) => paragraph(
            out,
            "`flush` writes the memory table to a place and makes room for new keys.",
        ),
        Error::Request(Refusal::NoPlace) => {
            let words = "`tidy all` may free places. If it is refused too, add some with `grow`.";
            paragraph(out, words)
        }
        Error::Refused(Refused::NotSound(rule)) => {
            let (letter, text) = (rule.letter(), rule.explanation());
            paragraph(out, &format!("Rule {letter} of a sound store: {text}"))?;
            write!(out, "\n  {}", other_rules(*rule))?;
            write!(out, "\n  Nothing was changed. Bring back a copy that is sound.")
        }
        _ => Ok(()),
    }
}

/// What is known of the other rules where this is the first broken one.
fn other_rules(first: Rule) -> &'static str {
    match first {
        Rule::A => "Rules B to G may be broken too.",
        Rule::B => "Rule A holds; rules C to G may be broken too.",
        Rule::C => "Rules A and B hold; rules D to G may be broken too.",
        Rule::D => "Rules A to C hold; rules E to G may be broken too.",
        Rule::E => "Rules A to D hold; rules F and G may be broken too.",
        Rule::F => "Rules A to E hold; rule G may be broken too.",
        Rule::G => "Rules A to F hold.",
    }
}

/// Words below a message, indented, in lines of at most 80 columns.
fn paragraph(out: &mut fmt::Formatter, text: &str) -> fmt::Result {
    let mut column = usize::MAX;
    for word in text.split(' ') {
        let length = word.chars().count();
        if column.saturating_add(1 + length) > 80 {
            write!(out, "\n  {word}")?;
            column = 2 + length;
        } else {
            write!(out, " {word}")?;
            column += 1 + length;
        }
    }
    Ok(())
}

impl From<Error> for Failure {
    fn from(error: Error) -> Failure {
        Failure::Refused(error)
    }
}

impl From<Refused> for Failure {
    fn from(refused: Refused) -> Failure {
        Failure::Refused(refused.into())
    }
}

impl From<std::io::Error> for Failure {
    fn from(error: std::io::Error) -> Failure {
        Failure::Output(error)
    }
}
