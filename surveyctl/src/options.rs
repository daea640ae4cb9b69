//! The words of the command line: options, then a command, then what belongs to it.

use crate::failure::Failure;
use crate::help;

pub struct Options {
    /// The file that keeps the store's memory.
    pub store: Option<String>,
    /// Of a store that is made or grows, if they are named.
    pub places: Option<usize>,
    /// Of a store that is made.
    pub threshold: u64,
    /// Print keys as whole numbers.
    pub whole: bool,
    help: bool,
    version: bool,
    /// Empty where no command is named.
    pub command: String,
    pub rest: Vec<String>,
}

/// Long options that have a word behind them.
const VALUED: [&str; 3] = ["--store", "--places", "--threshold"];

impl Options {
    pub fn of(words: &[String]) -> Result<Options, Failure> {
        let mut options = Options {
            store: None,
            places: None,
            threshold: 4,
            whole: false,
            help: false,
            version: false,
            command: String::new(),
            rest: Vec::new(),
        };
        let mut words = words.iter();
        while let Some(word) = words.next() {
            if !word.starts_with('-') {
                options.command = word.clone();
                options.rest = words.cloned().collect();
                break;
            }
            let (name, joined) = match word.split_once('=') {
                Some((name, value)) if word.starts_with("--") => (name, Some(value.to_string())),
                _ => (word.as_str(), None),
            };
            let mut value = || joined.clone().or_else(|| words.next().cloned());
            options.take(name, &mut value)?;
            if joined.is_some() && !VALUED.contains(&name) {
                let words = format!("{name}: takes no value; see `surveyctl --help`");
                return Err(Failure::Words(words));
            }
        }
        Ok(options)
    }

    fn take(
        &mut self,
        name: &str,
        value: &mut dyn FnMut() -> Option<String>,
    ) -> Result<(), Failure> {
        match name {
            "-s" | "--store" => self.store = Some(valued(name, value)?),
            "--places" => self.places = Some(number(name, value)?),
            "--threshold" => self.threshold = number(name, value)?,
            "--whole-keys" => self.whole = true,
            "-h" | "--help" => self.help = true,
            "-V" | "--version" => self.version = true,
            _ => {
                let words = format!("{name}: no such option; see `surveyctl --help`");
                return Err(Failure::Words(words));
            }
        }
        Ok(())
    }

    /// The places of a store that is made.
    pub fn places(&self) -> usize {
        self.places.unwrap_or(32)
    }

    /// The text that is asked for in place of anything else.
    pub fn wanted_help(&self) -> Result<Option<String>, Failure> {
        if self.version {
            return Ok(Some(concat!("surveyctl ", env!("CARGO_PKG_VERSION"), "\n").into()));
        }
        let rest: Vec<&str> = self.rest.iter().map(String::as_str).collect();
        let topic = match (self.help, self.command.as_str(), &rest[..]) {
            (true, command, _) => command,
            (_, "help", [topic, ..]) => topic,
            (_, "help", []) => "",
            (_, command, ["-h" | "--help"]) => command,
            _ => return Ok(None),
        };
        let unknown =
            || Failure::Words(format!("{topic}: no such command; see `surveyctl --help`"));
        help::text(topic).map(Some).ok_or_else(unknown)
    }
}

fn valued(name: &str, value: &mut dyn FnMut() -> Option<String>) -> Result<String, Failure> {
    value().ok_or_else(|| Failure::Words(format!("{name}: a word is missing behind it")))
}

/// The number behind an option.
pub fn number<T: std::str::FromStr>(
    name: &str,
    value: &mut dyn FnMut() -> Option<String>,
) -> Result<T, Failure> {
    let word = valued(name, value)?;
    word.parse().map_err(|_| Failure::Words(format!("{name}: {word} is not a whole number")))
}
