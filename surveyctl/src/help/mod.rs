//! The help texts: one for all, one for each command.

mod topics;

use crate::form::HEAD_BYTES;
use zilgwern::VALUE_BYTES;

pub const GREETING: &str = "\
The van's survey store. `help` lists the commands, `quit` ends.
";

const ALL: &str = "\
surveyctl: the van's survey store from the command line

Usage: surveyctl [OPTIONS] [COMMAND [WORDS]]

Without a command: a prompt, or a script where standard input is no terminal.

On the store, also as lines of a script or at the prompt:
  put KEY VALUE        put a value under a key
  get KEY              the value under a key
  del KEY              take the value under a key away
  scan [RANGE]         all values of a range, keys rising
  flush                write the memory table to a place
  tidy                 one step of compaction
  tidy all             steps until there is nothing to do
  report               counts of places, tables, links, memory entries
  probe KEY            the value under a key, and which tables are opened for it
  check                whether the store is sound, or its first broken rule
  show                 what stands where, as a picture

Others:
  new                  make a store in the file that --store names
  grow --places N      give a store more places
  save                 the store as two plain files, saved book and area
  open                 make a store of such files
  prompt               ask for commands one by one
  script [FILE]        run the commands in a file
  replay FILE          run a binary list of any length
  encode [FILE]        commands in text to a binary list
  decode list [FILE]   a binary list to commands in text
  decode answers [FILE]  binary answers to text
  help [COMMAND]       this text, or more on a command

Options, before the command:
  -s, --store FILE     the file that keeps the store; without it, a new store
                       that is forgotten at the end
      --places N       places of a new store, 16 to 4096 (32); of one that is
                       opened or grows, no fewer than it has
      --threshold N    links that make a merge due in a new store, 1 to 8 (4);
                       fewer do that hold as many entries as their table
      --whole-keys     print keys as whole numbers
  -h, --help           this text, or that of the command
  -V, --version        the version

KEY is a line and metres with a point (12 3.450), a whole number
    (13194139536762, 0xC0000000D7A), `first` or `last`.
RANGE is nothing (all keys), KEY KEY, LINE METRES METRES (12 3.000 4.000), or
    `line LINE`; both ends are included.
VALUE is text to the end of the line, text between double quotes, or
    hex:DIGITS; at most {VALUE_BYTES} bytes.

Exit status: 0 done, 1 `get` found no value, 2 words not understood, 3 refused
by the store (the message says the number), 4 a file or the output can't be
read or written.
";

/// The text for a command, or for all.
pub fn text(topic: &str) -> Option<String> {
    let topics = [("", ALL)].into_iter().chain(topics::TOPICS);
    topics.into_iter().find(|(name, _)| *name == topic).map(|(_, text)| filled(text))
}

/// The same at the prompt, where options have no place.
pub fn in_prompt(topic: &str) -> Option<String> {
    if !topic.is_empty() {
        return text(topic);
    }
    let from = ALL.find("  put KEY")?;
    let commands = &ALL[from..ALL.find("\nOthers:")?];
    let more =
        "  help [COMMAND]       this text, or more on a command\n  quit                 the end\n";
    let forms = &ALL[ALL.find("\nKEY is")?..ALL.find("\nExit status")?];
    Some(filled(&format!("{commands}{more}{forms}")))
}

/// A text with the limits that it names as numbers.
fn filled(text: &str) -> String {
    let numbers = [("{VALUE_BYTES}", VALUE_BYTES), ("{HEAD_BYTES}", HEAD_BYTES)];
    numbers
        .iter()
        .fold(text.into(), |text: String, (name, number)| text.replace(name, &number.to_string()))
}
