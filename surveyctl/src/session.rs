//! A store with its file, and doing commands on it.

use crate::command::Command;
use crate::failure::Failure;
use crate::file::StoreFile;
use crate::help;
use crate::options::Options;
use crate::words::{key_words, value_words};
use crate::{picture, probe};
use std::io::Write;
use zilgwern::{Key, List, Page, Refusal, Reply, Report, Request, Step, Stepped, Store};

pub struct Session {
    pub store: Store<'static>,
    file: Option<StoreFile>,
    pub whole: bool,
}

impl Session {
    /// Opens the store of the file that is named, or makes one that lives as long as this call.
    pub fn begin(options: &Options, err: &mut dyn Write) -> Result<Session, Failure> {
        let (file, store) = match &options.store {
            Some(name) => {
                let (file, store) = StoreFile::open(name, err)?;
                (Some(file), store)
            }
            None => (None, Store::owned(options.places(), options.threshold)?),
        };
        Ok(Session { store, file, whole: options.whole })
    }

    /// Whether what is done here outlives the call.
    pub fn is_kept(&self) -> bool {
        self.file.is_some()
    }

    /// Writes the store to its file, if it has one and has changed.
    pub fn keep(&mut self) -> Result<(), Failure> {
        self.file.as_mut().map_or(Ok(()), |file| file.keep(&mut self.store))
    }

    /// Refuses to write something else over the store's file.
    pub fn spare(&self, name: &str) -> Result<(), Failure> {
        self.file.as_ref().map_or(Ok(()), |file| file.spare(name))
    }

    /// Does a command and prints what came of it.
    pub fn perform(&mut self, command: Command, out: &mut dyn Write) -> Result<(), Failure> {
        match command {
            Command::Ask(Request::Probe(key)) => self.probe(key, out),
            Command::Ask(request) => self.ask(&request, out),
            Command::Scan(low, high) => self.scan(low, high, out),
            Command::TidyAll => self.tidy_all(out),
            Command::Check => {
                self.store.check()?;
                Ok(writeln!(out, "sound")?)
            }
            Command::Show => Ok(out.write_all(picture::in_text(self).as_bytes())?),
            Command::Help(topic) => match help::in_prompt(&topic) {
                Some(text) => Ok(out.write_all(text.as_bytes())?),
                None => Err(Failure::Words(format!("{topic}: no such command; `help` lists them"))),
            },
            Command::Quit => Ok(()),
        }
    }

    fn ask(&mut self, request: &Request, out: &mut dyn Write) -> Result<(), Failure> {
        let mut list = List::new();
        list.add(request).map_err(zilgwern::Error::from)?;
        let replies = self.store.run(&list)?;
        for reply in &replies {
            if let Reply::Refused(refusal) = reply {
                return Err(Failure::Refused((*refusal).into()));
            }
            writeln!(out, "{}", reply_words(reply, self.whole))?;
        }
        match replies[..] {
            [Reply::NoValue] => Err(Failure::NoValue),
            _ => Ok(()),
        }
    }

    /// What a look-up gives, and the tables that it opens.
    fn probe(&mut self, key: Key, out: &mut dyn Write) -> Result<(), Failure> {
        let reply = self.store.probe(key)?;
        writeln!(out, "{}", probe::reply_words(&reply))?;
        Ok(out.write_all(probe::opened_words(&self.store.view(), key).as_bytes())?)
    }

    fn scan(&mut self, low: Key, high: Key, out: &mut dyn Write) -> Result<(), Failure> {
        let mut count = 0;
        for found in self.store.range(low, high) {
            let (key, value) = found?;
            writeln!(out, "{}", entry_words(key, &value, self.whole))?;
            count += 1;
        }
        if count == 0 {
            writeln!(out, "no values")?;
        }
        Ok(())
    }

    /// Tidies until there is nothing to do. What was done is told even where a step is refused in the end.
    fn tidy_all(&mut self, out: &mut dyn Write) -> Result<(), Failure> {
        let mut steps = [0; 3];
        let ended = loop {
            match self.store.tidy() {
                Ok(Some(Stepped { step, .. })) => steps[step as usize] += 1,
                Ok(None) => break Ok(()),
                Err(error) => break Err(error.into()),
            }
        };
        let [moved, linked, merged] = steps;
        match steps {
            [0, 0, 0] => writeln!(out, "nothing to do")?,
            _ => writeln!(out, "moved {moved}, linked {linked}, merged {merged}")?,
        }
        ended
    }
}

/// A key and its value on one line.
fn entry_words(key: Key, value: &[u8], whole: bool) -> String {
    format!("{}  {}", key_words(key, whole), value_words(value))
}

/// A reply in words; a scan's has a line for each value.
pub fn reply_words(reply: &Reply, whole: bool) -> String {
    match reply {
        Reply::Done => "done".into(),
        Reply::Value(value) => value_words(value),
        Reply::NoValue => "no value".into(),
        Reply::NothingToDo => "nothing to do".into(),
        Reply::Stepped(Stepped { step, level }) => {
            let step = match step {
                Step::Moved => "moved a table down",
                Step::Linked => "linked a table down",
                Step::Merged => "merged a table",
            };
            format!("{step}, level {level}")
        }
        Reply::Page(page) => page_words(page, whole),
        Reply::Report(report) => report_words(report),
        Reply::Probe(probe) => probe::reply_words(probe),
        Reply::Refused(refusal) => refusal_words(*refusal),
    }
}

/// A refused request by its number.
pub fn refusal_words(refusal: Refusal) -> String {
    format!("refused, {refusal}")
}

fn page_words(page: &Page, whole: bool) -> String {
    let values = page.values.iter().map(|(key, value)| entry_words(*key, value, whole));
    let mut lines: Vec<String> = values.collect();
    match (lines.is_empty(), page.more) {
        (true, _) => lines.push("no values".into()),
        (_, true) => lines.push("and more".into()),
        _ => {}
    }
    lines.join("\n")
}

fn report_words(report: &Report) -> String {
    let Report { free, live: [zero, one, two, three], frozen, links, memory } = report;
    let live = format!("live on levels 0 to 3: {zero}, {one}, {two}, {three}");
    format!("free {free}, {live}, frozen {frozen}, links {links}, memory entries {memory}")
}
