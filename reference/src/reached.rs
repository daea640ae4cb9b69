//! Named counters of what a test run reached; a run that missed one of them has shown too little.

use crate::judge::{met, Deed, Followed, Marks, Trigger};
use crate::limits::{REPLY_BYTES, VALUE_BYTES};
use crate::slip::OLD_VALUE_BYTES;
use std::collections::BTreeMap;
use std::fmt;

/// Counters by name. Those that are required stand there from the beginning, with zero.
#[derive(Clone, Default, Debug)]
pub struct Reached {
    counts: BTreeMap<String, u64>,
    /// A flush was refused with 20 and nothing has changed the tables since.
    flush_stuck: bool,
}

/// A full store: neither a flush nor a tidy finds the places that it needs.
pub const STUCK: &str = "20 by a flush and then by a tidy";

/// The longest list position at which a stop is required to be seen.
pub const STOPS: usize = 16;

impl Reached {
    pub fn requiring(names: impl IntoIterator<Item = String>) -> Reached {
        Reached { counts: names.into_iter().map(|name| (name, 0)).collect(), flush_stuck: false }
    }

    pub fn count(&mut self, name: impl Into<String>) {
        self.count_times(name, 1);
    }

    /// Counts so many at once; none leaves no counter behind.
    fn count_times(&mut self, name: impl Into<String>, times: usize) {
        if times > 0 {
            *self.counts.entry(name.into()).or_default() += times as u64;
        }
    }

    pub fn add(&mut self, other: &Reached) {
        for (name, count) in &other.counts {
            *self.counts.entry(name.clone()).or_default() += count;
        }
    }

    /// How often something was reached.
    pub fn times(&self, name: &str) -> u64 {
        self.counts.get(name).copied().unwrap_or(0)
    }

    /// All counters by name.
    pub fn iter(&self) -> impl Iterator<Item = (&str, u64)> {
        self.counts.iter().map(|(name, count)| (name.as_str(), *count))
    }

    /// The required counters that are still zero.
    pub fn missing(&self) -> Vec<&str> {
        self.counts
            .iter()
            .filter(|(_, count)| **count == 0)
            .map(|(name, _)| name.as_str())
            .collect()
    }

    /// Counts one served request.
    pub fn follow(&mut self, followed: &Followed) {
        let served = &followed.served;
        let result = served.result().unwrap_or_default();
        match (result, served.kind) {
            (20, _) => {}
            (0, kind) => self.count(format!("kind {kind} done")),
            (65, kind) => self.count(format!("kind {kind} with nothing to do")),
            _ => self.count(format!("result {result}")),
        }
        if followed.replaced {
            self.count(["a value overwritten", "a value deleted"][usize::from(served.kind == 2)]);
        }
        if (served.kind, result) == (4, 0) {
            self.follow_scan(served.reply);
        }
        if (served.kind, result) == (1, 0) {
            match served.body[..8] {
                [0, 0, 0, 0, 0, 0, 0, 0] => self.count("key 0 put"),
                [255, 255, 255, 255, 255, 255, 255, 255] => self.count("key 2^64 - 1 put"),
                _ => {}
            }
            match served.body.len() - 8 {
                VALUE_BYTES => self.count("longest value put"),
                length if length > OLD_VALUE_BYTES => self.count("value put beyond the old limit"),
                _ => {}
            }
        }
        if (served.kind, result, served.body.len()) == (1, 17, 8 + VALUE_BYTES + 1) {
            self.count("put one byte too long");
        }
        if let Some(deed) = followed.deed {
            self.follow_deed(deed);
        }
        followed.met.iter().for_each(|name| self.count(*name));
    }

    fn follow_scan(&mut self, reply: &[u8]) {
        if reply.len() == REPLY_BYTES {
            self.count("longest reply");
        }
        match (reply[6], reply[8]) {
            (16, 1) => self.count("scan of 16 with more"),
            (16, _) => self.count("scan of exactly 16"),
            _ => {}
        }
    }

    fn follow_deed(&mut self, deed: Deed) {
        let stuck = self.flush_stuck;
        // A write to the memory or an idle request changes no table.
        let unchanged = matches!(deed, Deed::Written | Deed::WriteRefused | Deed::Idle);
        self.flush_stuck = stuck && unchanged;
        match deed {
            Deed::Written | Deed::WriteRefused | Deed::Idle | Deed::Flushed => {}
            Deed::FlushRefused => {
                self.flush_stuck = true;
                self.count("20 by a flush");
            }
            Deed::Moved { from } => self.count(format!("moved from {from}")),
            Deed::Linked { from, links } => {
                self.count(format!("linked from {from}"));
                if links > 1 {
                    self.count("links on several tables");
                }
            }
            Deed::Merged { on, due, tables, marks } => {
                self.count(format!("{} on {on}", merge_name(due)));
                if let Some(trigger) = due {
                    self.count(trigger_name(trigger));
                }
                self.follow_results(on, tables, marks);
            }
            Deed::MergeRefused { on, due, marks } => {
                self.flush_stuck = stuck;
                self.count(format!("20 by a {}", merge_name(due)));
                if marks.dropped > 0 {
                    self.count(format!("20 although delete marks go on {on}"));
                }
                if stuck {
                    self.count(STUCK);
                }
            }
        }
    }

    /// Counts what came out of a merge, and what became of its delete marks.
    fn follow_results(&mut self, on: usize, tables: usize, marks: Marks) {
        match tables {
            0 => self.count(format!("merge without results on {on}")),
            1 => {}
            _ => self.count("merge into several tables"),
        }
        self.count_times(format!("delete marks dropped on {on}"), marks.dropped);
        self.count_times(format!("delete marks kept on {on}"), marks.kept);
        if marks.made_room {
            self.count(format!("no 20 since delete marks go on {on}"));
        }
    }
}

fn merge_name(due: Option<Trigger>) -> &'static str {
    match due {
        Some(_) => "due merge",
        None => "merge in place of a choice",
    }
}

fn trigger_name(trigger: Trigger) -> &'static str {
    match trigger {
        Trigger::Count => "due by count alone",
        Trigger::Weight => "due by weight alone",
        Trigger::Both => "due by count and weight",
    }
}

/// Everything that the served requests of a whole test run must have reached.
pub fn required_of_requests() -> Vec<String> {
    let mut names: Vec<String> = [
        "result 16",
        "result 17",
        "result 18",
        "result 19",
        "result 64",
        "kind 5 with nothing to do",
        "kind 6 with nothing to do",
        "20 by a flush",
        "20 by a due merge",
        "20 by a merge in place of a choice",
        STUCK,
        "a value overwritten",
        "a value deleted",
        "key 0 put",
        "key 2^64 - 1 put",
        "scan of 16 with more",
        "scan of exactly 16",
        "longest value put",
        "value put beyond the old limit",
        "put one byte too long",
        "longest reply",
        "links on several tables",
        "merge into several tables",
        "merge in place of a choice on 1",
        "merge in place of a choice on 2",
    ]
    .map(String::from)
    .to_vec();
    names.extend(
        (0..3).flat_map(|level| [format!("moved from {level}"), format!("linked from {level}")]),
    );
    names.extend((1..4).map(|level| format!("due merge on {level}")));
    names.extend((1..4).flat_map(required_of_marks_on));
    let triggers = [Trigger::Count, Trigger::Weight, Trigger::Both];
    names.extend(triggers.map(|trigger| trigger_name(trigger).into()));
    names.extend(met::all().map(String::from));
    names.extend((1..9).map(|kind| format!("kind {kind} done")));
    names
}

/// What merges with delete marks on a level must have reached. On level 3 every one goes.
pub fn required_of_marks_on(level: usize) -> Vec<String> {
    let all = [
        "merge without results on",
        "delete marks dropped on",
        "no 20 since delete marks go on",
        "20 although delete marks go on",
        "delete marks kept on",
    ];
    let possible = if level < 3 { all.len() } else { all.len() - 1 };
    all[..possible].iter().map(|name| format!("{name} {level}")).collect()
}

impl fmt::Display for Reached {
    fn fmt(&self, out: &mut fmt::Formatter) -> fmt::Result {
        for (name, count) in &self.counts {
            writeln!(out, "{count:>10}  {name}")?;
        }
        Ok(())
    }
}
