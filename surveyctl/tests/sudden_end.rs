//! A kill at any moment, as when a van loses power: each command is ended before each of its system calls in turn, and in the middle of
//! each write to a file. It leaves the old files or the new ones, and the next call removes what it left beside them.

mod common;

use common::stopped::{self, Call, Stop, Traced};
use common::{second_form, Came, Folder};
use std::fs::File;
use std::os::unix::fs::symlink;
use zilgwern::{Memory, Store};

/// A command that is tried, and what is known of it.
struct Tried<'a> {
    folder: Folder,
    words: &'a [&'a str],
    /// The files before it, and those that it writes.
    before: Vec<(String, Vec<u8>)>,
    after: Vec<(String, Vec<u8>)>,
    /// What it prints when it is done.
    told: String,
}

/// All files of a folder.
fn files(folder: &Folder) -> Vec<(String, Vec<u8>)> {
    folder.names().into_iter().map(|name| (name.clone(), folder.read(&name))).collect()
}

/// Whether this is a file that surveyctl writes beside another.
fn is_beside(name: &str) -> bool {
    name.split_once(".new-").is_some_and(|(_, number)| number.parse::<u32>().is_ok())
}

impl Tried<'_> {
    /// Lets the command run to its end once, to know what comes of it.
    fn new<'a>(folder: Folder, words: &'a [&'a str]) -> (Tried<'a>, Vec<Call>) {
        let before = files(&folder);
        let Traced { out, calls, ended } = folder.traced(words, Stop::Never);
        assert!(ended && !out.is_empty(), "{words:?}");
        let after = files(&folder);
        assert!(before != after && !after.iter().any(|(name, _)| is_beside(name)), "{words:?}");
        (Tried { folder, words, before, after, told: out }, calls)
    }

    fn put_back(&self) {
        for name in self.folder.names() {
            std::fs::remove_file(self.folder.path(&name)).unwrap();
        }
        self.before.iter().for_each(|(name, bytes)| self.folder.write(name, bytes));
    }

    /// Ends the command at this stop: the files that were left beside the others. Each of the others must be there as it was or as
    /// it is to be, and all of them if the command was told as done.
    fn stop(&self, stop: Stop) -> Vec<String> {
        self.put_back();
        let Traced { out, ended, .. } = self.folder.traced(self.words, stop);
        assert!(!ended, "{stop:?}");
        let (beside, others): (Vec<_>, Vec<_>) =
            files(&self.folder).into_iter().partition(|(name, _)| is_beside(name));
        let known = |file| self.before.contains(file) || self.after.contains(file);
        assert!(others.iter().all(known), "{:?}, {stop:?}: a file is neither", self.words);
        let there = |(name, _): &(String, Vec<u8>)| others.iter().any(|(other, _)| name == other);
        assert!(self.before.iter().all(there), "{:?}, {stop:?}: a file is gone", self.words);
        if out == self.told {
            assert!(others == self.after, "{:?}, {stop:?}: told as done", self.words);
        }
        assert!(beside.len() <= 1, "{beside:?}");
        beside.into_iter().map(|(name, _)| name).collect()
    }

    /// Ends the command everywhere; after each end this is called, and then nothing may lie beside. Gives how often something did.
    fn stop_everywhere(&self, calls: &[Call], after: impl Fn(&Folder)) -> usize {
        let halves = (0..calls.len()).filter(|at| calls[*at].writes_file()).map(Stop::AtHalf);
        let mut left = 0;
        for stop in (0..calls.len()).map(Stop::Before).chain(halves) {
            left += self.stop(stop).len();
            after(&self.folder);
            let names = self.folder.names();
            assert!(!names.iter().any(|name| is_beside(name)), "{:?}: {names:?}", self.words);
        }
        left
    }
}

/// Where these calls are, in this order: the last write to a file, its sync, its new name, and the sync of the folder. What is not in
/// this order a loss of power can undo, though a kill can't.
fn is_in_order(calls: &[Call], renames: u64) {
    let written = calls.iter().rposition(|call| call.writes_file()).expect("a write");
    let file = calls[written].first;
    let synced = Call { number: stopped::FSYNC, first: file };
    let synced = calls.iter().position(|call| *call == synced).expect("a sync of the file");
    let named = calls.iter().position(|call| call.number == renames).expect("a new name");
    let last = calls.iter().rposition(|call| call.number == stopped::FSYNC).expect("a sync");
    assert!(written < synced && synced < named && named < last, "{calls:?}");
}

/// A folder with a store of 16 places in a file: a table, and a value in memory.
fn with_store(name: &str) -> Folder {
    let folder = Folder::new(name);
    folder.done(&["-s", "s", "--places", "16", "new"]);
    folder.call_with(&["-s", "s", "script"], b"put 4 table\nflush\nput 5 before\n");
    folder
}

/// The store can be used, and holds what it held before or after `put 5 after`.
fn is_either(folder: &Folder) {
    let Came { status, out, .. } = folder.call(&["-s", "s", "get", "5"]);
    assert!(status == 0 && ["before\n", "after\n"].contains(&out.as_str()), "{status} {out}");
}

#[test]
fn a_put_that_is_ended_anywhere_leaves_the_old_store_or_the_new_one() {
    let (tried, calls) = Tried::new(with_store("ended_put"), &["-s", "s", "put", "5", "after"]);
    is_in_order(&calls, stopped::RENAME);
    // The permissions are on the disk with the bytes.
    assert!(first(&calls, stopped::FCHMOD) < first(&calls, stopped::FSYNC));
    assert!(first(&calls, stopped::OPENAT) < first(&calls, stopped::FLOCK));
    let left = tried.stop_everywhere(&calls, is_either);
    assert!(
        left >= 5,
        "{left} files were left: after the file is made, locked, written, synced and more"
    );
}

/// The next change of a file of the older form writes the new one.
#[test]
fn a_put_to_an_older_file_that_is_ended_anywhere_leaves_one_of_them() {
    let folder = Folder::new("ended_older");
    let mut store = Store::owned(16, 4).unwrap();
    store.put(5, b"before").unwrap();
    folder.write("s", second_form(&store.memory()));
    let (tried, calls) = Tried::new(folder, &["-s", "s", "put", "5", "after"]);
    assert_eq!(tried.before[0].1.len(), Memory::form_2_byte_count(16));
    assert!(tried.after[0].1.starts_with(b"ZILGWERN"));
    assert!(tried.stop_everywhere(&calls, is_either) >= 5);
}

#[test]
fn a_store_that_grows_and_is_ended_anywhere_has_the_old_places_or_the_new_ones() {
    let words = ["-s", "s", "grow", "--places", "20"];
    let (tried, calls) = Tried::new(with_store("ended_grow"), &words);
    is_in_order(&calls, stopped::RENAME);
    let left = tried.stop_everywhere(&calls, |folder| {
        assert_eq!(folder.done(&["-s", "s", "scan"]), "4  table\n5  before\n");
    });
    assert!(left >= 5, "{left}");
}

/// A store that is made is there whole or not at all.
#[test]
fn a_store_that_is_made_and_ended_anywhere_is_there_or_not() {
    let new = ["-s", "t", "--places", "16", "new"];
    let open = ["-s", "t", "open", "--book", "b", "--area", "a"];
    let folder = with_store("ended_open");
    folder.done(&["-s", "s", "save", "--book", "b", "--area", "a"]);
    for (folder, words) in [(Folder::new("ended_new"), &new[..]), (folder, &open)] {
        let (tried, calls) = Tried::new(folder, words);
        is_in_order(&calls, stopped::LINKAT);
        let left = tried.stop_everywhere(&calls, |folder| match folder.path("t").exists() {
            true => assert_eq!(folder.done(&["-s", "t", "check"]), "sound\n"),
            false => assert_eq!(folder.done(words), tried.told),
        });
        assert!(left >= 5, "{left}");
    }
}

/// Book and area that are saved are never of two moments: where the book is, the area is, and neither is ever replaced.
#[test]
fn a_saving_that_is_ended_anywhere_leaves_no_book_without_its_area() {
    let words = ["-s", "s", "save", "--book", "b", "--area", "a"];
    let (tried, calls) = Tried::new(with_store("ended_save"), &words);
    let alone = std::cell::Cell::new(0);
    let left = tried.stop_everywhere(&calls, |folder| {
        let names = folder.names();
        let there = |name: &str| names.iter().any(|other| other == name);
        assert!(there("a") || !there("b"), "{names:?}");
        if there("a") && !there("b") {
            alone.set(alone.get() + 1);
            assert_eq!(folder.call(&words).status, 4);
            std::fs::remove_file(folder.path("a")).unwrap();
        }
        let again = folder.call(&words);
        assert_eq!(again.status, if there("b") { 4 } else { 0 }, "{}", again.err);
        assert!(files(folder) == tried.after);
    });
    assert!(left >= 10 && alone.get() >= 5, "{left} {}", alone.get());
    assert!(calls.iter().any(|call| call.number == stopped::UNLINK));
}

/// Files as a sudden end leaves them, here those of 27 programs, are removed by the next call, whatever it asks for.
#[test]
fn what_was_left_beside_a_store_is_removed_by_the_next_call() {
    let folder = with_store("left");
    let whole = folder.read("s");
    let calls: [&[&str]; 3] =
        [&["-s", "s", "get", "5"], &["-s", "s", "put", "5", "again"], &["-s", "link", "check"]];
    symlink("s", folder.path("link")).unwrap();
    for words in calls {
        for (number, length) in (100..127).zip((0..=whole.len()).step_by(whole.len() / 26)) {
            folder.write(&format!("s.new-{number}"), &whole[..length]);
        }
        assert_eq!(folder.names().len(), 29);
        folder.done(words);
        assert_eq!(folder.names(), ["link", "s"], "{words:?}");
    }
}

/// A file that a living program writes is locked, and other names are not surveyctl's.
#[test]
fn what_is_not_left_is_not_removed() {
    let folder = with_store("not_left");
    let others = [
        "s.new-",
        "s.new-x",
        "s.new-012",
        "s.new-5.old",
        "s.new-12345678901",
        "t.new-5",
        "s.old-5",
    ];
    others.iter().for_each(|name| folder.write(name, "other"));
    std::fs::create_dir(folder.path("s.new-6")).unwrap();
    symlink("t.new-5", folder.path("s.new-7")).unwrap();
    folder.write("s.new-8", "half");
    let before = folder.names();
    let held = File::open(folder.path("s.new-8")).unwrap();
    held.lock().unwrap();
    folder.done(&["-s", "s", "put", "5", "after"]);
    assert_eq!(folder.names(), before);
    held.unlock().unwrap();
    folder.done(&["-s", "s", "get", "5"]);
    let rest: Vec<String> = before.into_iter().filter(|name| name != "s.new-8").collect();
    assert_eq!(folder.names(), rest);
}

/// Where a call with this number comes first.
fn first(calls: &[Call], number: u64) -> usize {
    calls.iter().position(|call| call.number == number).expect("such a call")
}

#[test]
fn a_file_that_is_being_written_is_left_to_its_program() {
    let (tried, calls) = Tried::new(with_store("writing"), &["-s", "s", "put", "5", "after"]);
    for call in first(&calls, stopped::FSYNC)..first(&calls, stopped::RENAME) + 1 {
        tried.put_back();
        let Traced { out, .. } = tried.folder.paused(tried.words, call, || {
            assert_eq!(tried.folder.done(&["-s", "s", "get", "5"]), "before\n");
            assert_eq!(tried.folder.names().len(), 2, "the new file is still there");
        });
        assert_eq!(out, "done\n");
        assert!(files(&tried.folder) == tried.after);
    }
}

/// A file that comes to a name while another is written for it is not replaced.
#[test]
fn a_file_that_another_program_makes_meanwhile_stays() {
    let (tried, calls) = Tried::new(Folder::new("meanwhile"), &["-s", "t", "new"]);
    tried.put_back();
    let Traced { out, .. } =
        tried.folder.paused(tried.words, first(&calls, stopped::LINKAT), || {
            tried.folder.write("t", "other");
        });
    assert_eq!((out.as_str(), tried.folder.names()), ("", vec!["t".to_string()]));
    assert_eq!(tried.folder.read("t"), b"other");
}
