//! The file that keeps a store: what happens when it can't be written, when a program ends while it writes, and when several
//! programs want to.

mod common;

use common::{Came, Folder};
use std::os::unix::fs::{symlink, PermissionsExt};

/// A folder with a store of 16 places in a file, and one value in it.
fn with_store(name: &str) -> Folder {
    let folder = Folder::new(name);
    folder.done(&["--store", "s", "--places", "16", "new"]);
    folder.done(&["--store", "s", "put", "5", "before"]);
    folder
}

/// Files may grow to 8 blocks: too few for the store. A write beyond is an error, as on a full disk.
const FULL: &str = "trap '' XFSZ; ulimit -f 8";

#[test]
fn a_full_disk_leaves_the_store_and_nothing_else() {
    let folder = with_store("full_disk");
    let before = folder.read("s");
    let calls = [
        "surveyctl -s s put 5 after",
        "echo put 5 after | surveyctl -s s prompt",
        "echo put 5 after | surveyctl -s s script > out",
    ];
    for call in calls {
        let came = folder.shell(&format!("{FULL}; {call}; echo status $?"));
        let told = "surveyctl: s: the new file beside it can't be written: File too large";
        assert!(came.contains(told), "{call}: {came}");
        assert!(came.ends_with("status 4\n"), "{call}: {came}");
        // What is not kept is not told as done.
        assert!(!came.contains("done"), "{call}: {came}");
        assert!(folder.read("s") == before, "{call}");
    }
    let came = folder.shell(&format!("{FULL}; surveyctl -s t new; echo status $?"));
    assert!(came.ends_with("status 4\n"), "{came}");
    assert_eq!(folder.names(), ["out", "s"]);
}

#[test]
fn a_program_that_ends_while_it_writes_leaves_the_store() {
    let folder = with_store("sudden_end");
    let before = folder.read("s");
    // Without the trap the same write ends the program at once, in the middle of the file.
    let came = folder.shell("ulimit -c 0; ulimit -f 8; surveyctl -s s put 5 after; echo status $?");
    // Who started the tests may have told all of them to ignore that signal; then it is a full disk once more.
    let ended = !came.contains("status 4\n");
    assert_eq!(folder.names().len() > 1, ended, "{came}");
    assert!(folder.read("s") == before);
    assert_eq!(folder.done(&["-s", "s", "get", "5"]), "before\n");
    assert_eq!(folder.done(&["-s", "s", "put", "5", "after"]), "done\n");
    assert_eq!(folder.done(&["-s", "s", "get", "5"]), "after\n");
}

#[test]
fn links_and_permissions_stay() {
    let folder = with_store("permissions");
    let mode = |name: &str| std::fs::metadata(folder.path(name)).unwrap().permissions().mode();
    std::fs::set_permissions(folder.path("s"), PermissionsExt::from_mode(0o640)).unwrap();
    symlink("s", folder.path("link")).unwrap();
    assert_eq!(folder.done(&["-s", "link", "put", "5", "after"]), "done\n");
    assert!(folder.path("link").is_symlink());
    assert_eq!(folder.done(&["-s", "s", "get", "5"]), "after\n");
    assert_eq!(mode("s") & 0o777, 0o640);
    assert_eq!(folder.names(), ["link", "s"]);
}

#[test]
fn a_file_or_folder_that_may_not_be_written_is_left_alone() {
    let folder = with_store("read_only");
    let before = folder.read("s");
    std::fs::set_permissions(folder.path("s"), PermissionsExt::from_mode(0o444)).unwrap();
    let Came { status, out, err } = folder.call(&["-s", "s", "put", "5", "after"]);
    assert_eq!((status, out.as_str()), (4, ""), "{err}");
    assert!(err.contains("s: is read-only"), "{err}");
    assert_eq!(folder.done(&["-s", "s", "get", "5"]), "before\n");
    // No file can be made beside this one, whoever asks.
    let Came { status, out, err } = folder.call(&["-s", "/proc/self/new", "new"]);
    assert_eq!((status, out.as_str()), (4, ""), "{err}");
    assert!(folder.read("s") == before);
    assert_eq!(folder.names(), ["s"]);
}

#[test]
fn nothing_else_is_written_over_the_store_or_the_list() {
    let folder = with_store("spared");
    folder.shell("echo put 6 v | surveyctl encode > list; ln -s s link; ln s other");
    let before = (folder.read("s"), folder.read("list"));
    let calls: [&[&str]; 5] = [
        &["-s", "s", "show", "--svg", "s"],
        &["-s", "s", "show", "--svg", "./link"],
        &["-s", "link", "replay", "--answers", "s", "list"],
        &["-s", "s", "replay", "--answers", "other", "list"],
        &["-s", "s", "replay", "--answers", "list", "list"],
    ];
    for words in calls {
        let Came { status, out, err } = folder.call(words);
        assert_eq!((status, out.as_str()), (2, ""), "{words:?}: {err}");
        assert!(err.contains("name another"), "{err}");
        assert!((folder.read("s"), folder.read("list")) == before, "{words:?}");
    }
}

/// Of programs that put at the same time each says `done` and has it kept, or says that it has not.
#[test]
fn programs_at_the_same_time_lose_nothing_that_is_told_as_done() {
    let folder = with_store("together");
    let mut told = 0;
    for round in 0..8 {
        let keys: Vec<String> = (0..4).map(|key| (10 + 4 * round + key).to_string()).collect();
        let calls: Vec<Came> = std::thread::scope(|scope| {
            let mut started = Vec::new();
            for key in &keys {
                let folder = &folder;
                started.push(scope.spawn(move || folder.call(&["-s", "s", "put", key, "v"])));
            }
            started.into_iter().map(|call| call.join().unwrap()).collect()
        });
        for (key, Came { status, out, err }) in keys.iter().zip(calls) {
            let kept = folder.call(&["-s", "s", "get", key]).status == 0;
            match status {
                0 => assert!(kept && out == "done\n", "{key}: told as done and lost"),
                _ => assert!(!kept && err.contains("by another program"), "{key}: {err}"),
            }
            told += u32::from(status == 0);
        }
        folder.done(&["-s", "s", "flush"]);
    }
    assert!(told >= 8);
}

#[test]
fn a_device_without_end_is_no_store() {
    let folder = Folder::new("endless");
    let Came { status, err, .. } = folder.call(&["-s", "/dev/zero", "check"]);
    assert_eq!(status, 3, "{err}");
    let words: Vec<&str> = err.split_whitespace().collect();
    assert!(
        words.join(" ").contains("This one has more than 5342296 bytes and is neither."),
        "{err}"
    );
}
