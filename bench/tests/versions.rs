//! Two libraries in the same rounds, here one file twice: both give the right answers and leave the same bytes, and each has its place
//! in the tables. An earlier library may have shorter rows. A file that is not there or is no store is refused.

use bench::cases::{Case, CaseTimes, CASES, LEFT};
use bench::checks::check_times;
use bench::engine::{Engine, PUTS};
use bench::engines::{Kind, Versions};
use bench::lists::Listed;
use bench::proved::Proved;
use bench::report;
use bench::rounds::{Measure, Plan};
use reference::generate::full::full;
use reference::generate::random::Random;
use std::path::{Path, PathBuf};
use std::process::{Command, Output};

/// The library that the tests are linked with.
fn archive() -> PathBuf {
    let chosen = std::env::var_os("ZILGWERN_STATICLIB").filter(|folder| !folder.is_empty());
    let folder = chosen.map_or(Path::new("../target/staticlib").to_path_buf(), PathBuf::from);
    Path::new(env!("CARGO_MANIFEST_DIR")).join(folder).join("libstore.a")
}

fn shared(archive: &Path, object: &Path) -> Output {
    let script = Path::new(env!("CARGO_MANIFEST_DIR")).join("shared");
    Command::new(script).args([archive, object]).output().expect("bench/shared")
}

/// Where a test may write.
fn scratch(name: &str) -> PathBuf {
    Path::new(env!("CARGO_TARGET_TMPDIR")).join(name)
}

/// The library twice, under two names, since a file is opened once alone.
fn versions(test: &str) -> Versions {
    let [now, before] = ["now", "before"].map(|name| {
        let object = scratch(&format!("{test}-{name}.so"));
        let linked = shared(&archive(), &object);
        assert!(linked.status.success(), "{}", String::from_utf8_lossy(&linked.stderr));
        object.to_str().expect("a path in words").to_string()
    });
    Versions::open(&now, &before).unwrap()
}

/// One round of a case, with whole answers compared.
fn times<'a>(case: Case, kinds: &'a [&'a Kind]) -> CaseTimes<'a> {
    let case = Case { look_ups: 300, scans: 100, ..case };
    let workload = case.workload(1);
    let plan = Plan {
        setup: case.setup,
        workload: &workload,
        kinds,
        measures: &Measure::ALL,
        rounds: 1,
        repeats: 1,
        plain: false,
    };
    CaseTimes { case, kinds, times: plan.run(&mut |_| {}).unwrap() }
}

#[test]
fn one_library_twice_agrees_in_every_case() {
    let kinds = versions("cases").kinds();
    let kinds: Vec<&Kind> = kinds.iter().collect();
    let small = CASES.into_iter().filter(|case| case.setup.places <= 256);
    let all: Vec<CaseTimes> = small.map(|case| times(case, &kinds)).collect();
    let table = report::cases(&all);
    assert_eq!(table.lines().count(), 2 + 2 * (CASES.len() - 1), "{table}");
    let before = table.lines().filter(|line| line.contains("| proved store before |"));
    assert!(before.clone().all(|line| line.matches(" (").count() == 4), "{table}");
    assert_eq!(before.count(), CASES.len() - 1, "{table}");
    assert!(table.contains("| P = 32, T = 4, 150 keys, 225 puts | proved store | "), "{table}");
    let against = report::against_before(&[256, 32], &all, &[]).unwrap();
    assert_eq!(against.lines().count(), 2 + Measure::ALL.len(), "{against}");
}

#[test]
fn one_library_twice_leaves_the_same_bytes() {
    let Versions { now, before } = versions("bytes");
    for case in CASES.into_iter().filter(|case| case.setup.places <= 256) {
        let workload = case.workload(2);
        let mut stores = [
            Listed::set_up(Proved, case.setup),
            Listed::set_up(now, case.setup),
            Listed::set_up(before, case.setup),
        ];
        for store in &mut stores {
            workload.puts.chunks(PUTS).for_each(|batch| store.put(batch));
            store.settle();
        }
        for store in &stores[1..] {
            assert_eq!(store.lent().difference(stores[0].lent()), None);
        }
        let left = case.setup.tidies.is_none();
        assert_eq!(stores[0].live() == [LEFT, 0, 0, 0], left, "{}", report::title(&case));
    }
}

#[test]
fn both_are_checked() {
    let both = check_times(1, 32, 2, Some(versions("checks")), true);
    assert!(both.proved > 0.0 && both.before.is_some_and(|time| time > 0.0));
    assert!(both.second.is_some());
    let alone = check_times(1, 32, 2, None, false);
    assert_eq!((alone.before, alone.second), (None, None));
    assert_eq!((alone.tables, alone.links), (both.tables, both.links));
}

/// A library whose cards have so many words, by a C compiler.
fn of_row_words(words: usize) -> String {
    let source = Path::new(env!("CARGO_MANIFEST_DIR")).join("tests/rows.c");
    let object = scratch(&format!("rows-{words}.so"));
    let mut compiler = Command::new("cc");
    compiler.args(["-shared", "-fPIC", "-O1", &format!("-DROW_WORDS={words}"), "-o"]);
    assert!(compiler.arg(&object).arg(source).status().expect("cc").success());
    object.to_str().expect("a path in words").to_string()
}

/// Before cards had summaries they had 34 words. Such a library finds them where it looks for them, and one of 26 words, from before
/// links had numbers, is refused.
#[test]
fn an_earlier_library_gets_its_own_rows() {
    let lent = full(&mut Random::new(5), 64).encode();
    let sum = |row_words: usize| {
        let words = lent.cards.iter().flat_map(|row| &row[..row_words]);
        words.fold(0u64, |sum, word| sum.wrapping_mul(31).wrapping_add(*word))
    };
    let Versions { now, before } = Versions::open(&of_row_words(38), &of_row_words(34)).unwrap();
    for (store, row_words) in [(now, 38), (before, 34)] {
        assert_eq!(store.check(&mut store.laid_out(&lent)), (5, sum(row_words)));
    }
    assert_eq!(now.laid_out(&lent), lent);
    assert_ne!(before.laid_out(&lent), lent);
    for words in [26, 39] {
        let refused = Versions::open(&of_row_words(38), &of_row_words(words)).err().unwrap();
        assert!(
            refused.ends_with(&format!("has cards of {words} words; those of [38, 34] are known"))
        );
    }
}

#[test]
fn a_file_that_is_no_store_is_refused() {
    let missing = Versions::open("no-such-store.so", "no-such-store.so").err().unwrap();
    assert!(missing.contains("no-such-store.so"), "{missing}");
    // The C library is there, and has other functions.
    let other = Versions::open("libc.so.6", "libc.so.6").err().unwrap();
    assert_eq!(other, "libc.so.6 has no function zilgwern_make");
    for (archive, named) in
        [(scratch("no-such-store.a"), "no such file"), (text(), "can be linked")]
    {
        let refused = shared(&archive, &scratch("refused.so"));
        let words = String::from_utf8_lossy(&refused.stderr);
        assert_eq!(refused.status.code(), Some(2), "{words}");
        assert!(words.contains(archive.to_str().unwrap()) && words.contains(named), "{words}");
    }
}

/// A file that is no library at all.
fn text() -> PathBuf {
    let path = scratch("words.a");
    std::fs::write(&path, "no library").expect("a file of the tests");
    path
}
