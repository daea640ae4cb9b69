//! The command line and the tables.

use bench::checks::CheckTimes;
use bench::clock::timed;
use bench::engines::KINDS;
use bench::kept::{KeptTimes, WayTimes};
use bench::options::{Options, SIZES};
use bench::places::Written;
use bench::report::{against_before, by_threshold, checks, figures, grouped, kept, written};
use bench::rounds::Measure;
use std::hint::black_box;
use std::thread::sleep;
use std::time::Duration;

fn options(words: &str) -> Result<Options, String> {
    let words: Vec<String> = words.split_whitespace().map(str::to_string).collect();
    Options::of(&words)
}

#[test]
fn options_are_read() {
    let all = options("").unwrap();
    assert_eq!(
        (all.seed, all.rounds, all.sizes, all.only.len()),
        (1, 7, SIZES.to_vec(), KINDS.len())
    );
    assert!(all.check && all.kept && all.written && all.by_threshold && all.mixed && all.cases);
    assert_eq!((all.now, all.before), (None, None));
    assert_eq!(all.measures, Measure::ALL);
    assert_eq!(all.thresholds, [1, 4, 8]);
    let quick = options("--quick --seed=5").unwrap();
    assert_eq!((quick.seed, quick.rounds, quick.sizes), (5, 3, vec![SIZES[1]]));
    let one =
        options("--only lmdb,zilgwern --measure scan,check --places 4096 --rounds 2").unwrap();
    assert_eq!(
        (one.only, one.measures),
        (vec!["lmdb".into(), "zilgwern".into()], vec![Measure::Scan])
    );
    assert_eq!((one.check, one.written, one.sizes, one.rounds), (true, false, vec![SIZES[0]], 2));
    assert!(!one.by_threshold && !one.kept && !one.mixed && !one.cases);
    let kept = options("--measure kept").unwrap();
    assert!(kept.kept && !kept.check && kept.measures.is_empty());
    let beside = options("--measure mixed,cases --now one.so --before=two.so").unwrap();
    assert!(beside.mixed && beside.cases && !beside.check && beside.measures.is_empty());
    assert_eq!((beside.now, beside.before), (Some("one.so".into()), Some("two.so".into())));
    let counted = options("--measure threshold --thresholds 8,2").unwrap();
    assert_eq!((counted.by_threshold, counted.check, counted.written), (true, false, false));
    assert_eq!((counted.thresholds, counted.measures), (vec![8, 2], vec![]));
}

#[test]
fn wrong_words_are_named() {
    for (words, named) in [
        ("--fast", "--fast"),
        ("--seed", "--seed"),
        ("--seed x", "x"),
        ("--before", "--before"),
        ("--places 100", "100"),
        ("--only lmdb,rocks", "rocks"),
        ("--measure get", "get"),
        ("--thresholds 1,9", "9"),
        ("--thresholds 0", "0"),
        ("--thresholds 1,,8", "whole number"),
    ] {
        let error = options(words).unwrap_err();
        assert!(error.contains(named), "{words}: {error}");
    }
}

#[test]
fn numbers_have_three_figures() {
    let told = [0.01234, 0.9996, 1.234, 9.996, 12.34, 99.96, 1234.0].map(figures);
    assert_eq!(told, ["0.012", "1.00", "1.23", "10.0", "12.3", "100", "1234"]);
    assert_eq!(
        [7, 999, 1000, 4096, 1234567].map(grouped),
        ["7", "999", "1,000", "4,096", "1,234,567"]
    );
}

#[test]
fn checks_have_a_column_for_an_earlier_store_where_there_is_one() {
    let one = CheckTimes {
        places: 1024,
        tables: 680,
        links: 1360,
        proved: 102.4,
        before: None,
        second: Some(256.0),
    };
    let lines = |table: String| table.lines().map(str::to_string).collect::<Vec<_>>();
    let table = lines(checks(&[CheckTimes { second: one.second, ..one }]));
    assert_eq!(table[1], "|---|---|---|---|---|---|");
    assert_eq!(table[2], "| 1,024 | 680 | 1,360 | 102 | 100 | 256 (2.50) |");
    let table = lines(checks(&[CheckTimes { before: Some(204.8), ..one }]));
    assert_eq!(table[1], "|---|---|---|---|---|---|---|");
    assert_eq!(table[2], "| 1,024 | 680 | 1,360 | 102 | 100 | 205 (2.00) | 256 (2.50) |");
}

#[test]
fn the_aim_of_the_check_is_told() {
    let check = |places, proved| CheckTimes {
        places,
        tables: 0,
        links: 0,
        proved,
        before: Some(100.0),
        second: None,
    };
    for (proved, cell) in [(50.0, "0.500 yes"), (60.0, "0.600 no")] {
        let table = against_before(&[4096, 256], &[], &[check(256, 10.0), check(4096, proved)]);
        let table = table.unwrap();
        let lines: Vec<&str> = table.lines().collect();
        assert_eq!(lines.len(), 3, "{table}");
        assert!(lines[0].ends_with(" | at most | P = 4,096 | P = 256 |"), "{}", lines[0]);
        assert_eq!(lines[2], format!("| check of 4,096 full places | 0.50 | {cell} |  |"));
    }
    assert_eq!(against_before(&[256], &[], &[check(256, 10.0)]), None);
}

#[test]
fn a_table_is_markdown() {
    let counted = Written { puts: 32, flushes: 2, tidies: 3, places: 8, most: 5 };
    let table = written(&[("uniform".into(), "lower".into(), counted)]);
    let lines: Vec<&str> = table.lines().collect();
    assert_eq!(lines[1], "|---|---|---|---|---|---|");
    assert_eq!(lines[2], "| uniform | lower | 0.250 | 4.00 | 5 | 1.50 |");
    let way = |title, bytes, save, open| WayTimes { title, bytes, save, open };
    let ways = vec![way("book", 1234, 10.0, 20.0), way("other", 99, 15.0, 5.0)];
    let table = kept(&KeptTimes { places: 4096, ways });
    let lines: Vec<&str> = table.lines().collect();
    assert_eq!(lines[0], "| 4,096 full places kept | bytes | save (us) | open (us) |");
    assert_eq!(lines[2], "| book | 1,234 | 10.0 | 20.0 |");
    assert_eq!(lines[3], "| other | 99 | 15.0 (1.50) | 5.00 (0.250) |");
    let other = Written { places: 4, tidies: 1, most: 3, ..counted };
    let table = by_threshold(&[1, 8], &[("skewed".into(), vec![counted, other])]);
    let lines: Vec<&str> = table.lines().collect();
    let titles: Vec<&str> = lines[0].trim_end_matches(" |").split(" | ").skip(1).collect();
    let each = |what: &str| [1, 8].map(|threshold| format!("{what}, T = {threshold}"));
    let columns = ["places written for each put", "most by one step", "steps for each flush"];
    assert_eq!(titles, columns.map(each).concat());
    assert_eq!(lines[1], "|---|---|---|---|---|---|---|");
    assert_eq!(lines[2], "| skewed | 0.250 | 0.125 | 5 | 3 | 1.50 | 0.50 |");
}

#[test]
fn the_clock_counts_work_and_not_waiting() {
    let waiting = timed(|| sleep(Duration::from_millis(300)));
    let mut sum = 0u64;
    let working = timed(|| (0..20_000_000).for_each(|number| sum = black_box(sum ^ number)));
    assert!(working > waiting, "{working} us of work, {waiting} us of sleep");
}
