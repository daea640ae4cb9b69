//! The program: stops and the rest of the list, refused lists, and the files of lists and answers.

use crate::build::new_lent;
use crate::common::announce;
use reference::generate::requests::{flush, put, scan};
use reference::generate::vectors::vectors;
use reference::lent::Lent;
use reference::limits::{LIST_BYTES, REPLY_BYTES, VALUE_BYTES};
use reference::program::survey;
use reference::request::split;
use reference::run::run;
use std::io::Write;
use std::process::{Command, Stdio};

/// What the program writes, worked out with another room for answers.
fn survey_with_room(input: &[u8], room: usize) -> (Vec<u8>, usize) {
    let mut lent: Lent = new_lent(32, 4);
    let (mut answers, mut rest, mut stops) = (Vec::new(), input, 0);
    loop {
        let outcome = run(&mut lent, rest, room);
        answers.extend(outcome.answers);
        let requests = split(rest).unwrap_or_default();
        if outcome.served == requests.len() {
            return (answers, stops);
        }
        stops += 1;
        let served = requests[..outcome.served].iter().map(|request| 4 + request.body.len());
        rest = &rest[served.sum()..];
    }
}

#[test]
fn answers_do_not_depend_on_where_the_run_stops() {
    let (mut stops, mut long) = (0, 0);
    for vector in vectors(1) {
        let answers = survey(&vector.requests);
        for room in [1024, 1500, 70_000] {
            let (pieces, stopped) = survey_with_room(&vector.requests, room);
            assert_eq!(pieces, answers, "{}", vector.name);
            stops += stopped;
        }
        long += usize::from(vector.requests.len() > LIST_BYTES - 200 && !answers.is_empty());
    }
    announce(&format!("{long} long lists for the program, {stops} stops"));
    assert!(long >= 20 && stops > 1000);
}

#[test]
fn more_answers_than_the_longest_list_are_all_written() {
    let fill: Vec<Vec<u8>> = (0..16).map(|key| put(key, &[7; VALUE_BYTES])).collect();
    let input = [fill.concat(), scan(0, u64::MAX).repeat(3000)].concat();
    assert_eq!(survey(&input).len(), 16 * 6 + 3000 * REPLY_BYTES);
}

#[test]
fn refused_lists_write_nothing() {
    let refused = vectors(1).into_iter().filter(|vector| vector.name.starts_with("refused"));
    for vector in refused {
        assert_eq!(survey(&vector.requests), Vec::<u8>::new(), "{}", vector.name);
    }
    assert_eq!(survey(&[]), Vec::<u8>::new());
    assert_eq!(survey(&flush().repeat(LIST_BYTES / 4)).len(), LIST_BYTES / 4 * 6);
}

#[test]
fn lists_are_the_same_for_the_same_seed() {
    let lists = |seed| vectors(seed).into_iter().map(|vector| vector.requests).collect::<Vec<_>>();
    assert_eq!(lists(9), lists(9));
    assert_ne!(lists(9), lists(10));
}

/// Feeds the built program through its standard input.
fn run_binary(input: &[u8]) -> Vec<u8> {
    let mut program = Command::new(env!("CARGO_BIN_EXE_survey_reference"))
        .stdin(Stdio::piped())
        .stdout(Stdio::piped())
        .spawn()
        .expect("the program starts");
    let mut stdin = program.stdin.take().expect("its input is piped");
    // The program may stop reading at a list that is too long.
    let input = input.to_vec();
    let writer = std::thread::spawn(move || stdin.write_all(&input));
    let output = program.wait_with_output().expect("the program ends");
    let _ = writer.join().expect("the writer ends");
    assert!(output.status.success());
    output.stdout
}

#[test]
fn the_built_program_writes_the_same() {
    for vector in vectors(2).iter().step_by(3) {
        assert_eq!(run_binary(&vector.requests), survey(&vector.requests), "{}", vector.name);
    }
    assert_eq!(run_binary(&vec![4; 1 << 20]), Vec::<u8>::new());
}
