//! The built program `survey` against the second implementation: whole lists on standard input, all of standard output compared.
//! The program is `target/bin/survey`, which `tools/program` writes, or the one that ZILGWERN_SURVEY names.

use reference::generate::random::Random;
use reference::generate::requests::{flush, look_up, put, request, scan};
use reference::generate::vectors::vectors;
use reference::judge::met;
use reference::limits::{LIST_BYTES, VALUE_BYTES};
use reference::program::{follow, survey};
use reference::reached::{required_of_requests, Reached};
use std::fs::File;
use std::io::{Read, Write};
use std::path::{Path, PathBuf};
use std::process::{Child, Command, Output, Stdio};

const CHOICE: &str = "ZILGWERN_SURVEY";

/// Seeds of the long lists: each gives some thirty.
const SEEDS: std::ops::Range<u64> = 1..5;

/// Not reached: 32 places are too few for a level 2 that comes to its capacity and gives tables to
/// level 3, and with them for merges there and what they hold; a merge in place of a choice is too
/// rare for one that finds no room, and so is a merge that finds room only since delete marks go.
const UNREACHED: [&str; 17] = [
    met::OF_LEVELS[2][0],
    met::OF_LEVELS[2][1],
    met::PROBED_ON_3,
    met::PROBED_LINK_3,
    "moved from 2",
    "linked from 2",
    "due merge on 3",
    "merge in place of a choice on 2",
    "merge without results on 3",
    "delete marks dropped on 3",
    "no 20 since delete marks go on 1",
    "no 20 since delete marks go on 2",
    "no 20 since delete marks go on 3",
    "20 although delete marks go on 3",
    "delete marks kept on 2",
    met::STAYS_BY_LAST,
    "20 by a merge in place of a choice",
];

/// The program, or a word on how to get it.
fn program() -> PathBuf {
    let built = || Path::new(env!("CARGO_MANIFEST_DIR")).join("../target/bin/survey");
    let path = std::env::var_os(CHOICE).map_or_else(built, PathBuf::from);
    assert!(path.is_file(), "{} is missing: run `tools/program` first", path.display());
    path
}

fn command(input: Stdio, output: Stdio) -> Command {
    let mut command = Command::new(program());
    command.stdin(input).stdout(output).stderr(Stdio::piped());
    command
}

/// Starts the program and feeds it pieces of these sizes, in turn, until it has taken all or reads no more.
fn feed(mut command: Command, input: &[u8], sizes: Vec<usize>) -> Child {
    let mut program = command.spawn().expect("the program starts");
    let mut stdin = program.stdin.take().expect("its input is piped");
    let mut rest = input.to_vec();
    std::thread::spawn(move || {
        for size in sizes.iter().cycle() {
            let after = rest.split_off(rest.len().min(*size));
            if stdin.write_all(&rest).is_err() || after.is_empty() {
                return;
            }
            rest = after;
        }
    });
    program
}

fn words(output: &Output) -> String {
    String::from_utf8_lossy(&output.stderr).into_owned()
}

/// What the program writes for an input in pieces of these sizes; it must end well and say nothing else.
fn answers_to(input: &[u8], sizes: Vec<usize>) -> Vec<u8> {
    let program = feed(command(Stdio::piped(), Stdio::piped()), input, sizes);
    let output = program.wait_with_output().expect("the program ends");
    assert!(output.status.success(), "{}: {}", output.status, words(&output));
    assert_eq!(words(&output), "");
    output.stdout
}

/// The first place at which the bytes differ, for a short message.
fn same(name: &str, ours: &[u8], theirs: &[u8]) {
    let at = ours.iter().zip(theirs).position(|(a, b)| a != b);
    assert!(
        ours == theirs,
        "{name}: {} bytes, {} expected, first different at {at:?}",
        ours.len(),
        theirs.len()
    );
}

/// Small lists with their answers written out by hand.
#[test]
fn by_hand() {
    let put_5_and_look_up: &[u8] = b"\x0D\0\x01\0\x05\0\0\0\0\0\0\0A\x0C\0\x03\0\x05\0\0\0\0\0\0\0";
    let cases: [(&str, &[u8], &[u8]); 9] = [
        ("document 01's example", put_5_and_look_up, b"\x06\0\x01\0\0\0\x07\0\x03\0\0\0A"),
        ("nothing", b"", b""),
        ("a length of 3", b"\x03\0\x05\0", b""),
        ("a byte behind the last request", b"\x04\0\x07\0\x04", b""),
        ("a length beyond the end", b"\x0C\0\x03\0\x05\0\0\0\0\0\0", b""),
        (
            "nothing to flush or to tidy",
            b"\x04\0\x05\0\x04\0\x06\0",
            b"\x06\0\x05\0\x41\0\x06\0\x06\0\x41\0",
        ),
        (
            "an unknown kind, a body too long",
            b"\x04\0\x09\0\x05\0\x05\0\0",
            b"\x06\0\x09\0\x10\0\x06\0\x05\0\x11\0",
        ),
        (
            "a probe of a key in memory, and one without a body",
            b"\x0D\0\x01\0\x05\0\0\0\0\0\0\0A\x0C\0\x08\0\x05\0\0\0\0\0\0\0\x04\0\x08\0",
            b"\x06\0\x01\0\0\0\x0F\0\x08\0\0\0\x01\0\0\0\0\0\0\0A\x06\0\x08\0\x11\0",
        ),
        ("a key that is nowhere", b"\x0C\0\x03\0\x05\0\0\0\0\0\0\0", b"\x06\0\x03\0\x40\0"),
    ];
    for (name, list, answers) in cases {
        same(name, &answers_to(list, vec![LIST_BYTES]), answers);
        same(name, &survey(list), answers);
    }
}

/// Every list of the generator over some seeds; fails if they missed a kind, a result or a step that they should reach.
#[test]
fn long_and_refused_lists() {
    let unreached = [&UNREACHED[..], &met::BEYOND_NEW].concat();
    let required =
        required_of_requests().into_iter().filter(|name| !unreached.contains(&name.as_str()));
    let mut reached = Reached::requiring(required.chain(["run refused with 4".into()]));
    let (mut lists, mut bytes, mut stops, mut longest) = (0, 0, 0, 0);
    for vector in SEEDS.flat_map(vectors) {
        let list = &vector.requests;
        let expected = survey(list);
        same(&vector.name, &answers_to(list, vec![list.len().max(1)]), &expected);
        let told = follow(list).unwrap_or_else(|words| panic!("{}: {words}", vector.name));
        assert_eq!(told.written, expected.len(), "{}", vector.name);
        assert_eq!(expected.is_empty(), list.is_empty() || vector.name.starts_with("refused"));
        reached.add(&told.reached);
        (lists, bytes, stops) = (lists + 1, bytes + expected.len(), stops + told.stops);
        longest = longest.max(if expected.is_empty() { 0 } else { list.len() });
    }
    println!("{lists} lists, {bytes} bytes of answers, {stops} stops\n{reached}");
    assert!(lists >= 100 && stops > 1000 && longest == LIST_BYTES);
    assert!(reached.missing().is_empty(), "never reached: {:?}", reached.missing());
}

/// A pipe brings what it has: in pieces of any size the list is the same.
#[test]
fn input_in_small_pieces() {
    let mut random = Random::new(11);
    for vector in
        vectors(6).iter().filter(|vector| vector.requests.len() < 100 || vector.name == "busy")
    {
        let least = vector.requests.len() / 4000;
        let sizes = (0..97).map(|_| least + 1 + random.below(40)).collect();
        same(&vector.name, &answers_to(&vector.requests, sizes), &survey(&vector.requests));
    }
    let short = [put(7, b"seven"), flush(), look_up(7)].concat();
    same("byte by byte", &answers_to(&short, vec![1]), &survey(&short));
}

/// A list with more answers than a pipe holds: 1,000 scans of 16 values each.
fn many_answers() -> Vec<u8> {
    let fill: Vec<Vec<u8>> = (0..16).map(|key| put(key, &[7; VALUE_BYTES])).collect();
    [fill.concat(), scan(0, u64::MAX).repeat(1000)].concat()
}

/// Who reads only the beginning gets the beginning; the program then says that writing failed, and ends.
#[test]
fn output_closed_early() {
    let list = many_answers();
    let mut program = feed(command(Stdio::piped(), Stdio::piped()), &list, vec![LIST_BYTES]);
    let mut first = vec![0; 5000];
    let mut output = program.stdout.take().expect("its output is piped");
    output.read_exact(&mut first).expect("so much is answered");
    drop(output);
    same("the first bytes", &first, &survey(&list)[..5000]);
    let ended = program.wait_with_output().expect("the program ends");
    assert!(
        ended.status.success() && words(&ended).starts_with("survey: standard output: "),
        "{}",
        words(&ended)
    );
}

/// Where writing or reading fails, a line on standard error says so.
#[test]
fn failures_are_said() {
    let device = File::options().write(true).open("/dev/full").expect("Linux has this device");
    let program = feed(command(Stdio::piped(), device.into()), &request(7, &[]), vec![LIST_BYTES]);
    let ended = program.wait_with_output().expect("the program ends");
    assert!(
        ended.status.success() && words(&ended).starts_with("survey: standard output: "),
        "{}",
        words(&ended)
    );

    let folder = File::open(env!("CARGO_MANIFEST_DIR")).expect("the package is there");
    let ended = command(folder.into(), Stdio::piped()).output().expect("the program ends");
    assert!(
        ended.status.success() && words(&ended).starts_with("survey: standard input: "),
        "{}",
        words(&ended)
    );
    assert!(ended.stdout.is_empty());
}
