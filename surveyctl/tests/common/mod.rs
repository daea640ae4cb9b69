//! A folder for one test, calls of the program in it, and files of the form before this one.
#![allow(dead_code)]

pub mod damaged;
pub mod stopped;

use std::io::{BufRead, BufReader, Write};
use std::path::{Path, PathBuf};
use std::process::{Child, ChildStdout, Command, Stdio};
use zilgwern::Memory;

pub struct Folder(PathBuf);

/// What a call came to.
#[derive(Clone, PartialEq, Eq, Debug)]
pub struct Came {
    pub status: i32,
    pub out: String,
    pub err: String,
}

impl Folder {
    /// A folder of its own for each name.
    pub fn new(name: &str) -> Folder {
        let folder = Path::new(env!("CARGO_TARGET_TMPDIR")).join(name);
        let _ = std::fs::remove_dir_all(&folder);
        std::fs::create_dir_all(&folder).expect("a folder can be made");
        Folder(folder)
    }

    pub fn path(&self, name: &str) -> PathBuf {
        self.0.join(name)
    }

    pub fn read(&self, name: &str) -> Vec<u8> {
        std::fs::read(self.path(name)).expect(name)
    }

    /// The names of what is in it, sorted.
    pub fn names(&self) -> Vec<String> {
        let found = std::fs::read_dir(&self.0).expect("a folder");
        let name = |file: std::io::Result<std::fs::DirEntry>| file.unwrap().file_name();
        let mut names: Vec<String> =
            found.map(|file| name(file).into_string().expect("a name in text")).collect();
        names.sort();
        names
    }

    pub fn write(&self, name: &str, bytes: impl AsRef<[u8]>) {
        std::fs::write(self.path(name), bytes).expect(name);
    }

    /// Calls the program with these words and this standard input.
    pub fn call_with(&self, words: &[&str], input: &[u8]) -> Came {
        let mut program = Command::new(env!("CARGO_BIN_EXE_surveyctl"));
        program.args(words);
        self.came(&mut program, input)
    }

    pub fn call(&self, words: &[&str]) -> Came {
        self.call_with(words, b"")
    }

    /// Calls it and wants status 0 and no word of error; gives what it printed.
    pub fn done(&self, words: &[&str]) -> String {
        let came = self.call(words);
        assert_eq!((came.status, came.err.as_str()), (0, ""), "{words:?}");
        came.out
    }

    /// Runs a line of a shell in which the program, and the proved ones that `tools/program` writes, can be called by their
    /// names; errors go where the output goes.
    pub fn shell(&self, line: &str) -> String {
        let program = Path::new(env!("CARGO_BIN_EXE_surveyctl"));
        let folder = program.parent().expect("a folder").display();
        let package = std::env::var("CARGO_MANIFEST_DIR").expect("cargo names the package");
        let proved = Path::new(&package).join("../target/bin");
        let path = format!("PATH=\"{folder}:{}:$PATH\"", proved.display());
        let mut shell = Command::new("sh");
        shell.args(["-c", &format!("exec 2>&1; {path}; {line}")]);
        self.came(&mut shell, b"").out
    }

    fn came(&self, command: &mut Command, input: &[u8]) -> Came {
        let mut child = self.child(command);
        let mut pipe = child.stdin.take().expect("a pipe");
        // A program that does not read its input may be gone by now; one that answers much waits for its reader.
        std::thread::scope(|scope| {
            scope.spawn(move || pipe.write_all(input));
            ended(child)
        })
    }

    fn child(&self, command: &mut Command) -> Child {
        command.current_dir(&self.0);
        command.stdin(Stdio::piped()).stdout(Stdio::piped()).stderr(Stdio::piped());
        command.spawn().expect("the program can be started")
    }

    /// Starts the program and leaves it running.
    pub fn start(&self, words: &[&str]) -> Running {
        let mut program = Command::new(env!("CARGO_BIN_EXE_surveyctl"));
        let mut child = self.child(program.args(words));
        let out = BufReader::new(child.stdout.take().expect("a pipe"));
        Running { child, out }
    }
}

/// Waits for the end of a program.
fn ended(child: Child) -> Came {
    let output = child.wait_with_output().expect("the program ends");
    let text = |bytes: Vec<u8>| String::from_utf8_lossy(&bytes).into_owned();
    Came {
        status: output.status.code().unwrap_or(-1),
        out: text(output.stdout),
        err: text(output.stderr),
    }
}

/// A program that runs.
pub struct Running {
    child: Child,
    out: BufReader<ChildStdout>,
}

impl Running {
    /// Types a line and waits for one of output.
    pub fn say_and_hear(&mut self, line: &str) -> String {
        let input = self.child.stdin.as_mut().expect("a pipe");
        writeln!(input, "{line}").expect("the program reads");
        let mut heard = String::new();
        self.out.read_line(&mut heard).expect("the program answers");
        heard
    }

    /// Ends the input and waits.
    pub fn end(mut self) -> Came {
        drop(self.child.stdin.take());
        ended(self.child)
    }
}

/// The second form: the pieces one behind the other, rows without their summary, and a word that says the form.
pub fn second_form(memory: &Memory) -> Vec<u8> {
    let words = |words: &[u64]| words.iter().flat_map(|word| word.to_le_bytes()).collect();
    let rows: Vec<Vec<u8>> = memory.cards.iter().map(|row| words(&row[..34])).collect();
    let items: Vec<u8> = memory.lists.iter().flat_map(|item| item.to_le_bytes()).collect();
    let head: Vec<u8> = words(&memory.head);
    [&memory.area[..], &rows.concat(), &items, &head, &memory.memory, &2u64.to_le_bytes()].concat()
}
