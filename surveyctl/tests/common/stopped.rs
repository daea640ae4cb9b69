//! The program ended (SIGKILL) at any of its system calls. The test traces it as a debugger would, so the program that is tried is the
//! one that is delivered, without a word in it for tests. Linux on x86-64.

use super::Folder;
use std::ffi::{c_int, c_long};
use std::io::Read;
use std::os::unix::process::CommandExt;
use std::process::{Child, Command, Stdio};

/// System calls by their numbers.
pub const WRITE: u64 = 1;
pub const FLOCK: u64 = 73;
pub const FSYNC: u64 = 74;
pub const RENAME: u64 = 82;
pub const UNLINK: u64 = 87;
pub const FCHMOD: u64 = 91;
pub const OPENAT: u64 = 257;
pub const LINKAT: u64 = 265;

/// Requests of ptrace, its only option that is wanted here, and what wait and kill know by numbers.
const TRACEME: c_long = 0;
const KILL: c_int = 9;
const TRAP: c_int = 5;
const GETREGS: c_long = 12;
const SETREGS: c_long = 13;
const SYSCALL: c_long = 24;
const SETOPTIONS: c_long = 0x4200;
/// Stops at system calls are told from others, and the program ends if the test does.
const OPTIONS: usize = 1 | 0x0010_0000;
const AT_CALL: c_int = TRAP | 0x80;

extern "C" {
    fn ptrace(request: c_long, process: c_int, address: usize, data: usize) -> c_long;
    fn waitpid(process: c_int, status: *mut c_int, options: c_int) -> c_int;
    fn kill(process: c_int, signal: c_int) -> c_int;
}

/// The registers of a stopped program, and which of them have the number and the arguments of a system call.
type Registers = [u64; 27];
const NUMBER: usize = 15;
const FIRST: usize = 14;
const THIRD: usize = 12;

/// A system call: its number and its first argument, which is the file of a write.
#[derive(Clone, Copy, PartialEq, Eq, Debug)]
pub struct Call {
    pub number: u64,
    pub first: u64,
}

impl Call {
    /// Whether it writes to a file of the program's own, and not to the output.
    pub fn writes_file(self) -> bool {
        self.number == WRITE && self.first > 2
    }
}

/// Where a program is ended.
#[derive(Clone, Copy, PartialEq, Eq, Debug)]
pub enum Stop {
    /// Before the call with this number, counted from 0.
    Before(usize),
    /// After that call, a write that was cut to half its bytes.
    AtHalf(usize),
    Never,
}

/// What a program did that may have been stopped.
pub struct Traced {
    pub out: String,
    /// The system calls that it came to; it was not let into the last one if it was stopped before it.
    pub calls: Vec<Call>,
    /// Whether it came to its own end.
    pub ended: bool,
}

/// A program that is traced by this thread.
struct Tracer(c_int);

/// Why a traced program stands still.
enum Halt {
    AtCall,
    Signal(c_int),
    Ended,
}

impl Tracer {
    fn ask(&self, request: c_long, data: usize) {
        // SAFETY: the process is a stopped child that this thread traces; registers are as long as the system has them.
        let status = unsafe { ptrace(request, self.0, 0, data) };
        assert_eq!(status, 0, "the program can be traced");
    }

    fn wait(&self) -> Halt {
        let mut status = 0;
        // SAFETY: as above.
        let waited = unsafe { waitpid(self.0, &mut status, 0) };
        assert_eq!(waited, self.0, "the program is waited for");
        match (status & 0x7f, status >> 8 & 0xff) {
            (0x7f, AT_CALL) => Halt::AtCall,
            (0x7f, signal) => Halt::Signal(signal),
            _ => Halt::Ended,
        }
    }

    /// Lets it go on to the beginning or the end of a system call: false where it ends instead.
    fn goes_on(&self) -> bool {
        let mut signal = 0;
        loop {
            self.ask(SYSCALL, signal as usize);
            match self.wait() {
                Halt::AtCall => return true,
                Halt::Ended => return false,
                Halt::Signal(other) => signal = other,
            }
        }
    }

    fn registers(&self) -> Registers {
        let mut registers = [0; 27];
        self.ask(GETREGS, registers.as_mut_ptr() as usize);
        registers
    }

    /// Ends it at once, whatever it is doing.
    fn end(&self) {
        // SAFETY: as above.
        unsafe { kill(self.0, KILL) };
        while !matches!(self.wait(), Halt::Ended) {}
    }

    /// Leads it to the stop: the calls that it came to, and whether it ended by itself. While it stands before a call, this is
    /// called with the call's number.
    fn lead(&self, stop: Stop, meanwhile: &mut dyn FnMut(usize)) -> (Vec<Call>, bool) {
        let mut calls = Vec::new();
        // It stands at the beginning of a call, then at the end of the same one.
        while self.goes_on() {
            let mut registers = self.registers();
            let at = calls.len();
            calls.push(Call { number: registers[NUMBER], first: registers[FIRST] });
            meanwhile(at);
            if stop == Stop::Before(at) {
                self.end();
                return (calls, false);
            }
            if stop == Stop::AtHalf(at) {
                registers[THIRD] /= 2;
                self.ask(SETREGS, registers.as_ptr() as usize);
            }
            let there = self.goes_on();
            if there && stop == Stop::AtHalf(at) {
                self.end();
                return (calls, false);
            }
            if !there {
                break;
            }
        }
        (calls, true)
    }
}

impl Folder {
    /// Runs the program and ends it at this stop.
    pub fn traced(&self, words: &[&str], stop: Stop) -> Traced {
        self.lead(words, stop, &mut |_| {})
    }

    /// Runs the program to its end, and does this while it stands before the call with this number.
    pub fn paused(&self, words: &[&str], call: usize, mut action: impl FnMut()) -> Traced {
        self.lead(words, Stop::Never, &mut |at| {
            if at == call {
                action();
            }
        })
    }

    fn lead(&self, words: &[&str], stop: Stop, meanwhile: &mut dyn FnMut(usize)) -> Traced {
        let mut program = Command::new(env!("CARGO_BIN_EXE_surveyctl"));
        program.args(words).current_dir(self.path("."));
        program.stdin(Stdio::null()).stdout(Stdio::piped()).stderr(Stdio::null());
        // SAFETY: the new process asks to be traced, and does nothing else before the program begins.
        unsafe {
            program.pre_exec(|| match ptrace(TRACEME, 0, 0, 0) {
                0 => Ok(()),
                _ => Err(std::io::Error::last_os_error()),
            })
        };
        // It is the tracer that waits for its end.
        #[allow(clippy::zombie_processes)]
        let child: Child = program.spawn().expect("the program can be started");
        let tracer = Tracer(child.id() as c_int);
        assert!(matches!(tracer.wait(), Halt::Signal(TRAP)), "it stops where it begins");
        tracer.ask(SETOPTIONS, OPTIONS);
        let (calls, ended) = tracer.lead(stop, meanwhile);
        let mut out = String::new();
        child.stdout.expect("a pipe").read_to_string(&mut out).expect("text");
        Traced { out, calls, ended }
    }
}
