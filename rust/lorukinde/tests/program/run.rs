//! Runs the program with some input, and takes what it writes.
use std::ffi::OsStr;
use std::fs::{self, File};
use std::io::{Read, Write};
use std::os::unix::ffi::OsStrExt;
use std::path::PathBuf;
use std::process::{Child, Command, Output, Stdio};
use std::thread;

/// What a run gave: its exit code, what it wrote, as text and as bytes, and what it complained of.
#[derive(Debug, PartialEq)]
pub struct Ran {
    pub code: i32,
    pub out: String,
    pub err: String,
    pub bytes: Vec<u8>,
}

impl Ran {
    pub fn new(code: i32, out: &str, err: &str) -> Ran {
        Ran { code, out: out.into(), err: err.into(), bytes: out.into() }
    }

    fn of(output: Output) -> Ran {
        Ran {
            code: output.status.code().expect("a signal ended it"),
            out: String::from_utf8_lossy(&output.stdout).into_owned(),
            err: String::from_utf8(output.stderr).unwrap(),
            bytes: output.stdout,
        }
    }
}

/// A call of the program. Where cargo is told by what to run x86-64 programs, it is run by that.
pub struct Call(Command);

pub fn lorukinde() -> Call {
    let program = env!("CARGO_BIN_EXE_lorukinde");
    let mut command = match std::env::var_os("CARGO_TARGET_X86_64_UNKNOWN_LINUX_GNU_RUNNER") {
        Some(runner) => {
            let mut command = Command::new(runner);
            command.arg(program);
            command
        }
        None => Command::new(program),
    };
    command.stdin(Stdio::piped()).stdout(Stdio::piped()).stderr(Stdio::piped());
    Call(command)
}

impl Call {
    pub fn arg(mut self, argument: impl AsRef<OsStr>) -> Call {
        self.0.arg(argument);
        self
    }

    pub fn run(mut self, input: impl AsRef<[u8]>) -> Ran {
        let mut child = self.0.spawn().unwrap();
        let feeding = feed(&mut child, input.as_ref());
        let output = child.wait_with_output().unwrap();
        feeding.join().unwrap();
        Ran::of(output)
    }
}

/// Writes the input from a thread of its own, so that neither side waits for the other. The program may leave some of it unread.
fn feed(child: &mut Child, input: &[u8]) -> thread::JoinHandle<()> {
    let (mut to, input) = (child.stdin.take().unwrap(), input.to_vec());
    thread::spawn(move || drop(to.write_all(&input)))
}

pub fn run(arguments: &[&str], input: impl AsRef<[u8]>) -> Ran {
    arguments.iter().fold(lorukinde(), |call, argument| call.arg(argument)).run(input)
}

/// Runs it with an output that has no room.
pub fn into_full(arguments: &[&str], input: &str) -> Ran {
    let mut call = arguments.iter().fold(lorukinde(), |call, argument| call.arg(argument));
    call.0.stdout(File::create("/dev/full").unwrap());
    call.run(input)
}

/// Runs it with a reader that goes away after the first bytes.
pub fn into_closed_pipe(arguments: &[&str], input: &str) -> Ran {
    let mut call = arguments.iter().fold(lorukinde(), |call, argument| call.arg(argument));
    let mut child = call.0.spawn().unwrap();
    let feeding = feed(&mut child, input.as_bytes());
    let mut reader = child.stdout.take().unwrap();
    reader.read_exact(&mut [0; 8]).unwrap();
    drop(reader);
    let output = child.wait_with_output().unwrap();
    feeding.join().unwrap();
    Ran::of(output)
}

/// A file with this content, below cargo's folder for such.
pub fn file(name: &[u8], content: &[u8]) -> PathBuf {
    let path = PathBuf::from(env!("CARGO_TARGET_TMPDIR")).join(OsStr::from_bytes(name));
    fs::write(&path, content).unwrap();
    path
}
