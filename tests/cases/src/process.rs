//! The case program as a process: where it is, and what it prints.

use std::env;
use std::fs;
use std::io::{self, Read, Write};
use std::path::{Path, PathBuf};
use std::process::{Child, Command, ExitStatus, Stdio};
use std::sync::mpsc;
use std::thread;
use std::time::Duration;

/// Names another program to test instead of `target/bin/case`.
const OTHER_PROGRAM: &str = "UNDRELVOA_CASE";

/// A program that has not ended after this time is taken for one that never will.
const TIME_LIMIT: Duration = Duration::from_secs(30);

/// The part length of a text that arrives as a whole.
pub const WHOLE: usize = usize::MAX;

/// The top of the repository. It is asked for when a test runs, so that a copy never tests the folder
/// where it was compiled.
pub fn repository() -> PathBuf {
    let package = env::var("CARGO_MANIFEST_DIR").expect("cargo names the package's folder");
    Path::new(&package).join("../..")
}

/// The program under test.
pub struct CaseProgram {
    path: PathBuf,
}

/// What a process wrote, and how it ended.
#[derive(Debug)]
pub struct Printed {
    pub stdout: Vec<u8>,
    pub stderr: Vec<u8>,
    pub status: ExitStatus,
}

impl CaseProgram {
    /// Finds the program, or fails with what to do about it.
    pub fn find() -> CaseProgram {
        let built = repository().join("target/bin/case");
        let path = env::var_os(OTHER_PROGRAM).map_or(built, PathBuf::from);
        assert!(
            path.is_file(),
            "there is no case program to test at {}\n\
             make it in the repository's root with: ./run-case </dev/null",
            path.display()
        );
        CaseProgram { path }
    }

    /// The program's path, for a line that says what was tested.
    pub fn name(&self) -> String {
        self.path.display().to_string()
    }

    /// Gives the program a text in parts of at most `part_len` bytes.
    pub fn run(&self, text: &[u8], part_len: usize) -> Printed {
        let mut child = self.start(&[], Stdio::piped(), Stdio::piped());
        let stdin = child.stdin.take().expect("a pipe to write to");
        thread::scope(|scope| {
            scope.spawn(move || feed(stdin, text, part_len));
            finish(child)
        })
    }

    /// Runs the program with streams of the caller's.
    pub fn run_with(&self, stdin: impl Into<Stdio>, stdout: impl Into<Stdio>) -> Printed {
        finish(self.start(&[], stdin.into(), stdout.into()))
    }

    /// Runs the program with arguments, and with an input that stays open and gives nothing until the
    /// program has ended.
    pub fn run_with_arguments(&self, arguments: &[&str]) -> Printed {
        let mut child = self.start(arguments, Stdio::piped(), Stdio::piped());
        let open = child.stdin.take();
        let printed = finish(child);
        drop(open);
        printed
    }

    fn start(&self, arguments: &[&str], stdin: Stdio, stdout: Stdio) -> Child {
        let mut command = Command::new(&self.path);
        command.args(arguments).stdin(stdin).stdout(stdout).stderr(Stdio::piped());
        command.spawn().unwrap_or_else(|error| panic!("{} does not start: {error}", self.name()))
    }
}

/// Writes a text in parts. A program may stop reading at a bad line, which is no failure.
fn feed(mut stdin: impl Write, text: &[u8], part_len: usize) {
    for part in text.chunks(part_len) {
        match stdin.write_all(part) {
            Err(error) if error.kind() == io::ErrorKind::BrokenPipe => return,
            written => written.expect("a pipe that can be written"),
        }
        // The program should find this part before the next one is there.
        thread::yield_now();
    }
}

/// Waits for the end of a process, and kills one that does not come to it.
fn finish(mut child: Child) -> Printed {
    let (sender, receiver) = mpsc::channel();
    let stdout = child.stdout.take();
    let stderr = child.stderr.take();
    thread::spawn(move || sender.send((read_all(stdout), read_all(stderr))));
    match receiver.recv_timeout(TIME_LIMIT) {
        Ok((stdout, stderr)) => {
            let status = child.wait().expect("a process that was started");
            Printed { stdout, stderr, status }
        }
        Err(_) => {
            child.kill().expect("a process that was started");
            child.wait().expect("a process that was killed");
            panic!("the case program has not ended after {} s", TIME_LIMIT.as_secs());
        }
    }
}

/// All that comes from a pipe, if there is one.
fn read_all(pipe: Option<impl Read>) -> Vec<u8> {
    let mut bytes = Vec::new();
    if let Some(mut pipe) = pipe {
        pipe.read_to_end(&mut bytes).expect("a pipe that can be read");
    }
    bytes
}

/// Fails unless the program printed what it should, and came to its own end.
pub fn assert_printed(printed: &Printed, expected: &[u8], text: &[u8], what: &str) {
    if printed.stdout != expected || printed.status.code().is_none() {
        panic!(
            "the case program is wrong on {what} ({})\n\
             text: {}\nprinted: {}\nexpected: {}\nstandard error: {}\n{}",
            printed.status,
            excerpt(text),
            excerpt(&printed.stdout),
            excerpt(expected),
            excerpt(&printed.stderr),
            keep(text)
        );
    }
}

/// Writes a text on which a test failed to a file of the test's name, and says how to run it.
fn keep(text: &[u8]) -> String {
    const FOLDER: &str = "target/failing-cases";
    let test = thread::current();
    let path = format!("{FOLDER}/{}", test.name().unwrap_or_default());
    let top = repository();
    let written =
        fs::create_dir_all(top.join(FOLDER)).and_then(|()| fs::write(top.join(&path), text));
    match written {
        Ok(()) => format!("to run the program on this text: ./run-case {path}"),
        Err(error) => format!("the text could not be written to {path}: {error}"),
    }
}

/// As much of some bytes as can be read in a failure's message.
fn excerpt(bytes: &[u8]) -> String {
    const LONGEST: usize = 3_000;
    let shown =
        bytes[..bytes.len().min(LONGEST)].escape_ascii().to_string().replace("\\n", "\n    ");
    format!("{} bytes\n    {shown}", bytes.len())
}
