//! A command that was started: what it writes, and how it ends.

use std::ffi::c_int;
use std::io::Read;
use std::os::unix::process::{CommandExt, ExitStatusExt};
use std::process::{Child, Command, Stdio};
use std::sync::atomic::{AtomicU32, Ordering};
use std::sync::{Arc, Mutex};
use std::thread::{self, JoinHandle};
use std::time::{Duration, Instant};

use crate::system::{command_of, hear_signals, marked, send, KILL, MARK};

/// What has not happened after this time is taken for what never will.
const TIME_LIMIT: Duration = Duration::from_secs(60);

/// Waits for a condition, and fails where it does not come.
pub fn wait_until(what: &str, mut condition: impl FnMut() -> bool) {
    let limit = Instant::now() + TIME_LIMIT;
    while !condition() {
        assert!(Instant::now() < limit, "after {} s still not: {what}", TIME_LIMIT.as_secs());
        thread::sleep(Duration::from_millis(10));
    }
}

/// What came from a pipe or a terminal so far.
pub struct Stream {
    bytes: Arc<Mutex<Vec<u8>>>,
    reader: JoinHandle<()>,
}

impl Stream {
    pub fn of(mut source: impl Read + Send + 'static) -> Stream {
        let bytes = Arc::new(Mutex::new(Vec::new()));
        let sink = Arc::clone(&bytes);
        let reader = thread::spawn(move || {
            let mut part = [0; 4096];
            // A terminal that nobody writes to any more cannot be read, which is its end.
            while let Ok(count @ 1..) = source.read(&mut part) {
                sink.lock().expect("no reader fails").extend(&part[..count]);
            }
        });
        Stream { bytes, reader }
    }

    pub fn text(&self) -> String {
        String::from_utf8_lossy(&self.bytes.lock().expect("no reader fails")).into_owned()
    }
}

/// What a command wrote, and its status as a shell sees it: 128 and the number of a signal that ended it.
#[derive(Debug)]
pub struct Ended {
    pub stdout: String,
    pub stderr: String,
    pub status: i32,
}

/// A command that may still run. Where a test fails, all that came from it is killed.
pub struct Running {
    child: Child,
    stdout: Stream,
    stderr: Stream,
    mark: String,
}

impl Running {
    /// Starts a command whose standard output and error are read. Its standard input is the caller's to
    /// give.
    pub fn start(command: &mut Command) -> Running {
        command.stderr(Stdio::piped());
        Running::start_with(command, None)
    }

    /// Starts a command whose standard error is a stream of the caller's.
    pub fn start_with(command: &mut Command, stderr: Option<Stream>) -> Running {
        static COUNT: AtomicU32 = AtomicU32::new(0);
        let mark = format!("{}-{}", std::process::id(), COUNT.fetch_add(1, Ordering::Relaxed));
        command.env(MARK, &mark).stdout(Stdio::piped());
        // SAFETY: it calls nothing that is not allowed between fork and exec.
        unsafe { command.pre_exec(hear_signals) };
        let mut child = command.spawn().unwrap_or_else(|error| panic!("{command:?}: {error}"));
        let stdout = Stream::of(child.stdout.take().expect("a pipe"));
        let stderr = stderr.unwrap_or_else(|| Stream::of(child.stderr.take().expect("a pipe")));
        Running { child, stdout, stderr, mark }
    }

    /// Waits until standard error has this text.
    pub fn wait_to_hear(&self, text: &str) {
        wait_until(&format!("{text:?} on standard error"), || self.stderr.text().contains(text));
    }

    /// How many processes that came from it have this in their command.
    pub fn count(&self, words: &str) -> usize {
        let processes = marked(&self.mark).into_iter();
        processes.filter(|&process| command_of(process).contains(words)).count()
    }

    /// Waits until a process that came from it has this in its command.
    pub fn wait_for_process(&self, words: &str) {
        wait_until(&format!("a process {words:?}"), || self.count(words) > 0);
    }

    /// Whether the command's own process is there. One that has ended and is not yet waited for has no
    /// words.
    pub fn is_running(&self) -> bool {
        !command_of(self.child.id()).is_empty()
    }

    /// Sends a signal to the command's process alone.
    pub fn signal(&self, signal: c_int) {
        send(self.child.id(), signal);
    }

    /// Waits for the end. Nothing that came from the command may be left then.
    pub fn end(mut self) -> Ended {
        let mut ended = None;
        wait_until("the command's end", || {
            ended = self.child.try_wait().expect("a process that was started");
            ended.is_some()
        });
        wait_until("an end of all that it started", || marked(&self.mark).is_empty());
        wait_until("the end of what it wrote", || {
            self.stdout.reader.is_finished() && self.stderr.reader.is_finished()
        });
        let status = ended.expect("it has ended");
        let signal = || 128 + status.signal().expect("a signal where there is no status");
        Ended {
            stdout: self.stdout.text(),
            stderr: self.stderr.text(),
            status: status.code().unwrap_or_else(signal),
        }
    }
}

impl Drop for Running {
    fn drop(&mut self) {
        for process in marked(&self.mark) {
            send(process, KILL);
        }
    }
}

/// Runs a command to its end, with standard input as it was set.
pub fn run(command: &mut Command) -> Ended {
    Running::start(command).end()
}
