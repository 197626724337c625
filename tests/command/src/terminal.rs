//! A terminal, with the test sitting before it.

use std::ffi::{CString, OsStr};
use std::fs::{File, OpenOptions};
use std::io::Write;
use std::os::unix::ffi::OsStrExt;
use std::os::unix::fs::OpenOptionsExt;
use std::os::unix::process::CommandExt;
use std::process::{Command, Stdio};

use crate::process::{Running, Stream};
use crate::system::{new_terminal, take_terminal, NOT_CONTROLLING};

pub struct Terminal {
    keys: File,
    name: CString,
}

impl Terminal {
    pub fn new() -> Terminal {
        let (keys, name) = new_terminal();
        Terminal { keys, name }
    }

    /// The side that a command reads from and writes to.
    pub fn other_side(&self) -> File {
        let path = OsStr::from_bytes(self.name.as_bytes());
        let mut options = OpenOptions::new();
        options.read(true).write(true).custom_flags(NOT_CONTROLLING);
        options.open(path).expect("the terminal's other side")
    }

    /// Starts a command with this terminal as its own, and as its standard error.
    pub fn start(&self, command: &mut Command) -> Running {
        self.start_as("xterm", command)
    }

    /// The same with a kind of terminal.
    pub fn start_as(&self, kind: &str, command: &mut Command) -> Running {
        let name = self.name.clone();
        command.stderr(self.other_side()).env("TERM", kind);
        // SAFETY: it calls nothing that is not allowed between fork and exec.
        unsafe { command.pre_exec(move || take_terminal(&name)) };
        let shown = self.keys.try_clone().expect("a file number");
        let running = Running::start_with(command, Some(Stream::of(shown)));
        // The command would keep the terminal open, and its text without an end.
        command.stderr(Stdio::null()).stdin(Stdio::null());
        running
    }

    pub fn set_width(&self, columns: usize) {
        let mut stty = Command::new("stty");
        stty.args(["rows", "24", "cols", &columns.to_string()]).stdin(self.other_side());
        assert!(stty.status().expect("stty").success(), "the terminal keeps its width");
    }

    pub fn press(&self, keys: &str) {
        (&self.keys).write_all(keys.as_bytes()).expect("a terminal takes keys");
    }
}

impl Default for Terminal {
    fn default() -> Terminal {
        Terminal::new()
    }
}

/// The signs that make a terminal remove what stands behind the place that it writes to.
pub const REMOVE: &str = "\x1b[K";

/// The lines that are seen where a text was shown: a carriage return goes back to the line's start, and
/// what comes then is written over what was there.
pub fn seen(shown: &str) -> Vec<String> {
    let mut lines = vec![Vec::new()];
    let mut column = 0;
    for one in shown.replace(REMOVE, "\0").chars() {
        let line = lines.last_mut().expect("one line at least");
        match one {
            '\0' => line.truncate(column),
            '\r' => column = 0,
            '\n' => {
                lines.push(Vec::new());
                column = 0;
            }
            _ => {
                line.resize(line.len().max(column + 1), ' ');
                line[column] = one;
                column += 1;
            }
        }
    }
    let text = |line: Vec<char>| line.into_iter().collect::<String>().trim_end().to_string();
    let mut lines: Vec<String> = lines.into_iter().map(text).collect();
    while lines.last().is_some_and(String::is_empty) {
        lines.pop();
    }
    lines
}

#[cfg(test)]
mod tests {
    use super::*;

    #[test]
    fn a_line_that_moves_is_seen_as_it_was_last() {
        assert_eq!(seen("\rone 1\rone 2"), ["one 2"]);
        assert_eq!(seen("\rone two\rsix"), ["six two"]);
        assert_eq!(seen("\rone\r\x1b[K"), [""; 0]);
        assert_eq!(seen("\rone\r\x1b[Ktwo\r\n"), ["two"]);
        assert_eq!(seen("one\r\ntwo"), ["one", "two"]);
    }
}
