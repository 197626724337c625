//! What the standard library has no call for, and which processes there are.

use std::ffi::{c_char, c_int, c_uint, CStr, CString};
use std::fs::{self, File};
use std::io;
use std::os::fd::{FromRawFd, RawFd};

pub const HUP: c_int = 1;
pub const INT: c_int = 2;
pub const QUIT: c_int = 3;
pub const KILL: c_int = 9;
pub const PIPE: c_int = 13;
pub const TERM: c_int = 15;

const READ_AND_WRITE: c_int = 0o2;
/// A terminal that is opened so does not become that of who opens it.
pub const NOT_CONTROLLING: c_int = 0o400;

const CLOSED_IN_CHILDREN: c_int = 0o2_000_000;
const DEFAULT_ACTION: usize = 0;

/// Each process that a test starts has this variable, with a value of its own, and so has all that
/// comes from it.
pub const MARK: &str = "RUN_CASE_TEST";

extern "C" {
    fn geteuid() -> c_uint;
    fn grantpt(terminal: c_int) -> c_int;
    fn kill(process: c_int, signal: c_int) -> c_int;
    fn open(path: *const c_char, flags: c_int, ...) -> c_int;
    fn posix_openpt(flags: c_int) -> c_int;
    fn ptsname_r(terminal: c_int, name: *mut c_char, len: usize) -> c_int;
    fn setsid() -> c_int;
    fn signal(signal: c_int, action: usize) -> usize;
    fn unlockpt(terminal: c_int) -> c_int;
}

pub fn is_root() -> bool {
    // SAFETY: it takes nothing and cannot fail.
    unsafe { geteuid() == 0 }
}

pub fn send(process: u32, signal: c_int) {
    // SAFETY: two numbers; a process that is gone makes it fail, which is no harm here.
    unsafe { kill(process as c_int, signal) };
}

/// For a process that is just starting: signals that whoever runs the tests ignores come again.
pub fn hear_signals() -> io::Result<()> {
    for number in [HUP, INT, QUIT, PIPE, TERM] {
        // SAFETY: allowed between fork and exec.
        unsafe { signal(number, DEFAULT_ACTION) };
    }
    Ok(())
}

/// For a process that is just starting: a session of its own, with this terminal.
pub fn take_terminal(name: &CStr) -> io::Result<()> {
    // SAFETY: both are allowed between fork and exec, and the name ends with a zero byte. A terminal
    // that a session's first process opens becomes that session's.
    if unsafe { setsid() } < 0
        || unsafe { open(name.as_ptr(), READ_AND_WRITE | CLOSED_IN_CHILDREN) } < 0
    {
        return Err(io::Error::last_os_error());
    }
    Ok(())
}

/// A new terminal: the side of who sits before it, and the name of the other side.
pub fn new_terminal() -> (File, CString) {
    let mut name = [0; 128];
    // SAFETY: each call gets the number that the first one made, and the name's true length.
    let (number, failed): (RawFd, bool) = unsafe {
        let number = posix_openpt(READ_AND_WRITE | NOT_CONTROLLING | CLOSED_IN_CHILDREN);
        let failed = number < 0
            || grantpt(number) != 0
            || unlockpt(number) != 0
            || ptsname_r(number, name.as_mut_ptr(), name.len()) != 0;
        (number, failed)
    };
    assert!(!failed, "no terminal can be had: {}", io::Error::last_os_error());
    // SAFETY: the number is open and nobody else's; the name was written with its zero byte.
    unsafe { (File::from_raw_fd(number), CStr::from_ptr(name.as_ptr()).to_owned()) }
}

/// The processes with a mark. One that has ended and is not yet waited for shows no variables, and
/// does not count.
pub fn marked(mark: &str) -> Vec<u32> {
    let variable = format!("{MARK}={mark}");
    let entries = fs::read_dir("/proc").expect("the list of processes");
    let names = entries.filter_map(|entry| entry.ok()?.file_name().into_string().ok());
    names
        .filter_map(|name| name.parse().ok())
        .filter(|process| {
            let variables = fs::read(format!("/proc/{process}/environ")).unwrap_or_default();
            variables.split(|&byte| byte == 0).any(|one| one == variable.as_bytes())
        })
        .collect()
}

/// The words of a process's command.
pub fn command_of(process: u32) -> String {
    let words = fs::read(format!("/proc/{process}/cmdline")).unwrap_or_default();
    String::from_utf8_lossy(&words).replace('\0', " ").trim_end().to_string()
}
