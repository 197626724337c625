//! Streams that fail: the program says so on standard error, and prints no result that it does not
//! have.

use std::fs::{File, OpenOptions};
use std::path::Path;
use std::process::Stdio;

use cases::process::{repository, CaseProgram, Printed};

/// Fails unless a line that says something was written to standard error.
fn assert_complains(printed: &Printed) {
    let complaint = String::from_utf8_lossy(&printed.stderr);
    let says_something = complaint.lines().any(|line| !line.trim().is_empty());
    assert!(says_something && complaint.ends_with('\n'), "no line on standard error: {printed:?}");
}

fn open_to_write(path: impl AsRef<Path>) -> File {
    OpenOptions::new().write(true).open(path).expect("a device that can be opened")
}

#[test]
fn failed_read() {
    // A folder can be opened, and reading it fails.
    let folder = File::open("/").expect("the root folder can be opened");
    let printed = CaseProgram::find().run_with(folder, Stdio::piped());
    assert!(printed.stdout.is_empty(), "a result without its text: {printed:?}");
    assert_complains(&printed);
    println!("failed read: {}", String::from_utf8_lossy(&printed.stderr).trim_end());
}

#[test]
fn input_that_is_not_open_to_read() {
    let printed = CaseProgram::find().run_with(open_to_write("/dev/null"), Stdio::piped());
    assert!(printed.stdout.is_empty(), "a result without its text: {printed:?}");
    assert_complains(&printed);
}

#[test]
fn failed_write() {
    let program = CaseProgram::find();
    let folder = repository().join("cases");
    for name in [
        "operations/worked-example",
        "bad-lines/bad-line-empty-input",
        "text-and-output/space-of-4096-bytes",
    ] {
        let input = File::open(folder.join(name).join("input")).expect("a stored case");
        let printed = program.run_with(input, open_to_write("/dev/full"));
        assert_complains(&printed);
    }
}
