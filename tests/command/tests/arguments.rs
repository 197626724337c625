//! Where the case comes from, where `run-case` stands, and what it prints about itself.

use std::fs::{self, File};
use std::io::Write;
use std::os::unix::fs::symlink;
use std::path::{Path, PathBuf};
use std::process::{Command, Stdio};

use cases::process::repository;
use cases::tally::ENDINGS;
use command::process::{run, wait_until, Ended, Running};
use command::room::{own_built_command, path_with, Room};
use command::system::TERM;

/// A stored case whose output has several lines, and its ending 0.
const CASE: &str = "cases/operations/worked-example";

fn input() -> PathBuf {
    repository().join(CASE).join("input")
}

/// Fails unless the result of the stored case was printed, and nothing else.
fn assert_result(ended: &Ended, what: &str) {
    let expected =
        fs::read_to_string(repository().join(CASE).join("output")).expect("a stored case");
    assert_eq!(ended.stdout, expected, "{what}: {}", ended.stderr);
    assert_eq!((ended.status, ended.stderr.as_str()), (0, ""), "{what}");
}

fn own() -> Command {
    let mut command = Command::new(own_built_command());
    command.stdin(Stdio::null());
    command
}

fn by_shell(script: &str) -> Ended {
    let mut shell = Command::new("bash");
    shell.args(["-c", script]).stdin(Stdio::null());
    run(shell.env("command", own_built_command()).env("input", input()))
}

#[test]
fn a_file() {
    assert_result(&run(own().arg(input())), "a file");
    assert_result(&run(own().arg("--").arg(input())), "a file behind --");
}

#[test]
fn a_name_with_blanks_or_a_dash() {
    let room = Room::new();
    let text = fs::read_to_string(input()).expect("a stored case");
    for name in ["-", "-x", "--help", " a  case ", "*", "$name", "a\\b"] {
        let path = room.write(name, &text);
        assert_result(&run(own().arg(path)), name);
        let name = if name == "-" { "./-" } else { name };
        assert_result(&run(own().arg("--").arg(name).current_dir(room.path())), name);
    }
}

#[test]
fn standard_input() {
    for words in [&[][..], &["-"], &["--"], &["--", "-"], &["/dev/stdin"], &["/dev/fd/0"]] {
        let file = File::open(input()).expect("a stored case");
        assert_result(&run(own().args(words).stdin(file)), &format!("{words:?}"));
    }
}

#[test]
fn pipes() {
    for script in [
        "cat \"$input\" | \"$command\"",
        "cat \"$input\" | \"$command\" -",
        "cat \"$input\" | \"$command\" /dev/stdin",
        "\"$command\" <(cat \"$input\")",
        "\"$command\" \"$input\" | cat",
    ] {
        assert_result(&by_shell(script), script);
    }
}

#[test]
fn the_first_line_alone() {
    let script = "set -o pipefail; \"$command\" \"$input\" | head -n 1";
    for _ in 0..10 {
        let ended = by_shell(script);
        assert_eq!(
            (ended.status, ended.stdout.as_str(), ended.stderr.as_str()),
            (0, "0 3 3 1 0\n", "")
        );
    }
}

#[test]
fn a_named_pipe() {
    let room = Room::new();
    let pipe = room.path().join("named pipe");
    assert!(Command::new("mkfifo").arg(&pipe).status().expect("mkfifo").success());
    let running = Running::start(own().arg(&pipe));
    let text = fs::read(input()).expect("a stored case");
    File::options().write(true).open(&pipe).expect("a pipe").write_all(&text).expect("a reader");
    assert_result(&running.end(), "a named pipe");

    // One that nobody writes to is waited for, by a process beside the command's, and the command can be
    // ended. Before that there is a second process for moments only.
    let running = Running::start(own().arg(&pipe));
    let mut in_a_row = 0;
    wait_until("a process waits for the pipe", || {
        in_a_row = if running.count("named pipe") == 2 { in_a_row + 1 } else { 0 };
        in_a_row == 20
    });
    running.signal(TERM);
    assert_eq!(running.end().status, 128 + TERM);
}

#[test]
fn closed_streams_that_are_not_needed() {
    for closed in ["<&-", "2>&-", "<&- 2>&-"] {
        let ended = by_shell(&format!("\"$command\" \"$input\" {closed}"));
        assert_result(&ended, closed);
    }
}

#[test]
fn links_on_the_search_path() {
    let room = Room::new();
    let folder = |name: &str| {
        let folder = room.path().join(name);
        fs::create_dir(&folder).expect("a folder");
        folder
    };
    let link = |to: &Path, at: &Path| symlink(to, at).expect("a link");
    let (absolute, relative, chain) = (folder("absolute"), folder("relative"), folder("a chain"));
    link(&fs::canonicalize(own_built_command()).expect("run-case"), &absolute.join("run-case"));
    link(Path::new("../absolute/run-case"), &relative.join("run-case"));
    link(&relative.join("run-case"), &room.path().join("middle"));
    link(Path::new("../middle"), &chain.join("run-case"));
    for place in [&absolute, &relative, &chain] {
        // The test's own search path finds no run-case, so a shell looks it up.
        let mut shell = Command::new("bash");
        shell
            .args(["-c", "exec run-case \"$input\""])
            .env("input", fs::canonicalize(input()).expect("a case"));
        shell.env("PATH", path_with(place)).stdin(Stdio::null()).current_dir(room.path());
        assert_result(&run(&mut shell), &place.display().to_string());
    }
}

#[test]
fn no_status_of_a_shell_looks_like_an_ending() {
    // Another shell would end with 2 at the first line that it does not know.
    let by_sh = "[ -n \"$(sh -c 'echo ${BASH_VERSION:-}')\" ] || sh \"$command\" \"$input\"";
    for script in
        [&format!("{by_sh} || exit $?; exit 69"), "ulimit -n 12; exec \"$command\" \"$input\""]
    {
        let ended = by_shell(script);
        assert_eq!((ended.status, ended.stdout.as_str()), (69, ""), "{script}: {ended:?}");
    }
}

#[test]
fn help() {
    let ended = run(own().arg("--help"));
    assert_eq!((ended.status, ended.stderr.as_str()), (0, ""));
    let text = &ended.stdout;
    for said in
        ["usage: run-case", "secret bytes in clear", "public build log", "--version", "21 to 26"]
    {
        assert!(text.contains(said), "the help does not say {said:?}:\n{text}");
    }
    let numbers: Vec<u64> =
        text.lines().filter_map(|line| line.split_whitespace().next()?.parse().ok()).collect();
    let alone = ENDINGS.iter().filter(|ending| **ending != 1 && !(21..=26).contains(*ending));
    for number in alone.chain(&[64, 66, 69, 74]) {
        assert!(numbers.contains(number), "the help has no line for {number}:\n{text}");
    }
    assert!(text.lines().all(|line| line.len() <= 110), "a line of the help is long");
}

#[test]
fn version() {
    let version = fs::read_to_string(repository().join("VERSION")).expect("VERSION");
    let ended = run(own().arg("--version"));
    assert_eq!((ended.status, ended.stderr.as_str()), (0, ""));
    assert_eq!(ended.stdout, format!("undrelvoa {version}"));
}
