//! When the program is built and when not, and what is shown meanwhile. A stand-in for `rt` does the
//! building.

use std::fs::{self, File};
use std::os::unix::process::CommandExt;
use std::process::{Command, Stdio};
use std::thread;
use std::time::{Duration, SystemTime};

use command::process::{run, wait_until, Ended, Running};
use command::room::{path_with, Room, SmallRepository, NOBODY, QUICK_PROGRAM, REPORT, WAIT};
use command::system::is_root;
use command::terminal::{seen, Terminal, REMOVE};

/// Runs the command, which must print the quick program's report, and returns what it told.
fn told(small: &SmallRepository) -> String {
    let ended = run(&mut small.command());
    assert_eq!((ended.status, ended.stdout.as_str()), (0, REPORT), "{}", ended.stderr);
    ended.stderr
}

/// Fails unless the command builds nothing and tells nothing.
fn assert_fresh(small: &SmallRepository, what: &str) {
    let calls = small.calls();
    assert_eq!(told(small), "", "{what}");
    assert_eq!(small.calls(), calls, "{what}: rt was called");
}

/// Fails unless the command builds, and then not again.
fn assert_builds(small: &SmallRepository, what: &str) {
    let calls = small.calls();
    told(small);
    assert_eq!(small.calls(), calls + 1, "{what}: rt was not called");
    assert_fresh(small, &format!("{what}, the second time"));
}

#[test]
fn each_new_crate_is_told() {
    let small = SmallRepository::new().slow();
    let expected = "run-case: proved middle in 2 s, 2 of 3 crates\n\
                    run-case: proved case in 3 s, 3 of 3 crates\n";
    assert_eq!(told(&small), expected);
}

#[test]
fn nothing_is_built_again() {
    let small = SmallRepository::built();
    assert_fresh(&small, "nothing changed");
    for name in ["crates.txt", "crates/low/src/lib.rt", "crates/case/src/main.rt", "run-case"] {
        let later = SystemTime::now() + Duration::from_secs(1_000);
        File::open(small.path(name)).and_then(|file| file.set_modified(later)).expect("a time");
    }
    assert_fresh(&small, "touched files");
    small.room.write("crates/aside/src/lib.rt", "// another\n");
    small.room.write("crates/low/must-fail/one.edit", "file: src/lib.rt\n");
    small.room.write("notes", "some\n");
    small.room.write("crates/low/src/.lib.rt.swp", "an editor's\n");
    small.room.write("crates/low/src/lib.rt~", "an editor's\n");
    assert_fresh(&small, "files that the program is not made of");
}

#[test]
fn changed_sources_are_built() {
    let small = SmallRepository::built();
    for name in [
        "crates.txt",
        "crates/low/src/lib.rt",
        "crates/low/specs/Low.antt",
        "crates/middle/proofs/half/Proof.antt",
        "crates/case/src/main.rt",
        "crates/case/stdin",
        "crates/case/stdout",
    ] {
        let before = fs::read_to_string(small.path(name)).unwrap_or_default();
        small.room.write(name, &format!("{before}# more\n"));
        assert_builds(&small, name);
    }
    fs::rename(small.path("crates/low/specs/Low.antt"), small.path("crates/low/specs/High.antt"))
        .expect("a file");
    assert_builds(&small, "another name");
    fs::remove_file(small.path("crates/low/specs/High.antt")).expect("a file");
    assert_builds(&small, "a file less");
}

#[test]
fn a_lost_program_is_built() {
    let small = SmallRepository::built();
    fs::remove_file(small.path("target/bin/case")).expect("a program");
    assert_builds(&small, "no program");
    fs::remove_dir_all(small.path("target")).expect("a folder");
    assert_builds(&small, "no target");
    fs::remove_file(small.path("target/run-case.built")).expect("a file");
    assert_builds(&small, "no stamp");
}

#[test]
fn a_replaced_program_is_built() {
    let small = SmallRepository::built();
    small.room.write_program("target/bin/case", "#!/bin/sh\necho '41 1 0 0 0'\n");
    assert_builds(&small, "another program");
}

#[test]
fn a_program_of_other_sources_is_built() {
    let small = SmallRepository::built();
    let source = fs::read_to_string(small.path("crates/low/src/lib.rt")).expect("a source");
    small.room.write("crates/low/src/lib.rt", "// another\n");
    let small = small.with_program("#!/bin/sh\necho '41 1 0 0 0'\n");
    assert_eq!(run(&mut small.command()).stdout, "41 1 0 0 0\n");
    small.room.write("crates/low/src/lib.rt", &source);
    assert_builds(
        &small.with_program(QUICK_PROGRAM),
        "sources as they were, and a program of others",
    );
}

#[test]
fn sources_that_change_during_the_build_are_built() {
    let edit = "[ -e \"$tools/edited\" ] || echo '// more' | tee \"$tools/edited\" >>crates/low/src/lib.rt\n";
    let small = SmallRepository::new().with_then(edit);
    told(&small);
    assert_builds(&small, "a source that changed during the build");
}

#[test]
fn a_moved_repository_is_fresh() {
    let (small, room) = (SmallRepository::built(), Room::new());
    let moved = room.path().join("moved here");
    fs::rename(small.room.path(), &moved).expect("a folder");
    let mut command = Command::new(moved.join("run-case"));
    command
        .arg(moved.join("empty case"))
        .env("PATH", path_with(&moved.join("tools")))
        .stdin(Stdio::null());
    let ended = run(&mut command);
    assert_eq!((ended.status, ended.stdout.as_str(), ended.stderr.as_str()), (0, REPORT, ""));
    fs::rename(&moved, small.room.path()).expect("a folder");
    assert_eq!(small.calls(), 1);
}

#[test]
fn a_stamp_that_cannot_be_written_is_no_failure() {
    let small = SmallRepository::new();
    fs::create_dir_all(small.path("target/run-case.built")).expect("a folder");
    told(&small);
    told(&small);
    assert_eq!(small.calls(), 2);
}

#[test]
fn a_fresh_program_needs_no_folder_to_write_to() {
    if !is_root() {
        println!("not root: whether target can be written is only tested where it is needed");
        return;
    }
    let small = SmallRepository::built();
    let ended = run(small.command().uid(NOBODY).gid(NOBODY));
    assert_eq!((ended.status, ended.stdout.as_str(), ended.stderr.as_str()), (0, REPORT, ""));
}

#[test]
fn many_at_once() {
    let small = SmallRepository::new().with_then("sleep 0.3\n");
    let running: Vec<Running> = (0..5).map(|_| Running::start(&mut small.command())).collect();
    for running in running {
        let ended = running.end();
        assert_eq!((ended.status, ended.stdout.as_str()), (0, REPORT), "{}", ended.stderr);
    }
    assert_eq!(small.calls(), 1);
}

#[test]
fn one_at_a_time_though_a_file_is_replaced() {
    let small = SmallRepository::new().with_then(WAIT);
    let first = Running::start(&mut small.command());
    wait_until("rt is called", || small.has("tools/here"));
    let list = fs::read_to_string(small.path("crates.txt")).expect("crates.txt");
    let list = small.room.write("new crates.txt", &list);
    fs::rename(list, small.path("crates.txt")).expect("a file in the place of another");
    let second = Running::start(&mut small.command());
    second.wait_to_hear("waiting for another");
    small.go_on();
    assert_eq!((first.end().status, second.end().status, small.calls()), (0, 0, 1));
}

#[test]
fn one_of_two_fails() {
    let failing = "[ -e \"$tools/failed\" ] || { touch \"$tools/failed\"; sleep 0.5; exit 1; }\n";
    let small = SmallRepository::new().with_then(failing);
    let running = [0, 1].map(|_| Running::start(&mut small.command()));
    let mut statuses = running.map(|running| running.end().status);
    statuses.sort();
    assert_eq!((statuses, small.calls()), ([0, 69], 2));
}

#[test]
fn a_failure_shows_the_last_lines() {
    let failing =
        "for line in $(seq 30); do echo \"line $line\"; done\necho 'rt: FAILED: case'\nexit 1\n";
    let small = SmallRepository::new().slow().with_then(failing);
    let Ended { stdout, stderr, status } = run(&mut small.command());
    assert_eq!((status, stdout.as_str()), (69, ""));
    let lines: Vec<&str> = stderr.lines().collect();
    let shown: Vec<String> = (12..=30).map(|line| format!("line {line}")).collect();
    assert_eq!(lines[0], "run-case: proved middle in 2 s, 2 of 3 crates");
    assert_eq!(lines[1..20], shown);
    assert_eq!(lines[20], "rt: FAILED: case");
    assert_eq!(lines.len(), 22, "{stderr}");
    fs::remove_file(small.path("tools/between")).expect("a file");
    fs::remove_file(small.path("tools/slow")).expect("a file");
    assert_builds(&small, "after a failure");
}

/// Fails unless a terminal showed one line that moved, with these texts in it, and nothing is left of it.
fn assert_moved(ended: &Ended, texts: &[&str]) {
    let shown = &ended.stderr;
    assert!(!shown.contains('\n'), "more than one line: {shown:?}");
    for text in texts {
        assert!(shown.contains(&format!("\r{REMOVE}run-case: {text}")), "no {text:?} in {shown:?}");
    }
    assert_eq!(seen(shown), [""; 0], "{shown:?}");
}

#[test]
fn one_line_moves_while_proving() {
    let small = SmallRepository::new().with_then("sleep 2\n");
    let ended = Terminal::new().start(&mut small.command()).end();
    assert_eq!((ended.status, ended.stdout.as_str()), (0, REPORT));
    let of_3 = |text: &str| format!("proving the case program, {text}");
    let texts = [
        "0 of 3 crates: ",
        "1 of 3 crates, last low: ",
        "2 of 3 crates, last middle: ",
        "3 of 3 crates, last case: ",
    ];
    let texts = texts.map(of_3);
    assert_moved(&ended, &texts.each_ref().map(String::as_str));
    let waiting = ended.stderr.matches("2 of 3 crates").count();
    assert!(waiting >= 2, "no second is shown while a crate is proved: {:?}", ended.stderr);
}

#[test]
fn the_line_fits_the_terminal() {
    let (small, terminal) = (SmallRepository::new(), Terminal::new());
    terminal.set_width(30);
    let ended = terminal.start(&mut small.command()).end();
    assert_moved(&ended, &["proving the"]);
    let longest = ended.stderr.replace(REMOVE, "").split('\r').map(str::len).max();
    assert!(longest <= Some(30), "{:?}", ended.stderr);
}

#[test]
fn a_plain_terminal_shows_lines() {
    let small = SmallRepository::new().slow();
    let ended = Terminal::new().start_as("dumb", &mut small.command()).end();
    let lines = ["proved middle in 2 s, 2 of 3 crates", "proved case in 3 s, 3 of 3 crates"];
    assert_eq!(ended.stderr, lines.map(|line| format!("run-case: {line}\r\n")).concat());
}

#[test]
fn one_line_moves_while_running() {
    let small = SmallRepository::new().with_program("#!/bin/sh\nsleep 2.5\necho '2 0 0 0 0'\n");
    let ended = Terminal::new().start(&mut small.command()).end();
    assert_eq!((ended.status, ended.stdout.as_str()), (2, "2 0 0 0 0\n"));
    assert_moved(&ended, &["running the case, "]);
}

#[test]
fn no_line_moves_where_it_is_no_terminal() {
    let small = SmallRepository::built().with_program("#!/bin/sh\nsleep 2.5\necho '2 0 0 0 0'\n");
    for name in ["target/bin/case", "crates/case/out/case"] {
        fs::remove_file(small.path(name)).expect("a program");
    }
    let ended = run(&mut small.command());
    assert_eq!((ended.status, ended.stdout.as_str()), (2, "2 0 0 0 0\n"));
    assert!(
        !ended.stderr.contains(['\r']) && !ended.stderr.contains("running"),
        "{:?}",
        ended.stderr
    );
}

#[test]
fn no_line_moves_while_somebody_types() {
    let (small, terminal) = (SmallRepository::built(), Terminal::new());
    let running = terminal.start(small.command_alone().arg("-").stdin(terminal.other_side()));
    running.wait_to_hear("reading the case from the terminal");
    // Long enough for the line to come, if it came.
    thread::sleep(Duration::from_millis(2_500));
    terminal.press("01\n\x04");
    let ended = running.end();
    assert_eq!((ended.status, ended.stdout.as_str()), (0, REPORT));
    let lines = seen(&ended.stderr);
    assert_eq!(lines.len(), 2, "{lines:?}");
    assert!(lines[0].starts_with("run-case: reading the case") && lines[1] == "01", "{lines:?}");
}
