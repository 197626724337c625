//! An interrupted `run-case` dies of the signal, and nothing that it started is left (which the end of
//! every command of these tests looks for). The next one works.

use std::ffi::c_int;
use std::fs;
use std::io;

use command::process::{run, wait_until, Running};
use command::room::{SmallRepository, ENDLESS_CASE, REPORT, WAIT};
use command::system::{HUP, INT, KILL, TERM};
use command::terminal::{seen, Terminal};

/// For the stand-in: leaves a process beside it that does not hear an interrupt, and waits.
const STUBBORN: &str = "(trap '' HUP INT; exec sleep 300) >\"$tools/log\" 2>&1 &\n";

fn building() -> SmallRepository {
    SmallRepository::new().with_then(&format!("{STUBBORN}{WAIT}"))
}

fn wait_for_rt(small: &SmallRepository) {
    wait_until("rt is called", || small.has("tools/here"));
}

/// Fails unless the next command builds and runs.
fn assert_works(small: &SmallRepository) {
    fs::remove_file(small.path("tools/between")).expect("a file");
    let ended = run(&mut small.command());
    assert_eq!((ended.status, ended.stdout.as_str()), (0, REPORT), "{}", ended.stderr);
    small.calls();
}

fn end_while_building(signal: c_int) {
    let small = building();
    let running = Running::start(&mut small.command());
    wait_for_rt(&small);
    running.signal(signal);
    let ended = running.end();
    assert_eq!((ended.status, ended.stdout.as_str()), (128 + signal, ""), "{}", ended.stderr);
    assert_works(&small);
}

#[test]
fn interrupted_while_building() {
    end_while_building(INT);
}

#[test]
fn terminated_while_building() {
    end_while_building(TERM);
}

#[test]
fn hung_up_while_building() {
    end_while_building(HUP);
}

#[test]
fn key_while_building() {
    let (small, terminal) = (building(), Terminal::new());
    let running = terminal.start(&mut small.command());
    wait_for_rt(&small);
    terminal.press("\x03");
    let ended = running.end();
    assert_eq!((ended.status, ended.stdout.as_str()), (128 + INT, ""));
    assert!(!ended.stderr.contains('\n') && seen(&ended.stderr).is_empty(), "{:?}", ended.stderr);
    assert_works(&small);
}

#[test]
fn what_does_not_end_is_killed() {
    let deaf = "(trap '' HUP INT TERM; while true; do sleep 1; done) &\n";
    let small = SmallRepository::new().with_then(&format!("trap '' TERM\n{deaf}{WAIT}"));
    let running = Running::start(&mut small.command());
    wait_for_rt(&small);
    running.signal(TERM);
    assert_eq!(running.end().status, 128 + TERM);
    assert_works(&small);
}

#[test]
fn ended_while_waiting_for_another() {
    let (small, terminal) = (SmallRepository::new().with_then(WAIT), Terminal::new());
    let first = Running::start(&mut small.command());
    wait_for_rt(&small);
    for signal in [INT, TERM, HUP] {
        let second = Running::start(&mut small.command());
        second.wait_to_hear("waiting for another");
        second.signal(signal);
        assert_eq!(second.end().status, 128 + signal);
    }
    let second = terminal.start(&mut small.command());
    second.wait_to_hear("waiting for another");
    terminal.press("\x03");
    assert_eq!(second.end().status, 128 + INT);
    small.go_on();
    let ended = first.end();
    assert_eq!((ended.status, ended.stdout.as_str()), (0, REPORT));
    assert_eq!(small.calls(), 1);
}

#[test]
fn ended_while_a_case_runs() {
    let small = SmallRepository::new().with_own_program();
    assert_eq!(run(&mut small.command()).stdout, "41 1 0 0 0\n");
    let case = small.room.write("endless case", ENDLESS_CASE);
    for signal in [INT, TERM, HUP] {
        let running = Running::start(small.command_alone().arg(&case));
        running.wait_for_process("target/bin/case");
        running.signal(signal);
        let ended = running.end();
        assert_eq!((ended.status, ended.stdout.as_str()), (128 + signal, ""), "{}", ended.stderr);
    }
    let terminal = Terminal::new();
    let running = terminal.start(small.command_alone().arg(&case));
    running.wait_to_hear("running the case");
    terminal.press("\x03");
    assert_eq!(running.end().status, 128 + INT);
    assert_eq!(run(&mut small.command()).stdout, "41 1 0 0 0\n");
}

#[test]
fn key_while_a_case_is_typed() {
    let (small, terminal) = (SmallRepository::new().with_own_program(), Terminal::new());
    let running = terminal.start(small.command_alone().stdin(terminal.other_side()));
    running.wait_to_hear("reading the case from the terminal");
    terminal.press("01\n\x03");
    let ended = running.end();
    assert_eq!((ended.status, ended.stdout.as_str()), (128 + INT, ""));
}

#[test]
fn ended_while_nobody_reads_the_result() {
    let long = "#!/bin/sh\necho '0 0 0 0 0'\nhead -c 300000 /dev/zero | tr '\\0' x\n";
    let small = SmallRepository::new().with_program(long);
    let (reader, writer) = io::pipe().expect("a pipe");
    let running = Running::start(small.shell("\"$case\" >&0").stdin(writer));
    running.wait_for_process("dd bs=");
    running.signal(TERM);
    assert_eq!(running.end().status, 128 + TERM);
    drop(reader);
}

#[test]
fn a_killed_command_keeps_the_lock_while_its_provers_run() {
    let small = SmallRepository::new().with_then(WAIT);
    let first = Running::start(&mut small.command());
    wait_for_rt(&small);
    first.signal(KILL);
    wait_until("the first is gone", || !first.is_running());
    let second = Running::start(&mut small.command());
    second.wait_to_hear("waiting for another");
    small.go_on();
    assert_eq!(first.end().status, 128 + KILL);
    let ended = second.end();
    assert_eq!((ended.status, ended.stdout.as_str()), (0, REPORT), "{}", ended.stderr);
    small.calls();
}

#[test]
fn the_program_of_a_killed_command_ends_when_it_prints() {
    let small = SmallRepository::new();
    let go = small.path("tools/go").display().to_string();
    let script = format!("#!/bin/sh\nuntil [ -e '{go}' ]; do sleep 0.05; done\nexec yes\n");
    let small = small.with_program(&script);
    let running = Running::start(&mut small.command());
    running.wait_for_process("/target/bin/case");
    running.signal(KILL);
    wait_until("the command is gone", || !running.is_running());
    small.go_on();
    assert_eq!(running.end().status, 128 + KILL);
}
