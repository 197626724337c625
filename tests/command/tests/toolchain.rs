//! The same with the true `rt`, on a repository of two small crates: what it prints is what `run-case`
//! reads, and its provers are ended.

use std::fs;
use std::path::PathBuf;
use std::process::{Command, Stdio};

use cases::process::repository;
use command::process::{run, Ended, Running};
use command::room::{own_command, Room, REPORT};
use command::system::{INT, TERM};
use command::terminal::{seen, Terminal};

const LIBRARY: &str = "\
#![tactic(auto)]

ghost use Rattle.std.specs.Prelude.{◌≡◌};

pub fn seven() -> usize
    ensures { result ≡ 7 }
{
    7
}
";

const PROGRAM: &str = "\
#![tactic(auto)]

use std::io;

fn main(rt: HostRuntime) -> io::Result<()> {
    println!(rt; \"0 0 0 0 0\")
}
";

/// The program's words in the list of processes.
const PROVER: &str = "rattle build";

/// The library as no other repository has it: rt takes from another one what that has proved of the same
/// text.
fn library(room: &Room) -> String {
    format!("// {}\n{LIBRARY}", room.path().display())
}

/// A program and the library below it, not yet proved.
fn two_crates() -> Room {
    let room = Room::new();
    room.copy_program(&own_command(), "run-case");
    fs::copy(repository().join("VERSION"), room.path().join("VERSION")).expect("VERSION");
    room.write("crates.txt", "# two\nsmall:\ncase: small\n");
    room.write("crates/small/src/lib.rt", &library(&room));
    room.write("crates/case/src/main.rt", PROGRAM);
    room.write("crates/case/stdout", REPORT);
    room
}

fn command(room: &Room) -> Command {
    let mut command = Command::new(path(room, "run-case"));
    command.arg("/dev/null").stdin(Stdio::null());
    command
}

fn path(room: &Room, name: &str) -> PathBuf {
    room.path().join(name)
}

fn assert_report(ended: &Ended) {
    assert_eq!((ended.status, ended.stdout.as_str()), (0, REPORT), "{}", ended.stderr);
}

/// The crates that a command told it had proved.
fn proved(ended: &Ended) -> Vec<&str> {
    let lines = ended.stderr.lines().filter_map(|line| line.strip_prefix("run-case: proved "));
    lines.map(|line| line.split(' ').next().unwrap_or_default()).collect()
}

#[test]
fn two_at_once_prove_once() {
    let room = two_crates();
    let running = [0, 1].map(|_| Running::start(&mut command(&room)));
    let ended = running.map(Running::end);
    ended.iter().for_each(assert_report);
    let mut by_each = ended.each_ref().map(proved);
    by_each.sort();
    assert_eq!(by_each, [vec![], vec!["small", "case"]], "{ended:?}");
    let told: String = ended.map(|one| one.stderr).concat();
    assert!(told.contains(", 1 of 2 crates\n") && told.contains(", 2 of 2 crates\n"), "{told}");

    let again = run(&mut command(&room));
    assert_report(&again);
    assert_eq!(again.stderr, "");

    for name in ["target/bin/case", "crates/case/out/case"] {
        fs::remove_file(path(&room, name)).expect("a program");
    }
    let again = run(&mut command(&room));
    assert_report(&again);
    assert_eq!(proved(&again), ["case"]);

    // rt finds all unchanged, and there is nothing to tell.
    fs::remove_file(path(&room, "target/run-case.built")).expect("a file");
    let again = run(&mut command(&room));
    assert_report(&again);
    assert_eq!(again.stderr, "");
}

#[test]
fn an_interrupt_ends_the_prover() {
    let room = two_crates();
    let running = Running::start(&mut command(&room));
    running.wait_for_process(PROVER);
    running.signal(TERM);
    assert_eq!(running.end().status, 128 + TERM);

    let terminal = Terminal::new();
    let running = terminal.start(&mut command(&room));
    running.wait_for_process(PROVER);
    terminal.press("\x03");
    assert_eq!(running.end().status, 128 + INT);

    let ended = terminal.start(&mut command(&room)).end();
    assert_report(&ended);
    assert!(
        ended.stderr.contains("proving the case program, 1 of 2 crates, last small: "),
        "{:?}",
        ended.stderr
    );
    assert!(!ended.stderr.contains('\n') && seen(&ended.stderr).is_empty(), "{:?}", ended.stderr);
}

#[test]
fn a_crate_that_is_not_proved() {
    let room = two_crates();
    room.write("crates/small/src/lib.rt", &library(&room).replace("≡ 7", "≡ 8"));
    let ended = run(&mut command(&room));
    assert_eq!((ended.status, ended.stdout.as_str()), (69, ""));
    for said in
        ["logic=not-proved", "run-case: the case program was not built, rt ended with status 1 in "]
    {
        assert!(ended.stderr.contains(said), "no {said:?} in {}", ended.stderr);
    }
}
