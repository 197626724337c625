//! Every message of `run-case`, with what brings it up, its exit status, and what is printed with it.

use std::fs::{self, File, OpenOptions};
use std::os::unix::fs::{symlink, PermissionsExt};
use std::os::unix::net::UnixListener;
use std::os::unix::process::CommandExt;
use std::process::{Command, Stdio};
use std::sync::atomic::{AtomicUsize, Ordering};
use std::sync::Mutex;
use std::{env, io, thread};

use command::messages::messages;
use command::process::{run, wait_until, Ended, Running};
use command::room::{
    own_command, path_with, Room, SmallRepository, ENDLESS_CASE, NOBODY, REPORT, WAIT,
};
use command::system::{is_root, INT};
use command::terminal::{Terminal, REMOVE};

/// What is done, and what comes of it.
struct Scenario {
    name: &'static str,
    status: i32,
    says: &'static str,
    prints: &'static str,
    run: Run,
}

type Run = fn() -> Ended;

/// A scenario in which nothing is printed.
fn silent(name: &'static str, status: i32, says: &'static str, run: Run) -> Scenario {
    Scenario { name, status, says, prints: "", run }
}

/// A scenario in which the quick program's report is printed.
fn reporting(name: &'static str, status: i32, says: &'static str, run: Run) -> Scenario {
    Scenario { name, status, says, prints: REPORT, run }
}

fn before_building() -> impl IntoIterator<Item = Scenario> {
    const CLOSED: &str = "standard input is closed";
    const OUTSIDE: &str = "crates.txt or VERSION is missing in ";
    [
        silent("output is closed", 74, "standard output is closed", || by_shell("\"$case\" >&-")),
        silent("all streams are closed", 74, "", || by_shell("\"$case\" <&- >&- 2>&-")),
        silent("two files", 64, "2 arguments are too many", || with_words(&["one", "another"])),
        silent("two files, --", 64, "2 arguments", || with_words(&["--", "one", "another"])),
        silent("no such option", 64, "there is no option '-v': ", || with_words(&["-v"])),
        silent("help and more", 64, "--help stands alone", || with_words(&["--help", "one"])),
        silent("version and more", 64, "--version stands", || with_words(&["--version", "-v"])),
        silent("an empty argument", 64, "the argument is empty", || with_words(&[""])),
        silent("no such file", 66, "there is no file 'gone', ", || with_words(&["gone"])),
        silent("a link to no file", 66, "there is no file ", link_to_nothing),
        silent("a folder", 66, "'/' is a folder", || with_words(&["/"])),
        silent("a file of others", 66, "may not be read", file_of_others),
        silent("a socket", 66, "socket' cannot be opened", socket),
        silent("input is closed", 66, CLOSED, || by_shell("<&-")),
        silent("input is closed, -", 66, CLOSED, || by_shell("- <&-")),
        silent("no /dev/stdin", 66, "no file '/dev/stdin'", || by_shell("/dev/stdin <&-")),
        silent("a copy outside its repository", 69, OUTSIDE, || copy_outside(&["-"])),
        silent("the version of such a copy", 69, OUTSIDE, || copy_outside(&["--version"])),
    ]
}

fn while_building() -> impl IntoIterator<Item = Scenario> {
    const UNWRITTEN: &str = "target is not a folder that can be written";
    [
        reporting("a crate is proved", 0, "proved middle in 2 s, 2 of 3 crates", || {
            run(&mut SmallRepository::new().slow().command())
        }),
        reporting(
            "a first crate that takes long",
            0,
            "building the case program, 3 crates, ",
            || run(&mut SmallRepository::new().with_first("sleep 4\n").command()),
        ),
        reporting("proving, on a terminal", 0, "program, 2 of 3 crates, last middle: ", || {
            Terminal::new().start(&mut SmallRepository::new().command()).end()
        }),
        reporting(
            "another one builds",
            0,
            "waiting for another run-case, or the gate, to build in target/",
            || beside_another(|small| Running::start(&mut small.command())),
        ),
        reporting(
            "the same, on a terminal",
            0,
            "waiting for another run-case, or the gate, to build: ",
            || beside_another(|small| Terminal::new().start(&mut small.command())),
        ),
        reporting("no lock can be had", 0, " cannot be locked here", without_locks),
        silent("a source of others", 69, "the sources in ", source_of_others),
        silent("target is a file", 69, UNWRITTEN, || {
            let small = SmallRepository::new();
            small.room.write("target", "");
            run(&mut small.command())
        }),
        silent("target is of others", 69, UNWRITTEN, || of_others("target")),
        silent("the top is of others", 69, UNWRITTEN, || of_others("")),
        silent("a part is of others", 69, "target/bin is not a folder", || of_others("target/bin")),
        silent("no rt", 69, "rt is not on PATH", || without("rt")),
        silent("no awk", 69, "awk is not on PATH", || without("awk")),
        silent("no dd", 69, "dd is not on PATH", || without("dd")),
        silent("no readlink that works", 69, "it could not go on, status 1: ", || {
            let small = SmallRepository::new();
            small.room.write_program("tools/readlink", "#!/bin/sh\nexit 1\n");
            run(&mut small.command())
        }),
        silent("no flock", 69, "flock is not on PATH", || without("flock")),
        silent("no setsid", 69, "setsid is not on PATH", || without("setsid")),
        silent("a proof fails", 69, "not built, rt ended with status 1 in ", || {
            run(&mut SmallRepository::new().with_then("exit 1\n").command())
        }),
        silent("rt is killed", 69, "not built, rt ended with status 137 in ", || {
            run(&mut SmallRepository::new().with_first("kill -KILL $$\n").command())
        }),
        silent("no program is made", 69, "rt run made no ", || {
            run(&mut SmallRepository::new().with_then("exit 0\n").command())
        }),
        silent("a folder has the program's name", 69, "target/bin/case cannot be written", || {
            let small = SmallRepository::new();
            fs::create_dir_all(small.path("target/bin/case")).expect("folders");
            run(&mut small.command())
        }),
    ]
}

fn while_running() -> impl IntoIterator<Item = Scenario> {
    const UNWRITTEN: &str = "standard output cannot be written";
    const UNREAD: &str = "the case cannot be read, so there is no result (case: standard input cannot be read; nothing was printed)";
    [
        silent("a full disk", 74, UNWRITTEN, || by_shell("\"$case\" >/dev/full")),
        silent("help to a full disk", 74, UNWRITTEN, || by_shell("--help >/dev/full")),
        silent("the version to a full disk", 74, UNWRITTEN, || by_shell("--version >/dev/full")),
        silent("output is only open to read", 74, UNWRITTEN, || by_shell("\"$case\" 1</dev/null")),
        silent("a pipe that nobody reads", 74, UNWRITTEN, || unread("\"$case\"")),
        silent("help that nobody reads", 74, UNWRITTEN, || unread("--help")),
        silent("a version that nobody reads", 74, UNWRITTEN, || unread("--version")),
        silent("input is a folder", 74, UNREAD, || reading(File::open("/"))),
        silent("input is only open to write", 74, UNREAD, || {
            reading(OpenOptions::new().write(true).open("/dev/null"))
        }),
        silent("the case goes during the build", 66, "empty case' can no longer be opened", || {
            run(&mut SmallRepository::new().with_first("rm 'empty case'\n").command())
        }),
        silent("a program that prints nothing", 74, "no result (nothing was printed)", || {
            with_program("exit 0")
        }),
        silent("the program is killed", 69, "end, status 137, and there is no result", || {
            with_program("kill -KILL $$")
        }),
        silent("another program", 69, "status 141, and there is no result (y)", || {
            with_program("exec yes")
        }),
        silent("the program fails", 69, "status 3, and there is no result (some reason)", || {
            with_program("echo some reason >&2; exit 3")
        }),
        reporting("it is killed later", 69, "137, and what was printed is not complete", || {
            with_program("echo 0 0 0 0 0; kill -KILL $$")
        }),
        silent("a large budget, on a terminal", 128 + INT, "running the case, ", endless_case),
        reporting("a case that is typed", 0, "reading the case from the terminal", typed_case),
    ]
}

fn with_words(words: &[&str]) -> Ended {
    run(SmallRepository::new().command_alone().args(words))
}

fn by_shell(words: &str) -> Ended {
    run(&mut SmallRepository::new().shell(words))
}

fn with_program(script: &str) -> Ended {
    run(&mut SmallRepository::new().with_program(&format!("#!/bin/sh\n{script}\n")).command())
}

fn reading(input: io::Result<File>) -> Ended {
    let small = SmallRepository::new().with_own_program();
    run(small.command_alone().stdin(input.expect("an input that can be opened")))
}

fn link_to_nothing() -> Ended {
    let small = SmallRepository::new();
    symlink("gone", small.path("link")).expect("a link");
    run(small.command_alone().arg(small.path("link")))
}

fn socket() -> Ended {
    let small = SmallRepository::new();
    let path = small.path("socket");
    let _socket = UnixListener::bind(&path).expect("a socket");
    run(small.command_alone().arg(path))
}

fn without_locks() -> Ended {
    let small = SmallRepository::new();
    small.room.write_program("tools/flock", "#!/bin/sh\nexit 65\n");
    run(&mut small.command())
}

fn endless_case() -> Ended {
    let (small, terminal) = (SmallRepository::new().with_own_program(), Terminal::new());
    let case = small.room.write("endless case", ENDLESS_CASE);
    let running = terminal.start(small.command_alone().arg(case));
    running.wait_to_hear("running the case, ");
    terminal.press("\x03");
    running.end()
}

fn typed_case() -> Ended {
    let (small, terminal) = (SmallRepository::new(), Terminal::new());
    let running = terminal.start(small.command_alone().stdin(terminal.other_side()));
    running.wait_to_hear("reading the case from the terminal");
    terminal.press("\x04");
    running.end()
}

/// As somebody who owns nothing of the repository.
fn as_another(command: &mut Command) -> Ended {
    if is_root() {
        command.uid(NOBODY).gid(NOBODY);
    }
    run(command)
}

fn set_mode(small: &SmallRepository, name: &str, mode: u32) {
    fs::set_permissions(small.path(name), PermissionsExt::from_mode(mode)).expect("a mode");
}

fn file_of_others() -> Ended {
    let small = SmallRepository::new();
    set_mode(&small, "empty case", 0o000);
    as_another(&mut small.command())
}

fn source_of_others() -> Ended {
    let small = SmallRepository::built();
    set_mode(&small, "crates/low/src/lib.rt", 0o000);
    as_another(&mut small.command())
}

/// A build where one folder cannot be written.
fn of_others(folder: &str) -> Ended {
    let small = SmallRepository::new();
    fs::create_dir_all(small.path(folder)).expect("folders");
    if small.has("target") {
        set_mode(&small, "target", 0o777);
    }
    set_mode(&small, folder, 0o555);
    let ended = as_another(&mut small.command());
    set_mode(&small, folder, 0o755);
    assert_eq!(small.calls(), 0, "rt was called");
    ended
}

fn copy_outside(words: &[&str]) -> Ended {
    let room = Room::new();
    room.copy_program(&own_command(), "run-case");
    run(Command::new(room.path().join("run-case")).args(words).stdin(Stdio::null()))
}

/// What the second of two says.
fn beside_another(start: fn(&SmallRepository) -> Running) -> Ended {
    let small = SmallRepository::new().with_then(WAIT);
    let first = Running::start(&mut small.command());
    wait_until("rt is called", || small.has("tools/here"));
    let second = start(&small);
    second.wait_to_hear("waiting for another");
    small.go_on();
    assert_eq!((first.end().status, small.calls()), (0, 1));
    second.end()
}

/// A build on a machine that lacks one tool.
fn without(tool: &str) -> Ended {
    let (small, few) = (SmallRepository::new(), Room::new());
    let path = path_with(&small.path("tools"));
    let used =
        "bash awk cat cp dd find mkdir mv readlink sha256sum sleep sort xargs rt flock setsid";
    for name in used.split(' ').filter(|name| *name != tool) {
        let place =
            env::split_paths(&path).map(|folder| folder.join(name)).find(|place| place.exists());
        let place = place.unwrap_or_else(|| panic!("{name} is not on PATH"));
        symlink(place, few.path().join(name)).expect("a link");
    }
    run(small.command().env("PATH", few.path()))
}

/// Output to a pipe that nobody reads.
fn unread(words: &str) -> Ended {
    let (reader, writer) = io::pipe().expect("a pipe");
    drop(reader);
    // The test reads the command's own output, so the pipe comes in another way.
    run(SmallRepository::new().shell(&format!("{words} >&0")).stdin(writer))
}

/// Fails unless a scenario ended as it should, and returns what was told.
fn check(scenario: &Scenario) -> Vec<String> {
    let ended = (scenario.run)();
    // A terminal shows a key too.
    let shown = ended.stderr.replace(REMOVE, "").replace("^C", "");
    let told: Vec<String> = shown.split(['\r', '\n']).map(str::to_string).collect();
    for line in told.iter().filter(|line| !line.is_empty()) {
        // Where a proof fails, rt's lines are shown.
        let known =
            ["run-case: ", "rt: ", "fn ", "logic="].iter().any(|start| line.starts_with(start));
        assert!(known, "{}: who says {line:?}?", scenario.name);
    }
    let says =
        told.iter().any(|line| line.starts_with("run-case: ") && line.contains(scenario.says));
    assert!(
        says || scenario.says.is_empty(),
        "{}: it does not say {:?}: {ended:?}",
        scenario.name,
        scenario.says
    );
    assert_eq!(ended.status, scenario.status, "{}: {ended:?}", scenario.name);
    assert_eq!(ended.stdout, scenario.prints, "{}: {ended:?}", scenario.name);
    told
}

#[test]
fn every_message_has_a_scenario() {
    let mut scenarios: Vec<Scenario> = before_building().into_iter().collect();
    scenarios.extend(while_building());
    scenarios.extend(while_running());
    let told = Mutex::new(Vec::new());
    let next = AtomicUsize::new(0);
    thread::scope(|scope| {
        for _ in 0..4 {
            scope.spawn(|| {
                while let Some(scenario) = scenarios.get(next.fetch_add(1, Ordering::Relaxed)) {
                    let lines = check(scenario);
                    told.lock().expect("no scenario fails").extend(lines);
                }
            });
        }
    });
    let told = told.into_inner().expect("no scenario fails");
    let source = fs::read_to_string(own_command()).expect("run-case");
    let messages = messages(&source).unwrap_or_else(|complaint| panic!("run-case, {complaint}"));
    for message in &messages {
        let brought_up = told.iter().any(|line| message.is_told_by(line));
        assert!(
            brought_up,
            "run-case, line {}: no scenario brings up {:?}",
            message.line,
            message.text()
        );
    }
    println!("{} scenarios bring up all {} messages", scenarios.len(), messages.len());
}
