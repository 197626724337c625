//! Checks that the archive is compiled as it was measured: what every operation goes through is compiled into the run's loop.
//!
//! The compiler inlines a function that has one caller, or that is small. Where a change gives one of them a second caller, or
//! makes it larger, it becomes a function of its own in the archive, and each operation pays for a call of it.

use std::env;
use std::path::Path;
use std::process::Command;

/// The loop of all runs: a function with several callers, called once a run, and by a speculative run with a window once an
/// operation.
const LOOP: &str = "run_labelled::run_any";

/// The functions of the archive beside those of the C interface. `value` alone is called by an operation; the C interface calls
/// it too. `run` and `labelled_run` are called once a run or step.
const CALLED: [&str; 6] = [
    LOOP,
    "arithmetic::value",
    "run_refusal::labelled_refusal",
    "runs::labelled_run",
    "runs::run",
    "validation::first_malformed",
];

#[test]
fn no_function_of_the_loop_is_called() {
    let names = functions();
    // Else the names are not those that this test knows.
    assert!(names.iter().any(|name| name == LOOP), "the archive has no {LOOP}, but:\n{names:#?}");
    let called: Vec<&String> = names
        .iter()
        .filter(|name| name.contains("::") && !CALLED.contains(&name.as_str()))
        .collect();
    assert!(
        called.is_empty(),
        "these were inlined before, and are functions of their own now: {called:?}\n\
         benchmarks/README.md says how to see what a call for each operation costs, docs/changes/A6.md why they are as they are"
    );
}

/// The names of the archive's functions, by nm.
fn functions() -> Vec<String> {
    let package = env::var("CARGO_MANIFEST_DIR").expect("cargo names the package's directory");
    let archive = Path::new(&package).join("../target/staticlib/libundrelvoa.a");
    let output =
        Command::new("nm").arg(archive).output().expect("nm runs: it is one of cc's binutils");
    assert!(output.status.success(), "nm cannot read the archive");
    let text = String::from_utf8(output.stdout).expect("names are text");
    // Lines such as '0000000000000000 t run_labelled::run_any'.
    text.lines()
        .filter_map(|line| {
            let mut words = line.splitn(3, ' ').skip(1);
            let kind = words.next()?;
            words.next().filter(|_| kind.eq_ignore_ascii_case("t")).map(str::to_string)
        })
        .collect()
}
