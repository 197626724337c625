//! Every stored case by the repository's own `run-case`: what is printed, and the exit status.

use std::process::{Command, Stdio};
use std::sync::atomic::{AtomicUsize, Ordering};
use std::sync::Mutex;
use std::thread;

use cases::process::repository;
use cases::stored::{read, StoredCase};
use cases::tally::{ending, Tally, ENDINGS};
use command::process::run;
use command::room::own_built_command;

/// Fails unless a case prints what is stored, and its ending is the exit status.
fn check(name: &str, case: &StoredCase) {
    let file = repository().join("cases").join(name).join("input");
    let ended = run(Command::new(own_built_command()).arg(file).stdin(Stdio::null()));
    let printed = ended.stdout.as_bytes();
    assert!(printed == case.output, "cases/{name}: printed {}\n{}", ended.stdout, ended.stderr);
    let number = ending(printed).expect("a report begins with its ending");
    let status = if number <= 1 { 0 } else { number };
    assert_eq!(ended.status as u64, status, "cases/{name}: {}", ended.stderr);
}

#[test]
fn stored_cases() {
    let stored =
        read(&repository().join("cases")).unwrap_or_else(|complaint| panic!("{complaint}"));
    let cases: Vec<_> = stored.iter().collect();
    let next = AtomicUsize::new(0);
    let tally = Mutex::new(Tally::default());
    thread::scope(|scope| {
        for _ in 0..4 {
            scope.spawn(|| {
                while let Some((name, case)) = cases.get(next.fetch_add(1, Ordering::Relaxed)) {
                    check(name, case);
                    tally.lock().expect("no case fails").count(&case.output);
                }
            });
        }
    });
    let tally = tally.into_inner().expect("no case fails");
    println!("stored cases, run-case: {tally}");
    tally.assert_quota(&ENDINGS, 1);
}
