//! The stored cases: the case program and the second program print what is stored, and the lists of
//! `cases/README.md` are made from the titles.

use std::collections::BTreeMap;
use std::fs;
use std::path::PathBuf;

use cases::list::{difference, with_lists, DOCUMENT};
use cases::process::{assert_printed, repository, CaseProgram, WHOLE};
use cases::stored::{names_in, read, StoredCase, FILES};
use cases::tally::{ending, Tally, ENDINGS};
use reference::case::{output, BAD_LINE};

const FEWEST_CASES: usize = 70;
const FEWEST_WORKED_BY_HAND: usize = 15;

fn folder() -> PathBuf {
    repository().join("cases")
}

fn stored() -> BTreeMap<String, StoredCase> {
    read(&folder()).unwrap_or_else(|complaint| panic!("{complaint}"))
}

#[test]
fn stored_cases() {
    let program = CaseProgram::find();
    let mut tally = Tally::default();
    for (name, case) in &stored() {
        let printed = program.run(&case.input, WHOLE);
        assert_printed(&printed, &case.output, &case.input, &format!("cases/{name}"));
        tally.count(&printed.stdout);
    }
    println!("stored cases, {}: {tally}", program.name());
}

#[test]
fn stored_cases_in_single_bytes() {
    const LONGEST: usize = 2_000;
    let program = CaseProgram::find();
    let mut tally = Tally::default();
    for (name, case) in stored().iter().filter(|(_, case)| case.input.len() <= LONGEST) {
        let printed = program.run(&case.input, 1);
        assert_printed(&printed, &case.output, &case.input, &format!("cases/{name}, byte by byte"));
        tally.count(&printed.stdout);
    }
    println!("stored cases, byte by byte: {tally}");
}

#[test]
fn second_program_on_stored_cases() {
    let mut tally = Tally::default();
    for (name, case) in &stored() {
        let printed = output(&case.input);
        let [printed, stored] =
            [&printed, &case.output].map(|bytes| String::from_utf8_lossy(bytes));
        assert!(printed == stored, "cases/{name}\nsecond program:\n{printed}\nstored:\n{stored}");
        tally.count(&case.output);
    }
    println!("stored cases, second program: {tally}");
    tally.assert_quota(&ENDINGS, 1);
}

#[test]
fn names_of_bad_lines() {
    for (name, case) in &stored() {
        let is_bad = ending(&case.output) == Some(BAD_LINE);
        assert_eq!(name.starts_with("bad-lines/"), is_bad, "cases/{name}: a bad line, or none");
    }
}

#[test]
fn folders_have_three_files() {
    for name in stored().keys() {
        let names = names_in(&folder().join(name)).expect("a folder of cases/");
        assert_eq!(names, FILES, "the files of cases/{name}");
    }
}

#[test]
fn lists_have_the_titles() {
    let document = fs::read_to_string(repository().join(DOCUMENT)).expect(DOCUMENT);
    let made = with_lists(&document, &stored()).unwrap_or_else(|complaint| panic!("{complaint}"));
    if let Some(message) = difference(&document, &made) {
        panic!("{message}");
    }
}

#[test]
fn enough_are_worked_by_hand() {
    let stored = stored();
    let by_hand = stored.values().filter(|case| case.is_worked_by_hand()).count();
    println!("stored cases: {}, of which {by_hand} are worked by hand", stored.len());
    assert!(stored.len() >= FEWEST_CASES);
    assert!(by_hand >= FEWEST_WORKED_BY_HAND);
}
