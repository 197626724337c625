//! The stored vectors: the calls of the C interface and the second program leave what is stored, and
//! `vectors/README.md` has their titles.

use std::collections::BTreeMap;
use std::env;
use std::fs;
use std::path::{Path, PathBuf};

use compare::fillings::filling_report;
use compare::runs::{interpreter_report, Case, Job};
use compare::speculations::{speculative_report, Speculation};
use compare::stored::{names_in, read, StoredCase, FILES};
use reference::vector::{output, Vector};

const FEWEST_VECTORS: usize = 8;
const FEWEST_WORKED_BY_HAND: usize = 3;

/// It is asked for when a test runs, so that a copy never tests the folder where it was compiled.
fn folder() -> PathBuf {
    let package = env::var("CARGO_MANIFEST_DIR").expect("cargo names the package's folder");
    Path::new(&package).join("../../vectors")
}

fn stored() -> BTreeMap<String, StoredCase> {
    read(&folder()).unwrap_or_else(|complaint| panic!("{complaint}"))
}

/// Compares what `leave` leaves for each vector's text with what is stored.
fn check(what: &str, leave: fn(&str) -> Result<String, String>) {
    let stored = stored();
    for (name, vector) in &stored {
        let input = String::from_utf8_lossy(&vector.input);
        let left = leave(&input).unwrap_or_else(|complaint| panic!("vectors/{name}: {complaint}"));
        let expected = String::from_utf8_lossy(&vector.output);
        assert!(left == expected, "vectors/{name}\n{what}:\n{left}\nstored:\n{expected}");
    }
    println!("stored vectors, {what}: {} agreed", stored.len());
}

/// What the interpreter leaves for the text of a vector.
fn left_by_interpreter(text: &str) -> Result<String, String> {
    let (report, left) = match Vector::read(text)? {
        Vector::Run { call, state, window: Some(window) } => {
            let mut speculation = Speculation { case: Case { call, state }, window };
            let report = speculative_report(&mut speculation);
            let Speculation { case: Case { call, state }, window } = speculation;
            (report, Vector::Run { call, state, window: Some(window) })
        }
        Vector::Run { call, state, window: None } => {
            let mut case = Case { call, state };
            let report = interpreter_report(Job::Run, &mut case);
            let Case { call, state } = case;
            (report, Vector::Run { call, state, window: None })
        }
        Vector::CountSecrets { labels, mut counts } => {
            let report = filling_report(&labels, &mut counts);
            (report, Vector::CountSecrets { labels, counts })
        }
    };
    Ok(left.printed(&report))
}

#[test]
fn stored_vectors() {
    check("interpreter", left_by_interpreter);
}

#[test]
fn second_program_on_stored_vectors() {
    check("second program", output);
}

#[test]
fn headings_are_the_calls() {
    for (name, vector) in stored() {
        let input = String::from_utf8_lossy(&vector.input).into_owned();
        let call = input.lines().next().and_then(|line| line.strip_prefix("call "));
        let heading = name.split('/').next();
        assert_eq!(call, heading, "the call of vectors/{name}, and its heading");
    }
}

#[test]
fn folders_have_three_files() {
    for name in stored().keys() {
        let names = names_in(&folder().join(name)).expect("a folder of vectors/");
        assert_eq!(names, FILES, "the files of vectors/{name}");
    }
}

#[test]
fn rows_have_the_titles() {
    let document = fs::read_to_string(folder().join("README.md")).expect("vectors/README.md");
    let rows: Vec<&str> = document.lines().filter(|line| line.starts_with("| [")).collect();
    let wanted: Vec<String> = stored().iter().map(|(path, vector)| row(path, vector)).collect();
    assert_eq!(rows, wanted, "the rows of vectors/README.md, and those wanted");
}

fn row(path: &str, vector: &StoredCase) -> String {
    let name = path.rsplit('/').next().unwrap_or(path);
    let title = vector.title().unwrap_or_else(|| panic!("vectors/{path}/about.md has no title"));
    let by_hand = if vector.is_worked_by_hand() { " (by hand)" } else { "" };
    format!("| [`{name}`]({path}/about.md) | {title}{by_hand} |")
}

#[test]
fn enough_are_worked_by_hand() {
    let stored = stored();
    let by_hand = stored.values().filter(|vector| vector.is_worked_by_hand()).count();
    println!("stored vectors: {}, of which {by_hand} are worked by hand", stored.len());
    assert!(stored.len() >= FEWEST_VECTORS);
    assert!(by_hand >= FEWEST_WORKED_BY_HAND);
}
