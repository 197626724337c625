//! The checks, on the repository that this package stands in.

use documents::repository::Repository;
use documents::{calls, edits, header, links, machine, opcodes, promises, reference, trace};
use std::env;
use std::path::Path;

fn must_have_no_problem(check: fn(&Repository) -> Vec<String>) {
    // asked for when the test runs, so that a copy never checks the folder where it was compiled
    let package = env::var("CARGO_MANIFEST_DIR").expect("cargo names the package's folder");
    let top = Path::new(&package).join("../..");
    let problems = check(&Repository::read(&top).expect("the repository can be read"));
    assert!(problems.is_empty(), "{} to mend:\n{}", problems.len(), problems.join("\n"));
}

#[test]
fn the_reference_has_its_rules_in_order_and_its_examples_hold() {
    must_have_no_problem(reference::problems);
}

#[test]
fn the_opcodes_of_the_reference_are_those_of_the_definition() {
    must_have_no_problem(opcodes::problems);
}

#[test]
fn the_header_has_the_numbers_of_the_reference_and_the_version() {
    must_have_no_problem(header::problems);
}

#[test]
fn the_calls_for_rust_are_those_of_the_header() {
    must_have_no_problem(calls::problems);
}

#[test]
fn the_trace_leads_to_what_is_declared() {
    must_have_no_problem(trace::problems);
}

#[test]
fn the_promises_are_declared() {
    must_have_no_problem(promises::problems);
}

#[test]
fn no_line_has_two_edits() {
    must_have_no_problem(edits::problems);
}

#[test]
fn links_and_paths_lead_somewhere() {
    must_have_no_problem(links::problems);
}

#[test]
fn no_file_names_a_folder_of_a_machine() {
    must_have_no_problem(machine::problems);
}
