//! Pairs of memories that differ in secret bytes, and what must not show of them.

use std::fmt::Display;
use std::iter::zip;

use reference::fault::LEAK;
use reference::machine::State;
use reference::memory::{Spaces, SECRET};

use crate::programs::Programs;
use crate::runs::{interpreter_report, Case, Job};

/// The labels of a labelled state.
pub fn labels(state: &State) -> &Spaces {
    state.labels.as_ref().expect("a labelled state")
}

/// The same state with other secret bytes, and with other words in log and counts.
pub fn with_other_secrets(state: &State, programs: &mut Programs) -> State {
    let mut other = State { counts: programs.other_counts(state), ..state.clone() };
    for (space, labels) in zip(other.memory.all_mut(), labels(state).all()) {
        for (byte, _) in zip(space, labels).filter(|(_, &label)| label == SECRET) {
            *byte = programs.random().word() as u8;
        }
    }
    other.log.iter_mut().for_each(|word| *word = !*word);
    other
}

/// What a run left: its report and its state.
pub type Left<'a> = ([u64; 5], &'a State);

/// Fails if a secret byte shows in what two runs left. `before` says what they ran on.
pub fn assert_secrets_do_not_show<T: Display>(before: &[T; 2], left: [Left; 2]) {
    let [on_one, on_other] = before;
    let [(report, one), (other_report, other)] = left;
    assert_eq!(report, other_report, "the reports on\n{on_one}and on\n{on_other}");
    let [log, other_log] = left.map(|(report, state)| written_log(state, &report));
    assert_eq!(log, other_log, "the log words of\n{on_one}and of\n{on_other}");
    assert!(labels(one) == labels(other), "other labels after\n{on_one}and\n{on_other}");
    assert!(
        public_bytes_agree(&one.memory, &other.memory, labels(one)),
        "other public bytes after\n{on_one}and\n{on_other}"
    );
}

/// Whether two memories agree in each byte that is public.
fn public_bytes_agree(one: &Spaces, other: &Spaces, labels: &Spaces) -> bool {
    zip(labels.all(), zip(one.all(), other.all())).all(|(labels, (bytes, others))| {
        zip(labels, zip(bytes, others))
            .all(|(&label, (one, other))| label == SECRET || one == other)
    })
}

/// The log words that a run wrote.
pub fn written_log<'a>(state: &'a State, report: &[u64; 5]) -> &'a [u64] {
    &state.log[..report[3] as usize]
}

/// A case that `draw` makes and the same with other secret bytes, drawn until the two differ.
pub fn memory_pair(programs: &mut Programs, draw: fn(&mut Programs) -> Case) -> [Case; 2] {
    loop {
        let one = draw(programs);
        let state = with_other_secrets(&one.state, programs);
        let other = Case { state, ..one.clone() };
        if one.state.memory != other.state.memory {
            return [one, other];
        }
    }
}

/// Runs a case and the same with other secret bytes, and fails if a secret byte shows, or if the plain
/// run does otherwise. Gives back both as they were left, and the report.
pub fn check_pair(before: &[Case; 2]) -> ([Case; 2], [u64; 5]) {
    let mut after = before.clone();
    let [report, other_report] = after.each_mut().map(|case| interpreter_report(Job::Run, case));
    let [one, other] = &after;
    assert_secrets_do_not_show(before, [(report, &one.state), (other_report, &other.state)]);
    for (before, after) in zip(before, &after) {
        assert_plain_run_is_the_same(before, after, &report);
    }
    (after, report)
}

/// Fails unless the plain run does what the labelled run did, where that did not end with LEAK and
/// did not refuse its labels or counts.
fn assert_plain_run_is_the_same(before: &Case, after: &Case, report: &[u64; 5]) {
    if report[0] == LEAK || !labels_hold(&before.state) {
        return;
    }
    let mut plain = before.plain();
    let plain_report = interpreter_report(Job::Run, &mut plain);
    assert_eq!(plain_report, *report, "the reports, plain and labelled, on\n{before}");
    assert_eq!(plain.state.log, after.state.log, "the logs, plain and labelled, after\n{before}");
    let agrees = plain.state.memory == after.state.memory;
    assert!(agrees, "other memory, plain and labelled, after\n{before}");
}

/// Whether each byte of the spaces has one label, public or secret, and the counts are long enough.
fn labels_hold(state: &State) -> bool {
    let (labels, lengths) = (labels(state), state.memory.lengths());
    let are_labels = |space: &Vec<u8>| space.iter().all(|&label| label <= SECRET);
    let are_all_labels = labels.lengths() == lengths && labels.all().into_iter().all(are_labels);
    are_all_labels && state.counts.hold(&lengths)
}
