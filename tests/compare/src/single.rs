//! Cases of one operation or a few, compared in each way in which they can be executed.

use reference::answers::{LentWords, RunCall};
use reference::fault::{LEAK, LEAK_AHEAD};
use reference::list::{list_of, Entry};
use reference::machine::State;
use reference::memory::Spaces;
use reference::opcodes::Opcode;
use reference::run::Program;
use reference::speculative::{Window, JOURNAL_WORDS_PER_OPERATION};
use reference::varnode::{Varnode, CONSTANT};
use reference::verdict::{Settings, END};

use crate::agreement::Tally;
use crate::runs::{check_run, Case, Job};
use crate::speculations::{check_speculation, Speculation};

/// A word of log, journal and counts as it is lent.
const LENT_WORD: u64 = 7;

/// The labelled case of a list. Its counts hold other words than those of its labels, and there is a word more.
pub fn case_of(settings: Settings, entries: &[Entry], memory: Spaces, labels: Spaces) -> Case {
    let program = Program { settings, list: list_of(entries) };
    let call = RunCall { program, start: 0, budget: 9 };
    let mut state = State::labelled(memory, labels, vec![LENT_WORD; 4]);
    for words in state.counts.all_mut() {
        words.push(0);
        words.fill(LENT_WORD);
    }
    Case { call, state }
}

/// A CBRANCH that goes on so many operations further, or at the next one.
pub fn cbranch(distance: u64, condition: Varnode) -> Entry {
    let destination = Varnode { space: CONSTANT, offset: distance, size: 1 };
    Entry::new(Opcode::Cbranch as u8, [None, Some(destination), Some(condition), None])
}

/// Compares a case of one operation as run and as step, in a window, and left out with a window of 0. Fails
/// unless run and step give this report, and gives back what both leave.
pub fn check_single(alone: &Case, report: [u64; 5], tally: &mut Tally) -> State {
    let [left, left_by_step] =
        [Job::Run, Job::Step].map(|job| check_report(job, alone, report, tally));
    assert!(left == left_by_step, "run and step leave different states after\n{alone}");
    let is_stopped = report[0] != END;
    assert!(!is_stopped || left == alone.state, "what was stopped wrote, in\n{alone}");
    let [ending, _, _, words, _] = report;
    let leaks_ahead = [LEAK_AHEAD, 0, 0, 1, 0];
    let ahead = if ending == LEAK { leaks_ahead } else { [END, 2, 1, 1 + words, 0] };
    check_left_out(alone, 0, [END, 2, 1, 1, 0], tally);
    check_left_out(alone, 1, ahead, tally);
    left
}

/// Compares a run or a step. Fails unless it gives this report, and gives back what it leaves.
pub fn check_report(job: Job, case: &Case, report: [u64; 5], tally: &mut Tally) -> State {
    let mut after = case.state.clone();
    let found = check_run(job, &case.call, &mut after, LentWords::EXACT, |_| ());
    assert_eq!(found, Some(report), "the report of the {job:?} of\n{case}");
    tally.count(report[0]);
    after
}

/// Compares the operations of a case behind a CBRANCH that leaves them out, with a window of so many. Fails
/// unless it gives this report and leaves bytes, labels and counts as they were.
pub fn check_left_out(case: &Case, operations: u64, report: [u64; 5], tally: &mut Tally) {
    let mut case = case.clone();
    let taken = Varnode { space: CONSTANT, offset: 1, size: 1 };
    let past_them = cbranch(1 + case.call.program.count(), taken);
    case.call.program.list.splice(0..0, past_them.words());
    let journal = vec![LENT_WORD; (operations * JOURNAL_WORDS_PER_OPERATION) as usize];
    let before = Speculation { case, window: Window { operations, journal } };
    let mut after = before.clone();
    let found = check_speculation(&mut after, LentWords::EXACT, |_| ());
    assert_eq!(found, Some(report), "the report of\n{before}");
    let [was, is] = [&before, &after].map(|one| &one.case.state);
    let is_undone = (&is.memory, &is.labels, &is.counts) == (&was.memory, &was.labels, &was.counts);
    assert!(is_undone, "a window left something, in\n{before}");
    tally.count(report[0]);
}
