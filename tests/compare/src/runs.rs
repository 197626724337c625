//! Runs and steps through the C interface, and their comparison with the second program.

use std::fmt;

use reference::answers::{run_answer, LentWords, RunCall};
use reference::list::WORDS_PER_OPERATION;
use reference::machine::State;
use reference::memory::Spaces;
use reference::run::Observed;

use crate::agreement::RESULT_WORDS;
use crate::guards::{guard_byte, guard_word, Guarded, GuardedSpaces};
use crate::{labelled_run, labelled_step, run, settings_words, step};

/// Which of the interpreter's calls to make: each has a plain and a labelled form.
#[derive(Clone, Copy, Debug, PartialEq, Eq)]
pub enum Job {
    Run,
    /// A run with budget 1, whatever the call's budget is.
    Step,
}

/// A run and its buffers. It is labelled if the state has labels.
#[derive(Clone, Debug)]
pub struct Case {
    pub call: RunCall,
    pub state: State,
}

impl Case {
    /// The same without labels and counts.
    pub fn plain(&self) -> Case {
        let Case { call, state: State { memory, log, .. } } = self.clone();
        Case { call, state: State::plain(memory, log) }
    }
}

impl fmt::Display for Case {
    fn fmt(&self, formatter: &mut fmt::Formatter) -> fmt::Result {
        formatter.write_str(&description(&self.call, &self.state))
    }
}

/// The interpreter's answer to a run or a step. Every buffer is lent between guards; a changed guard
/// is a failure.
pub fn interpreter_answer(
    job: Job,
    call: &RunCall,
    settings: &[u64],
    state: &mut State,
    report: &mut [u64],
) -> u64 {
    let mut guarded_settings = Guarded::around(settings, guard_word);
    let mut settings_after = settings.to_vec();
    let mut memory = GuardedSpaces::around(state.memory.all(), guard_byte);
    let around_labels = |labels: &Spaces| GuardedSpaces::around(labels.all(), guard_byte);
    let mut labels = state.labels.as_ref().map(around_labels);
    let mut counts = GuardedSpaces::around(state.counts.all(), guard_word);
    let mut log = Guarded::around(&state.log, guard_word);
    let mut guarded_report = Guarded::around(report, guard_word);
    let answer = {
        let settings = guarded_settings.lent();
        let (memory, log, report) = (memory.lent(), log.lent(), guarded_report.lent());
        match (job, labels.as_mut()) {
            (Job::Run, None) => run(call, settings, memory, log, report),
            (Job::Step, None) => step(call, settings, memory, log, report),
            (Job::Run, Some(labels)) => {
                labelled_run(call, settings, memory, labels.lent(), counts.lent(), log, report)
            }
            (Job::Step, Some(labels)) => {
                labelled_step(call, settings, memory, labels.lent(), counts.lent(), log, report)
            }
        }
    };
    let labels_after = state.labels.as_mut().map(Spaces::all_mut);
    let guards = [
        ("settings", guarded_settings.give_back(guard_word, &mut settings_after)),
        ("memory", memory.give_back(state.memory.all_mut())),
        ("labels", labels.zip(labels_after).is_none_or(|(from, to)| from.give_back(to))),
        ("counts", counts.give_back(state.counts.all_mut())),
        ("log", log.give_back(guard_word, &mut state.log)),
        ("report", guarded_report.give_back(guard_word, report)),
    ];
    assert_eq!(settings_after, settings, "the {job:?} wrote into its settings");
    for (name, holds) in guards {
        assert!(
            holds,
            "the {job:?} wrote beyond the ends of the lent {name}; what it left:\n{}",
            description(call, state)
        );
    }
    answer
}

/// The interpreter's report of a run or a step that is lent all five report words.
pub fn interpreter_report(job: Job, case: &mut Case) -> [u64; 5] {
    let mut report = [0; LentWords::EXACT.report];
    let settings = &settings_words(&case.call.program.settings)[..LentWords::EXACT.settings];
    let answer = interpreter_answer(job, &case.call, settings, &mut case.state, &mut report);
    assert_eq!(answer, 0, "a call with a report of five words was refused");
    report
}

/// Compares a run or a step that is lent so many words, with every buffer after it; what it left stays
/// in `state`. Gives back the report, unless the call was refused, and tells the observer of each operation
/// that the second program executed.
pub fn check_run(
    job: Job,
    call: &RunCall,
    state: &mut State,
    lent: LentWords,
    observer: impl FnMut(Observed),
) -> Option<[u64; 5]> {
    let before = state.clone();
    let budget = if job == Job::Step { 1 } else { call.budget };
    let expected_call = RunCall { budget, ..call.clone() };
    let mut expected_state = before.clone();
    let expected_report = run_answer(&expected_call, &mut expected_state, lent, observer);
    let mut expected_words = RESULT_WORDS;
    if let Ok(numbers) = expected_report {
        expected_words[..numbers.len()].copy_from_slice(&numbers);
    }
    let expected = (expected_report.err().unwrap_or(0), expected_words);

    let mut words = RESULT_WORDS;
    let settings = settings_words(&call.program.settings);
    let settings = &settings[..lent.settings];
    let answer = interpreter_answer(job, call, settings, state, &mut words[..lent.report]);
    if (answer, words) != expected || *state != expected_state {
        panic!(
            "the {job:?} disagrees with {lent:?} on\n\
             {}\
             interpreter: answer {answer}, report {words:x?}\n{}\
             second program: answer {}, report {:x?}\n{}",
            description(call, &before),
            differences(state, &expected_state),
            expected.0,
            expected.1,
            differences(&expected_state, state),
        );
    }
    expected_report.ok()
}

/// A call in words: the first operations of its list, and all bytes, labels and counts of short spaces.
pub(crate) fn description(call: &RunCall, state: &State) -> String {
    let RunCall { program, start, budget } = call;
    let mut lines = format!("{:x?}, start {start}, budget {budget}\n", program.settings);
    lines += &format!("{:?}, {} log words\n", state.memory.lengths(), state.log.len());
    for (index, words) in program.list.chunks(WORDS_PER_OPERATION).enumerate().take(40) {
        lines += &format!("operation {index}: {words:x?}\n");
    }
    for spaces in [Some(&state.memory), state.labels.as_ref()].into_iter().flatten() {
        for space in spaces.all().into_iter().filter(|space| space.len() <= 100) {
            lines += &format!("{space:x?}\n");
        }
    }
    for words in state.counts.all().into_iter().filter(|words| words.len() <= 10) {
        lines += &format!("counts {words:x?}\n");
    }
    lines
}

/// The places where a state differs from another of the same lengths, with what it holds there.
pub(crate) fn differences(state: &State, other: &State) -> String {
    let mut lines = String::new();
    let both = [
        ("memory", Some((&state.memory, &other.memory))),
        ("labels", state.labels.as_ref().zip(other.labels.as_ref())),
    ];
    for (name, spaces) in both {
        let Some((spaces, others)) = spaces else { continue };
        for (number, (space, other)) in (2..).zip(spaces.all().into_iter().zip(others.all())) {
            for (offset, (byte, _)) in different(space, other) {
                lines += &format!("  {name} of space {number} at {offset}: {byte:#x}\n");
            }
        }
    }
    let counts = state.counts.all().into_iter().zip(other.counts.all());
    for (number, (words, other)) in (2..).zip(counts) {
        for (place, (word, _)) in different(words, other) {
            lines += &format!("  count {place} of space {number}: {word:#x}\n");
        }
    }
    for (place, (word, _)) in different(&state.log, &other.log) {
        lines += &format!("  log word {place}: {word:#x}\n");
    }
    lines
}

pub(crate) fn different<'a, T: PartialEq>(
    one: &'a [T],
    other: &'a [T],
) -> impl Iterator<Item = (usize, (&'a T, &'a T))> {
    one.iter().zip(other).enumerate().filter(|(_, (one, other))| one != other)
}
