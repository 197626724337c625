//! Speculative runs through the C interface, and their comparison with the second program.

use std::fmt;

use reference::answers::{speculative_answer, LentWords, RunCall};
use reference::machine::State;
use reference::speculative::{Event, Window};

use crate::agreement::RESULT_WORDS;
use crate::guards::{guard_byte, guard_word, Guarded, GuardedSpaces};
use crate::runs::{description, differences, different, Case};
use crate::{settings_words, speculative_run, LentBuffers};

/// A speculative run and its buffers.
#[derive(Clone, Debug)]
pub struct Speculation {
    /// The labelled run that it is, but for its windows.
    pub case: Case,
    pub window: Window,
}

impl fmt::Display for Speculation {
    fn fmt(&self, formatter: &mut fmt::Formatter) -> fmt::Result {
        let Speculation { case: Case { call, state }, window } = self;
        formatter.write_str(&description(call, state))?;
        writeln!(formatter, "window {}, {} journal words", window.operations, window.journal.len())
    }
}

/// The interpreter's answer to a speculative run. Every buffer is lent between guards; a changed guard
/// is a failure, and so is a change of settings or list.
pub fn interpreter_answer(
    speculation: &mut Speculation,
    settings: &[u64],
    report: &mut [u64],
) -> u64 {
    let Speculation { case: Case { call, state }, window } = speculation;
    let RunCall { program, start, budget } = call;
    let State { memory, labels, counts, log } = state;
    let labels = labels.as_mut().expect("a labelled state");
    let [mut settings_after, mut list_after] = [settings, &program.list].map(<[u64]>::to_vec);
    let mut guarded_settings = Guarded::around(settings, guard_word);
    let mut guarded_list = Guarded::around(&program.list, guard_word);
    let [mut guarded_memory, mut guarded_labels] =
        [memory.all(), labels.all()].map(|spaces| GuardedSpaces::around(spaces, guard_byte));
    let mut guarded_counts = GuardedSpaces::around(counts.all(), guard_word);
    let [mut guarded_log, mut guarded_journal, mut guarded_report] =
        [&log[..], &window.journal, report].map(|lent| Guarded::around(lent, guard_word));
    let lent = LentBuffers {
        settings: guarded_settings.lent(),
        list: guarded_list.lent(),
        memory: guarded_memory.lent(),
        labels: guarded_labels.lent(),
        counts: guarded_counts.lent(),
        log: guarded_log.lent(),
        journal: guarded_journal.lent(),
        report: guarded_report.lent(),
    };
    let answer = speculative_run(*start, *budget, window.operations, lent);
    let guards = [
        ("settings", guarded_settings.give_back(guard_word, &mut settings_after)),
        ("list", guarded_list.give_back(guard_word, &mut list_after)),
        ("memory", guarded_memory.give_back(memory.all_mut())),
        ("labels", guarded_labels.give_back(labels.all_mut())),
        ("counts", guarded_counts.give_back(counts.all_mut())),
        ("log", guarded_log.give_back(guard_word, log)),
        ("journal", guarded_journal.give_back(guard_word, &mut window.journal)),
        ("report", guarded_report.give_back(guard_word, report)),
    ];
    assert_eq!(settings_after, settings, "the speculative run wrote into its settings");
    assert!(list_after == program.list, "the speculative run wrote into its list");
    for (name, holds) in guards {
        assert!(
            holds,
            "the speculative run wrote beyond the ends of the lent {name}; what it left:\n\
             {speculation}"
        );
    }
    answer
}

/// The interpreter's report of a speculative run that is lent all five report words.
pub fn speculative_report(speculation: &mut Speculation) -> [u64; 5] {
    let mut report = [0; LentWords::EXACT.report];
    let settings = settings_words(&speculation.case.call.program.settings);
    let settings = &settings[..LentWords::EXACT.settings];
    let answer = interpreter_answer(speculation, settings, &mut report);
    assert_eq!(answer, 0, "a call with a report of five words was refused");
    report
}

/// Compares a speculative run that is lent so many words, with every buffer after it; what it left stays
/// in `speculation`. Gives back the report, unless the call was refused, and tells the observer what
/// the second program did.
pub fn check_speculation(
    speculation: &mut Speculation,
    lent: LentWords,
    observer: impl FnMut(Event),
) -> Option<[u64; 5]> {
    let before = speculation.clone();
    let mut expected = before.clone();
    let Speculation { case: Case { call, state }, window } = &mut expected;
    let expected_report = speculative_answer(call, window, state, lent, observer);
    let mut expected_words = RESULT_WORDS;
    if let Ok(numbers) = expected_report {
        expected_words[..numbers.len()].copy_from_slice(&numbers);
    }
    let expected_answer = expected_report.err().unwrap_or(0);

    let mut words = RESULT_WORDS;
    let settings = settings_words(&before.case.call.program.settings);
    let settings = &settings[..lent.settings];
    let answer = interpreter_answer(speculation, settings, &mut words[..lent.report]);
    let same_state = speculation.case.state == expected.case.state;
    let same_journal = speculation.window.journal == expected.window.journal;
    if (answer, words) != (expected_answer, expected_words) || !same_state || !same_journal {
        panic!(
            "the speculative run disagrees with {lent:?} on\n\
             {before}\
             interpreter: answer {answer}, report {words:x?}\n{}\
             second program: answer {expected_answer}, report {expected_words:x?}\n{}",
            all_differences(speculation, &expected),
            all_differences(&expected, speculation),
        );
    }
    expected_report.ok()
}

/// The places where what a speculative run left differs from another of the same lengths.
fn all_differences(speculation: &Speculation, other: &Speculation) -> String {
    let mut lines = differences(&speculation.case.state, &other.case.state);
    for (place, (word, _)) in different(&speculation.window.journal, &other.window.journal) {
        lines += &format!("  journal word {place}: {word:#x}\n");
    }
    lines
}
