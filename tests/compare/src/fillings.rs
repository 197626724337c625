//! The call that fills counts, through the C interface, and its comparison with the second program.

use reference::answers::{count_answer, LentWords};
use reference::counts::SecretCounts;
use reference::memory::Spaces;

use crate::agreement::RESULT_WORDS;
use crate::count_secrets;
use crate::guards::{guard_byte, guard_word, Guarded, GuardedSpaces};

/// The interpreter's answer to a filling. Every buffer is lent between guards; a changed guard is a failure, and so
/// is a changed label.
fn interpreter_answer(labels: &Spaces, counts: &mut SecretCounts, report: &mut [u64]) -> u64 {
    let mut labels_after = labels.clone();
    let mut guarded_labels = GuardedSpaces::around(labels.all(), guard_byte);
    let mut guarded_counts = GuardedSpaces::around(counts.all(), guard_word);
    let mut guarded_report = Guarded::around(report, guard_word);
    let answer = {
        let lent = guarded_labels.lent();
        let lent = [&*lent.unique, lent.register, lent.ram];
        count_secrets(lent, guarded_counts.lent(), guarded_report.lent())
    };
    let guards = [
        ("labels", guarded_labels.give_back(labels_after.all_mut())),
        ("counts", guarded_counts.give_back(counts.all_mut())),
        ("report", guarded_report.give_back(guard_word, report)),
    ];
    assert!(labels_after == *labels, "the filling wrote into its labels");
    for (name, holds) in guards {
        assert!(holds, "the filling wrote beyond the ends of the lent {name}");
    }
    answer
}

/// The interpreter's report of a filling that is lent all five report words.
pub fn filling_report(labels: &Spaces, counts: &mut SecretCounts) -> [u64; 5] {
    let mut report = [0; LentWords::EXACT.report];
    let answer = interpreter_answer(labels, counts, &mut report);
    assert_eq!(answer, 0, "a call with a report of five words was refused");
    report
}

/// Compares a filling that is lent so many report words, with every buffer after it; what it left stays in
/// `counts`. Gives back the report, unless the call was refused.
pub fn check_filling(
    labels: &Spaces,
    counts: &mut SecretCounts,
    report_len: usize,
) -> Option<[u64; 5]> {
    let before = counts.clone();
    let mut expected = before.clone();
    let expected_report = count_answer(labels, &mut expected, report_len);
    let mut expected_words = RESULT_WORDS;
    if let Ok(numbers) = expected_report {
        expected_words[..numbers.len()].copy_from_slice(&numbers);
    }
    let expected_answer = expected_report.err().unwrap_or(0);
    let mut words = RESULT_WORDS;
    let answer = interpreter_answer(labels, counts, &mut words[..report_len]);
    if (answer, words, &*counts) != (expected_answer, expected_words, &expected) {
        panic!(
            "the filling disagrees with {report_len} report words on {:?} and counts of {:?} words\n\
             interpreter: answer {answer}, report {words:x?}\n{counts:x?}\n\
             second program: answer {expected_answer}, report {expected_words:x?}\n{expected:x?}",
            labels.lengths(),
            before.all().map(Vec::len),
        );
    }
    expected_report.ok()
}
