//! Runs in parts, each with a budget of its own.

use reference::machine::State;
use reference::run::BUDGET;

use crate::runs::Case;

/// What a run in parts came to.
pub struct Parts {
    /// The last part's report, with operations and log words summed.
    pub report: [u64; 5],
    pub state: State,
    /// The budgets of the parts, added.
    pub budget: u32,
    /// How many parts ended by BUDGET.
    pub stops: u64,
}

/// Runs a case with one budget after the other, each from where the one before it stopped, with the
/// unused part of the log. `run` runs a part and gives back its report.
pub fn run_in_parts(
    case: &Case,
    budgets: &[u32],
    mut run: impl FnMut(&mut Case) -> [u64; 5],
) -> Parts {
    let mut part = case.clone();
    let mut sum = Parts { report: [0; 5], state: case.state.clone(), budget: 0, stops: 0 };
    let mut log = Vec::new();
    for &budget in budgets {
        part.call.budget = budget;
        let [ending, index, executed, log_words, value] = run(&mut part);
        log.extend(part.state.log.drain(..log_words as usize));
        let [_, _, executed_before, log_words_before, _] = sum.report;
        sum.report =
            [ending, index, executed_before + executed, log_words_before + log_words, value];
        sum.budget += budget;
        if ending != BUDGET {
            break;
        }
        sum.stops += 1;
        part.call.start = index;
    }
    log.append(&mut part.state.log);
    sum.state = State { log, ..part.state };
    sum
}
