//! Random speculative runs: W, journal, budget and log for lists with many branches, and damage to them.

use reference::fault::LEAK_AHEAD;
use reference::speculative::{
    speculative_run, Event, Window, JOURNAL_WORDS_PER_OPERATION, LARGEST_WINDOW, WINDOW_MARK,
};

use super::*;
use crate::inputs::BAD_WINDOWS;
use crate::speculations::Speculation;

/// The most log words of a short run.
const MOST_LOG_WORDS: u64 = SHORT_RUN as u64 * (1 + LARGEST_WINDOW);

impl Programs {
    /// A speculative run, damaged once in three times.
    pub fn speculation(&mut self) -> Speculation {
        let mut speculation = self.speculation_without_limits();
        if self.once_in(3) {
            let wounds = self.pick(&[1, 1, 1, 2, 4]);
            (0..wounds).for_each(|_| self.damage_speculation(&mut speculation));
        }
        self.set_limits(&mut speculation);
        speculation
    }

    /// A speculative run that keeps every rule.
    pub fn well_formed_speculation(&mut self) -> Speculation {
        let mut speculation = self.speculation_without_limits();
        self.set_limits(&mut speculation);
        speculation
    }

    /// A speculative run with W 0, damaged elsewhere once in three times.
    pub fn speculation_without_windows(&mut self) -> Speculation {
        let mut speculation = self.speculation_without_limits();
        speculation.window.operations = 0;
        if self.once_in(3) {
            self.damage(&mut speculation.case);
        }
        self.set_limits(&mut speculation);
        speculation
    }

    fn speculation_without_limits(&mut self) -> Speculation {
        let operations = match self.below(32) {
            0 => 0,
            1..=4 => 1,
            5 | 6 => LARGEST_WINDOW - 1,
            7 | 8 => LARGEST_WINDOW,
            9..=11 => self.below(LARGEST_WINDOW + 1),
            _ => 2 + self.below(7),
        };
        let case = match self.below(8) {
            0 => self.case_without_limits(),
            1 if operations > 8 => self.straight_case(),
            _ => self.branching_case(),
        };
        self.with_window(case, operations)
    }

    /// A case with a window of so many operations and a journal for it, without limits.
    pub(super) fn with_window(&mut self, case: Case, operations: u64) -> Speculation {
        let further_words = if self.once_in(2) { 0 } else { 1 + self.below(8) };
        let journal = self.words(operations * JOURNAL_WORDS_PER_OPERATION + further_words);
        Speculation { case, window: Window { operations, journal } }
    }

    /// So many random words.
    fn words(&mut self, count: u64) -> Vec<u64> {
        (0..count).map(|_| self.lists.random.word()).collect()
    }

    /// Chooses a budget and a log around what a run without limits needs.
    pub(super) fn set_limits(&mut self, speculation: &mut Speculation) {
        let Speculation { case: Case { call, state }, window } = speculation;
        let RunCall { program, start, .. } = call;
        let mut after = State { log: vec![0; MOST_LOG_WORDS as usize], ..state.clone() };
        let mut window = window.clone();
        let mut counted = 0;
        let mut budgets = vec![0, 1, SHORT_RUN];
        let observer = |event: Event| match event {
            // One that ends at this CBRANCH.
            Event::Opened { .. } => budgets.push(counted + 1),
            Event::Counted { .. } => counted += 1,
            _ => (),
        };
        let report = speculative_run(program, *start, SHORT_RUN, &mut window, &mut after, observer);
        // What a window ends could go on for ever without that window.
        let ends_itself = ![BUDGET, LEAK_AHEAD].contains(&report.ending);
        if ends_itself {
            budgets.extend([counted, counted + 1, 1 << 16, u32::MAX]);
        }
        let enough = if ends_itself { u32::MAX } else { SHORT_RUN };
        call.budget = if self.once_in(3) { self.pick(&budgets) } else { enough };
        let room = self.room(&after.log[..report.log_words as usize]);
        state.log = self.words(room);
    }

    /// How many log words to lend to a run that writes these if it can: mostly enough.
    fn room(&mut self, written: &[u64]) -> u64 {
        let words = written.len() as u64;
        let in_window: Vec<u64> =
            (0..words).filter(|&place| written[place as usize] >= WINDOW_MARK).collect();
        match self.below(12) {
            0 => self.pick(&[0, words.saturating_sub(1), words]),
            1 => self.below(words + 1),
            2 | 3 if !in_window.is_empty() => self.pick(&in_window),
            _ => words + self.below(4),
        }
    }

    /// Changes one thing, which mostly makes the run refuse.
    fn damage_speculation(&mut self, speculation: &mut Speculation) {
        match self.below(8) {
            0 => self.damage_window(&mut speculation.window),
            1 => self.damage_journal(&mut speculation.window),
            _ => self.damage(&mut speculation.case),
        }
    }

    /// Makes W too large. The journal stays, or is empty, or long enough for a W that is 1 too large.
    fn damage_window(&mut self, window: &mut Window) {
        window.operations = match self.below(3) {
            0 => self.pick(&BAD_WINDOWS),
            1 => LARGEST_WINDOW + 1,
            _ => u64::MAX,
        };
        match self.below(3) {
            0 => window.journal.clear(),
            1 => window.journal = self.words(JOURNAL_WORDS_PER_OPERATION * (LARGEST_WINDOW + 1)),
            _ => (),
        }
    }

    /// Makes the journal of a W in range too short, mostly by one word.
    fn damage_journal(&mut self, window: &mut Window) {
        if (1..=LARGEST_WINDOW).contains(&window.operations) {
            let needed = window.journal_words() as u64;
            let words = match self.below(4) {
                0 => 0,
                1 => self.below(needed),
                _ => needed - 1,
            };
            window.journal.truncate(words as usize);
        }
    }
}
