//! Counts for random cases, damage to them, and lists that change labels of several blocks.

use reference::counts::{words_needed, SecretCounts};

use super::*;
use crate::speculations::Speculation;

/// Lengths of spaces with a block border, or with the end of a block, among the bytes that are used most.
const LENGTHS: [u64; 14] = [0, 1, 63, 64, 64, 65, 66, 68, 70, 72, 127, 128, 129, 136];

impl Programs {
    /// Counts of these labels, long enough: all true, or some of other words.
    pub(super) fn counts(&mut self, labels: &Spaces) -> SecretCounts {
        let mut counts = SecretCounts::of(labels);
        let are_true = self.once_in(2);
        for words in counts.all_mut() {
            let style = if are_true { 0 } else { self.below(6) };
            for word in words.iter_mut() {
                let any = self.lists.random.word();
                *word = match style {
                    0 | 1 => *word,
                    2 => any,
                    3 => 0,
                    4 => u64::MAX,
                    // A few steps from where it wraps.
                    _ => (any % 8).wrapping_sub(4),
                };
            }
            let further = match self.below(4) {
                0 | 1 => 0,
                2 => 1,
                _ => 2 + self.below(20),
            };
            words.extend((0..further).map(|_| self.lists.random.word()));
        }
        counts
    }

    /// Other counts, long enough where these are, with other words and other numbers of them.
    pub fn other_counts(&mut self, state: &State) -> SecretCounts {
        let lengths = state.memory.lengths();
        let mut counts = state.counts.clone();
        if !counts.hold(&lengths) {
            return counts;
        }
        let lengths = [lengths.unique, lengths.register, lengths.ram];
        for (words, len) in counts.all_mut().into_iter().zip(lengths) {
            let needed = words_needed(len);
            let further = if words.len() as u64 == needed { 1 + self.below(9) } else { 0 };
            *words = (0..needed + further).map(|_| self.lists.random.word()).collect();
        }
        counts
    }

    /// Makes the counts of one space too short, mostly by one word.
    pub(super) fn damage_counts(&mut self, state: &mut State) {
        let space = self.below(3) as usize;
        let needed = words_needed(state.memory.all()[space].len() as u64);
        let words = match self.below(4) {
            0 => 0,
            1 => self.below(needed),
            _ => needed - 1,
        };
        state.counts.all_mut()[space].truncate(words as usize);
    }

    /// A case that keeps every rule, in spaces of several blocks. Its operations are few, and most of them
    /// change labels.
    pub fn counted_case(&mut self) -> Case {
        let draft = self.draft_for_counts(3, 6);
        self.moving_case_of(draft)
    }

    /// A speculative run that keeps every rule, whose windows mostly have such operations.
    pub fn counted_speculation(&mut self) -> Speculation {
        let draft = self.draft_for_counts(4, 8);
        self.moving_speculation_of(draft)
    }

    /// An empty draft whose addresses are short and whose spaces have one to three blocks.
    fn draft_for_counts(&mut self, fewest: u64, more: u64) -> Draft {
        let mut settings = self.lists.settings();
        settings.address_size = 1 + self.below(2);
        let [unique, register, ram] = [(); 3].map(|()| self.pick(&LENGTHS));
        Draft::new(settings, Lengths { unique, register, ram }, fewest + self.below(more))
    }
}
