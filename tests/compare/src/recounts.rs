//! How counts of secret bytes should move, told apart from the second program, and how often they moved in each way,
//! so that a test can ask for enough of each.

use std::iter::zip;

use reference::counts::SecretCounts;
use reference::fault::{LENGTH, SETTING, START};
use reference::machine::State;
use reference::memory::{Spaces, PUBLIC, SECRET};
use reference::run::Program;
use reference::speculative::{self, Closing};
use reference::varnode::{Lengths, Varnode};
use reference::verdict::verdict;

use crate::counts::Counts;
use crate::runs::Case;
use crate::secrets::labels;

/// How many words of counts labels need: one for each block, and the total.
pub fn words_for(labels: &[u8]) -> usize {
    let blocks = labels.len() / 64;
    let has_short_block = !labels.len().is_multiple_of(64);
    blocks + usize::from(has_short_block) + 1
}

/// What is counted in the labels of a space.
fn recount(labels: &[u8]) -> Vec<u64> {
    let mut words = vec![0; words_for(labels)];
    let total = words.len() - 1;
    for (offset, &label) in labels.iter().enumerate() {
        words[offset >> 6] += u64::from(label);
        words[total] += u64::from(label);
    }
    words
}

/// Counts that held anything, after labels became others.
pub fn moved(lent: &SecretCounts, from: &Spaces, to: &Spaces) -> SecretCounts {
    let mut counts = lent.clone();
    for (words, (from, to)) in zip(counts.all_mut(), zip(from.all(), to.all())) {
        for (word, (from, to)) in zip(words, zip(recount(from), recount(to))) {
            *word = word.wrapping_add(to).wrapping_sub(from);
        }
    }
    counts
}

/// Whether counts that are long enough begin with what is counted in the labels.
pub fn are_true(counts: &SecretCounts, labels: &Spaces) -> bool {
    zip(counts.all(), labels.all()).all(|(words, labels)| words.starts_with(&recount(labels)))
}

/// Fails unless a run left the counts that its labels ask for: true ones where they were true.
pub fn assert_followed(before: &Case, after: &State) {
    let [from, to] = [&before.state, after].map(labels);
    let expected = moved(&before.state.counts, from, to);
    assert!(after.counts == expected, "{:?} and not {expected:?} after\n{before}", after.counts);
    if are_true(&before.state.counts, from) {
        assert!(are_true(&after.counts, to), "counts that are no more true after\n{before}");
    }
}

/// What can happen to counts.
#[derive(Clone, Copy, Debug, PartialEq, Eq, PartialOrd, Ord)]
pub enum Event {
    /// A run that is not refused, by its ending, with counts that are true or hold anything else.
    True {
        ending: u64,
    },
    Other {
        ending: u64,
    },
    /// A run that is not refused, with as many words for a space as it needs, one more, or many more.
    ExactWords {
        space: u64,
    },
    OneWordMore {
        space: u64,
    },
    ManyWordsMore {
        space: u64,
    },
    /// A call refused for the counts of this space and for no other length of a labelled run, and the same for one
    /// word.
    Refused {
        space: u64,
    },
    OneShort {
        space: u64,
    },
    /// An operation that makes a byte of a space secret, or public.
    Up {
        space: u64,
    },
    Down {
        space: u64,
    },
    /// The same, where it changes labels of two blocks.
    AcrossBorder {
        space: u64,
    },
    /// The same, where it changes labels of a last block that is shorter than the others.
    ShortBlock {
        space: u64,
    },
    /// An operation that makes one byte secret and another public.
    Both,
    /// An operation that writes labels as they were, and one of them is secret.
    Same,
    /// A count that an operation moves from 2^64 - 1 up to 0, or from 0 down to 2^64 - 1.
    WrapsUp {
        is_total: bool,
    },
    WrapsDown {
        is_total: bool,
    },
    /// A window that leaves labels changed which its undo gives back, by why it is over.
    Undone(Closing),
}

/// How often each event came.
pub type Recounts = Counts<Event>;

/// The numbers of the spaces in the order of their buffers.
const SPACES: [u64; 3] = [2, 3, 4];

/// Counts what one run does, from what its observer hears.
pub struct Watch<'a> {
    recounts: &'a mut Recounts,
    case: &'a Case,
    labels: Spaces,
    counts: SecretCounts,
    /// What both were before the window that is open.
    before_window: Option<(Spaces, SecretCounts)>,
}

impl<'a> Watch<'a> {
    /// A watch for a call, as it is before it runs.
    pub fn new(recounts: &'a mut Recounts, case: &'a Case) -> Watch<'a> {
        let State { counts, .. } = &case.state;
        let labels = labels(&case.state).clone();
        Watch { recounts, case, labels, counts: counts.clone(), before_window: None }
    }

    /// What the observer of a speculative run hears.
    pub fn hear(&mut self, event: speculative::Event) {
        use speculative::Event::{Ahead, Closed, Counted, Opened};
        match event {
            Opened { .. } => self.before_window = Some((self.labels.clone(), self.counts.clone())),
            Ahead { written, state, .. } | Counted { written, state, .. } => {
                self.count_executed(written, state);
            }
            Closed { closing, .. } => {
                let before = self.before_window.take().expect("an open window");
                let is_changed = before.0 != self.labels;
                self.recounts.add_those_that_came([(is_changed, Event::Undone(closing))]);
                (self.labels, self.counts) = before;
            }
        }
    }

    /// Counts an operation that was executed, and left this state.
    pub fn count_executed(&mut self, written: Option<Varnode>, after: &State) {
        let Some(written) = written else { return };
        let [from, to] = [&self.labels, labels(after)].map(|labels| labels.part(&written));
        let makes = |label| zip(from, to).any(|(from, to)| from != to && *to == label);
        let Varnode { space, offset, .. } = written;
        let at = SPACES.iter().position(|&number| number == space).expect("a lent space");
        let len = self.labels.all()[at].len();
        let blocks: Vec<u64> = zip(offset.., zip(from, to))
            .filter(|(_, (from, to))| from != to)
            .map(|(offset, _)| offset / 64)
            .collect();
        let is_short = |&block: &u64| (block + 1) * 64 > len as u64;
        let are_several = blocks.first() != blocks.last();
        self.recounts.add_those_that_came([
            (makes(SECRET), Event::Up { space }),
            (makes(PUBLIC), Event::Down { space }),
            (makes(SECRET) && makes(PUBLIC), Event::Both),
            (are_several, Event::AcrossBorder { space }),
            (blocks.iter().any(is_short), Event::ShortBlock { space }),
            (blocks.is_empty() && to.contains(&SECRET), Event::Same),
        ]);
        let total = words_for(&self.labels.all()[at]) - 1;
        let words = zip(&self.counts.all()[at][..=total], &after.counts.all()[at][..=total]);
        for (place, (&from, &to)) in words.enumerate() {
            let is_total = place == total;
            self.recounts.add_those_that_came([
                (from > 1 << 63 && to < 1 << 63, Event::WrapsUp { is_total }),
                (from < 1 << 63 && to > 1 << 63, Event::WrapsDown { is_total }),
            ]);
        }
        self.labels.part_mut(&written).copy_from_slice(labels(after).part(&written));
        self.counts.all_mut()[at].copy_from_slice(after.counts.all()[at]);
    }

    /// Counts what the whole call was.
    pub fn finish(self, ending: u64) {
        let Watch { recounts, case: Case { call, state }, .. } = self;
        let State { memory, counts, .. } = state;
        let labels = labels(state);
        let words: Vec<(u64, usize, usize)> = zip(SPACES, zip(counts.all(), labels.all()))
            .map(|(space, (words, labels))| (space, words.len(), words_for(labels)))
            .collect();
        if ending == LENGTH && other_lengths_hold(&call.program, &memory.lengths(), labels) {
            let short: Vec<_> = words.iter().filter(|(_, words, needed)| words < needed).collect();
            if let [&(space, words, needed)] = short[..] {
                recounts.add(Event::Refused { space });
                let is_one_short = words + 1 == needed;
                recounts.add_those_that_came([(is_one_short, Event::OneShort { space })]);
            }
        }
        if (SETTING..=START).contains(&ending) {
            return;
        }
        let is_true = are_true(counts, labels);
        recounts.add(if is_true { Event::True { ending } } else { Event::Other { ending } });
        for (space, words, needed) in words {
            recounts.add(match words - needed {
                0 => Event::ExactWords { space },
                1 => Event::OneWordMore { space },
                _ => Event::ManyWordsMore { space },
            });
        }
    }
}

/// Whether no length of a labelled run is refused but those of counts.
fn other_lengths_hold(program: &Program, lengths: &Lengths, labels: &Spaces) -> bool {
    let Program { settings, list } = program;
    verdict(settings, lengths, list).ending != LENGTH && labels.lengths() == *lengths
}

#[cfg(test)]
mod tests {
    use super::*;
    use reference::answers::RunCall;
    use reference::run::{observed_run, Observed};
    use reference::speculative::{speculative_run, Window};
    use reference::varnode::{Wordsizes, UNIQUE};
    use reference::verdict::{Settings, END};

    /// 66 bytes of unique, of which the last two are secret, and no others.
    fn labels_of_unique() -> Spaces {
        let mut labels = Spaces { unique: vec![PUBLIC; 66], register: vec![], ram: vec![] };
        labels.unique[64..].fill(SECRET);
        labels
    }

    fn case(operations: &[[u64; 5]], counts: [u64; 3]) -> Case {
        let settings = Settings { order: 0, address_size: 1, wordsizes: Wordsizes::ONE };
        let program = Program { settings, list: operations.concat() };
        let memory = Spaces { unique: vec![1; 66], register: vec![], ram: vec![] };
        let mut state = State::labelled(memory, labels_of_unique(), vec![0; 9]);
        state.counts.unique = counts.to_vec();
        Case { call: RunCall { program, start: 0, budget: 9 }, state }
    }

    /// What a labelled run counts for, but for its numbers of words.
    fn events(before: &Case) -> Vec<Event> {
        let mut recounts = Recounts::default();
        let mut watch = Watch::new(&mut recounts, before);
        let Case { call: RunCall { program, start, budget }, mut state } = before.clone();
        let observer = |observed: Observed| watch.count_executed(observed.written, observed.state);
        let report = observed_run(&program, start, budget, &mut state, observer);
        watch.finish(report.ending);
        assert_followed(before, &state);
        let is_exact = |event: &Event| matches!(event, Event::ExactWords { .. });
        recounts.counted().filter(|event| !is_exact(event)).collect()
    }

    #[test]
    fn labels_are_recounted() {
        let labels = labels_of_unique();
        assert_eq!(recount(&labels.unique), [0, 2, 2]);
        assert_eq!(recount(&[]), [0]);
        assert_eq!([0, 1, 64, 65].map(|len| words_for(&vec![0; len])), [1, 2, 2, 3]);
        let counts = case(&[], [0, 2, 2]).state.counts;
        assert!(are_true(&counts, &labels));
        assert!(!are_true(&case(&[], [1, 2, 2]).state.counts, &labels));
        let public = Spaces { unique: vec![PUBLIC; 66], ..labels.clone() };
        assert_eq!(moved(&counts, &labels, &public).unique, [0, 0, 0]);
        assert_eq!(moved(&counts, &public, &labels).unique, [0, 4, 4]);
    }

    #[test]
    fn events_of_writes() {
        let space = UNIQUE;
        let [up, down] = [Event::Up { space }, Event::Down { space }];
        let [border, short] = [Event::AcrossBorder { space }, Event::ShortBlock { space }];
        let of = |operation| events(&case(&[operation], [0, 2, 2]));
        let is_true = Event::True { ending: END };
        // COPY of the last two bytes to 62 and 63, to 63 and 64, over themselves, and of a constant over 63 and 64.
        assert_eq!(of([0x22_22_01, 62, 64, 0, 0]), [is_true, up]);
        assert_eq!(of([0x22_22_01, 63, 64, 0, 0]), [is_true, up]);
        assert_eq!(of([0x22_22_01, 64, 64, 0, 0]), [is_true, Event::Same]);
        assert_eq!(of([0x12_22_01, 63, 0, 0, 0]), [is_true, down, short]);
        // COPY of bytes 64 and 63, exchanged by PIECE, to 63 and 64.
        let exchanged = of([0x21_21_22_0a, 63, 63, 64, 0]);
        assert_eq!(exchanged, [is_true, up, down, border, short, Event::Both]);
    }

    #[test]
    fn events_of_other_counts() {
        let space = UNIQUE;
        let [up, down] = [Event::Up { space }, Event::Down { space }];
        let wraps_up = [false, true].map(|is_total| Event::WrapsUp { is_total });
        let other = Event::Other { ending: END };
        let found = events(&case(&[[0x21_21_01, 0, 64, 0, 0]], [u64::MAX; 3]));
        assert_eq!(found, [&[other, up][..], &wraps_up].concat());
        let found = events(&case(&[[0x11_21_01, 64, 0, 0, 0]], [0; 3]));
        let wraps_down = [false, true].map(|is_total| Event::WrapsDown { is_total });
        let short = Event::ShortBlock { space };
        assert_eq!(found, [&[other, down, short][..], &wraps_down].concat());
    }

    #[test]
    fn events_of_numbers_of_words() {
        let mut short = case(&[], [0, 2, 2]);
        short.state.counts.unique.pop();
        let space = UNIQUE;
        assert_eq!(events(&short), [Event::Refused { space }, Event::OneShort { space }]);
        short.state.counts.unique.pop();
        assert_eq!(events(&short), [Event::Refused { space }]);
        short.state.counts.ram.clear();
        assert_eq!(events(&short), []);
        let mut long = case(&[], [0, 2, 2]);
        long.state.counts.unique.push(7);
        assert_eq!(events(&long), [Event::True { ending: END }, Event::OneWordMore { space }]);
        long.state.counts.unique.push(7);
        assert_eq!(events(&long), [Event::True { ending: END }, Event::ManyWordsMore { space }]);
    }

    #[test]
    fn windows_that_change_labels_are_counted_as_undone() {
        // A CBRANCH to the end, and a COPY over byte 0 or over the first of the secret ones.
        let undone = |target| {
            let operations = [[0x11_11_00_05, 0, 2, 1, 0], [0x21_21_01, target, 64, 0, 0]];
            let before = case(&operations, [0, 2, 2]);
            let mut recounts = Recounts::default();
            let mut watch = Watch::new(&mut recounts, &before);
            let Case { call: RunCall { program, .. }, mut state } = before.clone();
            let mut window = Window { operations: 8, journal: vec![0; 32] };
            let observer = |event: speculative::Event| watch.hear(event);
            speculative_run(&program, 0, 9, &mut window, &mut state, observer);
            recounts.of(Event::Undone(Closing::End))
        };
        assert_eq!([undone(0), undone(65)], [1, 0]);
    }
}
