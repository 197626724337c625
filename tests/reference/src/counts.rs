//! How much is secret: the counts that labelled runs keep, and the call that fills them from the labels.

use std::iter::zip;

use crate::fault;
use crate::memory::{Spaces, SECRET};
use crate::run::labels_hold;
use crate::varnode::{Lengths, Varnode, RAM, REGISTER, UNIQUE};
use crate::verdict::{Report, END, LONGEST_SPACE};

/// How many bytes a block has. The last of a space may have fewer.
pub const BLOCK: u64 = 64;

/// How many words of counts a space of so many bytes needs: one for each block, and the total.
pub fn words_needed(len: u64) -> u64 {
    len.div_ceil(BLOCK) + 1
}

/// The words that are lent for the three spaces, of any number: how many bytes of each block are secret,
/// then how many of the space, then words that stay as they are. They may hold anything. A plain run has
/// none.
#[derive(Clone, Debug, Default, PartialEq, Eq)]
pub struct SecretCounts {
    pub unique: Vec<u64>,
    pub register: Vec<u64>,
    pub ram: Vec<u64>,
}

impl SecretCounts {
    /// As many words as these labels need, with what is counted there.
    pub fn of(labels: &Spaces) -> SecretCounts {
        let [unique, register, ram] = labels.all().map(|labels| recount(labels));
        SecretCounts { unique, register, ram }
    }

    /// The words in the order of the spaces' numbers.
    pub fn all(&self) -> [&Vec<u64>; 3] {
        [&self.unique, &self.register, &self.ram]
    }

    /// The words in the order of the spaces' numbers, to be changed.
    pub fn all_mut(&mut self) -> [&mut Vec<u64>; 3] {
        [&mut self.unique, &mut self.register, &mut self.ram]
    }

    /// Rule 11 LENGTH for counts.
    pub fn hold(&self, lengths: &Lengths) -> bool {
        let lengths = [lengths.unique, lengths.register, lengths.ram];
        zip(self.all(), lengths).all(|(words, len)| words.len() as u64 >= words_needed(len))
    }

    /// Follows a varnode whose labels were others, in spaces of these lengths.
    pub(crate) fn follow_write(
        &mut self,
        lengths: &Lengths,
        target: &Varnode,
        from: &[u8],
        to: &[u8],
    ) {
        let Varnode { space, offset, .. } = *target;
        let (words, len) = match space {
            UNIQUE => (&mut self.unique, lengths.unique),
            REGISTER => (&mut self.register, lengths.register),
            RAM => (&mut self.ram, lengths.ram),
            other => panic!("space {other} is not a lent one"),
        };
        follow(words, len, offset, from, to);
    }

    /// Follows all labels, which were others.
    pub(crate) fn follow_all(&mut self, from: &Spaces, to: &Spaces) {
        for (words, (from, to)) in zip(self.all_mut(), zip(from.all(), to.all())) {
            follow(words, to.len() as u64, 0, from, to);
        }
    }
}

/// Moves the counts of a space of so many bytes for each label that is another than before. The labels are those
/// from an offset on.
fn follow(words: &mut [u64], len: u64, offset: u64, from: &[u8], to: &[u8]) {
    let total = (words_needed(len) - 1) as usize;
    let changed = zip(offset.., zip(from, to)).filter(|(_, (from, to))| from != to);
    for (offset, (_, to)) in changed {
        for word in [(offset / BLOCK) as usize, total] {
            words[word] = match *to {
                SECRET => words[word].wrapping_add(1),
                _ => words[word].wrapping_sub(1),
            };
        }
    }
}

/// The counts of a space with these labels.
fn recount(labels: &[u8]) -> Vec<u64> {
    let secret = |labels: &[u8]| labels.iter().filter(|&&label| label == SECRET).count() as u64;
    let blocks = labels.chunks(BLOCK as usize).map(secret);
    blocks.chain([secret(labels)]).collect()
}

/// Fills the first words of the counts from the labels: LENGTH, then LABEL, or a report of zeros.
pub fn count_secrets(labels: &Spaces, counts: &mut SecretCounts) -> Report {
    let lengths = labels.lengths();
    let are_long = labels.all().into_iter().any(|space| space.len() as u64 > LONGEST_SPACE);
    if are_long || !counts.hold(&lengths) {
        return Report::before_a_run(fault::LENGTH, 0);
    }
    if !labels_hold(labels) {
        return Report::before_a_run(fault::LABEL, 0);
    }
    let found = SecretCounts::of(labels);
    for (words, found) in zip(counts.all_mut(), found.all()) {
        words[..found.len()].copy_from_slice(found);
    }
    Report::before_a_run(END, 0)
}

#[cfg(test)]
mod tests {
    use super::*;
    use crate::memory::PUBLIC;

    /// A word as it is lent.
    const LENT: u64 = 0x7777;

    /// Labels of these lengths, all public.
    fn public(unique: u64, register: u64, ram: u64) -> Spaces {
        Spaces::of_lengths(&Lengths { unique, register, ram })
    }

    /// So many words for each space.
    fn lent(unique: usize, register: usize, ram: usize) -> SecretCounts {
        let [unique, register, ram] = [unique, register, ram].map(|words| vec![LENT; words]);
        SecretCounts { unique, register, ram }
    }

    #[test]
    fn a_word_for_each_block_and_one_for_the_total() {
        for (len, words) in [
            (0, 1),
            (1, 2),
            (63, 2),
            (64, 2),
            (65, 3),
            (128, 3),
            (129, 4),
            (65_535, 1_025),
            (65_536, 1_025),
        ] {
            assert_eq!(words_needed(len), words);
            let all_secret = recount(&vec![SECRET; len as usize]);
            assert_eq!(all_secret.len() as u64, words);
            assert_eq!(all_secret.last(), Some(&len));
        }
    }

    #[test]
    fn secret_bytes_are_counted_by_block() {
        let mut labels = vec![PUBLIC; 130];
        assert_eq!(recount(&labels), [0, 0, 0, 0]);
        for place in [0, 63, 64, 127, 128, 129] {
            labels[place] = SECRET;
        }
        assert_eq!(recount(&labels), [2, 2, 2, 6]);
        assert_eq!(recount(&labels[..129]), [2, 2, 1, 5]);
        assert_eq!(recount(&labels[..64]), [2, 2]);
        assert_eq!(recount(&labels[..63]), [1, 1]);
        assert_eq!(recount(&[]), [0]);
    }

    /// The counts of a space of 130 bytes that held these words, after labels from an offset on changed.
    fn moved(mut words: Vec<u64>, offset: u64, from: &[u8], to: &[u8]) -> Vec<u64> {
        follow(&mut words, 130, offset, from, to);
        words
    }

    #[test]
    fn a_label_that_changes_moves_its_block_and_the_total() {
        let lent = || vec![10, 20, 30, 40, 50];
        assert_eq!(moved(lent(), 0, &[0], &[1]), [11, 20, 30, 41, 50]);
        assert_eq!(moved(lent(), 129, &[1], &[0]), [10, 20, 29, 39, 50]);
        // Across a border, some one way and some the other.
        assert_eq!(moved(lent(), 62, &[0, 0, 0, 0], &[1, 1, 1, 0]), [12, 21, 30, 43, 50]);
        assert_eq!(moved(lent(), 62, &[1, 0, 1, 1], &[0, 1, 0, 0]), [10, 18, 30, 38, 50]);
        assert_eq!(moved(lent(), 127, &[0, 1], &[1, 0]), [10, 21, 29, 40, 50]);
    }

    #[test]
    fn reading_22_a_label_written_as_it_was_moves_nothing() {
        assert_eq!(moved(vec![1, 2, 3, 4], 60, &[0, 1, 0, 1], &[0, 1, 0, 1]), [1, 2, 3, 4]);
    }

    #[test]
    fn counts_wrap() {
        assert_eq!(moved(vec![u64::MAX; 4], 64, &[0, 0], &[1, 1]), [u64::MAX, 1, u64::MAX, 1]);
        assert_eq!(moved(vec![0; 4], 64, &[1], &[0]), [0, u64::MAX, 0, u64::MAX]);
    }

    #[test]
    fn all_labels_are_followed_space_by_space() {
        let from = public(64, 0, 65);
        let mut to = from.clone();
        to.unique[63] = SECRET;
        to.ram[64] = SECRET;
        let mut counts = SecretCounts::of(&from);
        counts.follow_all(&from, &to);
        assert_eq!(counts, SecretCounts::of(&to));
        assert_eq!((counts.unique, counts.register), (vec![1, 1], vec![0]));
        assert_eq!(counts.ram, [0, 1, 1]);
    }

    #[test]
    fn counts_are_filled_and_further_words_stay() {
        let mut labels = public(65, 0, 2);
        labels.unique[64] = SECRET;
        labels.ram.fill(SECRET);
        let mut counts = lent(5, 2, 2);
        assert_eq!(count_secrets(&labels, &mut counts).numbers(), [0; 5]);
        assert_eq!(counts.unique, [0, 1, 1, LENT, LENT]);
        assert_eq!(counts.register, [0, LENT]);
        assert_eq!(counts.ram, [2, 2]);
    }

    /// The ending of a filling that is refused, and leaves the counts as they were.
    fn refused(labels: &Spaces, lent: SecretCounts) -> u64 {
        let mut counts = lent.clone();
        let [ending, rest @ ..] = count_secrets(labels, &mut counts).numbers();
        assert_eq!(rest, [0; 4]);
        assert_eq!(counts, lent);
        ending
    }

    #[test]
    fn reading_22_refusals_of_the_filling() {
        let mut labels = public(65, 64, 0);
        for [unique, register, ram] in [[2, 2, 1], [3, 1, 1], [3, 2, 0], [0, 9, 9]] {
            assert_eq!(refused(&labels, lent(unique, register, ram)), fault::LENGTH);
        }
        labels.unique[64] = 2;
        assert_eq!(refused(&labels, lent(3, 2, 0)), fault::LENGTH);
        assert_eq!(refused(&labels, lent(3, 2, 1)), fault::LABEL);
        labels.register.resize(65_537, PUBLIC);
        assert_eq!(refused(&labels, lent(3, 2_000, 1)), fault::LENGTH);
        labels.register.truncate(65_536);
        assert_eq!(refused(&labels, lent(3, 1_025, 1)), fault::LABEL);
        labels.unique[64] = SECRET;
        assert_eq!(count_secrets(&labels, &mut lent(3, 1_025, 1)).numbers(), [0; 5]);
    }
}
