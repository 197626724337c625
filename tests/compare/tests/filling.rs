//! `undrelvoa_count_secrets` and the second program: spaces of many lengths, labels that are none, numbers of words,
//! and random labels.

use compare::agreement::{Tally, MOST_RESULT_WORDS};
use compare::campaign::Campaign;
use compare::fillings::check_filling;
use compare::random::Random;
use compare::recounts::{are_true, words_for};
use reference::answers::LentWords;
use reference::counts::SecretCounts;
use reference::fault::{LABEL, LENGTH};
use reference::memory::{Spaces, SECRET};
use reference::varnode::Lengths;
use reference::verdict::{END, LONGEST_SPACE};

const RANDOM_FILLINGS: u64 = 60_000;
/// How often each ending should come in random fillings, and a call be refused for its report.
const QUOTA: u64 = 500;

/// The lengths of spaces around the borders of blocks.
const LENGTHS: [u64; 12] =
    [0, 1, 2, 63, 64, 65, 127, 128, 129, 4_096, LONGEST_SPACE - 1, LONGEST_SPACE];
/// The same for all three spaces at once.
const SHORT_LENGTHS: [u64; 7] = [0, 1, 63, 64, 65, 128, 130];

/// A word of counts as it is lent.
const LENT_WORD: u64 = 0x7777_7777_7777_7777;

/// Numbers that are no label.
const BAD_LABELS: [u8; 6] = [2, 3, 0x80, 0x81, 0xfe, 0xff];

/// Public labels.
fn labels_of(unique: u64, register: u64, ram: u64) -> Spaces {
    Spaces::of_lengths(&Lengths { unique, register, ram })
}

/// Counts of labels with so many words more than they need.
fn lent_counts(labels: &Spaces, further: usize) -> SecretCounts {
    let [unique, register, ram] =
        labels.all().map(|labels| vec![LENT_WORD; words_for(labels) + further]);
    SecretCounts { unique, register, ram }
}

/// Compares a filling, and fails unless it ends so: with true counts and further words as lent, or with all words as
/// lent.
fn check(labels: &Spaces, lent: &SecretCounts, ending: u64, tally: &mut Tally) {
    let mut counts = lent.clone();
    let report = check_filling(labels, &mut counts, LentWords::EXACT.report);
    assert_eq!(report, Some([ending, 0, 0, 0, 0]), "the report on {:?}", labels.lengths());
    if ending == END {
        assert!(are_true(&counts, labels), "counts that are not true of {:?}", labels.lengths());
        let needed = labels.all().map(|labels| words_for(labels));
        for space in 0..3 {
            let [words, lent] = [&counts, lent].map(|counts| &counts.all()[space][needed[space]..]);
            assert_eq!(words, lent, "the further words of {:?}", labels.lengths());
        }
    } else {
        assert!(counts == *lent, "a refused filling left something of {:?}", labels.lengths());
    }
    tally.count(ending);
}

/// Labels of which none, all, the first, the last or some are secret.
fn choices_of_labels(public: &Spaces, random: &mut Random) -> Vec<Spaces> {
    let changed = |change: &mut dyn FnMut(&mut [u8])| {
        let mut labels = public.clone();
        labels.all_mut().into_iter().for_each(|space| change(space));
        labels
    };
    vec![
        public.clone(),
        changed(&mut |space| space.fill(SECRET)),
        changed(&mut |space| space.iter_mut().take(1).for_each(|label| *label = SECRET)),
        changed(&mut |space| space.iter_mut().rev().take(1).for_each(|label| *label = SECRET)),
        changed(&mut |space| space.iter_mut().step_by(64).for_each(|label| *label = SECRET)),
        changed(&mut |space| space.iter_mut().for_each(|label| *label = random.below(2) as u8)),
    ]
}

#[test]
fn spaces_of_many_lengths() {
    let mut tally = Tally::default();
    let mut random = Random::new(0x5eed_00a1);
    let long = LENGTHS.iter().flat_map(|&len| [[len, 5, 64], [65, len, 0], [1, 70, len]]);
    let short = SHORT_LENGTHS.iter().flat_map(|&unique| {
        SHORT_LENGTHS
            .iter()
            .flat_map(move |&register| SHORT_LENGTHS.map(|ram| [unique, register, ram]))
    });
    for [unique, register, ram] in long.chain(short) {
        for labels in choices_of_labels(&labels_of(unique, register, ram), &mut random) {
            for further in [0, 1, 30] {
                check(&labels, &lent_counts(&labels, further), END, &mut tally);
            }
        }
    }
    println!("filling, spaces of many lengths: {tally}");
}

#[test]
fn labels_that_are_none() {
    let mut tally = Tally::default();
    for len in LENGTHS.into_iter().filter(|&len| len > 0) {
        for space in 0..3 {
            let mut lengths = [3; 3];
            lengths[space] = len;
            let [unique, register, ram] = lengths;
            for place in [0, len as usize / 2, len as usize - 1] {
                for bad in BAD_LABELS {
                    let mut labels = labels_of(unique, register, ram);
                    labels.all_mut()[space][place] = bad;
                    check(&labels, &lent_counts(&labels, 1), LABEL, &mut tally);
                    let mut short = lent_counts(&labels, 0);
                    short.all_mut()[(space + 1) % 3].pop();
                    check(&labels, &short, LENGTH, &mut tally);
                }
            }
        }
    }
    println!("filling, labels that are none: {tally}");
}

#[test]
fn labels_over_the_greatest_length() {
    let mut tally = Tally::default();
    for space in 0..3 {
        for over in [1, 2, 64, LONGEST_SPACE] {
            let mut labels = labels_of(3, 3, 3);
            labels.all_mut()[space].resize((LONGEST_SPACE + over) as usize, SECRET);
            for further in [0, 5] {
                check(&labels, &lent_counts(&labels, further), LENGTH, &mut tally);
            }
            labels.all_mut()[(space + 2) % 3][0] = 2;
            check(&labels, &lent_counts(&labels, 5), LENGTH, &mut tally);
        }
    }
    println!("filling, labels over the greatest length: {tally}");
}

#[test]
fn numbers_of_words() {
    let mut tally = Tally::default();
    for len in LENGTHS {
        for space in 0..3 {
            let mut lengths = [3; 3];
            lengths[space] = len;
            let [unique, register, ram] = lengths;
            let mut labels = labels_of(unique, register, ram);
            labels.all_mut().into_iter().for_each(|labels| labels.fill(SECRET));
            let needed = words_for(labels.all()[space]);
            for words in [0, needed / 2, needed - 1, needed, needed + 1, needed + 64, 3_000] {
                let mut counts = lent_counts(&labels, 0);
                *counts.all_mut()[space] = vec![LENT_WORD; words];
                let ending = if words < needed { LENGTH } else { END };
                check(&labels, &counts, ending, &mut tally);
            }
        }
    }
    println!("filling, numbers of words: {tally}");
}

#[test]
fn reports_of_too_few_words_are_refused() {
    let mut agreed = 0;
    let good = labels_of(65, 1, 0);
    let bad = Spaces { register: vec![2], ..good.clone() };
    let short = SecretCounts { ram: vec![], ..lent_counts(&good, 0) };
    for (labels, counts) in
        [(&good, lent_counts(&good, 1)), (&bad, lent_counts(&good, 1)), (&good, short)]
    {
        for report_len in 0..=MOST_RESULT_WORDS as usize {
            let mut after = counts.clone();
            let report = check_filling(labels, &mut after, report_len);
            assert_eq!(report.is_some(), report_len >= 5);
            assert!(report_len >= 5 || after == counts, "a refused call left something");
            agreed += 1;
        }
    }
    println!("filling, numbers of report words: {agreed} agreed");
}

/// Labels of random lengths, mostly few blocks, one in eight with a number that is no label, and counts, one in eight
/// too short.
fn random_filling(random: &mut Random) -> (Spaces, SecretCounts) {
    let [unique, register, ram] = [(); 3].map(|()| match random.below(40) {
        0 => LONGEST_SPACE - random.below(70),
        1 => LONGEST_SPACE + random.below(2),
        2..=6 => 0,
        _ => random.below(200),
    });
    let mut labels = labels_of(unique, register, ram);
    for space in labels.all_mut() {
        let once_in = random.pick(&[1, 2, 2, 10, 100]);
        space.iter_mut().for_each(|label| *label = u8::from(random.once_in(once_in)));
    }
    let mut counts = lent_counts(&labels, 0);
    for words in counts.all_mut() {
        let further = random.below(4);
        words.extend([LENT_WORD; 3].into_iter().take(further as usize));
        words.iter_mut().for_each(|word| *word = random.word());
    }
    if random.once_in(8) {
        let space = random.below(3) as usize;
        let bad = random.pick(&BAD_LABELS);
        let len = labels.all()[space].len() as u64;
        let place = random.below(len.max(1)) as usize;
        labels.all_mut()[space].iter_mut().skip(place).take(1).for_each(|label| *label = bad);
    }
    if random.once_in(8) {
        let space = random.below(3) as usize;
        let needed = words_for(labels.all()[space]) as u64;
        let words = if random.once_in(2) { needed - 1 } else { random.below(needed) };
        counts.all_mut()[space].truncate(words as usize);
    }
    (labels, counts)
}

#[test]
fn random_fillings() {
    const SEED: u64 = 0x5eed_00a2;
    let mut campaign = Campaign::new(SEED, RANDOM_FILLINGS);
    let mut tally = Tally::default();
    let mut refused = 0;
    for (_, mut random) in campaign.by_ref() {
        let (labels, mut counts) = random_filling(&mut random);
        let is_short = random.once_in(20);
        let report_len = if is_short { random.below(5) } else { 5 + random.below(4) } as usize;
        match check_filling(&labels, &mut counts, report_len) {
            Some([ending, ..]) => {
                assert!(ending != END || are_true(&counts, &labels));
                tally.count(ending);
            }
            None => refused += 1,
        }
    }
    println!("filling, random labels: {campaign}, {tally}, {refused} refused for their report");
    if campaign.is_whole() {
        tally.assert_numbers(&[END, LENGTH, LABEL]);
        tally.assert_quota(&[END, LENGTH, LABEL], QUOTA);
        assert!(refused >= QUOTA, "{refused} were refused, and not {QUOTA} or more");
    }
}
