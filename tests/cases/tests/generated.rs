//! Random texts: the case program and the second program print the same.

use cases::campaign::Campaign;
use cases::damage::{damage, lacks_wordsizes, limit_run};
use cases::large;
use cases::process::{assert_printed, CaseProgram, WHOLE};
use cases::random::Random;
use cases::random_cases::Cases;
use cases::tally::{Tally, ENDINGS};
use cases::wordsizes::Shown;
use reference::case::{output, BAD_LINE, MOST_BYTES_A_LINE};

/// The rarest ending comes about 54 times among so many, so that its quota holds for other seeds too.
const GOOD_TEXTS: u64 = 6_000;
const WORDSIZE_TEXTS: u64 = 3_000;
const DAMAGED_TEXTS: u64 = 2_500;
const LARGE_TEXTS: u64 = 26;

/// How often each ending should come, what a wordsize does, a bad line, and one without wordsizes.
const ENDING_QUOTA: u64 = 30;
const WORDSIZE_QUOTA: u64 = 500;
const BAD_LINE_QUOTA: u64 = 1_000;
const LACKING_QUOTA: u64 = 200;

/// Compares the two programs on a text that arrives in parts of at most `part_len` bytes.
fn check(program: &CaseProgram, text: &[u8], part_len: usize, what: &str, tally: &mut Tally) {
    let expected = output(text);
    let printed = program.run(text, part_len);
    assert_printed(&printed, &expected, text, what);
    tally.count(&expected);
}

/// How a short text arrives: mostly as a whole, once in a while in small parts.
fn part_len(random: &mut Random, text: &[u8]) -> usize {
    const LONGEST_IN_PARTS: usize = 20_000;
    if text.len() > LONGEST_IN_PARTS || !random.once_in(4) {
        return WHOLE;
    }
    1 + random.below(120) as usize
}

#[test]
fn good_texts() {
    const SEED: u64 = 0x5eed_0051;
    let program = CaseProgram::find();
    let mut campaign = Campaign::new(SEED, GOOD_TEXTS);
    let mut tally = Tally::default();
    let mut in_parts = 0;
    for (number, random) in campaign.by_ref() {
        let mut cases = Cases::new(random);
        let case = cases.case();
        let text = cases.text(&case);
        let part_len = part_len(cases.random(), &text);
        in_parts += u64::from(part_len != WHOLE);
        check(&program, &text, part_len, &format!("good text {number}"), &mut tally);
    }
    println!("good texts: {campaign}, {tally}, {in_parts} arrived in parts");
    if campaign.is_whole() {
        let endings: Vec<u64> = ENDINGS.into_iter().filter(|&ending| ending != BAD_LINE).collect();
        tally.assert_quota(&endings, ENDING_QUOTA);
    }
}

#[test]
fn texts_with_wordsizes() {
    const SEED: u64 = 0x5eed_0054;
    let program = CaseProgram::find();
    let mut campaign = Campaign::new(SEED, WORDSIZE_TEXTS);
    let mut tally = Tally::default();
    let mut shown = Shown::default();
    for (number, random) in campaign.by_ref() {
        let mut cases = Cases::new(random);
        let case = cases.wordsize_case();
        let text = cases.text(&case);
        let part_len = part_len(cases.random(), &text);
        check(&program, &text, part_len, &format!("text with wordsizes {number}"), &mut tally);
        shown.count(&case);
    }
    println!("texts with wordsizes: {campaign}, {tally}, {shown}");
    if campaign.is_whole() {
        shown.assert_quota(WORDSIZE_QUOTA);
    }
}

#[test]
fn damaged_texts() {
    const SEED: u64 = 0x5eed_0052;
    let program = CaseProgram::find();
    let mut campaign = Campaign::new(SEED, DAMAGED_TEXTS);
    let mut tally = Tally::default();
    let mut in_parts = 0;
    let mut lacking = 0;
    for (number, random) in campaign.by_ref() {
        let mut cases = Cases::new(random);
        let case = cases.case();
        let mut text = cases.text(&case);
        let wounds = cases.random().pick(&[1, 1, 1, 1, 2, 5]);
        (0..wounds).for_each(|_| damage(&mut text, cases.random()));
        limit_run(&mut text);
        let part_len = part_len(cases.random(), &text);
        in_parts += u64::from(part_len != WHOLE);
        lacking += u64::from(lacks_wordsizes(&text));
        check(&program, &text, part_len, &format!("damaged text {number}"), &mut tally);
    }
    println!(
        "damaged texts: {campaign}, {tally}, {in_parts} arrived in parts, {lacking} lack wordsizes"
    );
    if campaign.is_whole() {
        tally.assert_quota(&[BAD_LINE], BAD_LINE_QUOTA);
        assert!(lacking >= LACKING_QUOTA, "line 1 lacked wordsizes only {lacking} times");
    }
}

/// What a large text is, the text, and in parts of how many bytes it arrives: each kind in turn.
fn large_text(number: u64, random: &mut Random) -> (&'static str, Vec<u8>, usize) {
    const MOST: u64 = MOST_BYTES_A_LINE as u64;
    match number % LARGE_TEXTS {
        0 => ("a large good text", large::good(random, 1), WHOLE),
        1 => ("a large good text", large::good(random, 7), WHOLE),
        2 => ("a large good text", large::good(random, MOST), WHOLE),
        3 => ("a large good text in parts", large::good(random, 1), 1_000),
        4 => ("a large good text in parts", large::good(random, 7), 1_000),
        5 => ("a large good text in parts", large::good(random, MOST), 1_000),
        6..=9 => ("bad at the end", large::bad_at_the_end(random), WHOLE),
        10..=13 => ("bad at the start", large::bad_at_the_start(random), WHOLE),
        14..=17 => ("one byte repeated", large::one_byte(random), WHOLE),
        18..=21 => ("a long line", large::long_line(random), WHOLE),
        22 => ("a long line in parts", large::long_line(random), 777),
        23 => ("a long line in parts", large::long_line(random), 4_096),
        24 => ("bad at a large number", large::bad_at_a_large_number(random), WHOLE),
        _ => ("noise", large::noise(random), WHOLE),
    }
}

#[test]
fn large_texts() {
    const SEED: u64 = 0x5eed_0053;
    let program = CaseProgram::find();
    let mut campaign = Campaign::new(SEED, LARGE_TEXTS);
    let mut tally = Tally::default();
    for (number, mut random) in campaign.by_ref() {
        let (what, text, part_len) = large_text(number, &mut random);
        assert!(text.len() > large::LARGE, "{what} has only {} bytes", text.len());
        check(&program, &text, part_len, what, &mut tally);
    }
    println!("texts of more than {} bytes: {campaign}, {tally}", large::LARGE);
}
