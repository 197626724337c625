//! `undrelvoa_show` and the second program: where the bytes of a varnode lie.

use compare::agreement::{check_show, Tally, MOST_RESULT_WORDS};
use compare::campaign::Campaign;
use compare::inputs::{GOOD_AND_BAD_SIZES, LARGE_OFFSETS, SIZES};
use compare::random::Random;
use compare::Spaces;
use reference::varnode::{Lengths, Varnode, RAM, REGISTER, UNIQUE};

const RANDOM_CALLS: u64 = 500_000;
const LONGEST_SMALL_SPACE: u64 = 20;

/// Space numbers from 0 to 6, and large ones, some with a good number in their low bits.
const GOOD_AND_BAD_SPACES: [u64; 13] =
    [0, 1, 2, 3, 4, 5, 6, 16 + 2, 256 + 3, (1 << 32) + 4, (1 << 63) + 2, u64::MAX - 2, u64::MAX];

/// Three spaces, of which each in turn has `len` bytes and the others fewer or more.
fn spaces_around(len: u64) -> [Spaces; 3] {
    let lengths = [
        Lengths { unique: len, register: 5, ram: 33 },
        Lengths { unique: 33, register: len, ram: 5 },
        Lengths { unique: 5, register: 33, ram: len },
    ];
    lengths.map(|lengths| Spaces::of_lengths(&lengths))
}

/// The tally's number for a call: how many bytes were shown, or 11 for a call that was refused.
fn shown_bytes(spaces: &Spaces, varnode: &Varnode, place_len: u64) -> u64 {
    check_show(spaces, varnode, place_len).map_or(11, |[_, _, bytes]| bytes)
}

#[test]
fn every_offset_of_small_spaces() {
    let mut tally = Tally::default();
    for len in 0..=LONGEST_SMALL_SPACE {
        for spaces in spaces_around(len) {
            for space in GOOD_AND_BAD_SPACES {
                for size in GOOD_AND_BAD_SIZES {
                    for offset in (0..=len + 10).chain(LARGE_OFFSETS) {
                        let varnode = Varnode { space, offset, size };
                        tally.count(shown_bytes(&spaces, &varnode, 2));
                        tally.count(shown_bytes(&spaces, &varnode, 3));
                    }
                }
            }
        }
    }
    tally.assert_numbers(&[0, 1, 2, 3, 4, 5, 6, 7, 8, 11]);
    println!("show, every offset of small spaces, by bytes shown: {tally}");
}

#[test]
fn short_places_are_refused_and_long_ones_keep_their_further_words() {
    let mut agreed = 0;
    for spaces in spaces_around(LONGEST_SMALL_SPACE) {
        for space in GOOD_AND_BAD_SPACES {
            for size in GOOD_AND_BAD_SIZES {
                for place_len in 0..=MOST_RESULT_WORDS {
                    let varnode = Varnode { space, offset: 1, size };
                    let place = check_show(&spaces, &varnode, place_len);
                    assert_eq!(place.is_some(), place_len >= 3);
                    agreed += 1;
                }
            }
        }
    }
    println!("show, short and long places: {agreed} agreed");
}

#[test]
fn spaces_around_65536_bytes() {
    let mut tally = Tally::default();
    for len in [65_535, 65_536, 65_537, 70_000] {
        for spaces in spaces_around(len) {
            for space in [UNIQUE, REGISTER, RAM] {
                for size in SIZES {
                    for offset in (65_520..=65_540).chain(len - 10..=len + 1) {
                        let varnode = Varnode { space, offset, size };
                        tally.count(shown_bytes(&spaces, &varnode, 3));
                    }
                }
            }
        }
    }
    tally.assert_numbers(&[0, 1, 2, 3, 4, 5, 6, 7, 8]);
    println!("show, spaces around 65536 bytes, by bytes shown: {tally}");
}

#[test]
fn random_calls() {
    const SEED: u64 = 0x5eed_0031;
    let mut campaign = Campaign::new(SEED, RANDOM_CALLS);
    let mut tally = Tally::default();
    for (_, mut random) in campaign.by_ref() {
        let mut length = || random.below(41);
        let lengths = Lengths { unique: length(), register: length(), ram: length() };
        let varnode = random_varnode(&mut random);
        let place_len = random.below(MOST_RESULT_WORDS + 1);
        tally.count(shown_bytes(&Spaces::of_lengths(&lengths), &varnode, place_len));
    }
    println!("show, random calls: {campaign}, by bytes shown: {tally}");
    if campaign.is_whole() {
        tally.assert_numbers(&[0, 1, 2, 3, 4, 5, 6, 7, 8, 11]);
    }
}

/// A varnode that is shown more often than not.
fn random_varnode(random: &mut Random) -> Varnode {
    let any = random.word();
    let large = random.pick(&LARGE_OFFSETS);
    let space = if random.once_in(10) {
        random.pick(&GOOD_AND_BAD_SPACES)
    } else {
        random.pick(&[UNIQUE, REGISTER, RAM])
    };
    let size = if random.once_in(10) {
        random.pick(&GOOD_AND_BAD_SIZES)
    } else {
        1 + random.below(*SIZES.end())
    };
    let offset = if random.once_in(10) { random.pick(&[any, large]) } else { random.below(41) };
    Varnode { space, offset, size }
}
