//! `undrelvoa_validate` and the second program: each rule at its borders, and which rule comes first.

use compare::agreement::{check_verdict, Tally, MOST_RESULT_WORDS};
use compare::inputs::{
    first_value_too_large, largest_value, BAD_WORDSIZES, GOOD_AND_BAD_ORDERS, GOOD_AND_BAD_SIZES,
    LARGE_OFFSETS, SIZES,
};
use compare::lists::{good_entry, plain_entry, with_varnode, PLACES};
use reference::answers::{LentWords, VerdictCall};
use reference::list::{list_of, Entry};
use reference::opcodes::{Operation, Sizes, OPERATIONS};
use reference::varnode::{Lengths, Varnode, Wordsizes, CONSTANT, RAM, REGISTER, UNIQUE};
use reference::verdict::Settings;

/// Wordsizes that differ, and that no rule but 10 asks for.
const SETTINGS: Settings =
    Settings { order: 0, address_size: 4, wordsizes: Wordsizes { unique: 3, register: 1, ram: 8 } };

/// Lengths that differ, so that a mistaken space is seen.
const LENGTHS: Lengths = Lengths { unique: 16, register: 24, ram: 40 };

/// The operations whose input0 is a destination.
const BRANCHES: [&str; 3] = ["BRANCH", "CBRANCH", "CALL"];

/// Compares a call and gives back its ending.
fn ending(call: &VerdictCall) -> u64 {
    let lent = LentWords { report: 6, ..LentWords::EXACT };
    check_verdict(call, lent).expect("a report of five words")[0]
}

/// Compares a list of these operations and gives back its ending.
fn ending_of(lengths: Lengths, entries: &[Entry]) -> u64 {
    ending(&VerdictCall { settings: SETTINGS, lengths, list: list_of(entries) })
}

/// Compares a list whose second operation of three is this one.
fn ending_between(entry: Entry) -> u64 {
    let other = good_entry(named("COPY"), SETTINGS.address_size);
    ending_of(LENGTHS, &[other, entry, other])
}

/// The operation with this name.
fn named(name: &str) -> &'static Operation {
    OPERATIONS.iter().find(|operation| operation.name == name).expect("a name of an operation")
}

#[test]
fn every_descriptor_byte_at_every_place_of_every_opcode() {
    let mut tally = Tally::default();
    for operation in &OPERATIONS {
        for place in PLACES {
            for byte in 0..=255 {
                for offset in [0, 3, 9, u64::MAX] {
                    let mut entry = good_entry(operation, SETTINGS.address_size);
                    entry.descriptors[place] = byte;
                    entry.offsets[place] = offset;
                    tally.count(ending_between(entry));
                }
            }
        }
    }
    tally.assert_numbers(&[0, 22, 23, 24, 25, 26]);
    println!("verdict, every descriptor byte: {tally}");
}

#[test]
fn every_offset_word_of_an_absent_varnode() {
    let mut tally = Tally::default();
    for operation in &OPERATIONS {
        for place in PLACES.filter(|&place| !operation.present()[place]) {
            for offset in (0..64).map(|bit| 1 << bit).chain([0, u64::MAX]) {
                let mut entry = good_entry(operation, SETTINGS.address_size);
                entry.offsets[place] = offset;
                tally.count(ending_between(entry));
            }
        }
    }
    tally.assert_numbers(&[0, 22]);
    println!("verdict, absent varnodes with an offset: {tally}");
}

#[test]
fn every_opcode_byte_on_the_varnodes_of_every_opcode() {
    let mut tally = Tally::default();
    for operation in &OPERATIONS {
        for opcode in 0..=255 {
            let entry = Entry { opcode, ..good_entry(operation, SETTINGS.address_size) };
            tally.count(ending_between(entry));
        }
    }
    tally.assert_numbers(&[0, 21, 22, 23, 25]);
    println!("verdict, every opcode byte: {tally}");
}

#[test]
fn every_spare_byte_of_every_opcode() {
    let mut tally = Tally::default();
    for operation in &OPERATIONS {
        for spare in 0..3 {
            for byte in 0..=255 {
                let mut entry = good_entry(operation, SETTINGS.address_size);
                entry.spare[spare] = byte;
                tally.count(ending_between(entry));
            }
        }
    }
    tally.assert_numbers(&[0, 21]);
    println!("verdict, every spare byte: {tally}");
}

#[test]
fn every_mix_of_sizes_of_every_opcode() {
    let mut tally = Tally::default();
    for operation in &OPERATIONS {
        let choices = operation.present().map(|present| if present { SIZES } else { 0..=0 });
        for output in choices[0].clone() {
            for input0 in choices[1].clone() {
                for input1 in choices[2].clone() {
                    for input2 in choices[3].clone() {
                        let sizes = Sizes { output, input0, input1 };
                        let entry = plain_entry(operation, sizes, input2);
                        check_address_sizes(entry, &mut tally);
                    }
                }
            }
        }
    }
    tally.assert_numbers(&[0, 25]);
    println!("verdict, every mix of sizes and address sizes: {tally}");
}

/// Compares an operation at each address size.
fn check_address_sizes(entry: Entry, tally: &mut Tally) {
    for address_size in SIZES {
        let settings = Settings { order: 1, address_size, ..SETTINGS };
        let list = list_of(&[entry]);
        tally.count(ending(&VerdictCall { settings, lengths: LENGTHS, list }));
    }
}

/// Offsets around the last one of a space of `len` bytes, and around 2^64 - 1.
fn offsets_around_the_end(len: u64, size: u64) -> impl Iterator<Item = u64> {
    (len.saturating_sub(size + 2)..=len + 2).chain(LARGE_OFFSETS)
}

#[test]
fn ends_of_spaces_at_every_place_of_every_opcode() {
    let mut tally = Tally::default();
    for operation in &OPERATIONS {
        for place in PLACES.filter(|&place| operation.present()[place]) {
            for space in [UNIQUE, REGISTER, RAM] {
                let len = LENGTHS.of(space).expect("a lent space");
                for size in SIZES {
                    for offset in offsets_around_the_end(len, size) {
                        let varnode = Varnode { space, offset, size };
                        let entry = good_entry(operation, SETTINGS.address_size);
                        tally.count(ending_between(with_varnode(entry, place, varnode)));
                    }
                }
            }
        }
    }
    tally.assert_numbers(&[0, 23, 24, 25]);
    println!("verdict, ends of spaces at every place: {tally}");
}

#[test]
fn ends_of_spaces_of_every_small_length_and_of_large_ones() {
    let mut tally = Tally::default();
    for len in (0..=20).chain([65_534, 65_535, 65_536]) {
        for size in SIZES {
            for offset in offsets_around_the_end(len, size) {
                check_copies(len, offset, size, &mut tally);
            }
        }
    }
    tally.assert_numbers(&[0, 24]);
    println!("verdict, ends of spaces of many lengths: {tally}");
}

/// Compares copies from and to a place in each space, which has `len` bytes.
fn check_copies(len: u64, offset: u64, size: u64, tally: &mut Tally) {
    let lengths = [
        (UNIQUE, Lengths { unique: len, register: 64, ram: 65 }),
        (REGISTER, Lengths { unique: 65, register: len, ram: 64 }),
        (RAM, Lengths { unique: 64, register: 65, ram: len }),
    ];
    for (space, lengths) in lengths {
        let other_space = if space == UNIQUE { REGISTER } else { UNIQUE };
        let here = Some(Varnode { space, offset, size });
        let there = Some(Varnode { space: other_space, offset: 0, size });
        tally.count(ending_of(lengths, &[Entry::new(1, [there, here, None, None])]));
        tally.count(ending_of(lengths, &[Entry::new(1, [here, there, None, None])]));
    }
}

#[test]
fn constants_around_the_largest_at_every_place_of_every_opcode() {
    let mut tally = Tally::default();
    for operation in &OPERATIONS {
        for place in PLACES.filter(|&place| operation.present()[place]) {
            for size in SIZES {
                let largest = largest_value(size);
                let too_large = first_value_too_large(size).unwrap_or(largest);
                for offset in [0, largest - 1, largest, too_large, too_large | 1, u64::MAX] {
                    let varnode = Varnode { space: CONSTANT, offset, size };
                    let entry = good_entry(operation, SETTINGS.address_size);
                    tally.count(ending_between(with_varnode(entry, place, varnode)));
                }
            }
        }
    }
    tally.assert_numbers(&[0, 23, 24, 25, 26]);
    println!("verdict, constants around the largest: {tally}");
}

#[test]
fn space_numbers_of_load_and_store() {
    let mut tally = Tally::default();
    for operation in [named("LOAD"), named("STORE")] {
        for space in CONSTANT..=RAM {
            for size in SIZES {
                for offset in (0..=0x10a).chain(LARGE_OFFSETS).chain([(1 << 32) + RAM]) {
                    let varnode = Varnode { space, offset, size };
                    let entry = good_entry(operation, SETTINGS.address_size);
                    let ending = ending_between(with_varnode(entry, 1, varnode));
                    let taken = space == CONSTANT && (2..=4).contains(&offset);
                    assert_eq!(ending, if taken { 0 } else { 23 }, "{varnode:x?}");
                    tally.count(ending);
                }
            }
        }
    }
    println!("verdict, space numbers of LOAD and STORE: {tally}");
}

#[test]
fn relative_targets_from_every_operation_of_short_lists() {
    let mut tally = Tally::default();
    for count in 1..=6 {
        for index in 0..count {
            for target in -3..=count + 3 {
                check_branches(index, count, target - index, &mut tally);
            }
        }
    }
    tally.assert_numbers(&[0, 26]);
    println!("verdict, relative targets in short lists: {tally}");
}

#[test]
fn relative_targets_from_the_first_a_middle_and_the_last_operation() {
    let mut tally = Tally::default();
    for count in [7, 256, 4_096] {
        for index in [0, count / 2, count - 1] {
            for target in [-1, 0, 1, index, count - 1, count, count + 1, count + 256] {
                check_branches(index, count, target - index, &mut tally);
            }
            for distance in [i64::MIN, i64::MIN + 1, i64::MAX - 1, i64::MAX, 1 << 32, -1 << 32] {
                check_branches(index, count, distance, &mut tally);
            }
        }
    }
    tally.assert_numbers(&[0, 26]);
    println!("verdict, relative targets in long lists: {tally}");
}

/// Compares each branch by `distance` at an index of a list of `count` operations, with destinations
/// of each size.
fn check_branches(index: i64, count: i64, distance: i64, tally: &mut Tally) {
    let other = good_entry(named("COPY"), SETTINGS.address_size);
    let mut entries = vec![other; count as usize];
    let inside = (0..=count).contains(&index.saturating_add(distance));
    for name in BRANCHES {
        for size in SIZES {
            let destination = Varnode { space: CONSTANT, offset: distance as u64, size };
            let entry = good_entry(named(name), SETTINGS.address_size);
            entries[index as usize] = with_varnode(entry, 1, destination);
            let ending = ending_of(LENGTHS, &entries);
            let context = format!("{name} at {index} of {count} by {distance}, size {size}");
            assert_eq!(ending, if inside { 0 } else { 26 }, "{context}");
            tally.count(ending);
        }
    }
}

#[test]
fn ram_destinations_of_any_offset_pass() {
    let mut agreed = 0;
    for name in BRANCHES {
        for size in SIZES {
            for offset in (0..64).map(|bit| 1 << bit).chain(LARGE_OFFSETS) {
                let destination = Varnode { space: RAM, offset, size };
                let entry = good_entry(named(name), SETTINGS.address_size);
                assert_eq!(ending_between(with_varnode(entry, 1, destination)), 0);
                agreed += 1;
            }
        }
    }
    println!("verdict, ram destinations: {agreed} agreed");
}

/// A list that is well-formed, one of a wrong length, and one with a malformed operation.
fn lists_of_three_endings() -> [(Vec<u64>, u64); 3] {
    let good = list_of(&[good_entry(named("INT_ADD"), SETTINGS.address_size)]);
    let short = good[..4].to_vec();
    let malformed = vec![0; 5];
    [(good, 0), (short, 11), (malformed, 21)]
}

#[test]
fn settings_come_before_lengths_and_lengths_before_operations() {
    let mut tally = Tally::default();
    let too_long = Lengths { ram: 65_537, ..LENGTHS };
    for order in GOOD_AND_BAD_ORDERS {
        for address_size in GOOD_AND_BAD_SIZES {
            let settings = Settings { order, address_size, ..SETTINGS };
            let taken = order < 2 && SIZES.contains(&address_size);
            for lengths in [LENGTHS, too_long] {
                for (list, list_ending) in lists_of_three_endings() {
                    let expected = match (taken, lengths == too_long) {
                        (false, _) => 10,
                        (true, true) => 11,
                        (true, false) => list_ending,
                    };
                    let call = VerdictCall { settings, lengths, list };
                    assert_eq!(ending(&call), expected, "{call:x?}");
                    tally.count(expected);
                }
            }
        }
    }
    println!("verdict, settings: {tally}");
}

#[test]
fn wordsizes_out_of_range_come_before_lengths_and_operations() {
    let mut tally = Tally::default();
    let numbers: Vec<u64> = SIZES.chain(BAD_WORDSIZES).collect();
    let empty = Lengths { unique: 0, register: 0, ram: 0 };
    let too_long = Lengths { unique: 65_537, ..LENGTHS };
    let [good, short, malformed] = lists_of_three_endings().map(|(list, _)| list);
    let calls = [(LENGTHS, good, 0), (empty, vec![], 0), (LENGTHS, malformed, 21)];
    let calls = calls.into_iter().chain([(LENGTHS, short, 11), (too_long, vec![], 11)]);
    for (lengths, list, ending_in_range) in calls {
        let mut call = VerdictCall { settings: SETTINGS, lengths, list };
        for &unique in &numbers {
            for &register in &numbers {
                for &ram in &numbers {
                    let taken = [unique, register, ram].iter().all(|number| SIZES.contains(number));
                    let expected = if taken { ending_in_range } else { 10 };
                    call.settings.wordsizes = Wordsizes { unique, register, ram };
                    assert_eq!(ending(&call), expected, "{call:x?}");
                    tally.count(expected);
                }
            }
        }
    }
    println!("verdict, wordsizes: {tally}");
}

#[test]
fn lengths_of_spaces() {
    let mut tally = Tally::default();
    let lens = [0, 7, 8, 65_535, 65_536, 65_537, 1 << 17, 1 << 32, (1 << 32) + 8, u64::MAX];
    let entries = OPERATIONS.map(|operation| good_entry(&operation, SETTINGS.address_size));
    for unique in lens {
        for register in lens {
            for ram in lens {
                tally.count(ending_of(Lengths { unique, register, ram }, &entries));
            }
        }
    }
    tally.assert_numbers(&[0, 11, 24]);
    println!("verdict, lengths of spaces: {tally}");
}

#[test]
fn numbers_of_list_words() {
    let mut tally = Tally::default();
    let entry = good_entry(named("INT_ADD"), SETTINGS.address_size);
    let list = list_of(&[entry].repeat(5_000));
    for len in (0..=30).chain(20_470..=20_490).chain([21_000, 25_000]) {
        let list = list[..len].to_vec();
        let ending = ending(&VerdictCall { settings: SETTINGS, lengths: LENGTHS, list });
        let taken = len % 5 == 0 && len <= 20_480;
        assert_eq!(ending, if taken { 0 } else { 11 }, "{len} words");
        tally.count(ending);
    }
    println!("verdict, numbers of list words: {tally}");
}

/// A CBRANCH that breaks the rules of a set: bit 0 stands for rule 21, bit 5 for rule 26. A
/// destination that breaks rule 23 is not relative, so it cannot break rule 26 too.
fn cbranch_against(rules: u64) -> Entry {
    let breaks = |rule: u64| rules >> (rule - 21) & 1 == 1;
    let destination = Varnode {
        space: if breaks(23) { REGISTER } else { CONSTANT },
        offset: if breaks(26) { 5_000 } else { 0 },
        size: 8,
    };
    let condition = Varnode {
        space: UNIQUE,
        offset: if breaks(24) { LENGTHS.unique } else { 0 },
        size: if breaks(25) { 2 } else { 1 },
    };
    let mut entry = Entry::new(5, [None, Some(destination), Some(condition), None]);
    entry.spare[2] = if breaks(21) { 1 } else { 0 };
    entry.offsets[3] = if breaks(22) { 1 } else { 0 };
    entry
}

#[test]
fn first_operation_that_breaks_a_rule_and_the_lowest_it_breaks() {
    let mut tally = Tally::default();
    let lowest = |rules: u64| 21 + u64::from(rules.trailing_zeros());
    for first in 0..64 {
        for second in 0..64 {
            let list = list_of(&[cbranch_against(first), cbranch_against(second)]);
            let expected = match (first, second) {
                (0, 0) => [0, 2, 0, 0, 0],
                (0, _) => [lowest(second), 1, 0, 0, 0],
                _ => [lowest(first), 0, 0, 0, 0],
            };
            let call = VerdictCall { settings: SETTINGS, lengths: LENGTHS, list };
            assert_eq!(check_verdict(&call, LentWords::EXACT), Some(expected), "{call:x?}");
            tally.count(expected[0]);
        }
    }
    tally.assert_numbers(&[0, 21, 22, 23, 24, 25, 26]);
    println!("verdict, sets of broken rules: {tally}");
}

#[test]
fn a_malformed_operation_anywhere_in_the_longest_list() {
    let mut tally = Tally::default();
    for index in [0, 1, 254, 255, 256, 2_047, 2_048, 4_094, 4_095] {
        for rule in 21..=26 {
            let mut entries = vec![cbranch_against(0); 4_096];
            entries[index] = cbranch_against(1 << (rule - 21));
            let call =
                VerdictCall { settings: SETTINGS, lengths: LENGTHS, list: list_of(&entries) };
            assert_eq!(check_verdict(&call, LentWords::EXACT), Some([rule, index as u64, 0, 0, 0]));
            tally.count(rule);
        }
    }
    println!("verdict, a malformed operation in the longest list: {tally}");
}

#[test]
fn wrong_numbers_of_words_are_refused_and_long_reports_keep_their_further_words() {
    let mut agreed = 0;
    for order in [0, 2] {
        let settings = Settings { order, ..SETTINGS };
        for (list, _) in lists_of_three_endings() {
            let call = VerdictCall { settings, lengths: LENGTHS, list };
            for report in 0..=MOST_RESULT_WORDS as usize {
                for settings in 0..=8 {
                    let lent = LentWords { settings, report };
                    let accepted = check_verdict(&call, lent).is_some();
                    assert_eq!(accepted, settings == 5 && report >= 5);
                    agreed += 1;
                }
            }
        }
    }
    println!("verdict, numbers of words for settings and report: {agreed} agreed");
}
