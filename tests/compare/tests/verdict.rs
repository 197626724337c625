//! `undrelvoa_validate` and the second program: random lists, most of them damaged, and known
//! results.

use std::fmt;

use compare::agreement::{check_verdict, Tally};
use compare::campaign::Campaign;
use compare::lists::{entry_at, good_entry, Generator};
use compare::wordsizes::only_a_wordsize_is_refused;
use reference::answers::{LentWords, VerdictCall};
use reference::list::list_of;
use reference::opcodes::{Operation, OPERATIONS};
use reference::varnode::{Lengths, Wordsizes};
use reference::verdict::Settings;

const RANDOM_LISTS: u64 = 500_000;
const WELL_FORMED_LISTS: u64 = 50_000;
const ENDINGS: [u64; 9] = [0, 10, 11, 21, 22, 23, 24, 25, 26];
const RULES: [u64; 6] = [21, 22, 23, 24, 25, 26];

/// How often each ending should come, SETTING by a wordsize alone, and each opcode with each rule that
/// it can break.
const ENDING_QUOTA: u64 = 1_000;
const WORDSIZE_QUOTA: u64 = 500;
const OPCODE_QUOTA: u64 = 20;

/// Whether an operation with a good opcode can break a rule.
fn can_break(operation: &Operation, rule: u64) -> bool {
    match (rule, operation.name) {
        // Any operation has spare head bytes, and varnodes that can be absent.
        (21 | 22, _) => true,
        // Only these have neither an output nor an input whose space the rule names.
        (23, "BRANCHIND" | "CALLIND" | "RETURN") => false,
        // Their only varnode is a destination.
        (24, "BRANCH" | "CALL") => false,
        (25, "BRANCH" | "CALL" | "SUBPIECE" | "POPCOUNT") => false,
        (26, name) => matches!(name, "BRANCH" | "CBRANCH" | "CALL"),
        _ => true,
    }
}

/// A row for each opcode, and row 0 for all bytes that are none.
const ROWS: usize = OPERATIONS.len() + 1;

/// How often each opcode stood in a well-formed list, and how often the malformed operation had it,
/// by rule.
struct Coverage {
    well_formed: [u64; ROWS],
    broken: [[u64; RULES.len()]; ROWS],
}

impl Coverage {
    fn new() -> Coverage {
        Coverage { well_formed: [0; ROWS], broken: [[0; RULES.len()]; ROWS] }
    }

    fn count(&mut self, list: &[u64], report: &[u64; 5]) {
        let [ending, index, ..] = *report;
        let row = |index: usize| {
            let number = u64::from(entry_at(list, index).opcode);
            Operation::with_number(number).map_or(0, |operation| operation.number() as usize)
        };
        if ending == 0 {
            for operation in 0..index as usize {
                self.well_formed[row(operation)] += 1;
            }
        } else if let Some(column) = RULES.iter().position(|&rule| rule == ending) {
            self.broken[row(index as usize)][column] += 1;
        }
    }

    /// The rows with a count that should not be.
    fn faults(&self) -> Vec<String> {
        let mut faults = Vec::new();
        for operation in &OPERATIONS {
            let row = operation.number() as usize;
            if self.well_formed[row] < OPCODE_QUOTA {
                faults.push(format!("{} well-formed: {}", operation.name, self.well_formed[row]));
            }
            for (column, rule) in RULES.into_iter().enumerate() {
                let count = self.broken[row][column];
                let holds =
                    if can_break(operation, rule) { count >= OPCODE_QUOTA } else { count == 0 };
                if !holds {
                    faults.push(format!("{} at rule {rule}: {count}", operation.name));
                }
            }
        }
        faults
    }
}

impl fmt::Display for Coverage {
    fn fmt(&self, formatter: &mut fmt::Formatter) -> fmt::Result {
        write!(formatter, "{:<18} {:>11}", "opcode", "well-formed")?;
        RULES.iter().try_for_each(|rule| write!(formatter, " {rule:>6}"))?;
        write!(formatter, "\n{:<18} {:>11}", "none of 1 to 42", self.well_formed[0])?;
        write!(formatter, " {:>6}", self.broken[0][0])?;
        for operation in &OPERATIONS {
            let row = operation.number() as usize;
            let name = operation.name;
            write!(formatter, "\n{row:>2} {name:<15} {:>11}", self.well_formed[row])?;
            for (column, rule) in RULES.into_iter().enumerate() {
                match self.broken[row][column] {
                    0 if !can_break(operation, rule) => write!(formatter, " {:>6}", "-")?,
                    count => write!(formatter, " {count:>6}")?,
                }
            }
        }
        Ok(())
    }
}

#[test]
fn well_formed_lists_pass() {
    const SEED: u64 = 0x5eed_0022;
    let mut campaign = Campaign::new(SEED, WELL_FORMED_LISTS);
    for (_, random) in campaign.by_ref() {
        let call = Generator::new(random).well_formed_call();
        let count = call.list.len() as u64 / 5;
        assert_eq!(check_verdict(&call, LentWords::EXACT), Some([0, count, 0, 0, 0]), "{call:x?}");
    }
    println!("verdict, well-formed lists: {campaign}, {} agreed", campaign.drawn());
}

#[test]
fn random_lists() {
    const SEED: u64 = 0x5eed_0021;
    let mut campaign = Campaign::new(SEED, RANDOM_LISTS);
    let mut tally = Tally::default();
    let mut coverage = Coverage::new();
    let mut refused = 0;
    let mut by_wordsize = 0;
    for (_, random) in campaign.by_ref() {
        let mut generator = Generator::new(random);
        let call = generator.call();
        let Some(report) = check_verdict(&call, generator.lent_words()) else {
            refused += 1;
            continue;
        };
        tally.count(report[0]);
        by_wordsize += u64::from(only_a_wordsize_is_refused(&call.settings));
        coverage.count(&call.list, &report);
    }
    println!(
        "verdict, random lists: {campaign}, {tally}, {by_wordsize} of them SETTING by a wordsize, \
         {refused} refused for their words\n\
         verdict, the operations of well-formed lists, and the malformed ones by rule:\n\
         {coverage}"
    );
    if campaign.is_whole() {
        tally.assert_quota(&ENDINGS, ENDING_QUOTA);
        tally.assert_numbers(&ENDINGS);
        assert!(by_wordsize >= WORDSIZE_QUOTA, "{by_wordsize} were SETTING by a wordsize");
        let faults = coverage.faults();
        assert!(faults.is_empty(), "counts that should not be: {faults:#?}");
    }
}

/// Compares a list in these spaces and gives back its ending and index.
fn judge(lengths: Lengths, list: Vec<u64>) -> [u64; 2] {
    let settings = Settings { order: 0, address_size: 4, wordsizes: Wordsizes::ONE };
    let report = check_verdict(&VerdictCall { settings, lengths, list }, LentWords::EXACT);
    let [ending, index, executed, log_words, value] = report.expect("a report of five words");
    assert_eq!([executed, log_words, value], [0, 0, 0]);
    [ending, index]
}

#[test]
fn register_of_16_bytes_has_4_at_12_and_not_at_13() {
    let lengths = Lengths { unique: 64, register: 16, ram: 64 };
    let copy_from = |offset| vec![0x34_24_01, 0, offset, 0, 0];
    let copy_to = |offset| vec![0x24_34_01, offset, 0, 0, 0];
    assert_eq!(judge(lengths, copy_from(12)), [0, 1]);
    assert_eq!(judge(lengths, copy_from(13)), [24, 0]);
    assert_eq!(judge(lengths, copy_to(12)), [0, 1]);
    assert_eq!(judge(lengths, copy_to(13)), [24, 0]);
    println!("verdict, register of 16 bytes: 4 agreed");
}

#[test]
fn lists_of_4096_operations_pass_and_of_4097_are_length() {
    let lengths = Lengths { unique: 8, register: 8, ram: 8 };
    for operation in &OPERATIONS {
        let entry = good_entry(operation, 4);
        assert_eq!(judge(lengths, list_of(&[entry].repeat(4_096))), [0, 4_096]);
        assert_eq!(judge(lengths, list_of(&[entry].repeat(4_097))), [11, 0]);
    }
    println!("verdict, 4096 and 4097 operations: {} agreed", 2 * OPERATIONS.len());
}
