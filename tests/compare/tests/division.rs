//! Divisions whose operands have secret bytes, in runs, steps and windows and in the second program: random
//! programs, a secret byte at each place of each operand, and operations that may read secret bytes.

use compare::agreement::Tally;
use compare::campaign::Campaign;
use compare::divisions::{Divisions, Event, Secret, DIVISIONS};
use compare::inputs::{largest_value, GOOD_ORDERS, SIZES};
use compare::programs::Programs;
use compare::runs::{check_run, Case, Job};
use compare::single::{case_of, check_single};
use reference::answers::LentWords;
use reference::bytes::{write, ByteOrder};
use reference::fault::{LEAK, LEAK_AHEAD, ZERO};
use reference::list::Entry;
use reference::memory::{Spaces, PUBLIC, SECRET};
use reference::opcodes::{Opcode, INTEGER_OPERATIONS};
use reference::run::Observed;
use reference::varnode::{Lengths, Varnode, Wordsizes, CONSTANT, RAM, REGISTER, UNIQUE};
use reference::verdict::{Settings, END};

const RANDOM_PROGRAMS: u64 = 270_000;
/// How many of them should come to a division.
const RUN_QUOTA: u64 = 200_000;
/// How often a division should be executed, and be stopped in each way.
const ENDING_QUOTA: u64 = 500;
/// How often LEAK over a divisor of 0 should come, and each place of a secret byte.
const QUOTA: u64 = 200;
/// How many operations with secret operands are tried, and how many of each opcode at least.
const SECRET_OPERATIONS: u64 = 60_000;
const OPCODE_QUOTA: u64 = 500;

/// How often each event should come in random runs.
fn assert_quotas(divisions: &Divisions, times: u64) {
    divisions.assert_quota(Event::Run, RUN_QUOTA * times);
    for opcode in DIVISIONS.map(|opcode| opcode as u8) {
        divisions.assert_quota(Event::Executed { opcode }, ENDING_QUOTA);
        divisions.assert_quota(Event::Zero { opcode }, ENDING_QUOTA);
        for secret in [Secret::Dividend, Secret::Divisor, Secret::Both] {
            divisions.assert_quota(Event::Leak { opcode, secret }, ENDING_QUOTA);
            divisions.assert_quota(Event::LeakAtZero { opcode, secret }, QUOTA);
        }
    }
    for secret in [Secret::Dividend, Secret::Divisor] {
        for place in 0..8 {
            divisions.assert_quota(Event::OneByte { secret, place }, QUOTA);
        }
    }
}

#[test]
fn random_programs() {
    const SEED: u64 = 0x5eed_0071;
    let mut campaign = Campaign::new(SEED, RANDOM_PROGRAMS);
    let mut tally = Tally::default();
    let mut divisions = Divisions::default();
    for (_, random) in campaign.by_ref() {
        let Case { call, mut state } = Programs::new(random).division_case();
        let mut divided = false;
        let observer = |observed: Observed| divided |= divisions.count_executed(observed.opcode);
        let report = check_run(Job::Run, &call, &mut state, LentWords::EXACT, observer);
        let report = report.expect("a report of five words");
        tally.count(report[0]);
        divided |= divisions.count_stopped(&Case { call, state }, &report);
        divisions.add_those_that_came([(divided, Event::Run)]);
    }
    println!(
        "labelled run, random programs with divisions: {campaign}, {tally}\n\
         labelled run, divisions: {divisions}"
    );
    if campaign.is_whole() {
        assert_quotas(&divisions, campaign.times());
    }
}

/// A division of two operands, with their values and secret bytes.
#[derive(Clone, Copy, Debug)]
struct Division {
    opcode: Opcode,
    order: u64,
    dividend: Varnode,
    divisor: Varnode,
    /// What the operands in memory hold: the divisor is written last, where they overlap.
    values: [u64; 2],
    /// Bytes of the operands that are secret; all others of them are public.
    secret: [Option<Varnode>; 2],
}

impl Division {
    /// The same with these secret bytes and another divisor.
    fn with(self, secret: [Option<Varnode>; 2], divisor: u64) -> Division {
        Division { secret, values: [self.values[0], divisor], ..self }
    }

    fn leaks(&self) -> bool {
        self.secret.iter().any(Option::is_some)
    }

    fn by_zero(&self) -> bool {
        self.values[1] == 0
    }

    /// The labelled case. Bytes that are of no operand are secret.
    fn case(&self) -> Case {
        let settings = Settings { order: self.order, address_size: 8, wordsizes: Wordsizes::ONE };
        let lengths = Lengths { unique: 26, register: 14, ram: 12 };
        let mut memory = Spaces::of_lengths(&lengths);
        let mut labels = memory.clone();
        labels.all_mut().into_iter().for_each(|space| space.fill(SECRET));
        let order = ByteOrder::with_number(self.order).expect("a good byte order");
        for (operand, value) in [(self.dividend, self.values[0]), (self.divisor, self.values[1])] {
            if operand.space != CONSTANT {
                write(order, value, memory.part_mut(&operand));
                labels.part_mut(&operand).fill(PUBLIC);
            }
        }
        for byte in self.secret.iter().flatten() {
            labels.part_mut(byte).fill(SECRET);
        }
        case_of(settings, &[self.entry()], memory, labels)
    }

    fn entry(&self) -> Entry {
        let output = Varnode { space: RAM, offset: 3, size: self.dividend.size };
        let varnodes = [Some(output), Some(self.dividend), Some(self.divisor), None];
        Entry::new(self.opcode as u8, varnodes)
    }

    /// Compares the division as run and as step, in a window, and left out with a window of 0.
    fn check(&self, tally: &mut Tally) {
        let report = match (self.leaks(), self.by_zero()) {
            (true, _) => [LEAK, 0, 0, 0, 0],
            (false, true) => [ZERO, 0, 0, 0, 0],
            (false, false) => [END, 1, 1, 0, 0],
        };
        check_single(&self.case(), report, tally);
    }
}

/// The four divisions in both byte orders, with operands of each size in two spaces. Nothing is secret.
fn all_divisions() -> impl Iterator<Item = Division> {
    let of = |opcode, order, size| Division {
        opcode,
        order,
        dividend: Varnode { space: UNIQUE, offset: 9, size },
        divisor: Varnode { space: REGISTER, offset: 5, size },
        values: [largest_value(size) / 2 + 5, 1],
        secret: [None; 2],
    };
    DIVISIONS.into_iter().flat_map(move |opcode| {
        GOOD_ORDERS
            .into_iter()
            .flat_map(move |order| SIZES.map(move |size| of(opcode, order, size)))
    })
}

/// No byte of a varnode, and each byte alone.
fn none_and_each_byte(varnode: Varnode) -> impl Iterator<Item = Option<Varnode>> {
    let byte = move |place| Varnode { offset: varnode.offset + place, size: 1, ..varnode };
    [None].into_iter().chain((0..varnode.size).map(move |place| Some(byte(place))))
}

#[test]
fn a_secret_byte_at_each_place_of_dividend_and_divisor() {
    let mut tally = Tally::default();
    for division in all_divisions() {
        for dividend in none_and_each_byte(division.dividend) {
            for divisor in none_and_each_byte(division.divisor) {
                for value in [0, 1, largest_value(division.divisor.size)] {
                    division.with([dividend, divisor], value).check(&mut tally);
                }
            }
        }
    }
    tally.assert_numbers(&[END, LEAK, ZERO, LEAK_AHEAD]);
    println!("division, a secret byte at each place of each operand: {tally}");
}

#[test]
fn operands_that_overlap_or_touch() {
    let mut tally = Tally::default();
    for division in all_divisions() {
        let dividend = division.dividend;
        let size = dividend.size;
        for offset in dividend.offset - size..=dividend.offset + size {
            let division = Division { divisor: Varnode { offset, ..dividend }, ..division };
            let first = offset.min(dividend.offset);
            let end = offset.max(dividend.offset) + size;
            let all_bytes = Varnode { offset: first, size: end - first, ..dividend };
            for secret in none_and_each_byte(all_bytes) {
                for value in [0, 1] {
                    division.with([secret, None], value).check(&mut tally);
                }
            }
        }
    }
    tally.assert_numbers(&[END, LEAK, ZERO, LEAK_AHEAD]);
    println!("division, operands that overlap or touch: {tally}");
}

#[test]
fn constants_are_public() {
    let mut tally = Tally::default();
    for division in all_divisions() {
        for value in [0, 1] {
            let Division { dividend, divisor, .. } = division;
            let division = division.with([None; 2], value);
            let constant = |offset| Varnode { space: CONSTANT, offset, size: dividend.size };
            let [constant0, constant1] = division.values.map(constant);
            Division { dividend: constant0, divisor: constant1, ..division }.check(&mut tally);
            for secret in none_and_each_byte(divisor) {
                let by_memory = Division { dividend: constant0, ..division };
                by_memory.with([None, secret], value).check(&mut tally);
            }
            for secret in none_and_each_byte(dividend) {
                let by_constant = Division { divisor: constant1, ..division };
                by_constant.with([secret, None], value).check(&mut tally);
            }
        }
    }
    tally.assert_numbers(&[END, LEAK, ZERO, LEAK_AHEAD]);
    println!("division, constant operands: {tally}");
}

#[test]
fn no_other_integer_operation_leaks() {
    const SEED: u64 = 0x5eed_0072;
    let mut campaign = Campaign::new(SEED, SECRET_OPERATIONS);
    let mut executed = Tally::default();
    for (_, random) in campaign.by_ref() {
        let Case { call, mut state } = Programs::new(random).secret_operands_case();
        let count = |observed: Observed| executed.count(observed.opcode as u64);
        let report = check_run(Job::Run, &call, &mut state, LentWords::EXACT, count);
        assert_eq!(report, Some([END, 1, 1, 0, 0]), "{}", Case { call, state });
    }
    println!("labelled run, other operations on secret bytes: {campaign}, {executed}");
    if campaign.is_whole() {
        let others = INTEGER_OPERATIONS.iter().filter(|operation| !operation.divides());
        let others: Vec<u64> = others.map(|operation| operation.number()).collect();
        executed.assert_numbers(&others);
        executed.assert_quota(&others, OPCODE_QUOTA);
    }
}
