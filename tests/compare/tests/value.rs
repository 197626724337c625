//! `undrelvoa_value` and the second program: operations that are taken, and calls that are refused.

use compare::agreement::{check_value, Tally, MOST_RESULT_WORDS};
use compare::campaign::Campaign;
use compare::inputs::{
    boundary_values, first_value_too_large, largest_value, GOOD_AND_BAD_SIZES, SIZES,
};
use compare::random::Random;
use reference::answers::ValueCall;
use reference::opcodes::{Operation, Sizes, ANY_ADDRESS_SIZE, INTEGER_OPERATIONS};

const RANDOM_INPUTS_PER_OPCODE: u64 = 200_000;
const DAMAGED_CALLS: u64 = 500_000;

/// Opcodes beyond the small ones, some with a good opcode in their low bits.
const LARGE_OPCODES: [u64; 7] =
    [138, 255, 256 + 21, (1 << 16) + 21, (1 << 32) + 21, 1 << 63, u64::MAX];

/// Compares a call that must be taken.
fn check_taken(call: &ValueCall, result_len: u64) {
    assert_eq!(check_value(call, result_len), 0, "{call:#x?} should have been taken");
}

/// Compares every pair of these inputs and gives back their number. Zero divisors are left to the
/// tests of refusals.
fn check_pairs(operation: &Operation, sizes: Sizes, inputs0: &[u64], inputs1: &[u64]) -> u64 {
    let mut agreed = 0;
    for &input0 in inputs0 {
        for &input1 in inputs1 {
            if operation.divides() && input1 == 0 {
                continue;
            }
            check_taken(&ValueCall { opcode: operation.number(), sizes, input0, input1 }, 1);
            agreed += 1;
        }
    }
    agreed
}

/// Every value of size 1, or the only one of an absent operand.
fn every_value(size: u64) -> Vec<u64> {
    (0..=largest_value(size)).collect()
}

/// A call that must be taken: a random mix of sizes that the operation allows, and random inputs.
fn random_call(operation: &Operation, mixes: &[Sizes], random: &mut Random) -> ValueCall {
    let sizes = random.pick(mixes);
    let input0 = random.operand(sizes.input0);
    let mut input1 = random.operand(sizes.input1);
    if operation.divides() && input1 == 0 {
        input1 = 1;
    }
    ValueCall { opcode: operation.number(), sizes, input0, input1 }
}

/// The sizes that each of the operations allows, in their order.
fn mixes_of_all() -> Vec<Vec<Sizes>> {
    INTEGER_OPERATIONS.iter().map(|operation| operation.allowed_sizes(ANY_ADDRESS_SIZE)).collect()
}

/// The operations with these names.
fn named(names: &[&str]) -> Vec<&'static Operation> {
    INTEGER_OPERATIONS.iter().filter(|operation| names.contains(&operation.name)).collect()
}

fn shifts() -> Vec<&'static Operation> {
    named(&["INT_LEFT", "INT_RIGHT", "INT_SRIGHT"])
}

#[test]
fn every_pair_of_size_1_inputs() {
    let mut agreed = 0;
    for operation in INTEGER_OPERATIONS {
        for sizes in operation.allowed_sizes(ANY_ADDRESS_SIZE) {
            if sizes.input0 > 1 || sizes.input1 > 1 {
                continue;
            }
            let inputs0 = every_value(sizes.input0);
            let inputs1 = every_value(sizes.input1);
            agreed += check_pairs(operation, sizes, &inputs0, &inputs1);
        }
    }
    println!("value, every pair of size 1 inputs: {agreed} agreed");
    assert_eq!(agreed, 2_233_600, "inputs that should have been compared");
}

#[test]
fn boundary_values_at_every_mix_of_sizes() {
    let mut agreed = 0;
    for operation in INTEGER_OPERATIONS {
        for sizes in operation.allowed_sizes(ANY_ADDRESS_SIZE) {
            let inputs0 = boundary_values(sizes.input0);
            let inputs1 = boundary_values(sizes.input1);
            agreed += check_pairs(operation, sizes, &inputs0, &inputs1);
        }
    }
    println!("value, boundary values at every mix of sizes: {agreed} agreed");
    assert_eq!(agreed, 1_443_868, "inputs that should have been compared");
}

#[test]
fn random_inputs() {
    const SEED: u64 = 0x5eed_0001;
    let opcodes = INTEGER_OPERATIONS.len() as u64;
    let mut campaign = Campaign::new(SEED, opcodes * RANDOM_INPUTS_PER_OPCODE);
    let mixes = mixes_of_all();
    let mut agreed = 0;
    for (number, mut random) in campaign.by_ref() {
        let index = (number % opcodes) as usize;
        let result_len = 1 + random.below(MOST_RESULT_WORDS);
        let call = random_call(&INTEGER_OPERATIONS[index], &mixes[index], &mut random);
        check_taken(&call, result_len);
        agreed += 1;
    }
    println!("value, random inputs: {campaign}, {agreed} agreed");
    if campaign.is_whole() {
        assert_eq!(agreed, 6_600_000 * campaign.times(), "inputs that should have been compared");
    }
}

#[test]
fn shifts_by_0_to_200() {
    let amounts: Vec<u64> = (0..=200).collect();
    let mut agreed = 0;
    for operation in shifts() {
        for sizes in operation.allowed_sizes(ANY_ADDRESS_SIZE) {
            agreed += check_pairs(operation, sizes, &boundary_values(sizes.input0), &amounts);
        }
    }
    println!("value, shifts by 0 to 200: {agreed} agreed");
    assert_eq!(agreed, 1_543_680, "inputs that should have been compared");
}

#[test]
fn shifts_by_large_amounts() {
    let amounts = large_amounts();
    let mut agreed = 0;
    for operation in shifts() {
        for sizes in operation.allowed_sizes(ANY_ADDRESS_SIZE) {
            if sizes.input1 == 8 {
                agreed += check_pairs(operation, sizes, &boundary_values(sizes.input0), &amounts);
            }
        }
    }
    println!("value, shifts by large amounts: {agreed} agreed");
    assert_eq!(agreed, 1_618_560, "inputs that should have been compared");
}

/// Amounts which, cut to fewer bits, look like a shift by less than the width.
fn large_amounts() -> Vec<u64> {
    let mut amounts = Vec::new();
    for centre in [1 << 31, 1 << 32, 1 << 63] {
        amounts.extend(centre - 70..=centre + 70);
    }
    amounts.extend(u64::MAX - 140..=u64::MAX);
    for bit in 6..64 {
        amounts.extend((0..9).map(|step| (1 << bit) + step));
    }
    for multiple in 1..=200 {
        let near_multiple = 64 * multiple;
        amounts.extend(near_multiple - 1..=near_multiple + 1);
    }
    amounts
}

#[test]
fn subpiece_dropping_0_to_20_bytes() {
    let dropped: Vec<u64> = (0..=20).collect();
    let mut agreed = 0;
    for operation in named(&["SUBPIECE"]) {
        for sizes in operation.allowed_sizes(ANY_ADDRESS_SIZE) {
            agreed += check_pairs(operation, sizes, &boundary_values(sizes.input0), &dropped);
        }
    }
    println!("value, SUBPIECE dropping 0 to 20 bytes: {agreed} agreed");
    assert_eq!(agreed, 430_080, "inputs that should have been compared");
}

#[test]
fn opcodes_out_of_range_are_refused() {
    let mut tally = Tally::default();
    for opcode in (0..=60).chain(LARGE_OPCODES) {
        for output in GOOD_AND_BAD_SIZES {
            for input1 in GOOD_AND_BAD_SIZES {
                let sizes = Sizes { output, input0: 1, input1 };
                let call = ValueCall { opcode, sizes, input0: 1, input1: 0 };
                tally.count(check_value(&call, 1));
            }
        }
    }
    tally.assert_numbers(&[0, 21, 22, 25, 33]);
    println!("value, opcodes out of range: {tally}");
}

#[test]
fn sizes_out_of_range_or_not_together_are_refused() {
    let mut tally = Tally::default();
    for operation in INTEGER_OPERATIONS {
        for output in GOOD_AND_BAD_SIZES {
            for input0 in GOOD_AND_BAD_SIZES {
                for input1 in GOOD_AND_BAD_SIZES {
                    check_sizes(operation, Sizes { output, input0, input1 }, &mut tally);
                }
            }
        }
    }
    tally.assert_numbers(&[0, 22, 24, 25, 33]);
    println!("value, sizes out of range or not together: {tally}");
}

/// Compares calls with these sizes and inputs that fit all of them, some, or none.
fn check_sizes(operation: &Operation, sizes: Sizes, tally: &mut Tally) {
    for (input0, input1) in [(0, 0), (1, 1), (1, 0), (u64::MAX, 1), (1, u64::MAX)] {
        let call = ValueCall { opcode: operation.number(), sizes, input0, input1 };
        tally.count(check_value(&call, 2));
    }
}

#[test]
fn values_too_large_are_refused() {
    let mut tally = Tally::default();
    for operation in INTEGER_OPERATIONS {
        for sizes in operation.allowed_sizes(ANY_ADDRESS_SIZE) {
            let inputs0 = values_around_the_largest(sizes.input0);
            let inputs1 = values_around_the_largest(sizes.input1);
            for &input0 in &inputs0 {
                for &input1 in &inputs1 {
                    let call = ValueCall { opcode: operation.number(), sizes, input0, input1 };
                    tally.count(check_value(&call, 1));
                }
            }
        }
    }
    tally.assert_numbers(&[0, 24, 33]);
    println!("value, values too large: {tally}");
}

/// Values that fit the size and values that do not, one too large first among them.
fn values_around_the_largest(size: u64) -> Vec<u64> {
    let mut values = vec![0, largest_value(size), u64::MAX];
    if let Some(too_large) = first_value_too_large(size) {
        values.extend([too_large, too_large + 1]);
    }
    values
}

#[test]
fn zero_divisors_are_refused() {
    let mut tally = Tally::default();
    for operation in INTEGER_OPERATIONS.iter().filter(|operation| operation.divides()) {
        for sizes in operation.allowed_sizes(ANY_ADDRESS_SIZE) {
            for input0 in boundary_values(sizes.input0) {
                let call = ValueCall { opcode: operation.number(), sizes, input0, input1: 0 };
                tally.count(check_value(&call, 1));
            }
        }
    }
    tally.assert_numbers(&[33]);
    println!("value, zero divisors: {tally}");
}

#[test]
fn an_empty_result_is_refused() {
    let mut tally = Tally::default();
    for opcode in (0..=60).chain(LARGE_OPCODES) {
        for size in GOOD_AND_BAD_SIZES {
            for (input0, input1) in [(0, 0), (1, 1), (u64::MAX, u64::MAX)] {
                let sizes = Sizes { output: size, input0: size, input1: size };
                let call = ValueCall { opcode, sizes, input0, input1 };
                tally.count(check_value(&call, 0));
            }
        }
    }
    tally.assert_numbers(&[11]);
    println!("value, empty result: {tally}");
}

#[test]
fn randomly_damaged_calls() {
    const SEED: u64 = 0x5eed_0002;
    let mut campaign = Campaign::new(SEED, DAMAGED_CALLS);
    let mut tally = Tally::default();
    let mixes = mixes_of_all();
    for (_, mut random) in campaign.by_ref() {
        let index = random.below(INTEGER_OPERATIONS.len() as u64) as usize;
        let mut call = random_call(&INTEGER_OPERATIONS[index], &mixes[index], &mut random);
        for _ in 0..=random.below(3) {
            damage(&mut call, &mut random);
        }
        let result_len = if random.once_in(20) { 0 } else { 1 + random.below(MOST_RESULT_WORDS) };
        tally.count(check_value(&call, result_len));
    }
    println!("value, randomly damaged calls: {campaign}, {tally}");
    if campaign.is_whole() {
        tally.assert_numbers(&[0, 11, 21, 22, 24, 25, 33]);
    }
}

/// Replaces one part of a call by one that may not go with the others.
fn damage(call: &mut ValueCall, random: &mut Random) {
    match random.below(8) {
        0 => call.opcode = random.below(61),
        1 => call.opcode = random.pick(&LARGE_OPCODES),
        2 => call.sizes.output = random.pick(&GOOD_AND_BAD_SIZES),
        3 => call.sizes.input0 = random.pick(&GOOD_AND_BAD_SIZES),
        4 => call.sizes.input1 = random.pick(&GOOD_AND_BAD_SIZES),
        5 => call.input0 = damaged_value(random),
        6 => call.input1 = damaged_value(random),
        _ => call.input1 = 0,
    }
}

/// A value around the largest of some size.
fn damaged_value(random: &mut Random) -> u64 {
    let size = 1 + random.below(*SIZES.end());
    random.pick(&values_around_the_largest(size))
}
