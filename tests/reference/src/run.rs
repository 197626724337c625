//! The run and the step: refusals before anything runs, then one operation after the other.

use crate::bytes::ByteOrder;
use crate::fault;
use crate::list::WORDS_PER_OPERATION;
use crate::machine::{Executed, Machine, Next, State};
use crate::memory::{Spaces, PUBLIC, SECRET};
use crate::opcodes::Opcode;
use crate::varnode::Varnode;
use crate::verdict::{lengths_hold, settings_hold, verdict, Report, Settings, END};

/// The ending of a run by a destination outside the list.
pub const EXIT: u64 = 1;
/// The ending of a run that has executed as many operations as it may.
pub const BUDGET: u64 = 2;

/// A list to run, and the settings that it is for.
#[derive(Clone, Debug, PartialEq, Eq)]
pub struct Program {
    pub settings: Settings,
    pub list: Vec<u64>,
}

impl Program {
    /// How many whole operations the list has.
    pub fn count(&self) -> u64 {
        (self.list.len() / WORDS_PER_OPERATION) as u64
    }

    /// The machine of a program that is not refused.
    pub(crate) fn machine<'a>(&'a self, state: &'a mut State) -> Machine<'a> {
        let Settings { order, wordsizes, .. } = self.settings;
        let order = ByteOrder::with_number(order).expect("the settings hold");
        let (operations, _) = self.list.as_chunks::<WORDS_PER_OPERATION>();
        Machine::new(order, wordsizes, operations, state)
    }
}

/// Runs a list from an index on, labelled if the state has labels.
pub fn run(program: &Program, start: u64, budget: u32, state: &mut State) -> Report {
    observed_run(program, start, budget, state, |_| ())
}

/// The step: a run with budget 1.
pub fn step(program: &Program, start: u64, state: &mut State) -> Report {
    run(program, start, 1, state)
}

/// What a run tells its observer: this operation was executed, and left this state.
#[derive(Clone, Copy, Debug)]
pub struct Observed<'a> {
    pub index: usize,
    pub opcode: Opcode,
    /// The bytes that it wrote, if it wrote any.
    pub written: Option<Varnode>,
    pub state: &'a State,
}

/// A run that tells its observer of each operation executed.
pub fn observed_run(
    program: &Program,
    start: u64,
    budget: u32,
    state: &mut State,
    mut observer: impl FnMut(Observed),
) -> Report {
    if let Some(report) = refusal(program, start, state) {
        return report;
    }
    run_machine(&mut program.machine(state), start as usize, budget, |machine, index, written| {
        let opcode = machine.opcode(index);
        observer(Observed { index, opcode, written, state: machine.state() });
        Ok(())
    })
}

/// Runs a machine from an index on. Each operation has `after` done after it, before it is counted, by its
/// index and what it wrote; an ending that `after` gives ends the run at that operation.
pub(crate) fn run_machine(
    machine: &mut Machine,
    start: usize,
    budget: u32,
    mut after: impl FnMut(&mut Machine, usize, Option<Varnode>) -> Result<(), u64>,
) -> Report {
    let mut index = start;
    let mut executed = 0;
    let (ending, value) = loop {
        if index == machine.count() {
            break (END, 0);
        }
        if executed == budget {
            break (BUDGET, 0);
        }
        let Executed { next, written } = match machine.execute(index) {
            Ok(executed) => executed,
            Err(ending) => break (ending, 0),
        };
        if let Err(ending) = after(machine, index, written) {
            break (ending, 0);
        }
        executed += 1;
        match next {
            Next::Index(target) => index = target,
            Next::Exit(destination) => break (EXIT, destination),
        }
    };
    Report {
        ending,
        index: index as u64,
        executed: u64::from(executed),
        log_words: machine.log_words() as u64,
        value,
    }
}

/// The refusals in their order: 10, 11, 12, 21 to 26, 27.
pub(crate) fn refusal(program: &Program, start: u64, state: &State) -> Option<Report> {
    let Program { settings, list } = program;
    let lengths = state.memory.lengths();
    if !settings_hold(settings) {
        return Some(Report::before_a_run(fault::SETTING, 0));
    }
    if !lengths_hold(&lengths, list.len()) || !label_lengths_hold(state) {
        return Some(Report::before_a_run(fault::LENGTH, 0));
    }
    if !state.labels.as_ref().is_none_or(labels_hold) {
        return Some(Report::before_a_run(fault::LABEL, 0));
    }
    let report = verdict(settings, &lengths, list);
    if report.ending != END {
        return Some(report);
    }
    if start > program.count() {
        return Some(Report::before_a_run(fault::START, 0));
    }
    None
}

/// Rule 11 LENGTH for labels and their counts: each space has as many labels as it has bytes, and enough words
/// to count them.
fn label_lengths_hold(state: &State) -> bool {
    let State { memory, labels, counts, .. } = state;
    let lengths = memory.lengths();
    labels.as_ref().is_none_or(|labels| labels.lengths() == lengths && counts.hold(&lengths))
}

/// Rule 12 LABEL.
pub(crate) fn labels_hold(labels: &Spaces) -> bool {
    let are_labels = |space: &Vec<u8>| space.iter().all(|&label| matches!(label, PUBLIC | SECRET));
    labels.all().into_iter().all(are_labels)
}

#[cfg(test)]
mod tests {
    use super::*;
    use crate::list::tests::CASE;
    use crate::varnode::Wordsizes;
    use crate::verdict::{LONGEST_SPACE, MOST_OPERATIONS};

    const LITTLE: u64 = 0;
    const BIG: u64 = 1;

    /// COPY of 2 bytes within unique, from 0 to 1.
    const OVERLAPPING_COPY: [u64; 5] = [0x22_22_01, 1, 0, 0, 0];
    /// LOAD of 4 bytes from ram into unique, with the pointer in all 8 bytes of register.
    const LOAD: [u64; 5] = [0x38_11_24_02, 0, 4, 0, 0];
    /// STORE of the first byte of unique to ram, with the pointer in register.
    const STORE: [u64; 5] = [0x21_38_11_00_03, 0, 4, 0, 0];
    /// INT_DIV of the first byte of unique by the second, into the third.
    const DIVISION: [u64; 5] = [0x21_21_21_23, 2, 0, 1, 0];
    /// INT_ADD of the first byte of unique and the second, into the third.
    const ADDITION: [u64; 5] = [0x21_21_21_15, 2, 0, 1, 0];
    /// INT_MULT of the first byte of unique and the second, into the third.
    const MULTIPLICATION: [u64; 5] = [0x21_21_21_22, 2, 0, 1, 0];
    /// BRANCH to itself.
    const FOREVER: [u64; 5] = [0x11_00_04, 0, 0, 0, 0];

    /// A program with 8-byte addresses that count bytes.
    fn program(order: u64, operations: &[[u64; 5]]) -> Program {
        let settings = Settings { order, address_size: 8, wordsizes: Wordsizes::ONE };
        Program { settings, list: operations.concat() }
    }

    /// The same program with other wordsizes.
    fn with_wordsizes(mut program: Program, unique: u64, register: u64, ram: u64) -> Program {
        program.settings.wordsizes = Wordsizes { unique, register, ram };
        program
    }

    /// A state without labels, and a log of 4 words.
    fn state(unique: &[u8], register: &[u8], ram: &[u8]) -> State {
        let memory =
            Spaces { unique: unique.to_vec(), register: register.to_vec(), ram: ram.to_vec() };
        State::plain(memory, vec![7; 4])
    }

    /// The same state with public labels only.
    fn labelled(State { memory, log, .. }: State) -> State {
        let labels = Spaces::of_lengths(&memory.lengths());
        State::labelled(memory, labels, log)
    }

    fn labels(state: &mut State) -> &mut Spaces {
        state.labels.as_mut().expect("a labelled state")
    }

    #[test]
    fn the_worked_example() {
        let mut state = labelled(state(&[0; 16], &[0; 16], &[0; 16]));
        state.memory.register[0] = 0x0d;
        state.memory.ram[5] = 0x5a;
        labels(&mut state).ram[5] = SECRET;
        state.log = vec![0; 1_024];
        let settings = Settings { order: LITTLE, address_size: 4, wordsizes: Wordsizes::ONE };
        let report = run(&Program { settings, list: CASE.concat() }, 0, 100, &mut state);
        assert_eq!(report.numbers(), [0, 3, 3, 1, 0]);
        assert_eq!(state.log[..2], [0x0000000100000005, 0]);
        let with = |places: &[(usize, u8)]| {
            let mut bytes = vec![0; 16];
            places.iter().for_each(|&(place, byte)| bytes[place] = byte);
            bytes
        };
        assert_eq!(state.memory.unique, with(&[(0, 0x05), (4, 0x5a)]));
        assert_eq!(state.memory.register, with(&[(0, 0x0d), (8, 0x5a)]));
        assert_eq!(state.memory.ram, with(&[(5, 0x5a)]));
        assert_eq!(labels(&mut state).unique, with(&[(4, SECRET)]));
        assert_eq!(labels(&mut state).register, with(&[(8, SECRET)]));
        assert_eq!(labels(&mut state).ram, with(&[(5, SECRET)]));
        // The counts began with those of public labels.
        assert_eq!(state.counts.all(), [&vec![1, 1], &vec![1, 1], &vec![0, 0]]);
    }

    #[test]
    fn marked_load_in_ram_of_16_bytes() {
        let ram: Vec<u8> = (0..16).collect();
        for (pointer, ending) in [(12, END), (13, fault::BOUNDS), (u64::MAX, fault::BOUNDS)] {
            let before = state(&[0xee; 4], &u64::to_le_bytes(pointer), &ram);
            let mut after = before.clone();
            let report = run(&program(LITTLE, &[LOAD]), 0, 9, &mut after);
            if ending == END {
                assert_eq!(report.numbers(), [END, 1, 1, 1, 0]);
                assert_eq!(after.memory.unique, [12, 13, 14, 15]);
                assert_eq!(after.log, [12, 7, 7, 7]);
            } else {
                assert_eq!(report.numbers(), [ending, 0, 0, 0, 0]);
                assert_eq!(after, before);
            }
        }
    }

    #[test]
    fn a_load_reads_at_the_pointer_times_the_wordsize() {
        let ram: Vec<u8> = (0..16).collect();
        for wordsize in 1..=8 {
            // Of 4 bytes, 12 is the last byte offset.
            let last = 12 / wordsize;
            for pointer in 0..20 {
                let before = state(&[0xee; 4], &u64::to_le_bytes(pointer), &ram);
                let mut after = before.clone();
                let program = with_wordsizes(program(LITTLE, &[LOAD]), 5, 3, wordsize);
                let report = run(&program, 0, 9, &mut after).numbers();
                if pointer <= last {
                    let offset = pointer * wordsize;
                    let first = offset as u8;
                    assert_eq!(report, [END, 1, 1, 1, 0]);
                    assert_eq!(after.memory.unique, [first, first + 1, first + 2, first + 3]);
                    assert_eq!(after.log, [offset, 7, 7, 7]);
                } else {
                    assert_eq!(report, [fault::BOUNDS, 0, 0, 0, 0]);
                    assert_eq!(after, before);
                }
            }
        }
    }

    #[test]
    fn the_product_of_pointer_and_wordsize_does_not_wrap() {
        // Each product is 2^64 or a little more, which would be in bounds if it wrapped.
        for (wordsize, pointer) in [
            (8, 1 << 61),
            (4, 1 << 62),
            (2, 1 << 63),
            (3, u64::MAX / 3 + 1),
            (5, u64::MAX / 5 + 1),
            (6, u64::MAX / 6 + 1),
            (7, u64::MAX / 7 + 1),
        ] {
            assert!(pointer.wrapping_mul(wordsize) < 12);
            for operation in [LOAD, STORE] {
                let before = labelled(state(&[1; 4], &u64::to_le_bytes(pointer), &[0; 16]));
                let mut after = before.clone();
                let program = with_wordsizes(program(LITTLE, &[operation]), 1, 1, wordsize);
                assert_eq!(run(&program, 0, 9, &mut after).numbers(), [fault::BOUNDS, 0, 0, 0, 0]);
                assert_eq!(after, before);
            }
        }
    }

    #[test]
    fn a_store_writes_bytes_and_labels_at_the_pointer_times_the_wordsize() {
        let mut state = labelled(state(&[5; 4], &[2, 0, 0, 0, 0, 0, 0, 0], &[0; 8]));
        labels(&mut state).unique[0] = SECRET;
        let program = with_wordsizes(program(LITTLE, &[STORE]), 8, 8, 3);
        assert_eq!(run(&program, 0, 9, &mut state).numbers(), [END, 1, 1, 1, 0]);
        assert_eq!(state.memory.ram, [0, 0, 0, 0, 0, 0, 5, 0]);
        assert_eq!(labels(&mut state).ram, [0, 0, 0, 0, 0, 0, SECRET, 0]);
        assert_eq!(state.log, [6, 7, 7, 7]);
    }

    #[test]
    fn the_wordsize_is_that_of_the_space_that_input0_names() {
        let bytes: Vec<u8> = (0..16).collect();
        for (space, offset) in [(2, 6), (3, 8), (4, 10)] {
            // LOAD of 1 byte to the end of ram, with the pointer 2.
            let load = [0x18_11_41_02, 15, space, 2, 0];
            let mut state = state(&bytes, &bytes, &bytes);
            let program = with_wordsizes(program(BIG, &[load]), 3, 4, 5);
            assert_eq!(run(&program, 0, 9, &mut state).numbers(), [END, 1, 1, 1, 0]);
            assert_eq!(state.memory.ram[15], offset);
            assert_eq!(state.log[0], u64::from(offset));
        }
    }

    #[test]
    fn a_secret_pointer_leaks_before_it_is_multiplied() {
        for pointer in [0, 1, u64::MAX] {
            let mut before = labelled(state(&[0; 4], &u64::to_le_bytes(pointer), &[0; 16]));
            labels(&mut before).register[0] = SECRET;
            for operation in [LOAD, STORE] {
                let mut after = before.clone();
                let program = with_wordsizes(program(LITTLE, &[operation]), 1, 1, 8);
                assert_eq!(run(&program, 0, 9, &mut after).numbers(), [fault::LEAK, 0, 0, 0, 0]);
                assert_eq!(after, before);
            }
        }
    }

    #[test]
    fn a_wordsize_changes_no_varnode_and_no_destination() {
        let bytes: Vec<u8> = (0..16).collect();
        let copy = [0x44_34_01, 3, 5, 0, 0];
        for operation in [copy, [0x41_00_04, 0, 6, 0, 0], [0x34_00_06, 0, 4, 0, 0], FOREVER] {
            let mut program = program(LITTLE, &[operation]);
            program.settings.address_size = 4;
            let [mut narrow, mut wide] = [(); 2].map(|()| state(&bytes, &bytes, &bytes));
            let report = run(&program, 0, 3, &mut narrow);
            assert_eq!(run(&with_wordsizes(program, 2, 3, 8), 0, 3, &mut wide), report);
            assert_eq!(narrow, wide);
        }
    }

    #[test]
    fn marked_empty_list_with_budget_0() {
        let mut state = state(&[], &[], &[]);
        assert_eq!(run(&program(LITTLE, &[]), 0, 0, &mut state).numbers(), [END, 0, 0, 0, 0]);
        let report = run(&program(LITTLE, &[FOREVER]), 0, 0, &mut state);
        assert_eq!(report.numbers(), [BUDGET, 0, 0, 0, 0]);
    }

    #[test]
    fn marked_start_at_n_and_beyond() {
        let mut state = state(&[0; 3], &[], &[]);
        let program = program(LITTLE, &[OVERLAPPING_COPY, OVERLAPPING_COPY]);
        assert_eq!(run(&program, 2, 9, &mut state).numbers(), [END, 2, 0, 0, 0]);
        assert_eq!(run(&program, 3, 9, &mut state).numbers(), [fault::START, 0, 0, 0, 0]);
        assert_eq!(run(&program, u64::MAX, 0, &mut state).numbers(), [fault::START, 0, 0, 0, 0]);
    }

    #[test]
    fn marked_overlapping_copy() {
        for order in [LITTLE, BIG] {
            let mut state = state(&[1, 2, 3, 4], &[], &[]);
            let report = run(&program(order, &[OVERLAPPING_COPY]), 0, 9, &mut state);
            assert_eq!(report.numbers(), [END, 1, 1, 0, 0]);
            assert_eq!(state.memory.unique, [1, 1, 2, 4]);
        }
    }

    #[test]
    fn marked_branch_at_5_by_3() {
        let mut operations = [OVERLAPPING_COPY; 10];
        operations[5] = [0x11_00_04, 0, 3, 0, 0];
        let report = step(&program(LITTLE, &operations), 5, &mut state(&[0; 3], &[], &[]));
        assert_eq!(report.numbers(), [BUDGET, 8, 1, 0, 0]);
    }

    #[test]
    fn refusals_in_their_order() {
        let mut program = program(2, &[[0x11_00_04, 0, 9, 0, 0]]);
        let mut state = labelled(state(&[0; 4], &[0; 8], &[]));
        labels(&mut state).unique = vec![2; 5];
        let refused = |program: &Program, state: &State| {
            let mut after = state.clone();
            let report = run(program, 9, 9, &mut after);
            assert_eq!(&after, state);
            assert_eq!(report.numbers()[1..], [0; 4]);
            report.ending
        };
        assert_eq!(refused(&program, &state), fault::SETTING);
        program.settings.order = BIG;
        // Ram is empty.
        program.settings.wordsizes.ram = 9;
        assert_eq!(refused(&program, &state), fault::SETTING);
        program.settings.wordsizes.ram = 8;
        assert_eq!(refused(&program, &state), fault::LENGTH);
        labels(&mut state).unique = vec![0, 1, 2, 3];
        assert_eq!(refused(&program, &state), fault::LABEL);
        labels(&mut state).unique = vec![0, 1, 1, 0];
        assert_eq!(refused(&program, &state), fault::TARGET);
        program.list = LOAD.to_vec();
        assert_eq!(refused(&program, &state), fault::START);
    }

    #[test]
    fn lengths_that_are_refused() {
        let ending = |count: usize, space: u64| {
            let mut state = state(&[0; 4], &[0; 8], &vec![0; space as usize]);
            run(&program(LITTLE, &vec![FOREVER; count]), 0, 0, &mut state).ending
        };
        assert_eq!(ending(MOST_OPERATIONS, LONGEST_SPACE), BUDGET);
        assert_eq!(ending(MOST_OPERATIONS + 1, LONGEST_SPACE), fault::LENGTH);
        assert_eq!(ending(MOST_OPERATIONS, LONGEST_SPACE + 1), fault::LENGTH);
    }

    #[test]
    fn reading_13_label_lengths_go_space_by_space() {
        let mut state = labelled(state(&[0; 4], &[0; 8], &[]));
        labels(&mut state).unique = vec![0; 8];
        labels(&mut state).register = vec![0; 4];
        assert_eq!(run(&program(LITTLE, &[]), 0, 9, &mut state).ending, fault::LENGTH);
    }

    /// The ending of one operation on a labelled state, which it leaves as it is.
    fn stopped(operation: [u64; 5], before: &State) -> u64 {
        let mut after = before.clone();
        let report = run(&program(LITTLE, &[operation]), 0, 9, &mut after);
        assert_eq!(&after, before);
        assert_eq!(report.numbers()[1..], [0; 4]);
        report.ending
    }

    #[test]
    fn checks_in_their_order() {
        let mut before = labelled(state(&[0; 4], &[0xff; 8], &[0; 4]));
        before.log.clear();
        labels(&mut before).register[7] = SECRET;
        assert_eq!(stopped(LOAD, &before), fault::LEAK);
        labels(&mut before).register[7] = PUBLIC;
        assert_eq!(stopped(LOAD, &before), fault::BOUNDS);
        before.memory.register.fill(0);
        assert_eq!(stopped(LOAD, &before), fault::LOG);
        // The operands are bytes 0 and 1 of unique, and the divisor is 0.
        for operand in [0, 1] {
            labels(&mut before).unique[operand] = SECRET;
            assert_eq!(stopped(DIVISION, &before), fault::LEAK);
            labels(&mut before).unique[operand] = PUBLIC;
        }
        assert_eq!(stopped(DIVISION, &before), fault::ZERO);
    }

    #[test]
    fn leak_looks_at_pointers_conditions_destinations_dividends_and_divisors() {
        let secret = |operation: [u64; 5]| {
            let mut before = labelled(state(&[1; 4], &[0; 8], &[0; 4]));
            labels(&mut before).unique[1] = SECRET;
            labels(&mut before).register[3] = SECRET;
            stopped(operation, &before)
        };
        for opcode in [0x23, 0x24, 0x25, 0x26] {
            assert_eq!(secret([0x21_21_21_00 + opcode, 2, 0, 1, 0]), fault::LEAK);
            assert_eq!(secret([0x21_21_21_00 + opcode, 2, 1, 0, 0]), fault::LEAK);
            assert_eq!(secret([0x11_21_21_00 + opcode, 2, 1, 3, 0]), fault::LEAK);
        }
        for opcode in [6, 8, 9] {
            assert_eq!(secret([0x38_00_00 + opcode, 0, 0, 0, 0]), fault::LEAK);
        }
        assert_eq!(secret([0x21_11_00_05, 0, 1, 1, 0]), fault::LEAK);
        assert_eq!([secret(LOAD), secret(STORE)], [fault::LEAK; 2]);
    }

    /// The labels of unique after one operation on labels of unique, in a byte order. Of ram, the last byte
    /// is secret.
    fn labels_in<const BYTES: usize>(
        order: u64,
        operation: [u64; 5],
        unique: [u8; BYTES],
    ) -> [u8; BYTES] {
        let mut state = labelled(state(&[1; BYTES], &[0; 8], &[0; 4]));
        labels(&mut state).unique = unique.to_vec();
        labels(&mut state).ram = vec![0, 0, 0, 1];
        assert_eq!(run(&program(order, &[operation]), 0, 9, &mut state).ending, END);
        let unique = labels(&mut state).unique.clone();
        unique.try_into().expect("as many labels as before")
    }

    /// The same where both byte orders leave the same labels.
    fn labels_after<const BYTES: usize>(operation: [u64; 5], unique: [u8; BYTES]) -> [u8; BYTES] {
        let [little, big] = [LITTLE, BIG].map(|order| labels_in(order, operation, unique));
        assert_eq!(little, big);
        little
    }

    #[test]
    fn an_output_is_secret_if_anything_read_is() {
        assert_eq!(labels_after(ADDITION, [0, 0, 1, 1]), [0, 0, 0, 1]);
        assert_eq!(labels_after(ADDITION, [1, 0, 0, 0]), [1, 0, 1, 0]);
        assert_eq!(labels_after(ADDITION, [0, 1, 0, 0]), [0, 1, 1, 0]);
        // Of the integer operations only divisions leak.
        assert_eq!(labels_after(MULTIPLICATION, [1, 1, 0, 0]), [1, 1, 1, 0]);
        // INT_ADD of bytes 0 and 1 and of bytes 2 and 3, into bytes 4 and 5.
        let addition = [0x22_22_22_15, 4, 0, 2, 0];
        assert_eq!(labels_after(addition, [0, 0, 0, 0, 1, 1]), [0, 0, 0, 0, 0, 0]);
        assert_eq!(labels_after(addition, [1, 0, 0, 0, 0, 0]), [1, 0, 0, 0, 1, 1]);
        assert_eq!(labels_after(addition, [0, 0, 0, 1, 0, 0]), [0, 0, 0, 1, 1, 1]);
        // INT_LEFT by 8, and INT_AND with ff, of bytes 0 and 1: they move no byte by the rule.
        for operation in [[0x11_22_22_1f, 2, 0, 8, 0], [0x12_22_22_1d, 2, 0, 0xff, 0]] {
            assert_eq!(labels_after(operation, [0, 1, 0, 0]), [0, 1, 1, 1]);
            assert_eq!(labels_after(operation, [1, 0, 0, 0]), [1, 0, 1, 1]);
        }
        // POPCOUNT of bytes 0 and 1: the high byte of the count is 0, and secret.
        assert_eq!(labels_after([0x22_22_0c, 2, 0, 0, 0], [0, 1, 0, 0]), [0, 1, 1, 1]);
    }

    #[test]
    fn a_copy_and_a_load_take_the_label_of_each_byte() {
        assert_eq!(labels_after(OVERLAPPING_COPY, [1, 0, 0, 0]), [1, 1, 0, 0]);
        assert_eq!(labels_after(OVERLAPPING_COPY, [0, 1, 0, 0]), [0, 0, 1, 0]);
        assert_eq!(labels_after(OVERLAPPING_COPY, [0, 0, 1, 0]), [0, 0, 0, 0]);
        // COPY of a constant of 3 bytes.
        assert_eq!(labels_after([0x13_23_01, 1, 5, 0, 0], [1, 1, 1, 1]), [1, 0, 0, 0]);
        assert_eq!(labels_after(LOAD, [1, 1, 1, 1]), [0, 0, 0, 1]);
        let first_two_bytes = [0x38_11_22_02, 0, 4, 0, 0];
        assert_eq!(labels_after(first_two_bytes, [1, 1, 1, 1]), [0, 0, 1, 1]);
    }

    #[test]
    fn a_piece_takes_labels_by_significance() {
        // Byte 0 on top of bytes 1 and 2, into bytes 3 to 5.
        let piece = [0x22_21_23_0a, 3, 0, 1, 0];
        for (labels, little, big) in [
            ([1, 0, 0, 1, 1, 1], [1, 0, 0, 0, 0, 1], [1, 0, 0, 1, 0, 0]),
            ([0, 1, 0, 1, 1, 1], [0, 1, 0, 1, 0, 0], [0, 1, 0, 0, 1, 0]),
            ([0, 0, 1, 1, 1, 1], [0, 0, 1, 0, 1, 0], [0, 0, 1, 0, 0, 1]),
        ] {
            assert_eq!(labels_in(LITTLE, piece, labels), little);
            assert_eq!(labels_in(BIG, piece, labels), big);
        }
        // The constant 5 of 2 bytes below byte 0.
        let above_5 = [0x12_21_23_0a, 1, 0, 5, 0];
        assert_eq!(labels_in(LITTLE, above_5, [1, 1, 1, 1]), [1, 0, 0, 1]);
        assert_eq!(labels_in(BIG, above_5, [1, 1, 1, 1]), [1, 1, 0, 0]);
    }

    #[test]
    fn a_subpiece_has_no_label_of_a_dropped_byte() {
        // Bytes 0 to 3 without the least significant one, into bytes 4 and 5.
        let subpiece = [0x11_24_22_0b, 4, 0, 1, 0];
        // The least significant byte is the first in little order, and the last in big.
        assert_eq!(labels_after(subpiece, [1, 0, 0, 0, 1, 1]), [1, 0, 0, 0, 0, 0]);
        assert_eq!(labels_after(subpiece, [0, 0, 0, 1, 1, 1]), [0, 0, 0, 1, 0, 0]);
        assert_eq!(labels_after(subpiece, [0, 1, 0, 0, 0, 0]), [0, 1, 0, 0, 1, 0]);
        assert_eq!(labels_after(subpiece, [0, 0, 1, 0, 0, 0]), [0, 0, 1, 0, 0, 1]);
        assert_eq!(labels_after(subpiece, [1, 0, 1, 1, 0, 0]), [1, 0, 1, 1, 0, 1]);
        // Byte 0 or byte 1 of 2 bytes, into byte 2.
        for (dropped, little, big) in [(0, 0, 1), (1, 1, 0)] {
            let subpiece = [0x11_22_21_0b, 2, 0, dropped, 0];
            assert_eq!(labels_in(LITTLE, subpiece, [0, 1, 1]), [0, 1, little]);
            assert_eq!(labels_in(BIG, subpiece, [0, 1, 1]), [0, 1, big]);
        }
    }

    #[test]
    fn reading_21_missing_high_bytes_of_a_subpiece_are_public() {
        // Bytes 0 and 1, into bytes 2 to 4.
        let all_secret = |order, dropped| {
            let unique = labels_in(order, [0x11_22_23_0b, 2, 0, dropped, 0], [1; 5]);
            [unique[2], unique[3], unique[4]]
        };
        for (dropped, little, big) in
            [(0, [1, 1, 0], [0, 1, 1]), (1, [1, 0, 0], [0, 0, 1]), (2, [0; 3], [0; 3])]
        {
            assert_eq!(all_secret(LITTLE, dropped), little);
            assert_eq!(all_secret(BIG, dropped), big);
        }
        assert_eq!(labels_after([0x18_22_23_0b, 2, 0, u64::MAX, 0], [1; 5]), [1, 1, 0, 0, 0]);
    }

    #[test]
    fn extensions_keep_labels_by_significance_and_fill() {
        // Bytes 0 and 1, into bytes 2 to 5.
        let [zext, sext] = [0x13, 0x14].map(|opcode| [0x22_24_00 + opcode, 2, 0, 0, 0]);
        let filled = |order, operation, input0: [u8; 2]| {
            let [low, high] = input0;
            let [_, _, output @ ..] = labels_in(order, operation, [low, high, 1, 0, 1, 0]);
            output
        };
        for (input0, little, big) in [
            ([0, 0], [0, 0, 0, 0], [0, 0, 0, 0]),
            ([1, 0], [1, 0, 0, 0], [0, 0, 1, 0]),
            ([0, 1], [0, 1, 0, 0], [0, 0, 0, 1]),
            ([1, 1], [1, 1, 0, 0], [0, 0, 1, 1]),
        ] {
            assert_eq!(filled(LITTLE, zext, input0), little);
            assert_eq!(filled(BIG, zext, input0), big);
        }
        for (input0, little, big) in [
            ([0, 0], [0, 0, 0, 0], [0, 0, 0, 0]),
            ([1, 0], [1, 0, 0, 0], [1, 1, 1, 0]),
            ([0, 1], [0, 1, 1, 1], [0, 0, 0, 1]),
            ([1, 1], [1, 1, 1, 1], [1, 1, 1, 1]),
        ] {
            assert_eq!(filled(LITTLE, sext, input0), little);
            assert_eq!(filled(BIG, sext, input0), big);
        }
    }

    #[test]
    fn labels_are_read_before_they_are_written() {
        // INT_ZEXT of bytes 1 and 2 into bytes 0 to 3, and INT_SEXT of them.
        let [zext, sext] = [0x13, 0x14].map(|opcode| [0x22_24_00 + opcode, 0, 1, 0, 0]);
        assert_eq!(labels_in(LITTLE, zext, [0, 0, 1, 1]), [0, 1, 0, 0]);
        assert_eq!(labels_in(BIG, zext, [0, 0, 1, 1]), [0, 0, 0, 1]);
        assert_eq!(labels_in(LITTLE, sext, [1, 0, 1, 0]), [0, 1, 1, 1]);
        assert_eq!(labels_in(BIG, sext, [1, 0, 1, 0]), [0, 0, 0, 1]);
        // PIECE of bytes 0 and 1, exchanged, into bytes 0 and 1: in big order they stay where they are.
        assert_eq!(labels_in(LITTLE, [0x21_21_22_0a, 0, 0, 1, 0], [1, 0]), [0, 1]);
        assert_eq!(labels_in(BIG, [0x21_21_22_0a, 0, 0, 1, 0], [1, 0]), [1, 0]);
    }

    #[test]
    fn a_packed_words_neighbours_stay_public() {
        // COPY of bytes 0 to 3 to bytes 4 to 7, and a LOAD from ram by one of them.
        let copy = [0x24_24_01, 4, 0, 0, 0];
        for order in [LITTLE, BIG] {
            for place in 4..8 {
                let mut list = program(order, &[copy, [0x21_11_21_02, 0, 4, place, 0]]);
                list.settings.address_size = 1;
                let mut state = labelled(state(&[1; 8], &[], &[9; 4]));
                labels(&mut state).unique[2] = SECRET;
                let is_secret = place == 6;
                let report = run(&list, 0, 9, &mut state).numbers();
                let leak = [fault::LEAK, 1, 1, 0, 0];
                assert_eq!(report, if is_secret { leak } else { [END, 2, 2, 1, 0] });
            }
        }
    }

    #[test]
    fn a_store_gives_its_target_the_labels_of_its_data() {
        for (data, target) in [(SECRET, PUBLIC), (PUBLIC, SECRET)] {
            let mut state = labelled(state(&[5; 4], &[0; 8], &[0; 4]));
            state.memory.register[0] = 2;
            labels(&mut state).unique[0] = data;
            labels(&mut state).ram = vec![target; 4];
            let report = run(&program(LITTLE, &[STORE]), 0, 9, &mut state);
            assert_eq!(report.numbers(), [END, 1, 1, 1, 0]);
            assert_eq!(state.memory.ram, [0, 0, 5, 0]);
            assert_eq!(labels(&mut state).ram, [target, target, data, target]);
            assert_eq!(state.log, [2, 7, 7, 7]);
        }
        // Of 3 bytes, each has its own, and a constant's are public.
        for (data, expected) in
            [([1, 0, 0], [1, 1, 0, 0]), ([0, 1, 0], [1, 0, 1, 0]), ([0, 1, 1], [1, 0, 1, 1])]
        {
            for order in [LITTLE, BIG] {
                let mut state = labelled(state(&[5; 3], &[], &[0; 4]));
                labels(&mut state).unique = data.to_vec();
                labels(&mut state).ram = vec![SECRET; 4];
                let store = [0x23_18_11_00_03, 0, 4, 1, 0];
                run(&program(order, &[store]), 0, 9, &mut state);
                assert_eq!(labels(&mut state).ram, expected);
                let store = [0x13_18_11_00_03, 0, 4, 0, 0];
                run(&program(order, &[store]), 0, 9, &mut state);
                assert_eq!(labels(&mut state).ram, [0, 0, 0, expected[3]]);
            }
        }
    }

    /// A state with 70 bytes of unique, labels as given from byte 62 on, and counts of 100, 200 and 300.
    fn counted_state(labels_from_62: [u8; 4]) -> State {
        let mut state = labelled(state(&[5; 70], &[0; 8], &[]));
        labels(&mut state).unique[62..66].copy_from_slice(&labels_from_62);
        state.counts.unique = vec![100, 200, 300, 7];
        state
    }

    #[test]
    fn counts_follow_each_label_that_an_operation_changes() {
        // COPY of bytes 62 to 65 of unique to 66 to 69, of a constant over them, and of bytes 66 to 69 back.
        let [there, over, back] =
            [[0x24_24_01, 66, 62, 0, 0], [0x14_24_01, 62, 5, 0, 0], [0x24_24_01, 62, 66, 0, 0]];
        let counts_after = |operations: &[[u64; 5]], labels_from_62| {
            let mut state = counted_state(labels_from_62);
            let lent = state.counts.clone();
            assert_eq!(run(&program(LITTLE, operations), 0, 9, &mut state).ending, END);
            assert_eq!((&state.counts.register, &state.counts.ram), (&lent.register, &lent.ram));
            let [words @ .., further] = &state.counts.unique[..] else { panic!("four words") };
            assert_eq!(*further, 7);
            words.to_vec()
        };
        assert_eq!(counts_after(&[there], [1, 1, 1, 0]), [100, 203, 303]);
        assert_eq!(counts_after(&[over], [1, 1, 1, 0]), [98, 199, 297]);
        assert_eq!(counts_after(&[over], [0, 0, 0, 0]), [100, 200, 300]);
        assert_eq!(counts_after(&[there, over], [1, 0, 1, 1]), [99, 201, 300]);
        assert_eq!(counts_after(&[there, over, back], [1, 0, 1, 1]), [100, 203, 303]);
        assert_eq!(counts_after(&[there, there], [0, 1, 0, 0]), [100, 201, 301]);
        assert_eq!(counts_after(&[], [1, 1, 1, 1]), [100, 200, 300]);
    }

    #[test]
    fn what_is_stopped_moves_no_count() {
        let mut before = counted_state([1, 1, 1, 1]);
        before.memory.unique[1] = 0;
        assert_eq!(stopped(DIVISION, &before), fault::ZERO);
        labels(&mut before).unique[0] = SECRET;
        assert_eq!(stopped(DIVISION, &before), fault::LEAK);
    }

    #[test]
    fn counts_that_are_too_short_are_length() {
        let mut state = labelled(state(&[0; 65], &[0; 64], &[]));
        let mut program = program(LITTLE, &[]);
        let ending = |program: &Program, state: &State| {
            let mut after = state.clone();
            let report = run(program, 9, 9, &mut after);
            assert_eq!(&after, state);
            report.ending
        };
        let exact = state.counts.clone();
        assert_eq!(exact.all().map(Vec::len), [3, 2, 1]);
        assert_eq!(ending(&program, &state), fault::START);
        for space in 0..3 {
            state.counts = exact.clone();
            state.counts.all_mut()[space].push(0);
            assert_eq!(ending(&program, &state), fault::START);
            let words = exact.all()[space].len();
            state.counts.all_mut()[space].truncate(words - 1);
            assert_eq!(ending(&program, &state), fault::LENGTH);
            labels(&mut state).unique[0] = 2;
            assert_eq!(ending(&program, &state), fault::LENGTH);
            program.settings.order = 2;
            assert_eq!(ending(&program, &state), fault::SETTING);
            program.settings.order = LITTLE;
            labels(&mut state).unique[0] = PUBLIC;
        }
        // A plain run is lent none.
        let mut plain = State::plain(state.memory.clone(), vec![]);
        assert_eq!(run(&program, 0, 9, &mut plain).ending, END);
    }

    #[test]
    fn reading_8_a_call_to_a_constant_is_a_branch() {
        let mut state = state(&[0; 3], &[], &[]);
        let program = program(BIG, &[[0x11_00_07, 0, 2, 0, 0], OVERLAPPING_COPY]);
        assert_eq!(run(&program, 0, 9, &mut state).numbers(), [END, 2, 1, 0, 0]);
    }

    #[test]
    fn reading_9_a_destination_in_ram_is_not_read() {
        for opcode in [0x41_00_04, 0x41_00_07, 0x11_41_00_05] {
            let mut state = labelled(state(&[], &[], &[0; 4]));
            labels(&mut state).ram.fill(SECRET);
            let condition = u64::from(opcode == 0x11_41_00_05);
            let operation = [opcode, 0, 1, condition, 0];
            let report = run(&program(LITTLE, &[operation]), 0, 9, &mut state);
            assert_eq!(report.numbers(), [EXIT, 0, 1, condition, 1]);
        }
    }

    #[test]
    fn reading_12_a_cbranch_to_ram_writes_its_word() {
        let cbranch = |condition| [0x11_48_00_05, 0, u64::MAX, condition, 0];
        let mut state = state(&[], &[], &[]);
        let list = program(LITTLE, &[cbranch(0), cbranch(0x80)]);
        assert_eq!(run(&list, 0, 9, &mut state).numbers(), [EXIT, 1, 2, 2, u64::MAX]);
        assert_eq!(state.log, [0, (1 << 32) + 1, 7, 7]);
        state.log = vec![7];
        assert_eq!(run(&list, 0, 9, &mut state).numbers(), [fault::LOG, 1, 1, 1, 0]);
        assert_eq!(state.log, [0]);
    }

    #[test]
    fn indirect_branches_exit_with_a_value() {
        for opcode in [6, 8, 9] {
            let mut state = state(&[], &[0, 0, 0, 0, 0, 0, 1, 2], &[]);
            let report = run(&program(BIG, &[[0x38_00_00 + opcode, 0, 0, 0, 0]]), 0, 9, &mut state);
            assert_eq!(report.numbers(), [EXIT, 0, 1, 0, 0x102]);
        }
    }

    #[test]
    fn reading_14_the_step() {
        let mut state = state(&[0; 3], &[], &[]);
        let program = program(LITTLE, &[OVERLAPPING_COPY, [0x41_00_04, 0, 6, 0, 0], FOREVER]);
        assert_eq!(step(&program, 0, &mut state).numbers(), [BUDGET, 1, 1, 0, 0]);
        assert_eq!(step(&program, 1, &mut state).numbers(), [EXIT, 1, 1, 0, 6]);
        assert_eq!(step(&program, 2, &mut state).numbers(), [BUDGET, 2, 1, 0, 0]);
        assert_eq!(step(&program, 3, &mut state).numbers(), [END, 3, 0, 0, 0]);
    }

    #[test]
    fn a_run_resumed_is_one_run() {
        let operations = [OVERLAPPING_COPY, STORE, ADDITION, STORE, OVERLAPPING_COPY];
        let program = program(LITTLE, &operations);
        let before = labelled(state(&[1, 2, 3, 4], &[0; 8], &[0; 4]));
        let mut whole = before.clone();
        let one_run = run(&program, 0, 5, &mut whole);
        for budget in 0..5 {
            let mut state = before.clone();
            let first = run(&program, 0, budget, &mut state);
            assert_eq!(first.ending, BUDGET);
            let written: Vec<u64> = state.log.drain(..first.log_words as usize).collect();
            let second = run(&program, first.index, 5 - budget, &mut state);
            state.log.splice(0..0, written);
            assert_eq!(state, whole);
            assert_eq!([second.ending, second.index], [one_run.ending, one_run.index]);
            assert_eq!(first.executed + second.executed, one_run.executed);
            assert_eq!(first.log_words + second.log_words, one_run.log_words);
        }
    }

    #[test]
    fn the_observer_hears_of_each_operation_executed() {
        let cbranch = [0x11_11_00_05, 0, 1, 1, 0];
        let program = program(LITTLE, &[ADDITION, OVERLAPPING_COPY, DIVISION, cbranch]);
        let mut heard = Vec::new();
        let mut state = state(&[1, 0, 0, 0], &[], &[]);
        let report = observed_run(&program, 0, 9, &mut state, |observed| {
            let Observed { index, opcode, written, state } = observed;
            heard.push((index, opcode, written.map(|written| written.offset), state.log[0]));
        });
        assert_eq!(report.numbers(), [END, 4, 4, 1, 0]);
        let expected = [
            (0, Opcode::IntAdd, Some(2), 7),
            (1, Opcode::Copy, Some(1), 7),
            (2, Opcode::IntDiv, Some(2), 7),
            (3, Opcode::Cbranch, None, (3 << 32) + 1),
        ];
        assert_eq!(heard, expected);
    }
}
