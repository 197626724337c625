//! Checks that the two interpreters do the same: the loops, shorter, and every integer operation. So does
//! the speculative run without a window, and with one but for the words of its windows.

use crate::library::{recount, Counts, Labels, Program, State, LARGEST_WINDOW};
use crate::loops::{
    branching_loops, loops, marking_loops, packing_loops, repeated_operations, straight, Loop,
};
use crate::{run, Kind};

const OPERATIONS: u32 = 1_000;

/// Runs a program on both, and with public labels, which stay so. Gives back the report.
fn check(program: &Program, budget: u32, state: &State) -> [u64; 5] {
    let (report, labels) = check_with(program, budget, state, Labels::public(state));
    assert_eq!(labels, Labels::public(state));
    report
}

/// Runs a loop on both, with its labels. Gives back the report, and the labels after it.
fn check_loop(timed: &Loop, budget: u32) -> ([u64; 5], Labels) {
    check_with(&timed.program, budget, &timed.state, timed.labels())
}

/// Runs a program on both, and with labels. Gives back the report, and the labels after it.
fn check_with(program: &Program, budget: u32, state: &State, labels: Labels) -> ([u64; 5], Labels) {
    let kinds = [Kind::Rust, Kind::Plain, Kind::Labelled, Kind::Speculative(0)];
    let [rust, plain, labelled, speculative] = kinds.map(|kind| {
        let (mut state, mut labels) = (state.clone(), labels.clone());
        (run(kind, program, budget, &mut state, &mut labels), state, labels)
    });
    assert_eq!((&rust.0, &rust.1), (&plain.0, &plain.1), "{:x?}", program.list);
    assert_eq!((&labelled.0, &labelled.1), (&plain.0, &plain.1), "{:x?}", program.list);
    assert_eq!(speculative, labelled, "{:x?}", program.list);
    let (report, _, labels) = labelled;
    let Labels { unique, register, ram, counts } = &labels;
    let [unique, register, ram] = [unique, register, ram].map(|labels| recount(labels));
    assert_eq!(*counts, Counts { unique, register, ram });
    (report, labels)
}

#[test]
fn loops_agree() {
    let groups = [
        loops(OPERATIONS),
        packing_loops(OPERATIONS),
        marking_loops(OPERATIONS),
        branching_loops(OPERATIONS),
    ];
    for timed in groups.into_iter().flatten() {
        let ([ending, _, executed, log_words, value], _) = check_loop(&timed, OPERATIONS);
        assert_eq!([ending, executed, value], [2, u64::from(OPERATIONS), 0], "{}", timed.name);
        assert!(log_words > 0, "{} wrote no log word", timed.name);
    }
}

#[test]
fn repeated_operations_agree() {
    for timed in repeated_operations(OPERATIONS) {
        let ([ending, _, executed, ..], _) = check_loop(&timed, OPERATIONS);
        assert_eq!([ending, executed], [2, u64::from(OPERATIONS)], "{}", timed.name);
    }
}

#[test]
fn counts_move_where_secret_bytes_are() {
    let total = |labels: &Labels| {
        let Counts { unique, register, ram } = &labels.counts;
        [unique, register, ram].iter().filter_map(|words| words.last()).sum::<u64>()
    };
    let mut moving = 0;
    for timed in repeated_operations(4).into_iter().chain(marking_loops(4)) {
        let totals = [0, 1, 2].map(|budget| total(&check_loop(&timed, budget).1));
        let secret = timed.secret_bytes as u64;
        assert_eq!(totals, [secret, 2 * secret, secret], "{}", timed.name);
        moving += u64::from(secret > 0);
    }
    assert!(moving > 0, "no count was to move");
}

/// The words that a run wrote and that no window did.
fn own_words(log: &[u64], report: &[u64; 5]) -> Vec<u64> {
    log[..report[3] as usize].iter().copied().filter(|word| word >> 63 == 0).collect()
}

#[test]
fn windows_add_only_their_words() {
    for timed in branching_loops(100 * OPERATIONS) {
        let mut labels = Labels::public(&timed.state);
        let kinds = [Kind::Labelled, Kind::Speculative(LARGEST_WINDOW)];
        let [(labelled, expected), (report, state)] = kinds.map(|kind| {
            let mut state = timed.state.clone();
            (run(kind, &timed.program, OPERATIONS, &mut state, &mut labels), state)
        });
        assert_eq!(report[..3], labelled[..3]);
        assert_eq!(own_words(&state.log, &report), own_words(&expected.log, &labelled));
        assert_eq!(State { log: vec![], ..state }, State { log: vec![], ..expected });
        assert_eq!(labels, Labels::public(&timed.state));
        assert!(report[3] > 10 * labelled[3], "{} log words of windows", report[3]);
    }
}

#[test]
fn a_full_log_and_a_pointer_beyond_ram_stop_both() {
    for timed in loops(10) {
        assert_eq!(check(&timed.program, OPERATIONS, &timed.state)[0], 34, "{}", timed.name);
    }
    let copying = loops(OPERATIONS).remove(1);
    let mut state = copying.state;
    state.ram.truncate(32_768 + 20);
    assert_eq!(check(&copying.program, OPERATIONS, &state)[0], 32);
}

#[test]
fn a_straight_list_ends() {
    let (program, state) = straight(7, 9);
    assert_eq!(check(&program, OPERATIONS, &state), [0, 7, 7, 0, 0]);
}

/// The sizes of output, input0 and input1 of an integer operation whose input0 has this size, if it
/// can have it. An absent input1 has size 0.
fn sizes(opcode: u64, size: u64) -> Option<[u64; 3]> {
    let sizes = match opcode {
        10 => [size + 1, size, 1],
        11 => [1.max(size - 1), size, 1],
        12 => [1, size, 0],
        13..=18 | 23..=25 => [1, size, size],
        19 | 20 => [size + 1, size, 0],
        26 | 27 => [size, size, 0],
        31..=33 => [size, size, 1],
        39 => [1, 1, 0],
        40..=42 => [1, 1, 1],
        _ => [size, size, size],
    };
    (sizes[0] <= 8).then_some(sizes)
}

/// One operation from ram and unique into register, or, for SUBPIECE, by a constant.
fn operation(opcode: u64, [output, input0, input1]: [u64; 3], amount: u64) -> [u64; 5] {
    let register = 0x30 + output;
    let ram = 0x40 + input0;
    let (second, offset) = match (opcode, input1) {
        (_, 0) => (0, 0),
        (11, _) => (0x11, amount),
        _ => (0x20 + input1, 0),
    };
    [opcode + (register << 8) + (ram << 16) + (second << 24), 0, 0, offset, 0]
}

#[test]
fn integer_operations_agree() {
    const BYTES: [u8; 6] = [0, 1, 2, 0x7f, 0x80, 0xff];
    let mut divisions_by_zero = 0;
    for opcode in 10..=42 {
        for sizes in (1..=8).filter_map(|size| sizes(opcode, size)) {
            for order in [0, 1] {
                for (a, b) in BYTES.iter().flat_map(|a| BYTES.iter().map(move |b| (a, b))) {
                    let list = operation(opcode, sizes, u64::from(b % 16)).to_vec();
                    let program = Program { order, address_size: 4, list };
                    let mut state = State {
                        unique: vec![0; 8],
                        register: vec![9; 9],
                        ram: vec![*a; 8],
                        log: vec![],
                        journal: vec![],
                    };
                    // The low byte is the last one or the first.
                    let low = if order == 1 { sizes[2].max(1) - 1 } else { 0 };
                    state.unique[low as usize] = *b;
                    let [ending, ..] = check(&program, 1, &state);
                    divisions_by_zero += u64::from(ending == 33);
                    assert!(ending == 0 || ending == 33, "ending {ending} of opcode {opcode}");
                }
            }
        }
    }
    assert!(divisions_by_zero > 0, "no division by 0 was tried");
}
