//! Labels that follow the bytes, in runs, steps and windows and in the second program: each moving operation
//! with secret bytes at each place, operations that move nothing, random programs that use what was moved,
//! secret bytes that must not show, and labels that are never more secret than one for each whole output.

use std::iter::zip;

use compare::agreement::Tally;
use compare::campaign::Campaign;
use compare::inputs::{largest_value, GOOD_ORDERS, SIZES};
use compare::lists::{entry_at, plain_entry, with_varnode};
use compare::moves::{whole_label, Event, Moves, Seen, Watch, MOVES, SINKS};
use compare::programs::{Programs, INPUT1};
use compare::runs::{check_run, Case, Job};
use compare::secrets::{check_pair, labels, memory_pair};
use compare::single::{case_of, cbranch, check_left_out, check_report, check_single};
use compare::speculations::check_speculation;
use compare::wordsizes::varnodes;
use reference::answers::LentWords;
use reference::fault::{BOUNDS, LEAK, LEAK_AHEAD, LOG, ZERO};
use reference::list::Entry;
use reference::memory::{Spaces, PUBLIC, SECRET};
use reference::opcodes::{Opcode, Operation, ANY_ADDRESS_SIZE, INTEGER_OPERATIONS};
use reference::run::{Observed, BUDGET, EXIT};
use reference::varnode::{Lengths, Varnode, Wordsizes, CONSTANT, RAM, REGISTER, UNIQUE};
use reference::verdict::{Settings, END};

const RANDOM_RUNS: u64 = 280_000;
const RANDOM_SPECULATIONS: u64 = 120_000;
/// How many of the runs, and of the pairs, should have a move that leaves secret and public bytes.
const RUN_QUOTA: u64 = 200_000;
const MEMORY_PAIRS: u64 = 70_000;
const PAIR_QUOTA: u64 = 50_000;
const SINGLE_OPERATIONS: u64 = 60_000;

/// How many windows should have such a move.
const WINDOW_QUOTA: u64 = 30_000;

/// How often each move should leave secret and public bytes beside each other, and what was moved be used by
/// each operation that must find it public, where it is and where it is not.
const MOVE_QUOTA: u64 = 500;
/// How often each other event should come, and each in windows and in pairs.
const QUOTA: u64 = 200;
/// How often each use of what was moved should come in windows.
const WINDOW_USE_QUOTA: u64 = 100;

/// The lengths of the spaces for single operations.
const LENGTHS: Lengths = Lengths { unique: 40, register: 42, ram: 44 };

/// How many low bytes SUBPIECE drops: a few, and so many that as many bits would be 0 or few if they wrapped at
/// 2^32 or 2^64.
const DROPPED: [u64; 13] = [0, 1, 2, 3, 4, 5, 6, 7, 8, 9, 1 << 32, 1 << 61, u64::MAX];

/// An operation that moves bytes.
#[derive(Clone, Copy, Debug)]
struct Move {
    opcode: Opcode,
    order: u64,
    /// What is moved: of PIECE the high half, of LOAD what is loaded, of STORE what is stored.
    source: Varnode,
    /// Of PIECE the low half.
    low_half: Option<Varnode>,
    target: Varnode,
    /// How many low bytes SUBPIECE drops.
    dropped: u64,
}

impl Move {
    /// The source of the target's byte of this significance, with the significance that the byte has there, or
    /// none for zero fill.
    fn origin(&self, significance: u64) -> Option<(Varnode, u64)> {
        let (source, significance) = match (self.opcode, self.low_half) {
            (_, Some(low_half)) if significance < low_half.size => (low_half, significance),
            (_, Some(low_half)) => (self.source, significance - low_half.size),
            (Opcode::Subpiece, _) => (self.source, significance.saturating_add(self.dropped)),
            (Opcode::IntSext, _) => (self.source, significance.min(self.source.size - 1)),
            _ => (self.source, significance),
        };
        (significance < source.size).then_some((source, significance))
    }

    /// What the labels should be after the move.
    fn labels_after(&self, before: &Spaces) -> Spaces {
        let mut after = before.clone();
        for significance in 0..self.target.size {
            let origin = self.origin(significance);
            let label = match origin.filter(|(source, _)| source.space != CONSTANT) {
                Some((source, significance)) => {
                    before.part(&byte_of(self.order, &source, significance))[0]
                }
                None => PUBLIC,
            };
            after.part_mut(&byte_of(self.order, &self.target, significance)).fill(label);
        }
        after
    }

    /// Pointers are constants of the target's size.
    fn entry(&self) -> Entry {
        let [source, target] = [self.source, self.target].map(Some);
        let constant = |offset, size| Some(Varnode { space: CONSTANT, offset, size });
        let space_of = |place: Varnode| constant(place.space, 1);
        let pointer_to = |place: Varnode| constant(place.offset, self.target.size);
        let varnodes = match self.opcode {
            Opcode::Load => [target, space_of(self.source), pointer_to(self.source), None],
            Opcode::Store => [None, space_of(self.target), pointer_to(self.target), source],
            Opcode::Subpiece => [target, source, constant(self.dropped, 8), None],
            _ => [target, source, self.low_half, None],
        };
        Entry::new(self.opcode as u8, varnodes)
    }

    /// How many log words it writes.
    fn words(&self) -> u64 {
        u64::from([Opcode::Load, Opcode::Store].contains(&self.opcode))
    }

    /// The case of the move and further operations.
    fn case(&self, further: &[Entry], labels: Spaces) -> Case {
        let (order, address_size) = (self.order, self.target.size);
        let settings = Settings { order, address_size, wordsizes: Wordsizes::ONE };
        case_of(settings, &[&[self.entry()], further].concat(), memory(), labels)
    }

    /// The bytes in memory that are moved or dropped.
    fn bytes(&self) -> Vec<Varnode> {
        let sources = [Some(self.source), self.low_half].into_iter().flatten();
        sources.filter(|source| source.space != CONSTANT).flat_map(bytes_of).collect()
    }

    /// Compares the move with many choices of labels, and fails unless it leaves those expected.
    fn check(&self, tally: &mut Tally) {
        for before in choices_of_labels(&self.bytes()) {
            let expected = self.labels_after(&before);
            let case = self.case(&[], before);
            let left = check_single(&case, [END, 1, 1, self.words(), 0], tally);
            assert_eq!(labels(&left), &expected, "the labels after {self:x?}\n{case}");
        }
    }

    /// Compares it with each byte of the target as a condition after it, as run and in a window. Fails unless
    /// that leaks where the byte is secret, and else does not.
    fn check_uses(&self, tally: &mut Tally) {
        let words = self.words();
        for before in choices_of_labels(&self.bytes()) {
            let expected = self.labels_after(&before);
            for byte in bytes_of(self.target) {
                let (report, ahead) = match expected.part(&byte) {
                    [SECRET] => ([LEAK, 1, 1, words, 0], [LEAK_AHEAD, 0, 0, 1 + words, 0]),
                    _ => ([END, 2, 2, words + 1, 0], [END, 3, 1, words + 2, 0]),
                };
                let case = self.case(&[cbranch(1, byte)], before.clone());
                check_report(Job::Run, &case, report, tally);
                check_left_out(&case, 2, ahead, tally);
            }
        }
    }
}

/// The bytes of a varnode, as they stand.
fn bytes_of(varnode: Varnode) -> impl Iterator<Item = Varnode> {
    let byte = move |place| Varnode { offset: varnode.offset + place, size: 1, ..varnode };
    (0..varnode.size).map(byte)
}

/// The byte of a varnode that has so many less significant ones.
fn byte_of(order: u64, varnode: &Varnode, significance: u64) -> Varnode {
    let place = if order == 0 { significance } else { varnode.size - 1 - significance };
    Varnode { offset: varnode.offset + place, size: 1, ..*varnode }
}

/// Labels with none of the bytes secret, each alone, all but each, and all. Of the others every second byte is
/// secret, or every other second.
fn choices_of_labels(bytes: &[Varnode]) -> Vec<Spaces> {
    let mut choices = vec![];
    for labels_by_turns in [[PUBLIC, SECRET], [SECRET, PUBLIC]] {
        let mut labels = Spaces::of_lengths(&LENGTHS);
        for space in labels.all_mut() {
            zip(space, labels_by_turns.iter().cycle()).for_each(|(label, turn)| *label = *turn);
        }
        for [label, other] in [[PUBLIC, SECRET], [SECRET, PUBLIC]] {
            bytes.iter().for_each(|byte| labels.part_mut(byte).fill(label));
            choices.push(labels.clone());
            for byte in bytes {
                labels.part_mut(byte).fill(other);
                choices.push(labels.clone());
                labels.part_mut(byte).fill(label);
            }
        }
    }
    choices
}

/// Bytes that differ from each other, and are not 0 but for the first of unique.
fn memory() -> Spaces {
    let mut memory = Spaces::of_lengths(&LENGTHS);
    for (byte, number) in zip(memory.all_mut().into_iter().flatten(), 0_u8..) {
        *byte = number.wrapping_mul(37);
    }
    memory
}

/// Whether sizes of source, low half (0 for none) and target go together.
fn go_together(opcode: Opcode, source: u64, low_half: u64, target: u64) -> bool {
    match opcode {
        Opcode::Piece => low_half > 0 && source + low_half == target,
        Opcode::Subpiece => low_half == 0,
        Opcode::IntZext | Opcode::IntSext => low_half == 0 && source < target,
        _ => low_half == 0 && source == target,
    }
}

/// Each move in both byte orders, of all sizes that go together, SUBPIECE with each of `DROPPED`. Source, low
/// half and target are in these spaces.
fn all_moves(spaces: [u64; 3]) -> Vec<Move> {
    let at = |place: usize, offset, size| Varnode { space: spaces[place], offset, size };
    let mut moves = vec![];
    for (&opcode, &order) in product(&MOVES, &GOOD_ORDERS) {
        for (source, low_half, target) in triples() {
            let dropped = if opcode == Opcode::Subpiece { &DROPPED[..] } else { &[0] };
            let is_move = go_together(opcode, source, low_half, target);
            moves.extend(dropped.iter().filter(|_| is_move).map(|&dropped| Move {
                opcode,
                order,
                source: at(0, 16, source),
                low_half: (low_half > 0).then_some(at(1, 17, low_half)),
                target: at(2, 12, target),
                dropped,
            }));
        }
    }
    // PIECE and each extension have 28 pairs of sizes, SUBPIECE 64.
    assert_eq!(moves.len(), 2 * (3 * 8 + 3 * 28 + 64 * DROPPED.len()));
    moves
}

/// Each size with each of 0 to 8 and each size.
fn triples() -> impl Iterator<Item = (u64, u64, u64)> {
    SIZES.flat_map(|one| (0..=8).flat_map(move |other| SIZES.map(move |third| (one, other, third))))
}

/// Each of the one with each of the other.
fn product<'a, T, U>(one: &'a [T], other: &'a [U]) -> impl Iterator<Item = (&'a T, &'a U)> {
    one.iter().flat_map(move |one| other.iter().map(move |other| (one, other)))
}

#[test]
fn secret_bytes_at_each_place_of_what_is_moved() {
    let mut tally = Tally::default();
    for spaces in [[UNIQUE, REGISTER, RAM], [RAM, UNIQUE, REGISTER], [REGISTER, RAM, UNIQUE]] {
        all_moves(spaces).iter().for_each(|moved| moved.check(&mut tally));
    }
    tally.assert_numbers(&[END]);
    println!("labels, secret bytes at each place of what is moved: {tally}");
}

#[test]
fn each_byte_that_was_moved_as_a_condition() {
    let mut tally = Tally::default();
    all_moves([REGISTER, UNIQUE, RAM]).iter().for_each(|moved| moved.check_uses(&mut tally));
    tally.assert_numbers(&[END, LEAK, LEAK_AHEAD]);
    println!("labels, each byte that was moved as a condition: {tally}");
}

/// The same move with PIECE's low half right before the high one, and right behind it.
fn with_halves_side_by_side(moved: Move) -> Vec<Move> {
    let Move { source, low_half: Some(low_half), .. } = moved else { return vec![moved] };
    let at = |offset| Move { low_half: Some(Varnode { offset, ..low_half }), ..moved };
    vec![at(source.offset - low_half.size), at(source.offset + source.size)]
}

#[test]
fn moves_onto_what_they_move() {
    let mut tally = Tally::default();
    for moved in all_moves([UNIQUE; 3]).into_iter().flat_map(with_halves_side_by_side) {
        let bytes = moved.bytes();
        let offsets = bytes.iter().map(|byte| byte.offset);
        let ends = offsets.clone().min().zip(offsets.max());
        let (first, last) = ends.expect("bytes that are moved");
        for offset in first + 1 - moved.target.size..=last {
            let target = Varnode { offset, ..moved.target };
            Move { target, ..moved }.check(&mut tally);
        }
    }
    tally.assert_numbers(&[END]);
    println!("labels, moves onto what they move: {tally}");
}

#[test]
fn constants_are_public() {
    let mut tally = Tally::default();
    let constant =
        |place: Varnode| Varnode { space: CONSTANT, offset: largest_value(place.size), ..place };
    // LOAD has no constant but its pointer.
    let moves = all_moves([UNIQUE, REGISTER, RAM]).into_iter();
    for moved in moves.filter(|moved| moved.opcode != Opcode::Load) {
        let low_half = moved.low_half.map(constant);
        let of_constant = Move { source: constant(moved.source), ..moved };
        of_constant.check(&mut tally);
        if low_half.is_some() {
            Move { low_half, ..moved }.check(&mut tally);
            Move { low_half, ..of_constant }.check(&mut tally);
        }
    }
    tally.assert_numbers(&[END]);
    println!("labels, constants are public: {tally}");
}

/// Compares an operation that moves nothing with many choices of labels. Fails unless its output has one
/// label, or it leaks as divisions do.
fn check_whole(operation: &Operation, order: u64, entry: &Entry, tally: &mut Tally) {
    let address_size = ANY_ADDRESS_SIZE;
    let settings = Settings { order, address_size, wordsizes: Wordsizes::ONE };
    let [output, inputs @ ..] = varnodes(entry);
    let inputs = inputs.into_iter().filter(|input| input.space > CONSTANT);
    let bytes: Vec<Varnode> = inputs.flat_map(bytes_of).collect();
    for before in choices_of_labels(&bytes) {
        let is_secret = bytes.iter().any(|byte| before.part(byte) == [SECRET]);
        let leaks = operation.divides() && is_secret;
        let mut expected = before.clone();
        if !leaks {
            expected.part_mut(&output).fill(if is_secret { SECRET } else { PUBLIC });
        }
        let report = if leaks { [LEAK, 0, 0, 0, 0] } else { [END, 1, 1, 0, 0] };
        let case = case_of(settings, &[*entry], memory(), before);
        let left = check_single(&case, report, tally);
        assert_eq!(labels(&left), &expected, "the labels after {}\n{case}", operation.name);
    }
}

#[test]
fn what_moves_nothing_has_one_label() {
    let mut tally = Tally::default();
    let is_move = |operation: &Operation| MOVES.contains(&operation.opcode);
    for operation in INTEGER_OPERATIONS.iter().filter(|operation| !is_move(operation)) {
        for (sizes, &order) in product(&operation.allowed_sizes(ANY_ADDRESS_SIZE), &GOOD_ORDERS) {
            let entry = plain_entry(operation, *sizes, 0);
            check_whole(operation, order, &entry, &mut tally);
            if operation.input_count > 1 {
                // A shift by one byte, and a mask of one.
                for offset in [8, 0xff] {
                    let constant = Varnode { space: CONSTANT, offset, size: sizes.input1 };
                    let entry = with_varnode(entry, INPUT1, constant);
                    check_whole(operation, order, &entry, &mut tally);
                }
            }
        }
    }
    tally.assert_numbers(&[END, LEAK, LEAK_AHEAD]);
    println!("labels, one for the output of what moves nothing: {tally}");
}

/// Compares a run, and counts what it did with labels. Gives back its report.
fn check_watched(case: &Case, seen: &mut Seen) -> [u64; 5] {
    let mut watch = Watch::new(seen, case);
    let observer = |observed: Observed| {
        let Observed { index, written, state, .. } = observed;
        watch.count_executed(index, written, state);
    };
    let mut state = case.state.clone();
    let report = check_run(Job::Run, &case.call, &mut state, LentWords::EXACT, observer);
    let report = report.expect("a report of five words");
    watch.finish(&report);
    report
}

/// How often each event should come: each move, each use of what was moved, and each other.
fn assert_quotas(moves: &Moves, [move_quota, use_quota, quota]: [u64; 3]) {
    for opcode in MOVES.map(|opcode| opcode as u8) {
        moves.assert_quota(Event::Mixed { opcode }, move_quota);
    }
    for opcode in SINKS.map(|opcode| opcode as u8) {
        moves.assert_quota(Event::Beside { opcode }, use_quota);
        moves.assert_quota(Event::LeakAtMoved { opcode }, use_quota);
    }
    for event in [
        Event::OverlappingCopy,
        Event::SecretHalf,
        Event::ConstantHalf,
        Event::DropsSecret,
        Event::CutsSecret,
        Event::MissingBytes,
        Event::SecretTop,
        Event::PublicTop,
    ] {
        moves.assert_quota(event, quota);
    }
}

#[test]
fn random_programs() {
    const SEED: u64 = 0x5eed_0081;
    let mut campaign = Campaign::new(SEED, RANDOM_RUNS);
    let mut tally = Tally::default();
    let mut seen = Seen::default();
    for (_, random) in campaign.by_ref() {
        let case = Programs::new(random).moving_case();
        tally.count(check_watched(&case, &mut seen)[0]);
    }
    let moves = seen.runs;
    println!(
        "labelled run, random programs with moves: {campaign}, {tally}\n\
         labelled run, moves: {moves}"
    );
    if campaign.is_whole() {
        moves.assert_quota(Event::Run, RUN_QUOTA * campaign.times());
        assert_quotas(&moves, [MOVE_QUOTA, MOVE_QUOTA, QUOTA]);
    }
}

#[test]
fn random_speculations() {
    const SEED: u64 = 0x5eed_0082;
    let mut campaign = Campaign::new(SEED, RANDOM_SPECULATIONS);
    let mut tally = Tally::default();
    let mut seen = Seen::default();
    for (_, random) in campaign.by_ref() {
        let before = Programs::new(random).moving_speculation();
        let mut after = before.clone();
        let mut watch = Watch::new(&mut seen, &before.case);
        let report = check_speculation(&mut after, LentWords::EXACT, |event| watch.hear(event));
        let report = report.expect("a report of five words");
        watch.finish(&report);
        tally.count(report[0]);
    }
    let Seen { runs, windows } = seen;
    println!(
        "speculative run, random programs with moves: {campaign}, {tally}\n\
         speculative run, moves: {runs}\n\
         speculative run, moves in windows: {windows}"
    );
    if campaign.is_whole() {
        tally.assert_numbers(&[END, EXIT, BUDGET, LEAK, BOUNDS, ZERO, LOG, LEAK_AHEAD]);
        windows.assert_quota(Event::Run, WINDOW_QUOTA * campaign.times());
        assert_quotas(&windows, [QUOTA, WINDOW_USE_QUOTA, QUOTA]);
    }
}

#[test]
fn secret_bytes_do_not_show() {
    const SEED: u64 = 0x5eed_0083;
    let mut campaign = Campaign::new(SEED, MEMORY_PAIRS);
    let mut tally = Tally::default();
    let mut seen = Seen::default();
    for (_, random) in campaign.by_ref() {
        let pair = memory_pair(&mut Programs::new(random), Programs::moving_case);
        let (_, report) = check_pair(&pair);
        tally.count(report[0]);
        check_watched(&pair[0], &mut seen);
    }
    let moves = seen.runs;
    println!(
        "labelled run, pairs of memories with other secret bytes and moves: {campaign}, {tally}\n\
         labelled run, pairs, moves: {moves}"
    );
    if campaign.is_whole() {
        moves.assert_quota(Event::Run, PAIR_QUOTA * campaign.times());
        assert_quotas(&moves, [QUOTA; 3]);
    }
}

/// The labels that a step of one operation leaves, and those that it would leave if one label went for its
/// whole output.
fn labels_of_step(case: &Case) -> [Spaces; 2] {
    let Case { call, state } = case;
    let mut whole = labels(state).clone();
    let label = whole_label(&call.program, 0, &state.memory, &whole);
    let observer = |observed: Observed| {
        let written = observed.written.expect("an operation that writes");
        whole.part_mut(&written).fill(label);
    };
    let mut after = state.clone();
    let report = check_run(Job::Step, call, &mut after, LentWords::EXACT, observer);
    assert!(report.is_some(), "no report of five words on\n{case}");
    [labels(&after).clone(), whole]
}

#[test]
fn labels_are_never_more_secret_than_one_for_each_output() {
    const SEED: u64 = 0x5eed_0084;
    let mut campaign = Campaign::new(SEED, SINGLE_OPERATIONS);
    let [mut all, mut finer] = [(); 2].map(|()| Tally::default());
    for (_, random) in campaign.by_ref() {
        let case = Programs::new(random).write_case();
        let opcode = entry_at(&case.call.program.list, 0).opcode;
        let [left, whole] = labels_of_step(&case);
        let pairs = || zip(left.all(), whole.all()).flat_map(|(left, whole)| zip(left, whole));
        assert!(pairs().all(|(left, whole)| left <= whole), "more secret bytes after\n{case}");
        let is_finer = left != whole;
        let is_move = MOVES.iter().any(|&moved| moved as u8 == opcode);
        assert!(is_move || !is_finer, "no label for the whole output after\n{case}");
        all.count(opcode.into());
        if is_finer {
            finer.count(opcode.into());
        }
    }
    println!(
        "labelled step, single operations: {campaign}, by opcode {all}\n\
         labelled step, fewer secret bytes than with one label: {finer}"
    );
    if campaign.is_whole() {
        finer.assert_quota(&MOVES.map(|opcode| opcode as u64), QUOTA);
        let integers: Vec<u64> = INTEGER_OPERATIONS.iter().map(|op| op.opcode as u64).collect();
        all.assert_quota(&integers, QUOTA);
    }
}
