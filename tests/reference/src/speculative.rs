//! The speculative run: a labelled run in which, at each CBRANCH, the other way runs too, in a window
//! of at most W operations, and is undone.
//!
//! Bytes and labels are undone here by keeping them whole, and not by the journal that is lent for it.
//! Of that only what it is left with is told. The counts follow each label that this changes.

use crate::fault;
use crate::machine::{Machine, Next, State};
use crate::memory::Spaces;
use crate::run::{self, run_machine, Program};
use crate::varnode::Varnode;
use crate::verdict::{settings_hold, Report};

/// The largest W.
pub const LARGEST_WINDOW: u64 = 64;
/// How many journal words each operation of a window needs.
pub const JOURNAL_WORDS_PER_OPERATION: u64 = 4;
/// What is added to the log words of a window.
pub const WINDOW_MARK: u64 = 1 << 63;

/// W, and the journal that is lent for it, of any numbers.
#[derive(Clone, Debug, PartialEq, Eq)]
pub struct Window {
    pub operations: u64,
    pub journal: Vec<u64>,
}

impl Window {
    /// How many journal words a W in range needs.
    pub fn journal_words(&self) -> usize {
        (self.operations * JOURNAL_WORDS_PER_OPERATION) as usize
    }
}

/// Why a window is over.
#[derive(Clone, Copy, Debug, PartialEq, Eq, PartialOrd, Ord)]
pub enum Closing {
    /// W operations are done.
    Done,
    End,
    Exit,
    Bounds,
    Zero,
    LeakAhead,
    Log,
}

impl Closing {
    /// What closes a window where an operation in it is stopped.
    fn by_stop(stop: u64) -> Closing {
        match stop {
            fault::LEAK => Closing::LeakAhead,
            fault::BOUNDS => Closing::Bounds,
            fault::ZERO => Closing::Zero,
            fault::LOG => Closing::Log,
            other => panic!("{other} stops no operation"),
        }
    }

    /// Whether the right way goes on, or else the ending of the run.
    fn outcome(self) -> Result<(), u64> {
        match self {
            Closing::LeakAhead => Err(fault::LEAK_AHEAD),
            Closing::Log => Err(fault::LOG),
            _ => Ok(()),
        }
    }
}

/// What a speculative run tells its observer.
#[derive(Clone, Copy, Debug)]
pub enum Event<'a> {
    /// The other way of this CBRANCH runs from here on, with this state.
    Opened { cbranch: usize, other_way: Next, state: &'a State },
    /// This operation of the window was executed, and left this state.
    Ahead { index: usize, written: Option<Varnode>, state: &'a State },
    /// The window is over: at the operation that was stopped, or else at what would have come next.
    Closed { closing: Closing, at: Next },
    /// This operation of the run itself was executed and counted, and left this state.
    Counted { index: usize, written: Option<Varnode>, state: &'a State },
}

/// Runs a list from an index on. The state has labels.
pub fn speculative_run(
    program: &Program,
    start: u64,
    budget: u32,
    window: &mut Window,
    state: &mut State,
    mut observer: impl FnMut(Event),
) -> Report {
    if let Some(report) = refusal(program, start, window, state) {
        return report;
    }
    let journal_words = window.journal_words();
    window.journal[..journal_words].fill(0);
    run_machine(&mut program.machine(state), start as usize, budget, |machine, index, written| {
        // A CBRANCH writes no bytes, so what it looked at is still there.
        if let Some(other_way) = machine.other_way(index) {
            observer(Event::Opened { cbranch: index, other_way, state: machine.state() });
            run_window(machine, other_way, window.operations, &mut observer)?;
        }
        observer(Event::Counted { index, written, state: machine.state() });
        Ok(())
    })
}

/// The refusals in their order: 10 also for W, 11 also for the journal, then those of the labelled run.
fn refusal(program: &Program, start: u64, window: &Window, state: &State) -> Option<Report> {
    if !settings_hold(&program.settings) || window.operations > LARGEST_WINDOW {
        return Some(Report::before_a_run(fault::SETTING, 0));
    }
    if window.journal.len() < window.journal_words() {
        return Some(Report::before_a_run(fault::LENGTH, 0));
    }
    run::refusal(program, start, state)
}

/// Runs the other way of a CBRANCH and undoes its changes to bytes and labels; its log words stay. An
/// error is the ending of the run.
fn run_window(
    machine: &mut Machine,
    other_way: Next,
    operations: u64,
    observer: &mut impl FnMut(Event),
) -> Result<(), u64> {
    let State { memory, labels, .. } = machine.state();
    let before = (memory.clone(), labels.clone());
    machine.mark_log_words(WINDOW_MARK);
    let (closing, at) = go_ahead(machine, other_way, operations, observer);
    observer(Event::Closed { closing, at });
    machine.mark_log_words(0);
    undo(machine.state(), before);
    closing.outcome()
}

/// Gives bytes and labels back as they were before a window.
fn undo(state: &mut State, (memory, labels): (Spaces, Option<Spaces>)) {
    if let Some((from, to)) = state.labels.as_ref().zip(labels.as_ref()) {
        state.counts.follow_all(from, to);
    }
    (state.memory, state.labels) = (memory, labels);
}

/// Executes operations until so many are done or the window closes. CBRANCHes open no window here.
/// Gives back why it is over, and where.
fn go_ahead(
    machine: &mut Machine,
    other_way: Next,
    operations: u64,
    observer: &mut impl FnMut(Event),
) -> (Closing, Next) {
    let mut at = other_way;
    let mut done = 0;
    loop {
        let Next::Index(index) = at else {
            return (Closing::Exit, at);
        };
        if done == operations {
            return (Closing::Done, at);
        }
        if index == machine.count() {
            return (Closing::End, at);
        }
        match machine.execute(index) {
            Ok(executed) => {
                let written = executed.written;
                observer(Event::Ahead { index, written, state: machine.state() });
                at = executed.next;
            }
            Err(stop) => return (Closing::by_stop(stop), at),
        }
        done += 1;
    }
}

#[cfg(test)]
mod tests {
    use super::*;
    use crate::memory::SECRET;
    use crate::run::{BUDGET, EXIT};
    use crate::varnode::Wordsizes;
    use crate::verdict::{Settings, END, LONGEST_SPACE};

    /// What log and journal are lent with.
    const LENT: u64 = 0x7777;
    /// The last byte of unique, which is secret.
    const SECRET_PLACE: u64 = 7;

    /// COPY of a constant into a byte of unique.
    fn copy(output: u64, constant: u64) -> [u64; 5] {
        [0x11_21_01, output, constant, 0, 0]
    }

    /// LOAD of a byte of ram into the second byte of unique.
    fn load(pointer: u64) -> [u64; 5] {
        [0x11_11_21_02, 1, 4, pointer, 0]
    }

    /// The same with the pointer in a byte of unique.
    fn load_by(place: u64) -> [u64; 5] {
        [0x21_11_21_02, 1, 4, place, 0]
    }

    /// STORE of a byte of unique to unique.
    fn store(pointer: u64, data: u64) -> [u64; 5] {
        [0x21_11_11_00_03, 0, 2, pointer, data]
    }

    /// CBRANCH with a constant condition.
    fn cbranch(distance: i64, condition: u64) -> [u64; 5] {
        [0x11_11_00_05, 0, distance as u64, condition, 0]
    }

    /// CBRANCH with the condition in a byte of unique.
    fn cbranch_by(distance: i64, place: u64) -> [u64; 5] {
        [0x21_11_00_05, 0, distance as u64, place, 0]
    }

    /// CBRANCH to ram with a constant condition.
    fn cbranch_to_ram(address: u64, condition: u64) -> [u64; 5] {
        [0x11_41_00_05, 0, address, condition, 0]
    }

    /// A log word of the run, and one of a window.
    fn word(index: u64, shown: u64) -> u64 {
        (index << 32) + shown
    }

    fn ahead(index: u64, shown: u64) -> u64 {
        0x8000_0000_0000_0000 + word(index, shown)
    }

    /// A program with 1-byte addresses that count bytes.
    fn program(operations: &[[u64; 5]]) -> Program {
        let settings = Settings { order: 0, address_size: 1, wordsizes: Wordsizes::ONE };
        Program { settings, list: operations.concat() }
    }

    /// 8 bytes of unique that count up from 0, 16 of ram that count down to 0, no register, and a log.
    fn state(room: usize) -> State {
        let memory =
            Spaces { unique: (0..8).collect(), register: vec![], ram: (0..16).rev().collect() };
        let mut labels = Spaces::of_lengths(&memory.lengths());
        labels.unique[SECRET_PLACE as usize] = SECRET;
        State::labelled(memory, labels, vec![LENT; room])
    }

    fn labels(state: &mut State) -> &mut Spaces {
        state.labels.as_mut().expect("a labelled state")
    }

    /// W, and a journal of some words more than it needs.
    fn window(operations: u64) -> Window {
        let mut window = Window { operations, journal: vec![] };
        window.journal = vec![LENT; window.journal_words() + 3];
        window
    }

    /// The report of a run from index 0 on. Fails unless the journal is left as it should be.
    fn run(operations: &[[u64; 5]], budget: u32, w: u64, state: &mut State) -> [u64; 5] {
        let mut window = window(w);
        let program = program(operations);
        let report = speculative_run(&program, 0, budget, &mut window, state, |_| ());
        let (zeros, further) = window.journal.split_at(4 * w as usize);
        assert!(zeros.iter().all(|&word| word == 0));
        assert_eq!(further, [LENT; 3]);
        report.numbers()
    }

    /// The report and the log words written. Fails unless all else is left as it was.
    fn run_of_windows(operations: &[[u64; 5]], w: u64) -> ([u64; 5], Vec<u64>) {
        let before = state(100);
        let mut after = before.clone();
        let report = run(operations, 1_000, w, &mut after);
        let (written, further) = after.log.split_at(report[3] as usize);
        assert!(further.iter().all(|&word| word == LENT));
        let written = written.to_vec();
        assert_eq!(State { log: before.log.clone(), ..after }, before);
        (report, written)
    }

    /// The state of a stub that reads a table of 8 bytes in ram, at the index in the first byte of unique.
    /// The bytes behind the table are another widget's, and secret.
    fn table_state(index: u8) -> State {
        let mut state = state(4);
        state.memory.unique[0] = index;
        labels(&mut state).ram[8..].fill(SECRET);
        state
    }

    #[test]
    fn a_load_ahead_of_its_bounds_check_leaks_ahead() {
        let stub = [
            // INT_LESSEQUAL of 8 and the index, a CBRANCH to the end, and two LOADs.
            [0x21_11_21_11, 2, 8, 0, 0],
            cbranch_by(3, 2),
            load_by(0),
            load_by(1),
        ];
        // Beyond the table: the secret byte at 8 would be the second pointer.
        for w in 2..=64 {
            let mut after = table_state(8);
            assert_eq!(run(&stub, 9, w, &mut after), [fault::LEAK_AHEAD, 1, 1, 2, 0]);
            assert_eq!(after.log, [word(1, 1), ahead(2, 8), LENT, LENT]);
            assert_eq!(after.memory.unique, [8, 1, 1, 3, 4, 5, 6, 7]);
            assert_eq!(after.labels, table_state(8).labels);
        }
        let mut after = table_state(8);
        assert_eq!(run(&stub, 9, 1, &mut after), [END, 4, 2, 2, 0]);
        assert_eq!(after.log, [word(1, 1), ahead(2, 8), LENT, LENT]);
        let mut after = table_state(8);
        assert_eq!(run(&stub, 9, 0, &mut after), [END, 4, 2, 1, 0]);
        // Within the table, the other way is the end.
        let mut after = table_state(7);
        assert_eq!(run(&stub, 9, 64, &mut after), [END, 4, 4, 3, 0]);
        assert_eq!(after.log, [word(1, 0), word(2, 7), word(3, 8), LENT]);
    }

    #[test]
    fn a_mask_in_the_place_of_the_branch_does_not_leak() {
        // INT_AND of the index and 7.
        let stub = [[0x11_21_21_1d, 2, 0, 7, 0], load_by(2), load_by(1)];
        for (index, offset) in [(7, 7), (8, 0), (0xff, 7)] {
            let mut after = table_state(index);
            assert_eq!(run(&stub, 9, 64, &mut after), [END, 3, 3, 2, 0]);
            assert_eq!(after.log, [word(1, offset), word(2, 15 - offset), LENT, LENT]);
        }
    }

    #[test]
    fn reading_16_window_operations_are_logged_and_not_counted() {
        let list = [cbranch(3, 1), load(5), load(6), copy(2, 9)];
        for (w, words) in [(0, 1), (1, 2), (2, 3), (3, 3), (64, 3)] {
            let mut after = state(9);
            assert_eq!(run(&list, 2, w, &mut after), [END, 4, 2, words, 0]);
            let log = [word(0, 1), ahead(1, 5), ahead(2, 6)];
            assert_eq!(after.log[..words as usize], log[..words as usize]);
            assert_eq!(after.memory.unique, [0, 1, 9, 3, 4, 5, 6, 7]);
        }
    }

    #[test]
    fn a_window_of_w_operations_ends_before_the_next_is_looked_at() {
        // Behind the CBRANCH are k COPYs and a LOAD with a secret pointer.
        for k in 0..=64 {
            let mut list = vec![cbranch(k + 2, 1)];
            list.resize(k as usize + 1, copy(0, 9));
            list.push(load_by(SECRET_PLACE));
            for w in 0..=64 {
                let expected = if w <= k as u64 {
                    [END, k as u64 + 2, 1, 1, 0]
                } else {
                    [fault::LEAK_AHEAD, 0, 0, 1, 0]
                };
                assert_eq!(run_of_windows(&list, w), (expected, vec![word(0, 1)]));
            }
        }
    }

    #[test]
    fn leak_ahead_looks_at_what_leak_looks_at() {
        let mut operations = vec![
            load_by(SECRET_PLACE),
            [0x21_21_11_00_03, 0, 4, SECRET_PLACE, 0],
            cbranch_by(1, SECRET_PLACE),
        ];
        operations.extend([6, 8, 9].map(|opcode| [0x21_00_00 + opcode, 0, SECRET_PLACE, 0, 0]));
        for opcode in 0x23..=0x26 {
            operations.push([0x21_11_21_00 + opcode, 0, 9, SECRET_PLACE, 0]);
            operations.push([0x11_21_21_00 + opcode, 0, SECRET_PLACE, 9, 0]);
            operations.push([0x11_21_21_00 + opcode, 0, SECRET_PLACE, 0, 0]);
        }
        for operation in operations {
            let (report, log) = run_of_windows(&[copy(0, 0), cbranch(2, 1), operation], 1);
            assert_eq!(report, [fault::LEAK_AHEAD, 1, 1, 1, 0]);
            assert_eq!(log, [word(1, 1)]);
        }
    }

    #[test]
    fn end_exit_bounds_and_zero_close_a_window() {
        let log_of = |operation| {
            // What would come after it in the window, where the right way goes on, is a LOAD.
            let list = [cbranch(3, 1), operation, load(5), copy(0, 0)];
            let (report, log) = run_of_windows(&list, 64);
            assert_eq!(report, [END, 4, 2, log.len() as u64, 0]);
            log
        };
        let branch_to_the_end = [0x11_00_04, 0, 3, 0, 0];
        let branch_to_ram = [0x41_00_04, 0, 0, 0, 0];
        let call_of_ram = [0x41_00_07, 0, 0, 0, 0];
        let [branchind, callind, to_caller] =
            [6, 8, 9].map(|opcode| [0x11_00_00 + opcode, 0, 0, 0, 0]);
        let [bounds, zero] = [load(16), [0x11_11_21_23, 0, 9, 0, 0]];
        for operation in [branch_to_the_end, branch_to_ram, call_of_ram, branchind, callind] {
            assert_eq!(log_of(operation), [word(0, 1)]);
        }
        for operation in [to_caller, bounds, zero] {
            assert_eq!(log_of(operation), [word(0, 1)]);
        }
        assert_eq!(log_of(load(15)), [word(0, 1), ahead(1, 15), ahead(2, 5)]);
        // A CBRANCH that exits writes its word.
        assert_eq!(log_of(cbranch_to_ram(0, 1)), [word(0, 1), ahead(1, 1)]);
        assert_eq!(log_of(cbranch_to_ram(0, 0)), [word(0, 1), ahead(1, 0), ahead(2, 5)]);
    }

    #[test]
    fn cbranches_inside_follow_their_condition_and_open_no_window() {
        let list = [cbranch(6, 1), copy(0, 1), cbranch_by(2, 0), load(3), load(4), load(5)];
        let taken = [word(0, 1), ahead(2, 1), ahead(4, 4), ahead(5, 5)];
        assert_eq!(run_of_windows(&list, 64), ([END, 6, 1, 4, 0], taken.to_vec()));
        let list = [cbranch(6, 1), copy(1, 0), cbranch_by(2, 1), load(3), load(4), load(5)];
        let not_taken = [word(0, 1), ahead(2, 0), ahead(3, 3), ahead(4, 4), ahead(5, 5)];
        assert_eq!(run_of_windows(&list, 64), ([END, 6, 1, 5, 0], not_taken.to_vec()));
        // One that goes back, for as long as the window is.
        let list = [cbranch(3, 1), load(2), cbranch(-1, 1)];
        for w in 0..=64 {
            let (report, log) = run_of_windows(&list, w);
            assert_eq!(report, [END, 3, 1, 1 + w, 0]);
            let turns = (0..w).map(|at| [ahead(1, 2), ahead(2, 1)][at as usize % 2]);
            assert_eq!(log, [word(0, 1)].into_iter().chain(turns).collect::<Vec<u64>>());
        }
    }

    #[test]
    fn every_window_is_undone() {
        let list = [
            cbranch_by(8, 1),
            // Over the condition, which is secret then.
            store(1, SECRET_PLACE),
            // Over its own input: COPY of 2 bytes within unique, from 2 to 3.
            [0x22_22_01, 3, 2, 0, 0],
            // Over bytes that the window wrote, twice, and over a secret one.
            copy(3, 0x0a),
            copy(3, 0x0b),
            store(4, 3),
            copy(SECRET_PLACE, 0x0c),
            // What the window reads is what it wrote.
            load_by(4),
        ];
        let log = vec![word(0, 1), ahead(1, 1), ahead(5, 4), ahead(7, 0x0b)];
        for w in 7..=64 {
            assert_eq!(run_of_windows(&list, w), ([END, 8, 1, 4, 0], log.clone()));
        }
        for w in 0..7 {
            let words = [1, 2, 2, 2, 2, 3, 3][w];
            let report = [END, 8, 1, words as u64, 0];
            assert_eq!(run_of_windows(&list, w as u64), (report, log[..words].to_vec()));
        }
    }

    #[test]
    fn labels_follow_the_bytes_ahead_and_are_undone() {
        // COPY of the last two bytes of unique to bytes 2 and 3, and a LOAD by one of them.
        let copy = [0x22_22_01, 2, SECRET_PLACE - 1, 0, 0];
        let of_public = ([END, 3, 1, 2, 0], vec![word(0, 1), ahead(2, 6)]);
        assert_eq!(run_of_windows(&[cbranch(3, 1), copy, load_by(2)], 64), of_public);
        let of_secret = ([fault::LEAK_AHEAD, 0, 0, 1, 0], vec![word(0, 1)]);
        assert_eq!(run_of_windows(&[cbranch(3, 1), copy, load_by(3)], 64), of_secret);
    }

    #[test]
    fn reading_22_counts_are_undone_with_the_labels() {
        // A window that makes byte 0 secret and byte 7 public, twice each, and then ends as its last operation says.
        let ahead_of = |last| {
            let there = store(0, SECRET_PLACE);
            vec![cbranch(6, 1), there, there, copy(7, 0), copy(7, 0), last]
        };
        let other = [0xffff_ffff_ffff_ffff, 0, 0x1234];
        for (last, room, ending) in [
            (copy(1, 0), 9, END),
            (load(16), 9, END),
            (load_by(0), 9, fault::LEAK_AHEAD),
            (load(0), 3, fault::LOG),
        ] {
            for w in [4, 5, 64] {
                for words in [vec![1, 1], other.to_vec()] {
                    let mut after = state(room);
                    after.counts.unique = words.clone();
                    let found = run(&ahead_of(last), 9, w, &mut after)[0];
                    assert_eq!(found, if w == 4 { END } else { ending });
                    assert_eq!(after.counts.unique, words);
                }
            }
        }
    }

    #[test]
    fn counts_before_and_after_a_window_are_those_of_the_run() {
        // Byte 0 becomes secret, the window makes byte 1 secret, and the right way byte 2.
        let list = [store(0, SECRET_PLACE), cbranch(2, 1), store(1, 0), store(2, 0)];
        let mut after = state(9);
        assert_eq!(after.counts.unique, [1, 1]);
        assert_eq!(run(&list, 9, 9, &mut after), [END, 4, 3, 5, 0]);
        assert_eq!(after.counts.unique, [3, 3]);
        // The room ends in the window: of the run only what came before the CBRANCH is left.
        let mut after = state(2);
        assert_eq!(run(&list, 9, 9, &mut after), [fault::LOG, 1, 1, 2, 0]);
        assert_eq!(after.counts.unique, [2, 2]);
    }

    #[test]
    fn each_cbranch_of_the_right_way_has_a_window() {
        // Three rounds with the counter as pointer. Where a round is the last, its other way is one more.
        let list = [copy(0, 3), load_by(0), [0x11_21_21_16, 0, 0, 1, 0], cbranch_by(-2, 0)];
        let log = [
            word(1, 3),
            word(3, 1),
            word(1, 2),
            word(3, 1),
            word(1, 1),
            word(3, 0),
            ahead(1, 0),
            ahead(3, 1),
        ];
        // The counter is 255 then, which is out of bounds.
        for (w, words) in [(0, 6), (1, 7), (2, 7), (3, 8), (4, 8), (64, 8)] {
            let mut after = state(9);
            assert_eq!(run(&list, 99, w, &mut after), [END, 4, 10, words, 0]);
            assert_eq!(after.log[..words as usize], log[..words as usize]);
            assert_eq!(after.memory.unique, [0, 14, 2, 3, 4, 5, 6, 7]);
        }
    }

    #[test]
    fn reading_17_ways_out_of_the_list() {
        let list = [cbranch_to_ram(9, 1), load(2), load_by(SECRET_PLACE)];
        let words = [word(0, 1), ahead(1, 2)];
        assert_eq!(run_of_windows(&list, 0), ([EXIT, 0, 1, 1, 9], words[..1].to_vec()));
        assert_eq!(run_of_windows(&list, 1), ([EXIT, 0, 1, 2, 9], words.to_vec()));
        assert_eq!(run_of_windows(&list, 2), ([fault::LEAK_AHEAD, 0, 0, 2, 0], words.to_vec()));
        // The other way is an address in ram, then the end by the destination, then the end as what comes
        // after the last operation.
        let list = [cbranch_to_ram(9, 0), cbranch(2, 0), cbranch(1, 1)];
        let log = vec![word(0, 0), word(1, 0), word(2, 1)];
        assert_eq!(run_of_windows(&list, 64), ([END, 3, 3, 3, 0], log));
    }

    #[test]
    fn reading_17_both_ways_the_same_index() {
        for condition in [0, 1] {
            let list = [cbranch(1, condition), copy(0, 0), copy(1, 1), load_by(2)];
            let mut after = state(9);
            assert_eq!(run(&list, 9, 64, &mut after), [END, 4, 4, 3, 0]);
            assert_eq!(after.log[..4], [word(0, condition), ahead(3, 2), word(3, 2), LENT]);
        }
    }

    #[test]
    fn reading_17_a_budget_that_ends_at_a_cbranch() {
        let list = [cbranch(3, 1), load(2), load_by(SECRET_PLACE), copy(0, 0)];
        for (budget, w, report) in [
            (0, 64, [BUDGET, 0, 0, 0, 0]),
            (1, 0, [BUDGET, 3, 1, 1, 0]),
            (1, 1, [BUDGET, 3, 1, 2, 0]),
            (1, 2, [fault::LEAK_AHEAD, 0, 0, 2, 0]),
        ] {
            assert_eq!(run(&list, budget, w, &mut state(9)), report);
        }
    }

    #[test]
    fn reading_18_checks_inside_in_their_order() {
        let ending = |operation, room| {
            let mut after = state(room);
            after.memory.unique[SECRET_PLACE as usize] = 16;
            let report = run(&[cbranch(2, 1), operation], 9, 64, &mut after);
            assert_eq!(report[3], room as u64);
            report[0]
        };
        // The log is full: LEAK, then BOUNDS, which closes the window, then LOG.
        assert_eq!(ending(load_by(SECRET_PLACE), 1), fault::LEAK_AHEAD);
        assert_eq!(ending(load(16), 1), END);
        assert_eq!(ending(load(15), 1), fault::LOG);
        assert_eq!(ending(load(15), 2), END);
        // A CBRANCH that exits.
        assert_eq!(ending(cbranch_to_ram(0, 1), 1), fault::LOG);
        assert_eq!(ending(cbranch_to_ram(0, 1), 2), END);
    }

    #[test]
    fn reading_19_a_full_log() {
        let list = [copy(0, 0), cbranch(4, 1), copy(0, 9), load(2), load(3), load(4)];
        let log = [word(1, 1), ahead(3, 2), ahead(4, 3), word(5, 4)];
        for room in 0..=4 {
            let before = state(room);
            let mut after = before.clone();
            let report = run(&list, 9, 3, &mut after);
            let words = room as u64;
            // At its own word, at each of the window's two, at one that comes after the window, nowhere.
            let expected = match room {
                0..=2 => [fault::LOG, 1, 1, words, 0],
                3 => [fault::LOG, 5, 2, 3, 0],
                _ => [END, 6, 3, 4, 0],
            };
            assert_eq!(report, expected);
            assert_eq!(after.log, log[..room]);
            if report[0] == fault::LOG {
                assert_eq!((after.memory, after.labels), (before.memory, before.labels));
            }
        }
    }

    #[test]
    fn reading_20_the_journal_after_a_run() {
        // Each ending, without a window but for the last: `run` looks at the journal.
        let endings = [
            (vec![], END),
            (vec![cbranch_to_ram(0, 1)], EXIT),
            (vec![copy(0, 0); 3], BUDGET),
            (vec![load_by(SECRET_PLACE)], fault::LEAK),
            (vec![load(16)], fault::BOUNDS),
            (vec![[0x11_11_21_23, 0, 9, 0, 0]], fault::ZERO),
            (vec![load(0), load(0)], fault::LOG),
            (vec![cbranch(2, 1), load_by(SECRET_PLACE)], fault::LEAK_AHEAD),
        ];
        for (list, ending) in endings {
            for w in [0, 1, 63, 64] {
                let expected = if w == 0 && ending == fault::LEAK_AHEAD { END } else { ending };
                assert_eq!(run(&list, 2, w, &mut state(1))[0], expected);
            }
        }
    }

    /// The ending of a call that is refused, and leaves everything as it was.
    fn refused(program: &Program, start: u64, window: &Window, state: &State) -> u64 {
        let mut after = (window.clone(), state.clone());
        let report = speculative_run(program, start, 9, &mut after.0, &mut after.1, |_| ());
        assert_eq!((&after.0, &after.1), (window, state));
        assert_eq!(report.numbers()[1..], [0; 4]);
        report.ending
    }

    #[test]
    fn refusals_in_their_order() {
        let mut program = program(&[cbranch(9, 1)]);
        program.settings.order = 2;
        let mut state = state(9);
        labels(&mut state).unique = vec![2; 9];
        let mut window = Window { operations: 65, journal: vec![LENT; 3] };
        assert_eq!(refused(&program, 9, &window, &state), fault::SETTING);
        program.settings.order = 1;
        assert_eq!(refused(&program, 9, &window, &state), fault::SETTING);
        window.operations = 1;
        assert_eq!(refused(&program, 9, &window, &state), fault::LENGTH);
        labels(&mut state).unique = vec![2; 8];
        assert_eq!(refused(&program, 9, &window, &state), fault::LENGTH);
        window.journal.push(LENT);
        assert_eq!(refused(&program, 9, &window, &state), fault::LABEL);
        labels(&mut state).unique.push(2);
        assert_eq!(refused(&program, 9, &window, &state), fault::LENGTH);
        labels(&mut state).unique = vec![0; 8];
        assert_eq!(refused(&program, 9, &window, &state), fault::TARGET);
        program.list = cbranch(1, 1).to_vec();
        assert_eq!(refused(&program, 9, &window, &state), fault::START);
        state.counts.register.clear();
        assert_eq!(refused(&program, 9, &window, &state), fault::LENGTH);
        labels(&mut state).unique[0] = 2;
        assert_eq!(refused(&program, 9, &window, &state), fault::LENGTH);
        window.operations = 65;
        assert_eq!(refused(&program, 9, &window, &state), fault::SETTING);
        window.operations = 1;
        state.counts.register = vec![LENT];
        assert_eq!(refused(&program, 9, &window, &state), fault::LABEL);
        state.memory.ram.resize(LONGEST_SPACE as usize + 1, 0);
        assert_eq!(refused(&program, 9, &window, &state), fault::LENGTH);
    }

    #[test]
    fn every_w_with_journals_around_4_w_words() {
        let program = program(&[cbranch(1, 1)]);
        let lent = |operations, words| Window { operations, journal: vec![LENT; words] };
        for operations in 0..=64 {
            let needed = 4 * operations as usize;
            for words in needed..needed + 5 {
                let mut window = lent(operations, words);
                let report = speculative_run(&program, 0, 9, &mut window, &mut state(1), |_| ());
                assert_eq!(report.numbers(), [END, 1, 1, 1, 0]);
            }
            for words in (0..needed).rev().take(5).chain((operations > 0).then_some(0)) {
                assert_eq!(
                    refused(&program, 0, &lent(operations, words), &state(1)),
                    fault::LENGTH
                );
            }
        }
        for operations in [65, 66, 128, 1 << 32, 1 << 62, (1 << 62) + 1, 1 << 63, u64::MAX] {
            for words in [0, 4, 4 * 65, 4 * 128] {
                assert_eq!(
                    refused(&program, 0, &lent(operations, words), &state(1)),
                    fault::SETTING
                );
            }
        }
    }

    /// A list with windows of every kind, whose own log words are six and which ends.
    fn many_windows() -> Program {
        program(&[
            copy(0, 2),
            cbranch_by(2, 3),
            store(0, 5),
            [0x11_21_21_16, 0, 0, 1, 0],
            store(1, 0),
            cbranch_by(-4, 0),
            cbranch_to_ram(0, 0),
        ])
    }

    #[test]
    fn it_is_the_labelled_run_marked_words_aside() {
        let mut labelled = state(99);
        let labelled_report = run::run(&many_windows(), 0, 99, &mut labelled);
        for w in 0..=64 {
            let mut after = state(99);
            let report =
                speculative_run(&many_windows(), 0, 99, &mut window(w), &mut after, |_| ());
            let (written, further) = after.log.split_at(report.log_words as usize);
            let own: Vec<u64> = written.iter().copied().filter(|word| *word < 1 << 63).collect();
            assert_eq!(Report { log_words: own.len() as u64, ..report }, labelled_report);
            assert_eq!(own, labelled.log[..own.len()]);
            assert_eq!(own.len() == written.len(), w == 0);
            assert!(further.iter().all(|&word| word == LENT));
            assert_eq!(State { log: vec![], ..after }, State { log: vec![], ..labelled.clone() });
        }
    }

    #[test]
    fn a_run_resumed_is_one_run() {
        let program = many_windows();
        let mut whole = (state(99), window(5));
        let one_run = speculative_run(&program, 0, 99, &mut whole.1, &mut whole.0, |_| ());
        for budget in 0..one_run.executed as u32 {
            let mut parts = (state(99), window(5));
            let first = speculative_run(&program, 0, budget, &mut parts.1, &mut parts.0, |_| ());
            assert_eq!(first.ending, BUDGET);
            let written: Vec<u64> = parts.0.log.drain(..first.log_words as usize).collect();
            let start = first.index;
            let second =
                speculative_run(&program, start, 99 - budget, &mut parts.1, &mut parts.0, |_| ());
            parts.0.log.splice(0..0, written);
            assert_eq!(parts, whole);
            assert_eq!([second.ending, second.index], [one_run.ending, one_run.index]);
            assert_eq!(first.executed + second.executed, one_run.executed);
            assert_eq!(first.log_words + second.log_words, one_run.log_words);
        }
    }

    #[test]
    fn the_observer_hears_of_each_window() {
        let list = [cbranch(3, 1), copy(0, 9), load(16), cbranch(1, 0), copy(2, 8)];
        let mut heard = Vec::new();
        let offset = |written: Option<Varnode>| written.map(|written| written.offset);
        let observer = |event: Event| {
            heard.push(match event {
                Event::Opened { cbranch, other_way, .. } => format!("{cbranch}: {other_way:?}"),
                Event::Ahead { index, written, state } => {
                    format!("{index}: {:?}, {:?}", offset(written), &state.memory.unique[..3])
                }
                Event::Closed { closing, at } => format!("{closing:?} {at:?}"),
                Event::Counted { index, written, state } => {
                    format!("{index} {:?}, {:?}", offset(written), &state.memory.unique[..3])
                }
            });
        };
        speculative_run(&program(&list), 0, 9, &mut window(9), &mut state(9), observer);
        let expected = [
            "0: Index(1)",
            "1: Some(0), [9, 1, 2]",
            "Bounds Index(2)",
            "0 None, [0, 1, 2]",
            "3: Index(4)",
            "4: Some(2), [0, 1, 8]",
            "End Index(5)",
            "3 None, [0, 1, 2]",
            "4 Some(2), [0, 1, 8]",
        ];
        assert_eq!(heard, expected);
    }
}
