//! What labelled runs did with labels that follow the bytes, counted, so that a test can ask for enough of
//! each.

use std::collections::BTreeSet;
use std::iter::zip;

use reference::bytes::ByteOrder;
use reference::fault::LEAK;
use reference::labels::labels_of;
use reference::list::Entry;
use reference::machine::{Next, State};
use reference::memory::{is_secret, Spaces, PUBLIC, SECRET};
use reference::opcodes::{Opcode, Operation};
use reference::run::Program;
use reference::speculative::{self, Closing};
use reference::varnode::{Varnode, CONSTANT};

use crate::counts::Counts;
use crate::lists::entry_at;
use crate::runs::Case;
use crate::secrets::labels;
use crate::windows::{any_within, bytes_of, bytes_read, varnodes_read, Byte};
use crate::wordsizes::{varnodes, Access};

/// The operations that move bytes, and labels with them.
pub const MOVES: [Opcode; 7] = [
    Opcode::Copy,
    Opcode::Load,
    Opcode::Store,
    Opcode::Piece,
    Opcode::Subpiece,
    Opcode::IntZext,
    Opcode::IntSext,
];

/// The operations that must find something public.
pub const SINKS: [Opcode; 10] = [
    Opcode::Load,
    Opcode::Store,
    Opcode::Cbranch,
    Opcode::BranchInd,
    Opcode::CallInd,
    Opcode::Return,
    Opcode::IntDiv,
    Opcode::IntRem,
    Opcode::IntSdiv,
    Opcode::IntSrem,
];

/// What can happen to labels in a run, or in a window.
#[derive(Clone, Copy, Debug, PartialEq, Eq, PartialOrd, Ord)]
pub enum Event {
    /// A run, or a window, with a move that is `Mixed`.
    Run,
    /// A move that leaves secret bytes and public ones beside each other.
    Mixed { opcode: u8 },
    /// A COPY that does, over a part of its input.
    OverlappingCopy,
    /// PIECE of a secret half and a public one, both in memory.
    SecretHalf,
    /// PIECE of a constant and a half with a secret byte.
    ConstantHalf,
    /// SUBPIECE that drops a secret byte.
    DropsSecret,
    /// SUBPIECE that has no room for a secret high byte.
    CutsSecret,
    /// SUBPIECE of a secret byte or more, with missing high bytes.
    MissingBytes,
    /// INT_SEXT of a secret top byte and a public one below it.
    SecretTop,
    /// INT_SEXT of a public top byte and a secret one below it.
    PublicTop,
    /// The first operation executed that must find something public, finds it so, and would not if one label
    /// went for each whole output.
    Beside { opcode: u8 },
    /// LEAK at a secret byte that a `Mixed` move left.
    LeakAtMoved { opcode: u8 },
}

/// How often each event came.
pub type Moves = Counts<Event>;

/// What was counted of runs, and of their windows.
#[derive(Default)]
pub struct Seen {
    pub runs: Moves,
    pub windows: Moves,
}

/// Counts what one run does, from what its observer hears.
pub struct Watch<'a> {
    seen: &'a mut Seen,
    program: &'a Program,
    now: Followed,
    /// What was before the window that is open.
    before_window: Option<Followed>,
}

/// What is before an operation.
#[derive(Clone)]
struct Followed {
    memory: Spaces,
    labels: Spaces,
    /// The labels, if one went for each whole output.
    whole: Spaces,
    /// The secret bytes that `Mixed` moves left.
    moved: BTreeSet<Byte>,
    /// What counts once came.
    is_run: bool,
    is_beside: bool,
}

impl<'a> Watch<'a> {
    /// A watch for a labelled run, as it is before it runs.
    pub fn new(seen: &'a mut Seen, case: &'a Case) -> Watch<'a> {
        let labels = labels(&case.state);
        let now = Followed {
            memory: case.state.memory.clone(),
            labels: labels.clone(),
            whole: labels.clone(),
            moved: BTreeSet::new(),
            is_run: false,
            is_beside: false,
        };
        Watch { seen, program: &case.call.program, now, before_window: None }
    }

    /// What the observer of a speculative run hears.
    pub fn hear(&mut self, event: speculative::Event) {
        use speculative::Event::{Ahead, Closed, Counted, Opened};
        match event {
            Opened { .. } => {
                self.before_window = Some(self.now.clone());
                self.now.is_run = false;
            }
            Ahead { index, written, state } | Counted { index, written, state } => {
                self.count_executed(index, written, state);
            }
            Closed { closing, at } => {
                if let (Closing::LeakAhead, Next::Index(index)) = (closing, at) {
                    self.count_leak(index);
                }
                self.now = self.before_window.take().expect("an open window");
            }
        }
    }

    /// Counts how the run ended.
    pub fn finish(mut self, report: &[u64; 5]) {
        let [ending, index, ..] = *report;
        if ending == LEAK {
            self.count_leak(index as usize);
        }
    }

    /// Counts an operation that was executed, and left this state.
    pub fn count_executed(&mut self, index: usize, written: Option<Varnode>, after: &State) {
        let entry = entry_at(&self.program.list, index);
        let opcode = entry.opcode;
        let now = &self.now;
        let is_beside = must_be_public(&entry).iter().any(|needed| is_secret(&now.whole, needed));
        let mut events = vec![(is_beside && !now.is_beside, Event::Beside { opcode })];
        self.now.is_beside |= is_beside;
        if let Some(written) = written {
            let is_mixed = is_mixed(&entry, labels(after).part(&written));
            events.extend([
                (is_mixed && !self.now.is_run, Event::Run),
                (is_mixed, Event::Mixed { opcode }),
            ]);
            self.now.is_run |= is_mixed;
            events.extend(self.events_of_move(&entry, &written, is_mixed));
            self.follow(index, &written, is_mixed, after);
        }
        self.counts().add_those_that_came(events);
    }

    fn count_leak(&mut self, index: usize) {
        let entry = entry_at(&self.program.list, index);
        let opcode = entry.opcode;
        let needed = must_be_public(&entry);
        let is_moved = needed.iter().any(|needed| any_within(&self.now.moved, needed));
        self.counts().add_those_that_came([(is_moved, Event::LeakAtMoved { opcode })]);
    }

    fn counts(&mut self) -> &mut Moves {
        match self.before_window {
            None => &mut self.seen.runs,
            Some(_) => &mut self.seen.windows,
        }
    }

    /// What a move counts for besides `Mixed`, and whether it does.
    fn events_of_move(
        &self,
        entry: &Entry,
        written: &Varnode,
        is_mixed: bool,
    ) -> Vec<(bool, Event)> {
        let order = ByteOrder::with_number(self.program.settings.order);
        let order = order.expect("a run with good settings");
        let of = |varnode| labels_of(order, &self.now.labels, &varnode);
        let [_, input0, input1, _] = varnodes(entry);
        let is = |opcode| entry.opcode == opcode as u8;
        if is(Opcode::Copy) {
            let overlaps = any_within(&bytes_read(entry), written) && input0 != *written;
            return vec![(is_mixed && overlaps, Event::OverlappingCopy)];
        }
        if is(Opcode::Piece) {
            let halves = [input0, input1];
            let constants = halves.iter().filter(|half| half.space == CONSTANT).count();
            let is_all = |label| halves.iter().any(|half| of(*half).iter().all(|&is| is == label));
            let is_any = halves.iter().any(|half| is_secret(&self.now.labels, half));
            return vec![
                (constants == 0 && is_all(SECRET) && is_all(PUBLIC), Event::SecretHalf),
                (constants == 1 && is_any, Event::ConstantHalf),
            ];
        }
        if is(Opcode::Subpiece) {
            let labels = of(input0);
            let (dropped, rest) = labels.split_at(labels.len().min(input1.offset as usize));
            let room = written.size as usize;
            return vec![
                (dropped.contains(&SECRET), Event::DropsSecret),
                (rest.iter().skip(room).any(|&label| label == SECRET), Event::CutsSecret),
                (rest.len() < room && labels.contains(&SECRET), Event::MissingBytes),
            ];
        }
        if is(Opcode::IntSext) {
            let labels = of(input0);
            let (&top, below) = labels.split_last().expect("a varnode has a byte");
            return vec![
                (top == SECRET && below.contains(&PUBLIC), Event::SecretTop),
                (top == PUBLIC && below.contains(&SECRET), Event::PublicTop),
            ];
        }
        vec![]
    }

    /// Follows a write.
    fn follow(&mut self, index: usize, written: &Varnode, is_mixed: bool, after: &State) {
        let now = &mut self.now;
        let whole = whole_label(self.program, index, &now.memory, &now.whole);
        now.whole.part_mut(written).fill(whole);
        let left = labels(after).part(written);
        for (byte, &label) in zip(bytes_of(written), left) {
            now.moved.remove(&byte);
            now.moved.extend((is_mixed && label == SECRET).then_some(byte));
        }
        now.memory.part_mut(written).copy_from_slice(after.memory.part(written));
        now.labels.part_mut(written).copy_from_slice(left);
    }
}

/// Whether a move left these labels, of which some are secret and others public.
fn is_mixed(entry: &Entry, left: &[u8]) -> bool {
    let is_move = MOVES.iter().any(|&opcode| opcode as u8 == entry.opcode);
    is_move && left.contains(&SECRET) && left.contains(&PUBLIC)
}

/// The label of all that an operation writes, if one went for the whole output: secret if any byte that the
/// operation reads or loads is secret.
pub fn whole_label(program: &Program, index: usize, memory: &Spaces, labels: &Spaces) -> u8 {
    let entry = entry_at(&program.list, index);
    let access = Access::at(program, memory, index);
    let loaded = access.filter(|access| access.opcode == Opcode::Load);
    let loaded = loaded.map(|access| access.place(&program.settings, memory));
    let mut read = varnodes_read(&entry).chain(loaded);
    if read.any(|varnode| is_secret(labels, &varnode)) {
        SECRET
    } else {
        PUBLIC
    }
}

/// The varnodes in memory that an operation must find public.
fn must_be_public(entry: &Entry) -> Vec<Varnode> {
    let [_, input0, input1, _] = varnodes(entry);
    let operation = Operation::with_number(u64::from(entry.opcode));
    let operation = operation.expect("a list that keeps every rule");
    let needed = match operation.opcode {
        Opcode::Load | Opcode::Store | Opcode::Cbranch => vec![input1],
        Opcode::BranchInd | Opcode::CallInd | Opcode::Return => vec![input0],
        _ if operation.divides() => vec![input0, input1],
        _ => vec![],
    };
    needed.into_iter().filter(|varnode| varnode.space != CONSTANT).collect()
}

#[cfg(test)]
mod tests {
    use super::*;
    use reference::answers::RunCall;
    use reference::run::{observed_run, Observed};
    use reference::speculative::{speculative_run, Window};
    use reference::varnode::Wordsizes;
    use reference::verdict::Settings;

    /// COPY of the first two bytes of unique, of which the second is secret, to bytes 8 and 9.
    const COPY: [u64; 5] = [0x22_22_01, 8, 0, 0, 0];

    /// LOAD with the pointer in a byte of unique.
    fn load_by(place: u64) -> [u64; 5] {
        [0x21_11_21_02, 15, 2, place, 0]
    }

    /// 16 bytes of unique, of which byte 1 and bytes 4 to 7 are secret.
    fn case(operations: &[[u64; 5]]) -> Case {
        let settings = Settings { order: 0, address_size: 1, wordsizes: Wordsizes::ONE };
        let program = Program { settings, list: operations.concat() };
        let memory = Spaces { unique: (0..16).collect(), register: vec![], ram: vec![] };
        let mut labels = Spaces::of_lengths(&memory.lengths());
        [1, 4, 5, 6, 7].into_iter().for_each(|place| labels.unique[place] = SECRET);
        let state = State::labelled(memory, labels, vec![0; 9]);
        Case { call: RunCall { program, start: 0, budget: 9 }, state }
    }

    /// What a labelled run counts for.
    fn events(operations: &[[u64; 5]]) -> Vec<Event> {
        let before = case(operations);
        let mut seen = Seen::default();
        let mut watch = Watch::new(&mut seen, &before);
        let Case { call: RunCall { program, start, budget }, mut state } = before.clone();
        let observer = |observed: Observed| {
            watch.count_executed(observed.index, observed.written, observed.state);
        };
        let report = observed_run(&program, start, budget, &mut state, observer);
        watch.finish(&report.numbers());
        assert_eq!(seen.windows.counted().count(), 0);
        seen.runs.counted().collect()
    }

    /// What a speculative run counts for, in itself and in its windows.
    fn events_with_windows(operations: &[[u64; 5]]) -> [Vec<Event>; 2] {
        let before = case(operations);
        let mut seen = Seen::default();
        let mut watch = Watch::new(&mut seen, &before);
        let Case { call: RunCall { program, start, budget }, mut state } = before.clone();
        let mut window = Window { operations: 8, journal: vec![0; 32] };
        let observer = |event: speculative::Event| watch.hear(event);
        let report = speculative_run(&program, start, budget, &mut window, &mut state, observer);
        watch.finish(&report.numbers());
        [seen.runs, seen.windows].map(|moves| moves.counted().collect())
    }

    #[test]
    fn events_of_moves() {
        let mixed = |opcode| [Event::Run, Event::Mixed { opcode }];
        let mixed_and = |opcode, event| [&mixed(opcode)[..], &[event]].concat();
        assert_eq!(events(&[COPY]), mixed(1));
        assert_eq!(events(&[[0x22_22_01, 1, 0, 0, 0]]), mixed_and(1, Event::OverlappingCopy));
        assert_eq!(events(&[[0x22_22_01, 8, 4, 0, 0]]), []);
        assert_eq!(events(&[[0x11_11_22_02, 8, 2, 0, 0]]), mixed(2));
        assert_eq!(events(&[[0x22_11_11_00_03, 0, 2, 8, 0]]), mixed(3));
        // PIECE of bytes 4 and 0, and of the constant 5 and byte 4.
        assert_eq!(events(&[[0x21_21_22_0a, 8, 4, 0, 0]]), mixed_and(10, Event::SecretHalf));
        assert_eq!(events(&[[0x21_11_22_0a, 8, 5, 4, 0]]), mixed_and(10, Event::ConstantHalf));
        // SUBPIECE of two bytes into one, and of two secret ones into two without the low one.
        assert_eq!(events(&[[0x11_22_21_0b, 8, 0, 1, 0]]), []);
        assert_eq!(events(&[[0x11_22_21_0b, 8, 1, 1, 0]]), [Event::DropsSecret]);
        assert_eq!(events(&[[0x11_22_21_0b, 8, 0, 0, 0]]), [Event::CutsSecret]);
        let missing = [&mixed(11)[..], &[Event::DropsSecret, Event::MissingBytes]].concat();
        assert_eq!(events(&[[0x11_22_22_0b, 8, 4, 1, 0]]), missing);
        assert_eq!(events(&[[0x22_24_13, 8, 4, 0, 0]]), mixed(19));
        assert_eq!(events(&[[0x22_24_14, 8, 0, 0, 0]]), mixed_and(20, Event::SecretTop));
        assert_eq!(events(&[[0x22_24_14, 8, 1, 0, 0]]), mixed_and(20, Event::PublicTop));
        // INT_ADD moves nothing.
        assert_eq!(events(&[[0x22_22_22_15, 8, 0, 2, 0]]), []);
    }

    #[test]
    fn events_of_uses() {
        let moved = [Event::Run, Event::Mixed { opcode: 1 }];
        let moved_and = |event| [&moved[..], &[event]].concat();
        assert_eq!(events(&[COPY, load_by(8)]), moved_and(Event::Beside { opcode: 2 }));
        assert_eq!(events(&[COPY, load_by(9)]), moved_and(Event::LeakAtMoved { opcode: 2 }));
        // Bytes that were not moved, or are others by now.
        assert_eq!(events(&[COPY, load_by(0)]), moved);
        assert_eq!(events(&[COPY, load_by(1)]), moved);
        assert_eq!(events(&[COPY, [0x12_22_01, 8, 5, 0, 0], load_by(8)]), moved);
        assert_eq!(events(&[COPY, [0x21_21_01, 9, 4, 0, 0], load_by(9)]), moved);
    }

    #[test]
    fn events_of_windows() {
        // CBRANCH past two operations.
        let cbranch = [0x11_11_00_05, 0, 3, 1, 0];
        let moved = [Event::Run, Event::Mixed { opcode: 1 }];
        let moved_and = |event| [&moved[..], &[event]].concat();
        let [run, window] = events_with_windows(&[cbranch, COPY, load_by(8)]);
        assert_eq!((run, window), (vec![], moved_and(Event::Beside { opcode: 2 })));
        let [run, window] = events_with_windows(&[cbranch, COPY, load_by(9)]);
        assert_eq!((run, window), (vec![], moved_and(Event::LeakAtMoved { opcode: 2 })));
        // What the window moved is undone: byte 9 is public again.
        let [run, window] = events_with_windows(&[cbranch, COPY, COPY, load_by(8)]);
        assert_eq!((run, window), (vec![], moved_and(Event::Beside { opcode: 2 })));
    }
}
