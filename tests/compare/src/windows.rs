//! What speculative runs did in their windows, counted, so that a test can ask for enough of each.

use std::collections::{BTreeMap, BTreeSet};
use std::iter::zip;

use reference::fault::{LENGTH, SETTING, START};
use reference::list::Entry;
use reference::machine::{Next, State};
use reference::memory::{Spaces, PUBLIC, SECRET};
use reference::opcodes::{Opcode, Operation};
use reference::run::{Program, BUDGET, EXIT};
use reference::speculative::{self, Closing, Window, LARGEST_WINDOW};
use reference::varnode::{Varnode, CONSTANT};
use reference::verdict::{verdict, LONGEST_SPACE};

use crate::counts::Counts;
use crate::divisions::{Division, Secret};
use crate::lists::entry_at;
use crate::runs::Case;
use crate::secrets::labels;
use crate::speculations::Speculation;
use crate::wordsizes::{access_opcode, varnodes};

/// The windows whose runs are counted by W.
pub const COUNTED_WINDOWS: [u64; 4] = [0, 1, LARGEST_WINDOW - 1, LARGEST_WINDOW];

/// What can happen in speculative runs. A window runs if an operation is executed in it.
#[derive(Clone, Copy, Debug, PartialEq, Eq, PartialOrd, Ord)]
pub enum Event {
    /// A call refused for its W and for no other setting.
    WindowRefused {
        window: u64,
    },
    /// A call refused for its journal and for no other length.
    JournalRefused,
    /// The same, for one word.
    JournalOneShort,
    /// A run that is not refused, by W.
    Run {
        window: u64,
    },
    /// A run whose journal has 4W words, and W is not 0.
    ExactJournal,
    /// A run whose journal has more.
    LongJournal,
    /// A run in which a window runs.
    WindowRuns,
    /// A run in which two or more do.
    SeveralWindows,
    /// A run that BUDGET ends right after a CBRANCH whose window runs.
    BudgetAtWindow,
    /// A run that a CBRANCH ends by EXIT, whose window runs.
    ExitAtWindow,
    /// A window, by why it is over.
    Closed(Closing),
    /// A window over for W operations done, by W.
    Done {
        window: u64,
    },
    /// A window over for LEAK AHEAD, by the opcode of the operation.
    Leak {
        opcode: u8,
    },
    /// The same at a division, by which operands have a secret byte.
    LeakAtDivision {
        opcode: u8,
        secret: Secret,
    },
    /// A window whose way is an address in ram.
    ToRam,
    /// A window whose way is the end of the list, as the destination.
    ToEnd,
    /// A window whose way is the end of the list, as what comes after the CBRANCH.
    PastLast,
    /// A window that runs and whose way is the right way too.
    SameWay,
    /// A CBRANCH executed in a window.
    Cbranch,
    /// The same, which closes the window by EXIT.
    CbranchExit,
    /// A LOAD or a STORE executed in a window.
    Access {
        order: u64,
        wordsize: u64,
    },
    /// An operation in a window that writes bytes.
    Write {
        space: u64,
        size: u64,
    },
    /// The same, where it is the last of W, by W.
    LastWrites {
        window: u64,
    },
    /// The same, where the bytes are the last that a space can have.
    WriteAtLongest,
    /// An operation in a window that makes a byte secret, or public.
    MakesSecret,
    MakesPublic,
    /// An operation in a window that writes over bytes of its inputs.
    OverInput,
    /// A STORE in a window that does.
    StoreOverInput,
    /// An operation in a window that writes over bytes which the window has read.
    OverBytesRead,
    /// An operation in a window that writes over the condition of the CBRANCH that opened it.
    OverCondition,
    /// An operation in a window that writes over bytes which the window has written.
    OverBytesWritten,
    /// A window that wrote bytes more than once, so that undone from its first operation to its last they
    /// would be others, or have other labels.
    UndoOrder,
}

/// How often each event came.
pub type Windows = Counts<Event>;

/// Counts what one speculative run does, from what its observer hears.
pub struct Watch<'a> {
    windows: &'a mut Windows,
    state: &'a State,
    program: &'a Program,
    window: &'a Window,
    /// How many windows ran.
    ran: u64,
    /// The window that is open, or was last.
    open: Option<OpenWindow>,
    /// The operation of the run that was counted last.
    last_counted: Option<usize>,
}

impl<'a> Watch<'a> {
    /// A watch for a call, as it is before it runs.
    pub fn new(windows: &'a mut Windows, speculation: &'a Speculation) -> Watch<'a> {
        let Speculation { case: Case { call, state }, window } = speculation;
        let program = &call.program;
        Watch { windows, state, program, window, ran: 0, open: None, last_counted: None }
    }

    /// What the observer hears.
    pub fn hear(&mut self, event: speculative::Event) {
        match event {
            speculative::Event::Opened { cbranch, other_way, state } => {
                self.count_opened(cbranch, other_way, state);
            }
            speculative::Event::Ahead { index, written, state } => {
                self.count_operation(index, written, state);
            }
            speculative::Event::Closed { closing, at } => self.count_closed(closing, at),
            speculative::Event::Counted { index, .. } => self.last_counted = Some(index),
        }
    }

    /// Counts what the whole call was.
    pub fn finish(self, ending: u64) {
        if (SETTING..=START).contains(&ending) {
            self.count_refused(ending);
        } else {
            self.count_run(ending);
        }
    }

    fn count_refused(self, ending: u64) {
        let Window { operations, ref journal } = *self.window;
        let Program { settings, list } = self.program;
        let lengths = self.state.memory.lengths();
        let judged = verdict(settings, &lengths, list).ending;
        if operations > LARGEST_WINDOW && judged != SETTING {
            self.windows.add(Event::WindowRefused { window: operations });
        }
        let other_lengths_hold = judged != LENGTH
            && labels(self.state).lengths() == lengths
            && self.state.counts.hold(&lengths);
        if ending == LENGTH && other_lengths_hold {
            let is_one_short = journal.len() + 1 == self.window.journal_words();
            self.windows.add(Event::JournalRefused);
            self.windows.add_those_that_came([(is_one_short, Event::JournalOneShort)]);
        }
    }

    fn count_run(self, ending: u64) {
        let Window { operations, ref journal } = *self.window;
        let needed = self.window.journal_words();
        // CBRANCH ends a run by EXIT or by BUDGET only where its window does not end it.
        let open = self.open.filter(|open| self.last_counted == Some(open.cbranch));
        let ends_at_window = open.is_some_and(|open| open.executed > 0);
        self.windows.add_those_that_came([
            (COUNTED_WINDOWS.contains(&operations), Event::Run { window: operations }),
            (journal.len() == needed && needed > 0, Event::ExactJournal),
            (journal.len() > needed, Event::LongJournal),
            (self.ran > 0, Event::WindowRuns),
            (self.ran > 1, Event::SeveralWindows),
            (ends_at_window && ending == BUDGET, Event::BudgetAtWindow),
            (ends_at_window && ending == EXIT, Event::ExitAtWindow),
        ]);
    }

    fn count_opened(&mut self, cbranch: usize, other_way: Next, state: &State) {
        let entry = entry_at(&self.program.list, cbranch);
        let open = OpenWindow::new(cbranch, &entry, state);
        let is_next = other_way == Next::Index(cbranch + 1);
        let is_end = other_way == Next::Index(self.program.count() as usize);
        self.windows.add_those_that_came([
            (matches!(other_way, Next::Exit(_)), Event::ToRam),
            (is_end && !is_next, Event::ToEnd),
            (is_end && is_next && !open.is_same_way, Event::PastLast),
        ]);
        self.open = Some(open);
    }

    fn count_operation(&mut self, index: usize, written: Option<Varnode>, after: &State) {
        let entry = entry_at(&self.program.list, index);
        let settings = &self.program.settings;
        if let Some((_, wordsize)) =
            access_opcode(&entry).zip(settings.wordsizes.of(entry.offsets[1]))
        {
            self.windows.add(Event::Access { order: settings.order, wordsize });
        }
        let open = self.open.as_mut().expect("an open window");
        open.executed += 1;
        if let Some(written) = written {
            let window = self.window.operations;
            let is_last = open.executed == window && COUNTED_WINDOWS.contains(&window);
            self.windows.add_those_that_came([(is_last, Event::LastWrites { window })]);
            self.windows.add_those_that_came(open.events_of_write(&entry, &written, after));
            open.write(&written, after);
        }
        open.read.extend(bytes_read(&entry));
        open.ends_with_cbranch = entry.opcode == Opcode::Cbranch as u8;
        self.windows.add_those_that_came([(open.ends_with_cbranch, Event::Cbranch)]);
    }

    fn count_closed(&mut self, closing: Closing, at: Next) {
        let open = self.open.as_ref().expect("an open window");
        let window = self.window.operations;
        let is_done = closing == Closing::Done;
        self.ran += u64::from(open.executed > 0);
        self.windows.add_those_that_came([
            (true, Event::Closed(closing)),
            (is_done && COUNTED_WINDOWS.contains(&window), Event::Done { window }),
            (open.is_same_way && open.executed > 0, Event::SameWay),
            (closing == Closing::Exit && open.ends_with_cbranch, Event::CbranchExit),
            (open.is_undone_in_order(), Event::UndoOrder),
        ]);
        if let (Closing::LeakAhead, Next::Index(index)) = (closing, at) {
            let opcode = entry_at(&self.program.list, index).opcode;
            self.windows.add(Event::Leak { opcode });
            let division = Division::at(&self.program.list, index);
            if let Some(secret) = division.and_then(|division| division.secret(&open.labels)) {
                self.windows.add(Event::LeakAtDivision { opcode, secret });
            }
        }
    }
}

/// A byte of memory, by its space and its offset.
pub(crate) type Byte = (u64, u64);

/// A window, and what its operations did until now.
struct OpenWindow {
    cbranch: usize,
    condition: Vec<Byte>,
    /// Whether both ways of the CBRANCH are one.
    is_same_way: bool,
    /// How many operations were executed in it, and whether the last was a CBRANCH.
    executed: u64,
    ends_with_cbranch: bool,
    /// What bytes and labels are now.
    memory: Spaces,
    labels: Spaces,
    /// The bytes that were read, but for those that a LOAD loads.
    read: BTreeSet<Byte>,
    /// The bytes that were written, with byte and label before the first write and before the last.
    written: BTreeMap<Byte, [(u8, u8); 2]>,
}

impl OpenWindow {
    fn new(cbranch: usize, entry: &Entry, state: &State) -> OpenWindow {
        let [_, destination, ..] = varnodes(entry);
        OpenWindow {
            cbranch,
            condition: bytes_read(entry),
            is_same_way: destination.space == CONSTANT && destination.offset == 1,
            executed: 0,
            ends_with_cbranch: false,
            memory: state.memory.clone(),
            labels: labels(state).clone(),
            read: BTreeSet::new(),
            written: BTreeMap::new(),
        }
    }

    /// What a write counts for, before it is done here, and whether it does.
    fn events_of_write(
        &self,
        entry: &Entry,
        written: &Varnode,
        after: &State,
    ) -> [(bool, Event); 9] {
        let Varnode { space, offset, size } = *written;
        let over_input = any_within(&bytes_read(entry), written);
        let is_store = entry.opcode == Opcode::Store as u8;
        let [before, after] = [&self.labels, labels(after)].map(|labels| labels.part(written));
        [
            (true, Event::Write { space, size }),
            (offset + size == LONGEST_SPACE, Event::WriteAtLongest),
            (over_input, Event::OverInput),
            (over_input && is_store, Event::StoreOverInput),
            (any_within(&self.read, written), Event::OverBytesRead),
            (any_within(self.written.keys(), written), Event::OverBytesWritten),
            (any_within(&self.condition, written), Event::OverCondition),
            (before.contains(&PUBLIC) && after.contains(&SECRET), Event::MakesSecret),
            (before.contains(&SECRET) && after.contains(&PUBLIC), Event::MakesPublic),
        ]
    }

    fn write(&mut self, written: &Varnode, after: &State) {
        let before = zip(self.memory.part(written), self.labels.part(written));
        for (byte, (&value, &label)) in zip(bytes_of(written), before) {
            let [_, last] = self.written.entry(byte).or_insert([(value, label); 2]);
            *last = (value, label);
        }
        self.memory.part_mut(written).copy_from_slice(after.memory.part(written));
        self.labels.part_mut(written).copy_from_slice(labels(after).part(written));
    }

    /// Whether undoing the writes from the first to the last would leave other bytes or labels.
    fn is_undone_in_order(&self) -> bool {
        self.written.values().any(|[first, last]| first != last)
    }
}

/// The varnodes that an operation reads.
pub(crate) fn varnodes_read(entry: &Entry) -> impl Iterator<Item = Varnode> {
    let operation = Operation::with_number(u64::from(entry.opcode));
    let [_, input0, input1, input2] = varnodes(entry);
    let is_read = !operation.is_some_and(Operation::has_destination);
    let input0 = is_read.then_some(input0);
    let inputs = [input0, Some(input1), Some(input2)].into_iter().flatten();
    inputs.filter(|input| input.size > 0)
}

/// The bytes of the varnodes that an operation reads.
pub(crate) fn bytes_read(entry: &Entry) -> Vec<Byte> {
    varnodes_read(entry).flat_map(|input| bytes_of(&input)).collect()
}

/// The bytes of a varnode. A constant has none.
pub(crate) fn bytes_of(varnode: &Varnode) -> impl Iterator<Item = Byte> {
    let Varnode { space, offset, size } = *varnode;
    let size = if space == CONSTANT { 0 } else { size };
    (0..size).map(move |byte| (space, offset + byte))
}

/// Whether one of the bytes is a byte of a varnode.
pub(crate) fn any_within<'a>(bytes: impl IntoIterator<Item = &'a Byte>, varnode: &Varnode) -> bool {
    let Varnode { space, offset, size } = *varnode;
    bytes.into_iter().any(|byte| byte.0 == space && (offset..offset + size).contains(&byte.1))
}

#[cfg(test)]
mod tests {
    use super::*;
    use reference::answers::RunCall;
    use reference::speculative::speculative_run;
    use reference::varnode::{Wordsizes, UNIQUE};
    use reference::verdict::Settings;

    /// COPY of a constant into a byte of unique.
    fn copy(output: u64, constant: u64) -> [u64; 5] {
        [0x11_21_01, output, constant, 0, 0]
    }

    /// CBRANCH by a byte of unique: the first is 0, and the others are not.
    fn cbranch(distance: i64, condition: u64) -> [u64; 5] {
        [0x21_11_00_05, 0, distance as u64, condition, 0]
    }

    /// The same to ram.
    fn cbranch_to_ram(condition: u64) -> [u64; 5] {
        [0x21_41_00_05, 0, 0, condition, 0]
    }

    /// 8 bytes of unique, of which the last is secret, and a journal of 4 W words.
    fn speculation(operations: &[[u64; 5]], window: u64) -> Speculation {
        let settings = Settings { order: 0, address_size: 1, wordsizes: Wordsizes::ONE };
        let program = Program { settings, list: operations.concat() };
        let memory = Spaces { unique: (0..8).collect(), register: vec![], ram: vec![] };
        let mut labels = Spaces::of_lengths(&memory.lengths());
        labels.unique[7] = SECRET;
        let state = State::labelled(memory, labels, vec![0; 9]);
        let case = Case { call: RunCall { program, start: 0, budget: 9 }, state };
        Speculation {
            case,
            window: Window { operations: window, journal: vec![0; 4 * window as usize] },
        }
    }

    /// What a run counts for, other than for its journal and for the sizes of what it writes.
    fn events_of(before: Speculation) -> Vec<Event> {
        let mut windows = Windows::default();
        let mut watch = Watch::new(&mut windows, &before);
        let Speculation { case: Case { call, mut state }, mut window } = before.clone();
        let RunCall { program, start, budget } = &call;
        let observer = |event: speculative::Event| watch.hear(event);
        let report = speculative_run(program, *start, *budget, &mut window, &mut state, observer);
        watch.finish(report.ending);
        let is_other = |event: &Event| !matches!(event, Event::ExactJournal | Event::Write { .. });
        windows.counted().filter(is_other).collect()
    }

    fn events(operations: &[[u64; 5]]) -> Vec<Event> {
        events_of(speculation(operations, 2))
    }

    const END: Event = Event::Closed(Closing::End);
    const EXITS: Event = Event::Closed(Closing::Exit);

    #[test]
    fn events_of_ways() {
        assert_eq!(events(&[cbranch_to_ram(0), copy(2, 1)]), [EXITS, Event::ToRam]);
        assert_eq!(events(&[cbranch(2, 0), copy(2, 1)]), [END, Event::ToEnd]);
        assert_eq!(events(&[cbranch_to_ram(1)]), [END, Event::PastLast]);
        let same_way = [Event::WindowRuns, END, Event::SameWay];
        assert_eq!(events(&[cbranch(1, 0), copy(2, 1)]), same_way);
        assert_eq!(events(&[cbranch(1, 1), copy(2, 1)]), same_way);
        assert_eq!(events(&[copy(2, 1)]), []);
    }

    #[test]
    fn events_of_closings() {
        let closed = |operation| {
            let mut events = events(&[cbranch(2, 1), operation]).into_iter();
            assert_eq!(events.next(), Some(Event::WindowRuns));
            events.collect::<Vec<Event>>()
        };
        assert_eq!(closed(copy(2, 1)), [END]);
        assert_eq!(closed([0x41_00_04, 0, 0, 0, 0]), [EXITS]);
        assert_eq!(closed(cbranch_to_ram(1)), [EXITS, Event::Cbranch, Event::CbranchExit]);
        assert_eq!(closed(cbranch(0, 1)), [Event::Closed(Closing::Done), Event::Cbranch]);
        let leak = [Event::Closed(Closing::LeakAhead), Event::Leak { opcode: 5 }];
        assert_eq!(events(&[cbranch(2, 1), cbranch(1, 7)]), leak);
        let division = [0x21_11_21_23, 1, 1, 0, 0];
        assert_eq!(events(&[cbranch(2, 1), division]), [Event::Closed(Closing::Zero)]);
    }

    #[test]
    fn events_of_writes() {
        let written = |operations: [[u64; 5]; 2]| {
            let [one, other] = operations;
            let mut events = events(&[cbranch(3, 1), one, other]).into_iter();
            assert!(events.by_ref().take(2).eq([Event::WindowRuns, Event::Closed(Closing::Done)]));
            events.collect::<Vec<Event>>()
        };
        assert_eq!(written([copy(2, 1), copy(3, 1)]), []);
        assert_eq!(written([copy(2, 1), copy(1, 1)]), [Event::OverCondition]);
        assert_eq!(written([copy(2, 1), copy(7, 1)]), [Event::MakesPublic]);
        let secret = [0x21_21_01, 2, 7, 0, 0];
        assert_eq!(written([secret, copy(3, 1)]), [Event::MakesSecret]);
        // What was before the second write was not before the first, or it was.
        let twice = [Event::OverBytesWritten, Event::UndoOrder];
        assert_eq!(written([copy(2, 9), copy(2, 1)]), twice);
        assert_eq!(written([copy(2, 2), copy(2, 1)]), twice[..1]);
        let add = [0x11_21_21_15, 3, 3, 1, 0];
        assert_eq!(written([copy(2, 1), add]), [Event::OverInput]);
        let reads = [0x21_21_01, 2, 3, 0, 0];
        assert_eq!(written([reads, copy(3, 1)]), [Event::OverBytesRead]);
        let access = Event::Access { order: 0, wordsize: 1 };
        let store = [0x21_11_11_00_03, 0, UNIQUE, 4, 4];
        let over_input = [access, Event::OverInput, Event::StoreOverInput];
        assert_eq!(written([copy(2, 1), store]), over_input);
    }

    #[test]
    fn events_of_runs() {
        let list = [cbranch(2, 1), copy(2, 2), cbranch(2, 1), copy(2, 2)];
        let several = [Event::WindowRuns, Event::SeveralWindows];
        let closed = [Event::Closed(Closing::Done), END, Event::Cbranch];
        assert_eq!(events(&list), [&several[..], &closed].concat());
        let mut stopped = speculation(&list, 1);
        stopped.case.call.budget = 1;
        let window = 1;
        let done =
            [Event::Closed(Closing::Done), Event::Done { window }, Event::LastWrites { window }];
        let run = [Event::Run { window }, Event::WindowRuns, Event::BudgetAtWindow];
        assert_eq!(events_of(stopped), [run, done].concat());
        let exit = [Event::WindowRuns, Event::ExitAtWindow, END];
        assert_eq!(events(&[cbranch_to_ram(1), copy(2, 2)]), exit);
    }

    #[test]
    fn events_of_refusals() {
        let mut refused = speculation(&[copy(1, 1)], 2);
        refused.window.journal.pop();
        assert_eq!(events_of(refused.clone()), [Event::JournalRefused, Event::JournalOneShort]);
        refused.window.journal.pop();
        assert_eq!(events_of(refused.clone()), [Event::JournalRefused]);
        refused.case.call.program.list.pop();
        assert_eq!(events_of(refused.clone()), []);
        refused.window.operations = 65;
        assert_eq!(events_of(refused.clone()), [Event::WindowRefused { window: 65 }]);
        refused.case.call.program.settings.order = 2;
        assert_eq!(events_of(refused), []);
    }
}
