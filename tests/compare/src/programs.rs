//! Random programs to run, with their memory, labels, counts and log: well-formed ones that end in every way,
//! and damaged ones for every refusal.

use reference::answers::{LentWords, RunCall, VerdictCall};
use reference::arithmetic::fits;
use reference::bytes::{write, ByteOrder};
use reference::list::{list_of, varnode, Entry};
use reference::machine::State;
use reference::memory::{Spaces, PUBLIC, SECRET};
use reference::opcodes::{Opcode, Operation, OPERATIONS};
use reference::run::{run, Program, BUDGET};
use reference::varnode::{Lengths, Varnode, Wordsizes, CONSTANT, RAM};
use reference::verdict::{Settings, LONGEST_SPACE};

use crate::inputs::{first_product_too_large, largest_value, LARGE_OFFSETS};
use crate::lists::{with_varnode, Frame, Generator};
use crate::random::Random;
use crate::runs::Case;

mod branches;
mod counts;
mod divisions;
mod moves;
mod speculative;

/// The most operations that a run executes which does not end by itself.
const LONGEST_RUN: u32 = 150;
/// The same for a run that should show what few operations do.
const SHORT_RUN: u32 = 40;

/// The places of an entry: output and inputs.
const OUTPUT: usize = 0;
const INPUT0: usize = 1;
pub const INPUT1: usize = 2;
const INPUT2: usize = 3;

/// Makes random cases for the labelled run; without their labels they are cases for the plain run.
pub struct Programs {
    lists: Generator,
}

/// A list that grows, and the values and labels that its memory should have where it starts.
struct Draft {
    settings: Settings,
    frame: Frame,
    /// Whether most operations should be LOAD or STORE.
    many_accesses: bool,
    entries: Vec<Entry>,
    values: Vec<(Varnode, u64)>,
    labels: Vec<(Varnode, u8)>,
}

impl Draft {
    fn new(settings: Settings, lengths: Lengths, count: u64) -> Draft {
        let frame = Frame { address_size: settings.address_size, lengths, count };
        Draft {
            settings,
            frame,
            many_accesses: false,
            entries: vec![],
            values: vec![],
            labels: vec![],
        }
    }

    /// The index of the operation that is added next.
    fn index(&self) -> u64 {
        self.entries.len() as u64
    }

    fn is_full(&self) -> bool {
        self.index() >= self.frame.count
    }

    /// The wordsize of the space that a LOAD or a STORE names.
    fn wordsize(&self, access: &Entry) -> u64 {
        self.settings.wordsizes.of(access.offsets[INPUT0]).unwrap_or(1)
    }
}

impl Programs {
    pub fn new(random: Random) -> Programs {
        Programs { lists: Generator::new(random) }
    }

    pub fn random(&mut self) -> &mut Random {
        &mut self.lists.random
    }

    /// How many words to lend for settings and report.
    pub fn lent_words(&mut self) -> LentWords {
        self.lists.lent_words()
    }

    /// A case, damaged once in three times.
    pub fn case(&mut self) -> Case {
        let mut case = self.case_without_limits();
        if self.once_in(3) {
            let wounds = self.pick(&[1, 1, 1, 2, 4]);
            (0..wounds).for_each(|_| self.damage(&mut case));
        }
        self.set_budget_and_log(&mut case);
        case
    }

    /// A case that keeps every rule.
    pub fn well_formed_case(&mut self) -> Case {
        let mut case = self.case_without_limits();
        self.set_budget_and_log(&mut case);
        case
    }

    /// A case that keeps every rule, whose wordsizes are not all 1. Its operations are few, and most of
    /// them are LOAD or STORE; mostly nothing else ends the run.
    pub fn access_case(&mut self) -> Case {
        let settings = self.wide_settings();
        let lengths = if settings.address_size == 1 && self.once_in(2) {
            Lengths { unique: self.long(), register: self.long(), ram: self.long() }
        } else {
            self.lengths()
        };
        let count = 1 + self.below(6);
        let draft = Draft { many_accesses: true, ..Draft::new(settings, lengths, count) };
        let case = self.filled(draft);
        self.run_from_the_first(case)
    }

    /// The case from its first operation on, mostly with a budget and a log for all of it.
    fn run_from_the_first(&mut self, mut case: Case) -> Case {
        case.call.start = 0;
        if self.once_in(8) {
            self.set_budget_and_log(&mut case);
        } else {
            case.call.budget = SHORT_RUN;
            case.state.log = (0..SHORT_RUN).map(|_| self.lists.random.word()).collect();
        }
        case
    }

    /// Settings in range whose wordsizes are not all 1. Only an address of 8 bytes has a product that
    /// 64 bits do not hold.
    fn wide_settings(&mut self) -> Settings {
        let mut settings = self.lists.settings();
        while settings.wordsizes == Wordsizes::ONE {
            settings = self.lists.settings();
        }
        if self.once_in(2) {
            settings.address_size = 8;
        }
        settings
    }

    fn below(&mut self, limit: u64) -> u64 {
        self.lists.random.below(limit)
    }

    fn once_in(&mut self, times: u64) -> bool {
        self.lists.random.once_in(times)
    }

    fn pick<T: Copy>(&mut self, items: &[T]) -> T {
        self.lists.random.pick(items)
    }

    /// A well-formed case without budget and log.
    fn case_without_limits(&mut self) -> Case {
        let settings = self.lists.settings();
        let lengths = self.lengths();
        let count = if self.once_in(30) { self.below(200) } else { self.below(25) };
        self.filled(Draft::new(settings, lengths, count))
    }

    /// The case of a draft that is still empty, without budget and log.
    fn filled(&mut self, mut draft: Draft) -> Case {
        self.fill(&mut draft);
        self.finished(draft)
    }

    /// The case of a draft, without budget and log.
    fn finished(&mut self, mut draft: Draft) -> Case {
        let Draft { settings, frame: Frame { lengths, count, .. }, .. } = draft;
        draft.entries.truncate(count as usize);
        let mut memory = self.memory(&lengths);
        let order = if settings.order == 0 { ByteOrder::Little } else { ByteOrder::Big };
        for (place, value) in &draft.values {
            write(order, *value, memory.part_mut(place));
        }
        let mut labels = self.labels(&lengths);
        for (place, label) in &draft.labels {
            labels.part_mut(place).fill(*label);
        }
        let start = match self.below(8) {
            0 => count,
            1 | 2 => self.below(count + 1),
            _ => 0,
        };
        let program = Program { settings, list: list_of(&draft.entries) };
        let call = RunCall { program, start, budget: 0 };
        let counts = self.counts(&labels);
        Case { call, state: State { memory, labels: Some(labels), counts, log: vec![] } }
    }

    fn lengths(&mut self) -> Lengths {
        Lengths { unique: self.length(), register: self.length(), ram: self.length() }
    }

    /// How many bytes a space has that an address of 1 byte reaches only with a wordsize.
    fn long(&mut self) -> u64 {
        250 + self.below(8 * 256)
    }

    /// How many bytes a space has: mostly few, so that varnodes overlap.
    fn length(&mut self) -> u64 {
        match self.below(300) {
            0 => LONGEST_SPACE,
            1 => self.below(LONGEST_SPACE),
            2..=30 => 0,
            31..=80 => self.below(10),
            _ => 8 + self.below(40),
        }
    }

    /// What the spaces hold: each has a style of its own.
    fn memory(&mut self, lengths: &Lengths) -> Spaces {
        let mut memory = Spaces::of_lengths(lengths);
        for space in memory.all_mut() {
            let style = self.below(4);
            for byte in space {
                let any = self.lists.random.word();
                *byte = match style {
                    0 => 0,
                    1 => (any % 4) as u8,
                    2 => [0, 1, 0x7f, 0x80, 0xff, (any >> 8) as u8][any as usize % 6],
                    _ => any as u8,
                };
            }
        }
        memory
    }

    /// Labels of which none, few, many or all are secret, or one space's.
    fn labels(&mut self, lengths: &Lengths) -> Spaces {
        let mut labels = Spaces::of_lengths(lengths);
        let secret_once_in = match self.below(10) {
            0 | 1 => return labels,
            2..=5 => 30,
            6 => 2,
            7 => 1,
            _ => {
                let secret_space = self.below(3) as usize;
                labels.all_mut()[secret_space].fill(SECRET);
                return labels;
            }
        };
        for label in labels.all_mut().into_iter().flatten() {
            *label = if self.once_in(secret_once_in) { SECRET } else { PUBLIC };
        }
        labels
    }

    /// Makes the list of single operations and loops that keep every rule.
    fn fill(&mut self, draft: &mut Draft) {
        while !draft.is_full() {
            if self.once_in(10) {
                self.add_loop(draft);
            } else {
                self.add_operation(draft);
            }
        }
    }

    /// Adds one operation; BRANCH, at least, always has room.
    fn add_operation(&mut self, draft: &mut Draft) {
        let index = draft.index();
        let mut entry = loop {
            let is_access = draft.many_accesses && !self.once_in(4);
            let operation = if is_access { self.access() } else { self.operation() };
            if let Some(entry) = self.lists.entry_with_room(&operation, &draft.frame, index) {
                break entry;
            }
        };
        if [Opcode::Load as u8, Opcode::Store as u8].contains(&entry.opcode) {
            self.aim(&mut entry, draft);
        }
        if (leaves_the_list(&entry) || never_ends(&entry)) && !self.once_in(4) {
            self.stay(&mut entry, index, draft.frame.count);
        }
        draft.entries.push(entry);
    }

    /// LOAD or STORE.
    fn access(&mut self) -> Operation {
        let opcode = self.pick(&[Opcode::Load, Opcode::Store]);
        OPERATIONS[opcode as usize - 1]
    }

    /// Any operation; one that always ends the run is drawn less often.
    fn operation(&mut self) -> Operation {
        let operation = self.pick(&OPERATIONS);
        let ends_the_run =
            matches!(operation.opcode, Opcode::BranchInd | Opcode::CallInd | Opcode::Return);
        if ends_the_run && !self.once_in(5) {
            return self.operation();
        }
        operation
    }

    /// Gives a destination up for one in the list, mostly the next operation.
    fn stay(&mut self, entry: &mut Entry, index: u64, count: u64) {
        let target = if self.once_in(4) { self.below(count + 1) } else { index + 1 };
        entry.descriptors[INPUT0] = (CONSTANT * 16) as u8 + entry.descriptors[INPUT0] % 16;
        entry.offsets[INPUT0] = target.wrapping_sub(index);
    }

    /// Gives a LOAD or a STORE a pointer that mostly is in bounds: a constant, a place that holds it
    /// from the start on, or one that an operation before it writes. Any other pointer stays.
    fn aim(&mut self, entry: &mut Entry, draft: &mut Draft) {
        let size = draft.frame.address_size;
        let address = self.address(entry, draft);
        let constant = Varnode { space: CONSTANT, offset: address, size };
        let pointer = match self.below(10) {
            0 => return,
            1..=4 => constant,
            5..=7 => {
                let Some(place) = self.lists.output(size, &draft.frame.lengths) else { return };
                draft.values.push((place, address));
                place
            }
            _ => {
                let Some(place) = self.lists.output(size, &draft.frame.lengths) else { return };
                draft.entries.push(copy(place, constant));
                place
            }
        };
        point(entry, pointer);
    }

    /// A pointer for a LOAD or a STORE: mostly in bounds, else around the end of the space or of the
    /// 64-bit numbers, or with a product that is in bounds when cut to fewer bits.
    fn address(&mut self, entry: &Entry, draft: &Draft) -> u64 {
        let size = accessed_size(entry);
        let len = draft.frame.lengths.of(entry.offsets[INPUT0]).unwrap_or(0);
        let wordsize = draft.wordsize(entry);
        let past_the_last_byte = (len + 1).saturating_sub(size);
        let past_the_last = past_the_last_byte.div_ceil(wordsize);
        let address_size = draft.frame.address_size;
        let address = match self.below(20) {
            0 => past_the_last + self.below(9),
            1 => largest_value(address_size) - self.below(9),
            2 => self.pick(&LARGE_OFFSETS),
            3..=5 => past_the_last.saturating_sub(1),
            6 => 0,
            // In bounds as a byte offset, but not as a pointer.
            7 => past_the_last + self.below((past_the_last_byte - past_the_last).max(1)),
            8 | 9 => {
                let cut = self.pick(&[8, 8, 4, address_size]);
                let too_large = first_product_too_large(cut, wordsize).unwrap_or(u64::MAX);
                (too_large - 1).saturating_add(self.below(4))
            }
            _ => self.below(past_the_last.max(1)),
        };
        if fits(address, address_size) {
            address
        } else {
            self.below(past_the_last.clamp(1, 256))
        }
    }

    /// Adds a loop that walks through memory with a pointer, and counts down to 0. Its operations
    /// may spoil counter and pointer.
    fn add_loop(&mut self, draft: &mut Draft) {
        let address_size = draft.frame.address_size;
        let lengths = draft.frame.lengths;
        let places = self.lists.output(1, &lengths).zip(self.lists.output(address_size, &lengths));
        let access = self.access();
        let entry = self.lists.entry_with_room(&access, &draft.frame, draft.index());
        let Some(((counter, pointer), mut access)) = places.zip(entry) else {
            return self.add_operation(draft);
        };
        let constant = |offset, size| Varnode { space: CONSTANT, offset, size };
        let rounds = constant(1 + self.below(5), 1);
        let address = constant(self.address(&access, draft), address_size);
        draft.entries.extend([copy(counter, rounds), copy(pointer, address)]);
        let first = draft.entries.len();
        point(&mut access, pointer);
        draft.entries.push(access);
        if self.once_in(2) {
            self.add_operation(draft);
        }
        let forward = 1 + self.below(8 / draft.wordsize(&access));
        let distance =
            if self.once_in(4) { largest_value(address_size) - forward } else { forward };
        let distance = constant(distance, address_size);
        draft.entries.push(binary(Opcode::IntAdd, pointer, distance));
        draft.entries.push(binary(Opcode::IntSub, counter, constant(1, 1)));
        let back = constant((first as u64).wrapping_sub(draft.entries.len() as u64), 8);
        let cbranch = Entry::new(Opcode::Cbranch as u8, [None, Some(back), Some(counter), None]);
        draft.entries.push(cbranch);
    }

    /// Chooses a budget and a log around what a plain run without limits needs.
    fn set_budget_and_log(&mut self, case: &mut Case) {
        let mut state = case.plain().state;
        state.log = vec![0; LONGEST_RUN as usize];
        let RunCall { program, start, .. } = &case.call;
        let report = run(program, *start, LONGEST_RUN, &mut state);
        let executed = report.executed as u32;
        let below_executed = self.below(report.executed + 1) as u32;
        let mut budgets = vec![0, 1, executed, executed, below_executed, LONGEST_RUN, LONGEST_RUN];
        if report.ending != BUDGET {
            budgets.extend([executed + 1, executed + 1, 1 << 16, 1 << 31, u32::MAX, u32::MAX]);
        }
        case.call.budget = self.pick(&budgets);
        let words = report.log_words;
        let room = match self.below(12) {
            0 => 0,
            1 | 2 => words.saturating_sub(1),
            3 => words,
            4 => self.below(words + 1),
            _ => words + self.below(4),
        };
        case.state.log = (0..room).map(|_| self.lists.random.word()).collect();
    }

    /// Changes one thing, which mostly makes the run refuse.
    fn damage(&mut self, case: &mut Case) {
        match self.below(40) {
            0..=2 => self.lists.damage_settings(&mut case.call.program.settings),
            3 => self.lists.damage_word_count(&mut case.call.program.list),
            4 => self.damage_space(&mut case.state),
            5 | 6 => self.damage_label_lengths(&mut case.state),
            7..=10 => self.damage_label(&mut case.state),
            11..=14 => case.call.start = self.start_beyond(case.call.program.count()),
            15 => self.lists.damage_order(&mut case.call.program.list),
            16..=18 => self.damage_counts(&mut case.state),
            _ => self.damage_operation(case),
        }
    }

    /// Makes a space and its labels one byte too long.
    fn damage_space(&mut self, state: &mut State) {
        let space = self.below(3) as usize;
        for spaces in [Some(&mut state.memory), state.labels.as_mut()].into_iter().flatten() {
            spaces.all_mut()[space].resize(LONGEST_SPACE as usize + 1, 0);
        }
    }

    /// Gives a space too many or too few labels, or exchanges those of two spaces.
    fn damage_label_lengths(&mut self, state: &mut State) {
        let Some(labels) = &mut state.labels else { return };
        let space = self.below(3) as usize;
        match self.below(4) {
            0 => labels.all_mut()[space].push(PUBLIC),
            1 => drop(labels.all_mut()[space].pop()),
            2 => std::mem::swap(&mut labels.unique, &mut labels.register),
            _ => std::mem::swap(&mut labels.register, &mut labels.ram),
        }
    }

    /// Makes one label a number that is none.
    fn damage_label(&mut self, state: &mut State) {
        let Some(labels) = &mut state.labels else { return };
        let [space, any, number] = [0; 3].map(|_: u64| self.lists.random.word());
        let space = &mut labels.all_mut()[space as usize % 3];
        let last = space.len().saturating_sub(1);
        let places = [0, last, any as usize % (last + 1)];
        let label = [2, 3, 0x80, 0x81, 0xff][number as usize % 5];
        if let Some(place) = space.get_mut(places[number as usize / 8 % 3]) {
            *place = label;
        }
    }

    /// A start above the number of operations, also one that fits when cut to fewer bits.
    fn start_beyond(&mut self, count: u64) -> u64 {
        self.pick(&[count + 1, count + 1, count + 2, 1 << 16, 1 << 32, (1 << 32) + count, u64::MAX])
    }

    fn damage_operation(&mut self, case: &mut Case) {
        let program = &mut case.call.program;
        let mut call = VerdictCall {
            settings: program.settings,
            lengths: case.state.memory.lengths(),
            list: std::mem::take(&mut program.list),
        };
        self.lists.damage_operation(&mut call);
        program.list = call.list;
    }
}

/// Whether an operation has a destination in ram.
fn leaves_the_list(entry: &Entry) -> bool {
    let operation = Operation::with_number(u64::from(entry.opcode));
    let input0 = varnode(entry.descriptors[INPUT0], entry.offsets[INPUT0]);
    operation.is_some_and(Operation::has_destination) && input0.space == RAM
}

/// Whether an operation always goes back in the list, which mostly is a loop without an end.
fn never_ends(entry: &Entry) -> bool {
    let always_goes = [Opcode::Branch as u8, Opcode::Call as u8].contains(&entry.opcode);
    let input0 = varnode(entry.descriptors[INPUT0], entry.offsets[INPUT0]);
    always_goes && input0.space == CONSTANT && input0.offset as i64 <= 0
}

/// Makes a varnode the pointer of a LOAD or a STORE.
fn point(entry: &mut Entry, pointer: Varnode) {
    put(entry, INPUT1, pointer);
}

/// How many bytes a LOAD or a STORE accesses.
fn accessed_size(access: &Entry) -> u64 {
    let sizes = [OUTPUT, INPUT2].map(|place| access.descriptors[place] % 16);
    u64::from(sizes[0].max(sizes[1]))
}

/// Puts a varnode at a place of an entry.
fn put(entry: &mut Entry, place: usize, varnode: Varnode) {
    *entry = with_varnode(*entry, place, varnode);
}

fn copy(output: Varnode, input0: Varnode) -> Entry {
    Entry::new(Opcode::Copy as u8, [Some(output), Some(input0), None, None])
}

/// An operation on a place and a second input of the same size, back into that place.
fn binary(opcode: Opcode, place: Varnode, input1: Varnode) -> Entry {
    Entry::new(opcode as u8, [Some(place), Some(place), Some(input1), None])
}
