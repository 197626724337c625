//! Random cases that end in every way, and their text.

use reference::answers::VerdictCall;
use reference::case::{
    LABELS_FRAME, LOG_WORDS, LONGEST_SPACE, MEMORY_FRAME, MOST_BYTES_A_LINE, MOST_OPERATIONS,
};
use reference::list::{list_of, Entry, WORDS_PER_OPERATION};
use reference::machine::State;
use reference::memory::{Spaces, SECRET};
use reference::opcodes::{Opcode, Operation, OPERATIONS};
use reference::run::{run, Program, BUDGET};
use reference::varnode::{Lengths, Varnode, Wordsizes, CONSTANT, RAM, REGISTER, UNIQUE};
use reference::verdict::{Report, Settings};

use crate::inputs::largest_value;
use crate::lines::{bytes_line, operation_line, settings_line};
use crate::lists::{Frame, Generator};
use crate::random::Random;

/// The most operations of a run that does not end by itself.
const LONGEST_RUN: u32 = 3_000;
/// The most rounds of a loop that writes log words.
const MOST_ROUNDS: u64 = 1_400;

/// The places of an entry that are looked at here.
const OUTPUT: usize = 0;
pub(crate) const INPUT0: usize = 1;
pub(crate) const INPUT1: usize = 2;
const INPUT2: usize = 3;

/// The spaces that a line can name.
pub(crate) const SPACES: [u64; 3] = [UNIQUE, REGISTER, RAM];

/// A case before it is written as text.
#[derive(Clone, Debug)]
pub struct Case {
    pub call: VerdictCall,
    pub budget: u32,
    pub memory: Spaces,
    pub labels: Spaces,
}

impl Case {
    /// What the second program's run reports with a budget, and what it leaves.
    pub fn run(&self, budget: u32) -> (Report, State) {
        let program = Program { settings: self.call.settings, list: self.call.list.clone() };
        let (memory, labels) = (self.memory.clone(), self.labels.clone());
        let mut state = State::labelled(memory, labels, vec![0; LOG_WORDS]);
        (run(&program, 0, budget, &mut state), state)
    }
}

/// Makes random cases.
pub struct Cases {
    pub(crate) lists: Generator,
}

impl Cases {
    pub fn new(random: Random) -> Cases {
        Cases { lists: Generator::new(random) }
    }

    pub fn random(&mut self) -> &mut Random {
        &mut self.lists.random
    }

    /// A case: one that keeps every rule, a long loop, or one that the run mostly refuses.
    pub fn case(&mut self) -> Case {
        let mut case = match self.random().below(20) {
            0 => return self.long_loop(),
            _ => {
                let settings = self.lists.settings();
                self.well_formed(settings)
            }
        };
        if self.random().once_in(3) {
            self.damage(&mut case);
        }
        case.budget = self.budget(&case);
        case
    }

    /// A case that keeps every rule, with budget 0.
    pub(crate) fn well_formed(&mut self, settings: Settings) -> Case {
        let lengths =
            Lengths { unique: self.length(), register: self.length(), ram: self.length() };
        let count = self.count();
        let frame = Frame { address_size: settings.address_size, lengths, count };
        let entries: Vec<Entry> =
            (0..count).map(|index| self.entry(&frame, &settings.wordsizes, index)).collect();
        let memory = self.memory(&lengths);
        let labels = self.labels(&lengths);
        let call = VerdictCall { settings, lengths, list: list_of(&entries) };
        Case { call, budget: 0, memory, labels }
    }

    /// Changes one thing, which mostly gives 10, 12 or 21 to 26.
    fn damage(&mut self, case: &mut Case) {
        match self.random().below(10) {
            0 => self.damage_settings(&mut case.call.settings),
            1 => self.damage_label(&mut case.labels),
            2 => self.lists.damage_order(&mut case.call.list),
            3 => self.add_lost_branch(&mut case.call.list),
            _ => self.lists.damage_operation(&mut case.call),
        }
    }

    /// Makes a setting any number of two digits, which is what a line has room for: the budget is
    /// drawn for the run that the text will ask for.
    fn damage_settings(&mut self, settings: &mut Settings) {
        self.lists.damage_settings(settings);
        let Settings { order, address_size, wordsizes: Wordsizes { unique, register, ram } } =
            settings;
        for number in [order, address_size, unique, register, ram] {
            *number %= 0x100;
        }
    }

    /// Makes one label a number that is none.
    fn damage_label(&mut self, labels: &mut Spaces) {
        let label = self.random().pick(&[2, 3, 0x10, 0x80, 0x81, 0xff]);
        let space = self.random().below(3) as usize;
        let space = &mut labels.all_mut()[space];
        if !space.is_empty() {
            let place = self.random().below(space.len() as u64) as usize;
            space[place] = label;
        }
    }

    /// Adds a branch whose destination is outside the list, if there is room for it.
    fn add_lost_branch(&mut self, list: &mut Vec<u64>) {
        let index = (list.len() / WORDS_PER_OPERATION) as u64;
        if index == MOST_OPERATIONS as u64 {
            return;
        }
        let beyond = self.random().pick(&[2, 3, 0xff, 1 << 32, i64::MAX as u64]);
        let before = (1 + index).wrapping_neg();
        let distance = self.random().pick(&[beyond, before, before - 1, 1 << 63]);
        let destination = constant(distance, self.lists.size());
        let opcode = self.random().pick(&[Opcode::Branch, Opcode::Call]);
        list.extend(Entry::new(opcode as u8, [None, Some(destination), None, None]).words());
    }

    /// A loop that counts down, with operations that write log words: up to a log that is full.
    fn long_loop(&mut self) -> Case {
        let settings = Settings { address_size: 1, ..self.lists.settings() };
        let lengths = Lengths { unique: 4, register: 4, ram: 4 };
        let counter = Varnode { space: UNIQUE, offset: 0, size: 2 };
        let flag = Varnode { space: UNIQUE, offset: 2, size: 1 };
        let rounds = 1 + self.random().below(MOST_ROUNDS);
        let mut entries = vec![with_output(Opcode::Copy, counter, constant(rounds, 2), None)];
        let first = entries.len() as u64;
        entries.push(with_output(Opcode::IntSub, counter, counter, Some(constant(1, 2))));
        for _ in 0..self.random().below(4) {
            entries.push(self.logged(&settings.wordsizes));
        }
        entries.push(with_output(Opcode::IntNotEqual, flag, counter, Some(constant(0, 2))));
        let back = constant(first.wrapping_sub(entries.len() as u64), 8);
        entries.push(Entry::new(Opcode::Cbranch as u8, [None, Some(back), Some(flag), None]));
        let memory = self.memory(&lengths);
        let labels = Spaces::of_lengths(&lengths);
        let executed_at_most = MOST_ROUNDS as u32 * 6;
        let below = self.random().below(executed_at_most.into()) as u32;
        let budget = self.random().pick(&[below, executed_at_most, u32::MAX]);
        let call = VerdictCall { settings, lengths, list: list_of(&entries) };
        Case { call, budget, memory, labels }
    }

    /// An operation of a loop that writes a log word, and does not touch the loop's own varnodes.
    fn logged(&mut self, wordsizes: &Wordsizes) -> Entry {
        let register = Varnode { space: REGISTER, offset: self.random().below(3), size: 2 };
        let space = self.random().pick(&[REGISTER, RAM]);
        // Of two bytes, 2 is the last byte offset in a loop's spaces.
        let last = 2 / wordsizes.of(space).unwrap_or(1);
        let pointer = constant(self.random().below(last + 1), 1);
        let condition = constant(self.random().below(3), 1);
        let space = constant(space, 1);
        let (opcode, varnodes) = match self.random().below(3) {
            0 => (Opcode::Load, [Some(register), Some(space), Some(pointer), None]),
            1 => (Opcode::Store, [None, Some(space), Some(pointer), Some(register)]),
            _ => (Opcode::Cbranch, [None, Some(constant(1, 1)), Some(condition), None]),
        };
        Entry::new(opcode as u8, varnodes)
    }

    /// How many bytes a space has: mostly few, so that varnodes overlap.
    fn length(&mut self) -> u64 {
        match self.random().below(100) {
            0 => LONGEST_SPACE,
            1 => self.random().below(LONGEST_SPACE),
            2..=9 => 0,
            10..=25 => self.random().below(10),
            _ => 8 + self.random().below(40),
        }
    }

    /// How many operations a list has: mostly few.
    fn count(&mut self) -> u64 {
        match self.random().below(300) {
            0 => MOST_OPERATIONS as u64,
            1 | 2 => self.random().below(MOST_OPERATIONS as u64),
            _ => self.random().below(20),
        }
    }

    /// An operation that keeps every rule; BRANCH, at least, always has room.
    fn entry(&mut self, frame: &Frame, wordsizes: &Wordsizes, index: u64) -> Entry {
        loop {
            let operation = self.random().pick(&OPERATIONS);
            let ends_the_run =
                matches!(operation.opcode, Opcode::BranchInd | Opcode::CallInd | Opcode::Return);
            if ends_the_run && !self.random().once_in(5) {
                continue;
            }
            if let Some(mut entry) = self.lists.entry_with_room(&operation, frame, index) {
                if !self.random().once_in(4) {
                    self.keep_going(&operation, &mut entry, frame, wordsizes);
                }
                return entry;
            }
        }
    }

    /// Changes an operation that would mostly end the run into one that does not.
    fn keep_going(
        &mut self,
        operation: &Operation,
        entry: &mut Entry,
        frame: &Frame,
        wordsizes: &Wordsizes,
    ) {
        if operation.has_destination() {
            put(entry, INPUT0, constant(1, 8));
        }
        if operation.divides() {
            let size = u64::from(entry.descriptors[INPUT1] % 16);
            let divisor = self.random().operand(size).max(1);
            put(entry, INPUT1, constant(divisor, size));
        }
        if [Opcode::Load, Opcode::Store].contains(&operation.opcode) {
            let size = accessed_size(entry);
            let space = entry.offsets[INPUT0];
            let len = frame.lengths.of(space).unwrap_or(0);
            let last = len.saturating_sub(size) / wordsizes.of(space).unwrap_or(1);
            let pointer = self.random().below(last + 1) & largest_value(frame.address_size);
            put(entry, INPUT1, constant(pointer, frame.address_size));
        }
    }

    /// What the spaces hold: each has a style of its own.
    fn memory(&mut self, lengths: &Lengths) -> Spaces {
        let mut memory = Spaces::of_lengths(lengths);
        for space in memory.all_mut() {
            let style = self.random().below(3);
            for byte in space {
                let any = self.random().word() as u8;
                *byte = match style {
                    0 => 0,
                    1 => any % 4,
                    _ => any,
                };
            }
        }
        memory
    }

    /// Labels of which none, few or many are secret.
    fn labels(&mut self, lengths: &Lengths) -> Spaces {
        let mut labels = Spaces::of_lengths(lengths);
        let secret_once_in = self.random().pick(&[0, 0, 50, 20, 20, 2]);
        if secret_once_in > 0 {
            for label in labels.all_mut().into_iter().flatten() {
                if self.random().once_in(secret_once_in) {
                    *label = SECRET;
                }
            }
        }
        labels
    }

    /// A budget around what the run needs; a large one only for a run that ends by itself.
    pub(crate) fn budget(&mut self, case: &Case) -> u32 {
        let (report, _) = case.run(LONGEST_RUN);
        let executed = report.executed as u32;
        let below = self.random().below(report.executed + 1) as u32;
        let mut budgets = vec![0, 1, below, executed, executed, LONGEST_RUN, LONGEST_RUN];
        if report.ending != BUDGET {
            budgets.extend([executed + 1, 1 << 16, 1 << 31, u32::MAX, u32::MAX, u32::MAX]);
        }
        self.random().pick(&budgets)
    }

    /// The text of a case, its 02, 03 and 04 lines in a random order that keeps what it says.
    pub fn text(&mut self, case: &Case) -> Vec<u8> {
        let mut bytes = Vec::new();
        for _ in 0..self.random().below(3) {
            bytes.extend(self.overwritten_line(case));
        }
        bytes.extend(self.lines_of_spaces(MEMORY_FRAME, &case.memory));
        bytes.extend(self.lines_of_spaces(LABELS_FRAME, &case.labels));
        let (operations, _) = case.call.list.as_chunks::<WORDS_PER_OPERATION>();
        let operations = operations.iter().map(operation_line).collect();
        let first = settings_line(&case.call.settings, &case.call.lengths, case.budget);
        let lines = self.merged(bytes, operations);
        (first + &lines.concat()).into_bytes()
    }

    /// A line of zeros, which the lines after it overwrite where the case has other bytes.
    fn overwritten_line(&mut self, case: &Case) -> Option<String> {
        let space = self.random().pick(&SPACES);
        let len = case.call.lengths.of(space)?;
        let count = 1 + self.random().below(MOST_BYTES_A_LINE as u64);
        let places = (len + 1).saturating_sub(count);
        if places == 0 {
            return None;
        }
        let offset = self.random().below(places);
        let frame = self.random().pick(&[MEMORY_FRAME, LABELS_FRAME]);
        Some(bytes_line(frame, space, offset, &vec![0; count as usize]))
    }

    /// Lines for what the spaces hold, in parts of random lengths. Zeros are mostly left out.
    fn lines_of_spaces(&mut self, frame: u8, spaces: &Spaces) -> Vec<String> {
        let mut lines = Vec::new();
        for (space, bytes) in SPACES.into_iter().zip(spaces.all()) {
            let mut offset = 0;
            while offset < bytes.len() {
                let count = 1 + self.random().below(MOST_BYTES_A_LINE as u64) as usize;
                let part = &bytes[offset..bytes.len().min(offset + count)];
                if part.iter().any(|&byte| byte != 0) || self.random().once_in(8) {
                    lines.push(bytes_line(frame, space, offset as u64, part));
                }
                offset += part.len();
            }
        }
        lines
    }

    /// Both lists of lines as one, each in its own order.
    fn merged(&mut self, one: Vec<String>, other: Vec<String>) -> Vec<String> {
        let mut lines = Vec::new();
        let [mut one, mut other] = [one, other].map(|lines| lines.into_iter().peekable());
        while let (Some(_), Some(_)) = (one.peek(), other.peek()) {
            let next = if self.random().once_in(2) { one.next() } else { other.next() };
            lines.extend(next);
        }
        lines.extend(one.chain(other));
        lines
    }
}

pub(crate) fn constant(offset: u64, size: u64) -> Varnode {
    Varnode { space: CONSTANT, offset, size }
}

/// How many bytes a LOAD or a STORE accesses.
pub(crate) fn accessed_size(entry: &Entry) -> u64 {
    let [loaded, stored] = [OUTPUT, INPUT2].map(|place| entry.descriptors[place] % 16);
    u64::from(loaded.max(stored))
}

/// An operation with an output, one input, and maybe a second.
pub(crate) fn with_output(
    opcode: Opcode,
    output: Varnode,
    input0: Varnode,
    input1: Option<Varnode>,
) -> Entry {
    Entry::new(opcode as u8, [Some(output), Some(input0), input1, None])
}

/// Puts a varnode at a place of an operation.
fn put(entry: &mut Entry, place: usize, varnode: Varnode) {
    entry.descriptors[place] = (varnode.space * 16 + varnode.size) as u8;
    entry.offsets[place] = varnode.offset;
}
