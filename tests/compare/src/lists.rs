//! Lists of operations: plain ones, random well-formed ones, and damage to them.

use std::array::from_fn;
use std::ops::Range;
use std::sync::LazyLock;

use reference::answers::{LentWords, VerdictCall};
use reference::list::{descriptor, list_of, varnode, Entry, WORDS_PER_OPERATION};
use reference::opcodes::{Opcode, Operation, Sizes, OPERATIONS};
use reference::varnode::{Lengths, Varnode, Wordsizes, CONSTANT, RAM, REGISTER, UNIQUE};
use reference::verdict::{Settings, LONGEST_SPACE, MOST_OPERATIONS};

use crate::inputs::{
    first_value_too_large, BAD_WORDSIZES, GOOD_AND_BAD_ORDERS, GOOD_AND_BAD_SIZES, GOOD_ORDERS,
    LARGE_OFFSETS, SIZES,
};
use crate::random::Random;

/// Output, input0, input1 and input2: where a varnode can stand in an operation.
pub const PLACES: Range<usize> = 0..4;

/// Numbers of settings words to be refused.
const OTHER_SETTINGS_WORDS: [usize; 8] = [0, 1, 2, 3, 4, 6, 7, 8];

/// An operation with these sizes whose varnodes are in different spaces, at offset 0. Its sizes need
/// not go together; in spaces of 8 bytes it keeps all other rules, wherever it stands.
pub fn plain_entry(operation: &Operation, sizes: Sizes, input2_size: u64) -> Entry {
    let input0_space = match operation.opcode {
        Opcode::Load | Opcode::Store | Opcode::Branch | Opcode::Cbranch | Opcode::Call => CONSTANT,
        _ => REGISTER,
    };
    let input0_offset = match operation.opcode {
        Opcode::Load | Opcode::Store => RAM,
        _ => 0,
    };
    let input1_space = if operation.opcode == Opcode::Subpiece { CONSTANT } else { RAM };
    let varnodes = [
        Varnode { space: UNIQUE, offset: 0, size: sizes.output },
        Varnode { space: input0_space, offset: input0_offset, size: sizes.input0 },
        Varnode { space: input1_space, offset: 0, size: sizes.input1 },
        Varnode { space: UNIQUE, offset: 0, size: input2_size },
    ];
    let present = operation.present();
    let taken = from_fn(|place| present[place].then_some(varnodes[place]));
    Entry::new(operation.opcode as u8, taken)
}

/// An operation that keeps every rule in spaces of 8 bytes.
pub fn good_entry(operation: &Operation, address_size: u64) -> Entry {
    let mixes = operation.allowed_sizes(address_size);
    plain_entry(operation, mixes[mixes.len() / 2], 2)
}

/// The same operation with another varnode at a place.
pub fn with_varnode(mut entry: Entry, place: usize, varnode: Varnode) -> Entry {
    entry.descriptors[place] = descriptor(Some(varnode));
    entry.offsets[place] = varnode.offset;
    entry
}

/// What a well-formed operation depends on besides its index.
pub(crate) struct Frame {
    pub address_size: u64,
    pub lengths: Lengths,
    pub count: u64,
}

/// The sizes that an operation allows, by address size and opcode, both counted from 1.
static MIXES: LazyLock<Vec<Vec<Vec<Sizes>>>> = LazyLock::new(|| {
    let of_address_size = |address_size| {
        OPERATIONS.iter().map(|operation| operation.allowed_sizes(address_size)).collect()
    };
    SIZES.map(of_address_size).collect()
});

/// Makes random calls of the judge.
pub struct Generator {
    pub(crate) random: Random,
}

impl Generator {
    pub fn new(random: Random) -> Generator {
        Generator { random }
    }

    /// How many words to lend: once in a while too few for a report, or another number for settings.
    pub fn lent_words(&mut self) -> LentWords {
        let LentWords { settings, report } = LentWords::EXACT;
        if self.random.once_in(20) {
            return LentWords { settings, report: self.random.below(5) as usize };
        }
        let report = report + self.random.below(4) as usize;
        let settings = if self.random.once_in(20) {
            self.random.pick(&OTHER_SETTINGS_WORDS)
        } else {
            settings
        };
        LentWords { settings, report }
    }

    /// A call with a random list, damaged more often than not.
    pub fn call(&mut self) -> VerdictCall {
        let mut call = self.well_formed_call();
        let wounds = self.random.pick(&[0, 1, 1, 1, 1, 2, 3, 6]);
        for _ in 0..wounds {
            self.damage(&mut call);
        }
        call
    }

    /// A call that keeps every rule.
    pub fn well_formed_call(&mut self) -> VerdictCall {
        let settings = self.settings();
        let lengths =
            Lengths { unique: self.length(), register: self.length(), ram: self.length() };
        let frame = Frame { address_size: settings.address_size, lengths, count: self.count() };
        let entries: Vec<Entry> =
            (0..frame.count).map(|index| self.well_formed_entry(&frame, index)).collect();
        VerdictCall { settings, lengths, list: list_of(&entries) }
    }

    /// Settings in range.
    pub(crate) fn settings(&mut self) -> Settings {
        Settings {
            order: self.random.pick(&GOOD_ORDERS),
            address_size: self.size(),
            wordsizes: self.wordsizes(),
        }
    }

    /// Wordsizes in range: half of the time 1 in all spaces, else any in each, or one in all.
    fn wordsizes(&mut self) -> Wordsizes {
        let [unique, register, ram] = [(); 3].map(|()| self.size());
        match self.random.below(8) {
            0..=3 => Wordsizes::ONE,
            4 => Wordsizes { unique, register: unique, ram: unique },
            _ => Wordsizes { unique, register, ram },
        }
    }

    /// A size of a varnode.
    pub(crate) fn size(&mut self) -> u64 {
        1 + self.random.below(*SIZES.end())
    }

    /// How many bytes a space has: mostly few.
    fn length(&mut self) -> u64 {
        match self.random.below(16) {
            0 => LONGEST_SPACE,
            1 => self.random.below(LONGEST_SPACE),
            2..=4 => self.random.below(10),
            _ => self.random.below(65),
        }
    }

    /// How many operations a list has: mostly few.
    fn count(&mut self) -> u64 {
        match self.random.below(3_000) {
            0 => MOST_OPERATIONS as u64,
            1 => self.random.below(MOST_OPERATIONS as u64),
            _ => self.random.below(21),
        }
    }

    /// An operation that keeps every rule at this index. BRANCH, at least, always has room.
    fn well_formed_entry(&mut self, frame: &Frame, index: u64) -> Entry {
        loop {
            let operation = self.random.pick(&OPERATIONS);
            if let Some(entry) = self.entry_with_room(&operation, frame, index) {
                return entry;
            }
        }
    }

    /// An operation with sizes that go together, if there is room for the varnodes that are drawn.
    pub(crate) fn entry_with_room(
        &mut self,
        operation: &Operation,
        frame: &Frame,
        index: u64,
    ) -> Option<Entry> {
        let mixes = &MIXES[frame.address_size as usize - 1][operation.number() as usize - 1];
        let sizes = self.random.pick(mixes);
        let mut varnodes = [None; 4];
        if operation.has_output {
            varnodes[0] = Some(self.output(sizes.output, &frame.lengths)?);
        }
        varnodes[1] = Some(self.input0(operation, sizes.input0, frame, index)?);
        if operation.input_count > 1 {
            varnodes[2] = Some(self.input1(operation, sizes.input1, &frame.lengths)?);
        }
        if operation.input_count > 2 {
            let size = self.size();
            varnodes[3] = Some(self.input(size, &frame.lengths)?);
        }
        Some(Entry::new(operation.opcode as u8, varnodes))
    }

    fn input0(
        &mut self,
        operation: &Operation,
        size: u64,
        frame: &Frame,
        index: u64,
    ) -> Option<Varnode> {
        match operation.opcode {
            Opcode::Load | Opcode::Store => Some(self.space_number(size)),
            _ if operation.has_destination() => Some(self.destination(size, index, frame.count)),
            _ => self.input(size, &frame.lengths),
        }
    }

    fn input1(&mut self, operation: &Operation, size: u64, lengths: &Lengths) -> Option<Varnode> {
        if operation.opcode == Opcode::Subpiece {
            return Some(self.constant(size));
        }
        self.input(size, lengths)
    }

    /// A varnode to write, if there is room for one.
    pub(crate) fn output(&mut self, size: u64, lengths: &Lengths) -> Option<Varnode> {
        let space = self.random.pick(&[UNIQUE, REGISTER, RAM]);
        let last = lengths.of(space)?.checked_sub(size)?;
        let offset = if self.random.once_in(4) { last } else { self.random.below(last + 1) };
        Some(Varnode { space, offset, size })
    }

    /// A varnode to read, if there is room for one: once in four a constant.
    pub(crate) fn input(&mut self, size: u64, lengths: &Lengths) -> Option<Varnode> {
        if self.random.once_in(4) {
            return Some(self.constant(size));
        }
        self.output(size, lengths)
    }

    pub(crate) fn constant(&mut self, size: u64) -> Varnode {
        Varnode { space: CONSTANT, offset: self.random.operand(size), size }
    }

    /// The space of a LOAD or a STORE.
    fn space_number(&mut self, size: u64) -> Varnode {
        Varnode { space: CONSTANT, offset: self.random.pick(&[UNIQUE, REGISTER, RAM]), size }
    }

    /// A relative destination inside the list, or any address in ram.
    fn destination(&mut self, size: u64, index: u64, count: u64) -> Varnode {
        if self.random.once_in(3) {
            return Varnode { space: RAM, offset: self.random.operand(8), size };
        }
        let inside = self.random.below(count + 1);
        let target = self.random.pick(&[0, inside, inside, count]);
        Varnode { space: CONSTANT, offset: target.wrapping_sub(index), size }
    }

    /// Changes one thing, which mostly breaks a rule.
    fn damage(&mut self, call: &mut VerdictCall) {
        match self.random.below(40) {
            0 => self.damage_settings(&mut call.settings),
            1 => self.damage_lengths(&mut call.lengths),
            2 => self.damage_word_count(&mut call.list),
            3 | 4 => self.damage_order(&mut call.list),
            _ => self.damage_operation(call),
        }
    }

    pub(crate) fn damage_settings(&mut self, settings: &mut Settings) {
        match self.random.below(4) {
            0 => settings.order = self.random.pick(&GOOD_AND_BAD_ORDERS),
            1 => settings.address_size = self.random.pick(&GOOD_AND_BAD_SIZES),
            _ => self.damage_wordsize(&mut settings.wordsizes),
        }
    }

    fn damage_wordsize(&mut self, wordsizes: &mut Wordsizes) {
        let wordsize = self.random.pick(&BAD_WORDSIZES);
        match self.random.below(3) {
            0 => wordsizes.unique = wordsize,
            1 => wordsizes.register = wordsize,
            _ => wordsizes.ram = wordsize,
        }
    }

    fn damage_lengths(&mut self, lengths: &mut Lengths) {
        let any = self.random.word();
        let short = self.random.below(9);
        let length = self.random.pick(&[short, LONGEST_SPACE + 1, 1 << 32, u64::MAX, any]);
        match self.random.below(3) {
            0 => lengths.unique = length,
            1 => lengths.register = length,
            _ => lengths.ram = length,
        }
    }

    /// Takes words away, adds some, or repeats the list until it has one operation too many.
    pub(crate) fn damage_word_count(&mut self, list: &mut Vec<u64>) {
        let words = 1 + self.random.below(2 * WORDS_PER_OPERATION as u64) as usize;
        match self.random.below(10) {
            0 if !list.is_empty() => {
                let too_many = (MOST_OPERATIONS + 1) * WORDS_PER_OPERATION;
                *list = list.iter().copied().cycle().take(too_many).collect();
            }
            1..=4 => list.truncate(list.len().saturating_sub(words)),
            _ => list.resize(list.len() + words, 0),
        }
    }

    /// Exchanges two operations, or leaves one out: other targets of branches.
    pub(crate) fn damage_order(&mut self, list: &mut Vec<u64>) {
        let Some((one, other)) = self.index(list).zip(self.index(list)) else {
            return;
        };
        if self.random.once_in(2) {
            let (operations, _) = list.as_chunks_mut::<WORDS_PER_OPERATION>();
            operations.swap(one, other);
        } else {
            let start = one * WORDS_PER_OPERATION;
            list.drain(start..start + WORDS_PER_OPERATION);
        }
    }

    /// The index of some operation, if there is one.
    fn index(&mut self, list: &[u64]) -> Option<usize> {
        let count = list.len() / WORDS_PER_OPERATION;
        (count > 0).then(|| self.random.below(count as u64) as usize)
    }

    pub(crate) fn damage_operation(&mut self, call: &mut VerdictCall) {
        let Some(index) = self.index(&call.list) else {
            return;
        };
        let count = call.list.len() / WORDS_PER_OPERATION;
        let mut entry = entry_at(&call.list, index);
        match self.random.below(10) {
            0 => self.damage_head(&mut entry),
            1..=5 => self.damage_descriptor(&mut entry),
            6..=8 => self.damage_offset(&mut entry, &call.lengths, index as u64, count as u64),
            _ => self.exchange_varnodes(&mut entry),
        }
        put_entry(&mut call.list, index, &entry);
    }

    fn damage_head(&mut self, entry: &mut Entry) {
        let byte = self.random.word() as u8;
        let spare = self.random.below(3) as usize;
        match self.random.below(8) {
            0 => entry.opcode = byte,
            1 => entry.opcode = self.random.pick(&[0, 43]),
            2 | 3 => entry.opcode = 1 + byte % OPERATIONS.len() as u8,
            _ => entry.spare[spare] = self.random.pick(&[1, 0x10, 0x80, byte]),
        }
    }

    /// A place of the operation, more often than not one where a varnode is.
    fn place(&mut self, entry: &Entry) -> usize {
        let present: Vec<usize> = PLACES.filter(|&place| entry.descriptors[place] != 0).collect();
        if present.is_empty() || self.random.once_in(6) {
            return self.random.below(PLACES.len() as u64) as usize;
        }
        self.random.pick(&present)
    }

    /// Another space, another size, any byte, or nothing at all.
    fn damage_descriptor(&mut self, entry: &mut Entry) {
        let place = self.place(entry);
        let byte = self.random.word() as u8;
        let descriptor = entry.descriptors[place];
        entry.descriptors[place] = match self.random.below(12) {
            0 => byte,
            1 => 0,
            2..=6 => 16 * (1 + byte % 4) + descriptor % 16,
            7..=9 => descriptor / 16 * 16 + 1 + byte % 8,
            10 => byte / 16 * 16 + descriptor % 16,
            _ => descriptor / 16 * 16 + byte % 16,
        };
        if self.random.once_in(4) {
            entry.offsets[place] = 0;
        }
    }

    /// An offset around the end of a space, of the constants or of the list, or any.
    fn damage_offset(&mut self, entry: &mut Entry, lengths: &Lengths, index: u64, count: u64) {
        let place = self.place(entry);
        let Varnode { space, offset, size } =
            varnode(entry.descriptors[place], entry.offsets[place]);
        let end = match lengths.of(space) {
            Some(len) => len.wrapping_sub(size),
            None => first_value_too_large(size.min(8)).unwrap_or(u64::MAX),
        };
        let after_end = count - index;
        let before_start = index.wrapping_neg();
        let step = self.random.below(4).wrapping_sub(1);
        entry.offsets[place] = match self.random.below(8) {
            0..=2 => end.wrapping_add(step),
            3 => after_end.wrapping_add(step),
            4 => before_start.wrapping_sub(step),
            5 => self.random.pick(&LARGE_OFFSETS),
            6 => offset ^ (1 << self.random.below(64)),
            _ => self.random.below(20),
        };
    }

    fn exchange_varnodes(&mut self, entry: &mut Entry) {
        let one = self.place(entry);
        let other = self.place(entry);
        entry.descriptors.swap(one, other);
        entry.offsets.swap(one, other);
    }
}

/// The entry at an index of a list.
pub fn entry_at(list: &[u64], index: usize) -> Entry {
    let (operations, _) = list.as_chunks::<WORDS_PER_OPERATION>();
    Entry::from_words(operations[index])
}

fn put_entry(list: &mut [u64], index: usize, entry: &Entry) {
    let (operations, _) = list.as_chunks_mut::<WORDS_PER_OPERATION>();
    operations[index] = entry.words();
}
