//! What runs did with pointers and wordsizes, counted, so that a test can ask for enough of each.

use std::array::from_fn;

use reference::arithmetic::{fits, modulus};
use reference::bytes::ByteOrder;
use reference::fault::{BOUNDS, LEAK};
use reference::list::{varnode, Entry, WORDS_PER_OPERATION};
use reference::memory::{value_of, Spaces};
use reference::opcodes::Opcode;
use reference::run::Program;
use reference::varnode::{Varnode, Wordsizes, CONSTANT};
use reference::verdict::Settings;

use crate::counts::Counts;
use crate::inputs::{GOOD_ORDERS, SIZES};
use crate::lists::{entry_at, PLACES};
use crate::runs::Case;

/// Whether settings are refused for a wordsize and for nothing else.
pub fn only_a_wordsize_is_refused(settings: &Settings) -> bool {
    GOOD_ORDERS.contains(&settings.order)
        && SIZES.contains(&settings.address_size)
        && !settings.wordsizes.all().iter().all(|wordsize| SIZES.contains(wordsize))
}

/// What can happen to LOAD and STORE: from `Run` on with a wordsize other than 1.
#[derive(Clone, Copy, Debug, PartialEq, Eq, PartialOrd, Ord)]
pub enum Event {
    /// Executed with pointer 0.
    PointerZero { wordsize: u64 },
    /// Three different wordsizes in a run, executed or stopped by BOUNDS.
    ThreeWordsizes,
    /// One or more in a run, executed or stopped by BOUNDS.
    Run,
    /// Executed.
    Executed { opcode: u64, space: u64, wordsize: u64 },
    /// Executed; no byte of the space comes after those accessed.
    LastByte { wordsize: u64 },
    /// Executed; the next pointer would be out of bounds.
    LastPointer,
    /// Executed; the product is no value of the address size.
    PastAddressSize,
    /// Stopped by BOUNDS; the pointer before would be in bounds.
    FirstPointerBeyond,
    /// Stopped by BOUNDS; the pointer itself would be in bounds as a byte offset.
    BeyondByMultiplying,
    /// Stopped by BOUNDS; the product is 2^64 or more.
    Past64Bits,
    /// The same; the product's low 64 bits would be in bounds.
    WrapsIntoSpace,
    /// Stopped by BOUNDS; the product, cut to the address size, would be in bounds.
    WrapsAtAddressSize,
    /// Stopped by LEAK.
    Leak,
}

/// How often each event came.
pub type Accesses = Counts<Event>;

impl Accesses {
    /// Counts what a run did, by what it left behind. Gives back whether that is an `Event::Run`.
    pub fn count(&mut self, after: &Case, report: &[u64; 5]) -> bool {
        let [ending, index, _, log_words, _] = *report;
        let Case { call, state } = after;
        let access_at = |index| Access::at(&call.program, &state.memory, index as usize);
        let mut wordsizes = Vec::new();
        for word in &state.log[..log_words as usize] {
            let (index, byte_offset) = (word >> 32, word % (1 << 32));
            let Some(access) = access_at(index) else { continue };
            self.count_executed(&access, byte_offset);
            wordsizes.push(access.wordsize);
        }
        // LEAK stops other operations too.
        let stopped = [BOUNDS, LEAK].contains(&ending).then(|| access_at(index)).flatten();
        match stopped.filter(|access| access.wordsize != 1) {
            Some(_) if ending == LEAK => self.add(Event::Leak),
            Some(access) => {
                self.count_beyond(&access, after);
                wordsizes.push(access.wordsize);
            }
            None => (),
        }
        wordsizes.sort();
        wordsizes.dedup();
        if wordsizes.len() == 3 {
            self.add(Event::ThreeWordsizes);
        }
        let is_wide = wordsizes.iter().any(|&wordsize| wordsize != 1);
        if is_wide {
            self.add(Event::Run);
        }
        is_wide
    }

    fn count_executed(&mut self, access: &Access, byte_offset: u64) {
        let &Access { opcode, space, wordsize, .. } = access;
        if byte_offset == 0 {
            self.add(Event::PointerZero { wordsize });
        }
        if wordsize == 1 {
            return;
        }
        let byte_offset = u128::from(byte_offset);
        self.add(Event::Executed { opcode: opcode as u64, space, wordsize });
        if !access.is_in_bounds(byte_offset + 1) {
            self.add(Event::LastByte { wordsize });
        }
        if !access.is_in_bounds(byte_offset + u128::from(wordsize)) {
            self.add(Event::LastPointer);
        }
        if byte_offset >= access.address_limit() {
            self.add(Event::PastAddressSize);
        }
    }

    fn count_beyond(&mut self, access: &Access, after: &Case) {
        // A stopped operation writes nothing, so its pointer is what it was.
        let pointer = access.pointer_value(&after.call.program.settings, &after.state.memory);
        let wordsize = u128::from(access.wordsize);
        let product = pointer * wordsize;
        if pointer > 0 && access.is_in_bounds(product - wordsize) {
            self.add(Event::FirstPointerBeyond);
        }
        if access.is_in_bounds(pointer) {
            self.add(Event::BeyondByMultiplying);
        }
        if product >= 1 << 64 {
            self.add(Event::Past64Bits);
            if access.is_in_bounds(product % (1 << 64)) {
                self.add(Event::WrapsIntoSpace);
            }
        }
        if access.is_in_bounds(product % access.address_limit()) {
            self.add(Event::WrapsAtAddressSize);
        }
    }
}

/// A LOAD or a STORE of a well-formed list, and what BOUNDS depends on besides its pointer's value.
pub(crate) struct Access {
    pub(crate) opcode: Opcode,
    pointer: Varnode,
    space: u64,
    size: u64,
    wordsize: u64,
    len: u64,
}

impl Access {
    /// The access at an index, if the operation there is one.
    pub(crate) fn at(program: &Program, memory: &Spaces, index: usize) -> Option<Access> {
        let entry = entry_at(&program.list, index);
        let opcode = access_opcode(&entry)?;
        let [output, input0, pointer, input2] = varnodes(&entry);
        let space = input0.offset;
        Some(Access {
            opcode,
            pointer,
            space,
            size: if opcode == Opcode::Load { output.size } else { input2.size },
            wordsize: program.settings.wordsizes.of(space)?,
            len: memory.lengths().of(space)?,
        })
    }

    fn pointer_value(&self, settings: &Settings, memory: &Spaces) -> u128 {
        let order = ByteOrder::with_number(settings.order).expect("a run with good settings");
        u128::from(value_of(order, memory, &self.pointer))
    }

    /// The bytes that are accessed, in bounds.
    pub(crate) fn place(&self, settings: &Settings, memory: &Spaces) -> Varnode {
        let product = self.pointer_value(settings, memory) * u128::from(self.wordsize);
        let offset = u64::try_from(product).expect("an access in bounds");
        Varnode { space: self.space, offset, size: self.size }
    }

    /// Whether all bytes from a byte offset on would be in the space.
    fn is_in_bounds(&self, byte_offset: u128) -> bool {
        byte_offset + u128::from(self.size) <= u128::from(self.len)
    }

    /// The least number that is no address.
    fn address_limit(&self) -> u128 {
        modulus(self.pointer.size)
    }
}

pub(crate) fn access_opcode(entry: &Entry) -> Option<Opcode> {
    [Opcode::Load, Opcode::Store].into_iter().find(|&opcode| opcode as u8 == entry.opcode)
}

/// The varnodes of an entry, absent ones too.
pub fn varnodes(entry: &Entry) -> [Varnode; PLACES.end] {
    from_fn(|place| varnode(entry.descriptors[place], entry.offsets[place]))
}

/// The same case with wordsizes of 1 and pointers that are byte offsets, if each LOAD and STORE has a
/// constant pointer whose product is a constant too. It should do the same.
pub fn with_byte_pointers(case: &Case) -> Option<Case> {
    let mut case = case.clone();
    let program = &mut case.call.program;
    let wordsizes = std::mem::replace(&mut program.settings.wordsizes, Wordsizes::ONE);
    let (operations, _) = program.list.as_chunks_mut::<WORDS_PER_OPERATION>();
    for words in operations {
        let mut entry = Entry::from_words(*words);
        if access_opcode(&entry).is_none() {
            continue;
        }
        let [_, input0, pointer, _] = varnodes(&entry);
        let byte_offset = pointer.offset.checked_mul(wordsizes.of(input0.offset)?)?;
        if pointer.space != CONSTANT || !fits(byte_offset, pointer.size) {
            return None;
        }
        entry.offsets[2] = byte_offset;
        *words = entry.words();
    }
    Some(case)
}

#[cfg(test)]
mod tests {
    use super::*;
    use reference::answers::RunCall;
    use reference::machine::State;
    use reference::memory::SECRET;
    use reference::run::run;
    use reference::varnode::{RAM, REGISTER, UNIQUE};

    /// LOAD of 2 bytes from ram of 8 bytes with wordsize 3, with this varnode as its pointer.
    fn load(pointer: Varnode) -> Case {
        let settings = Settings {
            order: 0,
            address_size: pointer.size,
            wordsizes: Wordsizes { ram: 3, ..Wordsizes::ONE },
        };
        let output = Varnode { space: UNIQUE, offset: 0, size: 2 };
        let space = Varnode { space: CONSTANT, offset: RAM, size: 1 };
        let entry =
            Entry::new(Opcode::Load as u8, [Some(output), Some(space), Some(pointer), None]);
        let program = Program { settings, list: entry.words().to_vec() };
        let memory = Spaces { unique: vec![0; 2], register: vec![1; 8], ram: vec![0; 8] };
        let mut labels = Spaces::of_lengths(&memory.lengths());
        labels.register.fill(SECRET);
        let state = State::labelled(memory, labels, vec![0; 1]);
        Case { call: RunCall { program, start: 0, budget: 1 }, state }
    }

    fn constant(offset: u64, size: u64) -> Varnode {
        Varnode { space: CONSTANT, offset, size }
    }

    /// What a case counts for, other than that a wordsize other than 1 came.
    fn events(mut case: Case) -> Vec<Event> {
        let report = run(&case.call.program, 0, case.call.budget, &mut case.state).numbers();
        let mut accesses = Accesses::default();
        let is_wide = accesses.count(&case, &report);
        assert_eq!(accesses.of(Event::Run), u64::from(is_wide));
        accesses.counted().filter(|&event| event != Event::Run).collect()
    }

    #[test]
    fn events_of_what_is_executed() {
        let executed = Event::Executed { opcode: 2, space: RAM, wordsize: 3 };
        let [zero, last_byte] =
            [Event::PointerZero { wordsize: 3 }, Event::LastByte { wordsize: 3 }];
        assert_eq!(events(load(constant(0, 8))), [zero, executed]);
        assert_eq!(events(load(constant(1, 8))), [executed]);
        assert_eq!(events(load(constant(2, 8))), [executed, last_byte, Event::LastPointer]);
    }

    #[test]
    fn events_of_what_is_stopped() {
        let first_beyond = [Event::FirstPointerBeyond, Event::BeyondByMultiplying];
        assert_eq!(events(load(constant(3, 8))), first_beyond);
        assert_eq!(events(load(constant(6, 8))), [Event::BeyondByMultiplying]);
        assert_eq!(events(load(constant(7, 8))), []);
        let wraps = [Event::Past64Bits, Event::WrapsIntoSpace, Event::WrapsAtAddressSize];
        assert_eq!(events(load(constant(u64::MAX / 3 + 1, 8))), wraps);
        assert_eq!(events(load(constant(u64::MAX / 3, 8))), []);
        assert_eq!(events(load(constant(u64::MAX, 8))), [Event::Past64Bits]);
        assert_eq!(events(load(constant(0x56, 1))), [Event::WrapsAtAddressSize]);
        assert_eq!(events(load(Varnode { space: REGISTER, offset: 0, size: 8 })), [Event::Leak]);
    }

    #[test]
    fn byte_pointers_are_products_that_are_constants() {
        let case = with_byte_pointers(&load(constant(2, 1))).expect("a product of 1 byte");
        assert_eq!(case.call.program.settings.wordsizes, Wordsizes::ONE);
        assert_eq!(entry_at(&case.call.program.list, 0).offsets, [0, RAM, 6, 0]);
        assert!(with_byte_pointers(&load(constant(0x55, 1))).is_some());
        assert!(with_byte_pointers(&load(constant(0x56, 1))).is_none());
        assert!(with_byte_pointers(&load(constant(u64::MAX / 3, 8))).is_some());
        assert!(with_byte_pointers(&load(constant(u64::MAX / 3 + 1, 8))).is_none());
        let in_register = Varnode { space: REGISTER, offset: 0, size: 8 };
        assert!(with_byte_pointers(&load(in_register)).is_none());
    }
}
