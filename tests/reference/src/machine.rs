//! One operation of a well-formed list: its checks in their order, and then what it does. The
//! plain machine is the one without labels.

use crate::arithmetic::value;
use crate::bytes::{self, ByteOrder};
use crate::counts::SecretCounts;
use crate::fault;
use crate::labels::{int_sext, int_zext, labels_of, piece, set_labels, subpiece, whole};
use crate::list::{Entry, WORDS_PER_OPERATION};
use crate::memory::{is_secret, value_of, Spaces};
use crate::opcodes::{Opcode, Operation};
use crate::varnode::{Varnode, Wordsizes, CONSTANT};
use crate::verdict::{decoded, Varnodes};

/// What a run is lent to read and write. A plain run has no labels, and no counts of them.
#[derive(Clone, Debug, PartialEq, Eq)]
pub struct State {
    pub memory: Spaces,
    pub labels: Option<Spaces>,
    pub counts: SecretCounts,
    pub log: Vec<u64>,
}

impl State {
    /// The state of a plain run.
    pub fn plain(memory: Spaces, log: Vec<u64>) -> State {
        State { memory, labels: None, counts: SecretCounts::default(), log }
    }

    /// The state of a labelled run whose counts are those of its labels.
    pub fn labelled(memory: Spaces, labels: Spaces, log: Vec<u64>) -> State {
        let counts = SecretCounts::of(&labels);
        State { memory, labels: Some(labels), counts, log }
    }
}

/// What comes after an operation.
#[derive(Clone, Copy, Debug, PartialEq, Eq)]
pub enum Next {
    /// The run goes on at this index, which may be the end of the list.
    Index(usize),
    /// The run ends with this destination.
    Exit(u64),
}

/// What an operation did.
#[derive(Clone, Copy, Debug, PartialEq, Eq)]
pub struct Executed {
    pub next: Next,
    /// The bytes that it wrote, if it wrote any.
    pub written: Option<Varnode>,
}

/// A list while it runs.
pub struct Machine<'a> {
    order: ByteOrder,
    wordsizes: Wordsizes,
    operations: &'a [[u64; WORDS_PER_OPERATION]],
    state: &'a mut State,
    log_words: usize,
    mark: u64,
}

impl<'a> Machine<'a> {
    /// A machine for a well-formed list, with an empty log.
    pub fn new(
        order: ByteOrder,
        wordsizes: Wordsizes,
        operations: &'a [[u64; WORDS_PER_OPERATION]],
        state: &'a mut State,
    ) -> Machine<'a> {
        Machine { order, wordsizes, operations, state, log_words: 0, mark: 0 }
    }

    /// How many operations the list has.
    pub fn count(&self) -> usize {
        self.operations.len()
    }

    /// How many log words were written.
    pub fn log_words(&self) -> usize {
        self.log_words
    }

    /// The opcode of the operation at an index.
    pub fn opcode(&self, index: usize) -> Opcode {
        self.decode(index).operation.opcode
    }

    /// What the machine reads and writes.
    pub fn state(&mut self) -> &mut State {
        self.state
    }

    /// Adds a number to each log word from now on.
    pub fn mark_log_words(&mut self, mark: u64) {
        self.mark = mark;
    }

    /// The way that the CBRANCH at an index does not take, if there is a CBRANCH.
    pub fn other_way(&self, index: usize) -> Option<Next> {
        let instruction = self.decode(index);
        let is_cbranch = instruction.operation.opcode == Opcode::Cbranch;
        is_cbranch.then(|| match self.is_taken(&instruction) {
            true => Next::Index(index + 1),
            false => instruction.destination(index),
        })
    }

    /// Executes the operation at an index, or names what stops it. A stopped one writes nothing.
    pub fn execute(&mut self, index: usize) -> Result<Executed, u64> {
        let instruction = self.decode(index);
        if self.leaks(&instruction) {
            return Err(fault::LEAK);
        }
        if !self.is_in_bounds(&instruction) {
            return Err(fault::BOUNDS);
        }
        if self.divides_by_zero(&instruction) {
            return Err(fault::ZERO);
        }
        let log_word = self.log_word(&instruction, index);
        if log_word.is_some() && self.log_words == self.state.log.len() {
            return Err(fault::LOG);
        }
        // All that is read is read before anything is written.
        let write = self.write_of(&instruction);
        let next = self.next(&instruction, index);
        let written = write.as_ref().map(|write| write.target);
        self.write_log(log_word);
        self.write_target(write);
        Ok(Executed { next, written })
    }

    fn decode(&self, index: usize) -> Instruction {
        let entry = Entry::from_words(self.operations[index]);
        let (operation, varnodes) = decoded(&entry).expect("the list is well-formed");
        Instruction { operation, varnodes }
    }

    fn value(&self, varnode: &Varnode) -> u64 {
        value_of(self.order, &self.state.memory, varnode)
    }

    /// Whether a secret byte stands where only public ones may decide.
    fn leaks(&self, instruction: &Instruction) -> bool {
        let Some(labels) = &self.state.labels else {
            return false;
        };
        instruction.must_be_public().iter().flatten().any(|varnode| is_secret(labels, varnode))
    }

    /// The byte offset of a LOAD or a STORE: the pointer times the wordsize of the space that input0
    /// names. It is a whole number, which 64 bits need not hold.
    fn byte_offset(&self, instruction: &Instruction) -> u128 {
        let pointer = self.value(&instruction.input1());
        let wordsize = self.wordsizes.of(instruction.varnodes.input0.offset);
        u128::from(pointer) * u128::from(wordsize.expect("rule 23 names a lent space"))
    }

    /// The sum of byte offset and size does not wrap.
    fn is_in_bounds(&self, instruction: &Instruction) -> bool {
        let lengths = self.state.memory.lengths();
        let space = instruction.varnodes.input0.offset;
        instruction
            .pointed_to_size()
            .is_none_or(|size| lengths.contain_bytes(space, self.byte_offset(instruction), size))
    }

    /// The bytes that a LOAD reads or a STORE writes, where it is in bounds.
    fn pointed_to(&self, instruction: &Instruction) -> Option<Varnode> {
        let size = instruction.pointed_to_size()?;
        let offset = u64::try_from(self.byte_offset(instruction)).expect("an offset in bounds");
        Some(Varnode { space: instruction.varnodes.input0.offset, offset, size })
    }

    fn divides_by_zero(&self, instruction: &Instruction) -> bool {
        instruction.operation.divides() && self.value(&instruction.input1()) == 0
    }

    /// Whether a CBRANCH is taken: any byte but 0 is true.
    fn is_taken(&self, instruction: &Instruction) -> bool {
        self.value(&instruction.input1()) != 0
    }

    /// The log word that is due: index * 2^32 plus the byte offset, or plus 1 if taken.
    fn log_word(&self, instruction: &Instruction, index: usize) -> Option<u64> {
        let detail = match instruction.operation.opcode {
            Opcode::Load | Opcode::Store => self.pointed_to(instruction)?.offset,
            Opcode::Cbranch => u64::from(self.is_taken(instruction)),
            _ => return None,
        };
        Some(index as u64 * (1 << 32) + detail)
    }

    /// What the operation writes, if it writes anything.
    fn write_of(&self, instruction: &Instruction) -> Option<Write> {
        let varnodes = &instruction.varnodes;
        let (target, value) = match instruction.operation.opcode {
            Opcode::Copy => (instruction.output(), self.value(&varnodes.input0)),
            Opcode::Load => (instruction.output(), self.value(&self.pointed_to(instruction)?)),
            Opcode::Store => (self.pointed_to(instruction)?, self.value(&instruction.input2())),
            opcode if instruction.operation.is_integer() => {
                let a = self.value(&varnodes.input0);
                let b = varnodes.input1.map_or(0, |input1| self.value(&input1));
                (instruction.output(), value(opcode, varnodes.sizes(), a, b))
            }
            _ => return None,
        };
        let labels = self.state.labels.as_ref();
        let labels = labels.map(|labels| self.written_labels(instruction, target.size, labels));
        Some(Write { target, value, labels })
    }

    /// The labels of the `size` bytes that the operation writes, from the least significant byte on. Where
    /// bytes are moved, labels go with them; else the whole output is secret if anything read is.
    fn written_labels(&self, instruction: &Instruction, size: u64, labels: &Spaces) -> Vec<u8> {
        let of = |varnode: &Varnode| labels_of(self.order, labels, varnode);
        let Varnodes { input0, input1, .. } = &instruction.varnodes;
        match instruction.operation.opcode {
            Opcode::Copy => of(input0),
            // The pointer is public: a secret one has leaked before.
            Opcode::Load => of(&self.pointed_to(instruction).expect("a LOAD in bounds")),
            Opcode::Store => of(&instruction.input2()),
            Opcode::Piece => piece(of(input0), of(&instruction.input1())),
            Opcode::Subpiece => subpiece(of(input0), self.value(&instruction.input1()), size),
            Opcode::IntZext => int_zext(of(input0), size),
            Opcode::IntSext => int_sext(of(input0), size),
            _ => {
                let mut read = [Some(input0), input1.as_ref()].into_iter().flatten();
                whole(read.any(|varnode| is_secret(labels, varnode)), size)
            }
        }
    }

    fn next(&self, instruction: &Instruction, index: usize) -> Next {
        match instruction.operation.opcode {
            Opcode::Branch | Opcode::Call => instruction.destination(index),
            Opcode::Cbranch if self.is_taken(instruction) => instruction.destination(index),
            Opcode::BranchInd | Opcode::CallInd | Opcode::Return => {
                Next::Exit(self.value(&instruction.varnodes.input0))
            }
            _ => Next::Index(index + 1),
        }
    }

    fn write_log(&mut self, log_word: Option<u64>) {
        if let Some(word) = log_word {
            self.state.log[self.log_words] = word + self.mark;
            self.log_words += 1;
        }
    }

    fn write_target(&mut self, write: Option<Write>) {
        let Some(Write { target, value, labels: written }) = write else {
            return;
        };
        let State { memory, labels, counts, .. } = &mut self.state;
        bytes::write(self.order, value, memory.part_mut(&target));
        if let Some((labels, written)) = labels.as_mut().zip(written) {
            let before = labels.part(&target).to_vec();
            set_labels(self.order, written, labels, &target);
            counts.follow_write(&labels.lengths(), &target, &before, labels.part(&target));
        }
    }
}

/// What an operation writes: a value, and in a labelled run a label for each of its bytes, from the least
/// significant one on.
struct Write {
    target: Varnode,
    value: u64,
    labels: Option<Vec<u8>>,
}

/// A well-formed operation and its varnodes.
struct Instruction {
    operation: &'static Operation,
    varnodes: Varnodes,
}

impl Instruction {
    fn output(&self) -> Varnode {
        self.varnodes.output.expect("rule 22 gives this operation an output")
    }

    fn input1(&self) -> Varnode {
        self.varnodes.input1.expect("rule 22 gives this operation an input1")
    }

    fn input2(&self) -> Varnode {
        self.varnodes.input2.expect("rule 22 gives this operation an input2")
    }

    /// How many bytes a LOAD reads or a STORE writes through its pointer.
    fn pointed_to_size(&self) -> Option<u64> {
        match self.operation.opcode {
            Opcode::Load => Some(self.output().size),
            Opcode::Store => Some(self.input2().size),
            _ => None,
        }
    }

    /// The varnodes that LEAK looks at: a pointer, a condition, an indirect destination, or both
    /// operands of a division, since its time depends on both.
    fn must_be_public(&self) -> [Option<Varnode>; 2] {
        match self.operation.opcode {
            Opcode::Load | Opcode::Store => [Some(self.input1()), None],
            Opcode::Cbranch => [Some(self.input1()), None],
            Opcode::BranchInd | Opcode::CallInd | Opcode::Return => {
                [Some(self.varnodes.input0), None]
            }
            _ if self.operation.divides() => [Some(self.varnodes.input0), Some(self.input1())],
            _ => [None, None],
        }
    }

    /// Where a BRANCH, a CALL or a taken CBRANCH goes. A constant is a signed distance, of the whole
    /// offset word; an address in ram is not looked up in ram.
    fn destination(&self, index: usize) -> Next {
        let Varnode { space, offset, .. } = self.varnodes.input0;
        if space != CONSTANT {
            return Next::Exit(offset);
        }
        let target = index as i128 + i128::from(offset as i64);
        Next::Index(usize::try_from(target).expect("rule 26 keeps destinations in the list"))
    }
}
