//! The loops that are timed. They go on until the budget ends them.

use crate::library::{Labels, Program, State, JOURNAL_WORDS};

/// A program and what it starts with.
pub struct Loop {
    pub name: &'static str,
    /// The size in bytes of what is counted, copied, packed and pointed with. A condition has 1, and each half of
    /// what is packed half of it.
    pub size: u64,
    pub program: Program,
    pub state: State,
    /// How many bytes of register are secret, from the first on.
    pub secret_bytes: usize,
}

impl Loop {
    /// The labels that it starts with.
    pub fn labels(&self) -> Labels {
        Labels::with_secret_register(&self.state, self.secret_bytes)
    }

    pub fn order_name(&self) -> &'static str {
        if self.program.order == BIG {
            "big"
        } else {
            "little"
        }
    }
}

const LITTLE: u64 = 0;
const BIG: u64 = 1;

/// The sizes that have a fast way, in both byte orders.
const SIZES_AND_ORDERS: [(u64, u64); 6] =
    [(8, LITTLE), (4, LITTLE), (1, LITTLE), (8, BIG), (4, BIG), (1, BIG)];

/// The counting and the copying loop, with room in the log for this many operations. The first two are
/// those of size 8 in little order.
pub fn loops(operations: u32) -> Vec<Loop> {
    let mut loops = Vec::new();
    for (size, order) in SIZES_AND_ORDERS {
        loops.push(counting_loop(operations, size, order));
        loops.push(copying_loop(operations, size, order));
    }
    loops
}

/// The branching loop, with so many log words.
pub fn branching_loops(log_words: u32) -> Vec<Loop> {
    SIZES_AND_ORDERS.map(|(size, order)| branching_loop(log_words, size, order)).into()
}

/// The packing loop, for each size that has two halves, with room in the log for this many operations.
pub fn packing_loops(operations: u32) -> Vec<Loop> {
    let sizes_and_orders = SIZES_AND_ORDERS.into_iter().filter(|(size, _)| size % 2 == 0);
    sizes_and_orders.map(|(size, order)| packing_loop(operations, size, order)).collect()
}

/// The marking loop, with room in the log for this many operations.
pub fn marking_loops(operations: u32) -> Vec<Loop> {
    SIZES_AND_ORDERS.map(|(size, order)| marking_loop(operations, size, order)).into()
}

/// A distance of a branch.
fn back(operations: i64) -> u64 {
    -operations as u64
}

/// The first word of an operation: its opcode, and a space and a size for each varnode.
fn head(opcode: u64, varnodes: &[(u64, u64)]) -> u64 {
    let byte =
        |(place, (space, size)): (usize, &(u64, u64))| (16 * space + size) << (8 * place + 8);
    opcode + varnodes.iter().enumerate().map(byte).sum::<u64>()
}

const ABSENT: (u64, u64) = (0, 0);
/// The condition of a CBRANCH, one byte of unique.
const CONDITION: (u64, u64) = (2, 1);
/// A constant that names a space.
const SPACE: (u64, u64) = (1, 1);
/// A constant number of bytes.
const COUNT: (u64, u64) = (1, 1);
/// A constant distance.
const DISTANCE: (u64, u64) = (1, 8);
const RAM: u64 = 4;
/// A condition that is always true.
const ALWAYS: (u64, u64) = (1, 1);

/// Counts in one register and adds the count to another, four operations a round.
fn counting_loop(operations: u32, size: u64, order: u64) -> Loop {
    let register = (3, size);
    let constant = (1, size);
    let list = [
        // INT_ADD: count = count + 1.
        [head(21, &[register, register, constant]), 0, 0, 1, 0],
        // INT_ADD: sum = sum + count.
        [head(21, &[register, register, register]), 8, 8, 0, 0],
        // INT_NOTEQUAL: whether the count has not wrapped.
        [head(14, &[CONDITION, register, constant]), 0, 0, 0, 0],
        // CBRANCH: the next round.
        [head(5, &[ABSENT, DISTANCE, CONDITION]), 0, back(3), 0, 0],
        // BRANCH: all of it again.
        [head(4, &[ABSENT, DISTANCE]), 0, back(4), 0, 0],
    ];
    let program = Program { order, address_size: size, list: list.concat() };
    Loop { name: "counting", size, program, state: state(operations, 0), secret_bytes: 0 }
}

/// Copies the lower half of ram to the upper half, word by word through two pointers, again and
/// again: six operations a word.
fn copying_loop(operations: u32, size: u64, order: u64) -> Loop {
    // As much ram as a pointer reaches, and at most 65,536 bytes.
    let half = if size == 1 { 128 } else { 32_768 };
    let register = (3, size);
    let constant = (1, size);
    let word = (2, size);
    let list = [
        // COPY: the source starts at the lower half.
        [head(1, &[register, constant]), 0, 0, 0, 0],
        // COPY: the target starts at the upper half.
        [head(1, &[register, constant]), 8, half, 0, 0],
        // LOAD: word = ram[source].
        [head(2, &[word, SPACE, register]), 8, RAM, 0, 0],
        // STORE: ram[target] = word.
        [head(3, &[ABSENT, SPACE, register, word]), 0, RAM, 8, 8],
        // INT_ADD: source = source + size.
        [head(21, &[register, register, constant]), 0, 0, size, 0],
        // INT_ADD: target = target + size.
        [head(21, &[register, register, constant]), 8, 8, size, 0],
        // INT_LESS: whether the source is still in the lower half.
        [head(15, &[CONDITION, register, constant]), 0, 0, half, 0],
        // CBRANCH: the next word.
        [head(5, &[ABSENT, DISTANCE, CONDITION]), 0, back(5), 0, 0],
        // BRANCH: all of it again.
        [head(4, &[ABSENT, DISTANCE]), 0, back(8), 0, 0],
    ];
    let program = Program { order, address_size: size, list: list.concat() };
    let state = state(operations, 2 * half as usize);
    Loop { name: "copying", size, program, state, secret_bytes: 0 }
}

/// Takes a word apart, extends its halves and exchanges them: six operations a round, of which five move
/// bytes, and labels with them, by significance. One half of the word is negative, in either size and order.
fn packing_loop(operations: u32, size: u64, order: u64) -> Loop {
    let half = size / 2;
    let word = (3, size);
    let part = (2, half);
    let list = [
        // SUBPIECE: the low half of the word.
        [head(11, &[part, word, COUNT]), 0, 0, 0, 0],
        // SUBPIECE: its high half.
        [head(11, &[part, word, COUNT]), 8, 0, half, 0],
        // INT_ZEXT: the low half as a word.
        [head(19, &[word, part]), 8, 0, 0, 0],
        // INT_SEXT: the high half as a word.
        [head(20, &[word, part]), 16, 8, 0, 0],
        // PIECE: the word with its halves exchanged.
        [head(10, &[word, part, part]), 0, 0, 8, 0],
        // CBRANCH: the next round.
        [head(5, &[ABSENT, DISTANCE, ALWAYS]), 0, back(5), 1, 0],
    ];
    let program = Program { order, address_size: size, list: list.concat() };
    let mut state = state(operations, 0);
    state.register[..8].copy_from_slice(&[0x81, 2, 3, 0x84, 5, 6, 7, 8]);
    Loop { name: "packing", size, program, state, secret_bytes: 0 }
}

/// Makes a word secret and public again: three operations a round, of which two change each label of what they write,
/// and so move the counts.
fn marking_loop(operations: u32, size: u64, order: u64) -> Loop {
    let word = (3, size);
    let list = [
        // COPY: the word becomes secret.
        [head(1, &[word, word]), 8, 0, 0, 0],
        // COPY: it becomes public.
        [head(1, &[word, (1, size)]), 8, 0, 0, 0],
        // CBRANCH: the next round.
        [head(5, &[ABSENT, DISTANCE, ALWAYS]), 0, back(2), 1, 0],
    ];
    let program = Program { order, address_size: size, list: list.concat() };
    Loop {
        name: "marking",
        size,
        program,
        state: state(operations, 0),
        secret_bytes: size as usize,
    }
}

/// Counts, and adds every other count to a sum: a round has four or five operations, of which two are
/// CBRANCHes. It goes on for ever on every way, so each CBRANCH has a window of as many operations as it
/// may have.
fn branching_loop(log_words: u32, size: u64, order: u64) -> Loop {
    let register = (3, size);
    let constant = (1, size);
    let bit = (2, size);
    // The byte that has the lowest bit.
    let low = if order == BIG { size - 1 } else { 0 };
    let list = [
        // INT_ADD: count = count + 1.
        [head(21, &[register, register, constant]), 0, 0, 1, 0],
        // INT_AND: whether the count is odd.
        [head(29, &[bit, register, constant]), 0, 0, 1, 0],
        // CBRANCH: past the next, where it is.
        [head(5, &[ABSENT, DISTANCE, CONDITION]), 0, 2, low, 0],
        // INT_ADD: sum = sum + count.
        [head(21, &[register, register, register]), 8, 8, 0, 0],
        // CBRANCH: the next round.
        [head(5, &[ABSENT, DISTANCE, ALWAYS]), 0, back(4), 1, 0],
        // BRANCH: all of it again.
        [head(4, &[ABSENT, DISTANCE]), 0, back(5), 0, 0],
    ];
    let program = Program { order, address_size: size, list: list.concat() };
    Loop { name: "branching", size, program, state: state(log_words, 0), secret_bytes: 0 }
}

fn state(operations: u32, ram_len: usize) -> State {
    State {
        unique: vec![0; 64],
        register: vec![0; 64],
        ram: (0..ram_len).map(|offset| offset as u8).collect(),
        log: vec![0; operations as usize],
        journal: vec![0; JOURNAL_WORDS],
    }
}

/// Lists of 4,000 times the same operation on 8 bytes: each that moves bytes, and two that compute. Some have it in turn
/// on secret and on public bytes, so that each changes 8 labels of what it writes, or one. They have room in the log for
/// this many operations.
pub fn repeated_operations(operations: u32) -> Vec<Loop> {
    let (word, half, constant) = ((3, 8), (3, 4), (1, 8));
    let copy = |from| [head(1, &[word, word]), 8, from, 0, 0];
    let store = |from| [head(3, &[ABSENT, SPACE, constant, word]), 0, RAM, 0, from];
    let add = |from| [head(21, &[word, word, word]), 8, from, from, 0];
    // What stands at 16 is public.
    let lists = [
        ("COPY", vec![copy(0)], 0),
        ("LOAD", vec![[head(2, &[word, SPACE, constant]), 8, RAM, 0, 0]], 0),
        ("STORE", vec![store(0)], 0),
        ("PIECE", vec![[head(10, &[word, half, half]), 8, 0, 4, 0]], 0),
        ("SUBPIECE", vec![[head(11, &[half, word, COUNT]), 8, 0, 1, 0]], 0),
        ("INT_ZEXT", vec![[head(19, &[word, half]), 8, 0, 0, 0]], 0),
        ("INT_SEXT", vec![[head(20, &[word, half]), 8, 0, 0, 0]], 0),
        ("INT_ADD", vec![add(0)], 0),
        ("INT_NOTEQUAL", vec![[head(14, &[CONDITION, word, word]), 0, 0, 8, 0]], 0),
        ("COPY, 1 label", vec![copy(0), copy(16)], 1),
        ("COPY, 8 labels", vec![copy(0), copy(16)], 8),
        ("STORE, 8 labels", vec![store(0), store(16)], 8),
        ("INT_ADD, 8 labels", vec![add(0), add(16)], 8),
    ];
    let in_both_orders = |(name, by_turns, secret_bytes): (_, Vec<[u64; 5]>, _)| {
        let list = by_turns.repeat(4_000 / by_turns.len()).concat();
        [LITTLE, BIG].map(|order| Loop {
            name,
            size: 8,
            program: Program { order, address_size: 8, list: list.clone() },
            state: state(operations, 8),
            secret_bytes,
        })
    };
    lists.into_iter().flat_map(in_both_orders).collect()
}

/// A list of so many INT_ADD operations, and ram of so many bytes.
pub fn straight(operations: usize, ram_len: usize) -> (Program, State) {
    let add = [head(21, &[(3, 8), (3, 8), (3, 8)]), 0, 8, 16, 0];
    let program = Program { order: LITTLE, address_size: 8, list: vec![add; operations].concat() };
    (program, state(0, ram_len))
}
