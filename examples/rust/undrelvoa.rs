//! The library for Rust: safe functions over the labelled and the speculative run of the C interface and the call that
//! counts secret bytes, and what an example needs of its numbers. The other calls of include/undrelvoa.h go the same way.

/// Byte order, address size, and for each space its wordsize: how many bytes a pointer of LOAD or STORE counts as one.
pub struct Settings {
    pub order: u64,
    pub address_size: u64,
    pub unique_wordsize: u64,
    pub register_wordsize: u64,
    pub ram_wordsize: u64,
}

impl Settings {
    /// Settings for spaces that are addressed in bytes.
    pub fn byte_addressed(order: u64, address_size: u64) -> Settings {
        Settings { order, address_size, unique_wordsize: 1, register_wordsize: 1, ram_wordsize: 1 }
    }

    fn words(&self) -> [u64; 5] {
        [
            self.order,
            self.address_size,
            self.unique_wordsize,
            self.register_wordsize,
            self.ram_wordsize,
        ]
    }
}

pub const LITTLE: u64 = 0;

/// The address spaces, by number.
pub const CONSTANT: u64 = 1;
pub const UNIQUE: u64 = 2;
pub const REGISTER: u64 = 3;
pub const RAM: u64 = 4;

/// The opcodes that the examples use.
pub const COPY: u64 = 1;
pub const LOAD: u64 = 2;
pub const CBRANCH: u64 = 5;
pub const INT_LESSEQUAL: u64 = 17;
pub const INT_XOR: u64 = 28;
pub const INT_AND: u64 = 29;

/// The labels of a byte.
pub const PUBLIC: u8 = 0;
pub const SECRET: u8 = 1;

/// The endings that the examples name.
pub const END: u64 = 0;
pub const EXIT: u64 = 1;
pub const BUDGET: u64 = 2;
pub const SIZE: u64 = 25;
pub const LEAK: u64 = 31;
pub const BOUNDS: u64 = 32;
pub const LOG: u64 = 34;
pub const LEAK_AHEAD: u64 = 35;

/// Words of a journal for each operation of a window.
pub const JOURNAL_WORDS_PER_OPERATION: usize = 4;
/// What is added to the log words of a window.
pub const WINDOW_MARK: u64 = 1 << 63;

/// A varnode of an operation: a number of bytes at an offset of a space. In the constant space the offset is the value.
#[derive(Clone, Copy)]
pub struct Varnode {
    pub space: u64,
    pub offset: u64,
    pub size: u64,
}

/// The five words of an operation: its head, and the offsets of output, input0, input1 and input2. A number that does
/// not fit its field would become another opcode, space or size, so it is a mistake of the caller's.
pub fn operation(opcode: u64, output: Option<Varnode>, inputs: &[Varnode]) -> [u64; 5] {
    assert!(
        opcode < 256 && inputs.len() <= 3,
        "an opcode is a byte, and an operation has three inputs at most"
    );
    let mut words = [opcode, 0, 0, 0, 0];
    let places = output.into_iter().map(|varnode| (1, varnode));
    let places = places.chain((2..=4).zip(inputs.iter().copied()));
    for (place, varnode) in places {
        assert!(varnode.space < 16 && varnode.size < 16, "a space and a size have four bits each");
        words[0] |= (varnode.space * 16 + varnode.size) << (8 * place);
        words[place] = varnode.offset;
    }
    words
}

/// How a run ended.
#[derive(Clone, Copy)]
pub struct Report {
    pub ending: u64,
    pub index: u64,
    pub executed: u64,
    pub logged: u64,
    pub value: u64,
}

impl Report {
    fn of([ending, index, executed, logged, value]: [u64; 5]) -> Report {
        Report { ending, index, executed, logged, value }
    }
}

/// The bytes of the three spaces, or their labels.
pub struct Spaces {
    pub unique: Vec<u8>,
    pub register: Vec<u8>,
    pub ram: Vec<u8>,
}

/// The counts of secret bytes: for each space a word for each block of 64 bytes, then the total.
pub struct Counts {
    pub unique: Vec<u64>,
    pub register: Vec<u64>,
    pub ram: Vec<u64>,
}

impl Counts {
    /// Counts the secret bytes of labels that a run would take. A run then keeps the counts.
    pub fn of(labels: &Spaces) -> Counts {
        let words = |labels: &[u8]| vec![0; labels.len().div_ceil(64) + 1];
        let mut counts = Counts {
            unique: words(&labels.unique),
            register: words(&labels.register),
            ram: words(&labels.ram),
        };
        let mut report = [0; 5];
        // SAFETY: each pointer and length are those of one Vec or array, and each of those that are written is borrowed
        // by this call alone, so none overlaps another.
        let answer = unsafe {
            undrelvoa_count_secrets(
                labels.unique.as_ptr(),
                labels.unique.len(),
                labels.register.as_ptr(),
                labels.register.len(),
                labels.ram.as_ptr(),
                labels.ram.len(),
                counts.unique.as_mut_ptr(),
                counts.unique.len(),
                counts.register.as_mut_ptr(),
                counts.register.len(),
                counts.ram.as_mut_ptr(),
                counts.ram.len(),
                report.as_mut_ptr(),
                report.len(),
            )
        };
        assert_eq!((answer, report[0]), (0, END), "at most 65,536 labels a space, 0 or 1 each");
        counts
    }

    /// The secret bytes of unique, register and ram.
    pub fn totals(&self) -> [u64; 3] {
        [&self.unique, &self.register, &self.ram].map(|words| words[words.len() - 1])
    }
}

// The examples do not use all of its calls.
#[allow(dead_code)]
#[path = "../../include/undrelvoa.rs"]
mod calls;

use calls::{undrelvoa_count_secrets, undrelvoa_labelled_run, undrelvoa_speculative_run};

/// Runs a list from `start` on, at most `budget` operations. The start of `log` becomes the log words written.
pub fn labelled_run(
    settings: &Settings,
    list: &[u64],
    start: u64,
    budget: u32,
    memory: &mut Spaces,
    labels: &mut Spaces,
    counts: &mut Counts,
    log: &mut [u64],
) -> Report {
    let settings = settings.words();
    let mut report = [0; 5];
    // SAFETY: each pointer and length are those of one slice or Vec, and each of those that are written is borrowed by
    // this call alone, so none overlaps another.
    let answer = unsafe {
        undrelvoa_labelled_run(
            settings.as_ptr(),
            settings.len(),
            list.as_ptr(),
            list.len(),
            start,
            budget,
            memory.unique.as_mut_ptr(),
            memory.unique.len(),
            memory.register.as_mut_ptr(),
            memory.register.len(),
            memory.ram.as_mut_ptr(),
            memory.ram.len(),
            labels.unique.as_mut_ptr(),
            labels.unique.len(),
            labels.register.as_mut_ptr(),
            labels.register.len(),
            labels.ram.as_mut_ptr(),
            labels.ram.len(),
            counts.unique.as_mut_ptr(),
            counts.unique.len(),
            counts.register.as_mut_ptr(),
            counts.register.len(),
            counts.ram.as_mut_ptr(),
            counts.ram.len(),
            log.as_mut_ptr(),
            log.len(),
            report.as_mut_ptr(),
            report.len(),
        )
    };
    assert_eq!(answer, 0, "settings and report have the words that the library asks for");
    Report::of(report)
}

/// The same, and at each CBRANCH at most `window` operations of the way not taken, which are undone. The journal has
/// JOURNAL_WORDS_PER_OPERATION words for each of them.
pub fn speculative_run(
    settings: &Settings,
    list: &[u64],
    start: u64,
    budget: u32,
    window: u64,
    memory: &mut Spaces,
    labels: &mut Spaces,
    counts: &mut Counts,
    log: &mut [u64],
    journal: &mut [u64],
) -> Report {
    let settings = settings.words();
    let mut report = [0; 5];
    // SAFETY: as for the labelled run; the journal too is borrowed by this call alone.
    let answer = unsafe {
        undrelvoa_speculative_run(
            settings.as_ptr(),
            settings.len(),
            list.as_ptr(),
            list.len(),
            start,
            budget,
            window,
            memory.unique.as_mut_ptr(),
            memory.unique.len(),
            memory.register.as_mut_ptr(),
            memory.register.len(),
            memory.ram.as_mut_ptr(),
            memory.ram.len(),
            labels.unique.as_mut_ptr(),
            labels.unique.len(),
            labels.register.as_mut_ptr(),
            labels.register.len(),
            labels.ram.as_mut_ptr(),
            labels.ram.len(),
            counts.unique.as_mut_ptr(),
            counts.unique.len(),
            counts.register.as_mut_ptr(),
            counts.register.len(),
            counts.ram.as_mut_ptr(),
            counts.ram.len(),
            log.as_mut_ptr(),
            log.len(),
            journal.as_mut_ptr(),
            journal.len(),
            report.as_mut_ptr(),
            report.len(),
        )
    };
    assert_eq!(answer, 0, "settings and report have the words that the library asks for");
    Report::of(report)
}
