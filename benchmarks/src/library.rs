//! The proved interpreter, through its C interface.

// Not all of its calls are timed.
#[allow(dead_code)]
#[path = "../../include/undrelvoa.rs"]
mod calls;

use calls::{undrelvoa_labelled_run, undrelvoa_run, undrelvoa_speculative_run};

/// The most operations of a window.
pub const LARGEST_WINDOW: u64 = 64;
/// The journal words of the largest window.
pub const JOURNAL_WORDS: usize = 4 * LARGEST_WINDOW as usize;

/// A list to run from its first operation on.
#[derive(Clone)]
pub struct Program {
    pub order: u64,
    pub address_size: u64,
    pub list: Vec<u64>,
}

/// What a run reads and writes.
#[derive(Clone, PartialEq, Eq, Debug)]
pub struct State {
    pub unique: Vec<u8>,
    pub register: Vec<u8>,
    pub ram: Vec<u8>,
    pub log: Vec<u64>,
    /// Only a speculative run is lent it.
    pub journal: Vec<u64>,
}

/// One label for each byte of each space, and the counts of the secret ones.
#[derive(Clone, PartialEq, Eq, Debug)]
pub struct Labels {
    pub unique: Vec<u8>,
    pub register: Vec<u8>,
    pub ram: Vec<u8>,
    pub counts: Counts,
}

/// For each space a word for each block of 64 bytes, then the total.
#[derive(Clone, PartialEq, Eq, Debug)]
pub struct Counts {
    pub unique: Vec<u64>,
    pub register: Vec<u64>,
    pub ram: Vec<u64>,
}

impl Labels {
    /// Public labels only.
    pub fn public(state: &State) -> Labels {
        Labels::with_secret_register(state, 0)
    }

    /// Public labels, but for so many bytes of register from the first on.
    pub fn with_secret_register(state: &State, bytes: usize) -> Labels {
        let [unique, mut register, ram] =
            [&state.unique, &state.register, &state.ram].map(|space| vec![0; space.len()]);
        register[..bytes].fill(1);
        let counts =
            Counts { unique: recount(&unique), register: recount(&register), ram: recount(&ram) };
        Labels { unique, register, ram, counts }
    }
}

/// The counts of a space with these labels.
pub fn recount(labels: &[u8]) -> Vec<u64> {
    let secret = |labels: &[u8]| labels.iter().map(|&label| u64::from(label)).sum();
    labels.chunks(64).map(secret).chain([secret(labels)]).collect()
}

/// The words of the settings. Pointers count bytes, as those of the plain interpreter do.
fn settings(program: &Program) -> [u64; 5] {
    [program.order, program.address_size, 1, 1, 1]
}

/// The report of a plain run.
pub fn run(program: &Program, budget: u32, state: &mut State) -> [u64; 5] {
    let settings = settings(program);
    let mut report = [0; 5];
    // SAFETY: each pointer and length are those of one buffer, lent to this call alone; the buffers
    // do not overlap.
    let answer = unsafe {
        undrelvoa_run(
            settings.as_ptr(),
            settings.len(),
            program.list.as_ptr(),
            program.list.len(),
            0,
            budget,
            state.unique.as_mut_ptr(),
            state.unique.len(),
            state.register.as_mut_ptr(),
            state.register.len(),
            state.ram.as_mut_ptr(),
            state.ram.len(),
            state.log.as_mut_ptr(),
            state.log.len(),
            report.as_mut_ptr(),
            report.len(),
        )
    };
    assert_eq!(answer, 0, "a run with a report of five words was refused");
    report
}

/// The report of a labelled run.
pub fn labelled_run(
    program: &Program,
    budget: u32,
    state: &mut State,
    labels: &mut Labels,
) -> [u64; 5] {
    let settings = settings(program);
    let mut report = [0; 5];
    // SAFETY: each pointer and length are those of one buffer, lent to this call alone; the buffers
    // do not overlap.
    let answer = unsafe {
        undrelvoa_labelled_run(
            settings.as_ptr(),
            settings.len(),
            program.list.as_ptr(),
            program.list.len(),
            0,
            budget,
            state.unique.as_mut_ptr(),
            state.unique.len(),
            state.register.as_mut_ptr(),
            state.register.len(),
            state.ram.as_mut_ptr(),
            state.ram.len(),
            labels.unique.as_mut_ptr(),
            labels.unique.len(),
            labels.register.as_mut_ptr(),
            labels.register.len(),
            labels.ram.as_mut_ptr(),
            labels.ram.len(),
            labels.counts.unique.as_mut_ptr(),
            labels.counts.unique.len(),
            labels.counts.register.as_mut_ptr(),
            labels.counts.register.len(),
            labels.counts.ram.as_mut_ptr(),
            labels.counts.ram.len(),
            state.log.as_mut_ptr(),
            state.log.len(),
            report.as_mut_ptr(),
            report.len(),
        )
    };
    assert_eq!(answer, 0, "a run with a report of five words was refused");
    report
}

/// The report of a speculative run with a window of so many operations.
pub fn speculative_run(
    program: &Program,
    budget: u32,
    window: u64,
    state: &mut State,
    labels: &mut Labels,
) -> [u64; 5] {
    let settings = settings(program);
    let mut report = [0; 5];
    // SAFETY: each pointer and length are those of one buffer, lent to this call alone; the buffers
    // do not overlap.
    let answer = unsafe {
        undrelvoa_speculative_run(
            settings.as_ptr(),
            settings.len(),
            program.list.as_ptr(),
            program.list.len(),
            0,
            budget,
            window,
            state.unique.as_mut_ptr(),
            state.unique.len(),
            state.register.as_mut_ptr(),
            state.register.len(),
            state.ram.as_mut_ptr(),
            state.ram.len(),
            labels.unique.as_mut_ptr(),
            labels.unique.len(),
            labels.register.as_mut_ptr(),
            labels.register.len(),
            labels.ram.as_mut_ptr(),
            labels.ram.len(),
            labels.counts.unique.as_mut_ptr(),
            labels.counts.unique.len(),
            labels.counts.register.as_mut_ptr(),
            labels.counts.register.len(),
            labels.counts.ram.as_mut_ptr(),
            labels.counts.ram.len(),
            state.log.as_mut_ptr(),
            state.log.len(),
            state.journal.as_mut_ptr(),
            state.journal.len(),
            report.as_mut_ptr(),
            report.len(),
        )
    };
    assert_eq!(answer, 0, "a run with a report of five words was refused");
    report
}
