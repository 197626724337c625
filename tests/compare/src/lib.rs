//! The interpreter's C interface, and what its comparison with the second program needs.

pub mod agreement;
pub mod campaign;
pub mod counts;
pub mod divisions;
pub mod fillings;
mod guards;
pub mod inputs;
pub mod lists;
pub mod moves;
pub mod parts;
pub mod programs;
pub mod random;
pub mod recounts;
pub mod runs;
pub mod secrets;
pub mod single;
pub mod speculations;
pub mod windows;
pub mod wordsizes;

#[path = "../../../include/undrelvoa.rs"]
mod calls;

// The stored files of tests/cases. That package runs another program, so it is no dependency.
#[path = "../../cases/src/stored.rs"]
pub mod stored;

use calls::*;
use reference::answers::{Place, RunCall, ValueCall, VerdictCall};
use reference::varnode::{Varnode, Wordsizes};
use reference::verdict::Settings;

pub use reference::memory::Spaces;

/// The interpreter's answer to a call of `undrelvoa_value`.
pub fn value(call: &ValueCall, result: &mut [u64]) -> u64 {
    // SAFETY: the pointer and the length are those of one slice, lent to this call alone.
    unsafe {
        undrelvoa_value(
            call.opcode,
            call.sizes.output,
            call.sizes.input0,
            call.sizes.input1,
            call.input0,
            call.input1,
            result.as_mut_ptr(),
            result.len(),
        )
    }
}

/// The interpreter's answer to a call of `undrelvoa_gather`.
pub fn gather(place: &Place, bytes: &[u8], result: &mut [u64]) -> u64 {
    // SAFETY: each pointer and length are those of one slice, lent to this call alone; the two
    // slices do not overlap.
    unsafe {
        undrelvoa_gather(
            place.order,
            bytes.as_ptr(),
            bytes.len(),
            place.offset,
            place.size,
            result.as_mut_ptr(),
            result.len(),
        )
    }
}

/// The interpreter's answer to a call of `undrelvoa_scatter`.
pub fn scatter(place: &Place, bytes: &mut [u8], value: u64) -> u64 {
    // SAFETY: the pointer and the length are those of one slice, lent to this call alone.
    unsafe {
        undrelvoa_scatter(
            place.order,
            bytes.as_mut_ptr(),
            bytes.len(),
            place.offset,
            place.size,
            value,
        )
    }
}

/// The five words of settings, and words behind them. A call is lent the first few.
pub fn settings_words(settings: &Settings) -> [u64; 8] {
    let Wordsizes { unique, register, ram } = settings.wordsizes;
    [settings.order, settings.address_size, unique, register, ram, 1, 8, 1]
}

/// The interpreter's answer to a call of `undrelvoa_validate`.
pub fn validate(call: &VerdictCall, settings: &[u64], report: &mut [u64]) -> u64 {
    // SAFETY: each pointer and length are those of one slice, lent to this call alone; the three
    // slices do not overlap.
    unsafe {
        undrelvoa_validate(
            settings.as_ptr(),
            settings.len(),
            call.lengths.unique,
            call.lengths.register,
            call.lengths.ram,
            call.list.as_ptr(),
            call.list.len(),
            report.as_mut_ptr(),
            report.len(),
        )
    }
}

/// The interpreter's answer to a call of `undrelvoa_show`.
pub fn show(spaces: &Spaces, varnode: &Varnode, place: &mut [u64]) -> u64 {
    // SAFETY: each pointer and length are those of one slice, lent to this call alone; the four
    // slices do not overlap.
    unsafe {
        undrelvoa_show(
            spaces.unique.as_ptr(),
            spaces.unique.len(),
            spaces.register.as_ptr(),
            spaces.register.len(),
            spaces.ram.as_ptr(),
            spaces.ram.len(),
            varnode.space,
            varnode.offset,
            varnode.size,
            place.as_mut_ptr(),
            place.len(),
        )
    }
}

/// The three spaces of a run, their labels, or the counts of these.
pub struct LentSpaces<'a, T = u8> {
    pub unique: &'a mut [T],
    pub register: &'a mut [T],
    pub ram: &'a mut [T],
}

/// The interpreter's answer to a call of `undrelvoa_run`.
pub fn run(
    call: &RunCall,
    settings: &[u64],
    memory: LentSpaces,
    log: &mut [u64],
    report: &mut [u64],
) -> u64 {
    // SAFETY: each pointer and length are those of one slice, lent to this call alone; the seven
    // slices do not overlap.
    unsafe {
        undrelvoa_run(
            settings.as_ptr(),
            settings.len(),
            call.program.list.as_ptr(),
            call.program.list.len(),
            call.start,
            call.budget,
            memory.unique.as_mut_ptr(),
            memory.unique.len(),
            memory.register.as_mut_ptr(),
            memory.register.len(),
            memory.ram.as_mut_ptr(),
            memory.ram.len(),
            log.as_mut_ptr(),
            log.len(),
            report.as_mut_ptr(),
            report.len(),
        )
    }
}

/// The interpreter's answer to a call of `undrelvoa_labelled_run`.
pub fn labelled_run(
    call: &RunCall,
    settings: &[u64],
    memory: LentSpaces,
    labels: LentSpaces,
    counts: LentSpaces<u64>,
    log: &mut [u64],
    report: &mut [u64],
) -> u64 {
    // SAFETY: each pointer and length are those of one slice, lent to this call alone; the
    // thirteen slices do not overlap.
    unsafe {
        undrelvoa_labelled_run(
            settings.as_ptr(),
            settings.len(),
            call.program.list.as_ptr(),
            call.program.list.len(),
            call.start,
            call.budget,
            memory.unique.as_mut_ptr(),
            memory.unique.len(),
            memory.register.as_mut_ptr(),
            memory.register.len(),
            memory.ram.as_mut_ptr(),
            memory.ram.len(),
            labels.unique.as_mut_ptr(),
            labels.unique.len(),
            labels.register.as_mut_ptr(),
            labels.register.len(),
            labels.ram.as_mut_ptr(),
            labels.ram.len(),
            counts.unique.as_mut_ptr(),
            counts.unique.len(),
            counts.register.as_mut_ptr(),
            counts.register.len(),
            counts.ram.as_mut_ptr(),
            counts.ram.len(),
            log.as_mut_ptr(),
            log.len(),
            report.as_mut_ptr(),
            report.len(),
        )
    }
}

/// The buffers of a speculative run.
pub struct LentBuffers<'a> {
    pub settings: &'a [u64],
    pub list: &'a [u64],
    pub memory: LentSpaces<'a>,
    pub labels: LentSpaces<'a>,
    pub counts: LentSpaces<'a, u64>,
    pub log: &'a mut [u64],
    pub journal: &'a mut [u64],
    pub report: &'a mut [u64],
}

/// The interpreter's answer to a call of `undrelvoa_speculative_run`.
pub fn speculative_run(start: u64, budget: u32, window: u64, lent: LentBuffers) -> u64 {
    let LentBuffers { settings, list, memory, labels, counts, log, journal, report } = lent;
    // SAFETY: each pointer and length are those of one slice, lent to this call alone; the
    // fourteen slices do not overlap.
    unsafe {
        undrelvoa_speculative_run(
            settings.as_ptr(),
            settings.len(),
            list.as_ptr(),
            list.len(),
            start,
            budget,
            window,
            memory.unique.as_mut_ptr(),
            memory.unique.len(),
            memory.register.as_mut_ptr(),
            memory.register.len(),
            memory.ram.as_mut_ptr(),
            memory.ram.len(),
            labels.unique.as_mut_ptr(),
            labels.unique.len(),
            labels.register.as_mut_ptr(),
            labels.register.len(),
            labels.ram.as_mut_ptr(),
            labels.ram.len(),
            counts.unique.as_mut_ptr(),
            counts.unique.len(),
            counts.register.as_mut_ptr(),
            counts.register.len(),
            counts.ram.as_mut_ptr(),
            counts.ram.len(),
            log.as_mut_ptr(),
            log.len(),
            journal.as_mut_ptr(),
            journal.len(),
            report.as_mut_ptr(),
            report.len(),
        )
    }
}

/// The interpreter's answer to a call of `undrelvoa_count_secrets`.
pub fn count_secrets(labels: [&[u8]; 3], counts: LentSpaces<u64>, report: &mut [u64]) -> u64 {
    let [unique_labels, register_labels, ram_labels] = labels;
    // SAFETY: each pointer and length are those of one slice, lent to this call alone; the seven
    // slices do not overlap.
    unsafe {
        undrelvoa_count_secrets(
            unique_labels.as_ptr(),
            unique_labels.len(),
            register_labels.as_ptr(),
            register_labels.len(),
            ram_labels.as_ptr(),
            ram_labels.len(),
            counts.unique.as_mut_ptr(),
            counts.unique.len(),
            counts.register.as_mut_ptr(),
            counts.register.len(),
            counts.ram.as_mut_ptr(),
            counts.ram.len(),
            report.as_mut_ptr(),
            report.len(),
        )
    }
}

/// The interpreter's answer to a call of `undrelvoa_step`, which takes no budget.
pub fn step(
    call: &RunCall,
    settings: &[u64],
    memory: LentSpaces,
    log: &mut [u64],
    report: &mut [u64],
) -> u64 {
    // SAFETY: each pointer and length are those of one slice, lent to this call alone; the seven
    // slices do not overlap.
    unsafe {
        undrelvoa_step(
            settings.as_ptr(),
            settings.len(),
            call.program.list.as_ptr(),
            call.program.list.len(),
            call.start,
            memory.unique.as_mut_ptr(),
            memory.unique.len(),
            memory.register.as_mut_ptr(),
            memory.register.len(),
            memory.ram.as_mut_ptr(),
            memory.ram.len(),
            log.as_mut_ptr(),
            log.len(),
            report.as_mut_ptr(),
            report.len(),
        )
    }
}

/// The interpreter's answer to a call of `undrelvoa_labelled_step`, which takes no budget.
pub fn labelled_step(
    call: &RunCall,
    settings: &[u64],
    memory: LentSpaces,
    labels: LentSpaces,
    counts: LentSpaces<u64>,
    log: &mut [u64],
    report: &mut [u64],
) -> u64 {
    // SAFETY: each pointer and length are those of one slice, lent to this call alone; the
    // thirteen slices do not overlap.
    unsafe {
        undrelvoa_labelled_step(
            settings.as_ptr(),
            settings.len(),
            call.program.list.as_ptr(),
            call.program.list.len(),
            call.start,
            memory.unique.as_mut_ptr(),
            memory.unique.len(),
            memory.register.as_mut_ptr(),
            memory.register.len(),
            memory.ram.as_mut_ptr(),
            memory.ram.len(),
            labels.unique.as_mut_ptr(),
            labels.unique.len(),
            labels.register.as_mut_ptr(),
            labels.register.len(),
            labels.ram.as_mut_ptr(),
            labels.ram.len(),
            counts.unique.as_mut_ptr(),
            counts.unique.len(),
            counts.register.as_mut_ptr(),
            counts.register.len(),
            counts.ram.as_mut_ptr(),
            counts.ram.len(),
            log.as_mut_ptr(),
            log.len(),
            report.as_mut_ptr(),
            report.len(),
        )
    }
}
