//! The answers of the C interface: the work of a call, or the number of its lowest fault.

use std::ops::Range;

use crate::arithmetic::{fits, value};
use crate::bytes::{read, write, ByteOrder};
use crate::counts::{count_secrets, SecretCounts};
use crate::fault;
use crate::machine::State;
use crate::memory::Spaces;
use crate::opcodes::{Operation, Sizes, ANY_ADDRESS_SIZE};
use crate::run::{observed_run, Observed, Program};
use crate::speculative::{speculative_run, Event, Window};
use crate::varnode::{is_operand_size, show, Lengths, Varnode};
use crate::verdict::{verdict, Settings};

/// An integer operation with the values of its inputs. An absent input1 has size 0 and value 0.
#[derive(Clone, Copy, Debug)]
pub struct ValueCall {
    pub opcode: u64,
    pub sizes: Sizes,
    pub input0: u64,
    pub input1: u64,
}

/// Where a value stands in a buffer, and in which byte order.
#[derive(Clone, Copy, Debug)]
pub struct Place {
    pub order: u64,
    pub offset: u64,
    pub size: u64,
}

/// A list to judge, with the settings and the spaces that it is for.
#[derive(Clone, Debug)]
pub struct VerdictCall {
    pub settings: Settings,
    pub lengths: Lengths,
    pub list: Vec<u64>,
}

/// A program to run, where it starts, and how many operations it may execute.
#[derive(Clone, Debug)]
pub struct RunCall {
    pub program: Program,
    pub start: u64,
    pub budget: u32,
}

/// How many words a caller lends for the settings and for the report of a verdict or a run.
#[derive(Clone, Copy, Debug, PartialEq, Eq)]
pub struct LentWords {
    pub settings: usize,
    pub report: usize,
}

impl LentWords {
    /// Byte order, address size and three wordsizes; five numbers of a report.
    pub const EXACT: LentWords = LentWords { settings: 5, report: 5 };

    /// Refuses settings of another number of words, and too short a report.
    fn check(self) -> Result<(), u64> {
        let fits = self.settings == LentWords::EXACT.settings;
        let fits = fits && self.report >= LentWords::EXACT.report;
        if fits {
            Ok(())
        } else {
            Err(fault::LENGTH)
        }
    }
}

/// The value of an operation, for a caller who lends `result_len` result words.
pub fn value_answer(call: &ValueCall, result_len: usize) -> Result<u64, u64> {
    if result_len == 0 {
        return Err(fault::LENGTH);
    }
    let Some(operation) = Operation::with_number(call.opcode).filter(|found| found.is_integer())
    else {
        return Err(fault::HEAD);
    };
    if !operation.shape_allows(call.sizes) {
        return Err(fault::SHAPE);
    }
    if !fits(call.input0, call.sizes.input0) || !fits(call.input1, call.sizes.input1) {
        return Err(fault::RANGE);
    }
    if !operation.size_rule.allows(call.sizes, ANY_ADDRESS_SIZE) {
        return Err(fault::SIZE);
    }
    if operation.divides() && call.input1 == 0 {
        return Err(fault::ZERO);
    }
    Ok(value(operation.opcode, call.sizes, call.input0, call.input1))
}

/// The value that stands in a buffer, for a caller who lends `result_len` result words.
pub fn gather_answer(place: &Place, bytes: &[u8], result_len: usize) -> Result<u64, u64> {
    let Some(order) = ByteOrder::with_number(place.order) else {
        return Err(fault::SETTING);
    };
    if result_len == 0 {
        return Err(fault::LENGTH);
    }
    if !is_operand_size(place.size) {
        return Err(fault::SHAPE);
    }
    let Some(range) = range_within(place, bytes.len()) else {
        return Err(fault::RANGE);
    };
    Ok(read(order, &bytes[range]))
}

/// Writes a value into a buffer.
pub fn scatter_answer(place: &Place, bytes: &mut [u8], value: u64) -> Result<(), u64> {
    let Some(order) = ByteOrder::with_number(place.order) else {
        return Err(fault::SETTING);
    };
    if !is_operand_size(place.size) {
        return Err(fault::SHAPE);
    }
    let Some(range) = range_within(place, bytes.len()) else {
        return Err(fault::RANGE);
    };
    if !fits(value, place.size) {
        return Err(fault::RANGE);
    }
    write(order, value, &mut bytes[range]);
    Ok(())
}

/// The report of the judge, for a caller who lends so many words.
pub fn verdict_answer(call: &VerdictCall, lent: LentWords) -> Result<[u64; 5], u64> {
    lent.check()?;
    Ok(verdict(&call.settings, &call.lengths, &call.list).numbers())
}

/// The report of a run, labelled if the state has labels, for a caller who lends so many words. The
/// observer is told of each operation executed. A refused call leaves the state as it is.
pub fn run_answer(
    call: &RunCall,
    state: &mut State,
    lent: LentWords,
    observer: impl FnMut(Observed),
) -> Result<[u64; 5], u64> {
    lent.check()?;
    Ok(observed_run(&call.program, call.start, call.budget, state, observer).numbers())
}

/// The report of a speculative run, for a caller who lends so many words. A refused call leaves state and
/// journal as they are.
pub fn speculative_answer(
    call: &RunCall,
    window: &mut Window,
    state: &mut State,
    lent: LentWords,
    observer: impl FnMut(Event),
) -> Result<[u64; 5], u64> {
    lent.check()?;
    let RunCall { program, start, budget } = call;
    Ok(speculative_run(program, *start, *budget, window, state, observer).numbers())
}

/// The report of the call that fills the counts, for a caller who lends so many report words. A refused call
/// leaves the counts as they are.
pub fn count_answer(
    labels: &Spaces,
    counts: &mut SecretCounts,
    report_len: usize,
) -> Result<[u64; 5], u64> {
    if report_len < LentWords::EXACT.report {
        return Err(fault::LENGTH);
    }
    Ok(count_secrets(labels, counts).numbers())
}

/// The space, the offset and the bytes of the part that is shown, all 0 for an empty one, for a
/// caller who lends `place_len` place words.
pub fn show_answer(
    lengths: &Lengths,
    varnode: &Varnode,
    place_len: usize,
) -> Result<[u64; 3], u64> {
    if place_len < 3 {
        return Err(fault::LENGTH);
    }
    Ok(show(lengths, varnode).map_or([0; 3], |part| [part.space, part.offset, part.size]))
}

/// The indices of the value's bytes, if all of them are in the buffer. The sum does not wrap.
fn range_within(place: &Place, len: usize) -> Option<Range<usize>> {
    let end = u128::from(place.offset) + u128::from(place.size);
    if end > len as u128 {
        return None;
    }
    Some(place.offset as usize..end as usize)
}

#[cfg(test)]
mod tests {
    use super::*;
    use crate::varnode::Wordsizes;

    /// INT_DIV at size 2, 100 by 7.
    const DIVISION: ValueCall = ValueCall {
        opcode: 35,
        sizes: Sizes { output: 2, input0: 2, input1: 2 },
        input0: 100,
        input1: 7,
    };

    #[test]
    fn lowest_fault_of_value_comes_first() {
        let mut call = DIVISION;
        assert_eq!(value_answer(&call, 1), Ok(14));
        call.input1 = 0;
        assert_eq!(value_answer(&call, 1), Err(33));
        call.sizes.output = 3;
        assert_eq!(value_answer(&call, 1), Err(25));
        call.input0 = 0x10000;
        assert_eq!(value_answer(&call, 1), Err(24));
        call.sizes.output = 9;
        assert_eq!(value_answer(&call, 1), Err(22));
        call.opcode = 43;
        assert_eq!(value_answer(&call, 1), Err(21));
        assert_eq!(value_answer(&call, 0), Err(11));
    }

    #[test]
    fn input1_is_present_or_absent_by_its_opcode() {
        let mut call = DIVISION;
        call.sizes.input1 = 0;
        assert_eq!(value_answer(&call, 1), Err(22));
        call.opcode = 27;
        assert_eq!(value_answer(&call, 1), Err(24));
        call.input1 = 0;
        assert_eq!(value_answer(&call, 1), Ok(0xff9b));
        call.sizes.input1 = 2;
        assert_eq!(value_answer(&call, 1), Err(22));
    }

    #[test]
    fn value_takes_no_operation_before_piece() {
        for opcode in 0..10 {
            assert_eq!(value_answer(&ValueCall { opcode, ..DIVISION }, 1), Err(21));
        }
    }

    #[test]
    fn lowest_fault_of_gather_comes_first() {
        let bytes = [0x12, 0x34, 0x56];
        let mut place = Place { order: 1, offset: 1, size: 2 };
        assert_eq!(gather_answer(&place, &bytes, 1), Ok(0x3456));
        place.offset = 2;
        assert_eq!(gather_answer(&place, &bytes, 1), Err(24));
        place.offset = u64::MAX;
        assert_eq!(gather_answer(&place, &bytes, 1), Err(24));
        place.size = 0;
        assert_eq!(gather_answer(&place, &bytes, 1), Err(22));
        assert_eq!(gather_answer(&place, &bytes, 0), Err(11));
        place.order = 2;
        assert_eq!(gather_answer(&place, &bytes, 0), Err(10));
    }

    #[test]
    fn refused_scatter_writes_nothing() {
        let refusals = [
            (Place { order: 2, offset: 9, size: 9 }, 0, 10),
            (Place { order: 1, offset: 9, size: 9 }, 0, 22),
            (Place { order: 1, offset: 2, size: 2 }, 0, 24),
            (Place { order: 1, offset: 1, size: 2 }, 0x10000, 24),
        ];
        for (place, value, number) in refusals {
            let mut bytes = [0xa0, 0xa1, 0xa2];
            assert_eq!(scatter_answer(&place, &mut bytes, value), Err(number));
            assert_eq!(bytes, [0xa0, 0xa1, 0xa2]);
        }
    }

    #[test]
    fn scatter_writes_its_bytes_only() {
        let mut bytes = [0xa0, 0xa1, 0xa2, 0xa3];
        let place = Place { order: 0, offset: 1, size: 2 };
        assert_eq!(scatter_answer(&place, &mut bytes, 0x1234), Ok(()));
        assert_eq!(bytes, [0xa0, 0x34, 0x12, 0xa3]);
    }

    #[test]
    fn a_short_report_is_refused() {
        let settings = Settings { order: 2, address_size: 9, wordsizes: Wordsizes::ONE };
        let lengths = Lengths { unique: 0, register: 0, ram: 0 };
        let call = VerdictCall { settings, lengths, list: vec![0; 3] };
        assert_eq!(verdict_answer(&call, LentWords { settings: 5, report: 4 }), Err(11));
        for settings in [0, 1, 2, 3, 4, 6, 7, 10] {
            assert_eq!(verdict_answer(&call, LentWords { settings, report: 5 }), Err(11));
        }
        assert_eq!(verdict_answer(&call, LentWords::EXACT), Ok([10, 0, 0, 0, 0]));
    }

    #[test]
    fn a_run_with_a_short_report_or_other_settings_is_refused() {
        let settings = Settings { order: 0, address_size: 8, wordsizes: Wordsizes::ONE };
        let copy = vec![0x11_21_01, 0, 9, 0, 0];
        let call = RunCall { program: Program { settings, list: copy }, start: 0, budget: 1 };
        let memory = Spaces { unique: vec![0], register: vec![], ram: vec![] };
        let mut state = State::plain(memory, vec![]);
        let lent = |settings, report| LentWords { settings, report };
        for lent in [lent(5, 4), lent(2, 5), lent(4, 5), lent(6, 5)] {
            assert_eq!(run_answer(&call, &mut state, lent, |_| ()), Err(11));
            assert_eq!(state.memory.unique, [0]);
        }
        assert_eq!(run_answer(&call, &mut state, LentWords::EXACT, |_| ()), Ok([0, 1, 1, 0, 0]));
        assert_eq!(state.memory.unique, [9]);
    }

    #[test]
    fn a_filling_with_a_short_report_is_refused() {
        let mut labels = Spaces { unique: vec![1], register: vec![], ram: vec![] };
        let zeros = SecretCounts { unique: vec![0; 2], register: vec![0], ram: vec![0] };
        let mut counts = zeros.clone();
        for report_len in 0..5 {
            assert_eq!(count_answer(&labels, &mut counts, report_len), Err(11));
            assert_eq!(counts, zeros);
        }
        assert_eq!(count_answer(&labels, &mut counts, 5), Ok([0; 5]));
        assert_eq!(counts.unique, [1, 1]);
        labels.unique[0] = 2;
        assert_eq!(count_answer(&labels, &mut counts, 5), Ok([12, 0, 0, 0, 0]));
        counts.ram.clear();
        assert_eq!(count_answer(&labels, &mut counts, 5), Ok([11, 0, 0, 0, 0]));
    }

    #[test]
    fn a_short_place_is_refused() {
        let lengths = Lengths { unique: 0, register: 16, ram: 0 };
        let mut varnode = Varnode { space: 3, offset: 12, size: 4 };
        assert_eq!(show_answer(&lengths, &varnode, 2), Err(11));
        assert_eq!(show_answer(&lengths, &varnode, 3), Ok([3, 12, 4]));
        varnode.offset = 13;
        assert_eq!(show_answer(&lengths, &varnode, 3), Ok([0, 0, 0]));
    }
}
