//! The verdict on a list: the rules 21 to 26, one function for each.

use crate::arithmetic::fits;
use crate::bytes::ByteOrder;
use crate::fault;
use crate::list::{varnode, Entry, WORDS_PER_OPERATION};
use crate::opcodes::{Opcode, Operation, Sizes};
use crate::varnode::{
    is_operand_size, Lengths, Varnode, Wordsizes, CONSTANT, RAM, REGISTER, UNIQUE,
};

/// The ending of a list that keeps every rule.
pub const END: u64 = 0;
/// The most operations of a list.
pub const MOST_OPERATIONS: usize = 4_096;
/// The most bytes of a space.
pub const LONGEST_SPACE: u64 = 65_536;

/// The byte order, the address size and the wordsizes, of any numbers.
#[derive(Clone, Copy, Debug, PartialEq, Eq)]
pub struct Settings {
    pub order: u64,
    pub address_size: u64,
    pub wordsizes: Wordsizes,
}

/// The five numbers of a report.
#[derive(Clone, Copy, Debug, PartialEq, Eq)]
pub struct Report {
    pub ending: u64,
    pub index: u64,
    pub executed: u64,
    pub log_words: u64,
    pub value: u64,
}

impl Report {
    /// The report of a call that ran nothing.
    pub(crate) fn before_a_run(ending: u64, index: usize) -> Report {
        Report { ending, index: index as u64, executed: 0, log_words: 0, value: 0 }
    }

    pub fn numbers(&self) -> [u64; 5] {
        [self.ending, self.index, self.executed, self.log_words, self.value]
    }
}

/// The judge: SETTING, then LENGTH, then the first operation that breaks a rule with the lowest rule
/// it breaks, or END with the number of operations.
pub fn verdict(settings: &Settings, lengths: &Lengths, list: &[u64]) -> Report {
    if !settings_hold(settings) {
        return Report::before_a_run(fault::SETTING, 0);
    }
    if !lengths_hold(lengths, list.len()) {
        return Report::before_a_run(fault::LENGTH, 0);
    }
    let (operations, _) = list.as_chunks::<WORDS_PER_OPERATION>();
    let surroundings = Surroundings {
        address_size: settings.address_size,
        lengths: *lengths,
        count: operations.len(),
    };
    for (index, words) in operations.iter().enumerate() {
        if let Err(rule) = check_operation(&surroundings, index, &Entry::from_words(*words)) {
            return Report::before_a_run(rule, index);
        }
    }
    Report::before_a_run(END, operations.len())
}

/// Rule 10 SETTING. A wordsize counts also where its space is empty.
pub(crate) fn settings_hold(settings: &Settings) -> bool {
    ByteOrder::with_number(settings.order).is_some()
        && (1..=8).contains(&settings.address_size)
        && settings.wordsizes.all().iter().all(|wordsize| (1..=8).contains(wordsize))
}

/// Rule 11 LENGTH.
pub(crate) fn lengths_hold(lengths: &Lengths, words: usize) -> bool {
    let whole = words.is_multiple_of(WORDS_PER_OPERATION);
    let few = words / WORDS_PER_OPERATION <= MOST_OPERATIONS;
    let spaces = [lengths.unique, lengths.register, lengths.ram];
    whole && few && spaces.iter().all(|&len| len <= LONGEST_SPACE)
}

/// What the rules for one operation depend on besides the operation and its index.
struct Surroundings {
    address_size: u64,
    lengths: Lengths,
    count: usize,
}

/// The varnodes of an operation that keeps rule 22.
pub(crate) struct Varnodes {
    pub output: Option<Varnode>,
    pub input0: Varnode,
    pub input1: Option<Varnode>,
    pub input2: Option<Varnode>,
}

impl Varnodes {
    /// The varnodes that are read or written: not a branch destination.
    fn accessed(&self, operation: &Operation) -> impl Iterator<Item = Varnode> {
        let input0 = (!operation.has_destination()).then_some(self.input0);
        [self.output, input0, self.input1, self.input2].into_iter().flatten()
    }

    pub fn sizes(&self) -> Sizes {
        let size = |varnode: Option<Varnode>| varnode.map_or(0, |varnode| varnode.size);
        Sizes { output: size(self.output), input0: self.input0.size, input1: size(self.input1) }
    }
}

/// Finds the lowest rule that an operation breaks.
fn check_operation(surroundings: &Surroundings, index: usize, entry: &Entry) -> Result<(), u64> {
    let operation = operation_of_head(entry).ok_or(fault::HEAD)?;
    let varnodes = varnodes_of_shape(operation, entry).ok_or(fault::SHAPE)?;
    if !places_hold(operation, &varnodes) {
        return Err(fault::PLACE);
    }
    if !ranges_hold(&surroundings.lengths, operation, &varnodes) {
        return Err(fault::RANGE);
    }
    if !sizes_hold(surroundings.address_size, operation, &varnodes) {
        return Err(fault::SIZE);
    }
    if !target_holds(index, surroundings.count, operation, &varnodes) {
        return Err(fault::TARGET);
    }
    Ok(())
}

/// The operation and the varnodes of an entry that keeps rules 21 and 22.
pub(crate) fn decoded(entry: &Entry) -> Option<(&'static Operation, Varnodes)> {
    let operation = operation_of_head(entry)?;
    let varnodes = varnodes_of_shape(operation, entry)?;
    Some((operation, varnodes))
}

/// Rule 21 HEAD: the operation of the head, if its opcode has one and its spare bytes are zero.
fn operation_of_head(entry: &Entry) -> Option<&'static Operation> {
    let operation = Operation::with_number(u64::from(entry.opcode))?;
    (entry.spare == [0; 3]).then_some(operation)
}

/// Rule 22 SHAPE: the varnodes, if those of the opcode and no others are there.
fn varnodes_of_shape(operation: &Operation, entry: &Entry) -> Option<Varnodes> {
    let mut varnodes = [None; 4];
    for (place, present) in operation.present().into_iter().enumerate() {
        let descriptor = entry.descriptors[place];
        let offset = entry.offsets[place];
        if present {
            varnodes[place] = Some(varnode_in_shape(descriptor, offset)?);
        } else if descriptor != 0 || offset != 0 {
            return None;
        }
    }
    let [output, input0, input1, input2] = varnodes;
    Some(Varnodes { output, input0: input0?, input1, input2 })
}

/// The varnode that a descriptor and an offset word say, if its space is 1 to 4 and its size 1 to 8.
fn varnode_in_shape(descriptor: u8, offset: u64) -> Option<Varnode> {
    let varnode = varnode(descriptor, offset);
    let holds = (CONSTANT..=RAM).contains(&varnode.space) && is_operand_size(varnode.size);
    holds.then_some(varnode)
}

/// Rule 23 PLACE.
fn places_hold(operation: &Operation, varnodes: &Varnodes) -> bool {
    let input0 = varnodes.input0;
    let output_holds = varnodes.output.is_none_or(|output| output.space != CONSTANT);
    let input0_holds = match operation.opcode {
        Opcode::Load | Opcode::Store => {
            input0.space == CONSTANT && matches!(input0.offset, UNIQUE | REGISTER | RAM)
        }
        Opcode::Branch | Opcode::Cbranch | Opcode::Call => {
            matches!(input0.space, CONSTANT | RAM)
        }
        _ => true,
    };
    let input1_holds = operation.opcode != Opcode::Subpiece
        || varnodes.input1.is_some_and(|input1| input1.space == CONSTANT);
    output_holds && input0_holds && input1_holds
}

/// Rule 24 RANGE.
fn ranges_hold(lengths: &Lengths, operation: &Operation, varnodes: &Varnodes) -> bool {
    varnodes.accessed(operation).all(|varnode| match varnode.space {
        CONSTANT => fits(varnode.offset, varnode.size),
        _ => lengths.contain(&varnode),
    })
}

/// Rule 25 SIZE: the table of operations names its sentence.
fn sizes_hold(address_size: u64, operation: &Operation, varnodes: &Varnodes) -> bool {
    operation.size_rule.allows(varnodes.sizes(), address_size)
}

/// Rule 26 TARGET. A constant destination is its whole offset word, whatever its size.
fn target_holds(index: usize, count: usize, operation: &Operation, varnodes: &Varnodes) -> bool {
    if !operation.has_destination() || varnodes.input0.space != CONSTANT {
        return true;
    }
    let distance = i128::from(varnodes.input0.offset as i64);
    (0..=count as i128).contains(&(index as i128 + distance))
}

#[cfg(test)]
mod tests {
    use super::*;
    use crate::list::tests::CASE;

    const SETTINGS: Settings = Settings { order: 0, address_size: 4, wordsizes: Wordsizes::ONE };
    const LENGTHS: Lengths = Lengths { unique: 8, register: 16, ram: 32 };

    /// COPY of 4 bytes from the start of register to the start of unique.
    const COPY: [u64; 5] = [0x34_24_01, 0, 0, 0, 0];
    /// LOAD from ram with a pointer of 4 bytes.
    const LOAD: [u64; 5] = [0x34_11_22_02, 0, 4, 0, 0];
    /// STORE of 2 bytes to register with a constant pointer.
    const STORE: [u64; 5] = [0x22_14_11_00_03, 0, 3, 8, 0];
    /// BRANCH to itself.
    const BRANCH: [u64; 5] = [0x11_00_04, 0, 0, 0, 0];
    /// CBRANCH to a ram address beyond ram.
    const CBRANCH: [u64; 5] = [0x31_44_00_05, 0, u64::MAX, 15, 0];
    /// SUBPIECE of 4 bytes into 2.
    const SUBPIECE: [u64; 5] = [0x11_34_22_0b, 0, 0, 1, 0];

    /// The ending and the index of the verdict on a list.
    fn judge(list: &[u64]) -> (u64, u64) {
        let report = verdict(&SETTINGS, &LENGTHS, list);
        assert_eq!(report.numbers()[2..], [0, 0, 0]);
        (report.ending, report.index)
    }

    /// The rule that the second of three operations breaks, or END.
    fn rule_of(words: [u64; 5]) -> u64 {
        let (ending, index) = judge(&[COPY, words, COPY].concat());
        assert_eq!(index, if ending == END { 3 } else { 1 });
        ending
    }

    /// The same operation with one word changed.
    fn with(mut words: [u64; 5], place: usize, word: u64) -> [u64; 5] {
        words[place] = word;
        words
    }

    #[test]
    fn samples_are_well_formed() {
        for words in [COPY, LOAD, STORE, BRANCH, CBRANCH, SUBPIECE] {
            assert_eq!(rule_of(words), END);
        }
    }

    #[test]
    fn the_worked_example_is_well_formed() {
        let lengths = Lengths { unique: 16, register: 16, ram: 16 };
        assert_eq!(verdict(&SETTINGS, &lengths, &CASE.concat()).numbers(), [0, 3, 0, 0, 0]);
    }

    #[test]
    fn an_empty_list_ends_at_once() {
        assert_eq!(judge(&[]), (END, 0));
    }

    #[test]
    fn marked_register_of_16_bytes() {
        assert_eq!(rule_of(with(COPY, 2, 12)), END);
        assert_eq!(rule_of(with(COPY, 2, 13)), 24);
    }

    #[test]
    fn marked_4096_operations() {
        assert_eq!(judge(&COPY.repeat(4_096)), (END, 4_096));
        assert_eq!(judge(&COPY.repeat(4_097)), (11, 0));
    }

    #[test]
    fn setting_comes_before_length() {
        let long = Lengths { ram: 65_537, ..LENGTHS };
        for (order, address_size) in [(2, 4), (u64::MAX, 4), (0, 0), (1, 9), (1, u64::MAX)] {
            let settings = Settings { order, address_size, ..SETTINGS };
            assert_eq!(verdict(&settings, &LENGTHS, &COPY).ending, 10);
            assert_eq!(verdict(&settings, &long, &COPY[..4]).ending, 10);
        }
    }

    #[test]
    fn a_wordsize_is_1_to_8_also_of_an_empty_space() {
        let empty = Lengths { unique: 0, register: 0, ram: 0 };
        let ending = |wordsizes, lengths: &Lengths, list: &[u64]| {
            verdict(&Settings { wordsizes, ..SETTINGS }, lengths, list).numbers()
        };
        for wordsize in 1..=8 {
            for wordsizes in each_space(wordsize) {
                assert_eq!(ending(wordsizes, &LENGTHS, &LOAD), [END, 1, 0, 0, 0]);
                assert_eq!(ending(wordsizes, &empty, &[]), [END, 0, 0, 0, 0]);
            }
        }
        for wordsize in [0, 9, 255, 257, 1 << 63, u64::MAX] {
            for wordsizes in each_space(wordsize) {
                assert_eq!(ending(wordsizes, &LENGTHS, &LOAD), [10, 0, 0, 0, 0]);
                assert_eq!(ending(wordsizes, &empty, &[]), [10, 0, 0, 0, 0]);
                assert_eq!(ending(wordsizes, &LENGTHS, &LOAD[..4]), [10, 0, 0, 0, 0]);
            }
        }
    }

    /// The wordsizes of which one space's in turn is this, and the others' are 1.
    fn each_space(wordsize: u64) -> [Wordsizes; 3] {
        let one = Wordsizes::ONE;
        [
            Wordsizes { unique: wordsize, ..one },
            Wordsizes { register: wordsize, ..one },
            Wordsizes { ram: wordsize, ..one },
        ]
    }

    #[test]
    fn a_wordsize_changes_no_rule_of_an_operation() {
        // Offsets of varnodes and of branches stay as they are.
        let wide = Settings { wordsizes: Wordsizes { unique: 8, register: 7, ram: 6 }, ..SETTINGS };
        let samples = [
            with(COPY, 2, 12),
            with(COPY, 2, 13),
            with(COPY, 1, 4),
            with(COPY, 1, 5),
            with(LOAD, 3, 12),
            with(LOAD, 3, 13),
            with(STORE, 3, 1 << 31),
            with(BRANCH, 2, 1),
            with(BRANCH, 2, 2),
        ];
        for words in samples {
            assert_eq!(verdict(&wide, &LENGTHS, &words), verdict(&SETTINGS, &LENGTHS, &words));
        }
    }

    #[test]
    fn length_comes_before_the_operations() {
        let malformed = with(COPY, 0, 0);
        assert_eq!(judge(&malformed), (21, 0));
        assert_eq!(judge(&malformed[..4]), (11, 0));
        for long in [
            Lengths { unique: 65_537, ..LENGTHS },
            Lengths { register: u64::MAX, ..LENGTHS },
            Lengths { ram: 65_537, ..LENGTHS },
        ] {
            assert_eq!(verdict(&SETTINGS, &long, &malformed).numbers(), [11, 0, 0, 0, 0]);
        }
        let longest = Lengths { unique: 65_536, register: 65_536, ram: 65_536 };
        assert_eq!(verdict(&SETTINGS, &longest, &COPY).ending, END);
    }

    #[test]
    fn first_operation_and_its_lowest_rule() {
        let range = with(COPY, 2, 13);
        let head = with(COPY, 0, 0x34_24_2b);
        assert_eq!(judge(&[COPY, range, head].concat()), (24, 1));
        assert_eq!(judge(&[head, range].concat()), (21, 0));
        // Against rules 23, 24 and 25, then 22 too, then 21 too.
        assert_eq!(rule_of([0x38_14_01, 0, 13, 0, 0]), 23);
        assert_eq!(rule_of([0x38_14_01, 0, 13, 0, 1]), 22);
        assert_eq!(rule_of([0x38_14_2b, 0, 13, 0, 1]), 21);
    }

    #[test]
    fn rule_21_head() {
        for opcode in [0, 43, 255] {
            assert_eq!(rule_of(with(COPY, 0, 0x34_24_00 + opcode)), 21);
        }
        for byte in 5..8 {
            assert_eq!(rule_of(with(COPY, 0, COPY[0] + (1 << (8 * byte)))), 21);
            assert_eq!(rule_of(with(COPY, 0, COPY[0] + (0x80 << (8 * byte)))), 21);
        }
    }

    #[test]
    fn rule_22_shape() {
        // Absent where the opcode has one.
        assert_eq!(rule_of([0x34_00_01, 0, 0, 0, 0]), 22);
        assert_eq!(rule_of([0x00_24_01, 0, 0, 0, 0]), 22);
        // Present where the opcode has none.
        assert_eq!(rule_of([0x11_34_24_01, 0, 0, 0, 0]), 22);
        assert_eq!(rule_of([0x11_11_24_04, 0, 0, 0, 0]), 22);
        // A space that is not 1 to 4, a size that is not 1 to 8.
        assert_eq!(rule_of([0x54_24_01, 0, 0, 0, 0]), 22);
        assert_eq!(rule_of([0x30_24_01, 0, 0, 0, 0]), 22);
        assert_eq!(rule_of([0x39_24_01, 0, 0, 0, 0]), 22);
        // Absent with an offset.
        assert_eq!(rule_of(with(COPY, 3, 1)), 22);
        assert_eq!(rule_of(with(COPY, 4, u64::MAX)), 22);
        assert_eq!(rule_of(with(BRANCH, 1, 1)), 22);
    }

    #[test]
    fn raw_calls_take_only_input0() {
        for opcode in [0x07, 0x08, 0x09] {
            assert_eq!(rule_of([0x14_00_00 + opcode, 0, 0, 0, 0]), END);
            assert_eq!(rule_of([0x11_14_00_00 + opcode, 0, 0, 0, 0]), 22);
            assert_eq!(rule_of([0x14_24_00 + opcode, 0, 0, 0, 0]), 22);
        }
    }

    #[test]
    fn rule_23_place() {
        assert_eq!(rule_of([0x34_14_01, 0, 0, 0, 0]), 23);
        for space in [0, 1, 5] {
            assert_eq!(rule_of(with(LOAD, 2, space)), 23);
            assert_eq!(rule_of(with(STORE, 2, space)), 23);
        }
        assert_eq!(rule_of([0x34_31_22_02, 0, 4, 0, 0]), 23);
        assert_eq!(rule_of([0x22_14_41_00_03, 0, 3, 8, 0]), 23);
        for destination in [0x24_00, 0x34_00] {
            assert_eq!(rule_of([(destination << 8) + 4, 0, 0, 0, 0]), 23);
            assert_eq!(rule_of([(destination << 8) + 7, 0, 0, 0, 0]), 23);
            assert_eq!(rule_of([0x31_00_00_00 + (destination << 8) + 5, 0, 0, 0, 0]), 23);
        }
        assert_eq!(rule_of([0x31_34_22_0b, 0, 0, 1, 0]), 23);
    }

    #[test]
    fn rule_24_range() {
        // Unique has 8 bytes, register 16.
        assert_eq!(rule_of(with(COPY, 1, 4)), END);
        assert_eq!(rule_of(with(COPY, 1, 5)), 24);
        assert_eq!(rule_of(with(COPY, 2, u64::MAX)), 24);
        assert_eq!(rule_of(with(COPY, 2, u64::MAX - 3)), 24);
        assert_eq!(rule_of(with(CBRANCH, 3, 16)), 24);
        assert_eq!(rule_of(with(STORE, 4, 7)), 24);
        // Constants.
        assert_eq!(rule_of(with(SUBPIECE, 3, 0xff)), END);
        assert_eq!(rule_of(with(SUBPIECE, 3, 0x100)), 24);
        assert_eq!(rule_of([0x18_28_01, 0, u64::MAX, 0, 0]), END);
        assert_eq!(rule_of([0x14_00_06, 0, 1 << 32, 0, 0]), 24);
    }

    #[test]
    fn rule_25_size() {
        // COPY, LOAD, STORE, CBRANCH.
        assert_eq!(rule_of([0x34_23_01, 0, 0, 0, 0]), 25);
        assert_eq!(rule_of([0x33_11_22_02, 0, 4, 0, 0]), 25);
        assert_eq!(rule_of([0x22_18_11_00_03, 0, 3, 8, 0]), 25);
        assert_eq!(rule_of([0x32_44_00_05, 0, 0, 0, 0]), 25);
        // BRANCHIND, CALLIND, RETURN.
        for opcode in [6, 8, 9] {
            assert_eq!(rule_of([0x34_00_00 + opcode, 0, 0, 0, 0]), END);
            assert_eq!(rule_of([0x38_00_00 + opcode, 0, 0, 0, 0]), 25);
        }
        // PIECE, INT_LESS, INT_ZEXT, INT_ADD, INT_LEFT, BOOL_AND: right, then wrong.
        for (right, wrong) in [
            (0x31_32_23_0a, 0x31_32_24_0a),
            (0x34_34_21_0f, 0x34_34_22_0f),
            (0x34_34_21_0f, 0x33_34_21_0f),
            (0x32_23_13, 0x32_22_13),
            (0x34_34_24_15, 0x33_34_24_15),
            (0x34_34_24_15, 0x34_34_23_15),
            (0x31_34_24_1f, 0x34_33_24_1f),
            (0x31_31_21_29, 0x31_32_21_29),
        ] {
            assert_eq!(rule_of([right, 0, 0, 0, 0]), END);
            assert_eq!(rule_of([wrong, 0, 0, 0, 0]), 25);
        }
        // SUBPIECE, POPCOUNT and the amount of a shift are free.
        assert_eq!(rule_of([0x18_38_21_0b, 0, 0, 0, 0]), END);
        assert_eq!(rule_of([0x38_21_0c, 0, 0, 0, 0]), END);
        assert_eq!(rule_of([0x38_31_21_21, 0, 0, 0, 0]), END);
    }

    #[test]
    fn rule_26_target() {
        // From index 1 of 3 operations: -1 is the start, 2 the end.
        for opcode in [0x11_00_04, 0x11_00_07, 0x31_11_00_05] {
            let to = |distance: i64| rule_of([opcode, 0, distance as u64, 0, 0]);
            assert_eq!([to(-1), to(0), to(2)], [END; 3]);
            assert_eq!([to(-2), to(3), to(i64::MIN), to(i64::MAX)], [26; 4]);
        }
    }

    #[test]
    fn reading_8_a_destination_is_the_whole_offset_word() {
        // Size 1: the low byte alone would be 0, then 255.
        assert_eq!(rule_of(with(BRANCH, 2, 0x100)), 26);
        assert_eq!(rule_of(with(BRANCH, 2, u64::MAX)), END);
        assert_eq!(rule_of(with(BRANCH, 2, 0xff)), 26);
    }

    #[test]
    fn reading_9_a_ram_destination_is_not_read() {
        for opcode in [0x48_00_04, 0x48_00_07, 0x31_48_00_05] {
            for offset in [0, 32, 65_536, 1 << 63, u64::MAX] {
                assert_eq!(rule_of([opcode, 0, offset, 0, 0]), END);
            }
        }
    }

    #[test]
    fn reading_10_a_space_number_is_its_whole_offset_word() {
        assert_eq!(rule_of(with(LOAD, 2, 0x104)), 23);
        assert_eq!(rule_of(with(STORE, 2, 0x103)), 23);
        for size in 1..=8 {
            assert_eq!(rule_of([0x34_10_22_02 + (size << 16), 0, 2, 0, 0]), END);
            assert_eq!(rule_of([0x10_00_04 + (size << 16), 0, 0, 0, 0]), END);
        }
    }

    #[test]
    fn reading_11_a_size_without_a_space_is_not_absent() {
        assert_eq!(rule_of([0x04_34_24_01, 0, 0, 0, 0]), 22);
        assert_eq!(rule_of([0x04_24_01, 0, 0, 0, 0]), 22);
        assert_eq!(rule_of([0x10_34_24_01, 0, 0, 0, 0]), 22);
    }
}
