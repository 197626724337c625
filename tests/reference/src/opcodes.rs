//! The operations: their numbers and names, which varnodes there are, and rule 25.

use crate::varnode::is_operand_size;

use Opcode::*;
use SizeRule::*;

/// The operations by their numbers.
#[derive(Clone, Copy, Debug, PartialEq, Eq)]
pub enum Opcode {
    Copy = 1,
    Load,
    Store,
    Branch,
    Cbranch,
    BranchInd,
    Call,
    CallInd,
    Return,
    Piece,
    Subpiece,
    Popcount,
    IntEqual,
    IntNotEqual,
    IntLess,
    IntSless,
    IntLessEqual,
    IntSlessEqual,
    IntZext,
    IntSext,
    IntAdd,
    IntSub,
    IntCarry,
    IntScarry,
    IntSborrow,
    Int2Comp,
    IntNegate,
    IntXor,
    IntAnd,
    IntOr,
    IntLeft,
    IntRight,
    IntSright,
    IntMult,
    IntDiv,
    IntRem,
    IntSdiv,
    IntSrem,
    BoolNegate,
    BoolXor,
    BoolAnd,
    BoolOr,
}

/// The sizes of the varnodes that rule 25 looks at, in bytes. An absent one has size 0.
#[derive(Clone, Copy, Debug, PartialEq, Eq)]
pub struct Sizes {
    pub output: u64,
    pub input0: u64,
    pub input1: u64,
}

/// An address size for operations whose sizes do not depend on it.
pub const ANY_ADDRESS_SIZE: u64 = 8;

/// Which sizes may go together: rule 25 SIZE. An absent varnode has no say.
#[derive(Clone, Copy, Debug, PartialEq, Eq)]
pub enum SizeRule {
    /// The sizes of the two inputs add up to that of the output.
    InputsAddUp,
    /// Any sizes go together.
    Free,
    /// The inputs have one size, the output has size 1.
    InputsEqualOutputOne,
    /// The output is larger than input0.
    OutputLarger,
    /// All varnodes have one size.
    AllEqual,
    /// Input0 and the output have one size; that of input1 is free.
    Input0EqualsOutput,
    /// All varnodes have size 1.
    AllOne,
    /// Input0, where to go, has the size of an address.
    Input0IsAddress,
    /// Input1, the pointer, has the size of an address.
    Input1IsAddress,
    /// Input1, the condition, has size 1.
    Input1One,
}

impl SizeRule {
    /// Whether the rule allows these sizes, each of them 1 to 8 or absent.
    pub fn allows(self, sizes: Sizes, address_size: u64) -> bool {
        let Sizes { output, input0, input1 } = sizes;
        match self {
            InputsAddUp => input0 + input1 == output,
            Free => true,
            InputsEqualOutputOne => input0 == input1 && output == 1,
            OutputLarger => output > input0,
            AllEqual => input0 == output && input1 == output,
            Input0EqualsOutput => input0 == output,
            AllOne => output == 1 && input0 == 1 && (input1 == 1 || input1 == 0),
            Input0IsAddress => input0 == address_size,
            Input1IsAddress => input1 == address_size,
            Input1One => input1 == 1,
        }
    }
}

/// An opcode and its varnodes.
#[derive(Clone, Copy, Debug)]
pub struct Operation {
    pub opcode: Opcode,
    pub name: &'static str,
    pub has_output: bool,
    /// Inputs, counted from input0 on.
    pub input_count: usize,
    pub size_rule: SizeRule,
}

/// The operations in the order of their numbers.
pub const OPERATIONS: [Operation; 42] = [
    one_input(Copy, "COPY", Input0EqualsOutput),
    two_inputs(Load, "LOAD", Input1IsAddress),
    no_output(Store, "STORE", 3, Input1IsAddress),
    no_output(Branch, "BRANCH", 1, Free),
    no_output(Cbranch, "CBRANCH", 2, Input1One),
    no_output(BranchInd, "BRANCHIND", 1, Input0IsAddress),
    no_output(Call, "CALL", 1, Free),
    no_output(CallInd, "CALLIND", 1, Input0IsAddress),
    no_output(Return, "RETURN", 1, Input0IsAddress),
    two_inputs(Piece, "PIECE", InputsAddUp),
    two_inputs(Subpiece, "SUBPIECE", Free),
    one_input(Popcount, "POPCOUNT", Free),
    two_inputs(IntEqual, "INT_EQUAL", InputsEqualOutputOne),
    two_inputs(IntNotEqual, "INT_NOTEQUAL", InputsEqualOutputOne),
    two_inputs(IntLess, "INT_LESS", InputsEqualOutputOne),
    two_inputs(IntSless, "INT_SLESS", InputsEqualOutputOne),
    two_inputs(IntLessEqual, "INT_LESSEQUAL", InputsEqualOutputOne),
    two_inputs(IntSlessEqual, "INT_SLESSEQUAL", InputsEqualOutputOne),
    one_input(IntZext, "INT_ZEXT", OutputLarger),
    one_input(IntSext, "INT_SEXT", OutputLarger),
    two_inputs(IntAdd, "INT_ADD", AllEqual),
    two_inputs(IntSub, "INT_SUB", AllEqual),
    two_inputs(IntCarry, "INT_CARRY", InputsEqualOutputOne),
    two_inputs(IntScarry, "INT_SCARRY", InputsEqualOutputOne),
    two_inputs(IntSborrow, "INT_SBORROW", InputsEqualOutputOne),
    one_input(Int2Comp, "INT_2COMP", Input0EqualsOutput),
    one_input(IntNegate, "INT_NEGATE", Input0EqualsOutput),
    two_inputs(IntXor, "INT_XOR", AllEqual),
    two_inputs(IntAnd, "INT_AND", AllEqual),
    two_inputs(IntOr, "INT_OR", AllEqual),
    two_inputs(IntLeft, "INT_LEFT", Input0EqualsOutput),
    two_inputs(IntRight, "INT_RIGHT", Input0EqualsOutput),
    two_inputs(IntSright, "INT_SRIGHT", Input0EqualsOutput),
    two_inputs(IntMult, "INT_MULT", AllEqual),
    two_inputs(IntDiv, "INT_DIV", AllEqual),
    two_inputs(IntRem, "INT_REM", AllEqual),
    two_inputs(IntSdiv, "INT_SDIV", AllEqual),
    two_inputs(IntSrem, "INT_SREM", AllEqual),
    one_input(BoolNegate, "BOOL_NEGATE", AllOne),
    two_inputs(BoolXor, "BOOL_XOR", AllOne),
    two_inputs(BoolAnd, "BOOL_AND", AllOne),
    two_inputs(BoolOr, "BOOL_OR", AllOne),
];

/// The operations from PIECE on: their output is the value of their inputs alone.
pub const INTEGER_OPERATIONS: &[Operation] = OPERATIONS.split_at(Piece as usize - 1).1;

const fn one_input(opcode: Opcode, name: &'static str, size_rule: SizeRule) -> Operation {
    Operation { opcode, name, has_output: true, input_count: 1, size_rule }
}

const fn two_inputs(opcode: Opcode, name: &'static str, size_rule: SizeRule) -> Operation {
    Operation { opcode, name, has_output: true, input_count: 2, size_rule }
}

const fn no_output(
    opcode: Opcode,
    name: &'static str,
    input_count: usize,
    size_rule: SizeRule,
) -> Operation {
    Operation { opcode, name, has_output: false, input_count, size_rule }
}

impl Operation {
    /// The operation with this number, if there is one.
    pub fn with_number(number: u64) -> Option<&'static Operation> {
        OPERATIONS.iter().find(|operation| operation.number() == number)
    }

    pub fn number(&self) -> u64 {
        self.opcode as u64
    }

    /// Whether the output is the value of the inputs alone.
    pub fn is_integer(&self) -> bool {
        self.number() >= Piece as u64
    }

    /// Whether input0 is a dividend and input1 a divisor.
    pub fn divides(&self) -> bool {
        matches!(self.opcode, IntDiv | IntRem | IntSdiv | IntSrem)
    }

    /// Whether input0 is a branch destination: where to go, and not a varnode to read.
    pub fn has_destination(&self) -> bool {
        matches!(self.opcode, Branch | Cbranch | Call)
    }

    /// Which of output, input0, input1 and input2 are present.
    pub fn present(&self) -> [bool; 4] {
        [self.has_output, self.input_count > 0, self.input_count > 1, self.input_count > 2]
    }

    /// Rule 22 SHAPE for sizes: 1 to 8 for each varnode that the opcode has, 0 for an absent one.
    pub fn shape_allows(&self, sizes: Sizes) -> bool {
        let holds = |present, size| if present { is_operand_size(size) } else { size == 0 };
        let [output, input0, input1, _] = self.present();
        holds(output, sizes.output) && holds(input0, sizes.input0) && holds(input1, sizes.input1)
    }

    /// Every mix of sizes that rules 22 and 25 allow. That of STORE's input2 is free.
    pub fn allowed_sizes(&self, address_size: u64) -> Vec<Sizes> {
        let mut allowed = Vec::new();
        for output in 0..=8 {
            for input0 in 0..=8 {
                for input1 in 0..=8 {
                    let sizes = Sizes { output, input0, input1 };
                    if self.shape_allows(sizes) && self.size_rule.allows(sizes, address_size) {
                        allowed.push(sizes);
                    }
                }
            }
        }
        allowed
    }
}

#[cfg(test)]
mod tests {
    use super::*;

    #[test]
    fn table_follows_the_numbers() {
        let numbers = |operations: &[Operation]| -> Vec<u64> {
            operations.iter().map(Operation::number).collect()
        };
        assert_eq!(numbers(&OPERATIONS), (1..=42).collect::<Vec<u64>>());
        assert_eq!(numbers(INTEGER_OPERATIONS), (10..=42).collect::<Vec<u64>>());
    }

    #[test]
    fn names_stand_at_their_numbers() {
        let names =
            "1 COPY, 2 LOAD, 3 STORE, 4 BRANCH, 5 CBRANCH, 6 BRANCHIND, 7 CALL, 8 CALLIND, \
            9 RETURN, 10 PIECE, 11 SUBPIECE, 12 POPCOUNT, 13 INT_EQUAL, 14 INT_NOTEQUAL, \
            15 INT_LESS, 16 INT_SLESS, 17 INT_LESSEQUAL, 18 INT_SLESSEQUAL, 19 INT_ZEXT, \
            20 INT_SEXT, 21 INT_ADD, 22 INT_SUB, 23 INT_CARRY, 24 INT_SCARRY, 25 INT_SBORROW, \
            26 INT_2COMP, 27 INT_NEGATE, 28 INT_XOR, 29 INT_AND, 30 INT_OR, 31 INT_LEFT, \
            32 INT_RIGHT, 33 INT_SRIGHT, 34 INT_MULT, 35 INT_DIV, 36 INT_REM, 37 INT_SDIV, \
            38 INT_SREM, 39 BOOL_NEGATE, 40 BOOL_XOR, 41 BOOL_AND, 42 BOOL_OR";
        let numbered = |operation: &Operation| format!("{} {}", operation.number(), operation.name);
        assert_eq!(OPERATIONS.iter().map(numbered).collect::<Vec<String>>().join(", "), names);
        assert!(Operation::with_number(0).is_none());
        assert!(Operation::with_number(43).is_none());
    }

    #[test]
    fn varnodes_of_each_operation() {
        for operation in &OPERATIONS {
            let expected = match operation.name {
                "STORE" => [false, true, true, true],
                "CBRANCH" => [false, true, true, false],
                "BRANCH" | "BRANCHIND" | "CALL" | "CALLIND" | "RETURN" => {
                    [false, true, false, false]
                }
                "COPY" | "POPCOUNT" | "INT_ZEXT" | "INT_SEXT" | "INT_2COMP" | "INT_NEGATE"
                | "BOOL_NEGATE" => [true, true, false, false],
                _ => [true, true, true, false],
            };
            assert_eq!(operation.present(), expected, "{}", operation.name);
        }
    }

    #[test]
    fn mixes_of_sizes_are_those_of_rule_25() {
        let expected = |operation: &Operation| match (operation.size_rule, operation.input_count) {
            (InputsAddUp, _) => 7 + 6 + 5 + 4 + 3 + 2 + 1,
            (Free, 2) => 8 * 8 * 8,
            (Free, _) if operation.has_output => 8 * 8,
            (Free, _) => 8,
            (InputsEqualOutputOne, _) => 8,
            (OutputLarger, _) => 7 + 6 + 5 + 4 + 3 + 2 + 1,
            (AllEqual, _) => 8,
            (Input0EqualsOutput, 2) => 8 * 8,
            (Input0EqualsOutput, _) => 8,
            (AllOne, _) => 1,
            (Input0IsAddress, _) => 1,
            (Input1IsAddress, _) if operation.has_output => 8 * 8,
            (Input1IsAddress, _) => 8,
            (Input1One, _) => 8,
        };
        for operation in &OPERATIONS {
            for address_size in 1..=8 {
                let mixes = operation.allowed_sizes(address_size).len();
                assert_eq!(mixes, expected(operation), "{}", operation.name);
            }
        }
    }
}
