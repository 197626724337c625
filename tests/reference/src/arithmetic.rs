//! The value of each integer operation, in the order of the opcodes.
//!
//! A value is a whole number below 256^size. `a` and `b` are the values of input0 and input1.

use crate::opcodes::{Opcode, Sizes};

/// The value of an integer operation's output, for inputs below 256^size, sizes that rule 25 allows,
/// and a divisor that is not 0.
pub fn value(opcode: Opcode, sizes: Sizes, input0: u64, input1: u64) -> u64 {
    let a = u128::from(input0);
    let b = u128::from(input1);
    let size = sizes.input0;
    let output = match opcode {
        Opcode::Piece => piece(a, b, sizes.input1),
        Opcode::Subpiece => subpiece(a, b, size, sizes.output),
        Opcode::Popcount => popcount(a, size),
        Opcode::IntEqual => int_equal(a, b),
        Opcode::IntNotEqual => int_not_equal(a, b),
        Opcode::IntLess => int_less(a, b),
        Opcode::IntSless => int_sless(a, b, size),
        Opcode::IntLessEqual => int_less_equal(a, b),
        Opcode::IntSlessEqual => int_sless_equal(a, b, size),
        Opcode::IntZext => int_zext(a),
        Opcode::IntSext => int_sext(a, size, sizes.output),
        Opcode::IntAdd => int_add(a, b, size),
        Opcode::IntSub => int_sub(a, b, size),
        Opcode::IntCarry => int_carry(a, b, size),
        Opcode::IntScarry => int_scarry(a, b, size),
        Opcode::IntSborrow => int_sborrow(a, b, size),
        Opcode::Int2Comp => int_2comp(a, size),
        Opcode::IntNegate => int_negate(a, size),
        Opcode::IntXor => a ^ b,
        Opcode::IntAnd => a & b,
        Opcode::IntOr => a | b,
        Opcode::IntLeft => int_left(a, b, size),
        Opcode::IntRight => int_right(a, b, size),
        Opcode::IntSright => int_sright(a, b, size),
        Opcode::IntMult => int_mult(a, b, size),
        Opcode::IntDiv => int_div(a, b),
        Opcode::IntRem => int_rem(a, b),
        Opcode::IntSdiv => int_sdiv(a, b, size),
        Opcode::IntSrem => int_srem(a, b, size),
        Opcode::BoolNegate => boolean(!is_true(a)),
        Opcode::BoolXor => boolean(is_true(a) != is_true(b)),
        Opcode::BoolAnd => boolean(is_true(a) && is_true(b)),
        Opcode::BoolOr => boolean(is_true(a) || is_true(b)),
        Opcode::Copy
        | Opcode::Load
        | Opcode::Store
        | Opcode::Branch
        | Opcode::Cbranch
        | Opcode::BranchInd
        | Opcode::Call
        | Opcode::CallInd
        | Opcode::Return => panic!("{opcode:?} is no integer operation"),
    };
    u64::try_from(output).expect("an output of at most 8 bytes")
}

/// How many values `size` bytes have: 256^size.
pub fn modulus(size: u64) -> u128 {
    (0..size).fold(1, |product, _| product * 256)
}

/// Whether a number is a value of `size` bytes, 0 to 8: below 256^size.
pub fn fits(number: u64, size: u64) -> bool {
    u128::from(number) < modulus(size)
}

/// The value of `size` bytes with every bit set.
pub fn all_ones(size: u64) -> u128 {
    modulus(size) - 1
}

fn power_of_two(exponent: u128) -> u128 {
    (0..exponent).fold(1, |product, _| product * 2)
}

fn width_in_bits(size: u64) -> u128 {
    8 * u128::from(size)
}

/// The two's complement reading of a value: the upper half of the values are negative numbers.
fn signed(value: u128, size: u64) -> i128 {
    let number = value as i128;
    if value < modulus(size) / 2 {
        return number;
    }
    number - modulus(size) as i128
}

/// The value that stands for a signed number, reduced to the size.
fn unsigned(number: i128, size: u64) -> u128 {
    number.rem_euclid(modulus(size) as i128) as u128
}

/// Whether a signed number is outside what the size can hold.
fn overflows(number: i128, size: u64) -> bool {
    let half = (modulus(size) / 2) as i128;
    number < -half || number >= half
}

/// Any value but 0 is true.
fn is_true(value: u128) -> bool {
    value != 0
}

/// A truth as a value.
fn boolean(truth: bool) -> u128 {
    u128::from(truth)
}

/// Input0 is the most significant part.
fn piece(a: u128, b: u128, size1: u64) -> u128 {
    a * modulus(size1) + b
}

/// Drops low bytes, then keeps as many as the output holds. Missing high bytes are 0.
fn subpiece(a: u128, dropped: u128, size: u64, output_size: u64) -> u128 {
    if dropped >= u128::from(size) {
        return 0;
    }
    a / power_of_two(8 * dropped) % modulus(output_size)
}

/// Counts the 1 bits, one bit after the other. The count fits an output of any size.
fn popcount(a: u128, size: u64) -> u128 {
    (0..width_in_bits(size)).map(|bit| a / power_of_two(bit) % 2).sum()
}

fn int_equal(a: u128, b: u128) -> u128 {
    boolean(a == b)
}

fn int_not_equal(a: u128, b: u128) -> u128 {
    boolean(a != b)
}

fn int_less(a: u128, b: u128) -> u128 {
    boolean(a < b)
}

fn int_sless(a: u128, b: u128, size: u64) -> u128 {
    boolean(signed(a, size) < signed(b, size))
}

fn int_less_equal(a: u128, b: u128) -> u128 {
    boolean(a <= b)
}

fn int_sless_equal(a: u128, b: u128, size: u64) -> u128 {
    boolean(signed(a, size) <= signed(b, size))
}

/// The added high bytes are 0, which leaves the number as it is.
fn int_zext(a: u128) -> u128 {
    a
}

/// The same signed number in a larger size.
fn int_sext(a: u128, size: u64, output_size: u64) -> u128 {
    unsigned(signed(a, size), output_size)
}

fn int_add(a: u128, b: u128, size: u64) -> u128 {
    (a + b) % modulus(size)
}

/// The modulus is added first, since `b` may be larger than `a`.
fn int_sub(a: u128, b: u128, size: u64) -> u128 {
    (modulus(size) + a - b) % modulus(size)
}

/// Whether the unsigned sum is too large for the size.
fn int_carry(a: u128, b: u128, size: u64) -> u128 {
    boolean(a + b >= modulus(size))
}

/// Whether the signed sum does not fit the size.
fn int_scarry(a: u128, b: u128, size: u64) -> u128 {
    boolean(overflows(signed(a, size) + signed(b, size), size))
}

/// Whether the signed difference does not fit the size.
fn int_sborrow(a: u128, b: u128, size: u64) -> u128 {
    boolean(overflows(signed(a, size) - signed(b, size), size))
}

/// The same signed number with the opposite sign.
fn int_2comp(a: u128, size: u64) -> u128 {
    unsigned(-signed(a, size), size)
}

/// Every bit flipped: a bit and its flip add up to 1, so a value and its negation to all ones.
fn int_negate(a: u128, size: u64) -> u128 {
    all_ones(size) - a
}

/// A shift by the width or more gives 0.
fn int_left(a: u128, amount: u128, size: u64) -> u128 {
    if amount >= width_in_bits(size) {
        return 0;
    }
    a * power_of_two(amount) % modulus(size)
}

/// A shift by the width or more gives 0.
fn int_right(a: u128, amount: u128, size: u64) -> u128 {
    if amount >= width_in_bits(size) {
        return 0;
    }
    a / power_of_two(amount)
}

/// A shift by the width or more leaves copies of the sign bit only. A shorter one divides and rounds
/// down, which fills the vacated bits with the sign.
fn int_sright(a: u128, amount: u128, size: u64) -> u128 {
    let number = signed(a, size);
    if amount >= width_in_bits(size) {
        return if number < 0 { all_ones(size) } else { 0 };
    }
    unsigned(number.div_euclid(power_of_two(amount) as i128), size)
}

fn int_mult(a: u128, b: u128, size: u64) -> u128 {
    a * b % modulus(size)
}

fn int_div(a: u128, b: u128) -> u128 {
    a / b
}

/// What is left of input0: quotient * input1 + remainder = input0.
fn int_rem(a: u128, b: u128) -> u128 {
    a - int_div(a, b) * b
}

/// The signed quotient, truncated towards zero as `/` does. Only the least value by -1 does not fit
/// the size; reduced to it, it is the least value again.
fn int_sdiv(a: u128, b: u128, size: u64) -> u128 {
    unsigned(signed(a, size) / signed(b, size), size)
}

/// What is left of input0: quotient * input1 + remainder = input0, all of them signed.
fn int_srem(a: u128, b: u128, size: u64) -> u128 {
    let dividend = signed(a, size);
    let divisor = signed(b, size);
    unsigned(dividend - dividend / divisor * divisor, size)
}

#[cfg(test)]
mod tests {
    use super::*;
    use Opcode::*;

    /// The value of an operation whose varnodes all have one size.
    fn same_size(opcode: Opcode, size: u64, a: u64, b: u64) -> u64 {
        value(opcode, Sizes { output: size, input0: size, input1: size }, a, b)
    }

    /// The value of a comparison or a carry at size 1.
    fn flag(opcode: Opcode, a: u64, b: u64) -> u64 {
        same_size(opcode, 1, a, b)
    }

    fn shift(opcode: Opcode, size: u64, a: u64, amount: u64) -> u64 {
        value(opcode, Sizes { output: size, input0: size, input1: 8 }, a, amount)
    }

    fn subpiece_into_2(dropped: u64) -> u64 {
        value(Subpiece, Sizes { output: 2, input0: 4, input1: 4 }, 0x11223344, dropped)
    }

    #[test]
    fn marked_ff_plus_01() {
        assert_eq!(same_size(IntAdd, 1, 0xff, 0x01), 0x00);
        assert_eq!(flag(IntCarry, 0xff, 0x01), 1);
        assert_eq!(flag(IntScarry, 0xff, 0x01), 0);
    }

    #[test]
    fn marked_7f_plus_01() {
        assert_eq!(same_size(IntAdd, 1, 0x7f, 0x01), 0x80);
        assert_eq!(flag(IntScarry, 0x7f, 0x01), 1);
    }

    #[test]
    fn marked_80_minus_01() {
        assert_eq!(same_size(IntSub, 1, 0x80, 0x01), 0x7f);
        assert_eq!(flag(IntSborrow, 0x80, 0x01), 1);
    }

    #[test]
    fn marked_f9_by_02_signed() {
        assert_eq!(same_size(IntSdiv, 1, 0xf9, 0x02), 0xfd);
        assert_eq!(same_size(IntSrem, 1, 0xf9, 0x02), 0xff);
    }

    #[test]
    fn marked_80_by_ff_signed() {
        assert_eq!(same_size(IntSdiv, 1, 0x80, 0xff), 0x80);
        assert_eq!(same_size(IntSrem, 1, 0x80, 0xff), 0x00);
    }

    #[test]
    fn marked_left_shifts_at_size_4() {
        assert_eq!(shift(IntLeft, 4, 1, 31), 0x80000000);
        assert_eq!(shift(IntLeft, 4, 1, 32), 0);
    }

    #[test]
    fn marked_signed_right_shifts_at_size_2() {
        assert_eq!(shift(IntSright, 2, 0x8000, 14), 0xfffe);
        assert_eq!(shift(IntSright, 2, 0x8000, 16), 0xffff);
    }

    #[test]
    fn marked_subpiece() {
        assert_eq!(subpiece_into_2(1), 0x2233);
        assert_eq!(subpiece_into_2(4), 0);
    }

    #[test]
    fn marked_piece() {
        assert_eq!(value(Piece, Sizes { output: 3, input0: 1, input1: 2 }, 0x12, 0x3456), 0x123456);
    }

    #[test]
    fn marked_popcount() {
        let sizes = Sizes { output: 4, input0: 4, input1: 0 };
        assert_eq!(value(Popcount, sizes, 0xffffffff, 0), 32);
    }

    #[test]
    fn open_shift_by_the_width_or_more() {
        for size in 1..=8 {
            let largest = all_ones(size) as u64;
            let most_positive = largest / 2;
            for amount in [8 * size, 8 * size + 1, 200, 1 << 32, 1 << 63, u64::MAX] {
                assert_eq!(shift(IntLeft, size, largest, amount), 0);
                assert_eq!(shift(IntRight, size, largest, amount), 0);
                assert_eq!(shift(IntSright, size, most_positive, amount), 0);
                assert_eq!(shift(IntSright, size, most_positive + 1, amount), largest);
            }
        }
    }

    #[test]
    fn open_signed_division_truncates_towards_zero() {
        let minus = |number: u64| u64::MAX - number + 1;
        let cases = [
            (7, 2, 3, 1),
            (7, minus(2), minus(3), 1),
            (minus(7), 2, minus(3), minus(1)),
            (minus(7), minus(2), 3, minus(1)),
        ];
        for (dividend, divisor, quotient, remainder) in cases {
            assert_eq!(same_size(IntSdiv, 8, dividend, divisor), quotient);
            assert_eq!(same_size(IntSrem, 8, dividend, divisor), remainder);
        }
    }

    #[test]
    fn open_least_value_by_minus_one() {
        for size in 1..=8 {
            let minus_one = all_ones(size) as u64;
            let least = minus_one / 2 + 1;
            assert_eq!(same_size(IntSdiv, size, least, minus_one), least);
            assert_eq!(same_size(IntSrem, size, least, minus_one), 0);
        }
    }

    #[test]
    fn open_subpiece_has_zeros_for_missing_bytes() {
        assert_eq!(subpiece_into_2(0), 0x3344);
        assert_eq!(subpiece_into_2(2), 0x1122);
        assert_eq!(subpiece_into_2(3), 0x0011);
        assert_eq!(subpiece_into_2(0xffffffff), 0);
        let wider = Sizes { output: 8, input0: 4, input1: 1 };
        assert_eq!(value(Subpiece, wider, 0x11223344, 0), 0x11223344);
        assert_eq!(value(Subpiece, wider, 0x11223344, 1), 0x112233);
    }

    #[test]
    fn open_any_byte_but_zero_is_true() {
        for byte in 1..=255 {
            assert_eq!(value(BoolNegate, Sizes { output: 1, input0: 1, input1: 0 }, byte, 0), 0);
            assert_eq!(flag(BoolXor, byte, 0), 1);
            assert_eq!(flag(BoolXor, byte, 0x80), 0);
            assert_eq!(flag(BoolAnd, byte, 0), 0);
            assert_eq!(flag(BoolAnd, byte, 0x80), 1);
            assert_eq!(flag(BoolOr, byte, 0), 1);
            assert_eq!(flag(BoolOr, byte, 0x80), 1);
        }
        assert_eq!(value(BoolNegate, Sizes { output: 1, input0: 1, input1: 0 }, 0, 0), 1);
        assert_eq!(flag(BoolXor, 0, 0), 0);
        assert_eq!(flag(BoolAnd, 0, 0), 0);
        assert_eq!(flag(BoolOr, 0, 0), 0);
    }
}
