//! Inputs that are worth trying: values at the borders of a size, and numbers to be refused.

use reference::arithmetic::{all_ones, modulus};

/// Sizes of varnodes that are present.
pub const SIZES: std::ops::RangeInclusive<u64> = 1..=8;

/// Sizes from 0 to 9, and large ones whose low bits or whose bit count make a good size.
pub const GOOD_AND_BAD_SIZES: [u64; 17] = [
    0,
    1,
    2,
    3,
    4,
    5,
    6,
    7,
    8,
    9,
    16,
    255,
    256 + 1,
    (1 << 32) + 4,
    (1 << 61) + 1,
    1 << 63,
    u64::MAX,
];

/// Byte orders, and numbers that are none.
pub const GOOD_ORDERS: [u64; 2] = [0, 1];
pub const GOOD_AND_BAD_ORDERS: [u64; 6] = [0, 1, 2, 256, (1 << 32) + 1, u64::MAX];

/// Numbers that are no wordsize: beside the good ones, and large ones whose low bits make a good one.
pub const BAD_WORDSIZES: [u64; 8] = [0, 9, 16, 255, 256 + 1, (1 << 32) + 4, 1 << 63, u64::MAX];

/// Numbers that are no window: beside the largest, and large ones whose low bits, or those of four times
/// the number, make a good one.
pub const BAD_WINDOWS: [u64; 11] =
    [65, 66, 128, 256, 256 + 64, 1 << 32, (1 << 32) + 1, 1 << 62, (1 << 62) + 1, 1 << 63, u64::MAX];

/// Offsets that wrap when a size is added, or fit when cut to fewer bits.
pub const LARGE_OFFSETS: [u64; 16] = [
    1 << 16,
    1 << 32,
    (1 << 32) + 1,
    1 << 63,
    (1 << 63) + 1,
    u64::MAX - 10,
    u64::MAX - 9,
    u64::MAX - 8,
    u64::MAX - 7,
    u64::MAX - 6,
    u64::MAX - 5,
    u64::MAX - 4,
    u64::MAX - 3,
    u64::MAX - 2,
    u64::MAX - 1,
    u64::MAX,
];

/// The largest value of `size` bytes, 0 to 8.
pub fn largest_value(size: u64) -> u64 {
    all_ones(size) as u64
}

/// The least number that is no value of `size` bytes, if 64 bits hold it.
pub fn first_value_too_large(size: u64) -> Option<u64> {
    u64::try_from(modulus(size)).ok()
}

/// The least pointer whose product with a wordsize is no value of `size` bytes, if 64 bits hold it.
pub fn first_product_too_large(size: u64, wordsize: u64) -> Option<u64> {
    u64::try_from(modulus(size).div_ceil(u128::from(wordsize))).ok()
}

/// The values at the borders of a size: 0, 1, around half, all ones, and the powers of two. An
/// absent operand, size 0, has the value 0 only.
pub fn boundary_values(size: u64) -> Vec<u64> {
    if size == 0 {
        return vec![0];
    }
    let largest = largest_value(size);
    let half = largest / 2 + 1;
    let mut values: Vec<u64> = (0..8 * size).map(|bit| 1 << bit).collect();
    values.extend([0, half - 1, half + 1, largest]);
    values.sort();
    values.dedup();
    values
}
