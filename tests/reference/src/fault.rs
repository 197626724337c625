//! The numbers of the faults: what a call refuses, and what stops a run.

/// A byte order that is neither 0 nor 1, an address size or a wordsize that is not 1 to 8, or a window of
/// more than 64 operations.
pub const SETTING: u64 = 10;
/// A lent buffer that is too short for the result, for a window or for counts, or a list or a space of a wrong
/// length.
pub const LENGTH: u64 = 11;
/// A label that is neither 0 nor 1.
pub const LABEL: u64 = 12;
/// An opcode out of range, or a spare head byte that is not zero.
pub const HEAD: u64 = 21;
/// A space or a size out of range, an operand where the opcode has none, or none where it has one.
pub const SHAPE: u64 = 22;
/// A varnode in a space where its operation does not allow it.
pub const PLACE: u64 = 23;
/// Bytes beyond the end of a buffer, or a value that is not below 256^size.
pub const RANGE: u64 = 24;
/// Sizes that the operation does not allow together.
pub const SIZE: u64 = 25;
/// A relative branch to outside of the list.
pub const TARGET: u64 = 26;
/// A run that starts beyond the end of the list.
pub const START: u64 = 27;
/// A secret byte where only public ones may decide.
pub const LEAK: u64 = 31;
/// A LOAD or a STORE of bytes beyond the end of their space, by the pointer times the wordsize.
pub const BOUNDS: u64 = 32;
/// A divisor of 0.
pub const ZERO: u64 = 33;
/// A log word without room.
pub const LOG: u64 = 34;
/// A secret byte where only public ones may decide, on the way not taken.
pub const LEAK_AHEAD: u64 = 35;
