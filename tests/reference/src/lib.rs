//! The second program: p-code written from the papers alone, to be compared with the proved
//! interpreter.
//!
//! It is written to be read against the papers, not to be fast. Numbers are `u128` and `i128`, wide
//! enough that every sum, product and signed value of 8-byte operands is the mathematical one; each
//! result is reduced to its size as a last, visible step.

pub mod answers;
pub mod arithmetic;
pub mod bytes;
pub mod case;
pub mod counts;
pub mod fault;
pub mod labels;
pub mod list;
pub mod machine;
pub mod memory;
pub mod opcodes;
pub mod run;
pub mod speculative;
pub mod varnode;
pub mod vector;
pub mod verdict;
