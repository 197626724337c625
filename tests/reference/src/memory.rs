//! What the three lent spaces hold, byte for byte, and what a varnode reads from them.

use std::ops::Range;

use crate::bytes::{read, ByteOrder};
use crate::varnode::{Lengths, Varnode, CONSTANT, RAM, REGISTER, UNIQUE};

/// One byte for each byte of the three lent spaces: their contents, or their labels.
#[derive(Clone, Debug, PartialEq, Eq)]
pub struct Spaces {
    pub unique: Vec<u8>,
    pub register: Vec<u8>,
    pub ram: Vec<u8>,
}

impl Spaces {
    /// Spaces of these lengths, filled with zeros.
    pub fn of_lengths(lengths: &Lengths) -> Spaces {
        let zeros = |len: u64| vec![0; len as usize];
        Spaces {
            unique: zeros(lengths.unique),
            register: zeros(lengths.register),
            ram: zeros(lengths.ram),
        }
    }

    pub fn lengths(&self) -> Lengths {
        Lengths {
            unique: self.unique.len() as u64,
            register: self.register.len() as u64,
            ram: self.ram.len() as u64,
        }
    }

    /// The spaces in the order of their numbers.
    pub fn all(&self) -> [&Vec<u8>; 3] {
        [&self.unique, &self.register, &self.ram]
    }

    /// The spaces in the order of their numbers, to be changed.
    pub fn all_mut(&mut self) -> [&mut Vec<u8>; 3] {
        [&mut self.unique, &mut self.register, &mut self.ram]
    }

    /// The bytes of a varnode that lies in its space, a lent one.
    pub fn part(&self, varnode: &Varnode) -> &[u8] {
        let space = match varnode.space {
            UNIQUE => &self.unique,
            REGISTER => &self.register,
            RAM => &self.ram,
            other => panic!("space {other} is not a lent one"),
        };
        &space[indices(varnode)]
    }

    /// The bytes of a varnode that lies in its space, a lent one, to be written.
    pub fn part_mut(&mut self, varnode: &Varnode) -> &mut [u8] {
        let space = match varnode.space {
            UNIQUE => &mut self.unique,
            REGISTER => &mut self.register,
            RAM => &mut self.ram,
            other => panic!("space {other} is not a lent one"),
        };
        &mut space[indices(varnode)]
    }
}

fn indices(varnode: &Varnode) -> Range<usize> {
    let start = varnode.offset as usize;
    start..start + varnode.size as usize
}

/// The value of a varnode. A constant's is its offset.
pub fn value_of(order: ByteOrder, memory: &Spaces, varnode: &Varnode) -> u64 {
    match varnode.space {
        CONSTANT => varnode.offset,
        _ => read(order, memory.part(varnode)),
    }
}

/// Whether any byte of a varnode is secret. Constants are public.
pub fn is_secret(labels: &Spaces, varnode: &Varnode) -> bool {
    varnode.space != CONSTANT && labels.part(varnode).contains(&SECRET)
}

/// The two labels.
pub const PUBLIC: u8 = 0;
pub const SECRET: u8 = 1;

#[cfg(test)]
mod tests {
    use super::*;

    fn spaces() -> Spaces {
        Spaces { unique: vec![0, 1, 0], register: vec![0x12, 0x34], ram: vec![] }
    }

    #[test]
    fn a_varnode_is_a_part_of_its_space() {
        let mut spaces = spaces();
        let varnode = Varnode { space: REGISTER, offset: 0, size: 2 };
        assert_eq!(spaces.part(&varnode), [0x12, 0x34]);
        assert_eq!(value_of(ByteOrder::Little, &spaces, &varnode), 0x3412);
        assert_eq!(value_of(ByteOrder::Big, &spaces, &varnode), 0x1234);
        spaces.part_mut(&varnode)[1] = 0x56;
        assert_eq!(spaces.register, [0x12, 0x56]);
    }

    #[test]
    fn a_constant_is_its_offset_and_public() {
        let varnode = Varnode { space: CONSTANT, offset: 0x1234, size: 2 };
        for order in [ByteOrder::Little, ByteOrder::Big] {
            assert_eq!(value_of(order, &spaces(), &varnode), 0x1234);
        }
        assert!(!is_secret(&spaces(), &varnode));
    }

    #[test]
    fn one_secret_byte_makes_a_varnode_secret() {
        let secret = |offset, size| is_secret(&spaces(), &Varnode { space: UNIQUE, offset, size });
        assert!(secret(0, 3) && secret(1, 1) && secret(1, 2));
        assert!(!secret(0, 1) && !secret(2, 1));
    }
}
