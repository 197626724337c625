//! The layout of a list: five words for each operation.

use crate::varnode::Varnode;

pub const WORDS_PER_OPERATION: usize = 5;

/// What the five words of an operation say, before any rule is asked. Descriptors and offsets are
/// those of output, input0, input1 and input2.
#[derive(Clone, Copy, Debug, PartialEq, Eq)]
pub struct Entry {
    pub opcode: u8,
    pub descriptors: [u8; 4],
    pub spare: [u8; 3],
    pub offsets: [u64; 4],
}

impl Entry {
    /// The entry of an operation with these varnodes.
    pub fn new(opcode: u8, varnodes: [Option<Varnode>; 4]) -> Entry {
        let offset = |varnode: Option<Varnode>| varnode.map_or(0, |varnode| varnode.offset);
        Entry {
            opcode,
            descriptors: varnodes.map(descriptor),
            spare: [0; 3],
            offsets: varnodes.map(offset),
        }
    }

    pub fn from_words(words: [u64; WORDS_PER_OPERATION]) -> Entry {
        let [head, offsets @ ..] = words;
        let [opcode, output, input0, input1, input2, spare @ ..] = head.to_le_bytes();
        Entry { opcode, descriptors: [output, input0, input1, input2], spare, offsets }
    }

    pub fn words(&self) -> [u64; WORDS_PER_OPERATION] {
        let [output, input0, input1, input2] = self.descriptors;
        let [spare0, spare1, spare2] = self.spare;
        let head = [self.opcode, output, input0, input1, input2, spare0, spare1, spare2];
        let [offset0, offset1, offset2, offset3] = self.offsets;
        [u64::from_le_bytes(head), offset0, offset1, offset2, offset3]
    }
}

/// The words of a list.
pub fn list_of(entries: &[Entry]) -> Vec<u64> {
    entries.iter().flat_map(Entry::words).collect()
}

/// The descriptor of a varnode whose space and size are below 16, or of an absent one.
pub fn descriptor(varnode: Option<Varnode>) -> u8 {
    varnode.map_or(0, |varnode| (varnode.space * 16 + varnode.size) as u8)
}

/// The varnode that a descriptor and an offset word say.
pub fn varnode(descriptor: u8, offset: u64) -> Varnode {
    Varnode { space: u64::from(descriptor / 16), offset, size: u64::from(descriptor % 16) }
}

#[cfg(test)]
pub mod tests {
    use super::*;

    /// The operations of the worked example: unique = register & 7, a load from ram, and a copy.
    pub const CASE: [[u64; WORDS_PER_OPERATION]; 3] = [
        [0x000000001434241d, 0, 0, 7, 0],
        [0x0000000024112102, 4, 4, 0, 0],
        [0x0000000000213101, 8, 4, 0, 0],
    ];

    #[test]
    fn entries_of_the_case() {
        let unique = |offset, size| Some(Varnode { space: 2, offset, size });
        let register = |offset, size| Some(Varnode { space: 3, offset, size });
        let constant = |offset, size| Some(Varnode { space: 1, offset, size });
        let entries = [
            Entry::new(29, [unique(0, 4), register(0, 4), constant(7, 4), None]),
            Entry::new(2, [unique(4, 1), constant(4, 1), unique(0, 4), None]),
            Entry::new(1, [register(8, 1), unique(4, 1), None, None]),
        ];
        assert_eq!(list_of(&entries), CASE.concat());
    }

    #[test]
    fn head_bytes_stand_least_significant_first() {
        let entry = Entry::from_words([0x8877665544332211, 1, 2, 3, u64::MAX]);
        assert_eq!(entry.opcode, 0x11);
        assert_eq!(entry.descriptors, [0x22, 0x33, 0x44, 0x55]);
        assert_eq!(entry.spare, [0x66, 0x77, 0x88]);
        assert_eq!(entry.offsets, [1, 2, 3, u64::MAX]);
        assert_eq!(entry.words(), [0x8877665544332211, 1, 2, 3, u64::MAX]);
    }

    #[test]
    fn a_descriptor_is_16_times_the_space_plus_the_size() {
        assert_eq!(varnode(0x34, 12), Varnode { space: 3, offset: 12, size: 4 });
        assert_eq!(descriptor(Some(varnode(0x34, 12))), 0x34);
        assert_eq!(descriptor(None), 0);
    }
}
