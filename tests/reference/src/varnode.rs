//! Varnodes, the spaces that they lie in, and showing one.

/// The numbers of the spaces.
pub const CONSTANT: u64 = 1;
pub const UNIQUE: u64 = 2;
pub const REGISTER: u64 = 3;
pub const RAM: u64 = 4;

/// A space, an offset and a size, of any numbers.
#[derive(Clone, Copy, Debug, PartialEq, Eq)]
pub struct Varnode {
    pub space: u64,
    pub offset: u64,
    pub size: u64,
}

/// How many bytes the three lent spaces have.
#[derive(Clone, Copy, Debug, PartialEq, Eq)]
pub struct Lengths {
    pub unique: u64,
    pub register: u64,
    pub ram: u64,
}

impl Lengths {
    /// How many bytes a space has, if it is a lent one.
    pub fn of(&self, space: u64) -> Option<u64> {
        of_space([self.unique, self.register, self.ram], space)
    }

    /// Whether all bytes of a varnode are in its space, a lent one.
    pub fn contain(&self, varnode: &Varnode) -> bool {
        self.contain_bytes(varnode.space, u128::from(varnode.offset), varnode.size)
    }

    /// Whether a lent space has `size` bytes from a byte offset on. The sum does not wrap.
    pub fn contain_bytes(&self, space: u64, byte_offset: u128, size: u64) -> bool {
        let end = byte_offset + u128::from(size);
        self.of(space).is_some_and(|len| end <= u128::from(len))
    }
}

/// How many bytes the addressable unit of each lent space has, of any numbers. Only the pointers of
/// LOAD and STORE count in such units; all offsets are bytes.
#[derive(Clone, Copy, Debug, PartialEq, Eq)]
pub struct Wordsizes {
    pub unique: u64,
    pub register: u64,
    pub ram: u64,
}

impl Wordsizes {
    /// Pointers that are byte offsets.
    pub const ONE: Wordsizes = Wordsizes { unique: 1, register: 1, ram: 1 };

    /// The wordsize of a space, if it is a lent one.
    pub fn of(&self, space: u64) -> Option<u64> {
        of_space(self.all(), space)
    }

    /// The wordsizes in the order of the spaces' numbers.
    pub fn all(&self) -> [u64; 3] {
        [self.unique, self.register, self.ram]
    }
}

/// That of the numbers for unique, register and ram which is for a space, if it is a lent one.
fn of_space([unique, register, ram]: [u64; 3], space: u64) -> Option<u64> {
    match space {
        UNIQUE => Some(unique),
        REGISTER => Some(register),
        RAM => Some(ram),
        _ => None,
    }
}

/// Shows a varnode: the part of its space that it is, if there is one. A space may be longer than a
/// list could use; only the place matters.
pub fn show(lengths: &Lengths, varnode: &Varnode) -> Option<Varnode> {
    let is_part = is_operand_size(varnode.size) && lengths.contain(varnode);
    is_part.then_some(*varnode)
}

/// Whether a varnode that is present may have this size.
pub fn is_operand_size(size: u64) -> bool {
    (1..=8).contains(&size)
}

#[cfg(test)]
mod tests {
    use super::*;

    const LENGTHS: Lengths = Lengths { unique: 3, register: 16, ram: 65_540 };

    fn shows(space: u64, offset: u64, size: u64) -> bool {
        let varnode = Varnode { space, offset, size };
        let shown = show(&LENGTHS, &varnode);
        assert!(shown.is_none() || shown == Some(varnode));
        shown.is_some()
    }

    #[test]
    fn a_part_ends_where_its_space_ends() {
        assert!(shows(UNIQUE, 0, 3));
        assert!(shows(UNIQUE, 2, 1));
        assert!(!shows(UNIQUE, 0, 4));
        assert!(!shows(UNIQUE, 3, 1));
        assert!(shows(REGISTER, 12, 4));
        assert!(!shows(REGISTER, 13, 4));
    }

    #[test]
    fn offset_and_size_do_not_wrap() {
        for offset in [u64::MAX, u64::MAX - 3, u64::MAX - 7] {
            assert!(!shows(RAM, offset, 4));
            assert!(!shows(RAM, offset, 8));
        }
    }

    #[test]
    fn bytes_past_2_to_64_are_in_no_space() {
        for low in [0, 1, 8] {
            assert!(LENGTHS.contain_bytes(RAM, low, 4));
            assert!(!LENGTHS.contain_bytes(RAM, (1 << 64) + low, 4));
            assert!(!LENGTHS.contain_bytes(RAM, (7 << 64) + low, 4));
        }
    }

    #[test]
    fn only_lent_spaces_have_a_wordsize() {
        let wordsizes = Wordsizes { unique: 2, register: 3, ram: 4 };
        assert_eq!([UNIQUE, REGISTER, RAM].map(|space| wordsizes.of(space)), [2, 3, 4].map(Some));
        assert_eq!(wordsizes.all(), [2, 3, 4]);
        for space in [0, CONSTANT, 5, 256 + REGISTER, u64::MAX] {
            assert_eq!(wordsizes.of(space), None);
        }
    }

    #[test]
    fn only_lent_spaces_are_shown() {
        for space in [0, CONSTANT, 5, 16 + REGISTER, 256 + REGISTER, u64::MAX] {
            assert!(!shows(space, 0, 1));
        }
    }

    #[test]
    fn only_1_to_8_bytes_are_shown() {
        for size in [0, 9, 16, 256 + 1, u64::MAX] {
            assert!(!shows(REGISTER, 0, size));
        }
        assert!(shows(REGISTER, 0, 1));
        assert!(shows(REGISTER, 0, 8));
    }

    #[test]
    fn reading_15_a_long_space_is_shown() {
        assert!(shows(RAM, 65_532, 8));
        assert!(!shows(RAM, 65_533, 8));
    }
}
