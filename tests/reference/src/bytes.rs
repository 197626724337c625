//! Values as bytes, in either byte order.

/// Which end of a value stands first.
#[derive(Clone, Copy, Debug, PartialEq, Eq)]
pub enum ByteOrder {
    Little,
    Big,
}

impl ByteOrder {
    /// The byte order with a number, if there is one.
    pub fn with_number(number: u64) -> Option<ByteOrder> {
        match number {
            0 => Some(ByteOrder::Little),
            1 => Some(ByteOrder::Big),
            _ => None,
        }
    }

    /// What there is for each byte of a value, turned from how the bytes stand to the least significant one
    /// first, or back.
    pub fn turned(self, mut bytes: Vec<u8>) -> Vec<u8> {
        if self == ByteOrder::Big {
            bytes.reverse();
        }
        bytes
    }

    /// What the byte at `index` of a value of `size` bytes counts for: a power of 256.
    fn weight(self, index: usize, size: usize) -> u128 {
        let less_significant_bytes = match self {
            ByteOrder::Little => index,
            ByteOrder::Big => size - 1 - index,
        };
        (0..less_significant_bytes).fold(1, |weight, _| weight * 256)
    }
}

/// The value of 1 to 8 bytes.
pub fn read(order: ByteOrder, bytes: &[u8]) -> u64 {
    let size = bytes.len();
    let value: u128 = bytes
        .iter()
        .enumerate()
        .map(|(index, &byte)| u128::from(byte) * order.weight(index, size))
        .sum();
    u64::try_from(value).expect("a value of at most 8 bytes")
}

/// Writes a value into the 1 to 8 bytes that it has.
pub fn write(order: ByteOrder, value: u64, bytes: &mut [u8]) {
    let size = bytes.len();
    for (index, byte) in bytes.iter_mut().enumerate() {
        let digit = u128::from(value) / order.weight(index, size) % 256;
        *byte = digit as u8;
    }
}

#[cfg(test)]
mod tests {
    use super::*;
    use ByteOrder::*;

    fn written(order: ByteOrder, value: u64, size: usize) -> Vec<u8> {
        let mut bytes = vec![0xee; size];
        write(order, value, &mut bytes);
        bytes
    }

    #[test]
    fn marked_bytes_of_123456() {
        assert_eq!(written(Little, 0x123456, 3), [0x56, 0x34, 0x12]);
        assert_eq!(written(Big, 0x123456, 3), [0x12, 0x34, 0x56]);
    }

    #[test]
    fn marked_overlapping_copy() {
        for order in [Little, Big] {
            let mut memory = [0x01, 0x02, 0x03, 0x04];
            let input0 = read(order, &memory[0..2]);
            write(order, input0, &mut memory[1..3]);
            assert_eq!(memory, [0x01, 0x01, 0x02, 0x04]);
        }
    }

    #[test]
    fn eight_bytes_in_either_order() {
        let bytes = [0x81, 0x02, 0x03, 0x04, 0x05, 0x06, 0x07, 0x98];
        assert_eq!(read(Little, &bytes), 0x9807060504030281);
        assert_eq!(read(Big, &bytes), 0x8102030405060798);
    }

    #[test]
    fn bytes_are_turned_to_the_least_significant_first() {
        assert_eq!(Little.turned(written(Little, 0x123456, 3)), [0x56, 0x34, 0x12]);
        assert_eq!(Big.turned(written(Big, 0x123456, 3)), [0x56, 0x34, 0x12]);
    }

    #[test]
    fn what_was_written_is_read_back() {
        for order in [Little, Big] {
            for size in 1..=8 {
                let value = 0xf1e2d3c4b5a69788 >> (64 - 8 * size);
                assert_eq!(read(order, &written(order, value, size)), value);
            }
        }
    }
}
