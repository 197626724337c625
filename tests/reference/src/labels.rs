//! The labels of what an operation writes. A list of labels has one for each byte of a varnode, from the
//! least significant byte on.

use crate::bytes::ByteOrder;
use crate::memory::{Spaces, PUBLIC, SECRET};
use crate::varnode::{Varnode, CONSTANT};

/// The labels of a varnode. Constants are public.
pub fn labels_of(order: ByteOrder, labels: &Spaces, varnode: &Varnode) -> Vec<u8> {
    match varnode.space {
        CONSTANT => vec![PUBLIC; varnode.size as usize],
        _ => order.turned(labels.part(varnode).to_vec()),
    }
}

/// Gives the bytes of a varnode these labels.
pub fn set_labels(order: ByteOrder, list: Vec<u8>, labels: &mut Spaces, varnode: &Varnode) {
    labels.part_mut(varnode).copy_from_slice(&order.turned(list));
}

/// Input0 is the most significant part.
pub fn piece(input0: Vec<u8>, input1: Vec<u8>) -> Vec<u8> {
    [input1, input0].concat()
}

/// Low bytes are dropped, and high ones that the output has no room for. Missing high bytes are zero
/// fill.
pub fn subpiece(input0: Vec<u8>, dropped: u64, size: u64) -> Vec<u8> {
    let rest = input0.into_iter().skip(dropped as usize).collect();
    filled(rest, size, PUBLIC)
}

/// Zero fill is public.
pub fn int_zext(input0: Vec<u8>, size: u64) -> Vec<u8> {
    filled(input0, size, PUBLIC)
}

/// The fill tells the sign, which is in the top byte.
pub fn int_sext(input0: Vec<u8>, size: u64) -> Vec<u8> {
    let top = *input0.last().expect("a varnode has a byte");
    filled(input0, size, top)
}

/// The labels of `size` bytes of one value: all secret or all public.
pub fn whole(is_secret: bool, size: u64) -> Vec<u8> {
    vec![if is_secret { SECRET } else { PUBLIC }; size as usize]
}

/// The lowest `size` labels of a list, with a fill for high bytes that it does not have.
fn filled(mut list: Vec<u8>, size: u64, fill: u8) -> Vec<u8> {
    list.resize(size as usize, fill);
    list
}

#[cfg(test)]
mod tests {
    use super::*;
    use crate::varnode::REGISTER;

    #[test]
    fn the_least_significant_byte_is_first() {
        let varnode = Varnode { space: REGISTER, offset: 1, size: 3 };
        let mut labels = Spaces { unique: vec![], register: vec![1, 0, 0, 1, 1], ram: vec![] };
        assert_eq!(labels_of(ByteOrder::Little, &labels, &varnode), [0, 0, 1]);
        assert_eq!(labels_of(ByteOrder::Big, &labels, &varnode), [1, 0, 0]);
        set_labels(ByteOrder::Little, vec![0, 1, 1], &mut labels, &varnode);
        assert_eq!(labels.register, [1, 0, 1, 1, 1]);
        set_labels(ByteOrder::Big, vec![0, 1, 1], &mut labels, &varnode);
        assert_eq!(labels.register, [1, 1, 1, 0, 1]);
    }

    #[test]
    fn constants_are_public() {
        let labels = Spaces { unique: vec![1; 4], register: vec![1; 4], ram: vec![1; 4] };
        let varnode = Varnode { space: CONSTANT, offset: 2, size: 2 };
        assert_eq!(labels_of(ByteOrder::Big, &labels, &varnode), [0, 0]);
    }

    #[test]
    fn input0_of_piece_is_on_top() {
        assert_eq!(piece(vec![1], vec![0, 0]), [0, 0, 1]);
        assert_eq!(piece(vec![0, 0], vec![1]), [1, 0, 0]);
    }

    #[test]
    fn subpiece_drops_low_bytes_and_fills_high_ones() {
        let of_4_bytes = |dropped, size| subpiece(vec![1, 0, 1, 1], dropped, size);
        assert_eq!(of_4_bytes(0, 4), [1, 0, 1, 1]);
        assert_eq!(of_4_bytes(1, 2), [0, 1]);
        assert_eq!(of_4_bytes(1, 1), [0]);
        assert_eq!(of_4_bytes(1, 4), [0, 1, 1, 0]);
        assert_eq!(of_4_bytes(3, 2), [1, 0]);
        for dropped in [4, 5, 1 << 32, u64::MAX] {
            assert_eq!(of_4_bytes(dropped, 3), [0, 0, 0]);
        }
    }

    #[test]
    fn extensions_fill_with_public_or_with_the_top_label() {
        for (input0, zext, sext) in [
            ([0, 0], [0, 0, 0, 0], [0, 0, 0, 0]),
            ([1, 0], [1, 0, 0, 0], [1, 0, 0, 0]),
            ([0, 1], [0, 1, 0, 0], [0, 1, 1, 1]),
            ([1, 1], [1, 1, 0, 0], [1, 1, 1, 1]),
        ] {
            assert_eq!(int_zext(input0.to_vec(), 4), zext);
            assert_eq!(int_sext(input0.to_vec(), 4), sext);
        }
    }
}
