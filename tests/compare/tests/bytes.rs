//! `undrelvoa_gather` and `undrelvoa_scatter` and the second program: values in a buffer, read and
//! written in either byte order, one order against the other, and calls that are refused.

use std::ops::Range;

use compare::agreement::{check_gather, check_scatter, GuardedBuffer, Tally, MOST_RESULT_WORDS};
use compare::campaign::Campaign;
use compare::inputs::{
    first_value_too_large, largest_value, GOOD_AND_BAD_ORDERS, GOOD_AND_BAD_SIZES, GOOD_ORDERS,
    LARGE_OFFSETS, SIZES,
};
use compare::random::Random;
use compare::{gather, scatter};
use reference::answers::Place;

const RANDOM_CALLS: u64 = 500_000;
/// Pairs of calls, one in each order.
const RANDOM_PAIRS: u64 = 250_000;
const LITTLE: u64 = 0;
const BIG: u64 = 1;
const LONGEST_SMALL_BUFFER: u64 = 20;
/// How many lengths small buffers have. An input of some tests is one of them, in turn.
const SMALL_LENGTHS: u64 = LONGEST_SMALL_BUFFER + 1;

/// Every order, offset and size to try on a small buffer of `len` bytes.
fn places(len: u64) -> Vec<Place> {
    let mut places = Vec::new();
    for order in GOOD_AND_BAD_ORDERS {
        for size in GOOD_AND_BAD_SIZES {
            for offset in (0..=len + 10).chain(LARGE_OFFSETS) {
                places.push(Place { order, offset, size });
            }
        }
    }
    places
}

/// A place that is taken more often than not, on a buffer of `len` bytes.
fn random_place(len: u64, random: &mut Random) -> Place {
    let order = if random.once_in(10) {
        random.pick(&GOOD_AND_BAD_ORDERS)
    } else {
        random.pick(&GOOD_ORDERS)
    };
    let size = if random.once_in(10) {
        random.pick(&GOOD_AND_BAD_SIZES)
    } else {
        1 + random.below(*SIZES.end())
    };
    let offset =
        if random.once_in(10) { random.pick(&LARGE_OFFSETS) } else { random.below(len + 1) };
    Place { order, offset, size }
}

/// A part of a buffer that is read or written in one order.
struct Part {
    place: Place,
    buffer: GuardedBuffer,
}

impl Part {
    /// A part of `size` bytes anywhere in a buffer of any small length.
    fn random(order: u64, size: u64, random: &mut Random) -> Part {
        let len = size + random.below(LONGEST_SMALL_BUFFER - size + 1);
        let offset = random.below(len - size + 1);
        let buffer = GuardedBuffer::random(len as usize, random);
        Part { place: Place { order, offset, size }, buffer }
    }

    fn range(&self) -> Range<usize> {
        let start = self.place.offset as usize;
        start..start + self.place.size as usize
    }

    fn bytes(&self) -> &[u8] {
        &self.buffer.lent()[self.range()]
    }

    fn hold(&mut self, bytes: &[u8]) {
        let range = self.range();
        self.buffer.lent_mut()[range].copy_from_slice(bytes);
    }

    /// Its value, which the second program gives too.
    fn gathered(&self) -> u64 {
        let mut result = [0];
        assert_eq!(check_gather(&self.place, &self.buffer, 1), 0, "{:#x?}", self.place);
        gather(&self.place, self.buffer.lent(), &mut result);
        result[0]
    }

    /// Writes a value there, as the second program does.
    fn scatter(&mut self, value: u64) {
        assert_eq!(check_scatter(&self.place, &mut self.buffer, value), 0, "{:#x?}", self.place);
    }
}

fn reversed(bytes: &[u8]) -> Vec<u8> {
    bytes.iter().rev().copied().collect()
}

/// The value of bytes in big order, by Rust's own rule.
fn big_value(bytes: &[u8]) -> u64 {
    let mut eight = [0; 8];
    eight[8 - bytes.len()..].copy_from_slice(bytes);
    u64::from_be_bytes(eight)
}

/// Big order reads bytes as little order reads them reversed, in another buffer. Gives back the value.
fn check_reversed_reading(bytes: &[u8], random: &mut Random) -> u64 {
    let size = bytes.len() as u64;
    let mut big = Part::random(BIG, size, random);
    let mut little = Part::random(LITTLE, size, random);
    big.hold(bytes);
    little.hold(&reversed(bytes));
    let value = big_value(bytes);
    assert_eq!((big.gathered(), little.gathered()), (value, value), "bytes {bytes:x?}");
    value
}

/// Big order writes a value as little order does, reversed, in another buffer.
fn check_reversed_writing(size: u64, value: u64, random: &mut Random) {
    let mut big = Part::random(BIG, size, random);
    let mut little = Part::random(LITTLE, size, random);
    big.scatter(value);
    little.scatter(value);
    assert_eq!(big.bytes(), reversed(little.bytes()), "size {size}, value {value:#x}");
    assert_eq!(big_value(big.bytes()), value, "size {size}");
}

/// Values to write, for any size: those at its borders and one too large, or any for a bad size.
fn values_to_write(size: u64, random: &mut Random) -> Vec<u64> {
    let mut values = vec![0, 1, u64::MAX, random.word()];
    if SIZES.contains(&size) {
        values.extend([largest_value(size), random.operand(size), random.operand(size)]);
        values.extend(first_value_too_large(size));
    }
    values
}

/// A value that mostly fits the size.
fn random_value(size: u64, random: &mut Random) -> u64 {
    if !SIZES.contains(&size) || random.once_in(10) {
        return random.word();
    }
    if random.once_in(10) {
        return first_value_too_large(size).unwrap_or(u64::MAX);
    }
    random.operand(size)
}

#[test]
fn gather_at_every_offset_of_small_buffers() {
    const SEED: u64 = 0x5eed_0011;
    let mut campaign = Campaign::new(SEED, SMALL_LENGTHS);
    let mut tally = Tally::default();
    for (number, mut random) in campaign.by_ref() {
        let len = number % SMALL_LENGTHS;
        for place in places(len) {
            let buffer = GuardedBuffer::random(len as usize, &mut random);
            for result_len in 0..=2 {
                tally.count(check_gather(&place, &buffer, result_len));
            }
        }
    }
    println!("gather, every offset of small buffers: {campaign}, {tally}");
    if campaign.is_whole() {
        tally.assert_numbers(&[0, 10, 11, 22, 24]);
    }
}

#[test]
fn scatter_at_every_offset_of_small_buffers() {
    const SEED: u64 = 0x5eed_0012;
    let mut campaign = Campaign::new(SEED, SMALL_LENGTHS);
    let mut tally = Tally::default();
    for (number, mut random) in campaign.by_ref() {
        let len = number % SMALL_LENGTHS;
        let mut buffer = GuardedBuffer::random(len as usize, &mut random);
        for place in places(len) {
            for value in values_to_write(place.size, &mut random) {
                tally.count(check_scatter(&place, &mut buffer, value));
            }
        }
    }
    println!("scatter, every offset of small buffers: {campaign}, {tally}");
    if campaign.is_whole() {
        tally.assert_numbers(&[0, 10, 22, 24]);
    }
}

#[test]
fn scatter_refuses_every_value_one_too_large() {
    const SEED: u64 = 0x5eed_0013;
    let mut campaign = Campaign::new(SEED, 1);
    let mut tally = Tally::default();
    for (_, mut random) in campaign.by_ref() {
        let mut buffer = GuardedBuffer::random(LONGEST_SMALL_BUFFER as usize, &mut random);
        for order in GOOD_ORDERS {
            for size in SIZES {
                let Some(value) = first_value_too_large(size) else {
                    continue;
                };
                for offset in 0..=LONGEST_SMALL_BUFFER - size {
                    let place = Place { order, offset, size };
                    tally.count(check_scatter(&place, &mut buffer, value));
                }
            }
        }
    }
    println!("scatter, values one too large: {campaign}, {tally}");
    tally.assert_numbers(&[24]);
}

#[test]
fn gather_random_calls() {
    const SEED: u64 = 0x5eed_0014;
    let mut campaign = Campaign::new(SEED, RANDOM_CALLS);
    let mut tally = Tally::default();
    for (_, mut random) in campaign.by_ref() {
        let len = random.below(41);
        let place = random_place(len, &mut random);
        let buffer = GuardedBuffer::random(len as usize, &mut random);
        let result_len = random.below(MOST_RESULT_WORDS + 1);
        tally.count(check_gather(&place, &buffer, result_len));
    }
    println!("gather, random calls: {campaign}, {tally}");
    if campaign.is_whole() {
        tally.assert_numbers(&[0, 10, 11, 22, 24]);
    }
}

#[test]
fn scatter_random_calls() {
    const SEED: u64 = 0x5eed_0015;
    let mut campaign = Campaign::new(SEED, RANDOM_CALLS);
    let mut tally = Tally::default();
    for (_, mut random) in campaign.by_ref() {
        let len = random.below(41);
        let place = random_place(len, &mut random);
        let value = random_value(place.size, &mut random);
        let mut buffer = GuardedBuffer::random(len as usize, &mut random);
        tally.count(check_scatter(&place, &mut buffer, value));
    }
    println!("scatter, random calls: {campaign}, {tally}");
    if campaign.is_whole() {
        tally.assert_numbers(&[0, 10, 22, 24]);
    }
}

#[test]
fn what_was_written_is_read_back() {
    const SEED: u64 = 0x5eed_0016;
    let mut campaign = Campaign::new(SEED, RANDOM_CALLS);
    for (_, mut random) in campaign.by_ref() {
        let size = 1 + random.below(*SIZES.end());
        let offset = random.below(LONGEST_SMALL_BUFFER - size + 1);
        let place = Place { order: random.pick(&GOOD_ORDERS), offset, size };
        let value = random.operand(size);
        let mut bytes = [0; LONGEST_SMALL_BUFFER as usize];
        let mut result = [!value];
        assert_eq!(scatter(&place, &mut bytes, value), 0, "{place:#x?}, value {value:#x}");
        assert_eq!(gather(&place, &bytes, &mut result), 0, "{place:#x?}, bytes {bytes:x?}");
        assert_eq!(result, [value], "{place:#x?}, bytes {bytes:x?}");
    }
    println!("scatter then gather: {campaign}, {} agreed", campaign.drawn());
}

#[test]
fn big_order_is_little_order_reversed_on_random_bytes() {
    const SEED: u64 = 0x5eed_0018;
    const EACH_SIZE: u64 = 200;
    let mut campaign = Campaign::new(SEED, RANDOM_PAIRS);
    let mut of_size = [0; *SIZES.end() as usize];
    for (_, mut random) in campaign.by_ref() {
        let size = 1 + random.below(*SIZES.end());
        let bytes: Vec<u8> = (0..size).map(|_| random.word() as u8).collect();
        let value = check_reversed_reading(&bytes, &mut random);
        check_reversed_writing(size, value, &mut random);
        of_size[size as usize - 1] += 1;
    }
    println!(
        "one order against the other, random bytes: {campaign}, {of_size:?} of sizes 1 to 8 agreed"
    );
    if campaign.is_whole() {
        assert!(of_size.iter().all(|&count| count >= EACH_SIZE), "{of_size:?}");
    }
}

#[test]
fn big_order_is_little_order_reversed_on_every_pair_of_bytes() {
    const SEED: u64 = 0x5eed_0019;
    let mut campaign = Campaign::new(SEED, 1 << 16);
    for (number, mut random) in campaign.by_ref() {
        let bytes = [(number >> 8) as u8, number as u8];
        let value = check_reversed_reading(&bytes, &mut random);
        check_reversed_writing(2, value, &mut random);
    }
    println!("one order against the other, two bytes: {campaign}, {} agreed", campaign.drawn());
}

#[test]
fn big_order_is_little_order_reversed_with_each_byte_at_each_place() {
    const SEED: u64 = 0x5eed_001a;
    let mut campaign = Campaign::new(SEED, 256);
    let mut agreed = 0;
    for (number, mut random) in campaign.by_ref() {
        let byte = number as u8;
        for size in SIZES {
            for place in 0..size {
                for other in [0, 0xff] {
                    let mut bytes = vec![other; size as usize];
                    bytes[place as usize] = byte;
                    let value = check_reversed_reading(&bytes, &mut random);
                    check_reversed_writing(size, value, &mut random);
                    agreed += 1;
                }
            }
        }
    }
    println!("one order against the other, each byte at each place: {campaign}, {agreed} agreed");
}

#[test]
fn both_orders_are_answered_alike() {
    const SEED: u64 = 0x5eed_001b;
    let mut campaign = Campaign::new(SEED, RANDOM_PAIRS);
    let mut gathered = Tally::default();
    let mut scattered = Tally::default();
    for (_, mut random) in campaign.by_ref() {
        let len = random.below(41);
        let place = random_place(len, &mut random);
        let result_len = random.below(3);
        let value = random_value(place.size, &mut random);
        let mut buffer = GuardedBuffer::random(len as usize, &mut random);
        let [little, big] = GOOD_ORDERS.map(|order| {
            let place = Place { order, ..place };
            let read = check_gather(&place, &buffer, result_len);
            (read, check_scatter(&place, &mut buffer, value))
        });
        assert_eq!(little, big, "{place:#x?}, value {value:#x}");
        gathered.count(big.0);
        scattered.count(big.1);
    }
    println!("gather, one order against the other: {campaign}, {gathered}");
    println!("scatter, one order against the other: {campaign}, {scattered}");
    if campaign.is_whole() {
        gathered.assert_numbers(&[0, 11, 22, 24]);
        scattered.assert_numbers(&[0, 22, 24]);
    }
}

#[test]
fn large_buffers_near_65536() {
    const SEED: u64 = 0x5eed_0017;
    const LENGTHS: [usize; 2] = [65_536, 65_540];
    let mut campaign = Campaign::new(SEED, LENGTHS.len() as u64);
    let mut gathered = Tally::default();
    let mut scattered = Tally::default();
    for (number, mut random) in campaign.by_ref() {
        let len = LENGTHS[(number % LENGTHS.len() as u64) as usize];
        let mut buffer = GuardedBuffer::random(len, &mut random);
        for order in GOOD_ORDERS {
            for size in SIZES {
                for offset in 65_520..65_545 {
                    let place = Place { order, offset, size };
                    gathered.count(check_gather(&place, &buffer, 1));
                    let value = random.operand(size);
                    scattered.count(check_scatter(&place, &mut buffer, value));
                }
            }
        }
    }
    println!("gather, buffers near 65536 bytes: {campaign}, {gathered}");
    println!("scatter, buffers near 65536 bytes: {campaign}, {scattered}");
    gathered.assert_numbers(&[0, 24]);
    scattered.assert_numbers(&[0, 24]);
}
