//! Texts of more than a million bytes: good ones, and ones that are bad at one place.

use reference::case::{LABELS_FRAME, LONGEST_SPACE, MEMORY_FRAME, MOST_BYTES_A_LINE};
use reference::memory::SECRET;
use reference::varnode::{Lengths, Wordsizes, RAM, REGISTER, UNIQUE};
use reference::verdict::Settings;

use crate::lines::{bytes_line, operation_line, settings_line};
use crate::random::Random;

/// How long a text should be at least.
pub const LARGE: usize = 1_000_000;

/// INT_ADD of the first bytes of unique and register, and a LOAD from ram, so that the bytes decide.
const OPERATIONS: [[u64; 5]; 2] = [[0x38_28_28_15, 0, 0, 0, 0], [0x12_11_34_02, 8, 4, 0x20, 0]];

/// A first line for spaces of the greatest length, big byte order, A = 2 and 24-bit words in ram.
fn first_line() -> String {
    let wordsizes = Wordsizes { ram: 3, ..Wordsizes::ONE };
    let settings = Settings { order: 1, address_size: 2, wordsizes };
    let lengths = Lengths { unique: LONGEST_SPACE, register: LONGEST_SPACE, ram: LONGEST_SPACE };
    settings_line(&settings, &lengths, 1_000)
}

/// A good text with lines of up to `most_bytes` bytes or labels.
pub fn good(random: &mut Random, most_bytes: u64) -> Vec<u8> {
    let mut text = first_line();
    while text.len() <= LARGE {
        let count = 1 + random.below(most_bytes);
        let space = random.pick(&[UNIQUE, REGISTER, RAM]);
        let offset = random.below(LONGEST_SPACE - count + 1);
        let frame = random.pick(&[MEMORY_FRAME, LABELS_FRAME]);
        let largest = if frame == LABELS_FRAME { SECRET } else { u8::MAX };
        let bytes: Vec<u8> = (0..count).map(|_| random.word() as u8 & largest).collect();
        text += &bytes_line(frame, space, offset, &bytes);
    }
    text.extend(OPERATIONS.iter().map(operation_line));
    text.into_bytes()
}

/// A good text whose last line lacks its newline, or has something after it.
pub fn bad_at_the_end(random: &mut Random) -> Vec<u8> {
    let mut text = good(random, MOST_BYTES_A_LINE as u64);
    match random.below(4) {
        0 => drop(text.pop()),
        1 => text.push(b'\n'),
        2 => text.push(0),
        _ => text.extend(b"02010000000000\n"),
    }
    text
}

/// A good text with a line number of more than 16 bits, and a bad line after that.
pub fn bad_at_a_large_number(random: &mut Random) -> Vec<u8> {
    let mut text = good(random, 1);
    text.extend(b"0x\n");
    text
}

/// A good text with a bad first line, or a bad second one.
pub fn bad_at_the_start(random: &mut Random) -> Vec<u8> {
    let mut text = good(random, MOST_BYTES_A_LINE as u64);
    let first = first_line().len();
    let place = random.pick(&[0, first - 1, first, first + 1]);
    text.insert(place, b'\n');
    text
}

/// A text with one line of more than a million digits, as line 1, 2 or 3.
pub fn long_line(random: &mut Random) -> Vec<u8> {
    let good_lines = [first_line(), bytes_line(MEMORY_FRAME, RAM, 5, &[1, 2, 3])].concat();
    let good_lines = good_lines.split_inclusive('\n').take(random.below(3) as usize);
    let start = random.pick(&["01", "020200000000", "030200000000", "04", ""]);
    let end = random.pick(&["\n", "", "\n0204000000005a\n", "f\n"]);
    let digits = random.pick(&["00", "5a", "0000000000000000"]);
    let line = start.to_string() + &digits.repeat(LARGE / digits.len() + 1) + end;
    (good_lines.collect::<String>() + &line).into_bytes()
}

/// A good first line and then one byte again and again.
pub fn one_byte(random: &mut Random) -> Vec<u8> {
    let byte = random.pick(b"\n\0 \xff0");
    let mut text = if random.once_in(2) { first_line().into_bytes() } else { vec![] };
    text.resize(text.len() + LARGE + 1, byte);
    text
}

/// Bytes of any kind.
pub fn noise(random: &mut Random) -> Vec<u8> {
    (0..=LARGE).map(|_| random.word() as u8).collect()
}
