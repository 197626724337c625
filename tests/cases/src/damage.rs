//! Damage to a text: mostly it makes a line bad.

use std::ops::Range;

use reference::case::{output, LABELS_FRAME, MEMORY_FRAME, MOST_BYTES_A_LINE, MOST_OPERATIONS};
use reference::run::BUDGET;
use reference::varnode::{CONSTANT, RAM, REGISTER, UNIQUE};

use crate::lines::{bytes_line, is_digit, DIGITS_BEFORE_WORDSIZES};
use crate::random::Random;
use crate::tally::ending;

/// Bytes that are no digits: neighbours of the digits, blanks, line ends, and bytes whose low bits are
/// a digit's.
const NO_DIGITS: &[u8] = b"/:`gG@AF \t\r\0\x0b\x0c-+x\x80\xb0\xe1\xff";

/// Numbers of eight digits around the limits of lengths and offsets.
const BORDERS: [u32; 12] =
    [0, 1, 15, 16, 40, 4_095, 4_096, 4_097, 0x1_0000, 0x8000_0000, u32::MAX - 31, u32::MAX];

/// Changes one thing of a text.
pub fn damage(text: &mut Vec<u8>, random: &mut Random) {
    match random.below(18) {
        0..=5 => damage_byte(text, random),
        6..=9 => damage_lines(text, random),
        10 | 11 => damage_digits(text, random),
        12 | 13 => add_border_line(text, random),
        14 => damage_end(text, random),
        15 | 16 => cut_wordsizes_off(text),
        _ => damage_all(text, random),
    }
}

/// Changes, takes out or puts in one byte.
fn damage_byte(text: &mut Vec<u8>, random: &mut Random) {
    let Some(place) = index(text, random) else { return };
    match random.below(8) {
        0 | 1 => text[place] ^= 1 << random.below(8),
        2 => text[place] = random.pick(NO_DIGITS),
        3 => text[place] = random.pick(b"0123456789abcdef"),
        4 => text[place] = text[place].to_ascii_uppercase(),
        5 => drop(text.remove(place)),
        6 => text.insert(place, random.pick(NO_DIGITS)),
        _ => text.insert(place, random.pick(b"0f\n")),
    }
}

/// Doubles, takes out, exchanges or moves lines, or puts in an empty one.
fn damage_lines(text: &mut Vec<u8>, random: &mut Random) {
    let mut lines = lines_of(text);
    let Some((one, other)) = index(&lines, random).zip(index(&lines, random)) else { return };
    match random.below(6) {
        0 => lines.insert(other, lines[one].clone()),
        1 => drop(lines.remove(one)),
        2 => lines.swap(one, other),
        3 => lines.insert(other, b"\n".to_vec()),
        4 => lines.truncate(one),
        _ => {
            let line = lines.remove(one);
            lines.push(line);
        }
    }
    *text = lines.concat();
}

/// Changes what a line says, or how long it is, in good digits.
fn damage_digits(text: &mut Vec<u8>, random: &mut Random) {
    let mut lines = lines_of(text);
    let Some(line) = index(&lines, random) else { return };
    let line = if random.once_in(4) { 0 } else { line };
    let end = lines[line].len().saturating_sub(1);
    let pair = random.pick(&["00", "01", "02", "04", "05", "12", "ff"]).to_string();
    let border = format!("{:08x}", random.pick(&BORDERS));
    let pairs = "a5".repeat(random.below(40) as usize);
    let wordsize = DIGITS_BEFORE_WORDSIZES + 2 * random.below(3) as usize;
    let (start, stop, digits) = match random.below(9) {
        // What kind of line it is, its space, its offset, and the lengths and a wordsize of a 01 line.
        0 => (0, 2, pair),
        1 => (2, 4, pair),
        2 => (4, 12, border),
        3 => (6, 14, border),
        4 => (14, 22, border),
        5 => (22, 30, border),
        6 => (wordsize, wordsize + 2, pair),
        // Two digits fewer; other bytes, of which there may be none or too many.
        7 => (end.saturating_sub(2), end, String::new()),
        _ => (12, end, pairs),
    };
    lines[line].splice(start.min(end)..stop.min(end), digits.into_bytes());
    *text = lines.concat();
}

/// Makes line 1 as long as it was before it had wordsizes.
fn cut_wordsizes_off(text: &mut Vec<u8>) {
    let end = text.iter().position(|&byte| byte == b'\n').unwrap_or(text.len());
    text.drain(DIGITS_BEFORE_WORDSIZES.min(end)..end);
}

/// Whether line 1 is as a good one was before it had wordsizes.
pub fn lacks_wordsizes(text: &[u8]) -> bool {
    let line = text.split(|&byte| byte == b'\n').next().unwrap_or_default();
    let is_long = text.len() > line.len() && line.len() == DIGITS_BEFORE_WORDSIZES;
    is_long && line.starts_with(b"01") && line.iter().all(is_digit)
}

/// Adds a 02 or 03 line whose place or number of bytes is at a border.
fn add_border_line(text: &mut Vec<u8>, random: &mut Random) {
    let frame = random.pick(&[MEMORY_FRAME, LABELS_FRAME]);
    let space = random.pick(&[UNIQUE, UNIQUE, REGISTER, REGISTER, RAM, RAM, 0, CONSTANT, 5, 0x12]);
    let offset = u64::from(random.pick(&BORDERS));
    let count = random.pick(&[
        0,
        1,
        1,
        1,
        2,
        16,
        MOST_BYTES_A_LINE,
        MOST_BYTES_A_LINE,
        MOST_BYTES_A_LINE + 1,
    ]);
    text.extend(bytes_line(frame, space, offset, &vec![1; count]).into_bytes());
}

/// Cuts the text off, or adds something after its last line.
fn damage_end(text: &mut Vec<u8>, random: &mut Random) {
    let place = index(text, random).unwrap_or(0);
    match random.below(6) {
        0 => drop(text.pop()),
        1 => text.truncate(place),
        2 => text.push(b'\n'),
        3 => text.push(0),
        4 => text.extend(b"02"),
        _ => text.push(random.pick(NO_DIGITS)),
    }
}

/// Changes the whole text.
fn damage_all(text: &mut Vec<u8>, random: &mut Random) {
    match random.below(6) {
        0 => text.clear(),
        1 => text.make_ascii_uppercase(),
        2 => *text = lines_of(text).join(&b'\r'),
        3 => text.iter_mut().for_each(|byte| *byte = random.word() as u8),
        4 => text.iter_mut().for_each(|byte| *byte = random.pick(b"0123456789abcdef\n")),
        _ => repeat_an_operation(text),
    }
}

/// Repeats the last line until there is one operation too many, if it is an operation.
fn repeat_an_operation(text: &mut Vec<u8>) {
    let lines = lines_of(text);
    if let Some(last) = lines.last().filter(|line| line.starts_with(b"04")) {
        text.extend(last.repeat(MOST_OPERATIONS));
    }
}

/// Where a text has its budget, and the largest one for a run that does not end by itself.
const BUDGET_DIGITS: Range<usize> = 30..38;
const LARGE_BUDGET: &[u8; 8] = b"00010000";

/// Gives a text a smaller budget where damage took away what ended its run, which would then go on
/// for minutes. The text stays as it is otherwise.
pub fn limit_run(text: &mut Vec<u8>) {
    let Some(budget) = text.get(BUDGET_DIGITS) else { return };
    // Digits of one number compare as their values do.
    if !budget.iter().all(is_digit) || budget <= LARGE_BUDGET {
        return;
    }
    let mut limited = text.clone();
    limited[BUDGET_DIGITS].copy_from_slice(LARGE_BUDGET);
    if ending(&output(&limited)) == Some(BUDGET) {
        *text = limited;
    }
}

/// The lines with their newlines.
fn lines_of(text: &[u8]) -> Vec<Vec<u8>> {
    text.split_inclusive(|&byte| byte == b'\n').map(<[u8]>::to_vec).collect()
}

/// The index of some item, if there is one.
fn index<T>(items: &[T], random: &mut Random) -> Option<usize> {
    (!items.is_empty()).then(|| random.below(items.len() as u64) as usize)
}

#[cfg(test)]
mod tests {
    use super::*;
    use crate::lines::{operation_line, settings_line};
    use reference::varnode::{Lengths, Wordsizes};
    use reference::verdict::Settings;

    #[test]
    fn any_text_can_be_damaged() {
        let mut random = Random::new(1);
        for text in ["", "\n", "0", "01", "01\n02\n", "\n\n\n", "04"] {
            for _ in 0..2_000 {
                let mut text = text.as_bytes().to_vec();
                damage(&mut text, &mut random);
                assert!(!output(&text).is_empty());
            }
        }
    }

    /// A text whose run is a BRANCH by a distance, with this budget.
    fn branch_by(distance: u64, budget: u32) -> Vec<u8> {
        let settings = Settings { order: 0, address_size: 4, wordsizes: Wordsizes::ONE };
        let lengths = Lengths { unique: 1, register: 1, ram: 1 };
        let branch = operation_line(&[0x11_00_04, 0, distance, 0, 0]);
        (settings_line(&settings, &lengths, budget) + &branch).into_bytes()
    }

    fn limited(mut text: Vec<u8>) -> Vec<u8> {
        limit_run(&mut text);
        text
    }

    #[test]
    fn only_a_run_without_an_end_is_limited() {
        assert_eq!(limited(branch_by(0, u32::MAX)), branch_by(0, 0x1_0000));
        assert_eq!(limited(branch_by(0, 0x1_0001)), branch_by(0, 0x1_0000));
        for text in [branch_by(0, 0x1_0000), branch_by(0, 7), branch_by(1, u32::MAX), vec![]] {
            assert_eq!(limited(text.clone()), text);
        }
        let bad_budget = branch_by(0, u32::MAX).to_ascii_uppercase();
        assert_eq!(limited(bad_budget.clone()), bad_budget);
    }

    #[test]
    fn wordsizes_can_be_cut_off() {
        let good = branch_by(1, 9);
        let mut text = good.clone();
        cut_wordsizes_off(&mut text);
        assert_eq!(text[..39], [&good[..38], b"\n"].concat());
        assert_eq!(text[39..], good[45..]);
        assert_eq!(output(&text), b"41 1 0 0 0\n");
        assert!(lacks_wordsizes(&text) && !lacks_wordsizes(&good));
        let mut other = text.clone();
        other[37] = b'G';
        for text in [&text[..38], &text[1..], &other, b"01\n", b"\n", b""] {
            assert!(!lacks_wordsizes(text));
        }
    }
}
