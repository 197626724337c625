//! The case program: reads a case as text, runs it labelled from index 0, and prints what it did.

use crate::list::WORDS_PER_OPERATION;
use crate::machine::State;
use crate::memory::Spaces;
use crate::run::{run, Program};
use crate::varnode::{Lengths, Varnode, Wordsizes, RAM, REGISTER, UNIQUE};
use crate::verdict::Settings;

/// The most operations of a case.
pub const MOST_OPERATIONS: usize = 512;
/// The most bytes of a space.
pub const LONGEST_SPACE: u64 = 4_096;
/// How many words the log has.
pub const LOG_WORDS: usize = 1_024;
/// The most bytes that a 02 or 03 line brings.
pub const MOST_BYTES_A_LINE: usize = 32;
/// The first number of what is printed where a line is bad.
pub const BAD_LINE: u64 = 41;

/// The first byte of a line says what the line is.
pub const SETTINGS_FRAME: u8 = 0x01;
pub const MEMORY_FRAME: u8 = 0x02;
pub const LABELS_FRAME: u8 = 0x03;
pub const OPERATION_FRAME: u8 = 0x04;

/// How many bytes a printed line shows.
const BYTES_PER_LINE: usize = 16;

/// What the case program prints for a text.
pub fn output(text: &[u8]) -> Vec<u8> {
    match Case::read(text) {
        Ok(case) => case.run_and_print(),
        Err(line) => format!("{BAD_LINE} {line} 0 0 0\n"),
    }
    .into_bytes()
}

/// A case as its lines say it.
struct Case {
    program: Program,
    budget: u32,
    state: State,
}

impl Case {
    /// Reads a case, or gives back the number of the first bad line.
    fn read(text: &[u8]) -> Result<Case, usize> {
        let mut lines = text.split_inclusive(|&byte| byte == b'\n');
        // An empty text has no line 1, which is then the bad one.
        let first = lines.next().and_then(frame);
        let mut case = first.and_then(|frame| Case::of_settings(&frame)).ok_or(1_usize)?;
        for (line, number) in lines.zip(2_usize..) {
            frame(line).and_then(|frame| case.take(&frame)).ok_or(number)?;
        }
        Ok(case)
    }

    /// The case that a 01 line begins: memory is zero, and public.
    fn of_settings(frame: &[u8]) -> Option<Case> {
        let [SETTINGS_FRAME, order, address_size, numbers @ .., unique, register, ram] = frame
        else {
            return None;
        };
        let settings = Settings {
            order: u64::from(*order),
            address_size: u64::from(*address_size),
            wordsizes: Wordsizes {
                unique: u64::from(*unique),
                register: u64::from(*register),
                ram: u64::from(*ram),
            },
        };
        let (numbers, []) = numbers.as_chunks::<4>() else {
            return None;
        };
        let &[unique, register, ram, budget] = numbers else {
            return None;
        };
        let [unique, register, ram] = [unique, register, ram].map(length);
        let lengths = Lengths { unique: unique?, register: register?, ram: ram? };
        let zeros = Spaces::of_lengths(&lengths);
        Some(Case {
            program: Program { settings, list: Vec::new() },
            budget: u32::from_be_bytes(budget),
            state: State::labelled(zeros.clone(), zeros, vec![0; LOG_WORDS]),
        })
    }

    /// Takes a line after the first, if it is a good one.
    fn take(&mut self, frame: &[u8]) -> Option<()> {
        match frame {
            [MEMORY_FRAME, rest @ ..] => put(&mut self.state.memory, rest),
            [LABELS_FRAME, rest @ ..] => put(self.state.labels.as_mut()?, rest),
            [OPERATION_FRAME, rest @ ..] => self.add_operation(rest),
            _ => None,
        }
    }

    fn add_operation(&mut self, words: &[u8]) -> Option<()> {
        let (words, []) = words.as_chunks::<8>() else {
            return None;
        };
        let list = &mut self.program.list;
        let has_room = list.len() < MOST_OPERATIONS * WORDS_PER_OPERATION;
        if words.len() != WORDS_PER_OPERATION || !has_room {
            return None;
        }
        list.extend(words.iter().map(|&word| u64::from_be_bytes(word)));
        Some(())
    }

    fn run_and_print(mut self) -> String {
        let report = run(&self.program, 0, self.budget, &mut self.state);
        let mut printed = report.numbers().map(|number| number.to_string()).join(" ") + "\n";
        for word in &self.state.log[..report.log_words as usize] {
            printed += &format!("{word:016x}\n");
        }
        printed += &lines_of(MEMORY_FRAME, &self.state.memory);
        printed +=
            &self.state.labels.map_or(String::new(), |labels| lines_of(LABELS_FRAME, &labels));
        printed
    }
}

/// The bytes that a line says in lower-case digits, two a byte, if a newline ends it.
fn frame(line: &[u8]) -> Option<Vec<u8>> {
    let digits: Option<Vec<u8>> = line.strip_suffix(b"\n")?.iter().map(digit).collect();
    let digits = digits?;
    let (pairs, []) = digits.as_chunks::<2>() else {
        return None;
    };
    Some(pairs.iter().map(|[high, low]| 16 * high + low).collect())
}

fn digit(character: &u8) -> Option<u8> {
    match character {
        b'0'..=b'9' => Some(character - b'0'),
        b'a'..=b'f' => Some(character - b'a' + 10),
        _ => None,
    }
}

/// The length of a space, if it is not too long.
fn length(bytes: [u8; 4]) -> Option<u64> {
    let length = u64::from(u32::from_be_bytes(bytes));
    (length <= LONGEST_SPACE).then_some(length)
}

/// Puts the bytes of a 02 or 03 line where it says, if all of them have a place.
fn put(spaces: &mut Spaces, frame: &[u8]) -> Option<()> {
    let (&[space, o0, o1, o2, o3], bytes) = frame.split_first_chunk()?;
    let offset = u32::from_be_bytes([o0, o1, o2, o3]);
    let place =
        Varnode { space: u64::from(space), offset: u64::from(offset), size: bytes.len() as u64 };
    if !(1..=MOST_BYTES_A_LINE).contains(&bytes.len()) || !spaces.lengths().contain(&place) {
        return None;
    }
    spaces.part_mut(&place).copy_from_slice(bytes);
    Some(())
}

/// The spaces, or their labels, as lines that could be read again.
fn lines_of(kind: u8, spaces: &Spaces) -> String {
    let mut lines = String::new();
    for (space, bytes) in [UNIQUE, REGISTER, RAM].into_iter().zip(spaces.all()) {
        for (line, bytes) in bytes.chunks(BYTES_PER_LINE).enumerate() {
            let offset = line * BYTES_PER_LINE;
            let digits: String = bytes.iter().map(|byte| format!("{byte:02x}")).collect();
            lines += &format!("{kind:02x}{space:02x}{offset:08x}{digits}\n");
        }
    }
    lines
}

#[cfg(test)]
mod tests {
    use super::*;

    /// Little byte order, A = 4, a unique space of 4 bytes, a register space of 2, no ram, budget 9,
    /// each wordsize 1.
    const SETTINGS: &str = "01000400000004000000020000000000000009010101\n";
    /// COPY of the constant 5 to the first byte of unique.
    const COPY: &str =
        "0400000000001121010000000000000000000000000000000500000000000000000000000000000000\n";
    /// The memory and label lines of SETTINGS where nothing was written.
    const ZEROS: &str = "02020000000000000000\n0203000000000000\n\
                         03020000000000000000\n0303000000000000\n";

    fn printed(text: &str) -> String {
        String::from_utf8(output(text.as_bytes())).expect("text is printed")
    }

    /// What is printed for SETTINGS and further lines.
    fn printed_after_settings(lines: &str) -> String {
        printed(&(SETTINGS.to_string() + lines))
    }

    /// Whether a text that stands after two good lines makes line 3 the first bad one.
    fn is_bad(text: &str) -> bool {
        let printed = printed_after_settings(&(COPY.to_string() + text));
        assert_eq!(printed.lines().count() == 1, printed.starts_with("41 "));
        printed == "41 3 0 0 0\n"
    }

    #[test]
    fn the_worked_example() {
        let text = "\
01000400000010000000100000001000000064010101
0203000000000d000000
0204000000055a
03040000000501
04000000001434241d0000000000000000000000000000000000000000000000070000000000000000
0400000000241121020000000000000004000000000000000400000000000000000000000000000000
0400000000002131010000000000000008000000000000000400000000000000000000000000000000
";
        let expected = "\
0 3 3 1 0
0000000100000005
020200000000050000005a0000000000000000000000
0203000000000d000000000000005a00000000000000
02040000000000000000005a00000000000000000000
03020000000000000000010000000000000000000000
03030000000000000000000000000100000000000000
03040000000000000000000100000000000000000000
";
        assert_eq!(printed(text), expected);
    }

    #[test]
    fn a_first_line_alone_is_a_case() {
        assert_eq!(printed(SETTINGS), "0 0 0 0 0\n".to_string() + ZEROS);
        assert_eq!(printed("01000400000000000000000000000000000000010101\n"), "0 0 0 0 0\n");
    }

    #[test]
    fn the_first_line_is_a_01_line_and_no_other_is() {
        for text in ["", "\n", "0", &SETTINGS[..44], COPY, "0101\n"] {
            assert_eq!(printed(text), "41 1 0 0 0\n");
        }
        assert!(is_bad(SETTINGS));
    }

    #[test]
    fn the_first_line_has_22_bytes() {
        for digits in (0..44).chain(45..60) {
            let line: String =
                SETTINGS.trim().chars().chain("01".repeat(8).chars()).take(digits).collect();
            assert_eq!(printed(&(line + "\n")), "41 1 0 0 0\n", "{digits} digits");
        }
    }

    #[test]
    fn lengths_go_up_to_4096() {
        for place in [6, 14, 22] {
            let with_length = |digits: &str| {
                let mut text = SETTINGS.to_string();
                text.replace_range(place..place + 8, digits);
                printed(&text)
            };
            assert!(with_length("00001000").starts_with("0 0 0 0 0\n"));
            for digits in ["00001001", "00011000", "80000000", "ffffffff"] {
                assert_eq!(with_length(digits), "41 1 0 0 0\n");
            }
        }
    }

    #[test]
    fn settings_and_labels_out_of_range_are_the_runs() {
        for settings in ["0204", "ff04", "0000", "0109", "01ff"] {
            let text = SETTINGS.replacen("0004", settings, 1) + COPY;
            assert_eq!(printed(&text), "10 0 0 0 0\n".to_string() + ZEROS);
        }
        // Ram is empty.
        for wordsizes in ["000101", "010901", "010109", "010100", "ffffff"] {
            let text = SETTINGS.replace("010101", wordsizes) + COPY;
            assert_eq!(printed(&text), "10 0 0 0 0\n".to_string() + ZEROS);
        }
        let labelled = ZEROS.replace("03020000000000", "03020000000002");
        let expected = "12 0 0 0 0\n".to_string() + &labelled;
        assert_eq!(printed_after_settings("03020000000002\n"), expected);
    }

    #[test]
    fn the_last_three_bytes_are_the_wordsizes_of_unique_register_and_ram() {
        // A LOAD of 1 byte to the start of unique with the pointer 2, from each space of 16 bytes.
        for (space, offset) in [(2, "06"), (3, "08"), (4, "0a")] {
            let numbered = "000102030405060708090a0b0c0d0e0f";
            let text = format!(
                "01000400000010000000100000001000000009030405\n\
                 020200000000{numbered}\n020300000000{numbered}\n020400000000{numbered}\n\
                 0400000000141121020000000000000000{space:016x}00000000000000020000000000000000\n"
            );
            let printed = printed(&text);
            let expected = format!("0 1 1 1 0\n00000000000000{offset}\n020200000000{offset}");
            assert!(printed.starts_with(&expected), "{printed}");
        }
    }

    #[test]
    fn every_line_ends_with_a_newline() {
        assert!(is_bad(&COPY[..COPY.len() - 1]));
        assert!(is_bad("\n"));
        assert!(is_bad(&format!("\n{COPY}")));
        assert!(is_bad("02"));
    }

    #[test]
    fn digits_are_lower_case_and_nothing_else() {
        assert!(!is_bad("0202000000005a\n"));
        for text in ["0202000000005A\n", "0202000000005g\n", "020200000000 5a\n", "0x0200000000\n"]
        {
            assert!(is_bad(text));
        }
        for text in
            ["0202000000005a\r\n", "0202000000005a\0\n", " 0202000000005a\n", "0202000000005a\t\n"]
        {
            assert!(is_bad(text));
        }
        assert!(is_bad("0202000000005\n"));
    }

    #[test]
    fn bytes_have_a_place() {
        let is_bad_at = |place: &str, count: usize| {
            let [memory, labels] =
                ["02", "03"].map(|kind| is_bad(&format!("{kind}{place}{}\n", "00".repeat(count))));
            assert_eq!(memory, labels);
            memory
        };
        assert!(!is_bad_at("0200000000", 4));
        assert!(!is_bad_at("0200000003", 1));
        assert!(!is_bad_at("0300000001", 1));
        for (place, count) in [
            ("0200000000", 0),
            ("0200000000", 5),
            ("0200000003", 2),
            ("0200000004", 1),
            ("02ffffffff", 1),
            ("02ffffffff", 2),
            ("02fffffffe", 4),
            ("0300000002", 1),
            ("0400000000", 1),
            ("0000000000", 1),
            ("0100000000", 1),
            ("0500000000", 1),
            ("02000000", 0),
        ] {
            assert!(is_bad_at(place, count), "{place}, {count} bytes");
        }
    }

    #[test]
    fn a_line_brings_up_to_32_bytes() {
        let settings = "01000400000040000000000000000000000000010101\n";
        let line = |count: usize| format!("{settings}020200000020{}\n", "11".repeat(count));
        let zeros = "00".repeat(16);
        let ones = "11".repeat(16);
        let expected = format!(
            "0 0 0 0 0\n020200000000{zeros}\n020200000010{zeros}\n\
             020200000020{ones}\n020200000030{ones}\n\
             030200000000{zeros}\n030200000010{zeros}\n030200000020{zeros}\n030200000030{zeros}\n"
        );
        assert_eq!(printed(&line(32)), expected);
        assert_eq!(printed(&line(33)), "41 2 0 0 0\n");
    }

    #[test]
    fn later_lines_overwrite_earlier_ones() {
        let lines = "02020000000011223344\n020200000001aabb\n0302000000000101\n03020000000000\n";
        let expected = "0 0 0 0 0\n02020000000011aabb44\n0203000000000000\n\
                        03020000000000010000\n0303000000000000\n";
        assert_eq!(printed_after_settings(lines), expected);
    }

    #[test]
    fn an_operation_has_five_words() {
        assert!(!is_bad(COPY));
        assert!(is_bad("04\n"));
        assert!(is_bad(&COPY.replace('\n', "00\n")));
        assert!(is_bad(&COPY.replace('\n', "0000000000000000\n")));
        assert!(is_bad(&COPY.replacen("00", "", 1)));
        assert!(is_bad(&COPY.replacen("04", "05", 1)));
    }

    #[test]
    fn a_case_has_up_to_512_operations() {
        let report = |count| printed_after_settings(&COPY.repeat(count));
        assert!(report(512).starts_with("2 9 9 0 0\n"));
        assert_eq!(report(513), "41 514 0 0 0\n");
        assert_eq!(report(600), "41 514 0 0 0\n");
    }

    #[test]
    fn the_log_has_1024_words() {
        // CBRANCH to itself, taken because its condition is a constant.
        let forever =
            "0400000000111100050000000000000000000000000000000000000000000000010000000000000000\n";
        let limited = printed_after_settings(forever);
        assert!(limited.starts_with("2 0 9 9 0\n0000000000000001\n"));
        let printed = printed(&(SETTINGS.replace("00000009", "ffffffff") + forever));
        assert!(printed.starts_with("34 0 1024 1024 0\n"));
        assert_eq!(printed.lines().count(), 1 + 1024 + 4);
    }
}
