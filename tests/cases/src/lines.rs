//! The lines of a case as text.

use reference::case::{OPERATION_FRAME, SETTINGS_FRAME};
use reference::list::WORDS_PER_OPERATION;
use reference::varnode::Lengths;
use reference::verdict::Settings;

/// The digits of a 01 line before its wordsizes: once it had no others.
pub const DIGITS_BEFORE_WORDSIZES: usize = 38;

/// Whether a byte is a digit of a line.
pub fn is_digit(byte: &u8) -> bool {
    matches!(byte, b'0'..=b'9' | b'a'..=b'f')
}

/// The 01 line. Settings that two digits do not hold are cut to two.
pub fn settings_line(settings: &Settings, lengths: &Lengths, budget: u32) -> String {
    let [order, address_size] = [settings.order, settings.address_size].map(|number| number as u8);
    let wordsizes = settings.wordsizes.all().map(|number| format!("{:02x}", number as u8)).concat();
    let Lengths { unique, register, ram } = lengths;
    format!(
        "{SETTINGS_FRAME:02x}{order:02x}{address_size:02x}\
         {unique:08x}{register:08x}{ram:08x}{budget:08x}{wordsizes}\n"
    )
}

/// A 02 or 03 line.
pub fn bytes_line(frame: u8, space: u64, offset: u64, bytes: &[u8]) -> String {
    let digits: String = bytes.iter().map(|byte| format!("{byte:02x}")).collect();
    format!("{frame:02x}{space:02x}{offset:08x}{digits}\n")
}

/// A 04 line.
pub fn operation_line(words: &[u64; WORDS_PER_OPERATION]) -> String {
    let digits: String = words.iter().map(|word| format!("{word:016x}")).collect();
    format!("{OPERATION_FRAME:02x}{digits}\n")
}

#[cfg(test)]
mod tests {
    use super::*;
    use reference::varnode::Wordsizes;

    #[test]
    fn lines_of_the_worked_example() {
        let settings = Settings { order: 0, address_size: 4, wordsizes: Wordsizes::ONE };
        let lengths = Lengths { unique: 16, register: 16, ram: 16 };
        assert_eq!(
            settings_line(&settings, &lengths, 0x64),
            "01000400000010000000100000001000000064010101\n"
        );
        assert_eq!(bytes_line(2, 3, 0, &[0x0d, 0, 0, 0]), "0203000000000d000000\n");
        assert_eq!(
            operation_line(&[0x1434241d, 0, 0, 7, 0]),
            "04000000001434241d0000000000000000000000000000000000000000000000070000000000000000\n"
        );
    }

    #[test]
    fn wordsizes_stand_at_the_end() {
        let wordsizes = Wordsizes { unique: 2, register: 0x109, ram: 0xff };
        let settings = Settings { order: 1, address_size: 8, wordsizes };
        let line = settings_line(&settings, &Lengths { unique: 0, register: 0, ram: 0 }, 7);
        let (before, wordsizes) = line.split_at(DIGITS_BEFORE_WORDSIZES);
        assert_eq!((&before[30..], wordsizes), ("00000007", "0209ff\n"));
    }
}
