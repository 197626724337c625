//! Appends digits to the lines of one kind in stored inputs, where a frame has become longer.

use crate::lines::is_digit;

/// Which lines become longer, and by what.
pub struct Lengthening {
    kind: String,
    old_len: usize,
    added: String,
}

/// What a text has become, with the numbers of the lines that a person should know of, from 1.
#[derive(Debug, Default, PartialEq, Eq)]
pub struct Lengthened {
    pub text: Vec<u8>,
    /// Lines that became longer.
    pub changed: Vec<usize>,
    /// Lines that had the new length before.
    pub long_before: Vec<usize>,
    /// Lines of the kind that have another length, or more than digits. They are as they were.
    pub others: Vec<usize>,
}

impl Lengthening {
    /// Reads a kind, the number of digits that its lines have, and the digits to append.
    pub fn from_words(words: &[String]) -> Result<Lengthening, String> {
        let [kind, old_len, added] = words else {
            return Err("say a kind, a number of digits and the digits to append".to_string());
        };
        if kind.len() != 2 || !are_digits(kind.as_bytes()) {
            return Err(format!("'{kind}' is no kind: two digits, such as 01"));
        }
        let old_len = match old_len.parse() {
            Ok(number) if number >= kind.len() => number,
            _ => return Err(format!("'{old_len}' is no number of digits, the kind's included")),
        };
        if added.is_empty() || !are_digits(added.as_bytes()) {
            return Err(format!("'{added}' is not what a line could have: 0 to 9 and a to f"));
        }
        Ok(Lengthening { kind: kind.clone(), old_len, added: added.clone() })
    }

    /// How many digits a line has afterwards.
    pub fn new_len(&self) -> usize {
        self.old_len + self.added.len()
    }

    /// Appends the digits to each line of the kind that has its old number of digits and nothing else.
    /// Every other byte stays, since many a text is meant to be broken.
    pub fn of(&self, text: &[u8]) -> Lengthened {
        let mut made = Lengthened::default();
        for (line, number) in text.split_inclusive(|&byte| byte == b'\n').zip(1..) {
            let (digits, newline) = match line.strip_suffix(b"\n") {
                Some(digits) => (digits, &b"\n"[..]),
                None => (line, &b""[..]),
            };
            made.text.extend(digits);
            if digits.starts_with(self.kind.as_bytes()) {
                let len = Some(digits.len()).filter(|_| are_digits(digits));
                if len == Some(self.old_len) {
                    made.text.extend(self.added.as_bytes());
                    made.changed.push(number);
                } else if len == Some(self.new_len()) {
                    made.long_before.push(number);
                } else {
                    made.others.push(number);
                }
            }
            made.text.extend(newline);
        }
        made
    }
}

fn are_digits(bytes: &[u8]) -> bool {
    bytes.iter().all(is_digit)
}

#[cfg(test)]
mod tests {
    use super::*;

    fn read(words: &str) -> Result<Lengthening, String> {
        Lengthening::from_words(&words.split(' ').map(str::to_string).collect::<Vec<_>>())
    }

    /// Lines of six digits that begin with 01 get two more.
    fn made(text: &[u8]) -> Lengthened {
        read("01 6 ff").unwrap_or_else(|complaint| panic!("{complaint}")).of(text)
    }

    #[test]
    fn lines_of_the_kind_and_length_become_longer() {
        let made = made(b"01abcd\n02abcd\n01abcde\n01abcd00\n01abcd\n");
        assert_eq!(made.text, b"01abcdff\n02abcd\n01abcde\n01abcd00\n01abcdff\n");
        assert_eq!((made.changed, made.long_before, made.others), (vec![1, 5], vec![4], vec![3]));
    }

    #[test]
    fn other_bytes_stay() {
        let broken: [&[u8]; 9] = [
            b"",
            b"\n\n",
            b"0",
            b"01abcd\r\n",
            b"01abcD\n",
            b"01abc\0\n",
            b" 01abcd\n",
            b"01abcg",
            b"0\n1abcde\r01abcd\xff\n\n",
        ];
        for text in broken {
            let made = made(text);
            assert_eq!((made.text.as_slice(), made.changed), (text, vec![]));
        }
        assert_eq!(made(b"\xff\r\n01abcd").text, b"\xff\r\n01abcdff");
        assert_eq!(made(b"01abcd\n\n\0").text, b"01abcdff\n\n\0");
    }

    #[test]
    fn lines_with_more_than_digits_are_named() {
        assert_eq!(made(b"01abcd\r\n01\n02ab\n01abcD\n01abcd").others, [1, 2, 4]);
    }

    #[test]
    fn a_second_time_changes_nothing() {
        let once = made(b"01abcd\n0102\n01abcd");
        let twice = made(&once.text);
        assert_eq!((twice.text, twice.changed), (once.text, vec![]));
        assert_eq!((twice.long_before, twice.others), (once.changed, once.others));
    }

    #[test]
    fn other_words_are_refused() {
        assert!(read("04 82 0000000000000000").is_ok_and(|lines| lines.new_len() == 98));
        for words in
            ["", "01", "01 38", "01 38 00 00", "1 38 00", "0g 38 00", "011 38 00", "01 1 00"]
        {
            assert!(read(words).is_err(), "'{words}'");
        }
        for words in ["01 -1 00", "01 x 00", "01 38 ", "01 38 0A", "01 38 0x"] {
            assert!(read(words).is_err(), "'{words}'");
        }
    }
}
