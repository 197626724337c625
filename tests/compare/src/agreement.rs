//! Checks that the interpreter and the second program give one call the same answer, and leave the
//! same memory behind.

use std::collections::BTreeMap;
use std::fmt;

use reference::answers::{
    gather_answer, scatter_answer, show_answer, value_answer, verdict_answer, LentWords, Place,
    ValueCall, VerdictCall,
};
use reference::list::WORDS_PER_OPERATION;
use reference::varnode::Varnode;

use crate::random::Random;
use crate::{gather, scatter, settings_words, show, validate, value, Spaces};

/// Result words of a check. A call is lent the first few; all of them are compared afterwards.
pub(crate) const RESULT_WORDS: [u64; 8] = [
    0xa5a5_5a5a_c3c3_3c3c,
    0xb6b6_6b6b_d4d4_4d4d,
    0xc7c7_7c7c_e5e5_5e5e,
    0xd8d8_8d8d_f6f6_6f6f,
    0xe9e9_9e9e_0707_7070,
    0xfafa_afaf_1818_8181,
    0x0b0b_b0b0_2929_9292,
    0x1c1c_c1c1_3a3a_a3a3,
];

/// The most result words that a check can lend.
pub const MOST_RESULT_WORDS: u64 = RESULT_WORDS.len() as u64;

/// A call's answer and the result words after it.
#[derive(PartialEq, Eq)]
struct Outcome {
    answer: u64,
    result: [u64; RESULT_WORDS.len()],
}

impl Outcome {
    /// What the second program's answer means for the result words: its numbers go into the first.
    fn expected<const NUMBERS: usize>(answer: Result<[u64; NUMBERS], u64>) -> Outcome {
        let mut result = RESULT_WORDS;
        match answer {
            Ok(numbers) => {
                result[..NUMBERS].copy_from_slice(&numbers);
                Outcome { answer: 0, result }
            }
            Err(answer) => Outcome { answer, result },
        }
    }
}

impl fmt::Display for Outcome {
    fn fmt(&self, formatter: &mut fmt::Formatter) -> fmt::Result {
        write!(formatter, "answer {}, result words {:x?}", self.answer, self.result)
    }
}

/// Compares a call of value that is lent `result_len` words. Gives back the number answered.
pub fn check_value(call: &ValueCall, result_len: u64) -> u64 {
    let result_len = result_len as usize;
    let expected = Outcome::expected(value_answer(call, result_len).map(|value| [value]));
    let mut result = RESULT_WORDS;
    let answer = value(call, &mut result[..result_len]);
    let found = Outcome { answer, result };
    if found != expected {
        panic!(
            "value disagrees on {call:#x?} with {result_len} result words\n\
             interpreter: {found}\n\
             second program: {expected}"
        );
    }
    answer
}

/// A lent buffer inside a larger one, whose further bytes must stay as they are.
#[derive(Clone, PartialEq, Eq)]
pub struct GuardedBuffer {
    bytes: Vec<u8>,
}

impl GuardedBuffer {
    /// Guard bytes on each side.
    const GUARD: usize = 16;

    /// A lent part of `len` bytes; it and its guards have random contents.
    pub fn random(len: usize, random: &mut Random) -> GuardedBuffer {
        let bytes = (0..len + 2 * Self::GUARD).map(|_| random.word() as u8).collect();
        GuardedBuffer { bytes }
    }

    pub fn lent(&self) -> &[u8] {
        &self.bytes[Self::GUARD..self.bytes.len() - Self::GUARD]
    }

    pub fn lent_mut(&mut self) -> &mut [u8] {
        let end = self.bytes.len() - Self::GUARD;
        &mut self.bytes[Self::GUARD..end]
    }
}

impl fmt::Display for GuardedBuffer {
    fn fmt(&self, formatter: &mut fmt::Formatter) -> fmt::Result {
        let (before, rest) = self.bytes.split_at(Self::GUARD);
        let (lent, after) = rest.split_at(rest.len() - Self::GUARD);
        write!(formatter, "{before:x?} {lent:x?} {after:x?}")
    }
}

/// Compares a call of gather that is lent `result_len` words. Gives back the number answered.
pub fn check_gather(place: &Place, buffer: &GuardedBuffer, result_len: u64) -> u64 {
    let result_len = result_len as usize;
    let gathered = gather_answer(place, buffer.lent(), result_len);
    let expected = Outcome::expected(gathered.map(|value| [value]));
    let mut result = RESULT_WORDS;
    let answer = gather(place, buffer.lent(), &mut result[..result_len]);
    let found = Outcome { answer, result };
    if found != expected {
        panic!(
            "gather disagrees on {place:#x?} with {result_len} result words, buffer {buffer}\n\
             interpreter: {found}\n\
             second program: {expected}"
        );
    }
    answer
}

/// Compares a call of scatter and the whole buffer after it, which stays in `buffer`. Gives back
/// the number answered.
pub fn check_scatter(place: &Place, buffer: &mut GuardedBuffer, value: u64) -> u64 {
    let before = buffer.clone();
    let mut expected = buffer.clone();
    let expected_answer = match scatter_answer(place, expected.lent_mut(), value) {
        Ok(()) => 0,
        Err(number) => number,
    };
    let answer = scatter(place, buffer.lent_mut(), value);
    if (answer, &*buffer) != (expected_answer, &expected) {
        panic!(
            "scatter disagrees on {place:#x?}, value {value:#x}, buffer {before}\n\
             interpreter: answer {answer}, buffer {buffer}\n\
             second program: answer {expected_answer}, buffer {expected}"
        );
    }
    answer
}

/// Compares a call of the judge that is lent so many words. Gives back the report, unless the call
/// was refused.
pub fn check_verdict(call: &VerdictCall, lent: LentWords) -> Option<[u64; 5]> {
    let report = verdict_answer(call, lent);
    let expected = Outcome::expected(report);
    let mut result = RESULT_WORDS;
    let settings = settings_words(&call.settings);
    let answer = validate(call, &settings[..lent.settings], &mut result[..lent.report]);
    let found = Outcome { answer, result };
    if found != expected {
        panic!(
            "the verdict disagrees with {lent:?} on\n\
             {}\
             interpreter: {found}\n\
             second program: {expected}",
            description(call, &[found.result[1], expected.result[1]])
        );
    }
    report.ok()
}

/// A call of the judge in words: the first operations of the list, and those with the given indices.
fn description(call: &VerdictCall, indices: &[u64]) -> String {
    let VerdictCall { settings, lengths, list } = call;
    let mut lines = format!("{settings:x?}, {lengths:x?}, {} list words\n", list.len());
    for (index, words) in list.chunks(WORDS_PER_OPERATION).enumerate() {
        if index < 20 || indices.contains(&(index as u64)) {
            lines += &format!("operation {index}: {words:x?}\n");
        }
    }
    lines
}

/// Compares a call of show that is lent `place_len` words. Gives back the place, unless the call was
/// refused.
pub fn check_show(spaces: &Spaces, varnode: &Varnode, place_len: u64) -> Option<[u64; 3]> {
    let place_len = place_len as usize;
    let lengths = spaces.lengths();
    let place = show_answer(&lengths, varnode, place_len);
    let expected = Outcome::expected(place);
    let mut result = RESULT_WORDS;
    let answer = show(spaces, varnode, &mut result[..place_len]);
    let found = Outcome { answer, result };
    if found != expected {
        panic!(
            "show disagrees on {varnode:#x?} in spaces of {lengths:?} with {place_len} place words\n\
             interpreter: {found}\n\
             second program: {expected}"
        );
    }
    place.ok()
}

/// How often each number was answered, or each ending reported.
#[derive(Default)]
pub struct Tally {
    counts: BTreeMap<u64, u64>,
}

impl Tally {
    pub fn count(&mut self, number: u64) {
        *self.counts.entry(number).or_insert(0) += 1;
    }

    /// How often a number was counted.
    pub fn of(&self, number: u64) -> u64 {
        self.counts.get(&number).copied().unwrap_or(0)
    }

    /// Fails if one of the numbers was counted less often than it should.
    pub fn assert_quota(&self, numbers: &[u64], quota: u64) {
        for &number in numbers {
            let count = self.of(number);
            assert!(count >= quota, "{number} came {count} times, and not {quota} times or more");
        }
    }

    /// Fails unless the numbers that were met are these, in rising order: a test of refusals that
    /// never meets one of them has tested less than it says.
    pub fn assert_numbers(&self, numbers: &[u64]) {
        let met: Vec<u64> = self.counts.keys().copied().collect();
        assert_eq!(met, numbers, "the numbers that this test should meet");
    }
}

impl fmt::Display for Tally {
    fn fmt(&self, formatter: &mut fmt::Formatter) -> fmt::Result {
        let total: u64 = self.counts.values().sum();
        let counts: Vec<String> =
            self.counts.iter().map(|(number, count)| format!("{number}: {count}")).collect();
        write!(formatter, "{total} agreed (by number {})", counts.join(", "))
    }
}
