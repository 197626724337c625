//! Cases that turn on a wordsize, and what the run of a case shows of wordsizes.

use std::fmt;

use reference::arithmetic::modulus;
use reference::bytes::{write, ByteOrder};
use reference::case::MOST_OPERATIONS;
use reference::fault::{BOUNDS, SETTING};
use reference::list::{list_of, varnode, Entry, WORDS_PER_OPERATION};
use reference::machine::State;
use reference::memory::value_of;
use reference::opcodes::Opcode;
use reference::varnode::Wordsizes;
use reference::verdict::{Report, Settings};

use crate::inputs::{largest_value, SIZES};
use crate::lists::entry_at;
use crate::random_cases::{
    accessed_size, constant, with_output, Case, Cases, INPUT0, INPUT1, SPACES,
};

impl Cases {
    /// A case whose first operations are LOAD and STORE at borders that a wordsize over 1 sets, or one
    /// with a wordsize out of range.
    pub fn wordsize_case(&mut self) -> Case {
        let [unique, register, ram] = [(); 3].map(|()| 2 + self.random().below(7));
        let wordsizes = Wordsizes { unique, register, ram };
        let settings = Settings { wordsizes, ..self.lists.settings() };
        let mut case = self.well_formed(settings);
        let mut entries = Vec::new();
        for _ in 0..1 + self.random().below(3) {
            entries.extend(self.access(&mut case).into_iter().flatten());
        }
        if case.call.list.len() / WORDS_PER_OPERATION + entries.len() > MOST_OPERATIONS {
            case.call.list.clear();
        }
        // Distances of branches are relative, so they stay within the list.
        case.call.list.splice(0..0, list_of(&entries));
        if self.random().once_in(4) {
            self.damage_wordsize(&mut case.call.settings.wordsizes);
        }
        case.budget = self.budget(&case);
        case
    }

    /// A LOAD or a STORE, if there is room for its varnodes, and the COPY that makes its pointer, if
    /// there is one.
    fn access(&mut self, case: &mut Case) -> Option<Vec<Entry>> {
        let Settings { order, address_size, wordsizes } = case.call.settings;
        let lengths = case.call.lengths;
        let space = self.random().pick(&SPACES);
        let size = self.lists.size();
        let last_offset = lengths.of(space)?.saturating_sub(size);
        let pointer = self.border(last_offset, wordsizes.of(space)?, address_size);
        let mut entries = Vec::new();
        let place = match self.random().below(3) {
            0 => constant(pointer, address_size),
            1 => {
                let place = self.lists.output(address_size, &lengths)?;
                let copied = constant(pointer, address_size);
                entries.push(with_output(Opcode::Copy, place, copied, None));
                place
            }
            // In memory from the start, and secret if the labels say so.
            _ => {
                let place = self.lists.output(address_size, &lengths)?;
                write(ByteOrder::with_number(order)?, pointer, case.memory.part_mut(&place));
                place
            }
        };
        let space = constant(space, self.lists.size());
        let (opcode, varnodes) = if self.random().once_in(2) {
            let output = self.lists.output(size, &lengths)?;
            (Opcode::Load, [Some(output), Some(space), Some(place), None])
        } else {
            let data = self.lists.input(size, &lengths)?;
            (Opcode::Store, [None, Some(space), Some(place), Some(data)])
        };
        entries.push(Entry::new(opcode as u8, varnodes));
        Some(entries)
    }

    /// A pointer of `size` bytes: one in bounds, up to the last one; one that is in bounds only as a
    /// byte offset; or one whose product is in bounds only if it is cut to fewer bits.
    fn border(&mut self, last_offset: u64, wordsize: u64, size: u64) -> u64 {
        let last = last_offset / wordsize;
        let inside = self.random().below(last + 1);
        let up_to_last_offset = last + self.random().below(last_offset - last + 1);
        // The least pointer whose product goes past all numbers of so many bytes so many times.
        let times = 1 + self.random().below(wordsize - 1);
        let bytes = self.random().pick(&[size, size, 4, 8]);
        let wraps = (u128::from(times) * modulus(bytes)).div_ceil(u128::from(wordsize)) as u64;
        let pointer = match self.random().below(8) {
            0 | 1 => last,
            2 => inside,
            3 => last + 1,
            4 | 5 => up_to_last_offset,
            _ => wraps + inside,
        };
        pointer & largest_value(size)
    }

    /// Makes one wordsize a number of two digits that is none.
    fn damage_wordsize(&mut self, wordsizes: &mut Wordsizes) {
        let large = 9 + self.random().below(0x100 - 9);
        let wordsize = self.random().pick(&[0, 9, 0xff, large]);
        match self.random().below(3) {
            0 => wordsizes.unique = wordsize,
            1 => wordsizes.register = wordsize,
            _ => wordsizes.ram = wordsize,
        }
    }
}

/// How many cases showed what wordsizes do.
#[derive(Default)]
pub struct Shown {
    /// A LOAD or a STORE was executed in a space with a wordsize over 1.
    executed: u64,
    /// BOUNDS, which a pointer that is not multiplied, or a product that wraps, would not be.
    bounds: u64,
    /// SETTING, for a wordsize alone.
    setting: u64,
}

impl Shown {
    pub fn count(&mut self, case: &Case) {
        let (report, state) = case.run(case.budget);
        self.executed += u64::from(executes(case, &report, &state));
        self.bounds += u64::from(report.ending == BOUNDS && is_by_wordsize(case, &report, &state));
        self.setting += u64::from(report.ending == SETTING && others_hold(&case.call.settings));
    }

    /// Fails if something came less often than it should.
    pub fn assert_quota(&self, quota: u64) {
        let Shown { executed, bounds, setting } = *self;
        assert!([executed, bounds, setting].iter().all(|&count| count >= quota), "{self}");
    }
}

impl fmt::Display for Shown {
    fn fmt(&self, formatter: &mut fmt::Formatter) -> fmt::Result {
        let Shown { executed, bounds, setting } = self;
        write!(
            formatter,
            "LOAD or STORE with a wordsize over 1 in {executed}, BOUNDS by it in {bounds}, \
             SETTING by one in {setting}"
        )
    }
}

/// Whether a log word was written by a LOAD or a STORE in a space with a wordsize over 1.
fn executes(case: &Case, report: &Report, state: &State) -> bool {
    let written = &state.log[..report.log_words as usize];
    written.iter().any(|word| {
        let entry = entry_at(&case.call.list, (word >> 32) as usize);
        let wordsize = case.call.settings.wordsizes.of(entry.offsets[INPUT0]);
        is_access(&entry) && wordsize.is_some_and(|wordsize| wordsize > 1)
    })
}

/// Whether the LOAD or STORE that was stopped would be in bounds with its pointer as byte offset, or
/// with a product that wraps at 64 bits or at the pointer's size.
fn is_by_wordsize(case: &Case, report: &Report, state: &State) -> bool {
    let Settings { order, address_size, wordsizes } = case.call.settings;
    let entry = entry_at(&case.call.list, report.index as usize);
    let space = entry.offsets[INPUT0];
    let place = varnode(entry.descriptors[INPUT1], entry.offsets[INPUT1]);
    let order = ByteOrder::with_number(order).expect("a run that began");
    let pointer = u128::from(value_of(order, &state.memory, &place));
    let product = pointer * u128::from(wordsizes.of(space).expect("rule 23 names a lent space"));
    let size = accessed_size(&entry);
    [pointer, product % modulus(8), product % modulus(address_size)]
        .into_iter()
        .any(|offset| case.call.lengths.contain_bytes(space, offset, size))
}

fn is_access(entry: &Entry) -> bool {
    [Opcode::Load as u8, Opcode::Store as u8].contains(&entry.opcode)
}

/// Whether byte order and address size are in range.
fn others_hold(settings: &Settings) -> bool {
    settings.order <= 1 && SIZES.contains(&settings.address_size)
}

#[cfg(test)]
mod tests {
    use super::*;
    use crate::random::Random;
    use crate::tally::ending;
    use reference::answers::VerdictCall;
    use reference::case::{output, BAD_LINE};
    use reference::memory::Spaces;
    use reference::varnode::Lengths;

    /// What is shown by a LOAD of 3 bytes from a ram of 12 with a wordsize: executed, BOUNDS, SETTING.
    fn shown(wordsize: u64, pointer: u64) -> [u64; 3] {
        let settings = Settings {
            order: 0,
            address_size: 8,
            wordsizes: Wordsizes { ram: wordsize, ..Wordsizes::ONE },
        };
        let lengths = Lengths { unique: 3, register: 0, ram: 12 };
        let list = vec![0x18_11_23_02, 0, 4, pointer, 0];
        let memory = Spaces::of_lengths(&lengths);
        let call = VerdictCall { settings, lengths, list };
        let case = Case { call, budget: 9, labels: memory.clone(), memory };
        let mut shown = Shown::default();
        shown.count(&case);
        [shown.executed, shown.bounds, shown.setting]
    }

    #[test]
    fn what_a_wordsize_does_is_counted() {
        assert_eq!(shown(3, 3), [1, 0, 0]);
        for pointer in [4, 9, 0x5555_5555_5555_5556] {
            assert_eq!(shown(3, pointer), [0, 1, 0]);
        }
        assert_eq!(shown(8, 1 << 61), [0, 1, 0]);
        for wordsize in [0, 9] {
            assert_eq!(shown(wordsize, 0), [0, 0, 1]);
        }
        // Bytes, and a pointer that is out of bounds whatever the wordsize.
        for (wordsize, pointer) in [(1, 3), (1, 10), (3, 10), (8, u64::MAX)] {
            assert_eq!(shown(wordsize, pointer), [0; 3]);
        }
    }

    #[test]
    fn texts_of_cases_are_good() {
        for seed in 0..2_000 {
            let mut cases = Cases::new(Random::new(seed));
            let case = cases.wordsize_case();
            let ending = ending(&output(&cases.text(&case)));
            assert!(ending.is_some_and(|ending| ending < 20 || (31..BAD_LINE).contains(&ending)));
        }
    }
}
