//! LOAD and STORE with wordsizes, in runs and steps and in the second program: random programs, pointers
//! around the ends of spaces, of addresses and of 64 bits, and wordsizes out of range.

use std::ops::RangeInclusive;

use compare::agreement::Tally;
use compare::campaign::Campaign;
use compare::inputs::{first_product_too_large, largest_value, BAD_WORDSIZES, GOOD_ORDERS, SIZES};
use compare::programs::Programs;
use compare::runs::{check_run, interpreter_report, Case, Job};
use compare::wordsizes::{with_byte_pointers, Accesses, Event};
use reference::answers::{LentWords, RunCall};
use reference::bytes::{write, ByteOrder};
use reference::fault::{BOUNDS, HEAD, LABEL, LEAK, LENGTH, SETTING, START};
use reference::list::Entry;
use reference::machine::State;
use reference::memory::{Spaces, SECRET};
use reference::opcodes::Opcode;
use reference::run::Program;
use reference::varnode::{Lengths, Varnode, Wordsizes, CONSTANT, RAM, REGISTER, UNIQUE};
use reference::verdict::{Settings, END, LONGEST_SPACE};

/// Plain and labelled runs are of the same programs.
const RANDOM_PROGRAMS: u64 = 240_000;
const SEED: u64 = 0x5eed_0051;

/// How many of the runs of each kind should execute a LOAD or a STORE with a wordsize other than 1, or
/// be stopped by BOUNDS at one.
const RUN_QUOTA: u64 = 100_000;
/// How many of them should be the same when their pointers are made byte offsets.
const BYTE_POINTER_QUOTA: u64 = 10_000;

const SPACES: [u64; 3] = [UNIQUE, REGISTER, RAM];
const ACCESSES: [Opcode; 2] = [Opcode::Load, Opcode::Store];
const JOBS: [Job; 2] = [Job::Run, Job::Step];
/// The wordsizes that change anything.
const WIDE: RangeInclusive<u64> = 2..=8;

/// How often each event should come in runs of each kind.
fn assert_quotas(accesses: &Accesses) {
    for wordsize in SIZES {
        accesses.assert_quota(Event::PointerZero { wordsize }, 200);
    }
    for wordsize in WIDE {
        accesses.assert_quota(Event::LastByte { wordsize }, 200);
        for space in SPACES {
            for opcode in ACCESSES.map(|opcode| opcode as u64) {
                accesses.assert_quota(Event::Executed { opcode, space, wordsize }, 200);
            }
        }
    }
    accesses.assert_quota(Event::ThreeWordsizes, 200);
    accesses.assert_quota(Event::LastPointer, 500);
    accesses.assert_quota(Event::PastAddressSize, 500);
    accesses.assert_quota(Event::FirstPointerBeyond, 500);
    accesses.assert_quota(Event::BeyondByMultiplying, 500);
    accesses.assert_quota(Event::Past64Bits, 500);
    accesses.assert_quota(Event::WrapsIntoSpace, 200);
    accesses.assert_quota(Event::WrapsAtAddressSize, 500);
}

/// Compares random programs in the form that `form` gives them, and gives back what they did.
fn random_programs(name: &str, form: fn(&Case) -> Case) -> (Campaign, Accesses) {
    let mut campaign = Campaign::new(SEED, RANDOM_PROGRAMS);
    let mut tally = Tally::default();
    let mut accesses = Accesses::default();
    let mut byte_pointers = 0;
    for (_, random) in campaign.by_ref() {
        let before = form(&Programs::new(random).access_case());
        let mut after = before.clone();
        let report = check_run(Job::Run, &after.call, &mut after.state, LentWords::EXACT, |_| ());
        let report = report.expect("a report of five words");
        tally.count(report[0]);
        let is_wide = accesses.count(&after, &report);
        if let Some(narrow) = with_byte_pointers(&before).filter(|_| is_wide) {
            assert_same(narrow, &before, &after, report);
            byte_pointers += 1;
        }
    }
    println!(
        "{name}, random programs with wordsizes: {campaign}, {tally}, {byte_pointers} the same with \
         byte pointers\n\
         {name}, LOAD and STORE with wordsizes: {accesses}"
    );
    if campaign.is_whole() {
        accesses.assert_quota(Event::Run, RUN_QUOTA * campaign.times());
        assert_quotas(&accesses);
        assert!(byte_pointers >= BYTE_POINTER_QUOTA, "{byte_pointers} had byte pointers");
    }
    (campaign, accesses)
}

/// Fails unless a case with wordsizes of 1 does what another did with its own.
fn assert_same(mut narrow: Case, before: &Case, after: &Case, report: [u64; 5]) {
    let narrow_report = interpreter_report(Job::Run, &mut narrow);
    assert_eq!(narrow_report, report, "the reports with byte pointers and on\n{before}");
    assert!(narrow.state == after.state, "another state with byte pointers and after\n{before}");
}

#[test]
fn random_plain_programs() {
    random_programs("run", Case::plain);
}

#[test]
fn random_labelled_programs() {
    let (campaign, accesses) = random_programs("labelled run", Case::clone);
    if campaign.is_whole() {
        accesses.assert_quota(Event::Leak, 500);
    }
}

/// One LOAD or STORE, which is all of a list.
#[derive(Clone, Copy, Debug)]
struct Access {
    opcode: Opcode,
    /// The space that it points into, and how many bytes that has.
    space: u64,
    len: u64,
    wordsize: u64,
    /// How many bytes it loads or stores.
    size: u64,
    pointer: u64,
}

/// A word of the log as it is lent.
const LENT_LOG_WORD: u64 = 7;

impl Access {
    /// The same with another pointer.
    fn with_pointer(self, pointer: u64) -> Access {
        Access { pointer, ..self }
    }

    /// The labelled case whose pointer is a constant of 8 bytes.
    fn case(&self) -> Case {
        self.case_with(0, Varnode { space: CONSTANT, offset: self.pointer, size: 8 })
    }

    /// The labelled case whose pointer stands in another space, and that place.
    fn case_with_pointer_in_memory(&self, order: u64, address_size: u64) -> (Case, Varnode) {
        let place = Varnode { space: self.other_space(), offset: 2, size: address_size };
        let mut case = self.case_with(order, place);
        let order = ByteOrder::with_number(order).expect("a good byte order");
        write(order, self.pointer, case.state.memory.part_mut(&place));
        (case, place)
    }

    fn case_with(&self, order: u64, pointer: Varnode) -> Case {
        let settings = Settings { order, address_size: pointer.size, wordsizes: self.wordsizes() };
        let list = self.entry(pointer).words().to_vec();
        let memory = self.memory();
        let mut labels = Spaces::of_lengths(&memory.lengths());
        // The first byte that a STORE stores, and every other one where it stores or a LOAD loads.
        labels.part_mut(&Varnode { size: 1, ..self.value() }).fill(SECRET);
        let accessed = &mut labels.all_mut()[self.space as usize - 2];
        accessed.iter_mut().step_by(2).for_each(|label| *label = SECRET);
        let call = RunCall { program: Program { settings, list }, start: 0, budget: 9 };
        Case { call, state: State::labelled(memory, labels, vec![LENT_LOG_WORD; 2]) }
    }

    /// The space of the value that is loaded or stored, which is not the one accessed.
    fn other_space(&self) -> u64 {
        if self.space == RAM {
            UNIQUE
        } else {
            self.space + 1
        }
    }

    /// Where a LOAD puts its value, and where a STORE takes it from.
    fn value(&self) -> Varnode {
        Varnode { space: self.other_space(), offset: 11, size: self.size }
    }

    fn entry(&self, pointer: Varnode) -> Entry {
        let space = Some(Varnode { space: CONSTANT, offset: self.space, size: 1 });
        let value = Some(self.value());
        let varnodes = match self.opcode {
            Opcode::Load => [value, space, Some(pointer), None],
            _ => [None, space, Some(pointer), value],
        };
        Entry::new(self.opcode as u8, varnodes)
    }

    /// Wordsizes by which a mistaken space is seen.
    fn wordsizes(&self) -> Wordsizes {
        let other = 9 - self.wordsize;
        let [unique, register, ram] =
            SPACES.map(|space| if space == self.space { self.wordsize } else { other });
        Wordsizes { unique, register, ram }
    }

    /// Spaces whose bytes tell where they are.
    fn memory(&self) -> Spaces {
        let [unique, register, ram] =
            SPACES.map(|space| if space == self.space { self.len } else { 30 + space });
        let mut memory = Spaces::of_lengths(&Lengths { unique, register, ram });
        for (space, bytes) in memory.all_mut().into_iter().enumerate() {
            for (offset, byte) in bytes.iter_mut().enumerate() {
                *byte = (3 * offset + 80 * space + 1) as u8;
            }
        }
        memory
    }

    /// What whole numbers say of the report and of the first log word.
    fn expected(&self) -> ([u64; 5], u64) {
        let byte_offset = u128::from(self.pointer) * u128::from(self.wordsize);
        if byte_offset + u128::from(self.size) <= u128::from(self.len) {
            ([END, 1, 1, 1, 0], byte_offset as u64)
        } else {
            ([BOUNDS, 0, 0, 0, 0], LENT_LOG_WORD)
        }
    }

    /// Compares a case of this access, plain and labelled, as run and as step.
    fn check(&self, case: &Case, tally: &mut Tally) {
        for form in [case.plain(), case.clone()] {
            for job in JOBS {
                let mut state = form.state.clone();
                let report = check_run(job, &form.call, &mut state, LentWords::EXACT, |_| ());
                let found = (report.expect("a report of five words"), state.log[0]);
                assert_eq!(found, self.expected(), "{job:?} of {self:?}");
                tally.count(found.0[0]);
            }
        }
    }
}

/// LOAD and STORE for each space and each wordsize, with pointer 0 and no bytes in the space.
fn all_accesses(size: u64) -> impl Iterator<Item = Access> {
    let of =
        move |opcode, space, wordsize| Access { opcode, space, len: 0, wordsize, size, pointer: 0 };
    ACCESSES.into_iter().flat_map(move |opcode| {
        SPACES
            .into_iter()
            .flat_map(move |space| SIZES.map(move |wordsize| of(opcode, space, wordsize)))
    })
}

/// Pointers around the least whose product with the wordsize does not fit in so many bytes.
fn pointers_around_a_cut(bytes: u64, wordsize: u64) -> impl Iterator<Item = u64> {
    let first = first_product_too_large(bytes, wordsize).into_iter();
    first.flat_map(|first| first - 2..=first.saturating_add(3))
}

#[test]
fn every_wordsize_around_the_ends_of_spaces_and_of_64_bits() {
    let mut tally = Tally::default();
    for size in SIZES {
        for access in all_accesses(size) {
            let wordsize = access.wordsize;
            let two_words = size + 2 * wordsize;
            for len in [0, size - 1, size, two_words - 1, two_words, two_words + 1] {
                let access = Access { len, ..access };
                let cuts = [1, 4, 8].map(|bytes| pointers_around_a_cut(bytes, wordsize));
                let pointers = (0..=4).chain(cuts.into_iter().flatten()).chain([1 << 63, u64::MAX]);
                for access in pointers.map(|pointer| access.with_pointer(pointer)) {
                    access.check(&access.case(), &mut tally);
                }
            }
        }
    }
    tally.assert_numbers(&[END, BOUNDS]);
    println!("run and step, pointers around the ends of spaces and of 64 bits: {tally}");
}

#[test]
fn every_wordsize_at_the_end_of_the_longest_space() {
    let mut tally = Tally::default();
    for size in [1, 8] {
        for access in all_accesses(size) {
            let access = Access { len: LONGEST_SPACE, ..access };
            let last = (LONGEST_SPACE - size) / access.wordsize;
            for pointer in [last, last + 1, LONGEST_SPACE - 1, LONGEST_SPACE] {
                let access = access.with_pointer(pointer);
                access.check(&access.case(), &mut tally);
            }
        }
    }
    tally.assert_numbers(&[END, BOUNDS]);
    println!("run and step, pointers at the end of the longest space: {tally}");
}

#[test]
fn every_wordsize_with_addresses_of_every_size_in_memory() {
    let mut tally = Tally::default();
    for access in all_accesses(2) {
        for address_size in SIZES {
            let largest = largest_value(address_size);
            let around = pointers_around_a_cut(address_size, access.wordsize);
            let pointers = around.filter(|&pointer| pointer <= largest).chain([0, 1, largest]);
            for pointer in pointers {
                // A space that the largest address of 1 byte reaches.
                let access = Access { len: 8 * 256, ..access.with_pointer(pointer) };
                for order in GOOD_ORDERS {
                    let (case, place) = access.case_with_pointer_in_memory(order, address_size);
                    access.check(&case, &mut tally);
                    check_secret_pointer(case, place);
                    tally.count(LEAK);
                }
            }
        }
    }
    tally.assert_numbers(&[END, LEAK, BOUNDS]);
    println!("run and step, addresses of every size in memory: {tally}");
}

/// Compares a case whose pointer has one secret byte: LEAK, whatever the pointer is.
fn check_secret_pointer(mut case: Case, place: Varnode) {
    let labels = case.state.labels.as_mut().expect("a labelled case");
    let last_byte = labels.part_mut(&place).last_mut().expect("an address of 1 byte or more");
    *last_byte = SECRET;
    let report = check_run(Job::Run, &case.call, &mut case.state, LentWords::EXACT, |_| ());
    assert_eq!(report, Some([LEAK, 0, 0, 0, 0]), "{case}");
}

/// Cases that end with what comes after SETTING, with their endings. The last has no bytes.
fn cases_of_later_endings() -> [(Case, u64); 6] {
    let access =
        Access { opcode: Opcode::Load, space: RAM, len: 17, wordsize: 3, size: 1, pointer: 2 };
    let good = access.case();
    let [mut length, mut label, mut head, mut start, mut empty] = [(); 5].map(|()| good.clone());
    length.call.program.list.pop();
    label.state.labels.as_mut().expect("a labelled case").unique[0] = 2;
    head.call.program.list[0] = 0;
    start.call.start = 2;
    empty.call.program.list.clear();
    let no_bytes = Spaces { unique: vec![], register: vec![], ram: vec![] };
    empty.state = State::labelled(no_bytes.clone(), no_bytes, empty.state.log);
    [(good, END), (length, LENGTH), (label, LABEL), (head, HEAD), (start, START), (empty, END)]
}

#[test]
fn a_wordsize_out_of_range_comes_before_every_other_ending() {
    let mut tally = Tally::default();
    for (labelled, ending) in cases_of_later_endings() {
        let plain_ending = if ending == LABEL { END } else { ending };
        for (form, ending) in [(labelled.plain(), plain_ending), (labelled, ending)] {
            for job in JOBS {
                for number in SIZES.chain(BAD_WORDSIZES) {
                    let expected = if SIZES.contains(&number) { ending } else { SETTING };
                    check_each_wordsize(job, &form, number, expected, &mut tally);
                }
            }
        }
    }
    tally.assert_numbers(&[END, SETTING, LENGTH, LABEL, HEAD, START]);
    println!("run and step, wordsizes out of range: {tally}");
}

/// Compares a case with a number for the wordsize of each space in turn.
fn check_each_wordsize(job: Job, case: &Case, number: u64, ending: u64, tally: &mut Tally) {
    let one = Wordsizes::ONE;
    for wordsizes in [
        Wordsizes { unique: number, ..one },
        Wordsizes { register: number, ..one },
        Wordsizes { ram: number, ..one },
    ] {
        let mut case = case.clone();
        case.call.program.settings.wordsizes = wordsizes;
        let report = check_run(job, &case.call, &mut case.state, LentWords::EXACT, |_| ());
        let [found, ..] = report.expect("a report of five words");
        assert_eq!(found, ending, "{case}");
        tally.count(ending);
    }
}
