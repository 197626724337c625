//! Counts of secret bytes in labelled runs, steps and speculative runs and in the second program: random programs in
//! spaces of several blocks, every size at every place around a border, spaces of many lengths, counts that wrap,
//! windows that give them back, numbers of words, and secret bytes that must not show. What counts should be is
//! told apart from the second program too, by a recount of the labels.

use std::iter::{repeat_n, zip};

use compare::agreement::Tally;
use compare::campaign::Campaign;
use compare::fillings::filling_report;
use compare::inputs::{GOOD_ORDERS, SIZES};
use compare::programs::Programs;
use compare::recounts::{are_true, assert_followed, Event, Recounts, Watch};
use compare::runs::{check_run, interpreter_report, Case, Job};
use compare::secrets::{assert_secrets_do_not_show, check_pair, labels, with_other_secrets};
use compare::single::{case_of, check_left_out, check_report, check_single};
use compare::speculations::{check_speculation, speculative_report, Speculation};
use reference::answers::LentWords;
use reference::counts::SecretCounts;
use reference::fault::{
    BOUNDS, HEAD, LABEL, LEAK, LEAK_AHEAD, LENGTH, LOG, PLACE, RANGE, SETTING, SHAPE, SIZE, START,
    TARGET, ZERO,
};
use reference::list::Entry;
use reference::machine::State;
use reference::memory::{Spaces, PUBLIC, SECRET};
use reference::opcodes::Opcode;
use reference::run::{Observed, BUDGET, EXIT};
use reference::speculative::{self, Closing, Window, LARGEST_WINDOW};
use reference::varnode::{Lengths, Varnode, Wordsizes, CONSTANT, RAM, REGISTER, UNIQUE};
use reference::verdict::{Settings, END, LONGEST_SPACE};

const RANDOM_CASES: u64 = 100_000;
const RANDOM_SPECULATIONS: u64 = 220_000;
const FILLED_RUNS: u64 = 30_000;
/// Pairs of memories for each of the two runs, and how many of all should not be refused.
const MEMORY_PAIRS: u64 = 32_000;
const PAIR_QUOTA: u64 = 50_000;

/// How often each ending should come with counts that are true, and with others.
const ENDING_QUOTA: u64 = 500;
/// How often each other event should come.
const QUOTA: u64 = 200;

/// How a speculative run ends that is not refused. A labelled run has all but the last.
const ENDINGS: [u64; 8] = [END, EXIT, BUDGET, LEAK, BOUNDS, ZERO, LOG, LEAK_AHEAD];

const SPACES: [u64; 3] = [UNIQUE, REGISTER, RAM];
const SETTINGS: Settings = Settings { order: 0, address_size: 8, wordsizes: Wordsizes::ONE };

/// What counts can hold whatever the labels are.
const CONTENTS: [u64; 6] = [0, 1, 0x1234_5678_9abc_def0, 1 << 63, u64::MAX - 1, u64::MAX];

/// How often each event should come in random runs.
fn assert_quotas(recounts: &Recounts, endings: &[u64]) {
    for &ending in endings {
        for event in [Event::True { ending }, Event::Other { ending }] {
            recounts.assert_quota(event, ENDING_QUOTA);
        }
    }
    for space in SPACES {
        for event in [
            Event::ExactWords { space },
            Event::OneWordMore { space },
            Event::ManyWordsMore { space },
            Event::Refused { space },
            Event::OneShort { space },
            Event::Up { space },
            Event::Down { space },
            Event::AcrossBorder { space },
            Event::ShortBlock { space },
        ] {
            recounts.assert_quota(event, QUOTA);
        }
    }
    for is_total in [false, true] {
        recounts.assert_quota(Event::WrapsUp { is_total }, QUOTA);
        recounts.assert_quota(Event::WrapsDown { is_total }, QUOTA);
    }
    recounts.assert_quota(Event::Both, QUOTA);
    recounts.assert_quota(Event::Same, QUOTA);
}

/// Compares a run or a step, and fails unless its counts followed its labels.
fn check_case(job: Job, before: &Case, recounts: &mut Recounts, tally: &mut Tally) {
    let mut after = before.state.clone();
    let mut watch = Watch::new(recounts, before);
    let observer = |observed: Observed| watch.count_executed(observed.written, observed.state);
    let report = check_run(job, &before.call, &mut after, LentWords::EXACT, observer);
    let [ending, ..] = report.expect("a report of five words");
    watch.finish(ending);
    assert_followed(before, &after);
    tally.count(ending);
}

#[test]
fn random_runs_and_steps() {
    const SEED: u64 = 0x5eed_0091;
    let mut campaign = Campaign::new(SEED, RANDOM_CASES);
    let [mut runs, mut steps] = [(); 2].map(|()| (Recounts::default(), Tally::default()));
    for (_, random) in campaign.by_ref() {
        let mut programs = Programs::new(random);
        let is_any = programs.random().once_in(2);
        let before = if is_any { programs.case() } else { programs.counted_case() };
        check_case(Job::Run, &before, &mut runs.0, &mut runs.1);
        check_case(Job::Step, &before, &mut steps.0, &mut steps.1);
    }
    for (name, (recounts, tally)) in [("labelled run", &runs), ("labelled step", &steps)] {
        println!("counts, {name}: {campaign}, {tally}\ncounts, {name}, events: {recounts}");
    }
    if campaign.is_whole() {
        assert_quotas(&runs.0, &ENDINGS[..7]);
    }
}

/// Fails unless a speculative run left the counts of the labelled run, up to the CBRANCH that it reports where a
/// window ended it.
fn assert_counts_of_labelled_run(before: &Speculation, after: &State, report: &[u64; 5]) {
    let mut labelled = before.case.clone();
    if [LOG, LEAK_AHEAD].contains(&report[0]) {
        labelled.call.budget = report[2] as u32;
    }
    interpreter_report(Job::Run, &mut labelled);
    assert!(
        after.counts == labelled.state.counts,
        "other counts than the labelled run's\n{before}"
    );
    assert!(
        after.labels == labelled.state.labels,
        "other labels than the labelled run's\n{before}"
    );
}

#[test]
fn random_speculative_runs() {
    const SEED: u64 = 0x5eed_0092;
    let mut campaign = Campaign::new(SEED, RANDOM_SPECULATIONS);
    let mut recounts = Recounts::default();
    let mut tally = Tally::default();
    for (_, random) in campaign.by_ref() {
        let mut programs = Programs::new(random);
        let is_any = programs.random().once_in(2);
        let before = if is_any { programs.speculation() } else { programs.counted_speculation() };
        let mut after = before.clone();
        let mut watch = Watch::new(&mut recounts, &before.case);
        let observer = |event: speculative::Event| watch.hear(event);
        let report = check_speculation(&mut after, LentWords::EXACT, observer);
        let report = report.expect("a report of five words");
        watch.finish(report[0]);
        assert_followed(&before.case, &after.case.state);
        tally.count(report[0]);
        if ENDINGS.contains(&report[0]) {
            assert_counts_of_labelled_run(&before, &after.case.state, &report);
        }
    }
    println!(
        "counts, speculative run: {campaign}, {tally}\ncounts, speculative run, events: {recounts}"
    );
    if campaign.is_whole() {
        assert_quotas(&recounts, &ENDINGS);
        use Closing::*;
        for closing in [Done, End, Exit, Bounds, Zero, LeakAhead, Log] {
            recounts.assert_quota(Event::Undone(closing), QUOTA);
        }
    }
}

/// Fills the counts of a state by the call for it, with as many further words.
fn fill(state: &mut State) {
    let labels = labels(state).clone();
    assert_eq!(filling_report(&labels, &mut state.counts), [0; 5]);
}

#[test]
fn counts_filled_before_a_run_are_those_filled_after_it() {
    const SEED: u64 = 0x5eed_0093;
    let mut campaign = Campaign::new(SEED, FILLED_RUNS);
    let mut tally = Tally::default();
    for (number, random) in campaign.by_ref() {
        let mut run = Programs::new(random).counted_speculation();
        fill(&mut run.case.state);
        let before = run.clone();
        let [ending, ..] = match number % 3 {
            0 => speculative_report(&mut run),
            1 => interpreter_report(Job::Run, &mut run.case),
            _ => interpreter_report(Job::Step, &mut run.case),
        };
        let mut filled = run.case.state.clone();
        fill(&mut filled);
        assert!(filled == run.case.state, "counts that another filling changes after\n{before}");
        tally.count(ending);
    }
    println!("counts, filled before a run and after it: {campaign}, {tally}");
    if campaign.is_whole() {
        tally.assert_numbers(&ENDINGS);
    }
}

/// Bytes that are not 0, and public labels.
fn spaces_of(lengths: &Lengths) -> [Spaces; 2] {
    let labels = Spaces::of_lengths(lengths);
    let mut memory = labels.clone();
    memory.all_mut().into_iter().for_each(|space| space.fill(3));
    [memory, labels]
}

/// Lengths with so many bytes in one space, and a few in the others.
fn lengths_with(space: u64, len: u64) -> Lengths {
    let [unique, register, ram] = SPACES.map(|other| if other == space { len } else { 24 });
    Lengths { unique, register, ram }
}

fn constant(offset: u64, size: u64) -> Varnode {
    Varnode { space: CONSTANT, offset, size }
}

/// The operations that write a target from a source of the same size.
const WRITES: [Opcode; 4] = [Opcode::Copy, Opcode::Load, Opcode::Store, Opcode::IntNegate];

/// One of them. Pointers are constants.
fn write(opcode: Opcode, source: Varnode, target: Varnode) -> Entry {
    let space_of = |place: Varnode| Some(constant(place.space, 1));
    let pointer_to = |place: Varnode| Some(constant(place.offset, SETTINGS.address_size));
    let varnodes = match opcode {
        Opcode::Load => [Some(target), space_of(source), pointer_to(source), None],
        Opcode::Store => [None, space_of(target), pointer_to(target), Some(source)],
        _ => [Some(target), Some(source), None, None],
    };
    Entry::new(opcode as u8, varnodes)
}

/// How many log words it writes.
fn words_of(opcode: Opcode) -> u64 {
    u64::from([Opcode::Load, Opcode::Store].contains(&opcode))
}

/// The labels of eight bytes, of which a varnode has the first: none secret, all, and some.
const PATTERNS: [[u8; 8]; 4] = [[0; 8], [1; 8], [1, 0, 1, 0, 1, 0, 1, 0], [0, 1, 1, 0, 0, 0, 1, 1]];

fn set_labels(labels: &mut Spaces, place: &Varnode, pattern: &[u8; 8]) {
    labels.part_mut(place).copy_from_slice(&pattern[..place.size as usize]);
}

/// Where the bytes come from that are written to a target: another space.
fn source_of(target: &Varnode) -> Varnode {
    let space = if target.space == RAM { UNIQUE } else { target.space + 1 };
    Varnode { space, offset: 5, size: target.size }
}

/// Lends counts that are true, or hold the same word everywhere.
fn lend_counts(state: &mut State, content: Option<u64>) {
    state.counts = SecretCounts::of(labels(state));
    for words in state.counts.all_mut() {
        words.push(0x5a5a);
        words.iter_mut().for_each(|word| *word = content.unwrap_or(*word));
    }
}

/// Compares each write of a target in a space of so many bytes, with each pattern of labels in source and target, as
/// run, as step and in windows. Fails unless the counts followed. What they hold goes by turns.
fn check_target(len: u64, target: Varnode, order: u64, tally: &mut Tally) {
    let source = source_of(&target);
    let mut contents = CONTENTS.into_iter().map(Some).chain([None]).cycle();
    for opcode in WRITES {
        for (of_source, of_target) in pairs_of(&PATTERNS) {
            let [memory, mut labels] = spaces_of(&lengths_with(target.space, len));
            set_labels(&mut labels, &source, of_source);
            set_labels(&mut labels, &target, of_target);
            let settings = Settings { order, ..SETTINGS };
            let entry = write(opcode, source, target);
            let mut case = case_of(settings, &[entry], memory, labels);
            lend_counts(&mut case.state, contents.next().flatten());
            let left = check_single(&case, [END, 1, 1, words_of(opcode), 0], tally);
            assert_followed(&case, &left);
        }
    }
}

/// Each with each.
fn pairs_of<T>(items: &[T]) -> impl Iterator<Item = (&T, &T)> {
    items.iter().flat_map(|one| items.iter().map(move |other| (one, other)))
}

#[test]
fn every_size_at_every_place_around_a_border() {
    let mut tally = Tally::default();
    for space in SPACES {
        for order in GOOD_ORDERS {
            for size in SIZES {
                for offset in (56..=64).chain(120..=128) {
                    check_target(136, Varnode { space, offset, size }, order, &mut tally);
                }
            }
        }
    }
    tally.assert_numbers(&[END]);
    println!("counts, every size at every place around a border: {tally}");
}

/// Offsets of so many bytes at both ends of a space and around borders of its blocks.
fn offsets_around_borders(len: u64, size: u64) -> Vec<u64> {
    let mut offsets = vec![0, len.saturating_sub(size)];
    for border in [64, 128, LONGEST_SPACE / 2, LONGEST_SPACE - 64] {
        offsets.extend([border - size, border - size / 2, border - 1, border]);
    }
    offsets.retain(|offset| offset + size <= len);
    offsets.sort();
    offsets.dedup();
    offsets
}

#[test]
fn spaces_of_many_lengths() {
    let mut tally = Tally::default();
    for (space, len) in SPACES
        .into_iter()
        .flat_map(|space| [1, 63, 64, 65, 127, 128, 129].into_iter().map(move |len| (space, len)))
    {
        for size in SIZES.filter(|size| *size <= len) {
            for offset in offsets_around_borders(len, size) {
                check_target(len, Varnode { space, offset, size }, 0, &mut tally);
            }
        }
    }
    tally.assert_numbers(&[END]);
    println!("counts, spaces of many lengths: {tally}");
}

#[test]
fn spaces_of_the_greatest_lengths_and_of_none() {
    let mut tally = Tally::default();
    for space in SPACES {
        for len in [LONGEST_SPACE - 1, LONGEST_SPACE] {
            for size in [1, 8] {
                for offset in offsets_around_borders(len, size) {
                    check_in_long_space(len, Varnode { space, offset, size }, &mut tally);
                }
            }
        }
        let [memory, labels] = spaces_of(&lengths_with(space, 0));
        let mut case = case_of(SETTINGS, &[], memory, labels);
        for content in CONTENTS.map(Some).into_iter().chain([None]) {
            lend_counts(&mut case.state, content);
            let left = check_report(Job::Run, &case, [END, 0, 0, 0, 0], &mut tally);
            assert!(left == case.state, "an empty list left something of\n{case}");
        }
        // The total needs a word also where there is no byte.
        case.state.counts.all_mut()[space as usize - 2].clear();
        for job in [Job::Run, Job::Step] {
            check_report(job, &case, [LENGTH, 0, 0, 0, 0], &mut tally);
        }
    }
    tally.assert_numbers(&[END, LENGTH]);
    println!("counts, spaces of the greatest lengths and of none: {tally}");
}

/// Compares a COPY over a target, public and then secret, whose neighbours are the other.
fn check_in_long_space(len: u64, target: Varnode, tally: &mut Tally) {
    for [label, other] in [[PUBLIC, SECRET], [SECRET, PUBLIC]] {
        let source = source_of(&target);
        let [memory, mut labels] = spaces_of(&lengths_with(target.space, len));
        labels.all_mut().into_iter().for_each(|space| space.fill(other));
        labels.part_mut(&source).fill(label);
        let mut case = case_of(SETTINGS, &[write(Opcode::Copy, source, target)], memory, labels);
        lend_counts(&mut case.state, None);
        let left = check_report(Job::Run, &case, [END, 1, 1, 0, 0], tally);
        assert_followed(&case, &left);
    }
}

#[test]
fn every_border_of_the_longest_spaces() {
    let mut tally = Tally::default();
    for (space, len) in SPACES
        .into_iter()
        .flat_map(|space| [LONGEST_SPACE - 1, LONGEST_SPACE].map(|len| (space, len)))
    {
        // Over each border go some bytes of a source with mixed labels, of another number before it each time.
        let borders = (64..len).step_by(64);
        let at = |border: u64| Varnode { space, offset: border - border / 64 % 8, size: 8 };
        let entries: Vec<Entry> = borders
            .map(at)
            .filter(|target| target.offset + target.size <= len)
            .map(|target| write(Opcode::Copy, source_of(&target), target))
            .collect();
        for (pattern, other) in [(2, PUBLIC), (3, SECRET), (0, SECRET)] {
            let [memory, mut labels] = spaces_of(&lengths_with(space, len));
            labels.all_mut().into_iter().for_each(|space| space.fill(other));
            set_labels(&mut labels, &source_of(&at(64)), &PATTERNS[pattern]);
            let mut case = case_of(SETTINGS, &entries, memory, labels);
            case.call.budget = u32::MAX;
            let count = entries.len() as u64;
            for content in [None, Some(u64::MAX)] {
                lend_counts(&mut case.state, content);
                let left = check_report(Job::Run, &case, [END, count, count, 0, 0], &mut tally);
                assert_followed(&case, &left);
            }
        }
    }
    println!("counts, every border of the longest spaces: {tally}");
}

#[test]
fn counts_wrap_at_both_ends_of_64_bits() {
    let mut tally = Tally::default();
    for space in SPACES {
        let target = Varnode { space, offset: 61, size: 8 };
        let source = source_of(&target);
        for [from, to] in [[PUBLIC, SECRET], [SECRET, PUBLIC]] {
            let by = |bytes: u64| if to == SECRET { bytes } else { bytes.wrapping_neg() };
            for content in CONTENTS {
                let [memory, mut labels] = spaces_of(&lengths_with(space, 129));
                labels.part_mut(&target).fill(from);
                labels.part_mut(&source).fill(to);
                let entry = write(Opcode::Copy, source, target);
                let mut case = case_of(SETTINGS, &[entry], memory, labels);
                lend_counts(&mut case.state, Some(content));
                let left = check_single(&case, [END, 1, 1, 0, 0], &mut tally);
                // Three bytes of the first block, five of the second, none of the short one.
                let moved = [3, 5, 0, 8].map(|bytes| content.wrapping_add(by(bytes)));
                let mut expected = case.state.counts.clone();
                expected.all_mut()[space as usize - 2][..4].copy_from_slice(&moved);
                assert_eq!(left.counts, expected, "after\n{case}");
            }
        }
    }
    println!("counts, at both ends of 64 bits: {tally}");
}

#[test]
fn labels_written_as_they_were_move_nothing() {
    let mut tally = Tally::default();
    for (space, opcode) in SPACES.into_iter().flat_map(|space| WRITES.map(|opcode| (space, opcode)))
    {
        for content in CONTENTS {
            for label in [PUBLIC, SECRET] {
                let [memory, mut labels] = spaces_of(&lengths_with(space, 70));
                labels.all_mut().into_iter().for_each(|labels| labels.fill(label));
                let target = Varnode { space, offset: 62, size: 4 };
                let entry = write(opcode, source_of(&target), target);
                let mut case = case_of(SETTINGS, &[entry], memory, labels);
                lend_counts(&mut case.state, Some(content));
                let left = check_single(&case, [END, 1, 1, words_of(opcode), 0], &mut tally);
                assert_eq!(left.counts, case.state.counts, "after\n{case}");
            }
        }
    }
    println!("counts, labels written as they were: {tally}");
}

/// Operations that make bytes around a border secret and public, some more than once.
fn changes() -> Vec<Entry> {
    let at = |space, offset, size| Varnode { space, offset, size };
    let secret = at(RAM, 0, 8);
    vec![
        write(Opcode::Copy, secret, at(REGISTER, 60, 8)),
        write(Opcode::Copy, constant(9, 4), at(REGISTER, 62, 4)),
        write(Opcode::Copy, constant(9, 8), at(RAM, 8, 8)),
        write(Opcode::IntNegate, at(RAM, 0, 2), at(REGISTER, 63, 2)),
        write(Opcode::Copy, at(REGISTER, 60, 8), at(UNIQUE, 3, 8)),
    ]
}

/// A case of these operations with another behind them. Ram is secret.
fn changing_case(last: Option<Entry>, content: Option<u64>) -> Case {
    let [memory, mut labels] = spaces_of(&lengths_with(REGISTER, 70));
    labels.ram.fill(SECRET);
    let entries: Vec<Entry> = changes().into_iter().chain(last).collect();
    let mut case = case_of(SETTINGS, &entries, memory, labels);
    lend_counts(&mut case.state, content);
    case
}

#[test]
fn windows_give_counts_back() {
    let mut tally = Tally::default();
    let word = Varnode { space: UNIQUE, offset: 3, size: 8 };
    let load = |pointer| {
        let varnodes = [Some(word), Some(constant(RAM, 1)), Some(pointer), None];
        Entry::new(Opcode::Load as u8, varnodes)
    };
    let ram = Varnode { space: RAM, offset: 0, size: 8 };
    let exit = Entry::new(Opcode::Branch as u8, [None, Some(ram), None, None]);
    let zero = Entry::new(
        Opcode::IntDiv as u8,
        [Some(word), Some(constant(9, 8)), Some(constant(0, 8)), None],
    );
    let operations = changes().len() as u64;
    for content in CONTENTS.map(Some).into_iter().chain([None]) {
        for (last, room, ending) in [
            (None, 4, END),
            (Some(exit), 4, END),
            (Some(load(constant(17, 8))), 4, END),
            (Some(zero), 4, END),
            (Some(load(ram)), 4, LEAK_AHEAD),
            (Some(load(constant(0, 8))), 1, LOG),
        ] {
            let mut case = changing_case(last, content);
            case.state.log.truncate(room);
            let end = case.call.program.count() + 1;
            for window in (0..=operations + 2).chain([LARGEST_WINDOW]) {
                let is_over = window > operations && ending != END;
                let report = if is_over { [ending, 0, 0, 1, 0] } else { [END, end, 1, 1, 0] };
                check_left_out(&case, window, report, &mut tally);
            }
        }
    }
    tally.assert_numbers(&[END, LOG, LEAK_AHEAD]);
    println!("counts, windows give them back: {tally}");
}

#[test]
fn counts_after_each_of_some_operations() {
    let mut tally = Tally::default();
    for content in CONTENTS.map(Some).into_iter().chain([None]) {
        let mut case = changing_case(None, content);
        let mut from_step_to_step = case.clone();
        let count = case.call.program.count();
        for budget in 1..=count as u32 {
            case.call.budget = budget;
            let ending = if u64::from(budget) == count { END } else { BUDGET };
            let report = [ending, budget.into(), budget.into(), 0, 0];
            let left = check_report(Job::Run, &case, report, &mut tally);
            assert_followed(&case, &left);
            let step = [ending, budget.into(), 1, 0, 0];
            let stepped = check_report(Job::Step, &from_step_to_step, step, &mut tally);
            assert!(stepped == left, "other counts from step to step, after {budget} of\n{case}");
            from_step_to_step.state = stepped;
            from_step_to_step.call.start = budget.into();
        }
    }
    println!("counts, after each of some operations: {tally}");
}

/// A speculative run that is not refused but for what `spoil` does to it.
fn spoilt(spoil: impl Fn(&mut Speculation)) -> Speculation {
    let case = changing_case(None, None);
    let mut run = Speculation { case, window: Window { operations: 1, journal: vec![7; 4] } };
    spoil(&mut run);
    run
}

/// BRANCH past the end.
const BEYOND: [u64; 5] = [0x11_00_04, 0, 9, 0, 0];

/// Changes the words of the last operation.
fn spoil_list(run: &mut Speculation, spoil: impl Fn(&mut [u64])) {
    let list = &mut run.case.call.program.list;
    let last = list.len() - 5;
    spoil(&mut list[last..]);
}

/// Runs that are refused for one thing, and one that is not, with their endings.
fn refused_runs() -> Vec<(Speculation, u64)> {
    let labels_of =
        |run: &mut Speculation| run.case.state.labels.clone().expect("a labelled state");
    vec![
        (spoilt(|_| ()), END),
        (spoilt(|run| run.case.call.program.settings.order = 2), SETTING),
        (spoilt(|run| run.case.call.program.settings.address_size = 9), SETTING),
        (spoilt(|run| run.case.call.program.settings.wordsizes.ram = 0), SETTING),
        (spoilt(|run| run.case.call.program.list.truncate(24)), LENGTH),
        (spoilt(|run| run.case.call.program.list = [0; 5].repeat(4_097)), LENGTH),
        (spoilt(|run| run.case.state.memory.unique.push(0)), LENGTH),
        (
            spoilt(|run| {
                let labels = Spaces { ram: vec![PUBLIC; 23], ..labels_of(run) };
                run.case.state.labels = Some(labels);
            }),
            LENGTH,
        ),
        (
            spoilt(|run| {
                let mut labels = labels_of(run);
                labels.ram[23] = 2;
                run.case.state.labels = Some(labels);
            }),
            LABEL,
        ),
        (spoilt(|run| spoil_list(run, |words| words[0] = 0)), HEAD),
        (spoilt(|run| spoil_list(run, |words| words[4] = 1)), SHAPE),
        (spoilt(|run| spoil_list(run, |words| words[0] = 0x38_18_01)), PLACE),
        (spoilt(|run| spoil_list(run, |words| words[2] = 63)), RANGE),
        (spoilt(|run| spoil_list(run, |words| words[0] = 0x37_28_01)), SIZE),
        (spoilt(|run| spoil_list(run, |words| words.copy_from_slice(&BEYOND))), TARGET),
        (spoilt(|run| run.case.call.start = 6), START),
    ]
}

/// The same for what only a speculative run is lent.
fn refused_windows() -> Vec<(Speculation, u64)> {
    vec![
        (spoilt(|run| run.window.operations = LARGEST_WINDOW + 1), SETTING),
        (spoilt(|run| run.window.operations = u64::MAX), SETTING),
        (spoilt(|run| run.window.journal.truncate(3)), LENGTH),
    ]
}

/// The ending with counts that are too short: in the place of all that comes after the other lengths.
fn ending_if_short(ending: u64, is_short: bool) -> u64 {
    match ending {
        SETTING => SETTING,
        _ if is_short => LENGTH,
        _ => ending,
    }
}

/// How many words of counts the spaces of these runs need.
const WORDS_NEEDED: [usize; 3] = [2, 3, 2];

/// Compares a run with other numbers of words for one space. Fails unless it ends so, and leaves what it was lent
/// where it is refused.
fn check_words(
    run: &Speculation,
    ending: u64,
    tally: &mut Tally,
    check: impl Fn(&mut Speculation) -> Option<[u64; 5]>,
) {
    for space in 0..3 {
        let needed = WORDS_NEEDED[space];
        for words in [0, needed - 1, needed, needed + 1, needed + 2_000] {
            let mut run = run.clone();
            *run.case.state.counts.all_mut()[space] = vec![0x77; words];
            let mut after = run.clone();
            let report = check(&mut after).expect("a report of five words");
            let expected = ending_if_short(ending, words < needed);
            assert_eq!(
                report[0], expected,
                "{words} words for the counts of space {space} of\n{run}"
            );
            let is_refused = (SETTING..=START).contains(&report[0]);
            let is_as_lent = after.case.state == run.case.state && after.window == run.window;
            assert!(!is_refused || is_as_lent, "a refused call left something, in\n{run}");
            tally.count(report[0]);
        }
    }
}

#[test]
fn numbers_of_words_with_every_other_refusal() {
    let mut tally = Tally::default();
    let check_job = |job| {
        move |run: &mut Speculation| {
            let Case { call, state } = &mut run.case;
            check_run(job, call, state, LentWords::EXACT, |_| ())
        }
    };
    let speculate = |run: &mut Speculation| check_speculation(run, LentWords::EXACT, |_| ());
    for (run, ending) in refused_runs() {
        check_words(&run, ending, &mut tally, check_job(Job::Run));
        check_words(&run, ending, &mut tally, speculate);
    }
    for (run, ending) in refused_windows() {
        check_words(&run, ending, &mut tally, speculate);
    }
    let [(run, _), later @ ..] = &refused_runs()[..] else { panic!("runs") };
    for (run, ending) in later.iter().chain([&(run.clone(), BUDGET)]) {
        check_words(run, *ending, &mut tally, check_job(Job::Step));
    }
    tally.assert_numbers(&[
        END, BUDGET, SETTING, LENGTH, LABEL, HEAD, SHAPE, PLACE, RANGE, SIZE, TARGET, START,
    ]);
    println!("counts, numbers of words with every other refusal: {tally}");
}

/// Gives both of a pair counts that are true, with other further words.
fn lend_true_counts([one, other]: [&mut State; 2]) {
    for (state, further) in zip([one, other], [3, 5]) {
        state.counts = SecretCounts::of(labels(state));
        for words in state.counts.all_mut() {
            words.extend(repeat_n(0x77, further));
        }
    }
}

/// Counts a pair that was run. Fails unless true counts are true again.
fn count_pair(before: [&State; 2], after: [&State; 2], ending: u64, seen: &mut Pairs) {
    let is_true = |state: &State| are_true(&state.counts, labels(state));
    for (before, after) in zip(before, after) {
        assert!(!is_true(before) || is_true(after), "counts that are no more true");
    }
    seen.tally.count(ending);
    let [one, other] = before.map(|state| state.counts.all().map(Vec::len));
    let runs = ENDINGS.contains(&ending);
    seen.runs += u64::from(runs && one != other);
    seen.are_true += u64::from(runs && before.into_iter().all(is_true));
    seen.change += u64::from(runs && before[0].labels != after[0].labels);
}

/// What pairs came to: how many are not refused and have other numbers of words, true counts, labels that change.
#[derive(Default)]
struct Pairs {
    tally: Tally,
    runs: u64,
    are_true: u64,
    change: u64,
}

#[test]
fn secret_bytes_and_counts_do_not_show() {
    const SEED: u64 = 0x5eed_0094;
    let mut campaign = Campaign::new(SEED, MEMORY_PAIRS);
    let mut seen = Pairs::default();
    for (_, random) in campaign.by_ref() {
        let mut programs = Programs::new(random);
        check_labelled_pair(&mut programs, &mut seen);
        check_speculative_pair(&mut programs, &mut seen);
    }
    let Pairs { tally, runs, are_true, change } = &seen;
    println!(
        "counts, pairs of memories with other secret bytes and counts: {campaign}, {tally}, {runs} that ran \
         with other numbers of words, {are_true} with true counts, {change} whose labels changed"
    );
    if campaign.is_whole() {
        tally.assert_quota(&ENDINGS, QUOTA);
        let times = campaign.times();
        for (what, count) in [("pairs", runs), ("pairs with true counts", are_true)] {
            let quota = if what == "pairs" { PAIR_QUOTA } else { PAIR_QUOTA / 4 } * times;
            assert!(*count >= quota, "{count} {what} ran, and not {quota} or more");
        }
    }
}

fn check_labelled_pair(programs: &mut Programs, seen: &mut Pairs) {
    let one = if programs.random().once_in(8) { programs.case() } else { programs.counted_case() };
    let state = with_other_secrets(&one.state, programs);
    let mut before = [one.clone(), Case { state, ..one }];
    if programs.random().once_in(2) {
        lend_true_counts(before.each_mut().map(|case| &mut case.state));
    }
    let (after, report) = check_pair(&before);
    let [before, after] = [&before, &after].map(|pair| pair.each_ref().map(|case| &case.state));
    count_pair(before, after, report[0], seen);
}

fn check_speculative_pair(programs: &mut Programs, seen: &mut Pairs) {
    let is_any = programs.random().once_in(8);
    let one = if is_any { programs.speculation() } else { programs.counted_speculation() };
    let mut other = one.clone();
    other.case.state = with_other_secrets(&one.case.state, programs);
    let mut before = [one, other];
    if programs.random().once_in(2) {
        lend_true_counts(before.each_mut().map(|run| &mut run.case.state));
    }
    let mut after = before.clone();
    let reports = after.each_mut().map(speculative_report);
    let states = after.each_ref().map(|run| &run.case.state);
    assert_secrets_do_not_show(&before, [(reports[0], states[0]), (reports[1], states[1])]);
    count_pair(before.each_ref().map(|run| &run.case.state), states, reports[0][0], seen);
}
