//! `undrelvoa_speculative_run`, the second program and the labelled run: random programs with windows,
//! secret bytes that must not show, runs that are resumed, every window with journals around what it needs,
//! and a leak and a full log at every operation of a window.

use std::fmt;
use std::iter::zip;

use compare::agreement::Tally;
use compare::campaign::Campaign;
use compare::divisions::{Secret, DIVISIONS};
use compare::inputs::{BAD_WINDOWS, GOOD_ORDERS, SIZES};
use compare::moves::{self, MOVES, SINKS};
use compare::parts::run_in_parts;
use compare::programs::Programs;
use compare::runs::{interpreter_report, Case, Job};
use compare::secrets::{assert_secrets_do_not_show, with_other_secrets, written_log};
use compare::speculations::{check_speculation, speculative_report, Speculation};
use compare::windows::{Event, Watch, Windows, COUNTED_WINDOWS};
use reference::answers::{LentWords, RunCall};
use reference::fault::{HEAD, LABEL, LEAK_AHEAD, LENGTH, LOG, SETTING, START};
use reference::machine::State;
use reference::memory::{Spaces, SECRET};
use reference::run::{Program, BUDGET};
use reference::speculative::{self, Closing, Window, LARGEST_WINDOW, WINDOW_MARK};
use reference::varnode::{Wordsizes, RAM, REGISTER, UNIQUE};
use reference::verdict::{Settings, END};

/// One program in twenty is lent too short a report, and one in twenty other settings than five words.
const RANDOM_RUNS: u64 = 300_000;
const RUNS_WITHOUT_WINDOWS: u64 = 30_000;
const MEMORY_PAIRS: u64 = 115_000;
/// How many runs are tried in parts, and how many of them at least should stop and be resumed.
const RUNS_IN_PARTS: u64 = 60_000;
const RESUMED_RUNS: u64 = 20_000;

/// How a speculative run can end.
const ENDINGS: [u64; 18] = [0, 1, 2, 10, 11, 12, 21, 22, 23, 24, 25, 26, 27, 31, 32, 33, 34, 35];

/// How many random runs should be the labelled run but for marked words, and have a window that runs too.
const LABELLED_QUOTA: u64 = 100_000;
const LABELLED_WINDOW_QUOTA: u64 = 50_000;
/// How many pairs of memories should have a window that runs.
const PAIR_QUOTA: u64 = 50_000;
/// How often the endings should come that only windows bring, and every other ending and event.
const NEW_ENDING_QUOTA: u64 = 500;
const QUOTA: u64 = 200;
/// Spaces of the greatest length take long.
const LONG_SPACE_QUOTA: u64 = 100;

/// LEAK AHEAD at each division by its dividend alone.
fn leaks_by_dividend() -> [Event; 4] {
    let secret = Secret::Dividend;
    DIVISIONS.map(|opcode| Event::LeakAtDivision { opcode: opcode as u8, secret })
}

/// How often each event should come in random runs.
fn assert_quotas(windows: &Windows) {
    use Closing::*;
    windows.assert_quota(Event::Closed(LeakAhead), NEW_ENDING_QUOTA);
    windows.assert_quota(Event::Closed(Log), NEW_ENDING_QUOTA);
    let closings = [Done, End, Exit, Bounds, Zero].map(Event::Closed);
    let sinks = SINKS.map(|opcode| Event::Leak { opcode: opcode as u8 });
    let refused = [65, u64::MAX].map(|window| Event::WindowRefused { window });
    let runs = COUNTED_WINDOWS.map(|window| Event::Run { window });
    let done = COUNTED_WINDOWS.map(|window| Event::Done { window });
    let last = [1, 63, 64].map(|window| Event::LastWrites { window });
    let others = [
        Event::JournalRefused,
        Event::JournalOneShort,
        Event::ExactJournal,
        Event::LongJournal,
        Event::WindowRuns,
        Event::SeveralWindows,
        Event::BudgetAtWindow,
        Event::ExitAtWindow,
        Event::ToRam,
        Event::ToEnd,
        Event::PastLast,
        Event::SameWay,
        Event::Cbranch,
        Event::CbranchExit,
        Event::MakesSecret,
        Event::MakesPublic,
        Event::OverInput,
        Event::StoreOverInput,
        Event::OverBytesRead,
        Event::OverCondition,
        Event::OverBytesWritten,
        Event::UndoOrder,
    ];
    let dividends = leaks_by_dividend();
    let events: [&[Event]; 8] =
        [&closings, &sinks, &dividends, &refused, &runs, &done, &last, &others];
    for &event in events.into_iter().flatten() {
        windows.assert_quota(event, QUOTA);
    }
    windows.assert_quota(Event::WriteAtLongest, LONG_SPACE_QUOTA);
    for size in SIZES {
        for order in GOOD_ORDERS {
            windows.assert_quota(Event::Access { order, wordsize: size }, QUOTA);
        }
        for space in [UNIQUE, REGISTER, RAM] {
            windows.assert_quota(Event::Write { space, size }, QUOTA);
        }
    }
}

/// What random runs came to.
#[derive(Default)]
struct Seen {
    tally: Tally,
    windows: Windows,
    refused_words: u64,
    /// How many were the labelled run but for marked words, and how many of these had a window that ran.
    labelled: u64,
    labelled_windows: u64,
}

impl Seen {
    /// Compares a call that is lent so many words, and counts what it did.
    fn check(&mut self, before: &Speculation, lent: LentWords) {
        let mut after = before.clone();
        let ran_before = self.windows.of(Event::WindowRuns);
        let mut watch = Watch::new(&mut self.windows, before);
        let mut executed = 0;
        let observer = |event: speculative::Event| {
            executed += u64::from(is_executed(&event));
            watch.hear(event);
        };
        let Some(report) = check_speculation(&mut after, lent, observer) else {
            self.refused_words += 1;
            return;
        };
        watch.finish(report[0]);
        assert_bounds(before, executed, report[3]);
        self.tally.count(report[0]);
        if is_in_range(&before.window) && ![LOG, LEAK_AHEAD].contains(&report[0]) {
            assert_is_labelled_run(before, &after, &report);
            self.labelled += u64::from(!is_refused(report[0]));
            self.labelled_windows += self.windows.of(Event::WindowRuns) - ran_before;
        }
    }

    /// How many runs a full log ended that was not full in a window.
    fn ordinary_logs(&self) -> u64 {
        self.tally.of(LOG) - self.windows.of(Event::Closed(Closing::Log))
    }

    fn assert_quotas(&self, times: u64) {
        self.tally.assert_numbers(&ENDINGS);
        self.tally.assert_quota(&ENDINGS, QUOTA);
        for (what, count, quota) in [
            ("LOG outside of windows", self.ordinary_logs(), QUOTA),
            ("the labelled run", self.labelled, LABELLED_QUOTA * times),
            ("the same with a window", self.labelled_windows, LABELLED_WINDOW_QUOTA * times),
        ] {
            assert!(count >= quota, "{what} came {count} times, and not {quota} times or more");
        }
        assert_quotas(&self.windows);
    }
}

impl fmt::Display for Seen {
    fn fmt(&self, formatter: &mut fmt::Formatter) -> fmt::Result {
        let Seen { tally, windows, refused_words, labelled, labelled_windows } = self;
        write!(
            formatter,
            "{tally}, {} LOG outside of windows, {labelled} the labelled run but for marked words, \
             {labelled_windows} of them with a window that runs, {refused_words} refused for their words\n\
             speculative run, windows: {windows}",
            self.ordinary_logs()
        )
    }
}

fn is_in_range(window: &Window) -> bool {
    window.operations <= LARGEST_WINDOW && window.journal.len() >= window.journal_words()
}

/// Whether an operation was executed, of the run itself or of a window.
fn is_executed(event: &speculative::Event) -> bool {
    use speculative::Event::{Ahead, Counted};
    matches!(event, Ahead { .. } | Counted { .. })
}

/// Fails where a run executed more than W + 1 operations for each of its budget, those of windows included, or
/// wrote more log words.
fn assert_bounds(run: &Speculation, executed: u64, words: u64) {
    let each = u128::from(run.window.operations) + 1;
    let most = u128::from(run.case.call.budget) * each;
    let [executed, words] = [executed, words].map(u128::from);
    let holds = executed <= most && words <= most;
    assert!(holds, "{executed} operations and {words} log words, at most {most} each, by\n{run}");
}

/// Whether an ending is one of those that come before anything runs.
fn is_refused(ending: u64) -> bool {
    (SETTING..=START).contains(&ending)
}

#[test]
fn random_runs() {
    const SEED: u64 = 0x5eed_0061;
    let mut campaign = Campaign::new(SEED, RANDOM_RUNS);
    let mut seen = Seen::default();
    for (_, random) in campaign.by_ref() {
        let mut programs = Programs::new(random);
        let before = programs.speculation();
        seen.check(&before, programs.lent_words());
    }
    println!("speculative run, random programs: {campaign}, {seen}");
    if campaign.is_whole() {
        seen.assert_quotas(campaign.times());
    }
}

/// Fails unless what a speculative run left is what the labelled run leaves, but for marked words.
fn assert_is_labelled_run(before: &Speculation, after: &Speculation, report: &[u64; 5]) {
    let mut labelled = before.case.clone();
    let labelled_report = interpreter_report(Job::Run, &mut labelled);
    let written = written_log(&after.case.state, report);
    let own: Vec<u64> = written.iter().copied().filter(|&word| word < WINDOW_MARK).collect();
    let [ending, index, executed, _, value] = *report;
    let own_report = [ending, index, executed, own.len() as u64, value];
    assert_eq!(own_report, labelled_report, "the reports, but for marked words, on\n{before}");
    let own_log = written_log(&labelled.state, &labelled_report);
    assert_eq!(own, own_log, "the log words, but for marked ones, on\n{before}");
    let [lent, left] = [before, after].map(|one| &one.case.state.log[written.len()..]);
    assert_eq!(left, lent, "log words that were not written, after\n{before}");
    let State { memory, labels, counts, .. } = &after.case.state;
    assert!(*memory == labelled.state.memory, "other memory than the labelled run's\n{before}");
    assert!(*labels == labelled.state.labels, "other labels than the labelled run's\n{before}");
    assert!(*counts == labelled.state.counts, "other counts than the labelled run's\n{before}");
}

#[test]
fn a_run_with_windows_of_0_is_the_labelled_run() {
    const SEED: u64 = 0x5eed_0062;
    let mut campaign = Campaign::new(SEED, RUNS_WITHOUT_WINDOWS);
    let mut tally = Tally::default();
    for (_, random) in campaign.by_ref() {
        let before = Programs::new(random).speculation_without_windows();
        let mut after = before.clone();
        let report = speculative_report(&mut after);
        let mut labelled = before.case.clone();
        let labelled_report = interpreter_report(Job::Run, &mut labelled);
        assert_eq!(report, labelled_report, "the reports on\n{before}");
        assert!(
            after.case.state == labelled.state,
            "another state than the labelled run's\n{before}"
        );
        assert!(after.window == before.window, "another journal after\n{before}");
        tally.count(report[0]);
    }
    println!("speculative run with W 0 and labelled run: {campaign}, {tally}");
    if campaign.is_whole() {
        tally.assert_numbers(&ENDINGS[..17]);
    }
}

/// Fails unless the journal is as lent where the run was refused, and else begins with 4W zeros.
fn assert_journal(before: &Speculation, after: &Speculation, ending: u64) {
    let mut expected = before.window.clone();
    if !is_refused(ending) {
        let words = expected.journal_words();
        expected.journal[..words].fill(0);
    }
    assert!(after.window == expected, "another journal after\n{before}");
}

/// A speculative run and the same with other secret bytes and other words in log and journal, drawn until
/// the two memories differ.
fn memory_pair(programs: &mut Programs) -> [Speculation; 2] {
    loop {
        let one = match programs.random().below(10) {
            0 => programs.speculation(),
            1..=3 => programs.moving_speculation(),
            _ => programs.well_formed_speculation(),
        };
        let mut other = one.clone();
        other.case.state = with_other_secrets(&one.case.state, programs);
        other.window.journal.iter_mut().for_each(|word| *word = !*word);
        if one.case.state.memory != other.case.state.memory {
            return [one, other];
        }
    }
}

/// Runs a pair, and fails if a secret byte shows. Gives back what was left, and the report.
fn check_pair(
    before: &[Speculation; 2],
    windows: &mut Windows,
    moves: &mut moves::Seen,
) -> ([Speculation; 2], [u64; 5]) {
    let [mut one, mut other] = before.clone();
    let mut watch = Watch::new(windows, &before[0]);
    let mut moves = moves::Watch::new(moves, &before[0].case);
    let observer = |event: speculative::Event| {
        moves.hear(event);
        watch.hear(event);
    };
    let report = check_speculation(&mut one, LentWords::EXACT, observer);
    let report = report.expect("a report of five words");
    watch.finish(report[0]);
    let other_report = speculative_report(&mut other);
    let left = [(report, &one.case.state), (other_report, &other.case.state)];
    assert_secrets_do_not_show(before, left);
    for (before, after) in zip(before, [&one, &other]) {
        assert_journal(before, after, report[0]);
    }
    ([one, other], report)
}

#[test]
fn secret_bytes_do_not_show() {
    const SEED: u64 = 0x5eed_0063;
    let mut campaign = Campaign::new(SEED, MEMORY_PAIRS);
    let mut tally = Tally::default();
    let mut windows = Windows::default();
    let mut moves = moves::Seen::default();
    let mut different_after = 0;
    for (_, random) in campaign.by_ref() {
        let pair = memory_pair(&mut Programs::new(random));
        let ([one, other], report) = check_pair(&pair, &mut windows, &mut moves);
        tally.count(report[0]);
        different_after += u64::from(one.case.state.memory != other.case.state.memory);
    }
    println!(
        "speculative run, pairs of memories with other secret bytes: {campaign}, {tally}, \
         {different_after} with other secret bytes after the run\n\
         speculative run, pairs, windows: {windows}\n\
         speculative run, pairs, moves in windows: {}",
        moves.windows
    );
    if campaign.is_whole() {
        tally.assert_numbers(&ENDINGS);
        windows.assert_quota(Event::WindowRuns, PAIR_QUOTA * campaign.times());
        for event in [Event::MakesSecret, Event::MakesPublic, Event::Closed(Closing::Log)] {
            windows.assert_quota(event, NEW_ENDING_QUOTA);
        }
        let sinks = SINKS.map(|opcode| Event::Leak { opcode: opcode as u8 });
        for event in sinks.into_iter().chain(leaks_by_dividend()) {
            windows.assert_quota(event, QUOTA);
        }
        for opcode in MOVES.map(|opcode| opcode as u8) {
            moves.windows.assert_quota(moves::Event::Mixed { opcode }, QUOTA);
        }
    }
}

/// Compares a run in parts with one run. Gives back whether it stopped and was resumed.
fn check_resumed(speculation: &Speculation, budgets: &[u32]) -> bool {
    let mut window = speculation.window.clone();
    let parts = run_in_parts(&speculation.case, budgets, |case| {
        let mut part = Speculation { case: case.clone(), window: window.clone() };
        let report = speculative_report(&mut part);
        (*case, window) = (part.case, part.window);
        report
    });
    let mut whole = speculation.clone();
    whole.case.call.budget = parts.budget;
    let report = speculative_report(&mut whole);
    assert_eq!(parts.report, report, "the reports with budgets {budgets:?} on\n{speculation}");
    let same = parts.state == whole.case.state && window == whole.window;
    assert!(same, "another state with budgets {budgets:?} after\n{speculation}");
    parts.stops > 0
}

#[test]
fn resumed_runs_are_one_run() {
    const SEED: u64 = 0x5eed_0064;
    let mut campaign = Campaign::new(SEED, RUNS_IN_PARTS);
    let mut resumed = 0;
    for (_, random) in campaign.by_ref() {
        let mut programs = Programs::new(random);
        let speculation = programs.well_formed_speculation();
        let parts = 2 + programs.random().below(4);
        let budgets: Vec<u32> = (0..parts).map(|_| programs.random().below(6) as u32).collect();
        resumed += u64::from(check_resumed(&speculation, &budgets));
    }
    println!("speculative run, stopped by BUDGET and resumed: {campaign}, {resumed} agreed");
    if campaign.is_whole() {
        let fewest = RESUMED_RUNS * campaign.times();
        assert!(resumed >= fewest, "fewer than {fewest} runs were resumed");
    }
}

/// A speculative run of a list from its first operation on, with 1-byte addresses that count bytes.
fn speculation(operations: &[[u64; 5]], window: u64, room: usize) -> Speculation {
    let settings = Settings { order: 0, address_size: 1, wordsizes: Wordsizes::ONE };
    let program = Program { settings, list: operations.concat() };
    let memory = Spaces { unique: (0..32).collect(), register: vec![9; 8], ram: vec![1; 16] };
    let mut labels = Spaces::of_lengths(&memory.lengths());
    labels.register.fill(SECRET);
    let state = State::labelled(memory, labels, vec![LENT_WORD; room]);
    let case = Case { call: RunCall { program, start: 0, budget: 99 }, state };
    Speculation { case, window: lent_window(window, 4 * window + 2) }
}

/// W, and a journal of so many words.
fn lent_window(operations: u64, words: u64) -> Window {
    Window { operations, journal: vec![LENT_WORD; words as usize] }
}

/// A word of log and journal as it is lent.
const LENT_WORD: u64 = 0x7777_7777_7777_7777;

/// Compares a speculative run, and gives back its report and the log words that it wrote.
fn result(mut speculation: Speculation) -> ([u64; 5], Vec<u64>) {
    let report = check_speculation(&mut speculation, LentWords::EXACT, |_| ());
    let report = report.expect("a report of five words");
    (report, written_log(&speculation.case.state, &report).to_vec())
}

/// CBRANCH that is taken by a constant condition.
fn cbranch(distance: u64) -> [u64; 5] {
    [0x11_11_00_05, 0, distance, 1, 0]
}

/// Where the secret byte is that a sink of this opcode looks at: in register.
fn sink(opcode: u8) -> [u64; 5] {
    let opcode = u64::from(opcode);
    match opcode {
        2 => [0x31_11_21_02, 0, RAM, 0, 0],
        3 => [0x21_31_11_00_03, 0, RAM, 0, 0],
        5 => [0x31_11_00_05, 0, 1, 0, 0],
        6 | 8 | 9 => [0x31_00_00 + opcode, 0, 0, 0, 0],
        _ => [0x31_21_21_00 + opcode, 0, 0, 0, 0],
    }
}

#[test]
fn a_leak_at_every_operation_of_every_window() {
    let mut tally = Tally::default();
    for before in [0, 1, 2, 30, 61, 62, 63, 64] {
        for opcode in SINKS.map(|opcode| opcode as u8) {
            // The end comes after the sink.
            let end = before + 2;
            let mut list = vec![cbranch(end)];
            list.resize(1 + before as usize, [0x21_21_01, 0, 9, 0, 0]);
            list.push(sink(opcode));
            for window in 0..=LARGEST_WINDOW {
                let leaks = window > before;
                let report = if leaks { [LEAK_AHEAD, 0, 0, 1, 0] } else { [END, end, 1, 1, 0] };
                assert_eq!(result(speculation(&list, window, 9)), (report, vec![1]));
                tally.count(report[0]);
            }
        }
    }
    println!("speculative run, a leak at every operation of every window: {tally}");
}

#[test]
fn every_operation_opens_a_whole_window_of_log_words() {
    let mut agreed = 0;
    // Each goes to itself; the other way of the first is the second.
    let list = [cbranch(0); 2];
    for window in 0..=LARGEST_WINDOW {
        for budget in 0..=9 {
            let words = u64::from(budget) * (window + 1);
            let mut run = speculation(&list, window, words as usize + 1);
            run.case.call.budget = budget;
            assert_eq!(result(run).0, [BUDGET, 0, budget.into(), words, 0]);
            agreed += 1;
        }
    }
    println!("speculative run, W + 1 log words for each operation: {agreed} agreed");
}

#[test]
fn a_full_log_at_every_word_of_every_window() {
    let mut tally = Tally::default();
    // LOAD, STORE and a CBRANCH to the next, in turn.
    let turns = [[0x11_11_21_02, 3, RAM, 5, 0], [0x21_11_11_00_03, 0, UNIQUE, 6, 7], cbranch(1)];
    let shown = [5, 6, 1];
    let count = LARGEST_WINDOW + 3;
    let behind = || (1..count).map(|index| index as usize % 3);
    let list: Vec<[u64; 5]> =
        [cbranch(count)].into_iter().chain(behind().map(|turn| turns[turn])).collect();
    let log: Vec<u64> =
        zip(1.., behind()).map(|(index, turn)| WINDOW_MARK + (index << 32) + shown[turn]).collect();
    let log = [&[1], &log[..]].concat();
    for window in 0..=LARGEST_WINDOW {
        for room in 0..=LARGEST_WINDOW + 2 {
            let words = room.min(window + 1);
            let is_full = room <= window;
            let report = if is_full { [LOG, 0, 0, words, 0] } else { [END, count, 1, words, 0] };
            let expected = (report, log[..words as usize].to_vec());
            assert_eq!(result(speculation(&list, window, room as usize)), expected);
            tally.count(report[0]);
        }
    }
    tally.assert_numbers(&[END, LOG]);
    println!("speculative run, a full log at every word of every window: {tally}");
}

/// A speculative run with a table of 8 entries in ram, the index 16 in unique, and another widget's secret
/// bytes from there on.
fn table_speculation(settings: Settings, operations: &[[u64; 5]], window: u64) -> Speculation {
    let Settings { order, address_size, wordsizes } = settings;
    let mut speculation = speculation(operations, window, 4);
    speculation.case.call.program.settings = settings;
    let secret = 16 * wordsizes.ram as usize;
    let State { mut memory, log, .. } = speculation.case.state;
    memory.unique.fill(0);
    let index = if order == 0 { 0 } else { address_size as usize - 1 };
    memory.unique[index] = 16;
    memory.ram = vec![0; secret + 8];
    memory.ram[secret..].fill(0x5a);
    let mut labels = Spaces::of_lengths(&memory.lengths());
    labels.ram[secret..].fill(SECRET);
    speculation.case.state = State::labelled(memory, labels, log);
    speculation
}

#[test]
fn a_load_ahead_of_its_bounds_check_and_a_mask_in_the_place_of_the_branch() {
    let mut agreed = 0;
    for order in GOOD_ORDERS {
        for address_size in SIZES {
            for ram in SIZES {
                let wordsizes = Wordsizes { unique: 9 - ram, register: 2, ram };
                let settings = Settings { order, address_size, wordsizes };
                check_table_stubs(settings);
                agreed += 4;
            }
        }
    }
    println!("speculative run, a load ahead of its bounds check, and mended: {agreed} agreed");
}

/// Compares the stub with its check as a branch and as a mask.
fn check_table_stubs(settings: Settings) {
    let address_size = settings.address_size;
    // Varnodes of unique and of constants that have the size of an address, as head bytes.
    let [place, constant] = [0x20 + address_size, 0x10 + address_size];
    // INT_LESSEQUAL of 8 and the index, or INT_AND of the index and 7; LOAD of an entry; LOAD by the entry.
    let check = [(place << 24) + (constant << 16) + 0x21_11, 8, 8, 0, 0];
    let mask = [(constant << 24) + (place << 16) + (place << 8) + 0x1d, 8, 0, 7, 0];
    let entry_at = |index| [(place << 24) + 0x11_00_02 + (place << 8), 16, RAM, index, 0];
    let by_entry = [(place << 24) + 0x11_21_02, 24, RAM, 16, 0];
    let stub = [check, [0x21_11_00_05, 0, 3, 8, 0], entry_at(0), by_entry];
    let ahead = WINDOW_MARK + (2 << 32) + 16 * settings.wordsizes.ram;
    for (window, report) in [
        (LARGEST_WINDOW, [LEAK_AHEAD, 1, 1, 2, 0]),
        (2, [LEAK_AHEAD, 1, 1, 2, 0]),
        (1, [END, 4, 2, 2, 0]),
    ] {
        let found = result(table_speculation(settings, &stub, window));
        assert_eq!(found, (report, vec![(1 << 32) + 1, ahead]), "{settings:?}");
    }
    let mended = [mask, entry_at(8), by_entry];
    let found = result(table_speculation(settings, &mended, LARGEST_WINDOW));
    assert_eq!(found, ([END, 3, 3, 2, 0], vec![1 << 32, 2 << 32]), "{settings:?}");
}

/// Runs that end with what comes after the journal's LENGTH or with it, and their endings.
fn runs_of_later_endings() -> [(Speculation, u64); 5] {
    let good = speculation(&[cbranch(2), [0x21_21_01, 0, 1, 0, 0]], 0, 4);
    let [mut length, mut label, mut head, mut start] = [(); 4].map(|()| good.clone());
    length.case.call.program.list.pop();
    label.case.state.labels.as_mut().expect("a labelled state").ram[15] = 2;
    head.case.call.program.list[5] = 0;
    start.case.call.start = 3;
    [(good, END), (length, LENGTH), (label, LABEL), (head, HEAD), (start, START)]
}

#[test]
fn every_window_with_journals_around_what_it_needs() {
    let mut tally = Tally::default();
    for (run, ending) in runs_of_later_endings() {
        for window in 0..=LARGEST_WINDOW {
            let needed = 4 * window;
            let shorter = [0, 1, window, needed.saturating_sub(4), needed.saturating_sub(1)];
            for words in (needed..needed + 6).chain([needed + 5_000]).chain(shorter) {
                let expected = if words < needed { LENGTH } else { ending };
                tally.count(ending_with(&run, lent_window(window, words), expected));
            }
        }
        for window in BAD_WINDOWS {
            for words in [0, 1, 4, 255, 256, 257, 260, 264, 1_000] {
                tally.count(ending_with(&run, lent_window(window, words), SETTING));
            }
        }
    }
    tally.assert_numbers(&[END, SETTING, LENGTH, LABEL, HEAD, START]);
    println!("speculative run, every window with many journals: {tally}");
}

/// Compares a run with another window, and fails unless it ends so.
fn ending_with(run: &Speculation, window: Window, expected: u64) -> u64 {
    let run = Speculation { window, ..run.clone() };
    let (report, _) = result(run.clone());
    assert_eq!(report[0], expected, "{run}");
    expected
}

#[test]
fn wrong_numbers_of_words_are_refused() {
    let mut agreed = 0;
    for (run, _) in runs_of_later_endings() {
        for window in [lent_window(1, 4), lent_window(1, 3), lent_window(65, 260)] {
            let run = Speculation { window, ..run.clone() };
            for settings in 0..=8 {
                for report in 0..=8 {
                    let lent = LentWords { settings, report };
                    let answered = check_speculation(&mut run.clone(), lent, |_| ());
                    assert_eq!(answered.is_some(), settings == 5 && report >= 5);
                    agreed += 1;
                }
            }
        }
    }
    println!("speculative run, numbers of words for settings and report: {agreed} agreed");
}
