//! `undrelvoa_run`, `undrelvoa_labelled_run` and their steps, and the second program: random programs,
//! secret bytes that must not show, runs that are resumed, and known results.

use std::fmt;

use compare::agreement::Tally;
use compare::campaign::Campaign;
use compare::divisions::{self, Divisions, Secret, DIVISIONS};
use compare::parts::run_in_parts;
use compare::programs::Programs;
use compare::runs::{check_run, interpreter_report, Case, Job};
use compare::secrets::{check_pair, memory_pair};
use compare::wordsizes::{only_a_wordsize_is_refused, Accesses, Event};
use reference::answers::{LentWords, RunCall};
use reference::machine::State;
use reference::memory::Spaces;
use reference::opcodes::OPERATIONS;
use reference::run::{Observed, Program, BUDGET};
use reference::varnode::Wordsizes;
use reference::verdict::Settings;

/// One program in twenty is lent too short a report, and one in twenty other settings than five words.
const RANDOM_RUNS: u64 = 500_000;
const STEPPED_RUNS: u64 = 52_000;
const MEMORY_PAIRS: u64 = 100_000;
/// How many pairs have wordsizes that are not all 1, and how many of them at least should come to a LOAD
/// or a STORE with such a one.
const WIDE_MEMORY_PAIRS: u64 = 120_000;
const WIDE_PAIR_QUOTA: u64 = 50_000;
/// How many pairs have many divisions, and how many of them at least should come to one.
const DIVISION_MEMORY_PAIRS: u64 = 70_000;
const DIVISION_PAIR_QUOTA: u64 = 50_000;
/// How many runs are tried in parts, and how many of them at least should stop and be resumed.
const RUNS_IN_PARTS: u64 = 145_000;
const RESUMED_RUNS: u64 = 50_000;

/// How a plain run can end.
const PLAIN_ENDINGS: [u64; 15] = [0, 1, 2, 10, 11, 21, 22, 23, 24, 25, 26, 27, 32, 33, 34];
/// How a labelled run can end.
const LABELLED_ENDINGS: [u64; 17] =
    [0, 1, 2, 10, 11, 12, 21, 22, 23, 24, 25, 26, 27, 31, 32, 33, 34];
const LEAK: u64 = 31;

/// How often each ending should come, SETTING by a wordsize alone, and each opcode be executed.
const ENDING_QUOTA: u64 = 500;
const WORDSIZE_QUOTA: u64 = 500;
const OPCODE_QUOTA: u64 = 1_000;
/// How many of the runs, and of the steps, of each kind should have wordsizes of 1.
const BYTE_POINTER_QUOTA: u64 = 150_000;
const BYTE_POINTER_STEP_QUOTA: u64 = 50_000;

/// Plain and labelled runs are of the same programs.
const RUN_SEED: u64 = 0x5eed_0041;

/// How often each opcode was executed, by name.
fn by_name(executed: &Tally) -> String {
    let counts = OPERATIONS
        .map(|operation| format!("{}: {}", operation.name, executed.of(operation.number())));
    counts.join(", ")
}

/// How many of the runs or steps compared had wordsizes of 1, and how many ended with SETTING by a
/// wordsize alone.
#[derive(Default)]
struct SettingsSeen {
    byte_pointers: u64,
    refused_wordsize: u64,
}

impl SettingsSeen {
    fn count(&mut self, settings: &Settings) {
        self.byte_pointers += u64::from(settings.wordsizes == Wordsizes::ONE);
        self.refused_wordsize += u64::from(only_a_wordsize_is_refused(settings));
    }

    fn assert_quotas(&self, byte_pointers: u64) {
        assert!(self.byte_pointers >= byte_pointers, "too few have byte pointers: {self}");
        assert!(self.refused_wordsize >= WORDSIZE_QUOTA, "too few are refused: {self}");
    }
}

impl fmt::Display for SettingsSeen {
    fn fmt(&self, formatter: &mut fmt::Formatter) -> fmt::Result {
        let SettingsSeen { byte_pointers, refused_wordsize } = self;
        write!(
            formatter,
            "{byte_pointers} with wordsizes of 1, {refused_wordsize} SETTING by a wordsize"
        )
    }
}

/// Compares random runs in the form that `form` gives them.
fn random_runs(name: &str, form: fn(&Case) -> Case, endings: &[u64]) {
    let mut campaign = Campaign::new(RUN_SEED, RANDOM_RUNS);
    let mut tally = Tally::default();
    let mut executed = Tally::default();
    let mut settings = SettingsSeen::default();
    let mut refused = 0;
    for (_, random) in campaign.by_ref() {
        let mut programs = Programs::new(random);
        let Case { call, mut state } = form(&programs.case());
        let count = |observed: Observed| executed.count(observed.opcode as u64);
        let lent = programs.lent_words();
        let Some([ending, ..]) = check_run(Job::Run, &call, &mut state, lent, count) else {
            refused += 1;
            continue;
        };
        tally.count(ending);
        settings.count(&call.program.settings);
    }
    println!(
        "{name}, random programs: {campaign}, {tally}, {settings}, {refused} refused for their words\n\
         {name}, operations executed: {}",
        by_name(&executed)
    );
    if campaign.is_whole() {
        tally.assert_numbers(endings);
        tally.assert_quota(endings, ENDING_QUOTA);
        settings.assert_quotas(BYTE_POINTER_QUOTA);
        executed.assert_quota(&OPERATIONS.map(|operation| operation.number()), OPCODE_QUOTA);
    }
}

#[test]
fn random_plain_runs() {
    random_runs("run", Case::plain, &PLAIN_ENDINGS);
}

#[test]
fn random_labelled_runs() {
    random_runs("labelled run", Case::clone, &LABELLED_ENDINGS);
}

/// Steps through a program, from each ending by BUDGET on to the next.
fn check_steps(
    mut case: Case,
    programs: &mut Programs,
    tally: &mut Tally,
    settings: &mut SettingsSeen,
) {
    const MOST_STEPS: u64 = 10;
    for _ in 0..MOST_STEPS {
        let lent = programs.lent_words();
        let report = check_run(Job::Step, &case.call, &mut case.state, lent, |_| ());
        // A step that was refused for its words can be taken again.
        let Some([ending, index, ..]) = report else { continue };
        tally.count(ending);
        settings.count(&case.call.program.settings);
        if ending != BUDGET {
            return;
        }
        case.call.start = index;
    }
}

#[test]
fn random_steps() {
    const SEED: u64 = 0x5eed_0042;
    let mut campaign = Campaign::new(SEED, STEPPED_RUNS);
    let mut plain = Tally::default();
    let mut plain_settings = SettingsSeen::default();
    let mut labelled = Tally::default();
    let mut labelled_settings = SettingsSeen::default();
    for (_, random) in campaign.by_ref() {
        let mut programs = Programs::new(random);
        let case = programs.case();
        check_steps(case.plain(), &mut programs, &mut plain, &mut plain_settings);
        check_steps(case, &mut programs, &mut labelled, &mut labelled_settings);
    }
    let count = campaign.drawn();
    println!("step, {count} random programs: {campaign}, {plain}, {plain_settings}");
    println!("labelled step, {count} random programs: {campaign}, {labelled}, {labelled_settings}");
    if campaign.is_whole() {
        plain.assert_numbers(&PLAIN_ENDINGS);
        plain_settings.assert_quotas(BYTE_POINTER_STEP_QUOTA);
        labelled.assert_numbers(&LABELLED_ENDINGS);
        labelled_settings.assert_quotas(BYTE_POINTER_STEP_QUOTA);
    }
}

#[test]
fn secret_bytes_do_not_show() {
    const SEED: u64 = 0x5eed_0043;
    let mut campaign = Campaign::new(SEED, MEMORY_PAIRS);
    let mut tally = Tally::default();
    let mut different_after = 0;
    for (_, random) in campaign.by_ref() {
        let pair = memory_pair(&mut Programs::new(random), Programs::case);
        let ([one, other], report) = check_pair(&pair);
        tally.count(report[0]);
        different_after += u64::from(one.state.memory != other.state.memory);
    }
    println!(
        "labelled run, pairs of memories with other secret bytes: {campaign}, {tally}, \
         {different_after} with other secret bytes after the run"
    );
    if campaign.is_whole() {
        tally.assert_numbers(&LABELLED_ENDINGS);
    }
}

#[test]
fn secret_bytes_do_not_show_with_other_wordsizes_than_1() {
    const SEED: u64 = 0x5eed_0045;
    let mut campaign = Campaign::new(SEED, WIDE_MEMORY_PAIRS);
    let mut tally = Tally::default();
    let mut accesses = Accesses::default();
    for (_, random) in campaign.by_ref() {
        let pair = memory_pair(&mut Programs::new(random), Programs::access_case);
        let ([one, _], report) = check_pair(&pair);
        tally.count(report[0]);
        accesses.count(&one, &report);
    }
    let [used, leaks] = [Event::Run, Event::Leak].map(|event| accesses.of(event));
    println!(
        "labelled run, pairs of memories with other secret bytes and wordsizes: {campaign}, {tally}, \
         {used} used a wordsize other than 1, {leaks} LEAK at one"
    );
    if campaign.is_whole() {
        accesses.assert_quota(Event::Run, WIDE_PAIR_QUOTA * campaign.times());
        accesses.assert_quota(Event::Leak, ENDING_QUOTA);
    }
}

#[test]
fn secret_bytes_do_not_show_in_divisions() {
    const SEED: u64 = 0x5eed_0046;
    let mut campaign = Campaign::new(SEED, DIVISION_MEMORY_PAIRS);
    let mut tally = Tally::default();
    let mut divisions = Divisions::default();
    for (_, random) in campaign.by_ref() {
        let pair = memory_pair(&mut Programs::new(random), Programs::division_case);
        let ([one, _], report) = check_pair(&pair);
        tally.count(report[0]);
        let mut divided = divisions.count_stopped(&one, &report);
        let Case { call, mut state } = pair[0].clone();
        let observer = |observed: Observed| divided |= divisions.count_executed(observed.opcode);
        check_run(Job::Run, &call, &mut state, LentWords::EXACT, observer);
        divisions.add_those_that_came([(divided, divisions::Event::Run)]);
        check_divided(&pair);
    }
    println!(
        "labelled run, pairs of memories with other secret bytes and divisions: {campaign}, {tally}\n\
         labelled run, pairs, divisions: {divisions}"
    );
    if campaign.is_whole() {
        divisions.assert_quota(divisions::Event::Run, DIVISION_PAIR_QUOTA * campaign.times());
        for opcode in DIVISIONS.map(|opcode| opcode as u8) {
            let leak = divisions::Event::Leak { opcode, secret: Secret::Dividend };
            divisions.assert_quota(leak, ENDING_QUOTA);
            divisions.assert_quota(divisions::Event::Executed { opcode }, ENDING_QUOTA);
        }
    }
}

/// Fails unless a case and the same with other secret bytes divide the same numbers, step by step, and the
/// plain steps do too, where no labelled one is LEAK.
fn check_divided(pair: &[Case; 2]) {
    const MOST_STEPS: u64 = 20;
    let [one, other] = pair.each_ref().map(|case| divisions::divided(case.clone(), MOST_STEPS));
    assert_eq!(one, other, "what is divided in\n{}and in\n{}", pair[0], pair[1]);
    if one.1 != LEAK {
        for case in pair {
            assert_eq!(
                divisions::divided(case.plain(), MOST_STEPS),
                one,
                "plain and labelled\n{case}"
            );
        }
    }
}

/// Compares a run in parts with one run. Gives back whether it stopped and was resumed.
fn check_resumed(case: &Case, budgets: &[u32]) -> bool {
    let parts = run_in_parts(case, budgets, |part| interpreter_report(Job::Run, part));
    let mut whole = case.clone();
    whole.call.budget = parts.budget;
    let report = interpreter_report(Job::Run, &mut whole);
    assert_eq!(parts.report, report, "the reports with budgets {budgets:?} on\n{case}");
    assert!(parts.state == whole.state, "another state with budgets {budgets:?} after\n{case}");
    parts.stops > 0
}

#[test]
fn resumed_runs_are_one_run() {
    const SEED: u64 = 0x5eed_0044;
    let mut campaign = Campaign::new(SEED, RUNS_IN_PARTS);
    let mut plain = 0;
    let mut labelled = 0;
    for (_, random) in campaign.by_ref() {
        let mut programs = Programs::new(random);
        let case = programs.well_formed_case();
        let parts = 2 + programs.random().below(4);
        let budgets: Vec<u32> = (0..parts).map(|_| programs.random().below(12) as u32).collect();
        plain += u64::from(check_resumed(&case.plain(), &budgets));
        labelled += u64::from(check_resumed(&case, &budgets));
    }
    println!("run, stopped by BUDGET and resumed: {campaign}, {plain} agreed");
    println!("labelled run, stopped by BUDGET and resumed: {campaign}, {labelled} agreed");
    if campaign.is_whole() {
        let fewest = RESUMED_RUNS * campaign.times();
        assert!(plain.min(labelled) >= fewest, "fewer than {fewest} runs were resumed");
    }
}

/// A plain case with 8-byte addresses, little byte order and a log of 4 words.
fn plain_case(operations: &[[u64; 5]], start: u64, budget: u32, memory: Spaces) -> Case {
    let settings = Settings { order: 0, address_size: 8, wordsizes: Wordsizes::ONE };
    let program = Program { settings, list: operations.concat() };
    let state = State::plain(memory, vec![7; 4]);
    Case { call: RunCall { program, start, budget }, state }
}

/// The same with public labels.
fn with_public_labels(case: &Case) -> Case {
    let Case { call, state: State { memory, log, .. } } = case.clone();
    let labels = Spaces::of_lengths(&memory.lengths());
    Case { call, state: State::labelled(memory, labels, log) }
}

/// Compares a case, plain and with public labels, and gives back its report and its state.
fn check_both(case: Case) -> ([u64; 5], State) {
    let mut labelled = with_public_labels(&case).state;
    let report = check_run(Job::Run, &case.call, &mut labelled, LentWords::EXACT, |_| ());
    let mut plain = case.state;
    assert_eq!(check_run(Job::Run, &case.call, &mut plain, LentWords::EXACT, |_| ()), report);
    assert_eq!((&plain.memory, &plain.log), (&labelled.memory, &labelled.log));
    (report.expect("a report of five words"), plain)
}

/// COPY of 2 bytes within unique, from 0 to 1.
const OVERLAPPING_COPY: [u64; 5] = [0x22_22_01, 1, 0, 0, 0];

fn unique_only(bytes: &[u8]) -> Spaces {
    Spaces { unique: bytes.to_vec(), register: vec![], ram: vec![] }
}

#[test]
fn load_in_ram_at_12_passes_at_13_and_at_2_to_64_minus_1_is_bounds() {
    // LOAD of 4 bytes from ram into unique, with the pointer in register.
    let load = [0x38_11_24_02, 0, 4, 0, 0];
    let result = |pointer: u64| {
        let memory = Spaces {
            unique: vec![0xee; 4],
            register: pointer.to_le_bytes().to_vec(),
            ram: (0..16).collect(),
        };
        let (report, state) = check_both(plain_case(&[load], 0, 9, memory));
        (report, state.memory.unique, state.log)
    };
    assert_eq!(result(12), ([0, 1, 1, 1, 0], vec![12, 13, 14, 15], vec![12, 7, 7, 7]));
    assert_eq!(result(13), ([32, 0, 0, 0, 0], vec![0xee; 4], vec![7; 4]));
    assert_eq!(result(u64::MAX), ([32, 0, 0, 0, 0], vec![0xee; 4], vec![7; 4]));
    println!("run, LOAD in ram of 16 bytes: 3 agreed");
}

#[test]
fn empty_list_with_budget_0_is_end() {
    let (report, _) = check_both(plain_case(&[], 0, 0, unique_only(&[])));
    assert_eq!(report, [0, 0, 0, 0, 0]);
    println!("run, empty list with budget 0: 1 agreed");
}

#[test]
fn start_n_is_end_and_n_plus_1_is_start() {
    for count in [0, 1, 7, 4_096] {
        let operations = vec![OVERLAPPING_COPY; count as usize];
        let report = |start| check_both(plain_case(&operations, start, 9, unique_only(&[1; 3]))).0;
        assert_eq!(report(count), [0, count, 0, 0, 0]);
        assert_eq!(report(count + 1), [27, 0, 0, 0, 0]);
        assert_eq!(report(u64::MAX), [27, 0, 0, 0, 0]);
    }
    println!("run, start at the end and beyond: 12 agreed");
}

#[test]
fn overlapping_copy_reads_before_it_writes() {
    let (report, state) =
        check_both(plain_case(&[OVERLAPPING_COPY], 0, 9, unique_only(&[1, 2, 3, 4])));
    assert_eq!(report, [0, 1, 1, 0, 0]);
    assert_eq!(state.memory.unique, [1, 1, 2, 4]);
    println!("run, overlapping COPY: 1 agreed");
}

#[test]
fn branch_at_5_by_3_goes_to_8() {
    let mut operations = [OVERLAPPING_COPY; 10];
    operations[5] = [0x11_00_04, 0, 3, 0, 0];
    let (report, _) = check_both(plain_case(&operations, 5, 1, unique_only(&[0; 3])));
    assert_eq!(report, [2, 8, 1, 0, 0]);
    println!("run, BRANCH at 5 by 3: 1 agreed");
}

#[test]
fn lists_of_4096_operations_run_and_of_4097_are_length() {
    let report = |count| {
        let operations = vec![OVERLAPPING_COPY; count];
        check_both(plain_case(&operations, 0, u32::MAX, unique_only(&[0; 3]))).0
    };
    assert_eq!(report(4_096), [0, 4_096, 4_096, 0, 0]);
    assert_eq!(report(4_097), [11, 0, 0, 0, 0]);
    println!("run, 4096 and 4097 operations: 2 agreed");
}

#[test]
fn wrong_numbers_of_words_are_refused() {
    let mut agreed = 0;
    for order in [0, 2] {
        let mut plain = plain_case(&[OVERLAPPING_COPY], 0, 9, unique_only(&[1, 2, 3, 4]));
        plain.call.program.settings.order = order;
        let labelled = with_public_labels(&plain);
        for (job, case) in
            [Job::Run, Job::Step].into_iter().flat_map(|job| [(job, &plain), (job, &labelled)])
        {
            for settings in 0..=8 {
                for report in 0..=8 {
                    let lent = LentWords { settings, report };
                    let answered =
                        check_run(job, &case.call, &mut case.state.clone(), lent, |_| ());
                    assert_eq!(answered.is_some(), settings == 5 && report >= 5);
                    agreed += 1;
                }
            }
        }
    }
    println!("run and step, numbers of words for settings and report: {agreed} agreed");
}
