//! Times of the loops, each of the runs in turn.

use std::hint::black_box;
use std::time::{Duration, Instant};

use crate::library::LARGEST_WINDOW;
use crate::loops::{branching_loops, loops, marking_loops, packing_loops, Loop};
use crate::{run, Kind};

const OPERATIONS: u32 = 1_000_000;
const REPETITIONS: u32 = 25;
/// The operations of a run with windows: the windows bring 28 for each of them.
const WINDOW_OPERATIONS: u32 = OPERATIONS / 32;

/// Prints the times of both interpreters, then those of the speculative run.
pub fn print() {
    println!("{OPERATIONS} operations, the least time of {REPETITIONS} repetitions each");
    print_loops();
    print_branching_loops();
}

/// Prints first what was asked for, at most twice the time of Rust on both loops, then all figures.
fn print_loops() {
    let rows = time_each(loops(OPERATIONS));
    for (timed, times) in &rows[..2] {
        println!(
            "plain / Rust, {} loop: {:.2} (to be at most 2.0)",
            timed.name,
            times.plain_by_rust()
        );
    }
    print_rows(&rows);
    let [mean, most] = mean_and_most(rows.iter().map(|(_, times)| times.plain_by_rust()));
    println!("plain / Rust: mean {mean:.2}, at most {most:.2}");
    let [mean, most] = mean_and_most(rows.iter().map(|(_, times)| times.labelled_by_plain()));
    println!("labelled / plain: mean {mean:.2}, at most {most:.2}");
    print_rows(&time_each(packing_loops(OPERATIONS)));
    print_rows(&time_each(marking_loops(OPERATIONS)));
}

fn print_rows(rows: &[(Loop, Times)]) {
    println!(
        "loop      size  order   plain ns  Rust ns  labelled ns  plain / Rust  labelled / plain"
    );
    for (timed, times) in rows {
        println!(
            "{:<8}  {:>4}  {:<6}  {:8.2}  {:7.2}  {:11.2}  {:12.2}  {:16.2}",
            timed.name,
            timed.size,
            timed.order_name(),
            nanoseconds(times.plain, OPERATIONS),
            nanoseconds(times.rust, OPERATIONS),
            nanoseconds(times.labelled, OPERATIONS),
            times.plain_by_rust(),
            times.labelled_by_plain(),
        );
    }
}

/// The least times of a loop.
struct Times {
    rust: Duration,
    plain: Duration,
    labelled: Duration,
}

impl Times {
    fn plain_by_rust(&self) -> f64 {
        self.plain.as_secs_f64() / self.rust.as_secs_f64()
    }

    fn labelled_by_plain(&self) -> f64 {
        self.labelled.as_secs_f64() / self.plain.as_secs_f64()
    }
}

fn time_each(loops: Vec<Loop>) -> Vec<(Loop, Times)> {
    loops.into_iter().map(time_all).collect()
}

/// Times the three runs in turn, so that a slow moment of the machine meets all of them.
fn time_all(timed: Loop) -> (Loop, Times) {
    let mut least = Times { rust: Duration::MAX, plain: Duration::MAX, labelled: Duration::MAX };
    for _ in 0..REPETITIONS {
        least.plain = least.plain.min(time(Kind::Plain, &timed, OPERATIONS));
        least.rust = least.rust.min(time(Kind::Rust, &timed, OPERATIONS));
        least.labelled = least.labelled.min(time(Kind::Labelled, &timed, OPERATIONS));
    }
    (timed, least)
}

/// Prints first what was asked for, at most a tenth more than the labelled run without a window, then all
/// figures.
fn print_branching_loops() {
    let rows: Vec<(Loop, [f64; 3])> =
        branching_loops(OPERATIONS).into_iter().map(time_windows).collect();
    let without_window = |times: &[f64; 3]| times[1] / times[0];
    let [mean, most] = mean_and_most(rows.iter().map(|(_, times)| without_window(times)));
    println!("W = 0 / labelled: mean {mean:.2}, at most {most:.2} (to be at most 1.10)");
    println!(
        "loop       size  order   labelled ns  W = 0 ns  W = 64 ns  W = 0 / labelled  W = 64 / labelled"
    );
    for (timed, times) in &rows {
        let [labelled, none, largest] = times;
        println!(
            "{:<9}  {:>4}  {:<6}  {labelled:11.2}  {none:8.2}  {largest:9.2}  {:16.2}  {:17.2}",
            timed.name,
            timed.size,
            timed.order_name(),
            without_window(times),
            largest / labelled,
        );
    }
}

/// The least times of an operation, labelled, without a window and with the largest, in nanoseconds.
fn time_windows(timed: Loop) -> (Loop, [f64; 3]) {
    let runs = [
        (Kind::Labelled, OPERATIONS),
        (Kind::Speculative(0), OPERATIONS),
        (Kind::Speculative(LARGEST_WINDOW), WINDOW_OPERATIONS),
    ];
    let mut least = [Duration::MAX; 3];
    for _ in 0..REPETITIONS {
        for (least, (kind, operations)) in least.iter_mut().zip(runs) {
            *least = time(kind, &timed, operations).min(*least);
        }
    }
    let times = [0, 1, 2].map(|run| nanoseconds(least[run], runs[run].1));
    (timed, times)
}

/// The time of one run on a fresh copy of the state, which is not part of the time.
fn time(kind: Kind, timed: &Loop, operations: u32) -> Duration {
    let mut state = timed.state.clone();
    let mut labels = timed.labels();
    // Touches every page of the log, so that the run does not wait for the system to give it.
    state.log.fill(1);
    let started = Instant::now();
    let report = run(kind, &timed.program, operations, black_box(&mut state), &mut labels);
    let time = started.elapsed();
    let [ending, _, executed, ..] = black_box(report);
    let expected = (2, u64::from(operations));
    assert_eq!((ending, executed), expected, "the loop ended before its budget");
    black_box(&state);
    time
}

/// The time of one of so many operations.
fn nanoseconds(time: Duration, operations: u32) -> f64 {
    time.as_secs_f64() * 1e9 / f64::from(operations)
}

fn mean_and_most(ratios: impl Iterator<Item = f64> + Clone) -> [f64; 2] {
    let count = ratios.clone().count() as f64;
    [ratios.clone().sum::<f64>() / count, ratios.fold(0.0, f64::max)]
}
