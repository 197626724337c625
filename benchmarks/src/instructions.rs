//! Instructions of the runs, counted by valgrind's callgrind: unlike times, they do not depend on
//! where the code lies or on what else the machine does.

use std::env;
use std::hint::black_box;
use std::process::Command;

use crate::library::{Labels, Program, State};
use crate::loops::{
    branching_loops, loops, marking_loops, packing_loops, repeated_operations, straight, Loop,
};
use crate::{run, Kind};

/// Two budgets: the difference of their counts has no part of the call's own cost.
const BUDGETS: [u32; 2] = [5_000, 15_000];
/// The same of one operation, repeated, of which a list has 4,000.
const REPEATED_BUDGETS: [u32; 2] = [1_000, 3_000];
/// The same where windows bring 28 operations for each.
const WINDOW_BUDGETS: [u32; 2] = [500, 1_500];
/// More log words than an operation of a branching loop writes, windows included.
const LOG_WORDS_PER_OPERATION: u32 = 20;

/// Prints the instructions of an operation in each loop, and how the cost of a call grows.
pub fn print() -> Result<(), String> {
    println!("instructions an operation (callgrind)");
    println!("loop      size  order    plain   Rust  labelled");
    let groups = [("loop", loops(0)), ("packing", packing_loops(0)), ("marking", marking_loops(0))];
    for (group, loops) in groups {
        for (number, timed) in loops.iter().enumerate() {
            print!("{:<8}  {:>4}  {:<6}", timed.name, timed.size, timed.order_name());
            for (kind, width) in [("plain", 7), ("rust", 7), ("labelled", 10)] {
                let count =
                    |budget: u32| counted(&[group, kind, &number.to_string(), &budget.to_string()]);
                print!("{:width$.1}", slope(BUDGETS, count)?);
            }
            println!();
        }
    }
    println!("operation          order    plain  labelled");
    for (number, timed) in repeated_operations(0).iter().enumerate() {
        print!("{:<17}  {:<6}", timed.name, timed.order_name());
        for (kind, width) in [("plain", 7), ("labelled", 10)] {
            let count =
                |budget: u32| counted(&["alone", kind, &number.to_string(), &budget.to_string()]);
            print!("{:width$.1}", slope(REPEATED_BUDGETS, count)?);
        }
        println!();
    }
    println!("loop       size  order    labelled  W = 0   W = 64");
    for (number, timed) in branching_loops(0).iter().enumerate() {
        print!("{:<9}  {:>4}  {:<6}", timed.name, timed.size, timed.order_name());
        for (kind, budgets, width) in
            [("labelled", BUDGETS, 10), ("window-0", BUDGETS, 7), ("window-64", WINDOW_BUDGETS, 9)]
        {
            let count = |budget: u32| {
                counted(&["branching", kind, &number.to_string(), &budget.to_string()])
            };
            print!("{:width$.1}", slope(budgets, count)?);
        }
        println!();
    }
    println!("what a call costs before its first operation, in instructions");
    const FEW_AND_MANY: [u32; 2] = [1_000, 4_000];
    for kind in ["plain", "labelled", "window-0", "window-64"] {
        let count =
            |list: u32, ram: u32| counted(&["straight", kind, &list.to_string(), &ram.to_string()]);
        println!("{kind}: empty list and ram {}", count(0, 0)?);
        println!(
            "{kind}: an operation of the list {:.1}",
            slope(FEW_AND_MANY, |list| count(list, 0))?
        );
        println!("{kind}: a byte of ram {:.2}", slope(FEW_AND_MANY, |ram| count(0, ram))?);
    }
    Ok(())
}

/// What one more costs.
fn slope([few, many]: [u32; 2], count: impl Fn(u32) -> Result<u64, String>) -> Result<f64, String> {
    let more = count(many)?.saturating_sub(count(few)?);
    Ok(more as f64 / f64::from(many - few))
}

/// The instructions of `counted_run` in a process of its own.
fn counted(words: &[&str]) -> Result<u64, String> {
    let program =
        env::current_exe().map_err(|error| format!("its own file is not to be found: {error}"))?;
    let output = Command::new("valgrind")
        .args([
            "--tool=callgrind",
            "--callgrind-out-file=/dev/null",
            "--toggle-collect=*counted_run*",
        ])
        .arg(program)
        .arg("once")
        .args(words)
        .output()
        .map_err(|error| {
            format!(
                "valgrind does not run ({error}): instructions are counted where it is installed"
            )
        })?;
    let text = String::from_utf8_lossy(&output.stderr);
    text.lines()
        .find_map(|line| line.split_once("Collected : "))
        .and_then(|(_, count)| count.trim().parse().ok())
        .filter(|_| output.status.success())
        .ok_or_else(|| format!("valgrind counted nothing for {words:?}:\n{text}"))
}

/// One run: a loop with a budget, or nothing of a straight list.
pub fn once(words: &[&str]) -> Result<(), String> {
    match *words {
        ["loop", kind, place, budget] => {
            let budget = number(budget)?;
            run_loop(kind, loops(budget), place, budget)?;
        }
        ["packing", kind, place, budget] => {
            let budget = number(budget)?;
            run_loop(kind, packing_loops(budget), place, budget)?;
        }
        ["marking", kind, place, budget] => {
            let budget = number(budget)?;
            run_loop(kind, marking_loops(budget), place, budget)?;
        }
        ["alone", kind, place, budget] => {
            let budget = number(budget)?;
            run_loop(kind, repeated_operations(budget), place, budget)?;
        }
        ["branching", kind, place, budget] => {
            let budget = number(budget)?;
            run_loop(kind, branching_loops(LOG_WORDS_PER_OPERATION * budget), place, budget)?;
        }
        ["straight", kind, operations, ram_len] => {
            let (program, state) =
                straight(number(operations)? as usize, number(ram_len)? as usize);
            let labels = Labels::public(&state);
            run_once(kind_of(kind)?, &program, 0, state, labels);
        }
        _ => return Err(format!("{words:?} is no run")),
    }
    Ok(())
}

fn number(word: &str) -> Result<u32, String> {
    word.parse().map_err(|_| format!("'{word}' is no number"))
}

fn kind_of(word: &str) -> Result<Kind, String> {
    match word {
        "rust" => Ok(Kind::Rust),
        "plain" => Ok(Kind::Plain),
        "labelled" => Ok(Kind::Labelled),
        _ => match word.strip_prefix("window-") {
            Some(window) => Ok(Kind::Speculative(u64::from(number(window)?))),
            None => Err(format!("'{word}' is no kind of run")),
        },
    }
}

/// One run of the loop at a place.
fn run_loop(kind: &str, mut loops: Vec<Loop>, place: &str, budget: u32) -> Result<(), String> {
    let place = number(place)? as usize;
    if place >= loops.len() {
        return Err(format!("there is no loop {place}"));
    }
    let timed = loops.swap_remove(place);
    let labels = timed.labels();
    run_once(kind_of(kind)?, &timed.program, budget, timed.state, labels);
    Ok(())
}

fn run_once(kind: Kind, program: &Program, budget: u32, mut state: State, mut labels: Labels) {
    black_box(counted_run(|| run(kind, program, budget, &mut state, &mut labels)));
}

/// What callgrind is told to count.
#[inline(never)]
fn counted_run(run: impl FnOnce() -> [u64; 5]) -> [u64; 5] {
    run()
}
