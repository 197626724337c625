//! Times the proved interpreter against a plain one in safe Rust, on loops of one million operations, and
//! its speculative run against its labelled run.
//!
//! `cargo run --release` prints the times and their ratios, `cargo run --release -- instructions` counts
//! instructions; `cargo test --release` checks that both do the same, and that the archive is as it
//! was measured.

mod instructions;
mod interpreter;
mod library;
mod loops;
mod placement;
mod times;

#[cfg(test)]
mod archive;
#[cfg(test)]
mod check;

use std::env;
use std::process::exit;

use interpreter::{decode, Memory};
use library::{Labels, Program, State};

/// The runs that are compared.
#[derive(Clone, Copy)]
pub enum Kind {
    Rust,
    Plain,
    Labelled,
    /// With a window of so many operations.
    Speculative(u64),
}

fn main() {
    placement::keep();
    let arguments: Vec<String> = env::args().skip(1).collect();
    let words: Vec<&str> = arguments.iter().map(String::as_str).collect();
    let done = match words[..] {
        [] => {
            times::print();
            Ok(())
        }
        ["instructions"] => instructions::print(),
        // What `instructions` counts: one run, in a process of its own.
        ["once", ref run @ ..] => instructions::once(run),
        _ => Err("say nothing, for times, or 'instructions'".to_string()),
    };
    if let Err(message) = done {
        eprintln!("benchmarks: {message}");
        exit(1);
    }
}

/// The report of a run of one kind. The labels are those of a labelled or a speculative run.
fn run(
    kind: Kind,
    program: &Program,
    budget: u32,
    state: &mut State,
    labels: &mut Labels,
) -> [u64; 5] {
    match kind {
        Kind::Rust => rust_run(program, budget, state),
        Kind::Plain => library::run(program, budget, state),
        Kind::Labelled => library::labelled_run(program, budget, state, labels),
        Kind::Speculative(window) => {
            library::speculative_run(program, budget, window, state, labels)
        }
    }
}

/// The report of the plain interpreter, decoding included.
fn rust_run(program: &Program, budget: u32, state: &mut State) -> [u64; 5] {
    let operations = decode(&program.list);
    let State { unique, register, ram, log, .. } = state;
    let mut memory = Memory { is_big: program.order == 1, unique, register, ram };
    interpreter::run(&operations, 0, budget, &mut memory, log)
}
