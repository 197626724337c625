//! Says of two stubs whether they may be released on a board that runs on past a wrongly guessed branch. Both read a
//! table at an index, and then ram at what they found; bytes of somebody else's, which are secret, stand behind the
//! table. One checks the index by a branch, and its labelled run comes to its end; but the way not taken reads a secret
//! byte and uses it as an address. The other has a mask in the place of the branch.

#[allow(dead_code)] // what the other examples use
mod undrelvoa;

use undrelvoa::{
    operation, speculative_run, Counts, Settings, Spaces, Varnode, CBRANCH, CONSTANT, END, EXIT,
    INT_AND, INT_LESSEQUAL, JOURNAL_WORDS_PER_OPERATION, LEAK, LEAK_AHEAD, LITTLE, LOAD, LOG,
    PUBLIC, RAM, REGISTER, SECRET, WINDOW_MARK,
};

const TABLE_BYTES: u8 = 8;
const RAM_BYTES: u8 = 16;
/// The index is past the table.
const INDEX: u8 = 10;
const BUDGET: u32 = 100;
/// Operations of a window.
const WINDOW: u64 = 8;

struct Stub {
    name: &'static str,
    list: Vec<u64>,
}

/// Register 0 is the index, register 1 what the check or the mask comes to, register 2 the entry, register 3 what is
/// found.
fn stubs() -> [Stub; 2] {
    let constant = |value| Varnode { space: CONSTANT, offset: value, size: 1 };
    let register = |offset| Varnode { space: REGISTER, offset, size: 1 };
    let load = |output, pointer| {
        operation(LOAD, Some(register(output)), &[constant(RAM), register(pointer)])
    };
    let table_bytes = u64::from(TABLE_BYTES);
    let check = operation(INT_LESSEQUAL, Some(register(1)), &[constant(table_bytes), register(0)]);
    let branch = operation(CBRANCH, None, &[constant(3), register(1)]);
    let mask = operation(INT_AND, Some(register(1)), &[register(0), constant(table_bytes - 1)]);
    [
        Stub {
            name: "a branch that checks the index",
            list: [check, branch, load(2, 0), load(3, 2)].concat(),
        },
        Stub {
            name: "a mask in the place of the branch",
            list: [mask, load(2, 1), load(3, 2)].concat(),
        },
    ]
}

fn name_of(ending: u64) -> &'static str {
    match ending {
        END => "END",
        EXIT => "EXIT",
        LEAK => "LEAK",
        LOG => "LOG",
        LEAK_AHEAD => "LEAK AHEAD",
        _ => "another ending",
    }
}

fn print_log(log: &[u64]) {
    for word in log {
        let ahead = if word & WINDOW_MARK == 0 { "" } else { ", on the way not taken" };
        let word = word & !WINDOW_MARK;
        println!("  operation {} shows {}{ahead}", word >> 32, word & 0xffff_ffff);
    }
}

/// Runs a stub with a window of so many operations, prints how it ended, and answers whether it may be released. Without
/// a window this is the labelled run.
fn check(stub: &Stub, window: u64) -> bool {
    let settings = Settings::byte_addressed(LITTLE, 1);
    let mut memory = Spaces {
        unique: vec![],
        register: vec![INDEX, 0, 0, 0],
        ram: (0..RAM_BYTES).map(|offset| offset ^ (TABLE_BYTES - 1)).collect(),
    };
    let label = |offset| if offset < TABLE_BYTES { PUBLIC } else { SECRET };
    let mut labels = Spaces {
        unique: vec![],
        register: vec![PUBLIC; 4],
        ram: (0..RAM_BYTES).map(label).collect(),
    };
    let mut counts = Counts::of(&labels);
    let mut log = [0; 16];
    let mut journal = [0; WINDOW as usize * JOURNAL_WORDS_PER_OPERATION];
    let report = speculative_run(
        &settings,
        &stub.list,
        0,
        BUDGET,
        window,
        &mut memory,
        &mut labels,
        &mut counts,
        &mut log,
        &mut journal,
    );
    println!(
        "{}, a window of {window}: {} ({}) at operation {}, {} executed",
        stub.name,
        name_of(report.ending),
        report.ending,
        report.index,
        report.executed
    );
    print_log(&log[..report.logged as usize]);
    report.ending == END || report.ending == EXIT
}

fn main() {
    let stubs = stubs();
    let mut good = 0;
    for stub in &stubs {
        check(stub, 0);
        good += u64::from(check(stub, WINDOW));
    }
    println!("{good} of {} may be released", stubs.len());
}
