//! The worked example of README.md, through the library: prints what ./run-case prints for
//! cases/operations/worked-example/input.

#[allow(dead_code)] // what the other examples use
mod undrelvoa;

use undrelvoa::{
    labelled_run, operation, Counts, Settings, Spaces, Varnode, CONSTANT, COPY, INT_AND, LITTLE,
    LOAD, RAM, REGISTER, SECRET, UNIQUE,
};

fn varnode(space: u64, offset: u64, size: u64) -> Varnode {
    Varnode { space, offset, size }
}

/// Three spaces of 16 zeros.
fn zeros() -> Spaces {
    Spaces { unique: vec![0; 16], register: vec![0; 16], ram: vec![0; 16] }
}

/// The spaces as lines: kind 02 for bytes, 03 for labels.
fn print_spaces(kind: u8, spaces: &Spaces) {
    for (space, bytes) in
        [(UNIQUE, &spaces.unique), (REGISTER, &spaces.register), (RAM, &spaces.ram)]
    {
        let digits: String = bytes.iter().map(|byte| format!("{byte:02x}")).collect();
        println!("{kind:02x}{space:02x}{:08x}{digits}", 0);
    }
}

fn main() {
    let masked = varnode(UNIQUE, 0, 4);
    let loaded = varnode(UNIQUE, 4, 1);
    let list = [
        operation(INT_AND, Some(masked), &[varnode(REGISTER, 0, 4), varnode(CONSTANT, 7, 4)]),
        operation(LOAD, Some(loaded), &[varnode(CONSTANT, RAM, 1), masked]),
        operation(COPY, Some(varnode(REGISTER, 8, 1)), &[loaded]),
    ];
    let settings = Settings::byte_addressed(LITTLE, 4);
    let (mut memory, mut labels) = (zeros(), zeros());
    memory.register[0] = 0x0d;
    memory.ram[5] = 0x5a;
    labels.ram[5] = SECRET;
    let mut counts = Counts::of(&labels);
    let mut log = [0; 4];

    let report = labelled_run(
        &settings,
        &list.concat(),
        0,
        100,
        &mut memory,
        &mut labels,
        &mut counts,
        &mut log,
    );
    println!(
        "{} {} {} {} {}",
        report.ending, report.index, report.executed, report.logged, report.value
    );
    for word in &log[..report.logged as usize] {
        println!("{word:016x}");
    }
    print_spaces(2, &memory);
    print_spaces(3, &labels);
}
