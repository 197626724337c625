//! Says of four stubs whether they may be released: only one whose labelled run comes to its end. A run is made in
//! slices, as by a desk that wants to look at the clock in between. How many bytes are secret is counted once, before the
//! first slice: each slice keeps the counts.

#[allow(dead_code)] // what the other examples use
mod undrelvoa;

use undrelvoa::{
    labelled_run, operation, Counts, Settings, Spaces, Varnode, BOUNDS, BUDGET, CONSTANT, COPY,
    END, EXIT, INT_XOR, LEAK, LITTLE, LOAD, PUBLIC, RAM, REGISTER, SECRET, SIZE,
};

/// Operations of a slice. Each call checks list and labels anew, so true slices are longer.
const SLICE: u32 = 2;
const MOST_SLICES: u32 = 100;

struct Stub {
    name: &'static str,
    /// Bytes of the register that is the pointer of the LOAD.
    pointer_size: u64,
    /// What that register starts with.
    index: u8,
    index_label: u8,
}

const STUBS: [Stub; 4] = [
    Stub { name: "a public index", pointer_size: 4, index: 5, index_label: PUBLIC },
    Stub { name: "a secret index", pointer_size: 4, index: 5, index_label: SECRET },
    Stub { name: "an index past the table", pointer_size: 4, index: 16, index_label: PUBLIC },
    Stub { name: "a pointer of two bytes", pointer_size: 2, index: 5, index_label: PUBLIC },
];

fn name_of(ending: u64) -> &'static str {
    match ending {
        END => "END",
        EXIT => "EXIT",
        BUDGET => "BUDGET",
        SIZE => "SIZE",
        LEAK => "LEAK",
        BOUNDS => "BOUNDS",
        _ => "another ending",
    }
}

/// The operations of a stub: register 8 = the byte of ram at register 0; register 9 = register 8 xor 0xff;
/// register 10 = register 9.
fn list_of(stub: &Stub) -> Vec<u64> {
    let constant = |value| Varnode { space: CONSTANT, offset: value, size: 1 };
    let register = |offset, size| Varnode { space: REGISTER, offset, size };
    let load =
        operation(LOAD, Some(register(8, 1)), &[constant(RAM), register(0, stub.pointer_size)]);
    let xor = operation(INT_XOR, Some(register(9, 1)), &[register(8, 1), constant(0xff)]);
    let copy = operation(COPY, Some(register(10, 1)), &[register(9, 1)]);
    [load, xor, copy].concat()
}

/// Runs a stub in slices of two operations, prints how it ended, and answers whether it may be released.
fn check(stub: &Stub) -> bool {
    let settings = Settings::byte_addressed(LITTLE, 4);
    let list = list_of(stub);
    let mut memory = Spaces { unique: vec![], register: vec![0; 16], ram: vec![0; 16] };
    let mut labels = Spaces { unique: vec![], register: vec![PUBLIC; 16], ram: vec![SECRET; 16] };
    memory.register[0] = stub.index;
    labels.register[0] = stub.index_label;
    let mut counts = Counts::of(&labels);
    let mut log = [0; 4];
    let (mut start, mut executed, mut logged, mut ending) = (0, 0, 0, BUDGET);
    for _ in 0..MOST_SLICES {
        // each slice writes behind the log words of the last
        let report = labelled_run(
            &settings,
            &list,
            start,
            SLICE,
            &mut memory,
            &mut labels,
            &mut counts,
            &mut log[logged..],
        );
        start = report.index;
        executed += report.executed;
        logged += report.logged as usize;
        ending = report.ending;
        if ending != BUDGET {
            break;
        }
    }
    println!(
        "{}: {} ({ending}) at operation {start}, {executed} executed",
        stub.name,
        name_of(ending)
    );
    let [_, register, ram] = counts.totals();
    println!("  secret bytes: {register} of register, {ram} of ram");
    for word in &log[..logged] {
        println!("  operation {} shows the offset {}", word >> 32, word & 0xffff_ffff);
    }
    ending == END || ending == EXIT
}

fn main() {
    let good = STUBS.iter().filter(|stub| check(stub)).count();
    println!("{good} of {} may be released", STUBS.len());
}
