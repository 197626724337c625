//! Appends digits to the lines of one kind in the inputs of the stored cases, where a frame has become
//! longer. `lengthen 01 38 010101` does so to each line that begins with 01 and has 38 digits.

use std::env;
use std::fs;
use std::process::ExitCode;

use cases::lengthen::Lengthening;
use cases::process::repository;
use cases::stored::read;

fn main() -> ExitCode {
    match lengthen() {
        Ok(()) => ExitCode::SUCCESS,
        Err(complaint) => {
            eprintln!("{complaint}");
            ExitCode::FAILURE
        }
    }
}

fn lengthen() -> Result<(), String> {
    let words: Vec<String> = env::args().skip(1).collect();
    let lengthening = Lengthening::from_words(&words)?;
    let folder = repository().join("cases");
    let stored = read(&folder)?;
    let made = stored.iter().map(|(name, case)| (name, lengthening.of(&case.input)));
    let made: Vec<_> = made.collect();
    // An input of the old length may be a case about just that by now, so nothing is done twice.
    for (name, input) in &made {
        if let Some(line) = input.long_before.first() {
            return Err(format!(
                "cases/{name}/input:{line} has {} digits already, so nothing was changed: either all is \
                 done, or this line is to be changed by hand first",
                lengthening.new_len()
            ));
        }
    }
    let mut inputs = 0;
    let mut lines = 0;
    for (name, input) in &made {
        for line in &input.others {
            println!("look at it by hand: cases/{name}/input:{line}");
        }
        if !input.changed.is_empty() {
            let path = folder.join(name).join("input");
            fs::write(path, &input.text).map_err(|error| format!("cases/{name}/input: {error}"))?;
            inputs += 1;
            lines += input.changed.len();
        }
    }
    println!("{lines} lines of {inputs} inputs became longer");
    Ok(())
}
