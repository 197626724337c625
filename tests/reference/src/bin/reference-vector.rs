//! The second program on a vector: its text on standard input, what it leaves on standard output.

use std::io;
use std::process::ExitCode;

use reference::vector::output;

fn main() -> io::Result<ExitCode> {
    match output(&io::read_to_string(io::stdin())?) {
        Ok(printed) => {
            print!("{printed}");
            Ok(ExitCode::SUCCESS)
        }
        Err(complaint) => {
            eprintln!("{complaint}");
            Ok(ExitCode::FAILURE)
        }
    }
}
