//! Makes the lists of `cases/README.md` anew, from the titles of the cases.

use std::fs;
use std::process::ExitCode;

use cases::list::{with_lists, DOCUMENT};
use cases::process::repository;
use cases::stored::read;

fn main() -> ExitCode {
    match write_lists() {
        Ok(()) => ExitCode::SUCCESS,
        Err(complaint) => {
            eprintln!("{complaint}");
            ExitCode::FAILURE
        }
    }
}

fn write_lists() -> Result<(), String> {
    let top = repository();
    let path = top.join(DOCUMENT);
    let document = fs::read_to_string(&path).map_err(|error| format!("{DOCUMENT}: {error}"))?;
    let made = with_lists(&document, &read(&top.join("cases"))?)?;
    fs::write(&path, made).map_err(|error| format!("{DOCUMENT}: {error}"))
}
