//! The second program's case program: a case on standard input, its result on standard output.

use std::io::{self, Read, Write};

use reference::case::output;

fn main() -> io::Result<()> {
    let mut text = Vec::new();
    io::stdin().read_to_end(&mut text)?;
    io::stdout().write_all(&output(&text))
}
