//! Where the proved code lies: so many bytes stand before it. A time can move by a tenth with this alone.

use std::arch::global_asm;
use std::hint::black_box;

/// UNDRELVOA_PADDING when this was built, 0 if it was not set.
pub const PADDING: usize = match option_env!("UNDRELVOA_PADDING") {
    Some(digits) => number(digits.as_bytes()),
    None => 0,
};

const fn number(digits: &[u8]) -> usize {
    let mut value = 0;
    let mut place = 0;
    while place < digits.len() {
        assert!(digits[place].is_ascii_digit(), "UNDRELVOA_PADDING is a number of bytes");
        value = 10 * value + (digits[place] - b'0') as usize;
        place += 1;
    }
    value
}

// The archive is linked after the sections of this program.
global_asm!(
    ".pushsection .text.undrelvoa_padding, \"ax\", @progbits",
    ".globl undrelvoa_padding",
    "undrelvoa_padding:",
    ".skip {padding}",
    ".popsection",
    padding = const PADDING,
);

extern "C" {
    fn undrelvoa_padding();
}

/// A section that nothing names is left out.
pub fn keep() {
    black_box(undrelvoa_padding as *const ());
}
