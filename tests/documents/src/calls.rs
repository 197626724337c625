//! The calls that are declared for Rust are those of the C header, parameter by parameter: the linker would not notice
//! another order or type.

use crate::header::C_HEADER;
use crate::repository::Repository;

const FOR_RUST: &str = "include/undrelvoa.rs";
/// What every call begins with, in C and in Rust.
const IN_C: &str = "uint64_t undrelvoa_";
const IN_RUST: &str = "pub fn undrelvoa_";

/// A call by its name, and each parameter as Rust has it: its name and its type.
#[derive(Debug, PartialEq, Eq)]
struct Call {
    name: String,
    parameters: Vec<String>,
}

pub fn problems(repository: &Repository) -> Vec<String> {
    let text = |path| repository.text(path).unwrap_or_default();
    let expected = calls(text(C_HEADER), IN_C, of_c);
    let found = calls(text(FOR_RUST), IN_RUST, str::to_string);
    if expected.is_empty() {
        return vec![format!("{C_HEADER}: it has no calls")];
    }
    let missing = expected.iter().filter(|call| !found.contains(call));
    let unknown = found.iter().filter(|call| !expected.contains(call));
    let missing = missing.map(|call| format!("{FOR_RUST}: it lacks {call:?} of {C_HEADER}"));
    let unknown = unknown.map(|call| format!("{FOR_RUST}: {C_HEADER} has no {call:?}"));
    missing.chain(unknown).collect()
}

/// The calls of a text that begin so; `parameter` tells one as Rust has it.
fn calls(text: &str, begin: &str, parameter: fn(&str) -> String) -> Vec<Call> {
    let declarations = text.split(begin).skip(1);
    let parts = declarations.filter_map(|rest| rest.split_once(')')?.0.split_once('('));
    let parts = parts.map(|(name, list)| Call {
        name: name.to_string(),
        parameters: list
            .split(',')
            .map(one_line)
            .filter(|one| !one.is_empty())
            .map(|one| parameter(&one))
            .collect(),
    });
    parts.collect()
}

fn one_line(text: &str) -> String {
    text.split_whitespace().collect::<Vec<_>>().join(" ")
}

/// A parameter of C as Rust has it: `const uint8_t *bytes` is `bytes: *const u8`.
fn of_c(parameter: &str) -> String {
    let (kind, name) = parameter.rsplit_once(' ').unwrap_or_default();
    let (constant, kind) = match kind.strip_prefix("const ") {
        Some(kind) => (true, kind),
        None => (false, kind),
    };
    let kind = match kind {
        "size_t" => "usize".to_string(),
        _ => kind.replace("uint", "u").replace("_t", ""),
    };
    match name.strip_prefix('*') {
        Some(name) if constant => format!("{name}: *const {kind}"),
        Some(name) => format!("{name}: *mut {kind}"),
        None => format!("{name}: {kind}"),
    }
}

#[cfg(test)]
mod tests {
    use super::*;

    const HEADER: &str =
        "uint64_t undrelvoa_one(uint64_t order, const uint8_t *bytes, size_t bytes_len,\n\
                          \u{20}                  uint32_t budget, uint64_t *log);\n\
                          uint64_t undrelvoa_two(uint8_t *bytes);\n";
    const FOR_RUST_TEXT: &str = "unsafe extern \"C\" {\n    pub fn undrelvoa_one(\n        order: u64,\n        bytes: *const u8,\n\
                                 \u{20}       bytes_len: usize,\n        budget: u32,\n        log: *mut u64,\n    ) -> u64;\n\n\
                                 \u{20}   pub fn undrelvoa_two(bytes: *mut u8) -> u64;\n}\n";

    fn problems_of(header: &str, for_rust: &str) -> Vec<String> {
        problems(&Repository::of(&[(C_HEADER, header), (FOR_RUST, for_rust)]))
    }

    #[test]
    fn the_same_calls_pass() {
        assert_eq!(problems_of(HEADER, FOR_RUST_TEXT), [""; 0]);
    }

    #[test]
    fn another_parameter_type_or_order_is_found() {
        for (old, new) in [
            ("order: u64", "size: u64"),
            ("order: u64", "order: u32"),
            ("*const u8", "*mut u8"),
            ("*mut u64", "*mut u8"),
            ("budget: u32,\n        log: *mut u64,", "log: *mut u64,\n        budget: u32,"),
            ("        budget: u32,\n", ""),
        ] {
            let changed = FOR_RUST_TEXT.replacen(old, new, 1);
            assert_ne!(changed, FOR_RUST_TEXT);
            assert_eq!(problems_of(HEADER, &changed).len(), 2, "{old} as {new}");
        }
    }

    #[test]
    fn a_call_that_one_of_them_lacks_is_found() {
        let fewer = FOR_RUST_TEXT.replace("two", "three");
        assert_eq!(problems_of(HEADER, &fewer).len(), 2);
        assert_eq!(problems_of(HEADER, "").len(), 2);
        assert_eq!(problems_of("", FOR_RUST_TEXT), ["include/undrelvoa.h: it has no calls"]);
    }
}
