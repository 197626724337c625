//! The opcode table of the reference says what the table of the definition says, row by row, and the C
//! header has the same names and numbers.

use crate::header::{enumerators, C_HEADER};
use crate::markdown::take_apart;
use crate::reference::DOCUMENT;
use crate::repository::Repository;
use crate::tables::tables;

const DEFINITION: &str = "crates/arithmetic/specs/Opcodes.antt";
const HEADER: [&str; 7] = ["Rule", "Opcode", "Name", "Output", "Inputs", "Sizes", "Meaning"];

/// What a table says of an opcode.
#[derive(Debug, PartialEq)]
struct Opcode {
    number: u64,
    name: String,
    outputs: u64,
    inputs: u64,
    sizes: String,
}

pub fn problems(repository: &Repository) -> Vec<String> {
    let mut problems = Vec::new();
    for path in [DOCUMENT, DEFINITION, C_HEADER] {
        if repository.text(path).is_none() {
            problems.push(format!("{path}: there is no such file"));
        }
    }
    let text = |path| repository.text(path).unwrap_or_default();
    let described = described(text(DOCUMENT), &mut problems);
    let defined = defined(text(DEFINITION), &mut problems);
    problems.extend(differences(&described, &defined));
    problems.extend(problems_of_header(&defined, text(C_HEADER)));
    problems
}

/// The opcodes of the reference.
fn described(text: &str, problems: &mut Vec<String>) -> Vec<Opcode> {
    let mut opcodes = Vec::new();
    for (number, row) in
        tables(text).into_iter().filter(|table| table[0].1 == HEADER).flatten().skip(2)
    {
        match described_opcode(&row) {
            Ok(opcode) => opcodes.push(opcode),
            Err(problem) => problems.push(format!("{DOCUMENT}:{number}: {problem}")),
        }
    }
    if opcodes.is_empty() {
        problems.push(format!("{DOCUMENT}: no row stands under | {} |", HEADER.join(" | ")));
    }
    opcodes
}

fn described_opcode(row: &[String]) -> Result<Opcode, String> {
    let [rule, opcode, name, output, inputs, sizes, meaning] = row else {
        return Err(format!("the row has {} cells, not {}", row.len(), HEADER.len()));
    };
    let digits = match take_apart(opcode).code[..] {
        [digits] if digits.len() == 2 && digits == digits.to_lowercase() => digits,
        _ => return Err(format!("the opcode {opcode} is not two lowercase digits in backticks")),
    };
    let number = u64::from_str_radix(digits, 16)
        .map_err(|_| format!("the opcode {opcode} is not hexadecimal"))?;
    if !rule.trim_matches('*').ends_with(&format!(".{number}")) {
        return Err(format!("{name} is the opcode {number}, and its rule is {rule}"));
    }
    let outputs = match output.as_str() {
        "output" => 1,
        "none" => 0,
        _ => return Err(format!("the output of {name} is neither 'output' nor 'none'")),
    };
    for (place, input) in inputs.split("; ").enumerate() {
        let what = input.strip_prefix(&format!("input{place}: "));
        if what.is_none_or(|what| what.trim().is_empty()) {
            return Err(format!("{name}: 'input{place}: ..' is expected where '{input}' stands"));
        }
    }
    if meaning.is_empty() {
        return Err(format!("{name} has no meaning"));
    }
    let inputs = inputs.split("; ").count() as u64;
    Ok(Opcode { number, name: name.clone(), outputs, inputs, sizes: sizes.clone() })
}

/// The opcodes of the definition: the rows of its list, each with its name behind it.
fn defined(text: &str, problems: &mut Vec<String>) -> Vec<Opcode> {
    let list = text.lines().zip(1..).skip_while(|(line, _)| *line != "opcodes =").skip(1);
    let rows = list.take_while(|(line, _)| !line.trim().is_empty() && !line.trim().ends_with("[]"));
    let mut opcodes = Vec::new();
    for (line, number) in rows {
        match defined_opcode(line) {
            Some(opcode) => opcodes.push(opcode),
            None => problems.push(format!("{DEFINITION}:{number}: this is no row with a name")),
        }
    }
    if opcodes.is_empty() {
        problems.push(format!("{DEFINITION}: no row stands under 'opcodes ='"));
    }
    opcodes
}

fn defined_opcode(line: &str) -> Option<Opcode> {
    let (row, name) = line.trim().trim_start_matches("∷ ").split_once("--")?;
    let cells: Vec<&str> =
        row.trim().strip_prefix('(')?.strip_suffix(')')?.split(", ").map(str::trim).collect();
    let [number, outputs, inputs, sizes] = cells[..] else { return None };
    Some(Opcode {
        number: number.parse().ok()?,
        name: name.trim().to_string(),
        outputs: outputs.parse().ok()?,
        inputs: inputs.parse().ok()?,
        sizes: sizes.to_string(),
    })
}

fn differences(described: &[Opcode], defined: &[Opcode]) -> Vec<String> {
    let mut problems = Vec::new();
    for pair in described.windows(2).filter(|pair| pair[1].number <= pair[0].number) {
        problems.push(format!("{DOCUMENT}: {} stands after {}", pair[1].name, pair[0].name));
    }
    for opcode in defined {
        let Opcode { number, name, .. } = opcode;
        match described.iter().find(|row| row.number == *number) {
            None => {
                problems.push(format!("{DOCUMENT}: no row has the opcode `{number:02x}` {name}"))
            }
            Some(row) => problems.extend(differences_of_row(row, opcode)),
        }
    }
    for row in described.iter().filter(|row| !defined.iter().any(|o| o.number == row.number)) {
        problems
            .push(format!("{DOCUMENT}: {DEFINITION} has no opcode {} {}", row.number, row.name));
    }
    problems
}

fn differences_of_row(row: &Opcode, opcode: &Opcode) -> Vec<String> {
    let cells = [
        ("name", row.name.clone(), opcode.name.clone()),
        ("number of outputs", row.outputs.to_string(), opcode.outputs.to_string()),
        ("number of inputs", row.inputs.to_string(), opcode.inputs.to_string()),
        ("row of sizes", row.sizes.clone(), opcode.sizes.clone()),
    ];
    let different = cells.into_iter().filter(|(_, said, is)| said != is);
    different
        .map(|(what, said, is)| {
            format!(
                "{DOCUMENT}: opcode `{:02x}` {}: the {what} is {said}, and {is} in {DEFINITION}",
                opcode.number, opcode.name
            )
        })
        .collect()
}

/// The C header names every opcode or none.
fn problems_of_header(defined: &[Opcode], text: &str) -> Vec<String> {
    let named = enumerators(text, "undrelvoa_opcode", "UNDRELVOA_");
    if named.is_empty() {
        return Vec::new();
    }
    let mut problems = Vec::new();
    for Opcode { number, name, .. } in defined {
        match named.get(name) {
            Some(n) if n == number => {}
            Some(n) => problems.push(format!("{C_HEADER}: {name} is {n}, not {number}")),
            None => problems.push(format!("{C_HEADER}: it does not name {number} {name}")),
        }
    }
    for name in named.keys().filter(|name| !defined.iter().any(|opcode| opcode.name == **name)) {
        problems.push(format!("{C_HEADER}: {DEFINITION} has no opcode {name}"));
    }
    problems
}

#[cfg(test)]
mod tests {
    use super::*;

    const COPY: &str = "| **3.1** | `01` | COPY | output | input0: source | kept | a |";
    const STORE: &str =
        "| **3.10** | `0a` | STORE | none | input0: a space; input1: pointer | pointer | stores |";
    const ENUM: &str =
        "enum undrelvoa_opcode {\n    UNDRELVOA_COPY = 1,\n    UNDRELVOA_STORE = 10\n};\n";

    fn problems_with(rows: &[&str], header: &str) -> Vec<String> {
        let top = format!("| {} |\n|---|---|---|---|---|---|---|\n", HEADER.join(" | "));
        let table =
            format!("Prose.\n\n{top}{}\n\n| Rule | Of |\n|---|---|\n| a | b |\n", rows.join("\n"));
        let definition = "pub opcodes : List\nopcodes =\n    (1, 1, 1, kept)  -- COPY\n    \
                          ∷ (10, 0, 2, pointer)  -- STORE\n    ∷ []\n\n-- more\n";
        problems(&Repository::of(&[
            (DOCUMENT, &table),
            (DEFINITION, definition),
            (C_HEADER, header),
        ]))
    }

    fn only_problem(rows: &[&str]) -> String {
        let problems = problems_with(rows, ENUM);
        assert_eq!(problems.len(), 1, "{problems:?}");
        problems[0].clone()
    }

    #[test]
    fn a_good_table_passes() {
        assert_eq!(problems_with(&[COPY, STORE], ENUM), [""; 0]);
        assert_eq!(problems_with(&[COPY, STORE], "/* no opcode */\n"), [""; 0]);
    }

    #[test]
    fn a_missing_row_is_reported() {
        assert_eq!(only_problem(&[COPY]), format!("{DOCUMENT}: no row has the opcode `0a` STORE"));
        assert!(problems_with(&[], ENUM)[0].contains("no row stands under"));
    }

    #[test]
    fn a_wrong_cell_is_reported() {
        for (old, new, what) in [
            ("COPY", "MOVE", "the name is MOVE, and COPY in"),
            ("| output", "| none", "the number of outputs is 0, and 1 in"),
            ("source", "source; input1: more", "the number of inputs is 2, and 1 in"),
            ("kept", "free", "the row of sizes is free, and kept in"),
            ("input0: source", "input1: source", "'input0: ..' is expected"),
            ("| output", "| one", "neither 'output' nor 'none'"),
            ("| a |", "| |", "has no meaning"),
            ("**3.1**", "**3.2**", "is the opcode 1, and its rule is **3.2**"),
        ] {
            let problems = problems_with(&[&COPY.replace(old, new), STORE], ENUM);
            assert!(problems[0].contains(what), "{what}: {problems:?}");
        }
    }

    #[test]
    fn an_opcode_that_is_not_hexadecimal_is_reported() {
        assert!(problems_with(&[COPY, &STORE.replace("`0a`", "`10`")], ENUM)[0]
            .contains("its rule is **3.10**"));
        assert!(problems_with(&[COPY, &STORE.replace("`0a`", "`0A`")], ENUM)[0]
            .contains("is not two lowercase digits"));
        assert!(problems_with(&[COPY, &STORE.replace("`0a`", "`0g`")], ENUM)[0]
            .contains("is not hexadecimal"));
    }

    #[test]
    fn a_row_too_many_or_out_of_order_is_reported() {
        let more = "| **3.11** | `0b` | LOAD | output | input0: a | free | b |";
        assert!(only_problem(&[COPY, STORE, more]).ends_with("has no opcode 11 LOAD"));
        assert!(only_problem(&[STORE, COPY]).ends_with("COPY stands after STORE"));
        assert!(only_problem(&[COPY, STORE, STORE]).ends_with("STORE stands after STORE"));
    }

    #[test]
    fn another_number_or_name_in_the_header_is_reported() {
        let problem = |header: &str| problems_with(&[COPY, STORE], header).concat();
        assert!(problem(&ENUM.replace("= 10", "= 3")).ends_with("STORE is 3, not 10"));
        assert!(problem(&ENUM.replace("COPY", "MOVE")).contains("it does not name 1 COPY"));
        assert!(problem(&ENUM.replace("COPY", "MOVE")).contains("has no opcode MOVE"));
    }

    #[test]
    fn a_definition_without_rows_is_reported() {
        let problems = problems(&Repository::of(&[]));
        assert!(problems.contains(&format!("{DEFINITION}: there is no such file")));
        assert!(problems.contains(&format!("{DEFINITION}: no row stands under 'opcodes ='")));
    }
}
