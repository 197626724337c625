//! The promises: a table under each heading, whose rows name a theorem, its statement, what it says
//! and what it assumes. Theorems and statements must be declared where the row says.

use crate::references::{problems_of_reference, references};
use crate::repository::Repository;
use crate::tables::{rows, Kind};

const DOCUMENT: &str = "docs/PROMISES.md";
const HEADER: [&str; 4] = ["Theorem", "Statement", "In one sentence", "Assumes"];
const HEADINGS: [&str; 5] =
    ["Noninterference", "Resume", "Marked results", "Exact conditions", "Public calls"];

pub fn problems(repository: &Repository) -> Vec<String> {
    let Some(text) = repository.text(DOCUMENT) else {
        return vec![format!("{DOCUMENT}: there is no such file")];
    };
    let mut problems = Vec::new();
    let rows = rows(&Kind { document: DOCUMENT, header: &HEADER }, text, &mut problems);
    for (number, row) in &rows {
        let found = problems_of_row(repository, row);
        problems.extend(found.into_iter().map(|problem| format!("{DOCUMENT}:{number}: {problem}")));
    }
    let lines: Vec<usize> = rows.iter().map(|(number, _)| *number).collect();
    for heading in HEADINGS {
        if !section(text, heading)
            .is_some_and(|range| lines.iter().any(|line| range.contains(line)))
        {
            problems.push(format!("{DOCUMENT}: no row stands under the heading {heading}"));
        }
    }
    problems
}

/// The lines from a heading to the next.
fn section(text: &str, heading: &str) -> Option<std::ops::Range<usize>> {
    let lines: Vec<&str> = text.lines().collect();
    let start = lines.iter().position(|line| line.strip_prefix("## ") == Some(heading))?;
    let length = lines[start + 1..].iter().take_while(|line| !line.starts_with("## ")).count();
    Some(start + 1..start + 2 + length)
}

fn problems_of_row(repository: &Repository, row: &[String]) -> Vec<String> {
    let [theorem, statement, sentence, assumes] = row else {
        return vec![format!("the row has {} cells, not 4", row.len())];
    };
    let mut problems = Vec::new();
    for (cell, title) in [(theorem, HEADER[0]), (statement, HEADER[1])] {
        match references(cell) {
            Err(problem) => problems.push(format!("{title}: {problem}")),
            Ok(found) => problems.extend(
                found.iter().flat_map(|reference| problems_of_reference(repository, reference)),
            ),
        }
    }
    for (cell, title) in [(sentence, HEADER[2]), (assumes, HEADER[3])] {
        if cell.is_empty() {
            problems.push(format!("{title}: the cell is empty"));
        }
    }
    problems
}

#[cfg(test)]
mod tests {
    use super::*;

    const FILE: &str = "crates/a/proofs/A.antt";

    fn problems_of(text: &str) -> Vec<String> {
        problems(&Repository::of(&[(DOCUMENT, text), (FILE, "pub law : Law\n")]))
    }

    fn table(theorem: &str) -> String {
        format!(
            "| Theorem | Statement | In one sentence | Assumes |\n|---|---|---|---|\n\
             | {theorem} | `{FILE}` `law` | It holds. | nothing |\n"
        )
    }

    fn document(theorem: &str) -> String {
        let sections = HEADINGS.map(|heading| format!("## {heading}\n\n{}\n", table(theorem)));
        sections.concat()
    }

    #[test]
    fn a_good_document_passes() {
        assert_eq!(problems_of(&document(&format!("`{FILE}` `law`"))), [""; 0]);
    }

    #[test]
    fn a_theorem_that_is_not_declared_is_reported() {
        let problems = problems_of(&document(&format!("`{FILE}` `gone`")));
        assert_eq!(problems.len(), HEADINGS.len());
        assert!(problems[0].ends_with("does not declare gone"), "{problems:?}");
    }

    #[test]
    fn a_heading_without_a_row_is_reported() {
        let text = document(&format!("`{FILE}` `law`")).replace("## Resume", "## Other");
        assert_eq!(
            problems_of(&text),
            [format!("{DOCUMENT}: no row stands under the heading Resume")]
        );
    }

    #[test]
    fn an_empty_cell_is_reported() {
        let text = document(&format!("`{FILE}` `law`")).replacen("nothing", "", 1);
        let problems = problems_of(&text);
        assert_eq!(problems.len(), 1);
        assert!(problems[0].ends_with("Assumes: the cell is empty"), "{problems:?}");
    }
}
