//! The trace: a table that leads from each rule of the reference to the definition, the promise and the
//! test that stand for it. Each of its references must lead to a declaration that is there.

use crate::reference::{self, rules, Rule};
use crate::references::{is_edit, problems_of_reference, references};
use crate::repository::Repository;
use crate::tables::{rows, Kind};
use std::collections::BTreeSet;

const DOCUMENT: &str = "docs/TRACE.md";
const HEADER: [&str; 5] = ["Rule", "From", "Definition", "Promise or theorem", "Noticed by"];
const SOURCES: [&str; 5] = ["paper 01", "paper 02", "manual", "decision", "demand"];

pub fn problems(repository: &Repository) -> Vec<String> {
    let Some(text) = repository.text(DOCUMENT) else {
        return vec![format!("{DOCUMENT}: there is no such file")];
    };
    let mut problems = Vec::new();
    let mut named = BTreeSet::new();
    let rows = rows(&Kind { document: DOCUMENT, header: &HEADER }, text, &mut problems);
    if rows.is_empty() {
        problems
            .push(format!("{DOCUMENT}: it has no row under the header | {} |", HEADER.join(" | ")));
    }
    for (number, row) in &rows {
        for problem in problems_of_row(repository, row, &mut named) {
            problems.push(format!("{DOCUMENT}:{number}: {problem}"));
        }
    }
    let traced: Vec<Rule> = rows.iter().filter_map(|(_, row)| rule_of(row.first()?)).collect();
    problems.extend(problems_of_rules(repository, &traced));
    let edits = repository.files().map(|(path, _)| path).filter(|path| is_edit(path));
    for edit in edits.filter(|path| !named.contains(*path)) {
        problems
            .push(format!("{DOCUMENT}: no row names {edit}, which guards a rule of the reference"));
    }
    problems
}

/// Every rule of the reference has a row, and every row a rule of the reference.
fn problems_of_rules(repository: &Repository, traced: &[Rule]) -> Vec<String> {
    let reference = repository.text(reference::DOCUMENT).unwrap_or_default();
    let rules: BTreeSet<Rule> = rules(reference).into_iter().map(|(_, rule)| rule).collect();
    let traced: BTreeSet<Rule> = traced.iter().copied().collect();
    let untraced = rules.difference(&traced);
    let unknown = traced.difference(&rules);
    untraced
        .map(|rule| format!("{DOCUMENT}: no row has the rule {rule}"))
        .chain(
            unknown.map(|rule| format!("{DOCUMENT}: {} has no rule {rule}", reference::DOCUMENT)),
        )
        .collect()
}

/// The rule that a cell names: its number, and a phrase behind it.
fn rule_of(cell: &str) -> Option<Rule> {
    let (number, phrase) = cell.split_once(' ')?;
    if phrase.trim().is_empty() {
        return None;
    }
    Rule::of(number)
}

fn problems_of_row(
    repository: &Repository,
    row: &[String],
    named: &mut BTreeSet<String>,
) -> Vec<String> {
    let [rule, from, rest @ ..] = row else {
        return vec![if row.is_empty() {
            "the row has no closing |".to_string()
        } else {
            format!("the row has {} cells, not {}", row.len(), HEADER.len())
        }];
    };
    if row.len() != HEADER.len() {
        return vec![format!("the row has {} cells, not {}", row.len(), HEADER.len())];
    }
    let mut problems = Vec::new();
    if rule_of(rule).is_none() {
        problems.push(format!("{}: '{rule}' is no number with a phrase behind it", HEADER[0]));
    }
    if !SOURCES.iter().any(|source| from.starts_with(source)) {
        problems.push(format!("{}: '{from}' is none of {SOURCES:?}", HEADER[1]));
    }
    for (cell, title) in rest.iter().zip(&HEADER[2..]) {
        let found = problems_of_cell(repository, cell, named);
        problems.extend(found.into_iter().map(|problem| format!("{title}: {problem}")));
    }
    let edits = edits_of(rest);
    if edits.len() > 1 {
        problems.push(format!("one must-fail edit is enough for a row, and it names {edits:?}"));
    }
    problems
}

/// The must-fail edits that some cells name.
fn edits_of(cells: &[String]) -> Vec<&str> {
    let named = cells.iter().filter_map(|cell| references(cell).ok()).flatten();
    named.map(|reference| reference.path).filter(|path| is_edit(path)).collect()
}

fn problems_of_cell(
    repository: &Repository,
    cell: &str,
    named: &mut BTreeSet<String>,
) -> Vec<String> {
    if let Some(reason) = cell.strip_prefix("none:") {
        let empty = reason.trim().is_empty();
        return if empty { vec!["'none:' gives no reason".to_string()] } else { Vec::new() };
    }
    match references(cell) {
        Err(problem) => vec![problem],
        Ok(references) => {
            named.extend(references.iter().map(|reference| reference.path.to_string()));
            references
                .iter()
                .flat_map(|reference| problems_of_reference(repository, reference))
                .collect()
        }
    }
}

#[cfg(test)]
mod tests {
    use super::*;

    const WORD: &str = "crates/word/specs/Word.antt";
    const EDIT: &str = "crates/word/must-fail/low.edit";
    const TOP: &str = "Prose.\n\n| Rule | From | Definition | Promise or theorem | Noticed by |\n\
                       |---|---|---|---|---|\n";
    const RULES: &str = "## 1 Words\n\n**1.1** A word has 8 bits.\n";

    /// The problems of a trace with these rows, the first of which stands in line 5.
    fn problems_of(rows: &str) -> Vec<String> {
        let trace = format!("{TOP}{rows}");
        let word = "pub valueOf : ℕ → ℕ\npub bytesOf : ℕ → ℕ\n";
        let test = "#[test]\nfn adds() {}\n";
        problems(&Repository::of(&[
            (DOCUMENT, &trace),
            (reference::DOCUMENT, RULES),
            (WORD, word),
            (EDIT, ""),
            ("tests/a/b.rs", test),
        ]))
    }

    fn row(definition: &str) -> String {
        format!("| 1.1 bits of a word | manual | {definition} | none: it is a definition | `{EDIT}`; also `tests/a/b.rs` `adds` |\n")
    }

    fn only_problem(definition: &str) -> String {
        let problems = problems_of(&row(definition));
        assert_eq!(problems.len(), 1, "{problems:?}");
        problems[0].clone()
    }

    #[test]
    fn a_good_row_passes() {
        assert_eq!(problems_of(&row(&format!("`{WORD}` `valueOf` and `bytesOf`"))), [""; 0]);
        assert_eq!(
            problems_of(&row(&format!("`{WORD}` `valueOf`; `tests/a/b.rs` `adds`"))),
            [""; 0]
        );
    }

    #[test]
    fn a_name_that_is_not_declared_is_reported() {
        let problem = only_problem(&format!("`{WORD}` `valueOf` `gone`"));
        assert_eq!(problem, format!("{DOCUMENT}:5: Definition: {WORD} does not declare gone"));
    }

    #[test]
    fn a_file_that_is_not_there_is_reported() {
        assert!(only_problem("`crates/word/specs/word.antt` `valueOf`")
            .ends_with("there is no file crates/word/specs/word.antt"));
    }

    #[test]
    fn a_path_without_a_name_is_reported() {
        assert!(only_problem(&format!("`{WORD}`")).ends_with(&format!("no name follows {WORD}")));
    }

    #[test]
    fn a_cell_without_a_reference_is_reported() {
        assert!(only_problem("in the word").ends_with("neither a reference nor 'none: REASON'"));
        assert!(only_problem("").ends_with("neither a reference nor 'none: REASON'"));
        assert!(only_problem("none").ends_with("neither a reference nor 'none: REASON'"));
        assert!(only_problem("none: ").ends_with("'none:' gives no reason"));
        assert!(only_problem("`valueOf`").ends_with("no path stands before `valueOf`"));
        assert!(only_problem(&format!("`{WORD}` `valueOf")).ends_with("a backtick is not closed"));
    }

    #[test]
    fn a_row_of_another_shape_is_reported() {
        let good = row(&format!("`{WORD}` `valueOf`"));
        assert_eq!(
            problems_of(&format!("{good}| a | b |\n")),
            [format!("{DOCUMENT}:6: the row has 2 cells, not 5")]
        );
        assert_eq!(
            problems_of(&format!("{good}| a | b\n")),
            [format!("{DOCUMENT}:6: the row has no closing |")]
        );
        let no_rule = format!("{good}| 1.1 | manual | none: a | none: b | none: c |\n");
        assert_eq!(
            problems_of(&no_rule),
            [format!("{DOCUMENT}:6: Rule: '1.1' is no number with a phrase behind it")]
        );
        let no_source = format!("{good}| 1.1 a | | none: a | none: b | none: c |\n");
        assert!(problems_of(&no_source)[0].starts_with(&format!("{DOCUMENT}:6: From: '' is none")));
    }

    #[test]
    fn a_rule_without_a_row_and_a_row_without_a_rule_are_reported() {
        let other = row("none: a").replace("1.1", "1.2");
        assert_eq!(
            problems_of(&other),
            [
                format!("{DOCUMENT}: no row has the rule 1.1"),
                format!("{DOCUMENT}: {} has no rule 1.2", reference::DOCUMENT)
            ]
        );
    }

    #[test]
    fn a_row_with_two_edits_is_reported() {
        let problem = only_problem(&format!("`{EDIT}`"));
        assert!(problem.contains(":5: one must-fail edit is enough"), "{problem}");
    }

    #[test]
    fn all_problems_are_reported_at_once() {
        let bad = "| 1.1 a | manual | none: | `b/c` `d` | e |\n";
        assert_eq!(problems_of(&format!("{}{bad}", row("none: a"))).len(), 3);
    }

    #[test]
    fn an_edit_that_no_row_names_is_reported() {
        let problems = problems_of("| 1.1 a | manual | none: b | none: c | none: d |\n");
        assert_eq!(problems.len(), 1);
        assert!(problems[0].contains(&format!("no row names {EDIT}")));
    }

    #[test]
    fn a_trace_without_rows_is_reported() {
        assert!(problems_of("")[0].contains("it has no row"));
        assert!(problems(&Repository::of(&[]))[0].ends_with("there is no such file"));
    }

    #[test]
    fn other_tables_are_left_alone_but_a_slip_in_the_header_is_not() {
        let good = row("none: a");
        assert_eq!(problems_of(&format!("{good}\n| a | b |\n|---|---|\n| c | d |\n")), [""; 0]);
        let slip = problems_of(&format!("{good}\n| Rule | Definitions |\n|---|---|\n| c | d |\n"));
        assert_eq!(slip.len(), 1);
        assert!(slip[0].contains(":7: the header must be"));
    }

    #[test]
    fn rows_without_a_header_are_reported() {
        let problems = problems_of(&format!(
            "{}\n| 1.1 a | manual | none: b | none: c | `gone/x` |\n",
            row("none: a")
        ));
        assert_eq!(
            problems,
            [format!("{DOCUMENT}:7: a header and a line of dashes must start the table")]
        );
    }
}
