//! The reference: rules with a number each, in chapters, and examples that the second program answers.

use crate::markdown::{fenced_blocks, lines_outside_fences, take_apart};
use crate::repository::Repository;
use crate::tables::{rows, Kind};
use ::reference::case::output;
use std::collections::BTreeSet;
use std::fmt;

pub const DOCUMENT: &str = "docs/REFERENCE.md";
const EXAMPLES: [&str; 4] = ["Number", "Breaks", "Line", "What is wrong"];
const EXAMPLE_NUMBERS: std::ops::RangeInclusive<u64> = 21..=26;
const WORKED: [&str; 2] =
    ["cases/operations/worked-example/input", "cases/operations/worked-example/output"];

/// The number of a rule: its chapter, and its place in the chapter.
#[derive(Debug, Clone, Copy, PartialEq, Eq, PartialOrd, Ord)]
pub struct Rule {
    pub chapter: u32,
    pub place: u32,
}

impl Rule {
    pub fn of(text: &str) -> Option<Rule> {
        let (chapter, place) = text.split_once('.')?;
        let rule = Rule { chapter: chapter.parse().ok()?, place: place.parse().ok()? };
        (rule.to_string() == text).then_some(rule)
    }
}

impl fmt::Display for Rule {
    fn fmt(&self, formatter: &mut fmt::Formatter) -> fmt::Result {
        write!(formatter, "{}.{}", self.chapter, self.place)
    }
}

/// The rules of the reference, each with its line: `**1.2**` at the start of a line or of a table's row.
pub fn rules(text: &str) -> Vec<(usize, Rule)> {
    let lines = lines_outside_fences(text).into_iter();
    lines.filter_map(|(number, line)| Some((number, rule_of_line(line)?))).collect()
}

fn rule_of_line(line: &str) -> Option<Rule> {
    let line = line.strip_prefix("| ").unwrap_or(line);
    Rule::of(line.strip_prefix("**")?.split_once("**")?.0)
}

pub fn problems(repository: &Repository) -> Vec<String> {
    let Some(text) = repository.text(DOCUMENT) else {
        return vec![format!("{DOCUMENT}: there is no such file")];
    };
    let mut problems = problems_of_numbers(text);
    problems.extend(problems_of_examples(text));
    problems.extend(problems_of_worked_cases(repository, text));
    problems
}

/// A rule stands in its chapter, after those with a lower number.
fn problems_of_numbers(text: &str) -> Vec<String> {
    let mut problems = Vec::new();
    let mut last = Rule { chapter: 0, place: 0 };
    for (number, line) in lines_outside_fences(text) {
        if let Some(heading) = line.strip_prefix("## ") {
            let chapter = heading.split(' ').next().and_then(|word| word.parse().ok());
            last = Rule { chapter: chapter.unwrap_or(0), place: 0 };
        } else if let Some(rule) = rule_of_line(line) {
            if rule.chapter != last.chapter {
                problems.push(format!("{DOCUMENT}:{number}: {rule} stands in another chapter"));
            } else if rule <= last {
                problems.push(format!("{DOCUMENT}:{number}: {rule} follows {last}"));
            }
            last.place = rule.place;
        }
    }
    if rules(text).is_empty() {
        problems.push(format!("{DOCUMENT}: it has no rule"));
    }
    problems
}

/// The lines that break a rule: run with the settings that stand by themselves in a block.
fn problems_of_examples(text: &str) -> Vec<String> {
    let mut problems = Vec::new();
    let rules: BTreeSet<Rule> = rules(text).into_iter().map(|(_, rule)| rule).collect();
    let blocks = fenced_blocks(text);
    let settings = blocks.iter().find(|b| b.starts_with("01") && b.lines().count() == 1);
    let Some(settings) = settings else {
        return vec![format!("{DOCUMENT}: no block has the settings of the examples alone")];
    };
    let mut shown = BTreeSet::new();
    let kind = Kind { document: DOCUMENT, header: &EXAMPLES };
    for (at, row) in rows(&kind, text, &mut problems) {
        let [number, breaks, line, _] = &row[..] else {
            problems.push(format!("{DOCUMENT}:{at}: the row has {} cells, not 4", row.len()));
            continue;
        };
        if !Rule::of(breaks).is_some_and(|rule| rules.contains(&rule)) {
            problems.push(format!("{DOCUMENT}:{at}: there is no rule {breaks}"));
        }
        let case = format!("{settings}{}\n", take_apart(line).code.concat());
        let printed = String::from_utf8_lossy(&output(case.as_bytes())).into_owned();
        let report = printed.lines().next().unwrap_or_default();
        if report != format!("{number} 0 0 0 0") {
            problems.push(format!("{DOCUMENT}:{at}: the example of {number} prints {report}"));
        }
        shown.extend(number.parse::<u64>());
    }
    let lacking = EXAMPLE_NUMBERS.filter(|number| !shown.contains(number));
    problems.extend(lacking.map(|number| format!("{DOCUMENT}: {number} has no example")));
    problems
}

/// A case and the block behind it are what the second program reads and prints, and the first is the stored one.
fn problems_of_worked_cases(repository: &Repository, text: &str) -> Vec<String> {
    let blocks = fenced_blocks(text);
    let mut problems = Vec::new();
    for pair in blocks.windows(2).filter(|pair| is_case(&pair[0])) {
        if output(pair[0].as_bytes()) != pair[1].as_bytes() {
            let first = pair[0].lines().next().unwrap_or_default();
            problems.push(format!("{DOCUMENT}: the case that begins {first} prints another text"));
        }
    }
    let same = |path| {
        repository.text(path).is_some_and(|stored| blocks.iter().any(|block| block == stored))
    };
    let lost = WORKED.into_iter().filter(|path| !same(*path));
    problems.extend(lost.map(|path| format!("{DOCUMENT}: no block is the text of {path}")));
    problems
}

/// A block with the settings and more lines.
fn is_case(block: &str) -> bool {
    block.starts_with("01") && block.lines().count() > 1
}

#[cfg(test)]
mod tests {
    use super::*;

    const SETTINGS: &str = "01000400000010000000100000001000000064010101";
    const GOOD: [(&str, &str); 6] = [
        (
            "21",
            "04000000000011212b0000000000000000000000000000000900000000000000000000000000000000",
        ),
        (
            "22",
            "0400000000003121150000000000000000000000000000000000000000000000000000000000000000",
        ),
        (
            "23",
            "0400000000003111010000000000000000000000000000000000000000000000000000000000000000",
        ),
        (
            "24",
            "0400000000003424010000000000000000000000000000000d00000000000000000000000000000000",
        ),
        (
            "25",
            "0400000000323424150000000000000000000000000000000000000000000000040000000000000000",
        ),
        (
            "26",
            "0400000000001100040000000000000000000000000000000200000000000000000000000000000000",
        ),
    ];

    const CASE: &str = "01000400000001000000000000000000000000010101\n0202000000005a\n";
    const PRINTED: &str = "0 0 0 0 0\n0202000000005a\n03020000000000\n";

    fn document() -> String {
        let rows = GOOD.map(|(number, line)| format!("| {number} | 2.1 | `{line}` | a |\n"));
        format!(
            "# Top\n\n## 1 One\n\n**1.1** It is.\nMore.\n\n**1.2** It was.\n\n## 2 Two\n\n| Rule | Of |\n|---|---|\n\
             | **2.1** | a |\n\n```\n{SETTINGS}\n```\n\n| {} |\n|---|---|---|---|\n{}\n```\n{CASE}```\n\n```\n{PRINTED}```\n",
            EXAMPLES.join(" | "),
            rows.concat()
        )
    }

    fn problems_of(text: &str) -> Vec<String> {
        problems(&Repository::of(&[(DOCUMENT, text), (WORKED[0], CASE), (WORKED[1], PRINTED)]))
    }

    fn only_problem(old: &str, new: &str) -> String {
        let problems = problems_of(&document().replacen(old, new, 1));
        assert_eq!(problems.len(), 1, "{problems:?}");
        problems[0].clone()
    }

    #[test]
    fn a_good_document_passes() {
        assert_eq!(problems_of(&document()), [""; 0]);
        let found: Vec<String> =
            rules(&document()).iter().map(|(_, rule)| rule.to_string()).collect();
        assert_eq!(found, ["1.1", "1.2", "2.1"]);
    }

    #[test]
    fn a_number_is_written_in_one_way() {
        assert_eq!(Rule::of("1.10"), Some(Rule { chapter: 1, place: 10 }));
        assert!(Rule::of("1.9") < Rule::of("1.10"));
        for text in ["1", "1.", "01.1", "1.1.1", "a.1", ""] {
            assert_eq!(Rule::of(text), None, "{text}");
        }
    }

    #[test]
    fn a_rule_out_of_its_place_is_reported() {
        assert!(only_problem("**1.2**", "**1.1**").ends_with(":8: 1.1 follows 1.1"));
        assert!(only_problem("**1.2**", "**2.2**").ends_with(":8: 2.2 stands in another chapter"));
    }

    #[test]
    fn an_example_that_is_none_is_reported() {
        assert!(only_problem("212b", "2101").ends_with("the example of 21 prints 0 1 1 0 0"));
        assert!(only_problem("| 21 | 2.1", "| 21 | 2.9").ends_with("there is no rule 2.9"));
        let (number, line) = GOOD[3];
        let row = format!("| {number} | 2.1 | `{line}` | a |\n");
        assert!(only_problem(&row, "").ends_with("24 has no example"));
        let settings = format!("```\n{SETTINGS}\n```\n");
        assert!(only_problem(&settings, "").contains("no block has the settings"));
    }

    #[test]
    fn another_worked_case_is_reported() {
        let problems = |old: &str, new: &str| problems_of(&document().replacen(old, new, 1));
        let input = problems("005a\n", "005b\n");
        assert!(input[0].ends_with("010101 prints another text"), "{input:?}");
        assert!(input[1].ends_with(WORKED[0]), "{input:?}");
        let output = problems("0 0 0 0 0\n0", "0 0 0 0 1\n0");
        assert!(output[1].ends_with(WORKED[1]), "{output:?}");
    }

    #[test]
    fn a_reference_that_is_not_there_is_reported() {
        assert!(problems(&Repository::of(&[]))[0].ends_with("there is no such file"));
    }
}
