//! The lists of `cases/README.md`: under each heading the cases of its folder, with their own titles.

use std::collections::BTreeMap;

use crate::stored::StoredCase;

/// The document with the lists.
pub const DOCUMENT: &str = "cases/README.md";

/// Makes the lists anew, from the top of the repository.
pub const COMMAND: &str =
    "cargo run --release --offline --manifest-path tests/cases/Cargo.toml --bin list";

/// The part of the document that has the lists, and what a heading in it begins with.
const PART: &str = "\n## The cases\n";
const HEADING: &str = "\n### ";

/// The document with its lists made anew. The headings stay in their order, with the words below
/// them. Each heading has a folder, and each folder a heading.
pub fn with_lists(document: &str, stored: &BTreeMap<String, StoredCase>) -> Result<String, String> {
    let Some((before, part)) = document.split_once(PART) else {
        return Err(format!("{DOCUMENT} has no heading '{}'", PART.trim()));
    };
    let mut sections = part.split(HEADING);
    let mut made = format!("{before}{PART}{}", words_of(sections.next().unwrap_or_default()));
    let mut unlisted = by_folder(stored);
    for section in sections {
        let (heading, below) = section.split_once('\n').unwrap_or((section, ""));
        let folder = heading.to_lowercase().replace(' ', "-");
        let Some(cases) = unlisted.remove(folder.as_str()) else {
            return Err(format!(
                "{DOCUMENT}: the heading '{heading}' has no folder cases/{folder}, or stands twice"
            ));
        };
        made += &format!("{HEADING}{heading}\n{}\n{}", words_of(below), table(&cases)?);
    }
    match unlisted.keys().next() {
        Some(folder) => Err(format!("{DOCUMENT} has no heading for cases/{folder}: write one")),
        None => Ok(made),
    }
}

/// The cases of each folder, by their paths.
fn by_folder(stored: &BTreeMap<String, StoredCase>) -> BTreeMap<&str, Vec<(&str, &StoredCase)>> {
    let mut folders: BTreeMap<&str, Vec<(&str, &StoredCase)>> = BTreeMap::new();
    for (path, case) in stored {
        let folder = path.split('/').next().unwrap_or(path);
        folders.entry(folder).or_default().push((path, case));
    }
    folders
}

/// What is no table, with an empty line before it.
fn words_of(text: &str) -> String {
    let lines: Vec<&str> = text.lines().filter(|line| !line.starts_with('|')).collect();
    let words = lines.join("\n");
    if words.trim().is_empty() {
        return String::new();
    }
    format!("\n{}\n", words.trim())
}

fn table(cases: &[(&str, &StoredCase)]) -> Result<String, String> {
    let mut table = "| Case | What it shows |\n|---|---|\n".to_string();
    for (path, case) in cases {
        let name = path.rsplit('/').next().unwrap_or(path);
        let Some(title) = case.title() else {
            return Err(format!("cases/{path}/about.md does not begin with '# ' and a title"));
        };
        let by_hand = if case.is_worked_by_hand() { " (by hand)" } else { "" };
        table += &format!("| [`{name}`]({path}/about.md) | {title}{by_hand} |\n");
    }
    Ok(table)
}

/// Where the document differs from what is made, and the command that mends it.
pub fn difference(document: &str, made: &str) -> Option<String> {
    if document == made {
        return None;
    }
    let pairs = document.lines().zip(made.lines());
    let same = pairs.take_while(|(there, wanted)| there == wanted).count();
    let [there, wanted] = [document, made].map(|text| text.lines().nth(same).unwrap_or("nothing"));
    Some(format!(
        "{DOCUMENT}:{}: the list there is not what the cases say\n\
         there: {there}\nwanted: {wanted}\n\
         to make the lists anew, at the top of the repository: {COMMAND}",
        same + 1
    ))
}

#[cfg(test)]
mod tests {
    use super::*;

    fn stored(cases: &[(&str, &str)]) -> BTreeMap<String, StoredCase> {
        let case =
            |about: &str| StoredCase { input: vec![], output: vec![], about: about.to_string() };
        cases.iter().map(|(path, about)| (path.to_string(), case(about))).collect()
    }

    const BY_HAND: &str = "# Two\n\n## Worked by hand\n\n- 1 + 1\n";

    #[test]
    fn lists_have_the_titles() {
        let stored =
            stored(&[("b-c/two", BY_HAND), ("a/x", "# X\n"), ("b-c/one", "# One\n\nMore.\n")]);
        let document = "# Cases\n\n| `kept` |\n\n## The cases\n\n### B c\n\nWords.\n\n| `gone` | Gone |\n\n### A\n";
        let made = with_lists(document, &stored).unwrap();
        assert_eq!(
            made,
            "# Cases\n\n| `kept` |\n\n## The cases\n\n### B c\n\nWords.\n\n\
             | Case | What it shows |\n|---|---|\n\
             | [`one`](b-c/one/about.md) | One |\n| [`two`](b-c/two/about.md) | Two (by hand) |\n\n\
             ### A\n\n| Case | What it shows |\n|---|---|\n| [`x`](a/x/about.md) | X |\n"
        );
        assert_eq!(with_lists(&made, &stored).unwrap(), made);
    }

    #[test]
    fn headings_and_folders_belong_together() {
        let stored = stored(&[("a/x", "# X\n")]);
        let error = |document: &str| with_lists(document, &stored).unwrap_err();
        assert!(error("# Cases\n").contains("no heading '## The cases'"));
        assert!(error("\n## The cases\n").contains("no heading for cases/a"));
        assert!(error("\n## The cases\n\n### A\n\n### B\n").contains("no folder cases/b"));
        assert!(error("\n## The cases\n\n### A\n\n### A\n").contains("stands twice"));
    }

    #[test]
    fn a_case_without_a_title_is_named() {
        let stored = stored(&[("a/x", "X\n")]);
        let error = with_lists("\n## The cases\n\n### A\n", &stored).unwrap_err();
        assert_eq!(error, "cases/a/x/about.md does not begin with '# ' and a title");
    }

    #[test]
    fn a_difference_is_named_with_its_line() {
        assert_eq!(difference("a\nb\n", "a\nb\n"), None);
        let message = difference("a\nb\n", "a\nc\n").unwrap();
        assert!(message.starts_with("cases/README.md:2: "));
        assert!(message.contains("there: b\nwanted: c\n") && message.ends_with(COMMAND));
        assert!(difference("a\n", "a\nc\n").unwrap().contains("there: nothing\n"));
    }
}
