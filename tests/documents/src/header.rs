//! The C header has the endings and address spaces of the reference, and the version of `VERSION`, which
//! the change log begins with.

use crate::reference::DOCUMENT;
use crate::repository::Repository;
use std::collections::BTreeMap;

pub const C_HEADER: &str = "include/undrelvoa.h";
const VERSION: &str = "VERSION";
const CHANGES: &str = "CHANGELOG.md";

pub fn problems(repository: &Repository) -> Vec<String> {
    let text = |path| repository.text(path).unwrap_or_default();
    let header = text(C_HEADER);
    let mut problems = Vec::new();
    let endings = enumerators(header, "undrelvoa_ending", "UNDRELVOA_");
    let spaces = enumerators(header, "undrelvoa_space", "UNDRELVOA_SPACE_");
    if endings.is_empty() || spaces.is_empty() {
        problems.push(format!("{C_HEADER}: it has no endings or no spaces"));
    }
    let spaces = spaces.into_iter().map(|(name, number)| (name.to_lowercase(), number));
    for (name, number) in endings.into_iter().chain(spaces) {
        let words = format!("{number} {}", name.replace('_', " "));
        if !has_words(text(DOCUMENT), &words) {
            problems.push(format!("{C_HEADER}: {DOCUMENT} has no '{words}'"));
        }
    }
    let version = text(VERSION).trim();
    if !header.contains(&format!("#define UNDRELVOA_VERSION \"{version}\"\n")) {
        problems.push(format!("{C_HEADER}: UNDRELVOA_VERSION is not the {version} of {VERSION}"));
    }
    let newest = text(CHANGES).lines().find_map(|line| line.strip_prefix("## "));
    if newest != Some(version) {
        problems.push(format!("{CHANGES}: its first heading is not the {version} of {VERSION}"));
    }
    problems
}

/// The enumerators of an enum of the header without their prefix, and their numbers.
pub fn enumerators(header: &str, name: &str, prefix: &str) -> BTreeMap<String, u64> {
    let begin = format!("enum {name} {{");
    let lines = header.lines().skip_while(|line| *line != begin).skip(1);
    let entries = lines.take_while(|line| !line.starts_with('}'));
    let pairs = entries.filter_map(|line| line.trim().strip_prefix(prefix)?.split_once(" = "));
    pairs
        .filter_map(|(name, rest)| {
            let number = rest.split(|c: char| !c.is_ascii_digit()).next()?;
            Some((name.to_string(), number.parse().ok()?))
        })
        .collect()
}

/// Whether the words stand in a text, and not as part of longer ones.
fn has_words(text: &str, words: &str) -> bool {
    text.match_indices(words).any(|(at, _)| {
        let before = text[..at].chars().next_back();
        let after = text[at + words.len()..].chars().next();
        [before, after].into_iter().flatten().all(|c| !c.is_alphanumeric() && c != '_')
    })
}

#[cfg(test)]
mod tests {
    use super::*;

    const HEADER: &str = "#define UNDRELVOA_VERSION \"1.2.0\"\nenum undrelvoa_space {\n    UNDRELVOA_SPACE_RAM = 4\n};\n\
                          enum undrelvoa_ending {\n    UNDRELVOA_EXIT = 1, /* 2 */\n    UNDRELVOA_LOG = 34,\n    \
                          UNDRELVOA_TWO_WORDS = 35\n};\n";
    const REFERENCE: &str = "spaces: 4 ram.\n| 1 EXIT | 34 LOG | 35 TWO WORDS |\n";

    fn problems_of(header: &str, reference: &str, version: &str) -> Vec<String> {
        problems(&Repository::of(&[
            (C_HEADER, header),
            (DOCUMENT, reference),
            (VERSION, version),
            (CHANGES, "# Changes\n\n## 1.2.0\n\n## 1.0.0\n"),
        ]))
    }

    #[test]
    fn a_good_header_passes() {
        assert_eq!(problems_of(HEADER, REFERENCE, "1.2.0\n"), [""; 0]);
    }

    #[test]
    fn another_number_is_found() {
        let header = HEADER.replace("= 34", "= 35");
        let found = problems_of(&header, REFERENCE, "1.2.0\n");
        assert_eq!(found, ["include/undrelvoa.h: docs/REFERENCE.md has no '35 LOG'"]);
        let header = HEADER.replace("= 35", "= 36");
        let found = problems_of(&header, REFERENCE, "1.2.0\n");
        assert_eq!(found, ["include/undrelvoa.h: docs/REFERENCE.md has no '36 TWO WORDS'"]);
        let found = problems_of(HEADER, &REFERENCE.replace("34", "134"), "1.2.0\n");
        assert_eq!(found, ["include/undrelvoa.h: docs/REFERENCE.md has no '34 LOG'"]);
    }

    #[test]
    fn another_version_is_found_in_header_and_change_log() {
        let found = problems_of(HEADER, REFERENCE, "2.0.0\n");
        assert_eq!(found.len(), 2, "{found:?}");
    }

    #[test]
    fn a_header_without_enums_is_found() {
        let found = problems_of("#define UNDRELVOA_VERSION \"1.2.0\"\n", REFERENCE, "1.2.0\n");
        assert_eq!(found, ["include/undrelvoa.h: it has no endings or no spaces"]);
    }
}
