//! Every link and every path that a document names leads somewhere.

use crate::markdown::{fences_are_closed, lines_outside_fences, link_targets, take_apart};
use crate::repository::Repository;

const FOLDERS: [&str; 6] = ["crates/", "tests/", "docs/", "examples/", "include/", ".ci/"];

pub fn problems(repository: &Repository) -> Vec<String> {
    let mut problems = Vec::new();
    if repository.text("README.md").is_none() {
        problems.push("README.md: there is no such file".to_string());
    }
    for (path, text) in repository.files().filter(|(path, _)| is_document(path)) {
        if !fences_are_closed(text) {
            problems.push(format!("{path}: a fenced block is not closed"));
        }
        for (number, line) in lines_outside_fences(text) {
            for place in lost_places(repository, path, line) {
                problems.push(format!("{path}:{number}: there is no {place}"));
            }
        }
    }
    problems
}

fn is_document(path: &str) -> bool {
    let in_docs =
        path.strip_prefix("docs/").is_some_and(|name| name.ends_with(".md") && !name.contains('/'));
    let at_top = path.ends_with(".md") && !path.contains('/');
    in_docs || at_top || path.ends_with("/README.md")
}

/// What the line names and the repository does not have.
fn lost_places(repository: &Repository, document: &str, line: &str) -> Vec<String> {
    let parts = take_apart(line);
    let links =
        link_targets(&parts.words).into_iter().filter(|target| leads_into_repository(target));
    let linked = links.map(|target| resolve(document, target));
    let named = parts.code.iter().filter_map(|code| named_path(code)).map(str::to_string);
    linked.chain(named).filter(|place| !repository.has(place.trim_end_matches('/'))).collect()
}

fn leads_into_repository(target: &str) -> bool {
    !target.contains(':') && !target.starts_with('#') && !is_pattern(target)
}

/// A path that stands for many, or that only a run of the gate makes.
fn is_pattern(path: &str) -> bool {
    ["*", "NAME", "<"].iter().any(|mark| path.contains(mark)) || path.starts_with("target/")
}

/// A link counts from its document's folder.
fn resolve(document: &str, target: &str) -> String {
    let mut steps: Vec<&str> = document.split('/').collect();
    steps.pop();
    for step in target.split('#').next().unwrap_or(target).split('/') {
        match step {
            "." | "" => {}
            // above the top nothing is found
            ".." if steps.pop().is_none() => return target.to_string(),
            ".." => {}
            _ => steps.push(step),
        }
    }
    steps.join("/")
}

fn named_path(code: &str) -> Option<&str> {
    let path = code.split_whitespace().next()?;
    let ours = FOLDERS.iter().any(|folder| path.starts_with(folder));
    (ours && !is_pattern(path) && !path.contains("..")).then_some(path)
}

#[cfg(test)]
mod tests {
    use super::*;

    fn problems_of(document: &str, text: &str) -> Vec<String> {
        problems(&Repository::of(&[("README.md", ""), ("tests/gate/run", ""), (document, text)]))
    }

    #[test]
    fn links_count_from_the_document() {
        assert!(problems_of("docs/A.md", "[a](../README.md) [b](A.md#top) [c](../tests/gate/)")
            .is_empty());
        assert_eq!(
            problems_of("docs/A.md", "\n[a](README.md)"),
            ["docs/A.md:2: there is no docs/README.md"]
        );
        assert_eq!(problems_of("README.md", "[a](../b)"), ["README.md:1: there is no ../b"]);
    }

    #[test]
    fn links_elsewhere_are_left_alone() {
        assert!(problems_of("README.md", "[a](https://example.org/a) [b](#b) `[c](d)`").is_empty());
    }

    #[test]
    fn named_paths_count_from_the_top() {
        assert!(problems_of(
            "docs/A.md",
            "`tests/gate/run` `tests/gate/` `tests/gate/run --help` `other/x`"
        )
        .is_empty());
        assert_eq!(
            problems_of("docs/A.md", "`tests/gone`"),
            ["docs/A.md:1: there is no tests/gone"]
        );
        assert_eq!(problems_of("docs/A.md", "`tests/Gate/run`").len(), 1);
    }

    #[test]
    fn patterns_and_fenced_blocks_are_left_alone() {
        assert!(problems_of("README.md", "`crates/NAME/src` `tests/*/x` `docs/..` `.ci/<x>`")
            .is_empty());
        assert!(problems_of("README.md", "```\n`tests/gone`\n```").is_empty());
        assert_eq!(problems_of("README.md", "```\n"), ["README.md: a fenced block is not closed"]);
    }

    #[test]
    fn other_files_are_no_documents() {
        assert!(problems_of("docs/more/A.md", "`tests/gone`").is_empty());
        assert_eq!(problems(&Repository::of(&[])), ["README.md: there is no such file"]);
    }
}
