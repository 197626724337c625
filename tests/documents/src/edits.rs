//! The must-fail edits: each stands for one line that would go wrong, so no two change the same one.

use crate::references::is_edit;
use crate::repository::Repository;
use std::collections::BTreeMap;

/// A line of a file, counted from 1.
type Place = (String, usize);

pub fn problems(repository: &Repository) -> Vec<String> {
    let mut changed: BTreeMap<Place, Vec<&str>> = BTreeMap::new();
    for (path, text) in repository.files().filter(|(path, _)| is_edit(path)) {
        for place in places(repository, path, text) {
            changed.entry(place).or_default().push(path);
        }
    }
    let shared = changed.into_iter().filter(|(_, edits)| edits.len() > 1);
    shared
        .map(|((file, line), edits)| {
            format!("{file}:{line}: one edit of a line is enough, and these change it: {edits:?}")
        })
        .collect()
}

/// The lines that an edit changes. A text that is not there is the gate's to report. Imports are left
/// out: an edit may need one more name, whatever it is about.
fn places(repository: &Repository, path: &str, edit: &str) -> Vec<Place> {
    let Some((crate_folder, _)) = path.split_once("/must-fail/") else { return Vec::new() };
    let mut file = String::new();
    let mut places = Vec::new();
    for line in edit.lines() {
        if let Some(name) = line.strip_prefix("file: ") {
            file = format!("{crate_folder}/{name}");
        } else if let Some(old) = line.strip_prefix("old: ") {
            let lines = repository.text(&file).into_iter().flat_map(str::lines).zip(1..);
            let changed = lines.filter(|(text, _)| text.contains(old) && !is_import(text));
            places.extend(changed.map(|(_, number)| (file.clone(), number)));
        }
    }
    places
}

fn is_import(line: &str) -> bool {
    line.starts_with("use ") || line.starts_with("ghost use ")
}

#[cfg(test)]
mod tests {
    use super::*;

    const FILE: &str = "crates/a/src/lib.rt";
    const SOURCE: &str = "use b;\nx < 1\ny + 2\n";

    fn problems_of(one: &str, other: &str) -> Vec<String> {
        problems(&Repository::of(&[
            (FILE, SOURCE),
            ("crates/a/must-fail/one.edit", one),
            ("crates/a/must-fail/other.edit", other),
        ]))
    }

    #[test]
    fn edits_of_two_lines_pass() {
        let one = "About.\nfile: src/lib.rt\nold: use b;\nnew: use c;\nold: x <\nnew: x >\n";
        let other = "About.\nfile: src/lib.rt\nold: use b;\nnew: use d;\nold: y + 2\nnew: y\n";
        assert_eq!(problems_of(one, other), [""; 0]);
    }

    #[test]
    fn two_edits_of_one_line_are_reported() {
        let problems = problems_of(
            "file: src/lib.rt\nold: x <\nnew: x >\n",
            "file: src/lib.rt\nold: < 1\nnew: < 2\n",
        );
        assert_eq!(problems.len(), 1);
        assert!(problems[0].starts_with("crates/a/src/lib.rt:2: "), "{problems:?}");
        assert!(problems[0].contains("one.edit") && problems[0].contains("other.edit"));
    }
}
