//! No file names a folder of the machine that it was written on.

use crate::repository::Repository;

/// Put together here, so that this file does not hold them itself.
const FOLDERS: [&str; 4] = [
    concat!("/", "work/"),
    concat!("/", "home/"),
    concat!("/", "root/"),
    concat!("/", "opt/rattle"),
];

pub fn problems(repository: &Repository) -> Vec<String> {
    let mut problems = Vec::new();
    for (path, text) in repository.files() {
        for (at, line) in text.lines().enumerate() {
            if let Some(folder) = FOLDERS.iter().find(|folder| names_absolutely(line, folder)) {
                problems
                    .push(format!("{path}:{}: names {folder}, a folder of one machine", at + 1));
            }
        }
    }
    problems
}

/// Whether the line holds the folder at the start of a path: `tests` + folder is a path of its own.
fn names_absolutely(line: &str, folder: &str) -> bool {
    line.match_indices(folder)
        .any(|(at, _)| !line[..at].ends_with(|c: char| c.is_alphanumeric() || "_-.".contains(c)))
}

#[cfg(test)]
mod tests {
    use super::*;

    #[test]
    fn a_path_of_a_machine_is_reported_with_its_line() {
        for folder in FOLDERS {
            let repository = Repository::of(&[("a/b.txt", &format!("one\nat {folder}x"))]);
            assert_eq!(problems(&repository).len(), 1);
            assert!(problems(&repository)[0].starts_with("a/b.txt:2: "));
        }
    }

    #[test]
    fn a_relative_path_is_none() {
        let repository = Repository::of(&[("a/b.txt", &format!("tests{}x", FOLDERS[0]))]);
        assert!(problems(&repository).is_empty());
    }
}
