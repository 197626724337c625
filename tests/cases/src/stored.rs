//! The cases that are stored in `cases/`, and the vectors in `vectors/`: a folder for each heading, and in
//! it one for each case.

use std::collections::BTreeMap;
use std::fs;
use std::io;
use std::path::Path;

/// A case's three files.
pub struct StoredCase {
    pub input: Vec<u8>,
    pub output: Vec<u8>,
    pub about: String,
}

impl StoredCase {
    /// What it shows: the heading that `about.md` begins with.
    pub fn title(&self) -> Option<&str> {
        let title = self.about.lines().next()?.strip_prefix("# ")?.trim();
        (!title.is_empty()).then_some(title)
    }

    /// Whether its output was worked out by hand, with the working written down.
    pub fn is_worked_by_hand(&self) -> bool {
        let working = self.about.split_once("\n## Worked by hand\n");
        working.is_some_and(|(_, working)| !working.trim().is_empty())
    }
}

/// The files that the folder of a case has.
pub const FILES: [&str; 3] = ["about.md", "input", "output"];

/// Reads the cases of a folder, each under its path there: heading and name. What is missing is named.
pub fn read(cases: &Path) -> Result<BTreeMap<String, StoredCase>, String> {
    let top = cases.file_name().unwrap_or_default().display();
    let mut stored = BTreeMap::new();
    for heading in names_in(cases).map_err(|error| format!("{top}: {error}"))? {
        let folder = cases.join(&heading);
        if !folder.is_dir() {
            continue;
        }
        for name in names_in(&folder).map_err(|error| format!("{top}/{heading}: {error}"))? {
            let path = format!("{heading}/{name}");
            let case = read_case(&cases.join(&path)).map_err(|(file, error)| {
                format!("{top}/{path}/{file}: {error}; a case is a folder {top}/HEADING/NAME with {FILES:?}")
            })?;
            stored.insert(path, case);
        }
    }
    Ok(stored)
}

/// Reads one case, or says which file cannot be read.
fn read_case(folder: &Path) -> Result<StoredCase, (&'static str, io::Error)> {
    let [about, input, output] =
        FILES.map(|file| fs::read(folder.join(file)).map_err(|error| (file, error)));
    let about = String::from_utf8_lossy(&about?).into_owned();
    Ok(StoredCase { input: input?, output: output?, about })
}

/// The names in a folder, in order.
pub fn names_in(folder: &Path) -> io::Result<Vec<String>> {
    let mut names = Vec::new();
    for entry in fs::read_dir(folder)? {
        names.push(entry?.file_name().to_string_lossy().into_owned());
    }
    names.sort();
    Ok(names)
}

#[cfg(test)]
mod tests {
    use super::*;

    fn case(about: &str) -> StoredCase {
        StoredCase { input: vec![], output: vec![], about: about.to_string() }
    }

    #[test]
    fn a_title_is_the_first_line() {
        assert_eq!(case("# One byte\n\n# Two\n").title(), Some("One byte"));
        for about in ["", "\n# One\n", "One\n", "# \n", "## One\n"] {
            assert_eq!(case(about).title(), None);
        }
    }

    #[test]
    fn working_is_more_than_its_heading() {
        assert!(case("# A\n\n## Worked by hand\n\n- 1 + 1 = 2\n").is_worked_by_hand());
        assert!(!case("# A\n\n## Worked by hand\n\n").is_worked_by_hand());
        assert!(!case("# A\n\nWorked by hand\n").is_worked_by_hand());
    }
}
