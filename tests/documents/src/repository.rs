//! The files of the repository, held in memory: a check of a path is then exact in its case, and a
//! test needs no folder.

use std::collections::BTreeMap;
use std::fs;
use std::io;
use std::path::Path;

/// Each file's text, under its path from the top.
#[derive(Default)]
pub struct Repository {
    files: BTreeMap<String, String>,
}

impl Repository {
    /// Reads all but `.git` and the folders `target` and `out`, which no clone has.
    pub fn read(top: &Path) -> io::Result<Repository> {
        let mut repository = Repository::default();
        repository.read_folder(top, "")?;
        Ok(repository)
    }

    #[cfg(test)]
    pub fn of(files: &[(&str, &str)]) -> Repository {
        let files = files.iter().map(|(path, text)| (path.to_string(), text.to_string()));
        Repository { files: files.collect() }
    }

    fn read_folder(&mut self, folder: &Path, prefix: &str) -> io::Result<()> {
        for entry in fs::read_dir(folder)? {
            let entry = entry?;
            let name = entry.file_name().to_string_lossy().into_owned();
            let path = format!("{prefix}{name}");
            if name == ".git" {
                continue;
            }
            if !entry.file_type()?.is_dir() {
                let text = String::from_utf8_lossy(&fs::read(entry.path())?).into_owned();
                self.files.insert(path, text);
            } else if name != "target" && name != "out" {
                self.read_folder(&entry.path(), &format!("{path}/"))?;
            }
        }
        Ok(())
    }

    pub fn files(&self) -> impl Iterator<Item = (&str, &str)> {
        self.files.iter().map(|(path, text)| (path.as_str(), text.as_str()))
    }

    pub fn text(&self, path: &str) -> Option<&str> {
        self.files.get(path).map(String::as_str)
    }

    /// Whether there is such a file or folder; the top itself is the empty path.
    pub fn has(&self, path: &str) -> bool {
        let folder = format!("{path}/");
        path.is_empty()
            || self.files.contains_key(path)
            || self.files.keys().any(|file| file.starts_with(&folder))
    }
}

#[cfg(test)]
mod tests {
    use super::*;

    #[test]
    fn files_and_folders_are_found_in_their_exact_case() {
        let repository = Repository::of(&[("docs/TRACE.md", "")]);
        assert!(repository.has("docs/TRACE.md"));
        assert!(repository.has("docs"));
        assert!(!repository.has("docs/Trace.md"));
        assert!(!repository.has("doc"));
    }
}
