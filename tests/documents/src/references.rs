//! What a cell refers to: files of the repository, and what they declare.

use crate::declared::declares;
use crate::markdown::take_apart;
use crate::repository::Repository;

/// A file, and the names that it is to declare.
#[derive(Debug, PartialEq)]
pub struct Reference<'a> {
    pub path: &'a str,
    pub names: Vec<&'a str>,
}

/// What stands in backticks: a path has a '/', and the names after it belong to it.
pub fn references(cell: &str) -> Result<Vec<Reference<'_>>, String> {
    let parts = take_apart(cell);
    if parts.unclosed {
        return Err("a backtick is not closed".to_string());
    }
    let mut references: Vec<Reference> = Vec::new();
    for code in parts.code {
        if code.contains('/') {
            references.push(Reference { path: code, names: Vec::new() });
        } else if let Some(last) = references.last_mut() {
            last.names.push(code);
        } else {
            return Err(format!("no path stands before `{code}`"));
        }
    }
    if references.is_empty() {
        return Err("it has neither a reference nor 'none: REASON'".to_string());
    }
    Ok(references)
}

pub fn problems_of_reference(repository: &Repository, reference: &Reference) -> Vec<String> {
    let path = reference.path;
    let Some(text) = repository.text(path) else {
        return vec![format!("there is no file {path}")];
    };
    if reference.names.is_empty() && !is_edit(path) {
        return vec![format!("no name follows {path}")];
    }
    let missing = reference.names.iter().filter(|name| !declares(path, text, name));
    missing.map(|name| format!("{path} does not declare {name}")).collect()
}

pub fn is_edit(path: &str) -> bool {
    path.starts_with("crates/") && path.contains("/must-fail/") && path.ends_with(".edit")
}
