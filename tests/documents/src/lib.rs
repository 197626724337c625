//! Checks what the documents say against the files of the repository, so that neither a rule of the
//! reference, a row of the trace nor a link goes stale. Each check returns all its problems at once, one a line.

pub mod calls;
pub mod declared;
pub mod edits;
pub mod header;
pub mod links;
pub mod machine;
pub mod markdown;
pub mod opcodes;
pub mod promises;
pub mod reference;
mod references;
pub mod repository;
mod tables;
pub mod trace;
