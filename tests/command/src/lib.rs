//! What the tests of `run-case` stand on: commands that are started and waited for, terminals, small
//! repositories with a stand-in for `rt`, and the messages in the command's source.

pub mod messages;
pub mod process;
pub mod room;
pub mod system;
pub mod terminal;
