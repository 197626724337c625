//! The program takes no argument: with one it says how it is used, reads nothing and runs nothing.

use cases::process::{repository, CaseProgram};

#[test]
fn an_argument_is_answered_by_the_usage() {
    let program = CaseProgram::find();
    let case = repository().join("cases/operations/worked-example/input").display().to_string();
    for arguments in [&["--help"][..], &[""], &["-"], &[&case], &["a", "b"]] {
        let printed = program.run_with_arguments(arguments);
        let said = String::from_utf8_lossy(&printed.stderr);
        assert!(printed.stdout.is_empty(), "{arguments:?} ran something: {printed:?}");
        assert!(printed.status.success(), "{arguments:?}: {printed:?}");
        for part in ["it takes no argument", "nothing was run", "usage: case <FILE", "in clear"] {
            assert!(said.contains(part), "{arguments:?}: no '{part}' in {said}");
        }
    }
}
