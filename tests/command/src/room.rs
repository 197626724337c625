//! Folders for the tests, and in them small repositories with a stand-in for `rt`.

use std::env;
use std::ffi::OsString;
use std::fs::{self, Permissions};
use std::os::unix::fs::PermissionsExt;
use std::path::{Path, PathBuf};
use std::process::{Command, Stdio};
use std::sync::atomic::{AtomicU32, Ordering};
use std::sync::Once;

use cases::process::repository;

use crate::process::run;

/// The number of the user who owns nothing.
pub const NOBODY: u32 = 65534;

/// A folder of its own, removed with its value. Its path has blanks.
pub struct Room {
    path: PathBuf,
}

impl Room {
    pub fn new() -> Room {
        static COUNT: AtomicU32 = AtomicU32::new(0);
        let number = COUNT.fetch_add(1, Ordering::Relaxed);
        let name = format!("run-case test {} {number}", std::process::id());
        let path = env::temp_dir().join(name);
        fs::create_dir(&path).expect("a folder for a test");
        fs::set_permissions(&path, Permissions::from_mode(0o755)).expect("a mode");
        Room { path }
    }

    pub fn path(&self) -> &Path {
        &self.path
    }

    /// Writes a file, with the folders above it.
    pub fn write(&self, name: &str, text: &str) -> PathBuf {
        let path = self.path.join(name);
        fs::create_dir_all(path.parent().expect("a folder")).expect("folders");
        fs::write(&path, text).expect("a file that can be written");
        path
    }

    /// Makes a program. Another process writes it: one that a test has open to write, in whatever thread,
    /// cannot be started.
    pub fn write_program(&self, name: &str, text: &str) {
        let text = self.write(&format!("{name}.text"), text);
        self.copy_program(&text, name);
    }

    pub fn copy_program(&self, from: &Path, name: &str) {
        let mut install = Command::new("install");
        let status =
            install.args(["-D", "-m", "755", "--"]).arg(from).arg(self.path.join(name)).status();
        assert!(status.expect("install").success(), "{name} is not made");
    }
}

impl Default for Room {
    fn default() -> Room {
        Room::new()
    }
}

impl Drop for Room {
    fn drop(&mut self) {
        // A folder that stays is no failure.
        let _ = fs::remove_dir_all(&self.path);
    }
}

/// The repository's own `run-case`.
pub fn own_command() -> PathBuf {
    repository().join("run-case")
}

/// The same, with its program built: the first call builds where that is needed, and says so.
pub fn own_built_command() -> PathBuf {
    static BUILT: Once = Once::new();
    BUILT.call_once(|| {
        let ended = run(Command::new(own_command()).stdin(Stdio::null()));
        assert_eq!(ended.stdout, "41 1 0 0 0\n", "run-case on an empty case: {}", ended.stderr);
    });
    own_command()
}

/// The case program that the repository's proofs made.
pub fn own_program() -> PathBuf {
    let path = repository().join("target/bin/case");
    assert!(path.is_file(), "there is no {}: make it with run-case", path.display());
    path
}

/// A search path with one folder first.
pub fn path_with(folder: &Path) -> OsString {
    let rest = env::var_os("PATH").unwrap_or_default();
    let folders = [folder.to_path_buf()].into_iter().chain(env::split_paths(&rest));
    env::join_paths(folders).expect("a search path")
}

/// Reads its case and prints the report of an empty one.
pub const QUICK_PROGRAM: &str = "#!/bin/sh\ncat >/dev/null\necho '0 0 0 0 0'\n";

/// What the quick program prints.
pub const REPORT: &str = "0 0 0 0 0\n";

/// Prints what rt prints in the folder of a crate, and makes the program unless its stamp says that it
/// did. It notes each call, and whether it was ever called while another call ran. The lowest crate has
/// not changed. Where it was told so, it takes 2 s to prove the next, and 3 s for the program.
const RT: &str = r#"#!/bin/sh
tools=$(dirname "$0")
crate=$(basename "$PWD")
echo "$crate: $*" >>"$tools/calls"
exec 8>"$tools/busy"
flock -n 8 || touch "$tools/two at once"
case $crate in
low)
    [ ! -f "$tools/before" ] || (cd ../.. && . "$tools/before") || exit
    ;;
middle)
    [ ! -f "$tools/slow" ] || sleep 2
    echo 'fn middle::half: proved'
    echo 'logic=proved functions=1'
    ;;
case)
    if [ -f "$tools/between" ]; then cd ../..; . "$tools/between"; cd crates/case; fi
    sum() { cat ../*/src/*.rt out/case 2>/dev/null | cksum; }
    if [ "$(cat out/case.stamp 2>/dev/null)" = "$(sum)" ]; then
        echo 'rt: nothing has changed since the last proved build, by out/case.stamp, so nothing is checked now'
    else
        [ ! -f "$tools/slow" ] || sleep 3
        cp "$tools/program" out/case
        echo 'fn case::main: proved'
        echo 'logic=proved functions=1 axioms=3'
        sum >out/case.stamp
    fi
    echo 'rt: running out/case; to give it other input, run that file yourself'
    ;;
esac
"#;

/// A repository of four crates, of which three make the program, with a stand-in for `rt` in `tools`.
pub struct SmallRepository {
    pub room: Room,
}

impl SmallRepository {
    /// Without a program as yet; the stand-in makes the quick one.
    pub fn new() -> SmallRepository {
        let room = Room::new();
        room.copy_program(&own_command(), "run-case");
        fs::copy(repository().join("VERSION"), room.path().join("VERSION")).expect("VERSION");
        room.write(
            "crates.txt",
            "# crates\nlow:\nmiddle: low # on low\naside: low\n\ncase: middle low\n",
        );
        for (name, file) in [("low", "lib"), ("middle", "lib"), ("aside", "lib"), ("case", "main")]
        {
            room.write(&format!("crates/{name}/src/{file}.rt"), &format!("// {name}\n"));
        }
        room.write_program("tools/rt", RT);
        room.write_program("tools/program", QUICK_PROGRAM);
        room.write("empty case", "");
        SmallRepository { room }
    }

    /// With the program built.
    pub fn built() -> SmallRepository {
        let small = SmallRepository::new();
        let ended = run(&mut small.command());
        assert_eq!((ended.status, ended.stdout.as_str()), (0, REPORT), "{}", ended.stderr);
        small
    }

    /// A program that the stand-in makes instead.
    pub fn with_program(self, text: &str) -> SmallRepository {
        self.room.write_program("tools/program", text);
        self
    }

    pub fn with_own_program(self) -> SmallRepository {
        self.room.copy_program(&own_program(), "tools/program");
        self
    }

    /// Has the stand-in take its time.
    pub fn slow(self) -> SmallRepository {
        self.room.write("tools/slow", "");
        self
    }

    /// What the stand-in does, at the top of the repository, before the first crate.
    pub fn with_first(self, script: &str) -> SmallRepository {
        self.room.write("tools/before", script);
        self
    }

    /// What the stand-in does there after two crates, before it makes the program.
    pub fn with_then(self, script: &str) -> SmallRepository {
        self.room.write("tools/between", script);
        self
    }

    /// `run-case` of this repository on an empty case.
    pub fn command(&self) -> Command {
        let mut command = self.command_alone();
        command.arg(self.path("empty case"));
        command
    }

    /// `run-case` of this repository, without an argument and with nothing on standard input.
    pub fn command_alone(&self) -> Command {
        let mut command = Command::new(self.path("run-case"));
        command.env("PATH", path_with(&self.path("tools"))).stdin(Stdio::null());
        command
    }

    /// The same by a shell, with words and redirections of its own behind it; `$case` is the empty case.
    pub fn shell(&self, words: &str) -> Command {
        let mut command = Command::new("bash");
        command.args(["-c", &format!("exec \"$command\" {words}")]).stdin(Stdio::null());
        command.env("command", self.path("run-case")).env("case", self.path("empty case"));
        command.env("PATH", path_with(&self.path("tools")));
        command
    }

    pub fn path(&self, name: &str) -> PathBuf {
        self.room.path().join(name)
    }

    pub fn has(&self, name: &str) -> bool {
        self.path(name).exists()
    }

    /// How often `rt` was called to build, each time for one crate after another.
    pub fn calls(&self) -> usize {
        assert!(!self.has("tools/two at once"), "rt was called while it ran");
        let calls = fs::read_to_string(self.path("tools/calls")).unwrap_or_default();
        let mut builds = 0;
        let mut next = 0;
        for call in calls.lines() {
            // A build that failed may have ended at any crate.
            next = if call == IN_TURN[0] { 0 } else { next };
            assert_eq!(Some(&call), IN_TURN.get(next), "rt was called as {calls:?}");
            builds += usize::from(next == 0);
            next += 1;
        }
        builds
    }

    /// The stand-in waits for this where it was told `WAIT`.
    pub fn go_on(&self) {
        self.room.write("tools/go", "");
    }
}

/// The calls of one build.
const IN_TURN: [&str; 3] = ["low: lib", "middle: lib", "case: run"];

impl Default for SmallRepository {
    fn default() -> SmallRepository {
        SmallRepository::new()
    }
}

/// For the stand-in: says that it has come here, and waits until it may go on.
pub const WAIT: &str = "touch \"$tools/here\"\nuntil [ -e \"$tools/go\" ]; do sleep 0.05; done\n";

/// A case whose one operation branches to itself, with the largest budget.
pub const ENDLESS_CASE: &str = "010004000000000000000000000000ffffffff010101\n\
    0400000000001100040000000000000000000000000000000000000000000000000000000000000000\n";
