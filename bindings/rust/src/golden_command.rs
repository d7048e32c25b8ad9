//! Golden files of what a command sends, by the program linkgold.

use crate::golden::is_updating;
use std::path::Path;
use std::process::{Command, Output};
use std::{env, io};

/// The environment variable that names the program linkgold.
const PROGRAM: &str = "LINKGOLD";

/// linkgold's exit status if the lines differ from those of the golden file.
const DIFFERENT: i32 = 1;

/// Compares what a command asks the kernel for with a golden file, by the program `linkgold`: its lines have the names of links
/// in place of indexes, network namespaces, and what the kernel refused. The options are those of `linkgold`. If the environment
/// variable `LINKCAP_UPDATE` is set, and neither empty nor `0`, it writes the file instead.
///
/// The command runs in a new network namespace, with its arguments, its folder, and what it changes of this process's
/// environment. A `Command` doesn't show whether `env_clear` was called, so such a command still gets this process's other
/// variables. `linkgold` has to be on PATH, or named by `LINKGOLD`; it needs strace, and without root a kernel that allows user
/// namespaces. Cargo builds the programs of a package before its tests, and names them: `env!("CARGO_BIN_EXE_tool")`.
///
/// # Panics
///
/// With a unified diff if the lines differ; with what `linkgold` reports if it fails, for example because the command does, or
/// because nothing can be recorded here; and if there is no `linkgold`.
///
/// ```no_run
/// use std::process::Command;
///
/// let mut command = Command::new("ip");
/// command.args(["link", "set", "lo", "up"]);
/// linkcap::golden_command(&command, "tests/golden/up.lines", &["--only=newlink"]);
/// ```
#[track_caller]
pub fn golden_command(command: &Command, path: impl AsRef<Path>, options: &[&str]) {
    let program = env::var_os(PROGRAM).unwrap_or_else(|| "linkgold".into());
    let output = match run(command, path.as_ref(), options, Command::new(&program)) {
        Ok(output) => output,
        Err(error) => panic!("linkcap: {}: {error}: put linkgold on PATH, or name it by {PROGRAM}", program.to_string_lossy()),
    };
    let text = [output.stdout, output.stderr].map(|bytes| String::from_utf8_lossy(&bytes).into_owned()).concat();
    match output.status.code() {
        Some(0) => {}
        Some(DIFFERENT) => panic!("linkcap: the command doesn't send what the golden file has\n{text}"),
        _ => panic!("linkcap: {}: {text}", command.get_program().to_string_lossy()),
    }
}

/// Runs a command under linkgold.
fn run(command: &Command, path: &Path, options: &[&str], mut linkgold: Command) -> io::Result<Output> {
    if is_updating() {
        linkgold.arg("--update");
    }
    // The command may run in another folder.
    linkgold.args(options).arg(env::current_dir()?.join(path)).arg("--").arg(command.get_program()).args(command.get_args());
    for (name, value) in command.get_envs() {
        match value {
            Some(value) => linkgold.env(name, value),
            None => linkgold.env_remove(name),
        };
    }
    if let Some(folder) = command.get_current_dir() {
        linkgold.current_dir(folder);
    }
    linkgold.output()
}
