//! Tests golden files of what a command sends, with a shell script in place of linkgold.

use linkcap::golden_command;
use std::os::unix::fs::PermissionsExt;
use std::panic::{self, AssertUnwindSafe};
use std::process::Command;
use std::{env, fs};

/// Runs `golden_command` with a script as linkgold. Returns the words of its panic; none if it returns.
fn panic_of(script: &str, command: &Command, options: &[&str]) -> String {
    let path = env::temp_dir().join(format!("linkgold-{}", std::process::id()));
    fs::write(&path, format!("#!/bin/sh\n{script}\n")).expect("a script");
    fs::set_permissions(&path, fs::Permissions::from_mode(0o755)).expect("a program");
    env::set_var("LINKGOLD", &path);
    let result = panic::catch_unwind(AssertUnwindSafe(|| golden_command(command, "made.lines", options)));
    fs::remove_file(&path).expect("the script");
    result.map_or_else(|words| *words.downcast::<String>().expect("a text"), |()| String::new())
}

// One test, since it sets variables of the environment.
#[test]
fn compares_by_linkgold() {
    let folder = env::current_dir().expect("a folder");
    let file = folder.join("made.lines");
    let mut command = Command::new("/bin/echo");
    command.args(["a b", "c"]).env("MARK", "here").env_remove("HOME").current_dir("/");

    assert_eq!(panic_of("exit 0", &command, &[]), "");
    let different = "linkcap: the command doesn't send what the golden file has\n";
    let told = panic_of("printf '%s,' \"$@\" \"$MARK\" \"$HOME\" \"$(pwd)\"; exit 1", &command, &["--only=newlink"]);
    assert_eq!(told, format!("{different}--only=newlink,{},--,/bin/echo,a b,c,here,,/,", file.display()));
    let failed = panic_of("echo 'linkgold: nothing was recorded' >&2; exit 2", &command, &[]);
    assert_eq!(failed, "linkcap: /bin/echo: linkgold: nothing was recorded\n");

    env::set_var("LINKCAP_UPDATE", "1");
    let updating = panic_of("printf '%s,' \"$@\"; exit 1", &Command::new("true"), &[]);
    assert_eq!(updating, format!("{different}--update,{},--,true,", file.display()));
    env::remove_var("LINKCAP_UPDATE");

    env::set_var("LINKGOLD", "/nowhere/linkgold");
    let missing = panic::catch_unwind(|| golden_command(&Command::new("true"), "made.lines", &[])).expect_err("a panic");
    let words = missing.downcast::<String>().expect("a text");
    assert!(words.starts_with("linkcap: /nowhere/linkgold: No such file or directory"), "{words}");
}
