//! Tests golden files.

use linkcap::{golden, Options};
use std::panic::{self, AssertUnwindSafe};
use std::path::{Path, PathBuf};
use std::process::{Command, Output};
use std::{env, fs};

const IFLA_MTU: u8 = 4;
const HEAD: &str = "# linkcap lines, format 4\n";

/// Returns an RTM_NEWLINK with this sequence number, an IFLA_MTU of 1280 and the number, and an IFLA_PROMISCUITY of 0.
fn new_link(number: u8) -> Vec<u8> {
    let mut capture = vec![0x30, 0, 0, 0, 16, 0, 5, 0, number, 9, 0, 0, 0, 0, 0, 0];
    capture.extend([0; 16]);
    capture.extend([8, 0, IFLA_MTU, 0, number, 5, 0, 0]);
    capture.extend([8, 0, 30, 0, 0, 0, 0, 0]);
    capture
}

/// The lines of `new_link`, without numbers.
fn lines_of(number: u32) -> String {
    format!(
        "RTM_NEWLINK flags 0x5 (REQUEST | ACK)\n  ifinfomsg family 0 (AF_UNSPEC) type 0 index 0 flags 0x0 change 0x0\n  \
         IFLA_MTU {}\n  IFLA_PROMISCUITY 0\n",
        1280 + number
    )
}

/// A folder of a test, which is removed.
struct Folder(PathBuf);

impl Folder {
    fn new(name: &str) -> Folder {
        let path = env::temp_dir().join(format!("linkcap-golden-{}-{name}", std::process::id()));
        fs::create_dir_all(&path).expect("a folder");
        Folder(path)
    }

    /// Writes a file, and returns its path.
    fn file(&self, text: &str) -> PathBuf {
        let path = self.0.join("a.lines");
        fs::write(&path, text).expect("a file");
        path
    }
}

impl Drop for Folder {
    fn drop(&mut self) {
        fs::remove_dir_all(&self.0).expect("a folder");
    }
}

/// Returns the message of a comparison that fails, or nothing.
fn failure(capture: &[u8], path: &Path, options: Options<'_>) -> String {
    let payload = match panic::catch_unwind(AssertUnwindSafe(|| options.golden(capture, path))) {
        Ok(()) => return String::new(),
        Err(payload) => payload,
    };
    *payload.downcast::<String>().expect("a message")
}

fn default_failure(capture: &[u8], path: &Path) -> String {
    failure(capture, path, Options::new())
}

#[test]
fn equal_and_different() {
    let folder = Folder::new("equal");
    let path = folder.file(&(HEAD.to_string() + &lines_of(1)));
    golden(new_link(1), &path);
    let mut renumbered = new_link(1);
    renumbered[9] = 8;
    golden(&renumbered, &path);
    let name = path.display();
    let expected = format!(
        "linkcap: the capture isn't that of the golden file\n--- {name}\n+++ this capture\n@@ -1,4 +1,4 @@\n RTM_NEWLINK flags 0x5 \
         (REQUEST | ACK)\n   ifinfomsg family 0 (AF_UNSPEC) type 0 index 0 flags 0x0 change 0x0\n-  IFLA_MTU 1281\n+  IFLA_MTU \
         1282\n   IFLA_PROMISCUITY 0\n"
    );
    assert_eq!(default_failure(&new_link(2), &path), expected);
}

/// Files that linkshow wrote have sequence numbers and port IDs, and no head.
#[test]
fn lines_of_linkshow() {
    for name in ["get-veth", "lo-request", "notify-vrf", "req-veth"] {
        let samples = Path::new(env!("CARGO_MANIFEST_DIR")).join("../../samples");
        let capture = fs::read(samples.join(format!("{name}.bin"))).expect(name);
        let path = samples.join(format!("{name}.lines"));
        Options::new().numbers(true).golden(&capture, &path);
        assert!(default_failure(&capture, &path).contains("\n-RTM_"), "{name}");
    }
}

#[test]
fn files() {
    let folder = Folder::new("files");
    let lines = lines_of(1);
    for (text, message) in [
        (lines.clone(), ""),
        ((HEAD.to_string() + &lines).replace('\n', "\r\n"), "ends them by CRLF"),
        (HEAD.to_string() + lines.trim_end(), "\\ No newline at end of file\n"),
        (HEAD.replace('4', "3") + &lines.replace("1281", "1280"), "has lines of format 3, and this linkcap writes format 4"),
        (HEAD.to_string(), "@@ -0,0 +1,4 @@\n+RTM_NEWLINK"),
    ] {
        let found = default_failure(&new_link(1), &folder.file(&text));
        assert!(found.contains(message) && found.is_empty() == message.is_empty(), "{text}: {found}");
    }
    let missing = folder.0.join("b.lines");
    let message = format!("linkcap: no golden file {}: write it with LINKCAP_UPDATE=1", missing.display());
    assert_eq!(default_failure(&new_link(1), &missing), message);
    assert!(default_failure(&new_link(1), &folder.0).starts_with(&format!("linkcap: {}: ", folder.0.display())));
}

#[test]
fn what_a_head_leaves_out() {
    let folder = Folder::new("head");
    let lines = lines_of(1).replace("  IFLA_MTU 1281\n", "");
    for (head, message) in [
        ("# leaves out: numbers, IFLA_MTU, probes", ""),
        ("# leaves out: ifla_mtu\n# leaves out: numbers", ""),
        ("# leaves out: numbers", "+  IFLA_MTU 1281"),
        ("# leaves out: IFLA_NAM", "no type, attribute or group is called \"IFLA_NAM\""),
        ("# leaves out what varies: RTM_NEWLINK > IFLA_MTU", "compare it by linkgold"),
    ] {
        let found = default_failure(&new_link(1), &folder.file(&format!("{HEAD}{head}\n{lines}")));
        assert!(found.contains(message) && found.is_empty() == message.is_empty(), "{head}: {found}");
    }
}

#[test]
fn options() {
    let folder = Folder::new("options");
    let both = [new_link(1), b"\x10\0\0\0\x01\0\0\0\x02\0\0\0\x03\0\0\0".to_vec()].concat();
    let path = folder.file(&lines_of(1));
    Options::new().only("newlink").golden(&both, &path);
    assert!(default_failure(&both, &path).ends_with("\n+NLMSG_NOOP flags 0x0\n"));
    Options::new().numbers(true).only("1").golden(&both, folder.file("NLMSG_NOOP flags 0x0 seq 2 port 3\n"));
    let path = folder.file(&(HEAD.to_string() + "# leaves out: IFLA_MTU\n" + &lines_of(1).replace("  IFLA_MTU 1281\n", "")));
    Options::new().without("IFLA_MTU").golden(new_link(7), &path);
    let unknown = failure(&both, &path, Options::new().without("IFLA_NAM"));
    assert_eq!(unknown, "linkcap: no type, attribute or group is called \"IFLA_NAM\"");
    let limited = failure(&both, &path, Options::new().limit(20));
    assert_eq!(limited, "linkcap: frame over the limit at 0");
    for (unused, name) in [
        (Options::new().offsets(true), "offsets"),
        (Options::new().keep_going(true), "keep_going"),
        (Options::new().json(true), "json"),
    ] {
        assert_eq!(failure(&both, &path, unused), format!("linkcap: the call doesn't use the option {name:?}"));
    }
}

#[test]
fn faults_and_captures_without_lines() {
    let folder = Folder::new("faults");
    let path = folder.file(&lines_of(1));
    let mut short = new_link(1);
    short[32] = 7;
    assert_eq!(default_failure(&short, &path), "linkcap: refused body at 0: IFLA_MTU: a payload of 3 bytes at 32");
    let nothing = "linkcap: the capture is empty, or has no message that is selected";
    assert_eq!(default_failure(&[], &path), nothing);
    assert_eq!(failure(&new_link(1), &path, Options::new().only("getlink")), nothing);
    let about_v0 = Options::new().link("v0");
    assert_eq!(failure(&new_link(1), &path, about_v0), nothing);
}

/// Compares the files that `LINKCAP_GOLDEN_FOLDER` names, if `updates` runs this; by itself it does nothing.
#[test]
fn files_of_the_environment() {
    if let Some(folder) = env::var_os("LINKCAP_GOLDEN_FOLDER").map(PathBuf::from) {
        golden(new_link(1), folder.join("new/a.lines"));
        Options::new().numbers(true).without("counters,IFLA_MTU").golden(new_link(1), folder.join("new/b.lines"));
    }
}

/// Runs `files_of_the_environment` in a process of its own.
fn run_with(folder: &Folder, update: Option<&str>) -> Output {
    let mut command = Command::new(env::current_exe().expect("this program"));
    command.args(["--exact", "files_of_the_environment", "--nocapture"]).env("LINKCAP_GOLDEN_FOLDER", &folder.0);
    match update {
        Some(value) => command.env("LINKCAP_UPDATE", value),
        None => command.env_remove("LINKCAP_UPDATE"),
    };
    command.output().expect("an output")
}

#[test]
fn updates() {
    let folder = Folder::new("updates");
    for update in [None, Some(""), Some("0")] {
        let output = run_with(&folder, update);
        assert!(!output.status.success() && !folder.0.join("new").exists());
        // The panic is located in the caller.
        let report = String::from_utf8(output.stderr).expect("a text");
        assert!(report.contains("no golden file") && report.contains("tests/golden.rs:"), "{report}");
    }
    assert!(run_with(&folder, Some("1")).status.success());
    assert!(run_with(&folder, None).status.success());
    let read = |name| fs::read_to_string(folder.0.join(name)).expect(name);
    assert_eq!(read("new/a.lines"), HEAD.to_string() + &lines_of(1));
    let lines = lines_of(1).replace("  IFLA_MTU 1281\n", "").replace("ACK)", "ACK) seq 2305 port 0");
    assert_eq!(read("new/b.lines"), HEAD.to_string() + "# leaves out: counters, IFLA_MTU\n" + &lines);
}
