//! Golden files of lines, for tests.

use crate::diff::unified_diff;
use crate::writing::{into_string, write_all};
use crate::{format, Options};
use std::path::Path;
use std::{env, fs, io};

/// The environment variable by which golden files are written.
const UPDATE: &str = "LINKCAP_UPDATE";

/// How the lines of a head begin: the first one, and those that name what linkgold left out.
const FIRST_LINE: &str = "# linkcap lines";
const LEFT_OUT: &str = "# leaves out:";
const VARIES: &str = "# leaves out what varies:";

/// What heads call the probes of iproute2, which aren't looked for here.
const PROBES: &str = "probes";

/// Compares a capture's lines with those of a file, without sequence numbers and netlink port IDs. If the environment
/// variable `LINKCAP_UPDATE` is set, and neither empty nor `0`, it writes the file instead, and its folder. `cargo test` runs tests in the
/// folder of their package, so a path from there will do.
///
/// The file is the one that Python's `golden`, Go's `linkcaptest` and `linkgold` have. Its first line has the format version; it
/// may be missing, as in the output of `linkshow`. What the lines after it say that `linkgold` left out is left out of the
/// capture's lines.
///
/// # Panics
///
/// With a unified diff if the lines differ; with the fault of a capture that isn't legal; if the capture is without lines,
/// since then the test has captured nothing; and if the file can't be read or written.
///
/// ```no_run
/// // An RTM_GETLINK of the link lo.
/// let request = b"\x28\0\0\0\x12\0\x01\0\x01\0\0\0\0\0\0\0\0\0\0\0\0\0\0\0\0\0\0\0\0\0\0\0\x07\0\x03\0lo\0\0";
/// linkcap::golden(request, "tests/golden/lo.lines");
/// ```
#[track_caller]
pub fn golden(capture: impl AsRef<[u8]>, path: impl AsRef<Path>) {
    Options::new().golden(capture, path);
}

impl Options<'_> {
    /// Does what [`golden`](crate::golden()) does with the lines that these options select. A file that is written names what
    /// [`without`](Options::without) leaves out. [`numbers(true)`](Options::numbers) compares sequence numbers and netlink
    /// port IDs too.
    ///
    /// # Panics
    ///
    /// As [`golden`](crate::golden()), for options that aren't valid, and for [`offsets`](Options::offsets),
    /// [`keep_going`](Options::keep_going) and [`json`](Options::json), which it doesn't use.
    ///
    /// ```no_run
    /// let request = b"\x28\0\0\0\x12\0\x01\0\x01\0\0\0\0\0\0\0\0\0\0\0\0\0\0\0\0\0\0\0\0\0\0\0\x07\0\x03\0lo\0\0";
    /// linkcap::Options::new().only("getlink").without("IFLA_EXT_MASK").golden(request, "tests/golden/lo.lines");
    /// ```
    #[track_caller]
    pub fn golden(self, capture: impl AsRef<[u8]>, path: impl AsRef<Path>) {
        let call = if is_updating() { update } else { compare };
        if let Err(message) = call(capture.as_ref(), path.as_ref(), self.without_numbers_by_default()) {
            panic!("linkcap: {message}");
        }
    }
}

pub(crate) fn is_updating() -> bool {
    env::var_os(UPDATE).map_or(false, |value| !value.is_empty() && value != "0")
}

/// Returns the lines that options select; or the words of an error.
fn select_lines(capture: &[u8], options: Options<'_>) -> Result<String, String> {
    let options = options.for_lines(&["only", "link", "without", "numbers"]);
    let text = options.and_then(|options| write_all(&options, capture)).map_err(|error| error.to_string())?;
    if text.is_empty() {
        return Err("the capture is empty, or has no message that is selected".to_string());
    }
    Ok(into_string(text))
}

/// Writes a golden file, and its folder.
fn update(capture: &[u8], path: &Path, options: Options<'_>) -> Result<(), String> {
    let lines = select_lines(capture, options)?;
    let mut text = format!("{FIRST_LINE}, format {}\n", format());
    if !options.without.is_empty() {
        text += &format!("{LEFT_OUT} {}\n", split_names(options.without).collect::<Vec<_>>().join(", "));
    }
    let folder = path.parent().unwrap_or_else(|| Path::new(""));
    let write = || {
        fs::create_dir_all(folder)?;
        fs::write(path, text + &lines)
    };
    write().map_err(|error| format!("{}: {error}", path.display()))
}

/// Compares the lines of a capture with those of a golden file. Returns as an Err what is wrong.
fn compare(capture: &[u8], path: &Path, options: Options<'_>) -> Result<(), String> {
    let mut lines = select_lines(capture, options)?;
    let name = path.display().to_string();
    let bytes = fs::read(path).map_err(|error| match error.kind() {
        io::ErrorKind::NotFound => format!("no golden file {name}: write it with {UPDATE}=1"),
        _ => format!("{name}: {error}"),
    })?;
    let text = String::from_utf8_lossy(&bytes);
    let file = GoldenFile::parse(&text);
    if file.varies {
        return Err(format!("{name} is of linkgold --effect, and leaves out what varies between two runs: compare it by linkgold"));
    }
    if !file.without.is_empty() {
        let mut without = file.without.clone();
        without.extend(split_names(options.without).filter(|name| !file.without.contains(name)));
        lines = select_lines(capture, options.without(&without.join(","))).map_err(|words| format!("{name}: {words}"))?;
    }
    if file.lines == lines {
        Ok(())
    } else {
        Err(describe_difference(&name, &file, &lines))
    }
}

/// Returns the names in a list with commas between them.
fn split_names(list: &str) -> impl Iterator<Item = &str> {
    list.split(',').map(str::trim).filter(|name| !name.is_empty())
}

/// The text of a golden file.
#[derive(Debug)]
struct GoldenFile<'a> {
    /// The format version, if the head has one.
    version: Option<u32>,
    /// The attributes and groups that linkgold left out, without the probes of iproute2.
    without: Vec<&'a str>,
    /// Whether linkgold left out what varies between two runs.
    varies: bool,
    lines: &'a str,
}

impl<'a> GoldenFile<'a> {
    fn parse(text: &'a str) -> GoldenFile<'a> {
        let mut file = GoldenFile { version: None, without: Vec::new(), varies: false, lines: text };
        while let Some((line, rest)) = file.lines.split_once('\n') {
            if !file.read_head_line(line.trim_end_matches('\r')) {
                break;
            }
            file.lines = rest;
        }
        file
    }

    /// Takes a line if it is one of the head. Returns whether it is.
    fn read_head_line(&mut self, line: &'a str) -> bool {
        if let Some(rest) = line.strip_prefix(FIRST_LINE) {
            self.version = rest.strip_prefix(", format ").and_then(|number| number.parse().ok());
        } else if let Some(names) = line.strip_prefix(LEFT_OUT) {
            self.without.extend(split_names(names).filter(|name| *name != PROBES));
        } else {
            self.varies |= line.starts_with(VARIES);
            return line.starts_with(VARIES);
        }
        true
    }
}

/// Returns how the lines of a capture differ from those of a golden file.
fn describe_difference(name: &str, file: &GoldenFile<'_>, lines: &str) -> String {
    if file.lines.replace("\r\n", "\n") == lines {
        return format!(
            "{name} has the capture's lines, but ends them by CRLF: keep it as it was written, in git by a line `*.lines -text` of \
             .gitattributes"
        );
    }
    let reason = match file.version {
        Some(version) if version != format() => format!(
            "{name} has lines of format {version}, and this linkcap writes format {}: update the file with the capture that it was \
             made of (CHANGELOG.md)",
            format()
        ),
        _ => "the capture isn't that of the golden file".to_string(),
    };
    format!("{reason}\n{}", unified_diff([name, "this capture"], file.lines, lines))
}
