//! Tests the calls with the stored vectors, and edge cases.

mod common;

use common::attribute;
use linkcap::{Error, Kind, LineReader, Message, NormalReader, Options, QuirkKind, Reader, Side};
use std::fs;
use std::io::{self, Read};
use std::path::Path;

fn read_file(name: &str) -> Vec<u8> {
    fs::read(Path::new(env!("CARGO_MANIFEST_DIR")).join("../..").join(name)).expect(name)
}

fn read_text(name: &str) -> String {
    String::from_utf8(read_file(name)).expect("a text")
}

fn decode_hex(digits: &str) -> Vec<u8> {
    (0..digits.len() / 2).map(|i| u8::from_str_radix(&digits[2 * i..2 * i + 2], 16).expect("hex")).collect()
}

fn encode_hex(bytes: &[u8]) -> String {
    bytes.iter().map(|byte| format!("{byte:02x}")).collect()
}

/// Returns the lines that are cases. A line that begins with `# ` labels those that follow.
fn filter_cases(stdin: &str) -> impl Iterator<Item = &str> {
    stdin.lines().filter(|line| !line.starts_with("# "))
}

/// Returns the stored cases of a kind, and the lines of their outputs: one each, except for `show`, the last kind.
fn read_cases(kind: &str) -> (Vec<String>, Vec<String>) {
    let (stdin, stdout) = (read_text("crates/vectors/stdin"), read_text("crates/vectors/stdout"));
    let prefix = format!("{kind} ");
    let start = filter_cases(&stdin).take_while(|line| !line.starts_with(&prefix)).count();
    let cases: Vec<String> = filter_cases(&stdin).filter_map(|line| line.strip_prefix(&prefix)).map(String::from).collect();
    assert!(!cases.is_empty());
    let count = if kind == "show" { usize::MAX } else { cases.len() };
    let outputs: Vec<String> = stdout.lines().skip(start).take(count).map(String::from).collect();
    assert!(outputs.len() >= cases.len());
    (cases, outputs)
}

/// Returns the limit and the captures of each case of a kind, and its expected output.
fn read_vectors(kind: &str) -> Vec<(u32, Vec<Vec<u8>>, String)> {
    let (cases, outputs) = read_cases(kind);
    cases
        .iter()
        .zip(outputs)
        .map(|(case, output)| {
            let mut columns = case.split(' ');
            (columns.next().expect("a limit").parse().expect("a limit"), columns.map(decode_hex).collect(), output)
        })
        .collect()
}

/// Returns the options with a limit alone.
fn under(limit: u32) -> Options<'static> {
    Options::new().limit(limit)
}

type Output = (Vec<u8>, Option<Error>);

fn normalize_whole(capture: &[u8], limit: u32) -> Output {
    match under(limit).normalize(capture) {
        Ok(text) => (text, None),
        Err(error) => (error.fault().expect("a fault").written.clone(), Some(error)),
    }
}

fn normalize_pieces(capture: &[u8], limit: u32, size: usize) -> Output {
    let mut reader = Reader::new(under(limit)).expect("a limit");
    let mut out = Vec::new();
    for piece in capture.chunks(size) {
        if let Err(error) = reader.feed(piece, &mut out) {
            assert_eq!(reader.feed(piece, &mut out), Err(Error::Failed));
            return (out, Some(error));
        }
    }
    let error = reader.finish(&mut out).err();
    (out, error)
}

/// A source of pieces of one size, which is interrupted before each.
struct Chunks<'a> {
    rest: &'a [u8],
    size: usize,
    is_interrupted: bool,
}

impl Read for Chunks<'_> {
    fn read(&mut self, to: &mut [u8]) -> io::Result<usize> {
        self.is_interrupted = !self.is_interrupted;
        if self.is_interrupted {
            return Err(io::Error::from(io::ErrorKind::Interrupted));
        }
        let size = self.size.min(to.len());
        Read::take(&mut self.rest, size as u64).read(to)
    }
}

fn normalize_by_reader(capture: &[u8], limit: u32, size: usize) -> Output {
    let source = Chunks { rest: capture, size, is_interrupted: false };
    let mut reader = NormalReader::new(source, under(limit)).expect("a limit");
    let mut out = Vec::new();
    // `read_to_end` reads again after an interruption.
    let error = reader.read_to_end(&mut out).err().map(|error| {
        assert_eq!(error.kind(), io::ErrorKind::InvalidData);
        assert_eq!(reader.read(&mut [0; 9]).expect_err("the same error").to_string(), error.to_string());
        *error.into_inner().expect("an error inside").downcast::<Error>().expect("one of linkcap")
    });
    (out, error)
}

fn count_messages(capture: &[u8], limit: u32) -> Result<u64, Error> {
    under(limit).messages(capture)?.try_fold(0, |count, message| message.map(|_| count + 1))
}

fn format_norm(capture: &[u8], limit: u32, (text, error): Output) -> String {
    let measurement = under(limit).measure(capture);
    assert_eq!(under(limit).check(capture).err(), measurement.clone().err());
    match (error, measurement) {
        (None, Ok(sizes)) if count_messages(capture, limit) == Ok(sizes.frames) => {
            format!("{} {} {} {}", encode_hex(&text), sizes.frames, sizes.attributes, sizes.text_len)
        }
        (Some(error), Err(measure_error)) => {
            let (fault, other) = (error.fault().expect("a fault"), measure_error.fault().expect("a fault"));
            assert_eq!((fault.kind, fault.offset, fault.side), (other.kind, other.offset, None));
            assert_eq!(fault.why, other.why);
            assert_eq!(count_messages(capture, limit), Err(measure_error));
            format!("{} {}", encode_hex(&text), fault.words())
        }
        _ => panic!("a measure with another answer"),
    }
}

#[test]
fn norm() {
    for (i, (limit, captures, line)) in read_vectors("norm").into_iter().enumerate() {
        assert_eq!(format_norm(&captures[0], limit, normalize_whole(&captures[0], limit)), line);
        assert_eq!(format_norm(&captures[0], limit, normalize_pieces(&captures[0], limit, [1, 7, 100][i % 3])), line);
        assert_eq!(format_norm(&captures[0], limit, normalize_by_reader(&captures[0], limit, [1, 7, 100][i % 3])), line);
    }
}

fn lines_without_numbers(capture: &[u8], limit: u32) -> Result<String, Error> {
    under(limit).numbers(false).lines(capture)
}

#[test]
fn same() {
    for (limit, captures, line) in read_vectors("same") {
        let output = match under(limit).same(&captures[0], &captures[1]) {
            Ok(true) => "same".to_string(),
            Ok(false) => "different".to_string(),
            Err(error) => error.fault().expect("a fault").words(),
        };
        assert_eq!(output, line);
        let unnumbered = under(limit).numbers(false).same(&captures[0], &captures[1]);
        match under(limit).same(&captures[0], &captures[1]) {
            Ok(is_same) => {
                let are_lines_equal = lines_without_numbers(&captures[0], limit) == lines_without_numbers(&captures[1], limit);
                assert_eq!(unnumbered, Ok(is_same || are_lines_equal));
            }
            Err(error) => assert_eq!(unnumbered, Err(error)),
        }
    }
}

/// Returns the options that a stored case has.
fn choose_lines<'a>(limit: &str, choice: &'a str) -> Options<'a> {
    let options = under(limit.parse().expect("a limit"));
    match choice {
        "without-numbers" => options.numbers(false),
        only => options.only(only),
    }
}

#[test]
fn show() {
    let (cases, expected) = read_cases("show");
    let mut output = String::new();
    for case in cases {
        let (prefix, capture) = case.rsplit_once(' ').expect("a capture");
        let (limit, choice) = prefix.split_once(' ').unwrap_or((prefix, ""));
        match choose_lines(limit, choice).lines(&decode_hex(capture)) {
            Ok(lines) => output += &(lines + "legal\n"),
            Err(error) => {
                output += std::str::from_utf8(&error.fault().expect("a fault").written).expect("lines");
                output += &format!("{}\n", error.fault().expect("a fault").words());
            }
        }
    }
    assert!(output == expected.join("\n") + "\n");
}

/// Compares lines with those of the independent implementation.
#[test]
fn show_selected() {
    // A link whose IFLA_MTU has 3 bytes, and a request for `lo`.
    let refused = b"\x28\0\0\0\x10\0\0\0\0\0\0\0\0\0\0\0\0\0\0\0\0\0\0\0\0\0\0\0\0\0\0\0\x07\0\x04\0\x01\x02\x03\0";
    let request = b"\x28\0\0\0\x12\0\x01\0\x01\0\0\0\0\0\0\0\0\0\0\0\0\0\0\0\0\0\0\0\0\0\0\0\x07\0\x03\0lo\0\0";
    let all = "RTM_NEWLINK flags 0x0 offset 0\n  refused: IFLA_MTU: a payload of 3 bytes\n  \
        body 000000000000000000000000000000000700040001020300\nRTM_GETLINK flags 0x1 (REQUEST) offset 40\n  \
        ifinfomsg family 0 (AF_UNSPEC) type 0 index 0 flags 0x0 change 0x0\n  IFLA_IFNAME \"lo\"\n";
    let about_lo = "RTM_GETLINK flags 0x1 (REQUEST) seq 1 port 0\n  \
        ifinfomsg family 0 (AF_UNSPEC) type 0 flags 0x0 change 0x0\n  IFLA_IFNAME \"lo\"\n";
    let default = Options::new().keep_going(true);
    for (options, expected) in [
        (default.numbers(false).offsets(true), all),
        (default.only("getlink,77").link("lo").without("indexes"), about_lo),
        (default.keep_going(false), ""),
    ] {
        let capture = [&refused[..], request].concat();
        let error = options.lines(&capture).expect_err("a fault");
        let fault = error.fault().expect("a fault");
        assert_eq!(std::str::from_utf8(&fault.written), Ok(expected));
        assert_eq!((fault.kind, fault.offset), (Kind::Refused, 0));
        for size in [1, 7, 16, 4096] {
            let mut reader = LineReader::new(options).expect("options");
            let mut lines = Vec::new();
            let result = capture.chunks(size).try_for_each(|piece| reader.feed(piece, &mut lines));
            let in_pieces = result.and_then(|()| reader.finish(&mut lines)).expect_err("a fault");
            assert_eq!(std::str::from_utf8(&lines), Ok(expected));
            let in_pieces = in_pieces.fault().expect("a fault");
            assert_eq!((in_pieces.kind, in_pieces.offset, &in_pieces.why), (Kind::Refused, 0, &fault.why));
        }
    }
    for sample in ["samples/req-veth", "samples/get-veth"] {
        let (capture, expected) = (read_file(&format!("{sample}.bin")), read_file(&format!("{sample}.lines")));
        for size in [1, 7, 16, 4096] {
            let (mut reader, mut lines) = (LineReader::new(default).expect("options"), Vec::new());
            capture.chunks(size).try_for_each(|piece| reader.feed(piece, &mut lines)).expect("a legal capture");
            reader.finish(&mut lines).expect("a legal capture");
            assert!(lines == expected, "{sample} in pieces of {size}");
        }
    }
    assert_eq!(default.link("1").lines(request), Ok(String::new()));
    for (only, without, unknown) in [("", "counters,mtu", "mtu"), ("newlink,links", "mtu", "links"), (",", "", "")] {
        let options = default.only(only).without(without);
        let error = Error::UnknownName(unknown.to_string());
        assert_eq!(options.lines(request), Err(error.clone()));
        assert_eq!(LineReader::new(options).expect_err("an unknown word"), error);
    }
    let types = vec!["18"; 33].join(",");
    assert_eq!(default.only(&types).lines(request), Err(Error::TooMany));
}

/// A call doesn't ignore an option: it returns an error for one that it doesn't use.
#[test]
fn unused_options() {
    let unused = |name| Some(Error::UnusedOption(name));
    for (options, name) in [
        (Options::new().only("newlink"), "only"),
        (Options::new().link("lo"), "link"),
        (Options::new().without("counters"), "without"),
        (Options::new().numbers(true), "numbers"),
        (Options::new().offsets(true), "offsets"),
        (Options::new().keep_going(true), "keep_going"),
        (Options::new().json(true), "json"),
    ] {
        assert_eq!(options.normalize(&[]).err(), unused(name));
        assert_eq!(options.measure(&[]).err(), unused(name));
        assert_eq!(options.why(&[]).err(), unused(name));
        assert_eq!(options.quirks(&[]).err(), unused(name));
        assert_eq!(options.messages(&[]).err(), unused(name));
        assert_eq!(Reader::new(options).err(), unused(name));
        assert_eq!(NormalReader::new(&[][..], options).err(), unused(name));
        assert_eq!(options.same(&[], &[]).err(), if name == "numbers" { None } else { unused(name) });
        let of_attributes = ["only", "link", "without"];
        assert_eq!(options.attributes(&[]).err(), if of_attributes.contains(&name) { None } else { unused(name) });
        assert_eq!(options.lines(&[]), Ok(String::new()));
    }
    assert_eq!(Error::UnusedOption("json").to_string(), "the call doesn't use the option \"json\"");
}

/// Compares the lines of each case, shown in pieces.
#[test]
fn show_in_pieces() {
    let (cases, expected) = read_cases("show");
    let mut output = String::new();
    for (i, case) in cases.iter().enumerate() {
        let (prefix, capture) = case.rsplit_once(' ').expect("a capture");
        let (limit, choice) = prefix.split_once(' ').unwrap_or((prefix, ""));
        let mut reader = LineReader::new(choose_lines(limit, choice)).expect("a limit");
        let (capture, mut lines) = (decode_hex(capture), Vec::new());
        let result = capture.chunks([1, 7, 100][i % 3]).try_for_each(|piece| reader.feed(piece, &mut lines));
        let end = match result.and_then(|()| reader.finish(&mut lines)) {
            Ok(()) => "legal".to_string(),
            Err(error) => error.fault().expect("a fault").words(),
        };
        output += &(String::from_utf8(lines).expect("lines") + &end + "\n");
    }
    assert!(output == expected.join("\n") + "\n");
}

#[test]
fn quirks() {
    for (limit, captures, line) in read_vectors("spelling") {
        let (end, quirks) = match under(limit).quirks(&captures[0]) {
            Ok(quirks) => ("legal".to_string(), quirks),
            Err(error) => {
                let fault = error.fault().expect("a fault");
                let before = &captures[0][..usize::try_from(fault.offset).expect("an offset")];
                (fault.words(), under(limit).quirks(before).expect("legal messages"))
            }
        };
        let words: String = quirks.iter().map(|quirk| format!("{quirk}; ")).collect();
        assert_eq!(words + &end, line);
    }
    let mut request = read_file("samples/lo-request.bin");
    request[17] = 1;
    let many = linkcap::quirks(&request.repeat(40)).expect("a legal capture");
    assert_eq!((many.len(), many[1].kind, many[1].offset), (40, QuirkKind::HeaderByte, 48 + 17));
}

#[test]
fn refusal() {
    for (limit, captures, line) in read_vectors("refusal") {
        match under(limit).why(&captures[0]).expect("memory") {
            None => assert_eq!(line, "nothing"),
            Some(refusal) => {
                assert_eq!(refusal.to_string(), line);
                assert_eq!(refusal.offset, line.rsplit_once(" at ").and_then(|(_, offset)| offset.parse().ok()));
                let error = under(limit).check(&captures[0]).expect_err("a refused body");
                let fault = error.fault().expect("a fault");
                assert_eq!((fault.kind, fault.why.as_ref()), (Kind::Refused, Some(&refusal)));
                assert_eq!(error.to_string(), format!("{}: {line}", fault.words()));
                // A reader has only the last bytes.
                let (_, pieces_error) = normalize_pieces(&captures[0], limit, 61);
                assert_eq!(pieces_error.expect("a fault").fault().expect("a fault").why.as_ref(), Some(&refusal));
            }
        }
    }
}

#[test]
fn edges() {
    assert!(linkcap::is_known_version());
    assert!(read_text("bindings/c/linkcap.h").contains(&format!("\n#define LINKCAP_FORMAT {}\n", linkcap::format())));
    assert_eq!(under(16).normalize(&[]), Ok(Vec::new()));
    assert_eq!(under(16).lines(&[]), Ok(String::new()));
    assert_eq!(under(16).same(&[], &[]), Ok(true));
    let sizes = under(16).measure(&[]).expect("nothing");
    assert_eq!((sizes.frames, sizes.attributes, sizes.text_len), (0, 0, 0));
    for options in [under(0), under(15)] {
        assert_eq!(options.check(&[]), Err(Error::Limit));
        assert_eq!(options.measure(&[]), Err(Error::Limit));
        assert_eq!(options.normalize(&[]), Err(Error::Limit));
        assert_eq!(options.lines(&[]), Err(Error::Limit));
        assert_eq!(options.why(&[]), Err(Error::Limit));
        assert_eq!(options.same(&[], &[]), Err(Error::Limit));
        assert_eq!(options.quirks(&[]), Err(Error::Limit));
        assert_eq!(options.messages(&[]).err(), Some(Error::Limit));
        assert_eq!(options.attributes(&[]).err(), Some(Error::Limit));
        assert_eq!(Reader::new(options).err(), Some(Error::Limit));
        assert_eq!(LineReader::new(options).err(), Some(Error::Limit));
        assert_eq!(NormalReader::new(&[][..], options).err(), Some(Error::Limit));
    }
    let capture = read_file("samples/lo-request.bin");
    let error = linkcap::same(&capture, &capture[..47]).expect_err("a cut frame");
    let fault = error.fault().expect("a fault");
    assert_eq!((fault.kind, fault.side, fault.offset), (Kind::Cut, Some(Side::Second), 0));
    assert_eq!((error.kind(), error.side(), error.offset(), error.reason()), (Some(Kind::Cut), Some(Side::Second), Some(0), None));
    assert_eq!((Error::Limit.kind(), Error::Memory.offset(), Error::Failed.side()), (None, None, None));
    let boxed: Box<dyn std::error::Error + Send + Sync> = Box::new(error);
    assert_eq!(boxed.to_string(), "second: cut frame at 0");
}

/// Returns the fields of a message.
fn fields(message: Message<'_>) -> (usize, &[u8], u16, u16, u32, u32) {
    let Message { offset, bytes, message_type, flags, sequence_number, port_number, .. } = message;
    (offset, bytes, message_type, flags, sequence_number, port_number)
}

#[test]
fn messages() {
    let capture = read_file("samples/lo-request.bin");
    let twice = [&capture[..], &capture[..]].concat();
    let found: Vec<_> = linkcap::messages(&twice).map(|message| fields(message.expect("a legal message"))).collect();
    // the numbers that samples/lo-request.lines has
    let message = |offset| (offset, &capture[..], 18, 0x301, 1_526_271_540, 0);
    assert_eq!(found, [message(0), message(48)]);
    assert_eq!(linkcap::messages(&[]).next(), None);
    // The fault comes once, after the message before it.
    let mut cut = linkcap::messages(&twice[..95]);
    assert_eq!(cut.next().map(|message| message.map(fields)), Some(Ok(message(0))));
    let fault = cut.next().expect("a fault").expect_err("a fault");
    assert_eq!((fault.kind(), fault.offset()), (Some(Kind::Cut), Some(48)));
    assert_eq!(cut.next(), None);
}

#[test]
fn broken_sources() {
    struct BrokenSource;
    impl Read for BrokenSource {
        fn read(&mut self, _: &mut [u8]) -> io::Result<usize> {
            Err(io::Error::from(io::ErrorKind::BrokenPipe))
        }
    }
    let capture = read_file("samples/req-veth.bin");
    let mut reader = NormalReader::new(capture.chain(BrokenSource), Options::new()).expect("a limit");
    let mut out = Vec::new();
    assert_eq!(reader.read_to_end(&mut out).expect_err("a broken source").kind(), io::ErrorKind::BrokenPipe);
    assert_eq!(out, read_file("samples/req-veth.bin"));
}

#[test]
fn a_capture_cut_at_each_byte() {
    let capture = read_file("samples/req-veth.bin");
    let mut at = 0;
    while at < capture.len() {
        let length = u32::from_le_bytes(capture[at..at + 4].try_into().expect("four bytes")) as usize;
        for cut in at..(at + (length + 3) / 4 * 4).min(capture.len()) {
            let (text, error) = normalize_whole(&capture[..cut], linkcap::DEFAULT_LIMIT);
            if at < cut && cut < at + length {
                let error = error.expect("a cut frame");
                let fault = error.fault().expect("a fault");
                assert_eq!((fault.kind, fault.offset), (Kind::Cut, at as u64));
                assert_eq!(text, &capture[..at]);
            } else {
                assert_eq!((text.as_slice(), error), (&capture[..(cut + 3) / 4 * 4], None));
            }
        }
        at += (length + 3) / 4 * 4;
    }
}

#[test]
fn eight_threads() {
    let capture = read_file("samples/get-veth.bin");
    let text = linkcap::normalize(&capture).expect("a legal capture");
    std::thread::scope(|scope| {
        for _ in 0..8 {
            scope.spawn(|| {
                for _ in 0..50 {
                    assert_eq!(linkcap::normalize(&capture).as_ref(), Ok(&text));
                    assert_eq!(linkcap::same(&capture, &text), Ok(true));
                }
            });
        }
    });
}

/// Returns a link message with peers in peers: IFLA_LINKINFO, IFLA_INFO_DATA and VETH_INFO_PEER at each level.
fn peers(levels: usize) -> Vec<u8> {
    let header = vec![0; 16];
    let mut peer = header.clone();
    for _ in 0..levels {
        let info = [attribute(1, b"veth\0"), attribute(2, &attribute(1, &peer))].concat();
        peer = [header.clone(), attribute(18, &info)].concat();
    }
    let length = u32::try_from(16 + peer.len()).expect("a short message");
    [&length.to_le_bytes()[..], &[16, 0, 1, 0], &[0; 8], &peer].concat()
}

/// A stack of 256 KiB is enough for every capture, and lines are at most 44 times as long.
#[test]
fn deep_captures_are_shown_with_a_small_stack() {
    let capture = peers(1600);
    let size = capture.len();
    let show = move || (linkcap::lines(&capture).expect("a legal capture"), linkcap::normalize(&capture));
    let thread = std::thread::Builder::new().stack_size(256 << 10).spawn(show).expect("a thread");
    let (lines, text) = thread.join().expect("lines");
    assert!(size < lines.len() && lines.len() <= 44 * size);
    assert_eq!(text.expect("a legal capture").len(), size);
}
