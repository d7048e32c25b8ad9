//! Reads cases from standard input as `read_links` of this repository does, by the crates
//! netlink-packet-core and netlink-packet-route, and writes their results in the same form.

use netlink_packet_core::{
    DecodeError, DefaultNla, Emitable, NetlinkDeserializable, NetlinkHeader, NetlinkMessage,
    NetlinkSerializable, NlasIterator, Parseable,
};
use netlink_packet_route::link::{LinkMessage, LinkMessageBuffer};
use std::fmt::Write as _;
use std::hint::black_box;
use std::io::{self, BufRead, BufWriter, Write};
use std::panic::{catch_unwind, set_hook};

/// A message of any protocol, kept as its bytes.
#[derive(Debug)]
struct KeptMessage {
    message_type: u16,
    bytes: Vec<u8>,
}

impl NetlinkSerializable for KeptMessage {
    fn message_type(&self) -> u16 {
        self.message_type
    }

    fn buffer_len(&self) -> usize {
        self.bytes.len()
    }

    fn serialize(&self, buffer: &mut [u8]) {
        buffer.copy_from_slice(&self.bytes);
    }
}

impl NetlinkDeserializable for KeptMessage {
    type Error = DecodeError;

    fn deserialize(header: &NetlinkHeader, payload: &[u8]) -> Result<Self, DecodeError> {
        Ok(KeptMessage { message_type: header.message_type, bytes: payload.to_vec() })
    }
}

fn decoded(hex: &str) -> Vec<u8> {
    let digit = |byte: u8| (byte as char).to_digit(16).expect("a case isn't hex") as u8;
    hex.as_bytes().chunks(2).map(|pair| digit(pair[0]) << 4 | digit(pair[1])).collect()
}

fn encoded(bytes: &[u8]) -> String {
    let mut hex = String::with_capacity(2 * bytes.len());
    for byte in bytes {
        write!(hex, "{byte:02x}").expect("a text grows");
    }
    hex
}

fn read(bytes: &[u8]) -> Result<LinkMessage, DecodeError> {
    LinkMessage::parse(&LinkMessageBuffer::new_checked(&bytes)?)
}

fn written(message: &impl Emitable) -> Vec<u8> {
    let mut bytes = vec![0; message.buffer_len()];
    message.emit(&mut bytes);
    bytes
}

/// The depth of lists from which on a message isn't written: the time that this takes doubles with each.
const DEEPEST: usize = 20;

/// Returns how deep lists are nested in a Debug text.
fn depth(text: &str) -> usize {
    let (mut depth, mut deepest) = (0usize, 0);
    for byte in text.bytes() {
        match byte {
            b'[' => depth += 1,
            b']' => depth = depth.saturating_sub(1),
            _ => (),
        }
        deepest = deepest.max(depth);
    }
    deepest
}

/// Returns what a case is read as; the first panic of a case ends it.
fn result(kind: &str, bytes: &[u8]) -> Result<String, DecodeError> {
    match kind {
        "body" => {
            let message = read(bytes)?;
            let text = format!("{message:?}");
            if depth(&text) > DEEPEST {
                return Ok(format!("read deep {text}"));
            }
            match catch_unwind(|| written(&message)) {
                Ok(bytes) => Ok(format!("read {} {text}", encoded(&bytes))),
                Err(_) => Ok(format!("read panicked {text}")),
            }
        }
        "frame" => {
            let mut message = NetlinkMessage::<KeptMessage>::deserialize(bytes)?;
            let text = format!("{message:?}");
            message.finalize();
            let mut bytes = vec![0; message.buffer_len()];
            message.serialize(&mut bytes);
            Ok(format!("read {} {text}", encoded(&bytes)))
        }
        "walk" => {
            let mut text = String::new();
            let mut values = Vec::new();
            let mut end = "end";
            for item in NlasIterator::new(bytes) {
                let Ok(buffer) = item else {
                    end = "fault";
                    break;
                };
                let (nested, order) = (buffer.nested_flag(), buffer.network_byte_order_flag());
                let value = DefaultNla::parse(&buffer)?;
                write!(text, "{} {nested} {order} {value:?}; ", buffer.kind()).expect("a text grows");
                values.push(value);
            }
            let bytes = written(&values.as_slice());
            Ok(format!("read {} {text}{end}", encoded(&bytes)))
        }
        _ => panic!("not a case: {kind}"),
    }
}

/// Reads a body a number of times, and writes what was read each time if `emits`.
fn repeated(fields: &str, emits: bool) -> &'static str {
    let (count, hex) = fields.split_once(' ').expect("a case without a count");
    let bytes = decoded(hex);
    for _ in 0..count.parse::<u32>().expect("a count isn't a number") {
        match read(black_box(&bytes)) {
            Ok(message) if emits => drop(black_box(written(&message))),
            Ok(message) => drop(black_box(message)),
            Err(_) => return "refused",
        }
    }
    "done"
}

fn main() -> io::Result<()> {
    set_hook(Box::new(|_| ()));
    let mut out = BufWriter::new(io::stdout().lock());
    for line in io::stdin().lock().lines() {
        let line = line?;
        let (kind, fields) = line.split_once(' ').expect("a line without a kind");
        match kind {
            "reads" => writeln!(out, "{}", repeated(fields, false))?,
            "emits" => writeln!(out, "{}", repeated(fields, true))?,
            _ => match catch_unwind(|| result(kind, &decoded(fields))) {
                Ok(Ok(text)) => writeln!(out, "{text}")?,
                Ok(Err(error)) => writeln!(out, "refused {}", format!("{error}").replace('\n', " "))?,
                Err(_) => writeln!(out, "panicked")?,
            },
        }
    }
    out.flush()
}
