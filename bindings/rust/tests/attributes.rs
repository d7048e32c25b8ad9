//! Tests the attributes of messages, with requests of iproute2, whose commands are in samples/kinds/index.tsv, and with the lines
//! of the independent implementation.

mod common;

use common::attribute;
use linkcap::{Attribute, Error, Kind, Message, Options};
use std::fs;
use std::path::Path;

const NAME: &str = "IFLA_IFNAME";
const VNI: &str = "IFLA_LINKINFO > IFLA_INFO_DATA > IFLA_VXLAN_ID";
const PEER: &str = "IFLA_LINKINFO > IFLA_INFO_DATA > VETH_INFO_PEER";
const CREATE: u16 = 0x400;

/// An RTM_NEWLINK whose IFLA_MTU has 3 bytes.
const REFUSED: &[u8] = b"\x28\0\0\0\x10\0\0\0\0\0\0\0\0\0\0\0\0\0\0\0\0\0\0\0\0\0\0\0\0\0\0\0\x07\0\x04\0\x01\x02\x03\0";

fn sample(name: &str) -> Vec<u8> {
    fs::read(Path::new(env!("CARGO_MANIFEST_DIR")).join("../../samples").join(name)).expect(name)
}

/// Returns the names of all samples that have lines beside them.
fn sample_names() -> Vec<String> {
    let mut names = Vec::new();
    for folder in ["", "kinds/"] {
        for entry in fs::read_dir(Path::new(env!("CARGO_MANIFEST_DIR")).join("../../samples").join(folder)).expect(folder) {
            let file = entry.expect("a file").file_name().into_string().expect("a text");
            names.extend(file.strip_suffix(".lines").map(|name| format!("{folder}{name}")));
        }
    }
    names
}

fn sample_text(name: &str) -> String {
    String::from_utf8(sample(name)).expect("a text")
}

/// Returns the offset of each request in a file of samples/kinds, and the words of the command that sent it.
fn commands(file: &str) -> Vec<(usize, Vec<String>)> {
    let index = sample_text("kinds/index.tsv");
    let rows = index.lines().map(|row| row.split('\t').collect::<Vec<_>>()).filter(|row| row[0] == file);
    rows.map(|row| (row[1].parse().expect("an offset"), row[3].split(' ').map(String::from).collect())).collect()
}

/// Returns the word of a command that follows another one.
fn after(command: &[String], word: &str) -> Option<String> {
    command.iter().position(|other| other == word).and_then(|at| command.get(at + 1)).cloned()
}

fn all(capture: &[u8]) -> Vec<Attribute<'_>> {
    linkcap::attributes(capture).collect::<Result<_, _>>().expect("a legal capture")
}

/// Returns the values of the attributes of a message with a path.
fn values<'a>(attributes: &'a [Attribute<'_>], offset: usize, path: &str) -> Vec<&'a str> {
    attributes.iter().filter(|a| a.message.offset == offset && a.path == path).map(|a| a.value.as_str()).collect()
}

/// The example of README.md.
fn creates_vni_10(capture: &[u8]) -> Result<bool, Error> {
    let vni = "IFLA_LINKINFO > IFLA_INFO_DATA > IFLA_VXLAN_ID";
    let all = Options::new().only("newlink").attributes(capture)?.collect::<Result<Vec<_>, _>>()?;
    Ok(all.iter().any(|a| a.path == vni && a.value == "10" && a.message.flags & CREATE != 0))
}

#[test]
fn requests_of_iproute2() {
    let capture = sample("kinds/req-vxlan.bin");
    let (attributes, mut count) = (all(&capture), 0);
    for (offset, command) in commands("req-vxlan.bin") {
        assert_eq!(values(&attributes, offset, NAME), [format!("\"{}\"", command[3])]);
        if let Some(vni) = after(&command, "id") {
            assert_eq!(values(&attributes, offset, VNI), [vni.as_str()]);
            let end = offset + linkcap::messages(&capture[offset..]).next().expect("a message").expect("a legal one").bytes.len();
            assert_eq!(creates_vni_10(&capture[offset..end]), Ok(vni == "10"));
            count += 1;
        }
    }
    assert_eq!(count, 10);
    assert_eq!(creates_vni_10(&capture), Ok(true));
    // The notification of a kernel, and a request that only looks at the link, create nothing.
    assert_eq!(creates_vni_10(&sample("kinds/get-vxlan.bin")), Ok(false));
}

/// The names of both ends of a veth pair.
#[test]
fn peers() {
    let capture = sample("kinds/req-veth.bin");
    let (attributes, mut count) = (all(&capture), 0);
    for (offset, command) in commands("req-veth.bin") {
        let name = format!("\"{}\"", command[3]);
        let other = command.iter().position(|word| word == "name").map(|at| format!("\"{}\"", command[at + 1]));
        assert_eq!(values(&attributes, offset, NAME), [name]);
        assert_eq!(values(&attributes, offset, &format!("{PEER} > {NAME}")).first().copied(), other.as_deref());
        count += usize::from(other.is_some());
    }
    assert_eq!(count, 4);
    // mtu 1400 .. peer name va1 .. mtu 1500
    assert_eq!(values(&attributes, 88, "IFLA_MTU"), ["1400"]);
    assert_eq!(values(&attributes, 88, &format!("{PEER} > IFLA_MTU")), ["1500"]);
    // peer name vc1 index 5000
    let header = "family 0 (AF_UNSPEC) type 0 index 5000 flags 0x0 change 0x0";
    assert_eq!(values(&attributes, 332, &format!("{PEER} > ifinfomsg")), [header]);
}

/// Each attribute's line is that of the independent implementation. Left out are the first lines of messages, their headers, and
/// those of NLMSG_ERROR and NLMSG_DONE.
#[test]
fn lines() {
    for name in sample_names() {
        let is_attribute = |line: &&str| line.starts_with("  ") && (line.starts_with("   ") || !line[2..].starts_with(char::is_lowercase));
        let expected: Vec<String> = sample_text(&format!("{name}.lines")).lines().filter(is_attribute).map(String::from).collect();
        assert!(!expected.is_empty(), "{name}");
        let capture = sample(&format!("{name}.bin"));
        let line = |attribute: &Attribute<'_>| {
            let names: Vec<_> = attribute.path.split(" > ").collect();
            let line = format!("{}{} {}", "  ".repeat(names.len()), names[names.len() - 1], attribute.value);
            line.strip_suffix(' ').map_or(line.clone(), String::from)
        };
        assert_eq!(all(&capture).iter().map(line).collect::<Vec<_>>(), expected, "{name}");
        let messages: Vec<Message<'_>> = linkcap::messages(&capture).collect::<Result<_, _>>().expect("legal messages");
        let each: Vec<_> = messages.iter().flat_map(|message| message.attributes().expect("memory")).collect();
        assert_eq!(each, all(&capture), "{name}");
    }
}

/// Returns an RTM_NEWLINK that creates a link, with these attributes.
fn new_link(attributes: &[Vec<u8>]) -> Vec<u8> {
    let body = attributes.concat();
    let length = u32::try_from(32 + body.len()).expect("a short message");
    [&length.to_le_bytes()[..], &[16, 0, 5, 4], &[0; 24], &body].concat()
}

/// The order of attributes doesn't count: linux/if_link.h has IFLA_IFNAME 3, IFLA_LINKINFO 18, and in it IFLA_INFO_KIND 1,
/// IFLA_INFO_DATA 2 and IFLA_INFO_SLAVE_KIND 4; in the data of vxlan IFLA_VXLAN_ID is 1, as IFLA_GENEVE_ID in those of geneve.
#[test]
fn orders() {
    let id = |vni: u8| attribute(2, &attribute(1, &[vni, 0, 0, 0]));
    let kind = |name: &[u8]| attribute(1, name);
    let port = || attribute(4, b"bond\0");
    let name = || attribute(3, b"vx0\0");
    for (attributes, expected) in [
        (vec![name(), attribute(18, &[kind(b"vxlan\0"), id(10)].concat())], true),
        (vec![attribute(18, &[kind(b"vxlan\0"), id(10)].concat()), name()], true),
        (vec![name(), attribute(18, &[kind(b"vxlan\0"), port(), id(10)].concat())], true),
        (vec![name(), attribute(18, &[port(), kind(b"vxlan\0"), id(10)].concat())], true),
        (vec![name(), attribute(18, &[kind(b"vxlan\0"), id(100)].concat())], false),
        (vec![name(), attribute(18, &[kind(b"geneve\0"), id(10)].concat())], false),
        (vec![attribute(3, b"IFLA_VXLAN_ID\0")], false),
    ] {
        assert_eq!(creates_vni_10(&new_link(&attributes)), Ok(expected), "{attributes:?}");
    }
    // A type without a name, and one with the nested bit, outside of all lists.
    let others = new_link(&[attribute(0x3fff, b"\x0a\x0b")]);
    assert_eq!((all(&others)[0].path.as_str(), all(&others)[0].value.as_str()), ("kind 0x3fff", "0a0b"));
}

/// The lines of an NLMSG_ERROR that repeats a request's header and 4 more bytes (netlink.h, struct nlmsgerr), of an NLMSG_DONE, and
/// of a body that isn't known, have no attributes.
#[test]
fn other_lines() {
    let error = b"\x28\0\0\0\x02\0\0\x01\x01\0\0\0\0\0\0\0\xef\xff\xff\xff\x14\0\0\0\x10\0\x05\0\x01\0\0\0\0\0\0\0abcd";
    let done = b"\x10\0\0\0\x03\0\x02\0\0\0\0\0\0\0\0\0";
    let other = b"\x14\0\0\0\x4d\0\0\0\0\0\0\0\0\0\0\0abcd";
    let capture = [&error[..], done, other].concat();
    let lines = linkcap::lines(&capture).expect("a legal capture");
    let words: Vec<_> = lines.lines().filter_map(|line| line.strip_prefix("  ")?.split(' ').next()).collect();
    assert_eq!(words, ["code", "request", "rest", "code", "body"]);
    assert_eq!(all(&capture), []);
}

#[test]
fn faults() {
    let request = sample("lo-request.bin");
    let capture = [&request[..], REFUSED, &request[..]].concat();
    let mut attributes = linkcap::attributes(&capture);
    for path in ["IFLA_EXT_MASK", NAME] {
        assert_eq!(attributes.next().expect("an item").expect("an attribute").path, path);
    }
    let error = attributes.next().expect("an item").expect_err("a fault");
    assert_eq!((error.kind(), error.offset()), (Some(Kind::Refused), Some(48)));
    assert_eq!(attributes.next(), None);
    assert!(creates_vni_10(&capture).is_err());
}

#[test]
fn selections() {
    let capture = sample("req-routes.bin");
    let paths = |options: Options<'_>| -> Vec<String> {
        options.attributes(&capture).expect("options").map(|attribute| attribute.expect("a legal capture").path).collect()
    };
    assert_eq!(paths(Options::new().only("newneigh")), ["NDA_DST", "NDA_LLADDR"]);
    assert_eq!(paths(Options::new().link("v0").without("IFLA_EXT_MASK")), [NAME]);
    assert_eq!(Options::new().without("mtu").attributes(&capture).err(), Some(Error::UnknownName("mtu".to_string())));
}

/// Offset, type, flags, payload, depth, name and link kind of an attribute.
type Expected<'a> = (usize, u16, u16, &'a [u8], usize, &'a str, &'a str);

/// IFLA_LINKINFO with the nested bit, in it IFLA_INFO_KIND and IFLA_INFO_DATA, and in that IFLA_VXLAN_ID and an attribute in network
/// byte order whose type has no name.
#[test]
fn attributes_with_bytes() {
    let data = [attribute(1, &[10, 0, 0, 0]), attribute(0x7fff, &[1, 2, 3, 4])].concat();
    let info = [attribute(1, b"vxlan\0"), attribute(2, &data)].concat();
    let capture = [b"\x10\0\0\0\x01\0\0\0\0\0\0\0\0\0\0\0".to_vec(), new_link(&[attribute(0x8012, &info)])].concat();
    let messages: Vec<Message<'_>> = linkcap::messages(&capture).collect::<Result<_, _>>().expect("a legal capture");
    assert_eq!(messages[0].link_attributes(), []);
    let found = messages[1].link_attributes();
    let expected: [Expected<'_>; 5] = [
        (48, 18, 0x8000, &info, 0, "IFLA_LINKINFO", ""),
        (52, 1, 0, b"vxlan\0", 1, "IFLA_INFO_KIND", ""),
        (64, 2, 0, &data, 1, "IFLA_INFO_DATA", "vxlan"),
        (68, 1, 0, &[10, 0, 0, 0], 2, "IFLA_VXLAN_ID", "vxlan"),
        (76, 0x3fff, 0x4000, &[1, 2, 3, 4], 2, "", "vxlan"),
    ];
    assert_eq!(found.len(), expected.len());
    for (a, (offset, attribute_type, flags, payload, depth, name, link_kind)) in found.iter().zip(expected) {
        assert_eq!((a.offset, a.attribute_type, a.flags, a.depth), (offset, attribute_type, flags, depth));
        assert_eq!((a.payload, a.name.as_str(), a.link_kind.as_str()), (payload, name, link_kind));
    }
}

/// A message that is longer than the default limit.
#[test]
fn long_messages() {
    let unnamed = attribute(0x3fff, &[0; 65000]);
    let capture = new_link(&vec![unnamed; 20]);
    assert!(capture.len() > linkcap::DEFAULT_LIMIT as usize);
    let options = Options::new().limit(2 << 20);
    let message = options.messages(&capture).expect("a limit").next().expect("a message").expect("a legal one");
    assert_eq!(message.attributes().expect("memory").len(), 20);
    assert_eq!(options.attributes(&capture).expect("a limit").count(), 20);
    assert_eq!(linkcap::attributes(&capture).next().expect("an item").expect_err("a fault").kind(), Some(Kind::OverLimit));
}
