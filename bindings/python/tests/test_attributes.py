"""Tests of the attributes of messages, with requests of iproute2, whose commands are in samples/kinds/index.tsv, and with the lines
of the independent implementation: `python3 -m unittest` in this folder, or pytest."""
import glob
import os
import unittest
from typing import List, Tuple

import linkcap
from support import TOP, read, sample

NAME = "IFLA_IFNAME"
VNI = "IFLA_LINKINFO > IFLA_INFO_DATA > IFLA_VXLAN_ID"
PEER = "IFLA_LINKINFO > IFLA_INFO_DATA > VETH_INFO_PEER"
NLM_F_CREATE = 0x400

# an RTM_NEWLINK whose IFLA_MTU has 3 bytes
REFUSED = bytes.fromhex("28000000100000000000000000000000") + bytes(16) + bytes.fromhex("0700040001020300")


def creates_vni_10(capture: bytes) -> bool:
    """The example of README.md."""
    vni = "IFLA_LINKINFO > IFLA_INFO_DATA > IFLA_VXLAN_ID"
    return any(one.path == vni and one.value == "10" and one.message.flags & NLM_F_CREATE
               for one in linkcap.attributes(capture, only=["newlink"]))


def commands(file: str) -> List[Tuple[int, List[str]]]:
    """The offset of each request in a file of samples/kinds, and the words of the command that sent it."""
    rows = [row.split("\t") for row in read("samples", "kinds", "index.tsv").decode().splitlines()]
    return [(int(row[1]), row[3].split(" ")) for row in rows if row[0] == file]


def after(command: List[str], word: str) -> str:
    """The word that follows another one, or nothing."""
    return command[command.index(word) + 1] if word in command[:-1] else ""


def values(capture: bytes, offset: int, path: str) -> List[str]:
    """The values of the attributes of a message with a path."""
    return [one.value for one in linkcap.attributes(capture) if one.message.offset == offset and one.path == path]


def attribute(kind: int, payload: bytes) -> bytes:
    """An attribute, with its padding."""
    return (4 + len(payload)).to_bytes(2, "little") + kind.to_bytes(2, "little") + payload + bytes(-len(payload) % 4)


def new_link(*attributes: bytes) -> bytes:
    """An RTM_NEWLINK that creates a link, with these attributes."""
    body = b"".join(attributes)
    return (32 + len(body)).to_bytes(4, "little") + bytes([16, 0, 5, 4]) + bytes(24) + body


class Requests(unittest.TestCase):
    """The requests of iproute2."""

    def test_vxlan(self) -> None:
        capture, count = sample("kinds/req-vxlan.bin"), 0
        for offset, command in commands("req-vxlan.bin"):
            self.assertEqual(values(capture, offset, NAME), [f'"{command[3]}"'])
            vni = after(command, "id")
            if vni:
                self.assertEqual(values(capture, offset, VNI), [vni])
                message = next(linkcap.messages(capture[offset:]))
                self.assertEqual(creates_vni_10(message.bytes), vni == "10")
                count += 1
        self.assertEqual(count, 10)
        self.assertTrue(creates_vni_10(capture))
        # The message of a kernel creates nothing.
        self.assertFalse(creates_vni_10(sample("kinds/get-vxlan.bin")))

    def test_peers(self) -> None:
        """The names of both ends of a veth pair."""
        capture, count = sample("kinds/req-veth.bin"), 0
        for offset, command in commands("req-veth.bin"):
            self.assertEqual(values(capture, offset, NAME), [f'"{command[3]}"'])
            other = after(command, "name")
            self.assertEqual(values(capture, offset, f"{PEER} > {NAME}"), [f'"{other}"'] if other else [])
            count += bool(other)
        self.assertEqual(count, 4)
        # mtu 1400 .. peer name va1 .. mtu 1500
        self.assertEqual(values(capture, 88, "IFLA_MTU"), ["1400"])
        self.assertEqual(values(capture, 88, f"{PEER} > IFLA_MTU"), ["1500"])
        # peer name vc1 index 5000
        header = "family 0 (AF_UNSPEC) type 0 index 5000 flags 0x0 change 0x0"
        self.assertEqual(values(capture, 332, f"{PEER} > ifinfomsg"), [header])


class Lines(unittest.TestCase):
    def test_lines(self) -> None:
        """Each attribute's line is that of the independent implementation. Left out are the first lines of messages, their headers,
        and those of NLMSG_ERROR and NLMSG_DONE."""
        for path in glob.glob(os.path.join(TOP, "samples", "**", "*.lines"), recursive=True):
            name = os.path.relpath(path, os.path.join(TOP, "samples"))[:-len(".lines")]
            lines = sample(name + ".lines").decode().splitlines()
            expected = [line for line in lines if line.startswith("   ") or line.startswith("  ") and not line[2].islower()]
            self.assertGreater(len(expected), 0)
            capture = sample(name + ".bin")
            found = list(linkcap.attributes(capture))
            made = []
            for one in found:
                names = one.path.split(" > ")
                made.append("  " * len(names) + names[-1] + (" " + one.value if one.value else ""))
            self.assertEqual(made, expected, name)
            each = [one for message in linkcap.messages(capture) for one in message.attributes()]
            self.assertEqual(each, found, name)

    def test_orders(self) -> None:
        """The order of attributes doesn't count: linux/if_link.h has IFLA_IFNAME 3, IFLA_LINKINFO 18, and in it IFLA_INFO_KIND 1,
        IFLA_INFO_DATA 2 and IFLA_INFO_SLAVE_KIND 4; in the data of vxlan IFLA_VXLAN_ID is 1, as IFLA_GENEVE_ID in those of geneve."""
        name, port = attribute(3, b"vx0\0"), attribute(4, b"bond\0")
        vxlan, geneve = attribute(1, b"vxlan\0"), attribute(1, b"geneve\0")
        ten, hundred = (attribute(2, attribute(1, bytes([vni, 0, 0, 0]))) for vni in (10, 100))
        for attributes, expected in (
                ([name, attribute(18, vxlan + ten)], True),
                ([attribute(18, vxlan + ten), name], True),
                ([name, attribute(18, vxlan + port + ten)], True),
                ([name, attribute(18, port + vxlan + ten)], True),
                ([name, attribute(18, vxlan + hundred)], False),
                ([name, attribute(18, geneve + ten)], False),
                ([attribute(3, b"IFLA_VXLAN_ID\0")], False)):
            self.assertEqual(creates_vni_10(new_link(*attributes)), expected, attributes)

    def test_bytes(self) -> None:
        """IFLA_LINKINFO with the nested bit, in it IFLA_INFO_KIND and IFLA_INFO_DATA, and in that IFLA_VXLAN_ID and an attribute in
        network byte order whose type has no name."""
        data = attribute(1, b"\x0a\0\0\0") + attribute(0x7fff, b"\1\2\3\4")
        info = attribute(1, b"vxlan\0") + attribute(2, data)
        capture = bytes.fromhex("10000000010000000000000000000000") + new_link(attribute(0x8012, info))
        noop, link = linkcap.messages(capture)
        self.assertEqual(noop.link_attributes(), [])
        self.assertEqual(link.link_attributes(), [
            (48, 18, 0x8000, info, 0, "IFLA_LINKINFO", ""),
            (52, 1, 0, b"vxlan\0", 1, "IFLA_INFO_KIND", ""),
            (64, 2, 0, data, 1, "IFLA_INFO_DATA", "vxlan"),
            (68, 1, 0, b"\x0a\0\0\0", 2, "IFLA_VXLAN_ID", "vxlan"),
            (76, 0x3fff, 0x4000, b"\1\2\3\4", 2, "", "vxlan"),
        ])
        with self.assertRaises(linkcap.Fault):
            link._replace(bytes=link.bytes[:20]).link_attributes()

    def test_types_without_names(self) -> None:
        found, = linkcap.attributes(new_link(attribute(0x3fff, b"\x0a\x0b")))
        self.assertEqual((found.path, found.value), ("kind 0x3fff", "0a0b"))

    def test_other_lines(self) -> None:
        """The lines of an NLMSG_ERROR that repeats a request's header and 4 more bytes (netlink.h, struct nlmsgerr), of an NLMSG_DONE,
        and of a body that isn't known, have no attributes."""
        error = bytes.fromhex("28000000020000010100000000000000efffffff") + bytes.fromhex("14000000100005000100000000000000") + b"abcd"
        done, other = bytes.fromhex("10000000030002000000000000000000"), bytes.fromhex("140000004d0000000000000000000000") + b"abcd"
        lines = linkcap.lines(error + done + other).splitlines()
        self.assertEqual([line.split()[0] for line in lines if line.startswith(" ")], ["code", "request", "rest", "code", "body"])
        self.assertEqual(list(linkcap.attributes(error + done + other)), [])

    def test_faults(self) -> None:
        request = sample("lo-request.bin")
        found = linkcap.attributes(request + REFUSED + request)
        self.assertEqual([next(found).path, next(found).path], ["IFLA_EXT_MASK", NAME])
        with self.assertRaises(linkcap.Fault) as raised:
            next(found)
        self.assertEqual(str(raised.exception), "refused body at 48: IFLA_MTU: a payload of 3 bytes at 80")
        self.assertEqual(list(found), [])

    def test_selections(self) -> None:
        capture = sample("req-routes.bin")
        self.assertEqual([one.path for one in linkcap.attributes(capture, only=["newneigh"])], ["NDA_DST", "NDA_LLADDR"])
        self.assertEqual([one.path for one in linkcap.attributes(capture, link="v0", without=["IFLA_EXT_MASK"])], [NAME])
        with self.assertRaisesRegex(ValueError, "no attribute or group is called 'mtu'"):
            linkcap.attributes(capture, without=["mtu"])

    def test_a_message_outlives_its_capture(self) -> None:
        capture = bytearray(sample("lo-request.bin"))
        message, = linkcap.messages(capture)
        del capture[:]
        found = [(one.path, one.value) for one in message.attributes()]
        self.assertEqual(found, [("IFLA_EXT_MASK", "0x9 (Vf | SkipStats)"), (NAME, '"lo"')])

    def test_long_messages(self) -> None:
        """A message that is longer than the default limit."""
        capture = new_link(*20 * [attribute(0x3fff, bytes(65000))])
        message, = linkcap.messages(capture, 2 * linkcap.DEFAULT_LIMIT)
        self.assertEqual(len(message.attributes()), 20)
        self.assertEqual(len(list(linkcap.attributes(capture, 2 * linkcap.DEFAULT_LIMIT))), 20)
        with self.assertRaises(linkcap.Fault) as raised:
            next(linkcap.attributes(capture))
        self.assertEqual(raised.exception.kind, linkcap.Kind.OVER_LIMIT)


if __name__ == "__main__":
    unittest.main()
