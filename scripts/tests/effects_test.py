#!/usr/bin/env python3
"""Tests which lines of an effect vary between two runs, and which of them count.

    scripts/tests/effects_test.py

The status is 0 if all tests pass.
"""
import sys
import unittest
from pathlib import Path

TOP = Path(__file__).resolve().parents[2]
sys.dont_write_bytecode = True
sys.path += [str(TOP / "scripts"), str(TOP / "bindings/python/linkcap")]
import effects  # noqa: E402
import lines_golden  # noqa: E402

LINK_HEADER = "  ifinfomsg family 0 (AF_UNSPEC) type 1 (ether) index {} flags 0x1002 (Broadcast | Multicast) change 0x0"
NEIGHBOUR_HEADER = "  ndmsg family 7 (AF_BRIDGE) ifindex 2 state {} flags 0x0 type 0 (unspec)"


def link(index, name, address, *more):
    attributes = [f'  IFLA_IFNAME "{name}"', f"  IFLA_ADDRESS {address}", *more]
    return ["RTM_NEWLINK flags 0x2 (MULTI)", LINK_HEADER.format(index), *attributes]


def neighbour(address, state="0x80 (PERMANENT)"):
    return ["RTM_NEWNEIGH flags 0x2 (MULTI)", NEIGHBOUR_HEADER.format(state), f"  NDA_LLADDR {address}"]


class Positions(unittest.TestCase):
    def test_equal_runs(self):
        lines = link(2, "v0", "02:00:00:00:00:01") + neighbour("02:00:00:00:00:01")
        self.assertEqual(effects.varying_positions(lines, lines), set())

    def test_a_link(self):
        first = link(2, "v0", "02:00:00:00:00:01", "  IFLA_LINKINFO", "    IFLA_INFO_DATA", "      IFLA_BR_ROOT_ID 8000.1")
        second = link(2, "v0", "02:00:00:00:00:02", "  IFLA_LINKINFO", "    IFLA_INFO_DATA", "      IFLA_BR_ROOT_ID 8000.2")
        other = link(3, "v1", "02:00:00:00:00:03")
        positions = effects.varying_positions(first + other, second + other)
        self.assertEqual(positions, {'RTM_NEWLINK "v0" > IFLA_ADDRESS',
                                  'RTM_NEWLINK "v0" > IFLA_LINKINFO > IFLA_INFO_DATA > IFLA_BR_ROOT_ID'})
        # The address of another link counts, and is of the same attribute.
        left = lines_golden.without_positions(first + other, positions)
        self.assertEqual(left, [*first[:3], "  IFLA_LINKINFO", "    IFLA_INFO_DATA", *other])
        self.assertEqual(left, lines_golden.without_positions(second + other, positions))

    def test_a_header(self):
        second = [line.replace("0x1002 (", "0x1003 (Up | ") for line in link(2, "v0", "02:00:00:00:00:01")]
        positions = effects.varying_positions(link(2, "v0", "02:00:00:00:00:01"), second)
        self.assertEqual(positions, {'RTM_NEWLINK "v0" > ifinfomsg'})
        self.assertNotIn("ifinfomsg", "".join(lines_golden.without_positions(second, positions)))

    def test_messages_with_one_header(self):
        links = link(2, "v0", "02:00:00:00:00:01")
        first = links + neighbour("02:00:00:00:00:07") + neighbour("02:00:00:00:00:08")
        second = links + neighbour("02:00:00:00:00:09") + neighbour("02:00:00:00:00:07")
        positions = effects.varying_positions(first, second)
        key = 'RTM_NEWNEIGH "v0" ndmsg family 7 (AF_BRIDGE) state 0x80 (PERMANENT) flags 0x0 type 0 (unspec)'
        self.assertEqual(positions, {key + " > NDA_LLADDR"})
        positions = effects.varying_positions(first, second + neighbour("02:00:00:00:00:0a"))
        self.assertEqual(positions, {key})
        self.assertEqual(lines_golden.without_positions(first, positions), links)

    def test_nested_lines_are_left_out(self):
        lines = link(2, "v0", "02:00:00:00:00:01", "  IFLA_XDP", "    IFLA_XDP_ATTACHED 0", "  IFLA_XDPX 1")
        self.assertEqual(lines_golden.without_positions(lines, {'RTM_NEWLINK "v0" > IFLA_XDP'}), [*lines[:4], "  IFLA_XDPX 1"])


class Entries(unittest.TestCase):
    def test_entries_of_traffic_do_not_count(self):
        lasting = neighbour("02:00:00:00:00:07") + neighbour("02:00:00:00:00:08", "0x40 (NOARP)")
        learned = neighbour("02:00:00:00:00:09", "0x2 (REACHABLE)") + neighbour("33:33:00:00:00:01")
        group = [line.replace("type 0 (unspec)", "type 5 (multicast)") for line in neighbour("02:00:00:00:00:0a", "0x40 (NOARP)")]
        self.assertEqual(effects.comparable(learned + lasting + group), lasting)

    def test_allocated_handles(self):
        line = "  tcmsg family 0 (AF_UNSPEC) ifindex 7 handle {}:0 parent {}:{} info 5"
        for handle, parent, expected in (
                ("8001", "ffff", ("auto", "ffff")), ("10", "fffe", ("10", "auto")), ("ffff", "8000", ("ffff", "auto"))):
            made = effects.comparable(["RTM_NEWQDISC flags 0x2 (MULTI)", line.format(handle, parent, "ffff")])
            self.assertEqual(made[1], line.format(*expected, "ffff"))

    def test_order(self):
        links = link(3, "v1", "02:00:00:00:00:03") + link(2, "v0", "02:00:00:00:00:01")
        a, b = neighbour("02:00:00:00:00:07"), neighbour("02:00:00:00:00:08")
        self.assertEqual(effects.sort(links + b + a), links + a + b)


class Heads(unittest.TestCase):
    def test_a_head_is_read_back(self):
        lines = lines_golden.head_lines(4, ["numbers", "IFLA_MTU"], {'RTM_NEWLINK "v0" > IFLA_ADDRESS'})
        head = lines_golden.read_head([*lines, "RTM_NEWLINK flags 0x0"])
        self.assertEqual(head, lines_golden.Head(4, {"numbers", "IFLA_MTU"}, {'RTM_NEWLINK "v0" > IFLA_ADDRESS'}, 3))
        self.assertEqual(lines_golden.read_head(["RTM_NEWLINK flags 0x0"]), lines_golden.Head(None, set(), set(), 0))
        empty = lines_golden.read_head(["# linkcap lines, format 4", "# leaves out:"])
        self.assertEqual(empty, lines_golden.Head(4, set(), set(), 2))
        self.assertEqual(lines_golden.read_head(["# leaves out: probes, numbers"]).names, {"probes", "numbers"})


if __name__ == "__main__":
    unittest.main()
