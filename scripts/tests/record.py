#!/usr/bin/env python3
"""Tests of lines_record: what it shows in place of the indexes of lines, for attributes and headers that kernels rarely send.

    scripts/tests/record.py
"""
import os
import sys
import unittest

HERE = os.path.dirname(os.path.realpath(__file__))
sys.path.append(os.path.join(HERE, "../../bindings/python/linkcap"))
sys.dont_write_bytecode = True
import lines_filter  # noqa: E402
import lines_record  # noqa: E402

NAMES = {"2": "br0", "3": "va", "4": 'a\\"b\\\\c'}
LINK = "  ifinfomsg family 0 (AF_UNSPEC) type 1 (ether) index 3 flags 0x0 change 0x0"
NEW, SET = "RTM_NEWLINK flags 0x605 (REQUEST | ACK | EXCL | CREATE)", "RTM_NEWLINK flags 0x5 (REQUEST | ACK)"

# A line, and what is shown for it.
LINES = (
    ("  IFLA_MASTER 2", '  IFLA_MASTER "br0"'),
    ("  IFLA_MASTER 0", "  IFLA_MASTER 0"),
    ("  IFLA_MASTER 4", '  IFLA_MASTER "a\\"b\\\\c"'),
    ("  IFLA_MASTER 9", "  IFLA_MASTER #1"),
    ("  IFLA_MASTER bytes 02", "  IFLA_MASTER bytes 02"),
    ("  IFLA_LINK 3", '  IFLA_LINK "va"'),
    ("  IFLA_MTU 2", "  IFLA_MTU 2"),
    ("  IFLA_GROUP 2", "  IFLA_GROUP 2"),
    ("  IFLA_LINK_NETNSID 2", "  IFLA_LINK_NETNSID 2"),
    ("  IFLA_NEW_IFINDEX 3", "  IFLA_NEW_IFINDEX 3"),
    ("  IFLA_NET_NS_PID 77", "  IFLA_NET_NS_PID netns 2"),
    ("  IFLA_NET_NS_PID 78", "  IFLA_NET_NS_PID 78"),
    ("  IFLA_NET_NS_FD 5", "  IFLA_NET_NS_FD netns 1"),
    ("      IFLA_VXLAN_LINK 3", '      IFLA_VXLAN_LINK "va"'),
    ("      IFLA_BOND_ACTIVE_SLAVE 3", '      IFLA_BOND_ACTIVE_SLAVE "va"'),
    ("      IFLA_HSR_SLAVE1 3", '      IFLA_HSR_SLAVE1 "va"'),
    ("    IFLA_BRPORT_BACKUP_PORT 3", '    IFLA_BRPORT_BACKUP_PORT "va"'),
    ("  RTA_OIF 3", '  RTA_OIF "va"'),
    ("  RTA_IIF 3", '  RTA_IIF "va"'),
    ("  NDA_MASTER 2", '  NDA_MASTER "br0"'),
    ("  NDA_IFINDEX 3", '  NDA_IFINDEX "va"'),
    ("  NHA_OIF 3", '  NHA_OIF "va"'),
    ("  NETCONFA_IFINDEX -1 (all)", "  NETCONFA_IFINDEX -1 (all)"),
    ("  NETCONFA_IFINDEX 3", '  NETCONFA_IFINDEX "va"'),
    ("  ifaddrmsg family 2 (AF_INET) prefixlen 24 flags 0x0 scope 0 (universe) index 3",
     '  ifaddrmsg family 2 (AF_INET) prefixlen 24 flags 0x0 scope 0 (universe) index "va"'),
    ("  ndmsg family 2 (AF_INET) ifindex 3 state 0x80 (PERMANENT) flags 0x0 type 0 (unspec)",
     '  ndmsg family 2 (AF_INET) ifindex "va" state 0x80 (PERMANENT) flags 0x0 type 0 (unspec)'),
    ("  tcmsg family 0 (AF_UNSPEC) ifindex 3 handle 0:0 parent ffff:ffff (root) info 0",
     '  tcmsg family 0 (AF_UNSPEC) ifindex "va" handle 0:0 parent ffff:ffff (root) info 0'),
    ("  tcmsg family 0 (AF_UNSPEC) ifindex 4294967295 handle 0:0 parent 0:2 info 0",
     "  tcmsg family 0 (AF_UNSPEC) ifindex 4294967295 handle 0:0 parent 0:2 info 0"),
    ("  br_port_msg family 7 (AF_BRIDGE) ifindex 2", '  br_port_msg family 7 (AF_BRIDGE) ifindex "br0"'),
    ("  br_vlan_msg family 7 (AF_BRIDGE) ifindex 3", '  br_vlan_msg family 7 (AF_BRIDGE) ifindex "va"'),
    ("  ifaddrlblmsg family 10 (AF_INET6) prefixlen 64 flags 0x0 index 3 seq 2",
     '  ifaddrlblmsg family 10 (AF_INET6) prefixlen 64 flags 0x0 index "va" seq 2'),
    ("    rtnexthop flags 0x0 hops 3 (weight 4) ifindex 2", '    rtnexthop flags 0x0 hops 3 (weight 4) ifindex "br0"'),
    ("      br_mdb_entry ifindex 3 state 1 (PERMANENT) flags 0x0 vid 2 addr 239.0.0.1",
     '      br_mdb_entry ifindex "va" state 1 (PERMANENT) flags 0x0 vid 2 addr 239.0.0.1'),
    ("  nhmsg family 2 (AF_INET) scope 0 (universe) protocol 3 (boot) flags 0x0",
     "  nhmsg family 2 (AF_INET) scope 0 (universe) protocol 3 (boot) flags 0x0"),
)


def entry(**more):
    return {"offset": 0, "namespace": 1, "names": NAMES, "namespaces": {"pid 77": 2, "fd 5": 1}, **more}


def shown(lines, **more):
    return lines_record.Names().annotated(lines, entry(**more))


class Record(unittest.TestCase):
    def test_lines(self):
        for line, expected in LINES:
            self.assertEqual(shown([SET, line]), [SET, expected])

    def test_every_attribute_of_the_group(self):
        for name in lines_record.LINK_INDEXES - {"IFLA_NEW_IFINDEX"}:
            self.assertEqual(shown([SET, f"  {name} 3"])[1], f'  {name} "va"')
        self.assertLessEqual(lines_record.LINK_INDEXES, lines_filter.INDEXES)

    def test_every_header_with_an_index(self):
        with open(os.path.join(HERE, "../../tools/oracle/rows.tsv"), encoding="utf-8") as rows:
            records = [row.rstrip("\n").split("\t")[1:3] for row in rows if row.startswith("record\t")]
        found = 0
        for name, fields in records:
            names = [field.split(":")[0] for field in fields.split() if not field.startswith("-")]
            if {"index", "ifindex"} & set(names):
                values = [f'{field} "va"' if field in ("index", "ifindex") else f"{field} 3" for field in names]
                line = f"  {name.split('/')[0]} "
                self.assertEqual(shown([SET, line + " ".join(f"{field} 3" for field in names)])[1], line + " ".join(values))
                found += 1
        self.assertGreater(found, 10)

    def test_links_of_other_namespaces_keep_their_numbers(self):
        other = [SET, LINK, "  IFLA_LINK 3", "  IFLA_LINK_NETNSID 0"]
        self.assertEqual(shown(other), [SET, LINK.replace("index 3", 'index "va"'), *other[2:]])
        for name in ("IFLA_IF_NETNSID", "IFA_TARGET_NETNSID"):
            lines = [SET, LINK, "  IFLA_MASTER 2", f"  {name} 0"]
            self.assertEqual(shown(lines), lines)

    def test_a_chosen_index_keeps_its_number(self):
        chosen = LINK.replace("index 3", "index 77")
        self.assertEqual(shown([NEW, chosen]), [NEW, chosen])
        self.assertEqual(shown([SET, chosen]), [SET, LINK.replace("index 3", "index #1")])

    def test_unknown_indexes_are_numbered_in_order_of_appearance(self):
        names = lines_record.Names()
        lines = [names.annotated([SET, f"  IFLA_MASTER {index}"], entry(namespace=namespace))[1]
                 for index, namespace in ((30, 1), (20, 1), (30, 1), (30, 2))]
        self.assertEqual(lines, [f"  IFLA_MASTER #{number}" for number in (1, 2, 1, 3)])

    def test_an_entry_without_names_keeps_numbers(self):
        without = {key: value for key, value in entry().items() if key != "names"}
        self.assertEqual(lines_record.Names().annotated([SET, LINK, "  IFLA_NET_NS_FD 5"], without),
                         [SET, LINK, "  IFLA_NET_NS_FD netns 1"])

    def test_refusals(self):
        refused = {"errno": 19, "error": "ENODEV", "reason": "No such device"}
        self.assertEqual(shown([SET, LINK], **refused)[2], "  refused: ENODEV")
        self.assertEqual(lines_record.Names().annotated([SET], entry(**refused), reasons=True)[1],
                         "  refused: ENODEV (No such device)")
        self.assertTrue(lines_record.is_refusal("  refused: ENODEV (No such device)"))
        self.assertFalse(lines_record.is_refusal("  refused: a header of 4 bytes"))

    def test_probes(self):
        header = "  ifinfomsg family 0 (AF_UNSPEC) type 0 index 0 flags 0x0 change 0x0"
        self.assertTrue(lines_record.is_probe([SET, header, "  refused: ENODEV"]))
        self.assertTrue(lines_record.is_probe([SET + " seq 0 port 0", header]))
        for other in ([SET, header, "  refused: EPERM"], [SET, header, "  IFLA_MTU 5"], [SET + " seq 1 port 0", header],
                      [NEW, header], [SET, LINK]):
            self.assertFalse(lines_record.is_probe(other))

    def test_namespaces_of_files(self):
        lines = ["A", "  x", "B namespace 2", "  y", "C namespace 2 offset 48", "D offset 96"]
        file = ["A", "  x", "# namespace 2", "B", "  y", "C offset 48", "# namespace 1", "D offset 96"]
        self.assertEqual(list(lines_record.for_file(lines)), file)
        self.assertEqual(list(lines_record.from_file(file)), lines)
        numbered = "RTM_GETLINK flags 0x1 (REQUEST) seq 7 port 0 namespace 2 offset 48"
        self.assertEqual(lines_filter.without([numbered], {"numbers"}), ["RTM_GETLINK flags 0x1 (REQUEST) namespace 2 offset 48"])

    def test_names_in_filters(self):
        message = shown([SET, LINK, "  IFLA_MASTER 2"])
        self.assertTrue(lines_filter.is_about(message, "va"))
        self.assertFalse(lines_filter.is_about(message, "br0"))
        self.assertEqual(lines_filter.without(message, lines_filter.names_of("indexes")),
                         [SET, LINK.replace(" index 3", "")])


if __name__ == "__main__":
    unittest.main()
