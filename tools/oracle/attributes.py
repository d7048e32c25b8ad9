#!/usr/bin/env python3
"""The attributes of link messages, in the order of their bytes: what linkcap_next_attribute of linkcap.h returns.

    attributes.py < CASES

Each line of standard input is a case, a limit in decimal and a capture in hex. For each attribute of the messages before the
capture's first fault it prints the offset in the capture, the length of the payload in bytes, the type and its flag bits in
hex, the number of attributes that it is inside, its name, or `-`, and the link kind whose data it holds or is in, up to a
NUL, or `-`. After each case it prints `legal`, or the first fault.
"""
import os
import sys

sys.path.insert(0, os.path.dirname(os.path.abspath(__file__)))
import linkoracle as o      # noqa: E402
from linkshow import ROWS      # noqa: E402
from quirks import attributes_with_offsets      # noqa: E402

#: the kinds of link info that hold what a link kind says, and that of which the kind of port does
OF_KIND, OF_PORT_KIND = (2, 3), 5


def name_of(rules, table, context, kind):
    """The name of the row of a kind, or None if the table has none in this context."""
    row = table.rows.get(kind)
    if row is None or isinstance(row, o.Choice) and row.pick(rules, context) is o.RAW:
        return None
    return ROWS[table.name, kind][0]


def list_attributes(rules, table, context, b, start, depth, link_kind):
    """(offset, length of the payload, type with flag bits, depth, name or None, link kind or None) of each attribute of an
    accepted list that starts at an offset, and of those in it."""
    in_force = None, None
    for offset, kind, payload in attributes_with_offsets(b, start):
        proper = o.proper(kind)
        here, of = context, link_kind
        if table is o.LINK_INFO:
            here = in_force
            of = in_force[0] if proper in OF_KIND else in_force[1] if proper == OF_PORT_KIND else None
            in_force = o.next_in_force(in_force, kind, payload)
        yield offset, len(payload), kind, depth, name_of(rules, table, here, proper), of
        if table.kept_kind is None or proper == table.kept_kind:
            yield from payload_attributes(rules, rules.row(table, here, proper), payload, offset + 4, depth + 1, of)


def payload_attributes(rules, row, payload, start, depth, link_kind):
    if isinstance(row, o.ListRow):
        yield from list_attributes(rules, row.table, row.context, payload, start, depth, link_kind)
    elif isinstance(row, o.FirstRow):
        first = o.round_up(4 + len(o.cut_first(payload)[1]))
        yield from list_attributes(rules, row.table, row.context, payload[:first], start, depth, link_kind)
    elif row is o.PEER:
        peer = rules.inside_peer
        yield from list_attributes(peer, peer.link, payload[0], payload[16:], start + 16, depth, None)


def capture_attributes(capture, limit=o.DEFAULT_LIMIT):
    """(the attributes of the messages before the first fault, that fault or None)."""
    rules = o.rules_for("peers")
    frames, fault = o.read_capture(rules, limit, capture)
    return [attribute for frame in frames if frame.link is not None
            for attribute in list_attributes(rules, rules.link, frame.link.family, frame.body[16:], frame.offset + 32, 0, None)], fault


def main():
    for line in sys.stdin:
        limit, capture = line.split(" ")
        attributes, fault = capture_attributes(bytes.fromhex(capture.strip()), int(limit))
        for offset, length, kind, depth, name, link_kind in attributes:
            print("%d %d %#x %#x %d %s %s" % (offset, length, o.proper(kind), kind - o.proper(kind), depth, name or "-",
                                              (link_kind or "").partition("\0")[0] or "-"))
        print(o.display(fault) if fault else "legal")


if __name__ == "__main__":
    main()
