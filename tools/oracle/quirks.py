#!/usr/bin/env python3
"""The encodings of a capture that some kernels treat differently from its normal
text: the twelve that docs/kernels.md lists, each with its offset.

    python3 quirks.py [LIMIT] < CAPTURE

Library: find_quirks(capture, limit) -> ([(text, offset)], first fault or None).
The offset is that of the attribute, or of the byte of a header, in bytes from the
capture's start.  Quirks are those of the frames before the first fault, in the
order of the bytes; of two at one attribute that of the nested bit comes first.
"""
import os
import sys

sys.path.insert(0, os.path.dirname(os.path.abspath(__file__)))
import linkoracle as o      # noqa: E402

AF_BRIDGE = 7
RTM_GETLINK = 18


def has_no_nul(p):
    """Whether a name has no NUL: kernels look for one anywhere (NLA_NUL_STRING)."""
    return b"\0" not in p


# (table, kind proper) -> (text, whether a payload has the quirk)
PAYLOADS = {
    ("inet", 1): ("IFLA_INET_CONF not of 132 bytes", lambda p: len(p) != 132),
    ("gre", 10): ("IFLA_GRE_PMTUDISC over 1", lambda p: p[0] > 1),
    ("link", 20): ("IFLA_IFALIAS of 255 bytes without a NUL", lambda p: len(p) == 255 and p[-1] != 0),
    ("link", 3): ("name without a NUL", lambda p: p == b""),
    ("link", 56): ("name without a NUL", has_no_nul),
    ("batadv", 1): ("name without a NUL", has_no_nul),
    ("link", 14): ("IFLA_MAP under 32 bytes", lambda p: len(p) < 32),
}
for _table, _kinds in (("vxlan", (23, 24, 27)), ("geneve", (6, 14)), ("gre", (18,)),
                       ("gre6", (18,)), ("ip_tunnel", (19,)), ("bareudp", (4,))):
    for _kind in _kinds:
        PAYLOADS[_table, _kind] = ("flag with a payload", lambda p: p != b"")
for _row in (("vxlan", 31), ("vxlan", 34), ("netkit", 6), ("netkit", 7)):
    PAYLOADS[_row] = ("truth over 1", lambda p: o.number(p) > 1)

# Rows that some kernels treat differently with the nested bit
STRAY_NESTED = {("vxlan", 31), ("vxlan", 32), ("vxlan", 33), ("vxlan", 34), ("geneve", 14), ("xdp", 8)}


def attributes_with_offsets(b, offset):
    """(offset, kind, payload) of each attribute of b, up to what is no attribute.  b starts at an offset."""
    for kind, payload in o.attributes(b)[0]:
        yield offset, kind, payload
        offset += o.round_up(4 + len(payload))


def nested_bit_quirk(table, family, kind):
    """The quirk of a kind that has the nested bit, or None."""
    if not kind & o.NESTED:
        return None
    if table == "link" and o.proper(kind) == 12 and family == AF_BRIDGE:
        return "IFLA_PROTINFO with the nested bit"
    return "stray nested bit" if (table, o.proper(kind)) in STRAY_NESTED else None


def attribute_quirks(table, family, kind, payload):
    """The quirks of an attribute itself, without those inside it."""
    nested_bit = nested_bit_quirk(table, family, kind)
    if nested_bit:
        yield nested_bit
    text, has_quirk = PAYLOADS.get((table, o.proper(kind)), (None, None))
    if text and has_quirk(payload):
        yield text


def list_quirks(rules, table, context, family, b, start):
    """(text, offset) of each quirk of an accepted list that starts at an offset."""
    in_force = None, None
    for offset, kind, payload in attributes_with_offsets(b, start):
        here = in_force if table is o.LINK_INFO else context
        proper = o.proper(kind)
        if table.name == "vf_infos" and proper != table.kept_kind:
            yield "foreign entry in IFLA_VFINFO_LIST", offset
            continue
        for text in attribute_quirks(table.name, family, kind, payload):
            yield text, offset
        row = rules.row(table, here, proper)
        if table is o.LINK_INFO:
            in_force = o.next_in_force(in_force, kind, payload)
        if table.kept_kind is None or proper == table.kept_kind:
            yield from payload_quirks(rules, row, family, payload, offset + 4)


def payload_quirks(rules, row, family, payload, start):
    """(text, offset) of each quirk of the attributes in an accepted payload that starts at an offset."""
    if isinstance(row, o.ListRow):
        yield from list_quirks(rules, row.table, row.context, family, payload, start)
    elif isinstance(row, o.FirstRow):
        first = o.round_up(4 + len(o.cut_first(payload)[1]))
        yield from list_quirks(rules, row.table, row.context, family, payload[:first], start)
        for offset, kind, _ in attributes_with_offsets(payload[first:], start + first):
            if o.proper(kind) == 1:
                yield "peer behind another attribute", offset
    elif row is o.PEER:
        yield from list_quirks(rules.inside_peer, rules.inside_peer.link, payload[0], payload[0], payload[16:], start + 16)


def frame_quirks(rules, frame):
    if frame.link is None:
        return
    if frame.type == RTM_GETLINK and frame.link.second:
        yield "second byte of the header of RTM_GETLINK", frame.offset + 17
    family = frame.link.family
    yield from list_quirks(rules, rules.link, family, family, frame.body[16:], frame.offset + 32)


def find_quirks(capture, limit=o.DEFAULT_LIMIT):
    """([(text, offset) of each quirk of the frames before the first fault], that fault or None)."""
    rules = o.rules_for("peers")
    frames, fault = o.read_capture(rules, limit, bytes(capture))
    return [quirk for frame in frames for quirk in frame_quirks(rules, frame)], fault


def main(args):
    limit = o.read_limit(args[0]) if args else o.DEFAULT_LIMIT
    if limit is None or len(args) > 1:
        sys.stderr.write("usage: quirks.py [LIMIT] < CAPTURE\n")
        return 3
    quirks, fault = find_quirks(sys.stdin.buffer.read(), limit)
    for quirk in quirks:
        print("%s at %d" % quirk)
    if fault is not None:
        sys.stderr.write(o.display(fault) + "\n")
        return 2
    return 0


if __name__ == "__main__":
    sys.exit(main(sys.argv[1:]))
