#!/usr/bin/env python3
"""Writes legal captures of one message each whose lists are as deep as 65 kB allow, for tests of stacks and of output.

    tools/oracle/deep.py FOLDER

Peers in peers, next hops in next hops, and in each place of raw attributes the longest chain of lists in lists.
"""
import struct
import sys
from pathlib import Path

import linkoracle as o
from linkshow import BODIES, LISTS, PEER, RAW_ROWS
from values import record_size

MOST = 65000            # bytes of a payload
LINK_HEADER = bytes(16)
AF_SPEC, LINK_INFO, KIND, DATA, MULTIPATH, NEWLINK = 26, 18, 1, 2, 9, 16


def attribute(kind, payload):
    return o.p16(4 + len(payload)) + o.p16(kind) + payload + bytes(-len(payload) % 4)


def message(message_type, body):
    return o.p32(16 + len(body)) + o.p16(message_type) + o.p16(1) + o.p32(1) + o.p32(0) + body


def nested(innermost, wrap):
    """The bytes that `wrap` makes again and again of what is inside, as long as they fit an attribute."""
    inside = innermost
    while len(wrap(inside)) <= MOST:
        inside = wrap(inside)
    return inside


def peers():
    def wrap(peer):
        return LINK_HEADER + attribute(LINK_INFO, attribute(KIND, b"veth\0") + attribute(DATA, attribute(1, peer)))
    return message(NEWLINK, nested(LINK_HEADER, wrap))


def next_hops():
    def wrap(hops):
        return attribute(MULTIPATH, struct.pack("<HBBi", 8 + len(hops), 0, 0, 1) + hops)
    return message(24, struct.pack("<BBBBBBBBI", 2, 0, 0, 0, 254, 3, 0, 1, 0) + nested(b"", wrap))


def lists_in(table):
    """The rows of a table that hold a list: kind, the bytes before the list, and the list's table."""
    for (own, kind), (_, style) in RAW_ROWS.items():
        style_name, *parameters = style.split(" ")
        if own != table:
            continue
        kind = 1 if kind == "*" else kind
        if style_name == "list":
            yield kind, b"", parameters[0]
        elif style_name == "record_and_list":
            yield kind, bytes(record_size(parameters[0])), parameters[1]


def chain(table):
    """A list of the table that holds its longest chain of lists in lists, and how many these are. Only next hops lead back to
    their own table."""
    best, most = b"", 0
    for kind, head, inner in lists_in(table):
        inside, depth = chain(inner)
        if depth >= most:
            best, most = attribute(kind, head + inside), depth + 1
    return best, most


def raw_lists():
    """(name, capture) for each place of raw lists: bodies of messages, and lists in links."""
    for types, _, families, record_name, table in BODIES:
        if record_name == PEER or table == "-":
            continue
        header = bytearray(record_size(record_name))
        if families:
            header[0] = families[0]
        yield "%d-%s" % (types[0], table), message(types[0], bytes(header) + chain(table)[0])
    for place, table in LISTS.items():
        word, name = place.split(" ")[:2] if " " in place else (place, "")
        if word == "data":
            body = attribute(LINK_INFO, attribute(KIND, name.encode() + b"\0") + attribute(DATA, chain(table)[0]))
        elif word == "family":
            yield place.replace(" ", "-"), message(NEWLINK, bytes([int(name)]) + bytes(15) + attribute(AF_SPEC, chain(table)[0]))
            continue
        else:
            continue
        yield place.replace(" ", "-"), message(NEWLINK, LINK_HEADER + body)


def main():
    folder = Path(sys.argv[1])
    for name, capture in [("peers", peers()), ("next_hops", next_hops()), *raw_lists()]:
        (folder / (name + ".bin")).write_bytes(capture)


if __name__ == "__main__":
    main()
