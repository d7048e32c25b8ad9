"""Makes messages of the rows of tools/oracle/raw.tsv, for hostile.py: bodies of types other than links, and lists of raw
attributes in links. Payloads are right, off by a byte, under a kind with flag bits, or cut."""
import os
import sys

sys.path.insert(0, os.path.join(os.path.dirname(os.path.abspath(__file__)), "..", "tools", "oracle"))
import linkshow             # noqa: E402
from values import PADDING, RECORDS, record_size        # noqa: E402

DEEPEST = 5
MOST_ROWS = 6
FLAG_BITS = [0, 0, 0, 0, 0x8000, 0x8000, 0x4000, 0xC000]
LINK_HEADER_SIZE = 16
BYTES = [0, 0, 1, 2, 127, 255]
TABLE_ROWS = {}
for (_table, _kind), (_, _style) in linkshow.RAW_ROWS.items():
    TABLE_ROWS.setdefault(_table, []).append((_kind, _style))
# A set of choices -> pairs of the payload of the attribute that chooses, and the format of the chosen payload
CHOICES = {}
for (_choice, _word), _style in linkshow.CHOICES.items():
    CHOICES.setdefault(_choice, []).append((_word, _style))
# Sizes of payloads of formats without a parameter
SIZES = {"bytes": [0, 1, 5], "hardware_address": [6], "address": [4, 16], "bridge_id": [8], "label_stack": [4, 8],
         "port_range": [4], "presence": [0], "short_number": [4, 8]}


def some_bytes(rng, size):
    return bytes(rng.choice([*BYTES, rng.randrange(256)]) for _ in range(size))


def attribute(kind, payload):
    return (4 + len(payload)).to_bytes(2, "little") + kind.to_bytes(2, "little") + payload + bytes(-len(payload) % 4)


def record(rng, name):
    """A record, whose padding is zero as a rule."""
    parts = [bytes(size) if style == PADDING and rng.random() < 0.9 else some_bytes(rng, size) for _, size, style, _ in RECORDS[name]]
    return b"".join(parts)


def next_hops(rng, table, depth):
    hops = b""
    for _ in range(rng.randrange(4)):
        rest = record(rng, "rtnexthop") + attributes(rng, table, depth + 2)
        hops += (len(rest) + 2).to_bytes(2, "little") + rest
    return hops


# Payloads of formats of several lines, from their parameters
BLOCKS = {
    "list": lambda rng, depth, table: attributes(rng, table, depth),
    "record_and_list": lambda rng, depth, name, table: record(rng, name) + attributes(rng, table, depth),
    "record_and_records": lambda rng, depth, head, name: record(rng, head) + b"".join(record(rng, name) for _ in range(rng.randrange(3))),
    "records": lambda rng, depth, name: b"".join(record(rng, name) for _ in range(rng.randrange(3))),
    "next_hops": lambda rng, depth, table: next_hops(rng, table, depth),
}


def payload(rng, style, depth):
    """A payload that a format takes."""
    name, *parameters = style.split(" ")
    if name in BLOCKS:
        return BLOCKS[name](rng, depth + 1, *parameters)
    if name == "text":
        return some_bytes(rng, rng.randrange(5)) + b"\0"
    if name == "via":
        return rng.choice([b"\2\0" + some_bytes(rng, 4), b"\n\0" + some_bytes(rng, 16)])
    if name == "fields":
        return record(rng, parameters[0])
    if name == "sparse_record":
        return some_bytes(rng, RECORDS[parameters[0]][0][1] * rng.choice([0, 1, 3, len(RECORDS[parameters[0]])]))
    if name == "flags_and_mask":
        return some_bytes(rng, 8)
    if name == "numbers":
        return some_bytes(rng, int(parameters[0]) * rng.randrange(4))
    return some_bytes(rng, int(parameters[0]) if parameters else rng.choice(SIZES[name]))


def spoil(rng, data):
    """Bytes, as they are or off by a byte or cut."""
    return rng.choice([data, data, data, data[:-1], data + b"\0", data + b"\1", data[:rng.randrange(len(data) + 1)]])


def attributes(rng, table, depth=0):
    """Some attributes of a table, in any order, each with its own payload."""
    if depth > DEEPEST or table not in TABLE_ROWS:      # no_options, of ingress, has no rows
        return b""
    out = b""
    for _ in range(rng.randrange(MOST_ROWS)):
        kind, style = rng.choice(TABLE_ROWS[table])
        kind = rng.randrange(40) if kind == linkshow.ANY else kind
        if style.startswith("chosen"):
            _, choice, chooser = style.split(" ")
            word, style = rng.choice(CHOICES[choice])
            out += attribute(int(chooser), word)
        out += attribute(kind | rng.choice(FLAG_BITS), spoil(rng, payload(rng, style, depth)))
    return out


def message(kind, flags, body):
    header = (16 + len(body)).to_bytes(4, "little") + kind.to_bytes(2, "little") + flags.to_bytes(2, "little")
    return header + bytes(8) + body + bytes(-len(body) % 4)


def properties(rng):
    """A body of a message about a link's properties: a link's header and attributes, mostly canonical."""
    name, names = attribute(3, b"eth0\0"), attribute(52 | linkshow.NESTED, attribute(53, b"other\0"))
    header = bytes([rng.choice([0, 7, 10]), 0, 1, 0]) + some_bytes(rng, 12)
    return header + b"".join(rng.choice([name, names, attribute(4, some_bytes(rng, 4))]) for _ in range(rng.randrange(4)))


def other_message(rng):
    """A message of a type other than links."""
    types, requests, families, record_name, table = rng.choice(linkshow.BODIES)
    flags = rng.choice([0, 1, 0x301, 0x605]) if requests is None else requests[0]
    if record_name == linkshow.PEER:
        return message(rng.choice(types), flags, spoil(rng, properties(rng)))
    header = record(rng, record_name)
    header = bytes([rng.choice(families or [0, 2, 7, 10])]) + header[1:]
    body = header + (attributes(rng, table) if table in TABLE_ROWS else b"")
    general = record(rng, rng.choice(list(linkshow.GENERAL.values())))
    return message(rng.choice(types), flags, rng.choice([body, body, body, spoil(rng, body), general]))


def link_list(place, data):
    """The family and the attributes of a link with a list of raw attributes at a place of raw.tsv."""
    word, _, name = place.partition(" ")
    kind_name = attribute(1, name.encode() + b"\0")
    if word == "data":
        return 0, attribute(18, kind_name + attribute(2, data))
    if word == "xstats":
        return 0, attribute(18, kind_name + attribute(3, data))
    if word == "port":
        return 0, attribute(18, attribute(4, name.encode() + b"\0") + attribute(5, data))
    if word == "family":
        family, kind = map(int, name.split(" kind "))
        return family, attribute(kind, data)
    return 0, attribute(25, data) if place == "port_self" else attribute(24, attribute(1, data))


def link_message(rng):
    """A link with a list of raw attributes."""
    place, table = rng.choice(list(linkshow.LISTS.items()))
    family, data = link_list(place, attributes(rng, table))
    return message(rng.choice([16, 18]), rng.choice([0, 1]), bytes([family]) + bytes(15) + data)


def capture(rng):
    return b"".join(rng.choice([other_message, other_message, link_message])(rng) for _ in range(rng.randrange(1, 4)))


def header_size(kind, flags, body):
    """The size of the record at the start of a body of a type other than links, or None."""
    row = linkshow.body_row(kind, flags, body)
    if row and row[0] == linkshow.PEER:
        return LINK_HEADER_SIZE
    return record_size(row[0]) if row else None
