"""Attributes of cases beside what both sides read and write of them, and the parts of a body."""
import os
import sys

sys.path.insert(0, os.path.join(os.path.dirname(os.path.abspath(__file__)), "..", "..", "tools", "oracle"))
import tables               # noqa: E402
from debug_text import Node  # noqa: E402

LINK_HEADER_SIZE = 16
KIND_MASK = 0x3FFF


def is_node(value, name, count=1):
    return isinstance(value, Node) and value.name == name and isinstance(value.fields, list) and len(value.fields) == count


def cut(data):
    """The attributes of a list, each a kind with its flag bits and a payload; None if it isn't whole."""
    found, at = [], 0
    while at < len(data):
        length = int.from_bytes(data[at:at + 2], "little")
        if at + 4 > len(data) or length < 4 or at + length > len(data):
            return None
        found.append((int.from_bytes(data[at + 2:at + 4], "little"), data[at + 4:at + length]))
        at += (length + 3) // 4 * 4
    return found


def cut_first(data):
    """The first attribute of a list; None if it isn't whole."""
    length = int.from_bytes(data[:2], "little")
    return (int.from_bytes(data[2:4], "little"), data[4:length]) if 4 <= length <= len(data) else None


class Element:
    """An attribute, or a value in it: where it is, its kind and payload in the case, and what both sides read and write."""

    def __init__(self, place, kind, payload, ours, theirs, ours_written=None, theirs_written=None, ours_result=None,
                 theirs_result=None, is_inner=False):
        self.place, self.kind, self.payload = place, kind, payload
        self.ours, self.theirs = ours, theirs
        self.ours_written, self.theirs_written = ours_written, theirs_written
        self.ours_result, self.theirs_result = ours_result, theirs_result
        self.is_inner, self.family, self.is_written = is_inner, None, False
        self.extra = []         # the payloads of peers, which are compared as bodies of their own, with what the crate writes

    def inner(self, name, ours, theirs):
        """A value inside it, of the same attribute."""
        place = self.place + "/" + name if name else self.place
        inside = Element(place, self.kind, self.payload, ours, theirs, self.ours_written, self.theirs_written, self.ours_result,
                         self.theirs_result, True)
        inside.family, inside.extra = self.family, self.extra
        return inside

    def as_written(self):
        """The same, for rules on what is written."""
        other = Element("written " + self.place, self.kind, self.payload, self.ours, self.theirs, self.ours_written,
                        self.theirs_written, self.ours_result, self.theirs_result)
        other.is_written, other.family, other.extra = True, self.family, self.extra
        return other

    def peer_payload(self):
        """The bytes of the peer in a payload: of `netkit` the whole one, of a pair that of its first attribute."""
        return self.payload if "Netkit" in self.place else cut_first(self.payload)[1]

    def peers(self):
        """The peer that each side writes; None if this isn't one."""
        if "Netkit" in self.place:
            is_peer = is_node(self.ours, "Peer") and isinstance(self.ours.fields[0], list) and is_node(self.theirs, "Peer")
            return (self.ours_written[1], self.theirs_written[1]) if is_peer else None
        if self.place != "written link/LinkInfo" or self.proper != 2 or names(self.ours)[-1:] != ["Peer"] != names(self.theirs)[-1:]:
            return None
        left, right = cut_first(self.ours_written[1]), cut_first(self.theirs_written[1])
        return left and right and (left[1], right[1])

    @property
    def proper(self):
        return None if self.kind is None else self.kind & KIND_MASK

    def key(self):
        def head(value):
            return value.name if isinstance(value, Node) else "bytes" if isinstance(value, tuple) else type(value).__name__
        values = (self.ours_written, self.theirs_written) if self.is_written else (self.ours, self.theirs)
        words = tuple(value if self.place.startswith("refused") else head(value) for value in values)
        return (self.place, self.kind if self.kind is None else self.kind & KIND_MASK, *words)

    def __str__(self):
        if self.is_written:
            left, right = (value and ("%x" % (value[0] or 0), value[1].hex()) for value in (self.ours_written, self.theirs_written))
            return "kind %s payload %s | %s | %s | %s | %s" % (self.kind, self.payload.hex()[:100], left, right, self.ours, self.theirs)
        return "kind %s payload %s | %s | %s | %s" % (
            self.kind, self.payload.hex()[:100], self.ours, self.theirs, self.theirs_result and self.theirs_result.raw[:300]
            if self.place.startswith("refused") else "")


def listed(value):
    """The list of values that an attribute holds, below names with one field; None if there is none."""
    while isinstance(value, Node) and isinstance(value.fields, list) and len(value.fields) == 1:
        value = value.fields[0]
    return value if isinstance(value, list) and all(isinstance(item, Node) for item in value) else None


def names(value):
    """The names above the list in a value."""
    found = []
    while isinstance(value, Node) and isinstance(value.fields, list) and len(value.fields) == 1:
        found.append(value.name)
        value = value.fields[0]
    return found


def children(element):
    """The attributes inside an attribute, if both sides read the payload as a list of them under the same names; else None."""
    left, right = listed(element.ours), listed(element.theirs)
    if left is None or right is None or names(element.ours) != names(element.theirs) or len(left) != len(right):
        return None
    inside = cut(element.payload)
    if inside is None:
        return None
    place = "/".join([element.place, *names(element.ours)])
    if place in ("link/VfInfoList", "link/VfPorts"):
        inside = [(kind, payload) for kind, payload in inside if kind & KIND_MASK == 1]
    if len(inside) != len(left):
        return None
    written = []
    for side in (element.ours_written, element.theirs_written):
        parts = side and cut(side[1])
        written.append(parts if parts and len(parts) == len(left) else [None] * len(left))
    found = []
    for (kind, payload), ours, theirs, ours_written, theirs_written in zip(inside, left, right, *written):
        child = Element(place, kind, payload, ours, theirs, ours_written, theirs_written, element.ours_result, element.theirs_result)
        child.family, child.extra = element.family, element.extra
        found.append(child)
    return found


# Parts of a body

def attribute(kind, payload):
    return (4 + len(payload)).to_bytes(2, "little") + kind.to_bytes(2, "little") + payload + bytes(-len(payload) % 4)


def sections(data):
    """The bytes of each attribute, with its padding, and of what is left."""
    found, at = [], 0
    while at < len(data):
        length = int.from_bytes(data[at:at + 2], "little")
        if at + 4 > len(data) or length < 4 or at + length > len(data):
            found.append(data[at:])
            break
        end = (length + 3) // 4 * 4
        found.append(data[at:at + end])
        at += end
    return found


def smaller(data, is_info):
    """Lists that each have one attribute of a list; of link info with the kind before it."""
    found = sections(data)
    if not is_info:
        return found if len(found) > 1 else []
    kinds, out = {}, []
    for section in found:
        kind = int.from_bytes(section[2:4], "little") & KIND_MASK if len(section) >= 4 else 0
        out.append(kinds.get({2: 1, 3: 1, 5: 4}.get(kind), b"") + section)
        if kind in (1, 4):
            kinds[kind] = section
        if kind == 5:
            kinds.pop(4, None)
    return out if data not in out else []


def row_of(table, kind, context):
    row = table.rows.get(kind & KIND_MASK)
    if isinstance(row, tables.Choice) and row.name != "peer":
        row = row.pick(None, context)
    return row


def nested(table, context, data):
    """Smaller lists in place of a list, by the first attribute that can be taken apart."""
    parts = smaller(data, table is tables.LINK_INFO)
    if parts:
        return parts
    attributes = cut(data)
    if not attributes:
        return []
    kind, payload = attributes[-1]
    before = b"".join(sections(data)[:-1])
    if table is tables.LINK_INFO:
        context = tuple(in_force(attributes[:-1]))
    row = row_of(table, kind, context)
    inner = []
    if isinstance(row, tables.ListRow) and row.table.name == "vf_ports":
        inner = ports(payload)
    elif isinstance(row, tables.ListRow):
        inner = nested(row.table, row.context, payload)
    elif isinstance(row, tables.FirstRow):
        found = sections(payload)
        inner = [found[0]] if len(found) > 1 else nested(row.table, row.context, payload)
    elif row is not None and row.name == "peer":
        inner = parts_of(payload)
    return [before + attribute(kind, part) for part in inner]


PORT = attribute(1, attribute(1, b""))


def ports(data):
    """Lists in place of a list of ports, each with a port, since a list without one is refused in a peer."""
    found = sections(data)
    kinds = [int.from_bytes(section[2:4], "little") & KIND_MASK for section in found]
    if len(found) < 2 or 1 not in kinds or found[0] == PORT:
        return []
    return [PORT + section for section in found]


def in_force(attributes):
    kind, port = None, None
    for found, payload in attributes:
        try:
            text = tables.drop_nul(payload).decode()
        except UnicodeDecodeError:
            text = None
        if found & KIND_MASK == 1:
            kind = text
        elif found & KIND_MASK == 4:
            port = text
        elif found & KIND_MASK == 5:
            port = None
    return kind, port


def parts_of(body):
    if len(body) < LINK_HEADER_SIZE:
        return []
    return [body[:LINK_HEADER_SIZE] + part for part in nested(tables.LINK_TABLES["peers"], body[0], body[LINK_HEADER_SIZE:])]


def parts(body):
    """Smaller bodies, of which one is refused if and only if the body is; none if it can't be taken apart."""
    return [part for part in parts_of(body) if part != body]


def deepest(body):
    """Where it is, and the kind and payload, of the last attribute at the deepest level of a body."""
    if len(body) < LINK_HEADER_SIZE:
        return "link header", (0, body)
    return deepest_in(tables.LINK_TABLES["peers"], body[0], body[LINK_HEADER_SIZE:], "link")


def deepest_in(table, context, data, place):
    attributes = cut(data)
    if not attributes:
        return place, (0, data)
    kind, payload = attributes[-1]
    if table is tables.LINK_INFO:
        context = tuple(in_force(attributes[:-1]))
    row = row_of(table, kind, context)
    here = place + "/%d" % (kind & KIND_MASK) + (" of " + str(context[kind & KIND_MASK in (4, 5)]) if table is tables.LINK_INFO else "")
    if isinstance(row, (tables.ListRow, tables.FirstRow)) and cut(payload):
        return deepest_in(row.table, row.context, payload, here)
    if row is not None and row.name == "peer" and len(payload) >= LINK_HEADER_SIZE and cut(payload[LINK_HEADER_SIZE:]):
        return deepest_in(tables.LINK_TABLES["peers"], payload[0], payload[LINK_HEADER_SIZE:], here + "/peer")
    return here, (kind, payload)
