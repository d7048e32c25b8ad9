#!/usr/bin/env python3
"""linkoracle: an independent implementation of normal texts.

It was written from the definitions of the format in words (docs/ has the same
ones), separately from this repository's code, and is never corrected after the
output of that code.  Standard library only; clear, not fast.

Library (every call takes `stage=` and `peers_judged=`):

    normal_text(capture, limit)  -> (text, fault or None)
    measure(capture, limit)      -> (frames, attributes, text_len) or fault
    same(a, b, limit)            -> bool or (second, fault)
    check_list(bytes)            -> (text_len, attributes, fits) or None
    same_list(a, b)              -> bool
    body_check(body)             -> (text_len, attributes, fits, empty_ports)
                                    or None
    list_text(bytes), attr_text(table, context, bytes)  canonical text or None
    Reader                       -> a model of a reader fed in pieces

A fault is the triple (number, words, offset).  `stage` says which rows the
tables have:
  names  only a link's name is text, every other kind is raw
  plain  texts, bytes, numbers of 4 bytes and of 1, and link info
  all    all rows
  peers  all rows, and peers are judged as link messages
`peers_judged` overrides the stage's rule for peers.
"""

import os
import sys

sys.path.insert(0, os.path.dirname(os.path.abspath(__file__)))
from tables import (    # noqa: E402
    Choice, FirstRow, LAYER_TYPES, LINK_INFO, LINK_NESTED, LINK_TABLES, ListRow, NESTED, PEER, RAW,
    REFUSED, Shape, TABLES, VF_PORTS_ROW, VOID, ZERO4, drop_nul, number, p16, p32, proper, round_up,
    u16, u32, written_layer,
)

DEFAULT_LIMIT = 1048576
LEAST_LIMIT = 16
GREATEST_LIMIT = 4294967295

# --------------------------------------------------------------------------
# Faults (docs/format/frames.md)

FAULT_KINDS = {
    1: ("Cut", "cut frame"),
    2: ("ShortLength", "length under 16"),
    3: ("OverLimit", "frame over the limit"),
    4: ("Refused", "refused body"),
    5: ("EmptyPorts", "ports with foreign entries alone"),
    6: ("Unfit", "attribute over 65535"),
    7: ("TextOverLimit", "normal text over the limit"),
    8: ("Memory", "no memory"),
    9: ("Read", "read failed"),
    10: ("Write", "write failed"),
    11: ("TooLong", "capture too long"),
    12: ("Failed", "failed before"),
}


def fault_at(number, offset):
    return (number, FAULT_KINDS[number][1], offset)


def fault_name(fault):
    return FAULT_KINDS[fault[0]][0]


def display(fault):
    """The text of a fault, as CaptureFault displays it."""
    return "%s at %d" % (fault[1], fault[2])


# --------------------------------------------------------------------------
# The rules in force: stage and judging of peers

class Rules:
    """The rows of all tables at a stage, and whether peers are judged."""

    def __init__(self, stage, peers_judged):
        self.stage = stage
        self.peers_judged = peers_judged
        self.link = LINK_TABLES[stage]
        # inside a judged peer, peers are bytes
        self.inside_peer = Rules(stage, False) if peers_judged else None

    def row(self, table, context, kind):
        """The row of a kind proper under a context: a shape or a nested
        table; RAW if the table has no row for it."""
        row = table.rows.get(kind, RAW)
        if isinstance(row, Choice):
            row = row.pick(self, context)
        return row


def stage_name(stage):
    if stage not in LINK_TABLES:
        raise ValueError("no such stage: %s" % stage)
    return stage


_RULES = {}


def rules_for(stage="peers", peers_judged=None):
    stage = stage_name(stage)
    if peers_judged is None:
        peers_judged = stage == "peers"
    key = (stage, bool(peers_judged))
    if key not in _RULES:
        _RULES[key] = Rules(*key)
    return _RULES[key]


# --------------------------------------------------------------------------
# Cutting and judging lists

def attributes(b):
    """The attributes at the start of b, as pairs of kind and payload, and
    whether bytes follow that are no attribute: what NlasIterator yields."""
    out = []
    at, size = 0, len(b)
    while at < size:
        left = size - at
        if left < 4:
            return out, True
        length = u16(b, at)
        if length < 4 or length > left:
            return out, True
        out.append((u16(b, at + 2), b[at + 4:at + length]))
        at += min(round_up(length), left)
    return out, False


def cut(b):
    """The attributes of b, or None if b is no list of attributes."""
    out, error = attributes(b)
    return None if error else out


def cut_first(b):
    """The attribute that b begins with, as (kind, payload), or None."""
    if len(b) < 4:
        return None
    length = u16(b, 0)
    if length < 4 or length > len(b):
        return None
    return (u16(b, 2), b[4:length])


class Entry:
    """An accepted attribute with its row.

    content: the entries of a ListRow, the first entry of a FirstRow, the Body
    of a judged peer, else None.
    written_kind: the kind in the normal text.
    """
    __slots__ = ("table", "kind", "row", "payload", "content", "written_kind")

    def __init__(self, table, kind, row, payload, content, written_kind):
        self.table, self.kind, self.row = table, kind, row
        self.payload, self.content = payload, content
        self.written_kind = written_kind


class Body:
    """An accepted link body."""
    __slots__ = ("family", "second", "layer", "index", "flags", "mask",
                 "entries")


def written_kind(rules, table, row, kind):
    """The kind of an attribute in the normal text."""
    if row.raw:
        return kind
    if table is rules.link and proper(kind) in LINK_NESTED:
        return proper(kind) | NESTED
    return proper(kind)


def read_entry(rules, table, context, kind, payload):
    """An Entry, or None if its row doesn't accept the payload."""
    row = rules.row(table, context, proper(kind))
    if isinstance(row, Shape):
        if not row.accepts(payload):
            return None
        content = None
    elif isinstance(row, ListRow):
        if row.refuse_empty and not payload:
            return None
        content = read_list(rules, row.table, row.context, payload)
        if content is None:
            return None
    elif isinstance(row, FirstRow):
        first = cut_first(payload)
        if first is None:
            return None
        entry = read_entry(rules, row.table, row.context, *first)
        if entry is None:
            return None
        content = [entry]
    else:                                   # a judged peer
        content = read_link_body(rules.inside_peer, payload)
        if (content is None or has_empty_ports(content)
                or not fits(content.entries)):
            return None
    return Entry(table, kind, row, payload, content,
                 written_kind(rules, table, row, kind))


def kind_name(p):
    """The name of a kind of link, from the payload of IFLA_INFO_KIND or
    IFLA_INFO_SLAVE_KIND."""
    return drop_nul(p).decode("utf-8")


def next_in_force(in_force, kind, payload):
    """(kind, port kind) in force after an attribute of link info, from those before it, each a name or None."""
    kind_in_force, port_kind = in_force
    if proper(kind) == 1:
        return kind_name(payload), port_kind
    if proper(kind) == 4:
        return kind_in_force, kind_name(payload)
    return kind_in_force, None if proper(kind) == 5 else port_kind


def read_list(rules, table, context, b):
    """All entries of b, or None if b isn't accepted."""
    pairs = cut(b)
    if pairs is None:
        return None
    out = []
    in_force = None, None        # in link info
    for kind, payload in pairs:
        here = in_force if table is LINK_INFO else context
        entry = read_entry(rules, table, here, kind, payload)
        if entry is None:
            return None
        out.append(entry)
        if table is LINK_INFO:
            in_force = next_in_force(in_force, kind, payload)
    return out


def read_link_body(rules, b):
    """The Body of b; None if b has fewer than 16 bytes, or no accepted list
    after the first 16."""
    if len(b) < 16:
        return None
    body = Body()
    body.family, body.second, body.layer = b[0], b[1], u16(b, 2)
    body.index, body.flags, body.mask = u32(b, 4), u32(b, 8), u32(b, 12)
    body.entries = read_list(rules, rules.link, body.family, b[16:])
    return None if body.entries is None else body


# --------------------------------------------------------------------------
# Kept entries, sizes, texts, counts

def kept_entries(entry):
    """The entries of a nested row that its normal text keeps."""
    kept_kind = entry.row.table.kept_kind
    if kept_kind is None:
        return entry.content
    return [e for e in entry.content if proper(e.kind) == kept_kind]


def is_nested(entry):
    return isinstance(entry.row, (ListRow, FirstRow))


def payload_size(entry):
    """The size of the canonical payload, which may be too large to write."""
    if is_nested(entry):
        return list_size(kept_entries(entry))
    if entry.row is PEER:
        return 16 + list_size(entry.content.entries)
    return len(entry.row.canonical(entry.payload))


def list_size(entries):
    """The size of the text of kept entries."""
    return sum(round_up(4 + payload_size(e)) for e in entries)


def fits(entries):
    """Whether the length of each kept entry, at all depths, fits its 2 bytes."""
    for e in entries:
        if 4 + payload_size(e) > 65535:
            return False
        if is_nested(e) and not fits(kept_entries(e)):
            return False
        if e.row is PEER and not fits(e.content.entries):
            return False
    return True


def payload_text(e):
    """The canonical payload of an entry that fits."""
    if is_nested(e):
        return text_of(kept_entries(e))
    if e.row is PEER:
        return body_text(e.content)
    return e.row.canonical(e.payload)


def text_of(entries):
    """The text of kept entries that fit."""
    out = []
    for e in entries:
        payload = payload_text(e)
        length = 4 + len(payload)
        out.append(p16(length) + p16(e.written_kind) + payload
                   + bytes(round_up(length) - length))
    return b"".join(out)


def body_text(body):
    """The text of a link body that fits."""
    return (bytes((body.family, 0)) + p16(written_layer(body.layer))
            + p32(body.index) + p32(body.flags) + p32(body.mask)
            + text_of(body.entries))


def has_empty_ports(body):
    """Whether the normal text would keep no entry of some IFLA_VF_PORTS."""
    return any(e.row is VF_PORTS_ROW and not kept_entries(e)
               for e in body.entries)


def count(entries):
    """The number of attributes at all depths, those included that the normal
    text drops."""
    n = 0
    for e in entries:
        n += 1
        if is_nested(e):
            n += count(e.content)
        elif e.row is PEER:
            n += count(e.content.entries)
    return n


# --------------------------------------------------------------------------
# Equivalence

def same_entries(a, b):
    """Whether two lists of kept entries mean the same.  Builds no text."""
    if len(a) != len(b):
        return False
    for x, y in zip(a, b):
        if x.row.raw or y.row.raw:
            if not (x.row.raw and y.row.raw and x.kind == y.kind):
                return False
        elif proper(x.kind) != proper(y.kind):
            return False
        # Equal entries before this one give equal contexts, so equal rows.
        if x.row is not y.row:
            return False
        if is_nested(x):
            if not same_entries(kept_entries(x), kept_entries(y)):
                return False
        elif x.row is PEER:
            if not same_link_bodies(x.content, y.content):
                return False
        elif not x.row.same(x.payload, y.payload):
            return False
    return True


def same_layers(m, n):
    """Whether two types of links are equal, or both are written as 65535."""
    return m == n or ((m not in LAYER_TYPES or m == VOID)
                      and (n not in LAYER_TYPES or n == VOID))


def same_link_bodies(a, b):
    """Whether two link bodies, of types 16 to 19, mean the same."""
    return (a.family == b.family and a.index == b.index
            and a.flags == b.flags and a.mask == b.mask
            and same_layers(a.layer, b.layer)
            and same_entries(a.entries, b.entries))


NOOP, ERROR, DONE, OVERRUN = 1, 2, 3, 4
LINK_TYPES = (16, 17, 18, 19)


def same_bodies(kind, a, b):
    """Whether the bodies of two accepted frames of one type mean the same."""
    if kind == NOOP:
        return True
    if kind == DONE:
        return (a.body or ZERO4) == (b.body or ZERO4)
    if kind in LINK_TYPES:
        return same_link_bodies(a.link, b.link)
    return a.body == b.body


# --------------------------------------------------------------------------
# Frames

class Frame:
    """An accepted frame.  `link` is its Body for types 16 to 19, else None."""
    __slots__ = ("offset", "length", "type", "flags", "sequence", "port",
                 "body", "link")

    def body_size(self):
        """The size of the body in the normal text."""
        if self.link is not None:
            return 16 + list_size(self.link.entries)
        return len(self.plain_text())

    def plain_text(self):
        if self.type == NOOP:
            return b""
        if self.type == DONE:
            return self.body or ZERO4
        return self.body

    def text(self):
        body = self.plain_text() if self.link is None else body_text(self.link)
        length = 16 + len(body)
        return (p32(length) + p16(self.type) + p16(self.flags)
                + p32(self.sequence) + p32(self.port)
                + body + bytes(round_up(length) - length))


def read_frame(rules, limit, c, at):
    """The Frame that starts at offset `at` of c, or the number of its fault.
    At least one byte is there."""
    left = len(c) - at
    if left < 16:
        return 1
    length = u32(c, at)
    if length < 16:
        return 2
    if length > limit:
        return 3
    if left < length:
        return 1
    f = Frame()
    f.offset, f.length = at, length
    f.type, f.flags = u16(c, at + 4), u16(c, at + 6)
    f.sequence, f.port = u32(c, at + 8), u32(c, at + 12)
    f.body = c[at + 16:at + length]
    f.link = None
    if f.type == ERROR:
        if len(f.body) < 4:
            return 4
    elif f.type == DONE:
        if 1 <= len(f.body) <= 3:
            return 4
    elif f.type in LINK_TYPES:
        f.link = read_link_body(rules, f.body)
        if f.link is None:
            return 4
        if has_empty_ports(f.link):
            return 5
        if not fits(f.link.entries):
            return 6
    if 16 + f.body_size() > limit:
        return 7
    return f


def walk(rules, limit, c):
    """Yields each accepted Frame, then the first fault, if there is one."""
    at = 0
    while at < len(c):
        f = read_frame(rules, limit, c, at)
        if not isinstance(f, Frame):
            yield fault_at(f, at)
            return
        yield f
        at += min(round_up(f.length), len(c) - at)


def read_capture(rules, limit, c):
    """(frames before the first fault, first fault or None)."""
    frames = []
    for item in walk(rules, limit, c):
        if not isinstance(item, Frame):
            return frames, item
        frames.append(item)
    return frames, None


def check_limit(limit):
    if not LEAST_LIMIT <= limit <= GREATEST_LIMIT:
        raise ValueError("a limit is a number from 16 to 4294967295")


# --------------------------------------------------------------------------
# The calls

def normal_text(capture, limit=DEFAULT_LIMIT, stage="peers", peers_judged=None):
    """(the texts of the frames before the first fault, that fault or None)."""
    check_limit(limit)
    frames, fault = read_capture(rules_for(stage, peers_judged), limit,
                                 bytes(capture))
    return b"".join(f.text() for f in frames), fault


def first_fault(capture, limit=DEFAULT_LIMIT, stage="peers", peers_judged=None):
    """The first fault, or None."""
    check_limit(limit)
    return read_capture(rules_for(stage, peers_judged), limit,
                        bytes(capture))[1]


def measure(capture, limit=DEFAULT_LIMIT, stage="peers", peers_judged=None):
    """(frames, attributes, text_len), or the first fault."""
    check_limit(limit)
    frames, fault = read_capture(rules_for(stage, peers_judged), limit,
                                 bytes(capture))
    if fault is not None:
        return fault
    return (len(frames),
            sum(count(f.link.entries) for f in frames if f.link is not None),
            sum(round_up(16 + f.body_size()) for f in frames))


def is_fault(result):
    """Whether a result of `measure` is a fault."""
    return isinstance(result[1], str)


def same(a, b, limit=DEFAULT_LIMIT, stage="peers", peers_judged=None):
    """Whether two legal captures mean the same; else (whether b has the fault,
    the first fault).  All of a is judged before b."""
    check_limit(limit)
    rules = rules_for(stage, peers_judged)
    left, fault = read_capture(rules, limit, bytes(a))
    if fault is not None:
        return (False, fault)
    right, fault = read_capture(rules, limit, bytes(b))
    if fault is not None:
        return (True, fault)
    return (len(left) == len(right)
            and all(f.type == g.type and f.flags == g.flags
                    and f.sequence == g.sequence and f.port == g.port
                    and same_bodies(f.type, f, g)
                    for f, g in zip(left, right)))


def check_list(b, stage="peers", peers_judged=None):
    """(text_len, attributes, fits) of a link info list; None if refused."""
    entries = read_list(rules_for(stage, peers_judged), LINK_INFO, None,
                        bytes(b))
    if entries is None:
        return None
    return (list_size(entries), count(entries), fits(entries))


def same_list(a, b, stage="peers", peers_judged=None):
    """Whether two accepted link info lists mean the same."""
    rules = rules_for(stage, peers_judged)
    x = read_list(rules, LINK_INFO, None, bytes(a))
    y = read_list(rules, LINK_INFO, None, bytes(b))
    if x is None or y is None:
        raise ValueError("same_list: both lists have to be accepted")
    return same_entries(x, y)


def list_text(b, stage="peers", peers_judged=None):
    """The canonical text of a link info list; None if refused or unfit."""
    entries = read_list(rules_for(stage, peers_judged), LINK_INFO, None,
                        bytes(b))
    if entries is None or not fits(entries):
        return None
    return text_of(entries)


def body_check(b, stage="peers", peers_judged=None):
    """(text_len, attributes, fits, empty_ports) of a link body; None if
    refused."""
    body = read_link_body(rules_for(stage, peers_judged), bytes(b))
    if body is None:
        return None
    return (16 + list_size(body.entries), count(body.entries),
            fits(body.entries), has_empty_ports(body))


def same_body(a, b, stage="peers", peers_judged=None):
    """Whether two accepted link bodies mean the same."""
    rules = rules_for(stage, peers_judged)
    x = read_link_body(rules, bytes(a))
    y = read_link_body(rules, bytes(b))
    if x is None or y is None:
        raise ValueError("same_body: both bodies have to be accepted")
    return same_link_bodies(x, y)


def attr_text(table, context, b, stage="peers", peers_judged=None):
    """The canonical text of the attribute that b begins with, under a table
    of TABLES (or "link") and a context; None if refused or unfit."""
    rules = rules_for(stage, peers_judged)
    t = rules.link if table == "link" else TABLES[table]
    first = cut_first(bytes(b))
    if first is None:
        return None
    entry = read_entry(rules, t, context, *first)
    if entry is None or not fits([entry]):
        return None
    return text_of([entry])


class Reader:
    """A model of a reader that is fed in pieces.  It normalises all bytes anew
    at each piece, so its time is quadratic."""

    def __init__(self, limit, stage="peers", peers_judged=None):
        check_limit(limit)
        self.args = (limit, stage, peers_judged)
        self.capture = b""
        self.fault_offset = None

    def feed(self, piece):
        """(the text that the piece adds, fault or None)."""
        if self.fault_offset is not None:
            return b"", fault_at(12, self.fault_offset)
        old = normal_text(self.capture, *self.args)[0]
        self.capture += bytes(piece)
        new, fault = normal_text(self.capture, *self.args)
        if fault is not None and fault[0] != 1:
            self.fault_offset = fault[2]
        else:
            fault = None
        return new[len(old):], fault

    def finish(self):
        if self.fault_offset is not None:
            return fault_at(12, self.fault_offset)
        return first_fault(self.capture, *self.args)

    def kept(self):
        """The number of bytes of a cut frame, which `CaptureReader` keeps."""
        if self.fault_offset is not None:
            return 0
        fault = first_fault(self.capture, *self.args)
        return 0 if fault is None else len(self.capture) - fault[2]


# --------------------------------------------------------------------------
# The program

USAGE = "usage: linkcap norm [LIMIT] or linkcap same FILE FILE [LIMIT]"


def read_limit(word):
    """The number of a LIMIT, or None if the argument is none."""
    if not word or any(ch not in "0123456789" for ch in word):
        return None
    digits = word.lstrip("0") or "0"
    if len(digits) > 10:
        return None
    value = int(digits)
    return value if LEAST_LIMIT <= value <= GREATEST_LIMIT else None


def read_arguments(args):
    """("norm", limit) or ("same", first, second, limit); None for a usage
    error, of status 3."""
    if args[:1] == ["norm"] and len(args) in (1, 2):
        limit = DEFAULT_LIMIT if len(args) == 1 else read_limit(args[1])
        return None if limit is None else ("norm", limit)
    if args[:1] == ["same"] and len(args) in (3, 4):
        limit = DEFAULT_LIMIT if len(args) == 3 else read_limit(args[3])
        return None if limit is None else ("same", args[1], args[2], limit)
    return None


def read_fd(fd):
    """(bytes read, whether reading failed)."""
    parts = []
    while True:
        try:
            part = os.read(fd, 1 << 20)
        except OSError:
            return b"".join(parts), True
        if not part:
            return b"".join(parts), False
        parts.append(part)


def write_fd(fd, b):
    """(number of bytes written, whether writing failed)."""
    at = 0
    while at < len(b):
        try:
            n = os.write(fd, b[at:at + (1 << 20)])
        except OSError:
            return at, True
        if n == 0:
            return at, True
        at += n
    return at, False


def report(line):
    write_fd(2, (line + "\n").encode("utf-8", "surrogateescape"))


def run_norm(limit, stage, peers_judged):
    s, read_failed = read_fd(0)
    text, fault = normal_text(s, limit, stage, peers_judged)
    if read_failed and (fault is None or fault[0] == 1):
        fault = fault_at(9, len(s))
    size, write_failed = write_fd(1, text)
    if write_failed:
        fault = fault_at(10, size)
    if fault is not None:
        report(display(fault))
        return 2
    return 0


def run_same(first, second, limit, stage, peers_judged):
    sides = []
    for prefix, name in (("first: ", first), ("second: ", second)):
        try:
            fd = os.open(name, os.O_RDONLY)
        except (OSError, ValueError):
            report(prefix + display(fault_at(9, 0)))
            return 2
        s, read_failed = read_fd(fd)
        os.close(fd)
        if read_failed:
            report(prefix + display(fault_at(9, len(s))))
            return 2
        sides.append(s)
    result = same(sides[0], sides[1], limit, stage, peers_judged)
    if not isinstance(result, bool):
        report(("second: " if result[0] else "first: ") + display(result[1]))
        return 2
    if write_fd(1, b"same\n" if result else b"different\n")[1]:
        report(display(fault_at(10, 0)))
        return 2
    return 0 if result else 1


def run_measure(limit, stage, peers_judged):
    s, read_failed = read_fd(0)
    if read_failed:
        report(display(fault_at(9, len(s))))
        return 2
    result = measure(s, limit, stage, peers_judged)
    if is_fault(result):
        report(display(result))
        return 2
    write_fd(1, b"%d %d %d\n" % result)
    return 0


def main(args):
    """Runs the program, and returns its exit status.

    The options --stage NAME, --peers and --no-peers may precede the arguments
    of linkcap.  There is one more command, `measure [LIMIT]`.
    """
    stage, peers_judged = "peers", None
    while args and args[0].startswith("--"):
        if args[0] == "--stage" and len(args) > 1:
            stage, args = stage_name(args[1]), args[2:]
        elif args[0] == "--peers":
            peers_judged, args = True, args[1:]
        elif args[0] == "--no-peers":
            peers_judged, args = False, args[1:]
        else:
            break
    if args[:1] == ["measure"] and len(args) in (1, 2):
        limit = DEFAULT_LIMIT if len(args) == 1 else read_limit(args[1])
        if limit is not None:
            return run_measure(limit, stage, peers_judged)
    command = read_arguments(args)
    if command is None:
        report(USAGE)
        return 3
    if command[0] == "norm":
        return run_norm(command[1], stage, peers_judged)
    return run_same(*command[1:], stage, peers_judged)


if __name__ == "__main__":
    sys.exit(main(sys.argv[1:]))
