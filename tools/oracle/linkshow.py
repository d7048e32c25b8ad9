#!/usr/bin/env python3
"""Lines of a capture, in the format of lines.md.  Names, formats of values,
records and texts of numbers are those of rows.tsv and raw.tsv; values.py makes
texts of payloads, and linkoracle.py does the rest.

    python3 linkshow.py [--limit N] [--without-numbers] [--only TYPE,..]
        [--link WORD] [--without NAME,..] [--offsets] [--keep-going] < CAPTURE

Library:

    lines(capture, limit, stage, numbers, only, link, omitted, offsets,
          keep_going)                            -> (text, first fault or None)
    why(capture, limit, stage)                   -> the reason of a refused body
                                                    and its offset, or None
"""
import argparse
import os
import re
import sys

HERE = os.path.dirname(os.path.abspath(__file__))
sys.path.insert(0, HERE)
import linkoracle as o      # noqa: E402

from tables import DATA, TYPES, read_data      # noqa: E402
from values import exact_value, number, quote, record, record_size, value      # noqa: E402

RAW_DATA = read_data("raw.tsv")
ANY = "*"
PEER = "peer"       # in the column of records or formats, bytes that are shown as a peer


def matching(column):
    """The set of numbers that a column of raw.tsv fits: None fits any."""
    first, _, last = column.partition("-")
    return None if column == ANY else range(int(first), int(last or first) + 1)


# (table, kind) -> (name, format of the value)
ROWS = {(table, int(kind)): (name, style) for table, kind, name, _, style in DATA["row"]}
# (table of raw attributes, kind or ANY) -> (name, format of the value)
RAW_ROWS = {(table, kind if kind == ANY else int(kind)): (name, style) for table, kind, name, style in RAW_DATA["raw"]}
# (set of choices, payload of the attribute that chooses) -> format of the value
CHOICES = {(choice, int(word).to_bytes(2, "little") if word.isdigit() else word.encode() + b"\0"): style
           for choice, word, style in RAW_DATA["choice"]}
# Where a list of raw attributes is in a link message -> its table
LISTS = dict(RAW_DATA["list"])
# (types, lowest bits of the flags, first bytes, record or PEER, table), each set None if any number fits
BODIES = [(*map(matching, columns), record_name, table) for *columns, record_name, table in RAW_DATA["body"]]

NESTED, BIG_ENDIAN = 0x8000, 0x4000     # the flag bits of a kind
CAPPED, ACK_TLVS = 0x100, 0x200         # flags of acknowledgements: the request is its header alone; attributes follow
HEADER_SIZE = 16                        # of a message
DEEPEST = 16                            # the deepest level of a line


def word_of(record_name):
    """The word at the start of a record's line."""
    return record_name.partition("/")[0]


def record_words(style):
    """The words at the start of the lines of records that a format has below an attribute's line."""
    name, *parameters = style.split()
    return {"records": parameters, "record_and_list": parameters[:1], "record_and_records": parameters}.get(name, [])


# The records that any request may be alone, by their size: the family (1 byte, or 4), or the header of links
GENERAL = {1: "rtgen", 4: "rtgenmsg", 16: "ifinfomsg"}


# Groups of what may be left out, each with the names of its attributes
GROUPS = {"numbers": [], **{name: names.split() for name, names in DATA["group"]}}
# The names of attributes
NAMES = {row[0] for rows in (ROWS, RAW_ROWS) for row in rows.values()} - {"[]"}
# The words at the start of lines of headers
HEADERS = {"rtnexthop", *GENERAL.values()} | {word_of(body[3]) for body in BODIES if body[3] != PEER} | {
    word for style in (*(row[1] for row in RAW_ROWS.values()), *CHOICES.values()) for word in record_words(style)}
INDEX_FIELDS = "index", "ifindex"
# The fields that are left out of headers, by the name or group
HIDDEN_FIELDS = {"indexes": " (?:if)?index [0-9]+", "padding": " padding [0-9a-f]+"}
NAME_LINES = ("  IFLA_IFNAME %s\n", "  IFLA_ALT_IFNAME %s\n", "    IFLA_ALT_IFNAME %s\n", "  FRA_IIFNAME %s\n",
              "  FRA_OIFNAME %s\n")
# The attributes with the index of the link that a message of another type than links' is about
OF_LINK = "RTA_OIF", "RTA_IIF", "NHA_OIF", "NETCONFA_IFINDEX"
REFUSED = 4                             # the number of the fault `refused body`
BODY_FAULTS = range(REFUSED, 8)         # those of a message's body


def line(depth, name, text=""):
    return "  " * depth + name + (" " + text if text else "") + "\n"


# --------------------------------------------------------------------------
# Lists of raw attributes

def cut_exactly(b):
    """The attributes (kind, payload, padding) of a list without anything after them, or None.  The padding is None if it is
    all there and zero."""
    out, at = [], 0
    while at < len(b):
        size = o.u16(b, at) if len(b) - at >= 4 else 0
        end = at + o.round_up(size)
        if size < 4 or at + size > len(b):
            return None
        padding = b[at + size:end]
        out.append((o.u16(b, at + 2), b[at + 4:at + size], None if padding == bytes(end - at - size) else padding))
        at = end
    return out


def raw_list(depth, table, b):
    """The lines of a list of raw attributes, or None if the bytes aren't exactly a list."""
    attributes = cut_exactly(b)
    if attributes is None:
        return None
    out = []
    for kind, p, padding in attributes:
        name, *below = raw_lines(depth, table, kind, p, attributes)
        out += [name] + ([] if padding is None else [line(depth + 1, "padding", padding.hex())]) + below
    return out


def raw_lines(depth, table, kind, p, attributes=()):
    """The lines of a raw attribute.  `attributes` are those of its list, one of which may choose the format."""
    row = None if kind & BIG_ENDIAN else RAW_ROWS.get((table, kind & ~NESTED)) or RAW_ROWS.get((table, ANY))
    if row is None:
        return [line(depth, "kind 0x%04x" % kind, p.hex())]
    name, style = row
    if name == "[]":
        name = "[%d]" % (kind & ~NESTED)
    return payload_lines(depth, name + (" nested" if kind & NESTED else ""), style, p, attributes)


def bytes_text(p):
    """The word `bytes`, and the bytes if there are any."""
    return ("bytes " + p.hex()).rstrip()


def chosen(style, attributes):
    """The format that another attribute of the list chooses: the first of its kind.  None if that isn't there, or chooses none."""
    _, choice, kind = style.split(" ")
    payload = next((p for k, p, _ in attributes if k & ~NESTED == int(kind)), None)
    return CHOICES.get((choice, payload))


def payload_lines(depth, name, style, p, attributes=()):
    """The lines of a payload by its format, or else `bytes` and the bytes."""
    if style.startswith("chosen "):
        style = chosen(style, attributes)
    if style is None:
        return [line(depth, name, bytes_text(p))]
    style_name, *parameters = style.split(" ")
    if style_name in BLOCKS:
        is_too_deep = depth + (2 if style_name == "next_hops" else 1) > DEEPEST
        below = None if is_too_deep else BLOCKS[style_name](depth + 1, p, *parameters)
        if below is not None:
            return [line(depth, name), *below]
        text = None
    else:
        text = exact_value(style, p)
    return [line(depth, name, bytes_text(p) if text is None else text)]


def list_block(depth, p, table):
    return raw_list(depth, table, p)


def record_and_list_block(depth, p, record_name, table):
    return record_and_list(depth, record_name, table, p)


def record_and_records_block(depth, p, first_name, record_name):
    size = record_size(first_name)
    header, below = record(first_name, p[:size], " "), records_block(depth, p[size:], record_name)
    return None if header is None or below is None else [line(depth, first_name, header), *below]


def records_block(depth, p, record_name):
    size = record_size(record_name)
    texts = [record(record_name, p[at:at + size], " ") for at in range(0, len(p), size)]
    return None if None in texts else [line(depth, record_name, text) for text in texts]


def next_hops_block(depth, p, table):
    """The next hops of a route: each a length in 2 bytes, a record, and a list up to the length."""
    out = []
    while p:
        size = o.u16(p, 0) if len(p) >= 8 else 0
        below = raw_list(depth + 1, table, p[8:size]) if 8 <= size <= len(p) else None
        if below is None:
            return None
        out += [line(depth, "rtnexthop", record("rtnexthop", p[2:8], " ")), *below]
        p = p[size:]
    return out


# Formats of several lines, as functions that return None if they don't take a payload
BLOCKS = {
    "list": list_block,
    "record_and_list": record_and_list_block,
    "record_and_records": record_and_records_block,
    "records": records_block,
    "next_hops": next_hops_block,
}


def record_and_list(depth, record_name, table, b):
    """The lines of a record, and of the list after it, or None if the bytes aren't exactly these.  The table `-` has none."""
    size = record_size(record_name)
    header, below = record(record_name, b[:size], " "), raw_list(depth, table, b[size:])
    if header is None or below is None or table == "-" and below:
        return None
    return [line(depth, word_of(record_name), header), *below]


# --------------------------------------------------------------------------
# Bodies of messages of types other than links

def body_row(kind, flags, body):
    """The record, or PEER, and the table of the first line `body` of raw.tsv that fits, or None."""
    numbers = (kind, flags & 1, body[0] if body else None)
    for *sets, record_name, table in BODIES:
        if all(fit is None or n in fit for fit, n in zip(sets, numbers)):
            return record_name, table
    return None


def peer_lines(depth, b, is_request):
    """The lines of bytes that are the canonical text of a peer, or None.  Peers inside it are shown by the same rule."""
    body = o.read_link_body(o.rules_for().inside_peer, b)
    if body is None or o.has_empty_ports(body) or not o.fits(body.entries) or o.body_text(body) != b:
        return None
    return body_lines(depth, body, is_request)


def lines_of_row(row, kind, flags, body):
    """The lines of a body by its row, or None if they don't show every byte of it."""
    record_name, table = row
    if record_name == PEER:
        return peer_lines(1, body, bool(flags & 1))
    shown = record_and_list(1, record_name, table, body)
    if shown is None and kind % 4 == 2 and len(body) in GENERAL:
        return record_and_list(1, GENERAL[len(body)], "-", body)
    return shown


def other_body_lines(kind, flags, body):
    """The lines of a body of another type than links."""
    row = body_row(kind, flags, body)
    shown = lines_of_row(row, kind, flags, body) if row else None
    return [line(1, "body", body.hex())] if shown is None else shown


# --------------------------------------------------------------------------
# Link messages

class Context:
    """What an attribute's lines depend on: the kinds in force, the address family, and whether its message is a request."""

    def __init__(self, family, is_request):
        self.kind, self.port_kind = None, None
        self.family, self.is_request = family, is_request


def place_of_list(table, context, e):
    """Where the list in an attribute is, as in the lines `list` of raw.tsv."""
    kind = o.proper(e.kind)
    if table == "link_info":
        return {2: "data %s" % context.kind, 3: "xstats %s" % context.kind, 5: "port %s" % context.port_kind}.get(kind)
    if table == "link":
        return "port_self" if kind == 25 else "family %d kind %d" % (context.family, kind)
    return table


def bytes_lines(depth, table, context, e):
    """The lines of an attribute that has a row and keeps any bytes: as those of a raw attribute with its table and kind."""
    kind = o.proper(e.kind)
    name, style = ROWS[table, kind]
    if (table, kind) == ("link_info", 3):
        table = LISTS.get(place_of_list(table, context, e))
    style = "hardware_address" if style == "hardware_address" else "bytes"
    style = RAW_ROWS.get((table, kind), (name, style))[1]
    if style == PEER:
        below = peer_lines(depth + 1, e.payload, context.is_request) if depth < DEEPEST else None
        return [line(depth, name, bytes_text(e.payload))] if below is None else [line(depth, name), *below]
    return payload_lines(depth, name, style, e.payload)


def entry_lines(depth, table, e, context):
    if e.row.raw:
        return raw_lines(depth, table, e.kind, e.payload)
    kind = o.proper(e.kind)
    name, style = ROWS[table, kind]
    if depth == DEEPEST and (o.is_nested(e) or e.row is o.PEER):
        return [line(depth, name, bytes_text(o.payload_text(e)))]
    if o.is_nested(e):
        inner = e.row.table.name
        if inner == "raw":
            inner = LISTS.get(place_of_list(table, context, e))
        return [line(depth, name)] + list_lines(depth + 1, inner, o.kept_entries(e), context)
    if e.row is o.PEER:
        return [line(depth, name)] + body_lines(depth + 1, e.content, context.is_request)
    if e.row.name == "raw":
        return bytes_lines(depth, table, context, e)
    payload = e.row.canonical(e.payload)
    if context.is_request and (table, kind) == ("inet", 1):     # kernels read a request's as attributes
        return [line(depth, name, "bytes " + payload.hex())]
    return [line(depth, name, value(style, payload))]


def list_lines(depth, table, entries, outer):
    """The lines of a list.  Its own attributes alone change the kinds in force."""
    out, context = [], Context(outer.family, outer.is_request)
    for e in entries:
        out += entry_lines(depth, table, e, context)
        if table == "link_info" and e.row.name == "text":
            if o.proper(e.kind) == 1:
                context.kind = o.kind_name(e.payload)
            else:
                context.port_kind = o.kind_name(e.payload)
    return out


def body_lines(depth, body, is_request):
    layer = o.written_layer(body.layer)
    header = "family %s type %s index %d flags %s change %s" % (
        number("number", "AddressFamily", bytes([body.family])),
        number("number", "LinkLayerType" if layer else "", o.p16(layer)), body.index,
        number("named_flags", "LinkFlags", o.p32(body.flags)),
        number("named_flags", "LinkFlags", o.p32(body.mask)))
    return [line(depth, "ifinfomsg", header)] + list_lines(depth, "link", body.entries, Context(body.family, is_request))


# --------------------------------------------------------------------------
# Messages

def flag_set(kind):
    """The set of flags that a message's type determines, by its name in rows.tsv."""
    if kind in (o.ERROR, o.DONE):
        return "NlmFlagsAck"
    return "NlmFlags" + (("Create", "Delete", "Get", "Create")[kind % 4] if kind >= 16 and kind in TYPES else "")


def header_text(kind, flags, sequence, port, numbers):
    text = "%s flags %s" % (TYPES.get(kind, "type %d" % kind), number("named_flags", flag_set(kind), o.p16(flags)))
    return text + (" seq %d port %d" % (sequence, port) if numbers else "")


def size_before_attributes(kind, flags, rest):
    """How many bytes of a request are between a code and the attributes after it, without padding; None for no attributes."""
    if not flags & ACK_TLVS or kind == o.ERROR and len(rest) < HEADER_SIZE:
        return None
    if kind == o.DONE:
        return 0
    size = HEADER_SIZE if flags & CAPPED else o.u32(rest, 0)
    return size if size >= HEADER_SIZE else None


def split_acknowledgement(kind, flags, rest):
    """What follows a code: the bytes of the request, and the lines of the attributes after it; or all bytes, and no lines."""
    size = size_before_attributes(kind, flags, rest)
    if size is not None:
        start = o.round_up(size)
        attributes = raw_list(1, "acknowledgement", rest[start:]) if len(rest) > start and not any(rest[size:start]) else None
        if attributes is not None:
            return rest[:size], attributes
    return rest, []


def error_lines(kind, flags, body, numbers):
    """The lines of an error's body, or of the end of a dump."""
    out, (rest, attributes) = [line(1, "code", number("signed", "Error", body[:4]))], split_acknowledgement(kind, flags, body[4:])
    if kind == o.ERROR and len(rest) >= HEADER_SIZE:
        header = header_text(o.u16(rest, 4), o.u16(rest, 6), o.u32(rest, 8), o.u32(rest, 12), numbers)
        out.append(line(1, "request", "length %d %s" % (o.u32(rest, 0), header)))
        rest = rest[HEADER_SIZE:]
    return out + ([line(1, "rest", rest.hex())] if rest else []) + attributes


def frame_lines(f, numbers=True):
    out = [line(0, header_text(f.type, f.flags, f.sequence, f.port, numbers))]
    if f.link is not None:
        return out + body_lines(1, f.link, bool(f.flags & 1))
    body = f.plain_text()
    if f.type in (o.ERROR, o.DONE):
        return out + error_lines(f.type, f.flags, body, numbers)
    return out + (other_body_lines(f.type, f.flags, body) if body else [])


def reason_words(kind, capture, at, fault, stage):
    """Why a body isn't accepted, without an offset."""
    if fault != REFUSED:
        return o.FAULT_KINDS[fault][1]
    body = capture[at + 16:at + o.u32(capture, at)]
    if kind not in o.LINK_TYPES:
        return "a body of %d bytes" % len(body)
    path, _, reason = why_body(o.rules_for(stage), body, at + 16)
    return " > ".join(path) + (": " if path else "") + reason


def refused_lines(capture, at, fault, numbers, stage):
    """The lines of a message with a fault of its body."""
    kind, flags = o.u16(capture, at + 4), o.u16(capture, at + 6)
    out = [line(0, header_text(kind, flags, o.u32(capture, at + 8), o.u32(capture, at + 12), numbers)),
           line(1, "refused:", reason_words(kind, capture, at, fault, stage))]
    body = capture[at + 16:at + o.u32(capture, at)]
    return out + ([line(1, "body", body.hex())] if body else [])


def blocks(capture, limit=o.DEFAULT_LIMIT, stage="peers", numbers=True, keep_going=False):
    """([(offset, type, lines) of each message], the first fault or None)."""
    out, first, at = [], None, 0
    while at < len(capture):
        frames, fault = o.read_capture(o.rules_for(stage), limit, capture[at:])
        for f in frames:
            out.append((at, f.type, frame_lines(f, numbers)))
            at += o.round_up(o.u32(capture, at))
        if fault is None:
            break
        first = first or (fault[0], fault[1], at)
        if not keep_going or fault[0] not in BODY_FAULTS:
            break
        out.append((at, o.u16(capture, at + 4), refused_lines(capture, at, fault[0], numbers, stage)))
        at += o.round_up(o.u32(capture, at))
    return out, first


# --------------------------------------------------------------------------
# Options, as functions of a message's lines

def level_of(text):
    return (len(text) - len(text.lstrip(" "))) // 2


def is_about(texts, link):
    """Whether a message's lines are about the link with this name or index."""
    names = {form % quote(os.fsencode(link)) for form in NAME_LINES}
    return any(text in names or is_about_index(level_of(text), text.split(), link) for text in texts)


def is_about_index(level, words, link):
    """Whether the words of a line are those of a header, a next hop or an attribute with the index of the link."""
    first, *fields = words
    if (level, first) == (2, "rtnexthop") or level == 1 and first in HEADERS:
        return any(name in INDEX_FIELDS and field == link for name, field in zip(fields, fields[1:]))
    return level == 1 and first in OF_LINK and fields[:1] == [link]


def leave_out(texts, omitted):
    """A message's lines without the attributes of these names, and without indexes and padding in headers, and padding in
    records, if these are among them."""
    out, hidden = [], None
    for text in texts:
        level, first = level_of(text), text.split()[0]
        if hidden is not None and level > hidden:
            continue
        hidden = level if level and first in omitted else None
        if hidden is None:
            fields = HIDDEN_FIELDS if level and first in HEADERS else {}
            for group, field in fields.items():
                text = re.sub(field, "", text) if group in omitted else text
            if "padding" in omitted and not fields and '"' not in text:
                text = re.sub(" padding=[0-9a-f]+", "", text)
            out.append(text)
    return out


def lines(capture, limit=o.DEFAULT_LIMIT, stage="peers", numbers=True, only=None, link=None, omitted=(), offsets=False,
          keep_going=False):
    """(the lines of the frames before the first fault, that fault or None).

    `only` is a set of types, and leaves out messages of other types; `link` the
    name or index of the link that messages have to be about; `omitted` what
    `read_omitted` returns.
    """
    shown, fault = blocks(bytes(capture), limit, stage, numbers and "numbers" not in omitted, keep_going)
    out = []
    for at, kind, texts in shown:
        if (only is None or kind in only) and (link is None or is_about(texts, link)):
            texts = leave_out(texts, omitted)
            if offsets:
                texts[0] = "%s offset %d\n" % (texts[0][:-1], at)
            out += texts
    return "".join(out), fault


def read_type(word):
    """The type that a word of --only names: a name, with or without its part up to the first `_`, or a number."""
    names = {name.lower(): kind for kind, name in TYPES.items()}
    names.update({name.partition("_")[2]: kind for name, kind in list(names.items())})
    if word.lower() in names:
        return names[word.lower()]
    if re.fullmatch("[0-9]{1,5}", word) and int(word) < 65536:
        return int(word)
    raise argparse.ArgumentTypeError("no type of messages is called %s" % word)


def read_only(argument):
    """The types of `newlink,RTM_SETLINK,77`."""
    return {read_type(word) for word in argument.split(",")}


def read_omitted(argument):
    """What `IFLA_MTU,padding,counters` leaves out: names of attributes, `padding`, groups, and the names that groups stand for."""
    names = {name.lower(): {name} for name in NAMES}
    names.update({group: {group, *members} for group, members in GROUPS.items()})
    names["padding"] = {"padding"}          # the first word of its lines
    omitted = set()
    for word in argument.split(","):
        if word.lower() not in names:
            raise argparse.ArgumentTypeError("no attribute or group is called %s" % word)
        omitted |= names[word.lower()]
    return omitted


# --------------------------------------------------------------------------
# Reasons of refused bodies

def why_list(rules, table, context, b, at, family):
    """(names from outside in, offset, reason) of the first attribute of a list
    that isn't accepted; None if the list is accepted."""
    start, in_force = 0, (None, None)
    while len(b) - start >= 4:
        length, kind = o.u16(b, start), o.u16(b, start + 2)
        if length < 4 or start + length > len(b):
            return [], at + start, "no attribute: %d bytes are left, and its length is %d" % (len(b) - start, length)
        payload = b[start + 4:start + length]
        here = in_force if table is o.LINK_INFO else context
        proper = o.proper(kind)
        row = rules.row(table, here, proper)
        if o.read_entry(rules, table, here, kind, payload) is None:
            name = ROWS[table.name, proper][0]
            path, offset, reason = why_payload(rules, row, payload, at + start + 4, family)
            if row is o.REFUSED and table is o.LINK_INFO:
                reason = "no IFLA_INFO_%sKIND is in force" % ("SLAVE_" if proper == 5 else "")
            return [name] + path, at + start if offset is None else offset, reason
        if table is o.LINK_INFO:
            in_force = o.next_in_force(in_force, kind, payload)
        start += o.round_up(length)
    if len(b) > start:
        return [], at + start, "no attribute: %d bytes are left" % (len(b) - start)
    return None


def why_payload(rules, row, payload, at, family):
    """The same of a payload that isn't accepted.  The offset is None if it is
    that of the attribute whose payload this is."""
    if isinstance(row, o.Shape):
        if row is o.REFUSED:
            return [], None, "no payload is accepted under this kind of link"
        if row.name == "text":
            return [], None, "a text that isn't UTF-8"
        return [], None, "a payload of %d bytes" % len(payload)
    if isinstance(row, o.ListRow):
        if row.refuse_empty and not payload:
            return [], None, "an empty list"
        return why_list(rules, row.table, row.context, payload, at, family)
    if isinstance(row, o.FirstRow):
        first = o.cut_first(payload)
        if first is None:
            return [], at, "no attribute: %d bytes are left" % len(payload) if len(payload) < 4 else \
                "no attribute: %d bytes are left, and its length is %d" % (len(payload), o.u16(payload, 0))
        return why_list(rules, row.table, row.context, payload[:4 + len(first[1])], at, family)
    refusal = why_body(rules.inside_peer, payload, at)
    if refusal is not None:
        return refusal
    body = o.read_link_body(rules.inside_peer, payload)
    return [], None, "ports of which nothing is kept" if o.has_empty_ports(body) else "an attribute of the text is over 65535 bytes"


def why_body(rules, b, at):
    if len(b) < 16:
        return [], None, "a header of %d bytes" % len(b)
    return why_list(rules, rules.link, b[0], b[16:], at + 16, b[0])


def why(capture, limit=o.DEFAULT_LIMIT, stage="peers"):
    """The names, the reason and the offset of a refused body, as a text; None
    if the first fault is no refused body."""
    rules = o.rules_for(stage)
    fault = o.read_capture(rules, limit, bytes(capture))[1]
    if fault is None or fault[0] != 4:
        return None
    at = fault[2]
    body = capture[at + 16:at + o.u32(capture, at)]
    if o.u16(capture, at + 4) not in o.LINK_TYPES:
        return "a body of %d bytes" % len(body)
    path, offset, reason = why_body(rules, body, at + 16)
    if offset is None:
        offset = at + 16
    return "%s%s at %d" % (" > ".join(path) + ": " if path else "", reason, offset)


def main():
    parser = argparse.ArgumentParser()
    parser.add_argument("--limit", type=int, default=o.DEFAULT_LIMIT)
    parser.add_argument("--stage", default="peers")
    parser.add_argument("--without-numbers", action="store_true")
    parser.add_argument("--only", type=read_only)
    parser.add_argument("--link")
    parser.add_argument("--without", type=read_omitted, default=())
    parser.add_argument("--offsets", action="store_true")
    parser.add_argument("--keep-going", action="store_true")
    args = parser.parse_args()
    capture = sys.stdin.buffer.read()
    text, fault = lines(capture, args.limit, args.stage, not args.without_numbers, args.only, args.link, args.without,
                        args.offsets, args.keep_going)
    sys.stdout.write(text)
    if fault is not None:
        reason = why(capture, args.limit, args.stage)
        sys.stderr.write(o.display(fault) + (": " + reason if reason else "") + "\n")
        return 2
    return 0


if __name__ == "__main__":
    sys.exit(main())
