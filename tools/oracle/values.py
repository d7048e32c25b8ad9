"""Values in lines, in the format of lines.md: texts of numbers, sets of flags, records and payloads.

`value` is of a row of the normal text, whose canonical payloads are given.  `exact_value` is of a row of raw.tsv: it takes any
payload, and its text determines the payload if there is one.
"""
import ipaddress

from tables import DATA, FLAGS, NUMBERS, drop_nul


def fields(column):
    """The fields of a record as (name, size, format, type), from `name:size`, `name:size:format` and `name:size:format:type`."""
    parts = [(*field.split(":"), "", "")[:4] for field in column.split(" ")]
    return [(name, int(size), style or "number", type_name) for name, size, style, type_name in parts]


RECORDS = {name: fields(column) for name, column in DATA["record"]}
PADDING = "padding"     # the format of fields that are shown only if they aren't zero
ALL_BITS = 0xffffffff


# --------------------------------------------------------------------------
# Parts of values

def quote(p):
    out = ['"']
    for c in p:
        if c in b'"\\':
            out.append("\\" + chr(c))
        elif 32 <= c < 127:
            out.append(chr(c))
        else:
            out.append("\\x%02x" % c)
    return "".join(out) + '"'


def address(p):
    if len(p) == 4:
        return str(ipaddress.IPv4Address(p))
    if p[:12] == bytes(10) + b"\xff\xff":
        return "::ffff:" + str(ipaddress.IPv4Address(p[12:]))
    return str(ipaddress.IPv6Address(p))


def hex_with_colons(p):
    return ":".join("%02x" % c for c in p)


def on_or_off(p):
    return "on" if any(p) else "off"


def flag_names(name, n):
    names = [t for bit, t in FLAGS[name] if n & bit]
    for bit, _ in FLAGS[name]:
        n &= ~bit
    if n and names:
        names.append("0x%x" % n)
    return " (%s)" % " | ".join(names) if names else ""


def flags(type_name, n, size):
    """A set of flags, with the names of its bits if its type has any."""
    if size == 4 and n == ALL_BITS:
        return "0xffffffff (all)"
    return "0x%x%s" % (n, flag_names(type_name, n) if type_name else "")


def number(style, type_name, p):
    """A number or a set of flags, with the text or the names that its type gives it."""
    n = int.from_bytes(p, "big" if "big_endian" in style else "little", signed=style == "signed")
    if style.endswith("flags"):
        return flags(type_name, n, len(p))
    assert style in ("number", "big_endian", "signed", "handle"), style
    text = NUMBERS[type_name].get(n) if type_name else None
    shown = "%x:%x" % (n >> 16, n & 0xffff) if style == "handle" else "%d" % n
    return shown + (" (%s)" % text if text else "")


def padded_address(p):
    """The address in a field of 32 bytes, without the zeros at its end from the 7th byte on."""
    n = len(p)
    while n > 6 and p[n - 1] == 0:
        n -= 1
    return hex_with_colons(p[:n])


def group_address(p):
    """The address of a br_mdb_entry: 16 bytes, and the protocol that determines what they are."""
    protocol = int.from_bytes(p[16:], "big")
    if protocol == 0x0800 and not any(p[4:16]):
        shown = address(p[:4])
    elif protocol == 0x86dd:
        shown = address(p[:16])
    elif protocol == 0 and not any(p[6:16]):
        shown = hex_with_colons(p[:6])
    else:
        shown = p[:16].hex()
    return "%s proto %s" % (shown, number("big_endian", "EtherType", p[16:]))


def weight(p):
    """The weight of a next hop, which its field holds as one less."""
    return "%d (weight %d)" % (p[0], p[0] + 1)


FIELD_VALUES = {
    PADDING: bytes.hex,
    "boolean": on_or_off,
    "group_address": group_address,
    "ipv6": address,
    "padded_address": padded_address,
    "padded_text": lambda p: quote(p.rstrip(b"\0")),
    "weight": weight,
}


def field_value(style, type_name, p):
    return FIELD_VALUES[style](p) if style in FIELD_VALUES else number(style, type_name, p)


# --------------------------------------------------------------------------
# Records

def record_size(name):
    return sum(field[1] for field in RECORDS[name])


def record(name, p, separator):
    """Each field of a record as its name and value, without padding that is zero; None if the record has another size."""
    if len(p) != record_size(name):
        return None
    out, at = [], 0
    for field_name, size, style, type_name in RECORDS[name]:
        part = p[at:at + size]
        at += size
        if style != PADDING or any(part):
            out.append(field_name + separator + field_value(style, type_name, part))
    return " ".join(out)


def nonzero_fields(name, p):
    """Each field that isn't 0 of a record whose fields are numbers of one size.  After its end, the position is the name."""
    _, size, style, _ = RECORDS[name][0]
    names = [field[0] for field in RECORDS[name]]
    parts = [p[at:at + size] for at in range(0, len(p), size)]
    return ["%s=%s" % (names[i] if i < len(names) else i, number(style, "", part)) for i, part in enumerate(parts) if any(part)]


# --------------------------------------------------------------------------
# Values of canonical payloads

def port_range(p):
    return "%d %d" % (int.from_bytes(p[:2], "big"), int.from_bytes(p[2:], "big"))


VALUES = {
    "presence": lambda p: "",
    "bytes": bytes.hex,
    "hardware_address": hex_with_colons,
    "text": lambda p: quote(drop_nul(p)),
    "address": address,
    "boolean": on_or_off,
    "optional_byte": lambda p: str(p[0]) if p else "",
    "port_range": port_range,
}


def flags_and_mask(type_name, p):
    return "%s mask %s" % tuple(number("flags", type_name, part) for part in (p[:4], p[4:]))


def value(style, p):
    """The text of a canonical payload, which follows the attribute's name."""
    name, _, type_name = style.partition(" ")
    if name in VALUES:
        return VALUES[name](p)
    if name == "flags_and_mask":
        return flags_and_mask(type_name, p)
    if name == "fields":
        return record(type_name, p[:record_size(type_name)], "=")
    if name == "sparse_record":
        return " ".join(nonzero_fields(type_name, p))
    return number(name, type_name, p)


# --------------------------------------------------------------------------
# Values of raw attributes

def short_number(p):
    """The kernel's `uint`, which has 8 bytes only if 4 aren't enough."""
    return number("number", "", p) if len(p) == 4 or len(p) == 8 and any(p[4:]) else None


def label_stack(p):
    """The labels of MPLS."""
    out = []
    for at in range(0, len(p), 4):
        n = int.from_bytes(p[at:at + 4], "big")
        out.append("%d tc %d s %d ttl %d" % (n >> 12, n >> 9 & 7, n >> 8 & 1, n & 255))
    return " / ".join(out)


def via(p):
    """A gateway of another family: the family in 2 bytes, and the address."""
    if (len(p), p[:2]) not in ((6, b"\2\0"), (18, b"\x0a\0")):
        return None
    return "family=%s addr=%s" % (number("number", "Family", p[:2]), address(p[2:]))


# The text of a payload, or None if the format doesn't take it
EXACT_VALUES = {
    "bytes": bytes.hex,
    "presence": lambda p: "" if not p else None,
    "text": lambda p: quote(p[:-1]) if p[-1:] == b"\0" else None,
    "short_number": short_number,
    "bridge_id": lambda p: p[:2].hex() + "." + p[2:].hex() if len(p) == 8 else None,
    "label_stack": lambda p: label_stack(p) if p and len(p) % 4 == 0 else None,
    "via": via,
    "port_range": lambda p: port_range(p) if len(p) == 4 else None,
    "address": lambda p: address(p) if len(p) in (4, 16) else None,
    "hardware_address": hex_with_colons,
}


def counted_fields(name, p):
    size = RECORDS[name][0][1]
    return " ".join(["fields %d" % (len(p) // size), *nonzero_fields(name, p)]) if len(p) % size == 0 else None


def numbers(size, p):
    parts = [p[at:at + size] for at in range(0, len(p), size)]
    return " ".join(number("number", "", part) for part in parts) if len(p) % size == 0 else None


def sized_value(name, size, type_name, p):
    """The text of a payload of a size: an address, a number or a set of flags."""
    if len(p) != size:
        return None
    return VALUES[name](p) if name in VALUES else number(name, type_name, p)


def exact_value(style, p):
    """The text of a payload that determines it, or None if the format doesn't take this payload."""
    name, *parameters = style.split(" ")
    if not parameters:
        return EXACT_VALUES[name](p)
    if name == "fields":
        return record(parameters[0], p, "=")
    if name == "sparse_record":
        return counted_fields(parameters[0], p)
    if name == "flags_and_mask":
        return flags_and_mask(parameters[0], p) if len(p) == 8 else None
    if name == "numbers":
        return numbers(int(parameters[0]), p)
    return sized_value(name, int(parameters[0]), "".join(parameters[1:]), p)
