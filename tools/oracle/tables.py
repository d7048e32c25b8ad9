"""Shapes, and the tables of rows.tsv, for linkoracle.py, linkshow.py and values.py.

A row is a shape (docs/format/shapes.md), a list, a peer, or a choice that depends on
its context.  A table has a row for each of its kinds (docs/format/rows.md).
"""
import os
import re

# --------------------------------------------------------------------------
# Alignment, kinds, numbers

def round_up(n):
    """The least multiple of 4 that isn't less than n."""
    return (n + 3) // 4 * 4


def proper(kind):
    """The kind proper: the low 14 bits."""
    return kind & 0x3FFF


NESTED = 0x8000


def u16(b, at):
    return b[at] | b[at + 1] << 8


def u32(b, at):
    return int.from_bytes(b[at:at + 4], "little")


def p16(n):
    return n.to_bytes(2, "little")


def p32(n):
    return n.to_bytes(4, "little")


# --------------------------------------------------------------------------
# Shapes (docs/format/shapes.md)

class Shape:
    """The row of a payload that holds no attributes, as three functions:
    whether it accepts a payload, whether two payloads mean the same, and the
    canonical payload."""
    raw = False

    def __init__(self, name, accepts, same, canonical):
        self.name = name
        self.accepts = accepts
        self.same = same
        self.canonical = canonical

    def __repr__(self):
        return self.name


def number(p):
    return int.from_bytes(p, "little")


def equal(p, q):
    return p == q


def identity(p):
    return p


def always(*_):
    return True


def drop_nul(p):
    """A payload without its last byte, if that is a NUL."""
    return p[:-1] if p[-1:] == b"\0" else p


def is_utf8(p):
    try:
        p.decode("utf-8", "strict")
        return True
    except UnicodeDecodeError:
        return False


def cut_or_extend(p, n):
    return p[:n] + bytes(n - len(p[:n]))


ZERO4 = bytes(4)

# The three functions of a shape, from its numbers
SHAPES = {
    "exact": lambda n: (lambda p: len(p) == n, equal, identity),
    "either": lambda m, n: (lambda p: len(p) in (m, n), equal, identity),
    "at_most": lambda n: (lambda p: len(p) <= n, equal, identity),
    "boolean_if_nonzero": lambda: (
        lambda p: len(p) == 1,
        lambda p, q: (p[0] == 0) == (q[0] == 0),
        lambda p: b"\0" if p[0] == 0 else b"\1"),
    "boolean_if_one": lambda: (
        lambda p: len(p) == 1,
        lambda p, q: (p[0] == 1) == (q[0] == 1),
        lambda p: b"\1" if p[0] == 1 else b"\0"),
    "boolean_of_four": lambda: (
        lambda p: len(p) == 4,
        lambda p, q: (number(p) == 0) == (number(q) == 0),
        lambda p: p32(0 if number(p) == 0 else 1)),
    "presence": lambda: (always, always, lambda p: b""),
    "text": lambda: (
        lambda p: is_utf8(drop_nul(p)),
        lambda p, q: drop_nul(p) == drop_nul(q),
        lambda p: drop_nul(p) + b"\0"),
    "raw": lambda: (always, equal, identity),
    "never": lambda: (lambda p: False, equal, identity),
    "fixed_record": lambda m, n: (
        lambda p: len(p) >= m,
        lambda p, q: p[:m] == q[:m],
        lambda p: p[:m] + bytes(n - m)),
    "id_and_boolean": lambda: (
        lambda p: len(p) >= 8,
        lambda p, q: p[:4] == q[:4] and (p[4:8] == ZERO4) == (q[4:8] == ZERO4),
        lambda p: p[:4] + p32(0 if p[4:8] == ZERO4 else 1)),
    "resized": lambda n: (
        always,
        lambda p, q: cut_or_extend(p, n) == cut_or_extend(q, n),
        lambda p: cut_or_extend(p, n)),
}


def shape(column):
    """The shape that a column of rows.tsv names, as `exact 4`."""
    name, *numbers = column.split(" ")
    return Shape(column, *SHAPES[name](*map(int, numbers)))


# The row of a raw attribute, which keeps all 16 bits of its kind.
RAW = shape("raw")
RAW.raw = True

# The row of a kind that its context refuses with any payload.
REFUSED = shape("never")


# --------------------------------------------------------------------------
# Rows that are nested tables

class ListRow:
    """A list of attributes, which are read under `context`."""
    raw = False

    def __init__(self, table, context=None, refuse_empty=False):
        self.table, self.context = table, context
        self.refuse_empty = refuse_empty
        self.name = "list %s" % table.name

    def __repr__(self):
        return self.name


class FirstRow:
    """One attribute.  The bytes after it are dropped."""
    raw = False

    def __init__(self, table, context=None):
        self.table, self.context = table, context
        self.name = "list first_only %s" % table.name

    def __repr__(self):
        return self.name


class PeerRow:
    """A judged peer: a link body that fits and has no empty ports.  Peers
    inside it are bytes."""
    raw = False
    name = "peer"

    def __repr__(self):
        return self.name


PEER = PeerRow()


class Choice:
    """A row that depends on its context or on the rules in force."""

    def __init__(self, name, pick):
        self.name, self.pick = name, pick

    def __repr__(self):
        return self.name


class Table:
    """Rows by kind proper.  kept_kind: the only kind proper that normal texts
    keep; None if they keep all."""

    def __init__(self, name, rows=None, kept_kind=None):
        self.name = name
        self.rows = rows if rows is not None else {}
        self.kept_kind = kept_kind

    def __repr__(self):
        return self.name


# --------------------------------------------------------------------------
# rows.tsv

HERE = os.path.dirname(os.path.abspath(__file__))


def read_data(file_name):
    """The lines of a file by their first column, each as its other columns."""
    lines = {}
    for line in open(os.path.join(HERE, file_name), encoding="utf-8"):
        if not line.startswith("#"):
            key, *columns = line.rstrip("\n").split("\t")
            lines.setdefault(key, []).append(columns)
    return lines


DATA = read_data("rows.tsv")
TABLES = {"raw": Table("raw")}      # of a list of raw attributes
for _name, *_ in DATA["row"]:
    TABLES.setdefault(_name, Table(_name))


def list_row(list_kind, name, context):
    """The row of a list, whose entries are read under a context by a table."""
    table = TABLES[name]
    if list_kind in ("of_kind_one", "ports"):
        table.kept_kind = 1
    if list_kind == "first_only":
        return FirstRow(table, context)
    return ListRow(table, context, refuse_empty=list_kind in ("non_empty", "ports"))


def choices(column):
    """`a=x, other=y` as a dictionary of rows; `none` is the row of a raw attribute."""
    pairs = [pair.split("=") for pair in column.split(", ")]
    return {key: RAW if value == "none" else REFUSED if value == "never" else row(value) for key, value in pairs}


def by_context(column):
    """A row that depends on the kind of link in force, or on the address family."""
    rows = choices(column.partition(" ")[2])
    return Choice(column, lambda rules, context: rows.get(str(context), rows["other"]))


def by_kind_in_force(column, index, rows):
    """A row of link info: one of `rows` by the name at an index of its context.

    The context is (kind in force, port kind in force), each a name or None.
    """
    raw = row("raw")
    return Choice(column, lambda rules, context: REFUSED if context[index] is None else rows.get(context[index], raw))


def row(column, context=None):
    """The row that a column of rows.tsv describes."""
    name, *more = column.split(" ")
    if name == "raw_list":
        return ListRow(TABLES["raw"], context)
    if name == "list":
        return list_row(*more, context)
    if name in ("by_kind", "by_family"):
        return by_context(column)
    if name == "peer":      # bytes, or judged as a link message
        raw = row("raw")
        return Choice(column, lambda rules, kind: PEER if rules.peers_judged else raw)
    return shape(column)


# Kinds of a link message that are written with the nested bit
LINK_NESTED = tuple(int(kind) for table, kind, _, column, _ in DATA["row"] if table == "link" and column.startswith("nested "))

# The data of a kind of link is read under its name
DATA_ROWS = {name: row(column, name) for name, column in DATA["kind"]}
PORT_DATA_ROWS = {name: row(column, name) for name, column in DATA["port_kind"]}
INFO_ROWS = {
    "data_of_kind": (0, DATA_ROWS),
    "raw_of_kind": (0, {}),
    "data_of_port_kind": (1, PORT_DATA_ROWS),
}


def fill_tables():
    for table, kind, _, column, _ in DATA["row"]:
        column = re.sub("^nested ", "", column)
        TABLES[table].rows[int(kind)] = by_kind_in_force(column, *INFO_ROWS[column]) if column in INFO_ROWS else row(column)


fill_tables()
LINK_INFO = TABLES["link_info"]


def link_tables():
    """The table of link messages at each stage.  Its context is the family."""
    table = TABLES.pop("link")
    plain = {kind: row_ for kind, row_ in table.rows.items()
             if kind == 18 or isinstance(row_, Shape) and row_.name.split(" ")[0] in ("text", "raw", "exact")}
    return {"names": Table("link", {3: table.rows[3]}), "plain": Table("link", plain), "all": table, "peers": table}


LINK_TABLES = link_tables()
VF_PORTS_ROW = LINK_TABLES["all"].rows[24]


# --------------------------------------------------------------------------
# Texts of numbers

def texts(column):
    """`1=a 0x2=b` as pairs of a number and its text."""
    return [(int(n, 0), text) for n, text in (pair.split("=", 1) for pair in column.split(" "))]


NUMBERS = {name: dict(texts(column)) for name, column in DATA["number"]}
FLAGS = {name: texts(column) for name, column in DATA["flags"]}
TYPES = dict(texts(DATA["types"][0][0]))

# The known types of links; every other number is Void, and is written as 65535
LAYER_TYPES = NUMBERS["LinkLayerType"]
VOID = 65535


def written_layer(n):
    return n if n in LAYER_TYPES else VOID
