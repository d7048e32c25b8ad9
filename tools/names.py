#!/usr/bin/env python3
"""Writes the sets of attributes' names that are needed to read lines.

    tools/names.py            writes NAMES, COUNTERS and INDEXES of lines_filter.py, LINK_INDEXES of lines_record.py, and BYTES,
                              NUMBER_LISTS, TEXT_FIELDS and OBJECT_FIELDS of lines_json.py; and these, but for NAMES and
                              LINK_INDEXES, and the words of headers, in the crates link_lines_parts and link_lines_json, as code
                              and in specs; and LINK_NAMES, HARDWARE_ADDRESSES and BRIDGE_IDS of lines_replace.py, also in Go
    tools/names.py --check    ends with status 1 if one of these differs from the tables

The names, their groups and the formats of values are those of the independent implementation, tools/oracle/rows.tsv and
raw.tsv. It needs only Python.
"""
import re
import sys
import textwrap
from pathlib import Path

TOP = Path(__file__).resolve().parents[1]
sys.dont_write_bytecode = True
sys.path.append(str(TOP / "tools/oracle"))
import json_of_lines  # noqa: E402
import linkshow  # noqa: E402

PACKAGE = TOP / "bindings/python/linkcap"
GO = TOP / "bindings/go/linkcaptest"
PARTS = TOP / "crates/link_lines_parts"
JSON = TOP / "crates/link_lines_json"


def names_with(*formats):
    """The names of the attributes whose values have these formats."""
    rows = [*linkshow.ROWS.values(), *linkshow.RAW_ROWS.values()]
    return {name for name, style in rows if style.split()[0] in formats and name != "[]"}


# A line of padding has bytes too, as if it were an attribute below its own.
BYTES = names_with("bytes", "hardware_address", "bridge_id") | {"padding"}
NUMBER_LISTS = names_with("numbers")
# The group has two kinds of names: those of numbers of namespaces end alike, and all others hold indexes of links.
LINK_INDEXES = {name for name in linkshow.GROUPS["indexes"] if not name.endswith("NETNSID")}
LINK_NAMES = LINK_INDEXES | {"FRA_IIFNAME", "FRA_OIFNAME", "IFA_LABEL", "IFLA_ALT_IFNAME", "IFLA_IFNAME"}
BRIDGE_IDS = names_with("bridge_id")
HARDWARE_ADDRESSES = {name for name in names_with("hardware_address") - {"IFLA_PHYS_PORT_ID", "IFLA_PHYS_SWITCH_ID"}
                      if not name.endswith("_MASK")}

# (file, set, names)
SETS = (
    (PACKAGE / "lines_filter.py", "NAMES", linkshow.NAMES),
    (PACKAGE / "lines_filter.py", "COUNTERS", linkshow.GROUPS["counters"]),
    (PACKAGE / "lines_filter.py", "INDEXES", linkshow.GROUPS["indexes"]),
    (PACKAGE / "lines_record.py", "LINK_INDEXES", LINK_INDEXES),
    (PACKAGE / "lines_json.py", "BYTES", BYTES),
    (PACKAGE / "lines_json.py", "NUMBER_LISTS", NUMBER_LISTS),
    (PACKAGE / "lines_json.py", "OBJECT_FIELDS", json_of_lines.OBJECT_FIELDS),
    (PACKAGE / "lines_json.py", "TEXT_FIELDS", json_of_lines.TEXT_FIELDS),
    (PACKAGE / "lines_replace.py", "LINK_NAMES", LINK_NAMES),
    (PACKAGE / "lines_replace.py", "HARDWARE_ADDRESSES", HARDWARE_ADDRESSES),
    (PACKAGE / "lines_replace.py", "BRIDGE_IDS", BRIDGE_IDS),
    (GO / "names.go", "linkNames", LINK_NAMES),
    (GO / "names.go", "hardwareAddresses", HARDWARE_ADDRESSES),
    (GO / "names.go", "bridgeIDs", BRIDGE_IDS),
    (PARTS / "src/names.rt", "COUNTERS", linkshow.GROUPS["counters"]),
    (PARTS / "src/names.rt", "INDEXES", linkshow.GROUPS["indexes"]),
    (PARTS / "src/names.rt", "HEADERS", linkshow.HEADERS),
    (PARTS / "specs/Names.antt", "counter_names", linkshow.GROUPS["counters"]),
    (PARTS / "specs/Names.antt", "index_names", linkshow.GROUPS["indexes"]),
    (PARTS / "specs/Names.antt", "header_names", linkshow.HEADERS),
    (JSON / "src/names.rt", "BYTES", BYTES),
    (JSON / "src/names.rt", "NUMBER_LISTS", NUMBER_LISTS),
    (JSON / "src/names.rt", "TEXT_FIELDS", json_of_lines.TEXT_FIELDS),
    (JSON / "src/names.rt", "OBJECT_FIELDS", json_of_lines.OBJECT_FIELDS),
    (JSON / "specs/Names.antt", "bytes_names", BYTES),
    (JSON / "specs/Names.antt", "number_list_names", NUMBER_LISTS),
    (JSON / "specs/Names.antt", "text_fields", json_of_lines.TEXT_FIELDS),
    (JSON / "specs/Names.antt", "object_fields", json_of_lines.OBJECT_FIELDS),
    (JSON / "src/names.rt", "ends_as_bytes", BYTES),
    (JSON / "specs/Names.antt", "ends_as_bytes", BYTES),
    (JSON / "src/names.rt", "is_letter_of_object", json_of_lines.OBJECT_FIELDS),
    (JSON / "specs/Names.antt", "is_letter_of_object", json_of_lines.OBJECT_FIELDS),
)


def python_set(name, members):
    """The definition of a set in Python, and a pattern of any such definition."""
    lines = textwrap.wrap(" ".join(sorted(members)), 124, initial_indent="    ", subsequent_indent="    ")
    definition = '%s = frozenset("""\n%s""".split())\n' % (name, "\n".join(lines))
    return definition, r'^%s = frozenset\("""\n.*?"""\.split\(\)\)\n' % name


def go_set(name, members):
    """The definition of a set in Go, and a pattern of any such definition."""
    lines = textwrap.wrap(" ".join(sorted(members)), 120, initial_indent="\t", subsequent_indent="\t")
    return "var %s = setOf(`\n%s`)\n" % (name, "\n".join(lines)), r"^var %s = setOf\(`\n.*?`\)\n" % name


def rattle_constant(name, members):
    """The definition of a constant in Rattle, and a pattern of any such definition."""
    one_line = "pub const %s: &[&[u8]] = &[%s];\n" % (name, ", ".join('b"%s"' % member for member in sorted(members)))
    lines = "".join('    b"%s",\n' % member for member in sorted(members))
    written = one_line if len(one_line) <= 101 else "pub const %s: &[&[u8]] = &[\n%s];\n" % (name, lines)
    return written, r"^pub const %s: &\[&\[u8\]\] = &\[.*?\];\n" % name


def definition_in_specs(name, members):
    """The definition of a list in specs, and a pattern of any such definition."""
    lines = "".join('    codes "%s" ∷\n' % member for member in sorted(members))
    return "%s =\n%s    []\n" % (name, lines), r"^%s =\n.*?    \[\]\n" % name


def either(tests):
    """The disjunction of some tests in specs, each in brackets."""
    first, *others = tests
    return "(%s || %s)" % (first, either(others)) if others else first


def letters_before_last(members):
    return sorted({member[-2] for member in members})


def last_letters(members, before):
    """The last letters of the members that have a letter before."""
    return sorted({member[-1] for member in members if member[-2] == before})


def rattle_ends(name, members):
    """The body of the test of a name's last two letters in Rattle, and a pattern of any such body."""
    arms = ""
    for before in letters_before_last(members):
        last = " | ".join("b'%s'" % letter for letter in last_letters(members, before))
        arms += "        b'%s' => %s,\n" % (before, "matches!(last, %s)" % last if "|" in last else "last == " + last)
    head = r"(^fn %s\(.*?\n\{\n)" % name
    return "\\1    match before {\n%s        _ => false,\n    }\n}\n" % arms, head + r".*?^\}\n"


def ends_in_specs(name, members):
    """The definition of that test in specs, and a pattern of any such definition."""
    lines, befores = "", letters_before_last(members)
    for before in befores:
        tests = either(["(last == %d)" % ord(letter) for letter in last_letters(members, before)])
        lines += "    %scond (before == %d) %s\n" % ("(" if lines else "", ord(before), tests)
    return "%s before last =\n%s false%s\n" % (name, lines[:-1], ")" * (len(befores) - 1)), r"^%s before last =\n.*?\n(?=\n)" % name


def rattle_letters(name, members):
    """The body of the test of the letter before a name's last one in Rattle, and a pattern of any such body."""
    letters = " | ".join("b'%s'" % letter for letter in letters_before_last(members))
    head = r"(^fn %s\(.*?\n\{\n)" % name
    return "\\1    matches!(\n        letter,\n        %s\n    )\n}\n" % letters, head + r".*?^\}\n"


def letters_in_specs(name, members):
    """The definition of that test in specs, and a pattern of any such definition."""
    tests = either(["(c == %d)" % ord(letter) for letter in letters_before_last(members)])
    return "%s c =\n    %s\n" % (name, tests[1:-1] if "||" in tests else tests), r"^%s c =\n.*?\n(?=\n)" % name


WRITTEN = {".rt": rattle_constant, ".antt": definition_in_specs, ".py": python_set, ".go": go_set}
# Tests of names by their last letters, which are looked at before a name is searched for
TESTS = {
    "ends_as_bytes": {".rt": rattle_ends, ".antt": ends_in_specs},
    "is_letter_of_object": {".rt": rattle_letters, ".antt": letters_in_specs},
}


def with_set(path, name, members):
    """A file's text in which a set, or a test of its members, has these members."""
    definition, pattern = TESTS.get(name, WRITTEN)[path.suffix](name, members)
    new, count = re.subn(pattern, definition, path.read_text(encoding="utf-8"), flags=re.M | re.S)
    if count != 1:
        raise SystemExit("names: no set %s" % name)
    return new


def main():
    is_check, status = sys.argv[1:] == ["--check"], 0
    for path, name, members in SETS:
        new = with_set(path, name, members)
        if new == path.read_text(encoding="utf-8"):
            continue
        if is_check:
            print("names: %s of %s differs from the tables: tools/names.py writes it" % (name, path.name))
            status = 1
        else:
            path.write_text(new, encoding="utf-8")
    return status


if __name__ == "__main__":
    sys.exit(main())
