#!/usr/bin/env python3
"""Lists the definitions that cite a constant of the code.

    tools/cited_constants.py

A definition in specs/ that cites a constant of src/ holds whatever its value is: a wrong number or text is then proved. So
definitions have numerals and texts of their own, and each constant that one cites nevertheless is of one of the kinds in
ROWS, LAWS and COUNTS. The status is 1 if there is another, or if one of these isn't needed. It needs only Python.
"""
import re
import sys

from definitions import CRATES, IMPORT, imports_of

# Rows as data, by the types of their constants: names and formats of attributes, numbers, flags and fields. The number of a
# row is beside its name there. That payloads are those of the grammar's tables, and that names differ, is computed.
ROWS = ("NumberText", "RawRow", "BodyRow", "ChoiceRow", "AttributeRow", "NamedRow", "NameRow", "Fields", "RecordLine", "Raw")

# The index of a list of rows, by the types of these constants: the rows at it are computed to be those of its table, or they
# are rows as data.
INDEXES = ("Table", "RawTable", "Numbers", "Layout")

# The laws that say which number, bits or text a constant has.
LAWS = (
    "netlink_packet_core_messages/specs/Laws.antt",
    "link_info_types/specs/Laws.antt",
    "link_info_types/specs/TunnelLaws.antt",
    "link_message_types/specs/Laws.antt",
    "link_message_records/specs/Indexes.antt",
)

# How many tables a search for a name goes through.
COUNTS = (("link_lines_texts/specs/NameSearch.antt", "ALL_LINKS"),)


def citations():
    """(file, crate and module of the constants, name) of each constant that a definition cites; `*` for all of a type or module."""
    for path in sorted(CRATES.glob("*/specs/**/*.antt")):
        lines = [found.group() for found in IMPORT.finditer(path.read_text(encoding="utf-8"))]
        if sum("TheConstants" in line for line in lines) != path.read_text(encoding="utf-8").count("TheConstants"):
            raise SystemExit("cited_constants: %s cites constants in another form" % path)
        for crate, modules, name, _ in imports_of(path):
            if "TheConstants" in modules:
                module = "/".join(modules[1:modules.index("TheConstants")]) or "lib"
                yield path.relative_to(CRATES).as_posix(), CRATES / crate / "src" / (module + ".rt"), name or "*"


def type_of(source, name):
    """The name of the type of a constant's elements, without references, lists and lengths."""
    found = re.search(r"\bconst %s: ([^=]+?)\s*=" % re.escape(name), source.read_text(encoding="utf-8"))
    return set(re.findall(r"\w+", found.group(1).split(";")[0])) if found else set()


def main():
    unneeded = {*LAWS, *COUNTS}
    wrong = 0
    for file, source, name in citations():
        reasons = {file, (file, name)} & {*LAWS, *COUNTS}
        unneeded -= reasons
        types = type_of(source, name)
        if reasons or types and types <= {*ROWS, *INDEXES}:
            continue
        wrong += 1
        print("%s cites the constant %s of %s: write its number or its text" % (file, name, source.relative_to(CRATES)))
    for reason in sorted(map(str, unneeded)):
        wrong += 1
        print("cited_constants: not needed: %s" % reason)
    return wrong > 0


if __name__ == "__main__":
    sys.exit(main())
