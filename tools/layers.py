#!/usr/bin/env python3
"""Draws the crates in layers, from crates.txt, into docs/architecture.md.

    tools/layers.py            writes the picture
    tools/layers.py --check    ends with status 1 if the page has another picture

The picture is the block below the page's line `<!-- written by tools/layers.py -->`. A row has the crates of one depth: the
number of crates in the longest chain of dependencies in this repository that ends in a crate, which counts too. A column has
the crates whose names begin with the column's name, without that beginning; the last column has all other crates. It needs
only Python.
"""
import itertools
import re
import sys
from pathlib import Path

TOP = Path(__file__).resolve().parent.parent
PAGE = TOP / "docs" / "architecture.md"
PICTURE = re.compile(r"(<!-- written by tools/layers\.py -->\n```\n).*?(\n```\n)", re.S)
COLUMNS = ["netlink_packet_core", "attribute", "link_info", "link_message", "link_capture", "link_lines"]
OTHERS = "programs, users, tests"
# Crates in another column than that of their names
OTHER_COLUMNS = {"link_tables": "attribute", "link_interpreter": "attribute"}
# Crates whose depth is printed below the picture
PRINTED_DEPTHS = ["netlink_packet_core", "link_info", "link_message", "link_capture", "link_lines", "linkcap", "linkshow"]


def crates():
    """The direct dependencies of each crate, by the crate's name, in the file's order."""
    lines = (TOP / "crates.txt").read_text(encoding="utf-8").splitlines()
    parts = [line.partition(":") for line in lines if line and not line.startswith("#")]
    return {name.split()[0]: dependencies.split() for name, _, dependencies in parts}


def depths(dependencies):
    """The depth of each crate. It is 1 for a crate that depends on no crate of the repository."""
    depth_of = {}

    def depth(name):
        if name not in depth_of:
            depth_of[name] = 1 + max((depth(other) for other in dependencies[name] if other in dependencies), default=0)
        return depth_of[name]

    for name in dependencies:
        depth(name)
    return depth_of


def column_of(name):
    return OTHER_COLUMNS.get(name) or next((column for column in COLUMNS if name == column or name.startswith(column + "_")), OTHERS)


def short_name(name):
    """The name of a crate in its column: without the column's name, if it begins with that."""
    column = column_of(name)
    return name[len(column):] if name.startswith(column + "_") else name


def rows_of(depth, depth_of):
    """The rows of one depth, each with a cell for every column."""
    crates_in = {column: [name for name in depth_of if depth_of[name] == depth and column_of(name) == column]
                 for column in [*COLUMNS, OTHERS]}
    cells = [[short_name(name) for name in names] for names in crates_in.values()]
    for number, row in enumerate(itertools.zip_longest(*cells, fillvalue="")):
        yield ["" if number else str(depth), *row]


def picture():
    depth_of = depths(crates())
    rows = [["", *COLUMNS, OTHERS]]
    for depth in range(1, max(depth_of.values()) + 1):
        rows += rows_of(depth, depth_of)
    widths = [max(map(len, column)) for column in zip(*rows)]
    lines = ["  ".join(cell.ljust(width) for cell, width in zip(row, widths)).rstrip() for row in rows]
    printed_depths = ", ".join("%s %d" % (name, depth_of[name]) for name in PRINTED_DEPTHS if name in depth_of)
    return "\n".join([*lines, "", "depths: " + printed_depths])


def main():
    page = PAGE.read_text(encoding="utf-8")
    new_page, count = PICTURE.subn(lambda match: match.group(1) + picture() + match.group(2), page)
    if count != 1:
        sys.exit("layers: %s hasn't one block for the picture" % PAGE)
    if sys.argv[1:] == ["--check"]:
        sys.exit(0 if new_page == page else "layers: docs/architecture.md has another picture; tools/layers.py writes it")
    PAGE.write_text(new_page, encoding="utf-8")


if __name__ == "__main__":
    main()
