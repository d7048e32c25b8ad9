#!/usr/bin/env python3
"""Checks that each version number is the same wherever it is written.

    tools/versions.py

The version is the first in CHANGELOG.md; the version of the interface and the format version are those of linkcap.h, which the
table in CHANGELOG.md repeats. The status is 1 if something differs.
"""
import re
import sys

from layers import TOP

# What has each number: a file, and the expression whose group is the number.
VERSION = {
    "CHANGELOG.md": r"^\| version, [^|]*\| (\S+) \|",
    "bindings/python/linkcap/__init__.py": r'^__version__ = "(.*)"',
    "bindings/rust/Cargo.toml": r'^version = "(.*)"',
    "crates/linkshow_program/src/texts.rt": r"linkshow (\S+), lines",
    "crates/linkshow_program/specs/Texts.antt": r"linkshow (\S+), lines",
}
INTERFACE = {
    "CHANGELOG.md": r"^\| version of the interface [^|]*\| (\d+) \|",
    "bindings/python/linkcap/_native.py": r"^VERSION = (\d+)",
    "bindings/rust/src/ffi.rs": r"VERSION: u32 = (\d+)",
}
FORMAT = {
    "CHANGELOG.md": r"^## [\d.]+ \(format (\d+)\)",
    "crates/linkshow_program/src/texts.rt": r"linkshow \S+, lines (\d+)",
    "tools/oracle/lines.md": r"^Format version (\d+)",
}


def number(name, pattern):
    """The first group of an expression in a file; None if it isn't there."""
    found = re.search(pattern, (TOP / name).read_text(encoding="utf-8"), re.M)
    return found and found[1]


def main():
    header = "bindings/c/linkcap.h"
    numbers = (("version", number("CHANGELOG.md", r"^## (\d+\.\d+\.\d+)\b"), VERSION),
               ("version of the interface", number(header, r"^#define LINKCAP_VERSION (\d+)"), INTERFACE),
               ("format version", number(header, r"^#define LINKCAP_FORMAT (\d+)"), FORMAT))
    wrong = [(what, name, number(name, pattern), expected) for what, expected, places in numbers
             for name, pattern in places.items() if number(name, pattern) != expected]
    for what, name, found, expected in wrong:
        print("versions: the %s in %s is %s, and not %s" % (what, name, found, expected))
    return 1 if wrong else 0


if __name__ == "__main__":
    sys.exit(main())
