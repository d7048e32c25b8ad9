#!/usr/bin/env python3
"""Compares the options that docs/showing.md has with those in the help of linkshow and linkdiff.

    scripts/tests/page_options.py LINKSHOW

The table of the page has to list linkshow's options. The section on linkdiff names those of linkshow that linkdiff lacks, and
has to list linkdiff's own. The status is 1 if a set differs.
"""
import re
import subprocess
import sys
from pathlib import Path

TOP = Path(__file__).resolve().parent.parent.parent
PAGE = TOP / "docs" / "showing.md"
EXCEPTIONS = re.compile(r"`linkdiff` has the options of `linkshow` except ([^.]*)\.")
OPTION = re.compile(r"(?<![\w-])--[a-z][a-z-]*")


def options_of(program):
    """The long options in a program's help, except --help."""
    text = subprocess.run([program, "--help"], stdout=subprocess.PIPE, check=True, universal_newlines=True).stdout
    return set(OPTION.findall(text)) - {"--help"}


def section(text, heading):
    """The text of a section of a page."""
    return text.split("\n## %s\n" % heading)[1].split("\n## ")[0]


def rows_of(text):
    """The options in the first column of a table, except --help."""
    return {option for row in re.findall(r"^\| (`--[^|]*) \|", text, flags=re.M) for option in OPTION.findall(row)} - {"--help"}


def items_of(text):
    """The options at the head of a list's items; `-q` is `--quiet`."""
    heads = re.findall(r"^- ([^:\n]*):", text, flags=re.M)
    return {option for head in heads for option in OPTION.findall(head.replace("`-q`", "--quiet"))}


def main():
    text = PAGE.read_text(encoding="utf-8")
    linkshow, linkdiff = options_of(sys.argv[1]), options_of(str(TOP / "scripts" / "linkdiff"))
    of_linkdiff = section(text, "Two captures")
    exceptions = EXCEPTIONS.search(of_linkdiff)
    cases = (
        ("linkshow's options", rows_of(section(text, "The command")), linkshow),
        ("what linkdiff lacks", set(OPTION.findall(exceptions.group(1) if exceptions else "")), linkshow - linkdiff),
        ("linkdiff's own options", items_of(of_linkdiff), linkdiff - linkshow),
    )
    for name, on_page, in_help in cases:
        if on_page != in_help:
            print("page_options: %s: the page has %s, the help %s" % (name, sorted(on_page), sorted(in_help)))
    return any(on_page != in_help for _, on_page, in_help in cases)


if __name__ == "__main__":
    sys.exit(main())
