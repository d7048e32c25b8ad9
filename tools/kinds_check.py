#!/usr/bin/env python3
"""Checks that the table of link kinds in docs/comparing.md is that of the definitions.

    tools/kinds_check.py

`kinds` and `port_kinds` of link_info_grammar name the kinds whose data have a table: an empty one, `untyped`, for those whose
attributes are compared bit for bit. The status is 1 if the page has other names.
"""
import re
import sys

from layers import TOP

PAGE = TOP / "docs" / "comparing.md"
DEFINITIONS = TOP / "crates" / "link_info_grammar" / "specs" / "Families.antt"
# The lists of the definitions, with the attribute in whose rows the page has their kinds.
LISTS = (("kinds", "IFLA_INFO_DATA"), ("port_kinds", "IFLA_INFO_SLAVE_DATA"))
BY_MEANING, BIT_FOR_BIT = "by meaning", "attribute by attribute"


def defined_kinds(name):
    """The kinds of a list: those that are compared by meaning, and those whose attributes are compared bit for bit."""
    text = re.search(r"^%s =\n(.*?)\n\n" % name, DEFINITIONS.read_text(encoding="utf-8"), flags=re.M | re.S).group(1)
    kinds = {BY_MEANING: set(), BIT_FOR_BIT: set()}
    for part in re.split(r"\b(?:each_of|name)\b", text):
        way = BIT_FOR_BIT if "list any untyped" in part else BY_MEANING
        kinds[way].update(re.findall(r'codes "(\w+)"', part))
    return kinds


def page_kinds(attribute):
    """The same kinds by the rows of the page."""
    kinds = {BY_MEANING: set(), BIT_FOR_BIT: set()}
    for names, way in re.findall(r"^\| %s \| (.*?) \| (.*?) \|$" % attribute, PAGE.read_text(encoding="utf-8"), flags=re.M):
        for known in kinds:
            if way.startswith(known):
                kinds[known].update(re.findall(r"`(\w+)`", names))
    return kinds


def main():
    is_equal = True
    for name, attribute in LISTS:
        defined, on_page = defined_kinds(name), page_kinds(attribute)
        for way, kinds in defined.items():
            if kinds != on_page[way]:
                print("kinds: %s, %s: defined are %s, the page has %s" % (attribute, way, sorted(kinds), sorted(on_page[way])))
                is_equal = False
    return 0 if is_equal else 1


if __name__ == "__main__":
    sys.exit(main())
