#!/usr/bin/env python3
"""Compares what this repository and the crates that it ports read and write, on many cases.

    compare.py [--seed N] [--count N] [--each-rule] [--show N] OURS THEIRS [FOLDER..]

OURS is the program read_links, THEIRS that of this folder, both as commands. The cases are the stored ones, the captures in
the folders, and COUNT link bodies that are made, with frames and walks. Each difference has to fall under a rule of
rules.py, whose number of uses is printed; the others are printed as they are, and the status is 1 if there is one. A case
that one of the two refuses is taken apart into its attributes, each by itself, until the attribute is found that makes the
difference; that the whole is refused exactly if a part is, is checked on both sides. Whether ours accepts a body, and what it
writes, is also compared with tools/oracle. With --each-rule, a case on which each rule was used is compared again without
that rule, where a difference has to be left; the status is 1 otherwise.
"""
import argparse
import collections
import itertools
import multiprocessing
import os
import shlex
import subprocess
import sys

sys.path.insert(0, os.path.dirname(os.path.abspath(__file__)))
import cases                # noqa: E402
import debug_text           # noqa: E402
import linkoracle           # noqa: E402
import rules                # noqa: E402
from debug_text import Node  # noqa: E402
from elements import Element, children, cut, deepest, parts as parts_of  # noqa: E402

CHUNK = 2000
DEEPEST = 100000            # calls: a list can be nested thousands of times
ROUNDS = 12


def results(command, lines):
    """The results of a program for cases, a line each. A program that ends too early has no result for the rest."""
    text = "".join(line + "\n" for line in lines)
    process = subprocess.run(shlex.split(command), input=text.encode(), stdout=subprocess.PIPE, check=True)
    found = process.stdout.decode().split("\n")[:-1]
    if len(found) != len(lines):
        raise ValueError("%s gives %d results for %d cases" % (command, len(found), len(lines)))
    return found


class Result:
    """A result: its first word, the bytes that were written, and the Debug text."""

    def __init__(self, line):
        self.word, _, rest = line.partition(" ")
        self.text, self.bytes, self.raw = rest, None, line
        if self.word == "read":
            written, _, self.text = rest.partition(" ")
            self.bytes = written if written in ("deep", "panicked") else bytes.fromhex(written)

    @property
    def is_read(self):
        return self.word in ("read", "unfit")


class Comparison:
    """The differences of one case, each with its rule, or None."""

    def __init__(self, without):
        self.without, self.found, self.extra = without, [], []

    def explain(self, element):
        """Whether a rule covers an element."""
        for rule in rules.RULES:
            if rule.name != self.without and rule.covers(element):
                self.found.append((rule.name, element))
                return True
        return False

    def fail(self, element):
        self.found.append((None, element))

    def element(self, element):
        """Compares an attribute: what is read, then what is written."""
        inside_compared = False
        if not (element.ours == element.theirs or self.explain(element)):
            inside_compared = self.inside(element)
        self.written(element, inside_compared)

    def inside(self, element):
        """Compares a value. Returns whether the attributes in it were compared, also as they are written."""
        ours, theirs = element.ours, element.theirs
        if ours == theirs or element.is_inner and self.explain(element):
            return False
        pairs = children(element)
        if pairs is not None:
            for child in pairs:
                self.element(child)
            return True
        if isinstance(ours, Node) and isinstance(theirs, Node) and ours.name == theirs.name and type(ours.fields) is type(theirs.fields):
            self.fields(element)
        elif isinstance(ours, list) and isinstance(theirs, list) and len(ours) == len(theirs):
            for left, right in zip(ours, theirs):
                self.inside(element.inner("", left, right))
        else:
            self.fail(element)
        return False

    def fields(self, element):
        ours, theirs = element.ours.fields, element.theirs.fields
        if isinstance(ours, dict):
            if set(ours) != set(theirs):
                return self.fail(element)
            for name in ours:
                self.inside(element.inner(element.ours.name + "." + name, ours[name], theirs[name]))
        elif len(ours) == len(theirs):
            for left, right in zip(ours, theirs):
                self.inside(element.inner(element.ours.name, left, right))
        else:
            self.fail(element)

    def written(self, element, inside_compared=False):
        """Compares what an attribute is written as, by the deepest attributes that differ."""
        ours, theirs = element.ours_written, element.theirs_written
        if ours is None or theirs is None or ours == theirs:
            return
        written = element.as_written()
        if self.explain(written):
            return
        pairs, left, right = children(element), cut(ours[1]), cut(theirs[1])
        if ours[0] != theirs[0] or pairs is None or left is None or right is None or not len(left) == len(right) == len(pairs):
            self.fail(written)
        elif not inside_compared:
            for pair in pairs:
                self.written(pair)


def is_as_defined(body, ours):
    """Whether tools/oracle accepts a body as ours does, and writes the same bytes."""
    read = linkoracle.read_link_body(linkoracle.rules_for(), body)
    if read is None or not linkoracle.fits(read.entries):
        return ours.word == ("refused" if read is None else "unfit")
    return ours.word == "read" and ours.bytes == linkoracle.body_text(read)


def body_element(case, ours, theirs):
    body = bytes.fromhex(case.split(" ")[1])
    left, right = debug_text.parse(ours.text), debug_text.parse(theirs.text)
    written = ours.bytes, theirs.bytes if isinstance(theirs.bytes, bytes) else None
    return Element("", None, body, left, right, (None, written[0]) if written[0] is not None else None,
                   (None, written[1]) if written[1] is not None else None, ours, theirs)


def compare(case, ours, theirs, without):
    """The differences of a case by a Comparison; None if its parts have to be compared."""
    comparison = Comparison(without)
    kind = case.split(" ")[0]
    if kind == "body" and not is_as_defined(bytes.fromhex(case.split(" ")[1]), ours):
        comparison.fail("tools/oracle gives another result: %s" % ours.raw[:300])
    if ours.raw == theirs.raw:
        return comparison
    if ours.is_read != theirs.is_read:
        whole = Element("", None, bytes.fromhex(case.split(" ")[1]), ours.word, theirs.word, None, None, ours, theirs)
        if kind != "body":
            whole.place = kind
            if not comparison.explain(whole):
                comparison.fail(whole)
            return comparison
        parts = parts_of(whole.payload)
        if parts:
            return None
        place, attribute = deepest(whole.payload)
        element = Element("refused " + place, attribute[0], attribute[1], ours.word, theirs.word, None, None, ours, theirs)
        if not comparison.explain(element):
            comparison.fail(element)
    elif ours.is_read and kind == "body":
        element = body_element(case, ours, theirs)
        if ours.word == "unfit" or theirs.bytes in ("deep", "panicked"):
            whole = Element("written", None, element.payload, ours.word, theirs.bytes, None, None, ours, theirs)
            if not comparison.explain(whole):
                comparison.fail(whole)
        message(comparison, element)
    elif ours.is_read:
        element = core_element(kind, case, ours, theirs)
        comparison.inside(element)
        comparison.written(element)
    return comparison


def message(comparison, element):
    """Compares a message: its header, and its attributes."""
    ours, theirs = element.ours.fields, element.theirs.fields
    comparison.inside(element.inner("header", ours["header"], theirs["header"]))
    if element.ours_written and element.theirs_written and element.ours_written[1][:16] != element.theirs_written[1][:16]:
        header = Element("header", None, element.payload[:16], None, None, (None, element.ours_written[1][:16]),
                         (None, element.theirs_written[1][:16]))
        comparison.written(header)
    inner = Element("link", None, element.payload[16:], ours["attributes"], theirs["attributes"],
                    element.ours_written and (None, element.ours_written[1][16:]),
                    element.theirs_written and (None, element.theirs_written[1][16:]), element.ours_result, element.theirs_result)
    inner.family = element.payload[0]
    comparison.element(inner)
    comparison.extra = inner.extra


def core_element(kind, case, ours, theirs):
    """A frame, or a walk, whose text is compared as it is."""
    left, right = (result.text if kind == "walk" else debug_text.parse(result.text) for result in (ours, theirs))
    return Element(kind, None, bytes.fromhex(case.split(" ")[1]), left, right, (None, ours.bytes or b""), (None, theirs.bytes or b""),
                   ours, theirs, is_inner=True)


def compare_chunk(job):
    """Compares cases: (counts by rule, differences without a rule, a case for each rule, other counts)."""
    ours_command, theirs_command, chunk, without = job
    lines = [case for case in chunk]
    counts, unexplained, examples = collections.Counter(), [], {}
    verdicts = {}               # of a case: (whether ours reads it, whether theirs does, its differences)
    wanted, waiting, peers = lines, [], []
    for _ in range(ROUNDS):
        wanted = [line for line in dict.fromkeys(wanted) if line not in verdicts]
        if not wanted:
            break
        following = []
        for line, left, right in zip(wanted, results(ours_command, wanted), results(theirs_command, wanted)):
            ours, theirs = Result(left), Result(right)
            try:
                comparison = compare(line, ours, theirs, without)
            except (ValueError, IndexError, KeyError, AttributeError) as error:
                comparison = Comparison(without)
                comparison.fail("%s: %r | %s | %s" % (type(error).__name__, error, left[:300], right[:300]))
            verdicts[line] = ours.is_read, theirs.is_read, comparison and comparison.found
            if comparison is None:
                parts = ["body " + part.hex() for part in parts_of(bytes.fromhex(line.split(" ")[1]))]
                waiting.append((line, parts))
                following += parts
            elif comparison.extra:
                parts = ["body " + peer.hex() for peer in comparison.extra]
                peers.append((line, parts))
                following += parts
        wanted = following
    for line, parts in reversed(waiting):
        ours, theirs, _ = verdicts[line]
        found = [difference for part in parts for difference in verdicts[part][2] or []]
        whole = Element("parts", None, bytes.fromhex(line.split(" ")[1]), (ours, all(verdicts[part][0] for part in parts)),
                        (theirs, all(verdicts[part][1] for part in parts)))
        if whole.ours[0] != whole.ours[1] or whole.theirs[0] != whole.theirs[1]:
            comparison = Comparison(without)
            if not comparison.explain(whole):
                comparison.fail(whole)
            found += comparison.found
        verdicts[line] = ours, theirs, found
    for line, parts in reversed(peers):
        ours, theirs, found = verdicts[line]
        verdicts[line] = ours, theirs, found + [difference for part in parts for difference in verdicts[part][2] or []]
    differing = 0
    for line in lines:
        found = verdicts[line][2]
        differing += bool(found)
        for name in {name for name, _ in found}:
            counts[name] += 1
            examples.setdefault(name, line)
        unexplained += [(line, element) for name, element in found if name is None]
    numbers = {"cases": len(lines), "with a difference": differing, "parts": len(verdicts) - len(set(lines))}
    return counts, unexplained, examples, collections.Counter(numbers)


def chunks(iterator, size):
    while True:
        chunk = list(itertools.islice(iterator, size))
        if not chunk:
            return
        yield chunk


def rules_without_effect(programs, used):
    """The rules without which the case on which each was used has no difference that is left, and those that weren't used."""
    for rule in rules.RULES:
        if rule.name not in used or not compare_chunk((*programs, [used[rule.name]], rule.name))[1]:
            yield rule.name


def main():
    sys.setrecursionlimit(DEEPEST)
    parser = argparse.ArgumentParser(usage=__doc__)
    parser.add_argument("--seed", type=int, default=1)
    parser.add_argument("--count", type=int, default=200000)
    parser.add_argument("--chunk", type=int, default=CHUNK)
    parser.add_argument("--each-rule", action="store_true")
    parser.add_argument("--show", type=int, default=20)
    parser.add_argument("--longest", type=int)
    parser.add_argument("programs", nargs=2)
    parser.add_argument("folders", nargs="*")
    options = parser.parse_args()
    counts, totals, unexplained = collections.Counter(), collections.Counter(), collections.Counter()
    examples, kinds, used = {}, collections.Counter(), {}

    def lines():
        for origin, case in cases.cases(options.seed, options.count, options.folders):
            if options.longest is None or len(case) <= options.longest:
                kinds["%s: %s" % (origin, case.split(" ")[0])] += 1
                yield case

    with multiprocessing.Pool(max(1, (os.cpu_count() or 2) - 1)) as pool:
        jobs = ((*options.programs, chunk, None) for chunk in chunks(lines(), options.chunk))
        for found, missed, cases_of_rules, numbers in pool.imap_unordered(compare_chunk, jobs):
            counts += found
            totals += numbers
            used = {**cases_of_rules, **used}
            for line, element in missed:
                key = element.key() if isinstance(element, Element) else element[:60]
                unexplained[key] += 1
                examples.setdefault(key, (line, element))
    for name, number in sorted(kinds.items()) + sorted(totals.items()):
        print("%9d %s" % (number, name))
    for rule in rules.RULES:
        print("%9d %s: %s" % (counts[rule.name], rule.name, rule.source))
    for key, number in unexplained.most_common(options.show):
        line, element = examples[key]
        print("UNEXPLAINED %d %s\n    %s\n    %s" % (number, key, line[:300], str(element)[:700]))
    print("%9d without a rule" % sum(unexplained.values()))
    kept = list(rules_without_effect(options.programs, used)) if options.each_rule else []
    for name in kept:
        print("the comparison passes without the rule `%s`" % name)
    sys.exit(1 if unexplained or kept else 0)


if __name__ == "__main__":
    main()
