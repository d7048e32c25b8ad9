#!/usr/bin/env python3
"""Checks the independent implementation: the examples worked by hand (worked.tsv),
and the laws of docs/format/normal-text.md and docs/showing.md over the stored captures and
mutations of them.

    tools/oracle/check.py [SEED [COUNT]]

A generator makes COUNT mutations (2000) from SEED (1). The status is 1 if an example
or a law fails.
"""
import os
import random
import sys

sys.path.insert(0, os.path.dirname(os.path.abspath(__file__)))
import linkoracle as o      # noqa: E402
import linkshow             # noqa: E402
import quirks               # noqa: E402
import results              # noqa: E402
import vectors              # noqa: E402

HERE = os.path.dirname(os.path.abspath(__file__))
GREATEST = o.GREATEST_LIMIT


# --------------------------------------------------------------------------
# Examples worked by hand

def worked_norm(stage, limit, b):
    text, fault = o.normal_text(b, int(limit), stage)
    return (text.hex() + " " + results.outcome(fault)).strip()


def worked_measure(stage, limit, b):
    sizes = o.measure(b, int(limit), stage)
    return o.display(sizes) if o.is_fault(sizes) else "%d %d %d" % sizes


def worked_list(stage, _, b):
    text = o.list_text(b, stage)
    return "refused" if text is None else text.hex()


def worked_check_list(stage, _, b):
    size, count, fits = o.check_list(b, stage)
    return "%d %d %s" % (size, count, "fits" if fits else "unfit")


def worked_attribute(stage, table_and_context, b):
    table, context = table_and_context.split(" ")
    text = o.attr_text(table, context or None, b, stage)
    return "refused" if text is None else text.hex()


def worked_walk(_, __, b):
    attributes, error = o.attributes(b)
    return " ".join("%d=%s" % (kind, p.hex()) for kind, p in attributes) + (" error" if error else "")


# The function that computes the result of an example, by its first column
COMPUTE = {
    "norm": worked_norm, "measure": worked_measure, "list": worked_list, "check_list": worked_check_list,
    "attribute": worked_attribute, "walk": worked_walk,
}


def check_examples():
    """(number of examples, a line for each that fails)."""
    count, failures = 0, []
    for line in open(os.path.join(HERE, "worked.tsv"), encoding="utf-8"):
        if line.startswith("#"):
            continue
        function, stage, option, data, expected, note = line.rstrip("\n").split("\t")
        if function == "same":
            result = results.same_result("%s %s" % (option, data))
        else:
            result = COMPUTE[function](stage, option, bytes.fromhex(data))
        count += 1
        if result != expected:
            failures.append("%s %s %s: %s, expected %s (%s)" % (function, option, data[:60], result[:100], expected[:100], note))
    return count, failures


# --------------------------------------------------------------------------
# Laws

def broken_laws(capture, limit):
    """The laws of normal texts that a capture breaks."""
    text, fault = o.normal_text(capture, limit)
    if fault is None:
        if o.normal_text(text, limit) != (text, None):
            yield "a normal text is legal and canonical"
        if o.same(capture, text, limit) is not True:
            yield "a capture and its normal text mean the same"
        if len(text) > 77 * len(capture):
            yield "a normal text is at most 77 times as long as its capture"
        if quirks.find_quirks(text, limit)[0]:
            yield "a normal text has no quirk"
    for numbers in (True, False):
        if linkshow.lines(capture, limit, numbers=numbers)[0] != linkshow.lines(text, GREATEST, numbers=numbers)[0]:
            yield "a capture has the lines of its normal text"


class LineTexts:
    """The text of each message that was checked, by its lines: lines determine the text."""

    def __init__(self):
        self.texts = {}

    def broken_laws(self, capture, limit):
        for frame in o.read_capture(o.rules_for(), limit, capture)[0]:
            text = frame.text()
            lines = "".join(linkshow.frame_lines(frame))
            if self.texts.setdefault(lines, text) != text:
                yield "messages with different texts have different lines"


def broken_equivalence(a, b, limit):
    """The law that two legal captures mean the same if and only if their texts are equal, if they break it."""
    (text_a, fault_a), (text_b, fault_b) = o.normal_text(a, limit), o.normal_text(b, limit)
    if fault_a is None and fault_b is None and o.same(a, b, limit) is not (text_a == text_b):
        yield "captures mean the same if and only if their texts are equal"


def mutate(rng, capture):
    b = bytearray(capture)
    for _ in range(rng.choice((1, 1, 2))):
        b[rng.randrange(len(b))] = rng.choice((0, 1, 2, 4, 8, 0x40, 0x7F, 0x80, 0xFF, rng.randrange(256)))
    return bytes(b)


def check_laws(seed, count):
    """(number of captures, a line for each law that one breaks)."""
    rng, line_texts, violations = random.Random(seed), LineTexts(), []
    stored = [case.split(" ") for case in [*vectors.cases("norm"), *vectors.cases("show")]]
    stored = [(int(limit), bytes.fromhex(capture)) for limit, *_, capture in stored]
    small = [(limit, capture) for limit, capture in stored if 16 < len(capture) < 2000]
    mutations = []
    for _ in range(count):
        limit, capture = rng.choice(small)
        mutations.append((limit, mutate(rng, capture), capture))
    for limit, capture, *originals in [*stored, *mutations]:
        laws = [*broken_laws(capture, limit), *line_texts.broken_laws(capture, limit)]
        for original in originals:
            laws += broken_equivalence(capture, original, limit)
        violations += ["%s: limit %d, %s" % (law, limit, capture.hex()[:400]) for law in laws]
    return len(stored) + len(mutations), violations


def main(args):
    seed, count = ([int(arg) for arg in args] + [1, 2000][len(args):])[:2]
    examples, wrong_examples = check_examples()
    captures, violations = check_laws(seed, count)
    for line in wrong_examples + violations:
        print(line)
    print("%d examples, %d wrong; %d captures, %d laws broken" % (examples, len(wrong_examples), captures, len(violations)))
    return 1 if wrong_examples or violations else 0


if __name__ == "__main__":
    sys.exit(main(sys.argv[1:]))
