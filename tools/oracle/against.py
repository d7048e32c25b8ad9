#!/usr/bin/env python3
"""Compares the programs with the independent implementation on made captures.

    tools/oracle/against.py FOLDER [SEED [COUNT]]

FOLDER has the programs linkcap and linkshow, as PREFIX/bin after ./install. It makes
COUNT captures (500) from stored ones, by mutating and joining them with a generator
from SEED (1). For each it compares output, standard error and status of `linkcap norm`,
`linkcap same` with the stored capture, `linkshow` and `linkshow --kernels`. The status
is 1 if a run differs. It isn't part of ./check: a capture on which a run differs becomes
a case of crates/vectors/stdin.
"""
import os
import random
import subprocess
import sys
import tempfile

sys.path.insert(0, os.path.dirname(os.path.abspath(__file__)))
import check                # noqa: E402
import linkoracle as o      # noqa: E402
import linkshow             # noqa: E402
import quirks               # noqa: E402
import vectors              # noqa: E402


def run(folder, command, capture):
    """(status, standard output, lines of standard error)."""
    process = subprocess.run([os.path.join(folder, command[0]), *command[1:]], input=capture, capture_output=True, check=False)
    return process.returncode, process.stdout, process.stderr.decode("utf-8", "replace").splitlines()


def norm(capture, limit):
    text, fault = o.normal_text(capture, limit)
    return (2 if fault else 0), text, [o.display(fault)] if fault else []


def same(first, second, limit):
    result = o.same(first, second, limit)
    if isinstance(result, bool):
        return (0, b"same\n", []) if result else (1, b"different\n", [])
    return 2, b"", [("second: " if result[0] else "first: ") + o.display(result[1])]


def show(capture, kernels):
    text, fault = linkshow.lines(capture)
    notes = ["note: %s at %d" % quirk for quirk in quirks.find_quirks(capture)[0]] if kernels else []
    reason = linkshow.why(capture)
    return (2 if fault else 0), text.encode(), notes + ([o.display(fault) + (": " + reason if reason else "")] if fault else [])


def faults_and_notes(lines):
    """Lines of standard error without those about empty captures and about files of other formats."""
    return [line for line in lines if line != "no messages" and not line.startswith("linkshow: ")]


def differences(folder, limit, capture, stored):
    """(command, result, expected result) of each run that differs."""
    with tempfile.TemporaryDirectory() as work:
        files = [os.path.join(work, name) for name in ("first", "second")]
        for path, b in zip(files, (capture, stored)):
            with open(path, "wb") as file:
                file.write(b)
        for command, expected in (
                (["linkcap", "norm", str(limit)], norm(capture, limit)),
                (["linkcap", "same", *files, str(limit)], same(capture, stored, limit)),
                (["linkshow"], show(capture, False)),
                (["linkshow", "--kernels"], show(capture, True))):
            status, out, errors = run(folder, command, capture)
            if (status, out, faults_and_notes(errors)) != expected:
                yield command[:2], (status, out[:200], errors[:3]), (expected[0], expected[1][:200], expected[2][:3])


def make_captures(seed, count):
    """(limit, capture, the stored capture that it was made from), `count` times."""
    rng = random.Random(seed)
    stored = [case.split(" ") for case in vectors.cases("norm") + vectors.cases("spelling")]
    stored = [(int(limit), bytes.fromhex(capture)) for limit, capture in stored if 32 < len(capture) < 8000]
    for _ in range(count):
        limit, capture = rng.choice(stored)
        b = check.mutate(rng, capture) if rng.random() < 0.9 else capture
        if rng.random() < 0.2:
            b += bytes(-len(b) % 4) + check.mutate(rng, rng.choice(stored)[1])
        yield limit, b, capture


def main(args):
    if not 1 <= len(args) <= 3:
        sys.stderr.write("usage: against.py FOLDER [SEED [COUNT]]\n")
        return 3
    seed, count = ([int(arg) for arg in args[1:]] + [1, 500][len(args) - 1:])[:2]
    captures = wrong = 0
    for limit, capture, stored in make_captures(seed, count):
        captures += 1
        for command, result, expected in differences(args[0], limit, capture, stored):
            wrong += 1
            print("%s, limit %d, %s\n    result   %r\n    expected %r" % (" ".join(command), limit, capture.hex()[:400], result, expected))
    print("%d captures, %d runs differ" % (captures, wrong))
    return 1 if wrong else 0


if __name__ == "__main__":
    sys.exit(main(sys.argv[1:]))
