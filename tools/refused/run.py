#!/usr/bin/env python3
"""Runs the tests of the modules `memory` of the crates of tests, and refuses each request for memory in turn.

    tools/refused/run.py

`rt ci` or `rt test` builds these tests. A test fails if it returns a result that its page doesn't allow. At its end each test
makes one more request and prints whether that was refused, which means that every request before it was refused in an
earlier run. It takes a few seconds and needs a C compiler, cc or the one that CC names. The status is 1 if a test fails.
"""
import os
import re
import subprocess
import sys
import tempfile
from collections import Counter
from pathlib import Path

HERE = Path(__file__).resolve().parent
CRATES = ["link_message_tests", "linkcap_tests"]
NAME = re.compile(r"^(memory::\S+): test$", re.M)
LAST = re.compile(r"^last request: (granted|refused)$", re.M)
MOST_REQUESTS = 1000


def run(tests, *arguments, **variables):
    options = {"stdout": subprocess.PIPE, "stderr": subprocess.STDOUT, "text": True, "stdin": subprocess.DEVNULL}
    return subprocess.run([tests, *arguments], env={**os.environ, **variables}, timeout=60, **options)


def tests_of(crate):
    """The program of a crate's tests, and the names of its tests of memory."""
    tests = HERE.parent.parent / "crates" / crate / "out" / (crate + "_tests")
    if not tests.is_file():
        sys.exit("refused: no %s: run rt ci, or rt test in crates/%s" % (tests, crate))
    names = NAME.findall(run(tests, "--list").stdout)
    if not names:
        sys.exit("refused: no tests of memory in %s" % tests)
    return tests, names


def outputs(tests, test, library):
    """The output of a test for each of its requests, when that request is refused."""
    for number in range(1, MOST_REQUESTS):
        process = run(tests, test, LD_PRELOAD=library, REFUSE_AT=str(number))
        last = LAST.search(process.stdout)
        if process.returncode or not last:
            sys.exit("%s\nrefused: FAILED: %s, request %d" % (process.stdout, test, number))
        if last[1] == "refused":
            return
        yield process.stdout[:last.start()].strip() or "nothing asked for"
    sys.exit("refused: FAILED: %s requests memory %d times" % (test, MOST_REQUESTS))


def main():
    cases = [(tests, name) for tests, names in map(tests_of, CRATES) for name in names]
    counts = Counter()
    with tempfile.TemporaryDirectory() as folder:
        library = folder + "/refuse.so"
        compiler = [os.environ.get("CC", "cc"), "-std=c11", "-O2", "-Wall", "-Wextra", "-Werror", "-shared", "-fPIC"]
        subprocess.run([*compiler, "-o", library, HERE / "refuse.c", "-ldl"], check=True)
        for tests, test in cases:
            counts.update(outputs(tests, test, library))
    print("refused: %d requests of %d tests, each by itself" % (sum(counts.values()), len(cases)))
    for output, count in sorted(counts.items()):
        print("%6d %s" % (count, output))


if __name__ == "__main__":
    main()
