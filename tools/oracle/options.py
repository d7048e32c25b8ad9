#!/usr/bin/env python3
"""Compares linkshow under its options with the independent implementation.

    tools/oracle/options.py PROGRAM [CAPTURE..]

PROGRAM is linkshow. It shows each capture, by default those of samples/ up to 4,000 bytes,
and each with some bytes changed, under each option alone and under each pair of them, one
capture after the other for the pairs. Output, standard error and status are compared: of
--json the objects, whose members may come in another order. The status is 1 if a run differs.
"""
import glob
import itertools
import json
import os
import random
import subprocess
import sys

HERE = os.path.dirname(os.path.abspath(__file__))
sys.path.insert(0, HERE)
import json_of_lines        # noqa: E402
import linkoracle as o      # noqa: E402
import linkshow             # noqa: E402

SAMPLES = os.path.join(HERE, "..", "..", "samples")
LARGEST_SAMPLE = 4000
CHANGED_BYTES = 3           # of a capture that is changed

# The arguments of an option, and what they are to the independent implementation
OPTIONS = [
    (["--keep-going"], {"keep_going": True}),
    (["--offsets"], {"offsets": True}),
    (["--without-numbers"], {"numbers": False}),
    (["--without", "counters,padding"], {"omitted": linkshow.read_omitted("counters,padding")}),
    (["--without", "INDEXES,numbers,ifla_mtu"], {"omitted": linkshow.read_omitted("indexes,numbers,IFLA_MTU")}),
    (["--link", "2"], {"link": "2"}),
    (["--link", "lo"], {"link": "lo"}),
    (["--only", "newlink,RTM_NEWADDR,24"], {"only": {16, 20, 24}}),
    (["--limit", "400"], {"limit": 400}),
    (["--json"], {"json": True}),
]


def captures(paths):
    """(name, bytes) of each capture, and of each with some bytes changed."""
    rng = random.Random(1)
    for path in paths:
        with open(path, "rb") as file:
            b = file.read()
        yield os.path.basename(path), b
        changed = bytearray(b)
        for _ in range(CHANGED_BYTES if b else 0):
            changed[rng.randrange(len(b))] = rng.randrange(256)
        yield os.path.basename(path) + ", changed", bytes(changed)


def expected(capture, choice):
    """(status, output, lines of standard error)."""
    text, fault = linkshow.lines(capture, **{name: value for name, value in choice.items() if name != "json"})
    output = json_of_lines.json_of_lines(text) if "json" in choice else text.encode()
    if fault is None:
        return 0, output, [] if text else ["no messages"]
    reason = linkshow.why(capture, choice.get("limit", o.DEFAULT_LIMIT))
    return 2, output, [o.display(fault) + (": " + reason if reason else "")]


def objects(output):
    """The objects of lines of JSON; the output itself if a line isn't JSON."""
    try:
        return [json.loads(line) for line in output.splitlines()]
    except ValueError:
        return output


def run(program, arguments, capture):
    process = subprocess.run([program, *arguments], input=capture, capture_output=True, check=False)
    errors = process.stderr.decode("utf-8", "replace").splitlines()
    output = objects(process.stdout) if "--json" in arguments else process.stdout
    return process.returncode, output, [line for line in errors if not line.startswith("linkshow: th")]


def choices(pairs):
    """Each option alone; then, if asked for, each pair that differs in its option."""
    yield from OPTIONS
    for (first, one), (second, two) in itertools.combinations(OPTIONS, 2) if pairs else ():
        if not set(one) & set(two):
            yield first + second, {**one, **two}


def main(args):
    if not args:
        sys.stderr.write("usage: options.py PROGRAM [CAPTURE..]\n")
        return 3
    paths = args[1:] or sorted(path for path in glob.glob(os.path.join(SAMPLES, "**", "*.bin"), recursive=True)
                               if os.path.getsize(path) <= LARGEST_SAMPLE)
    runs = wrong = 0
    for number, (name, capture) in enumerate(captures(paths)):
        for arguments, choice in choices(number % 8 == 0):
            runs += 1
            result, wanted = run(args[0], arguments, capture), expected(capture, choice)
            if result != wanted:
                wrong += 1
                print("%s, %s\n    result   %r\n    expected %r" % (name, " ".join(arguments), result, wanted))
    print("%d runs, %d differ" % (runs, wrong))
    return 1 if wrong else 0


if __name__ == "__main__":
    sys.exit(main(sys.argv[1:]))
