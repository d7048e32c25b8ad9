#!/usr/bin/env python3
"""Compares the samples' bytes, normal texts and lines.

    tools/oracle/samples.py LINKCAP LINKSHOW    of the independent implementation, both programs, and the stored lines
    tools/oracle/samples.py --write             writes the lines of each sample, by the independent implementation

The status is 0 if all agree.
"""
import subprocess
import sys
from pathlib import Path

import linkoracle
import linkshow

TOP = Path(__file__).resolve().parents[2]
SAMPLES = sorted((TOP / "samples").rglob("*.bin"))
INDEX = TOP / "samples" / "kinds" / "index.tsv"


def normal_text(capture):
    """The normal text of a legal capture, by the independent implementation."""
    text, fault = linkoracle.normal_text(capture)
    assert fault is None, fault
    return text


def output_of(*command):
    return subprocess.run(command, stdin=subprocess.DEVNULL, capture_output=True, check=True).stdout


def differences(sample, linkcap, linkshow_program):
    """The texts and lines of a sample that differ from those of the independent implementation."""
    capture = sample.read_bytes()
    text, (lines, _) = normal_text(capture), linkshow.lines(capture)
    linkcap_text = subprocess.run([linkcap, "norm"], input=capture, capture_output=True, check=True).stdout
    is_equal = {
        "the normal text by linkcap": linkcap_text == text,
        "the normal text of the normal text": normal_text(text) == text,
        "the lines of the normal text": linkshow.lines(text)[0] == lines,
        "the lines by linkshow": output_of(linkshow_program, sample).decode() == lines,
        "the stored lines": sample.with_suffix(".lines").read_text() == lines,
    }
    return [name for name, equal in is_equal.items() if not equal]


def index_faults():
    """What is wrong with index.tsv, which has a row for each message with a command that names the message's link."""
    rows = [line.split("\t") for line in INDEX.read_text().splitlines()[1:]]
    starts = [(sample.name, offset) for sample in sorted(INDEX.parent.glob("*.bin")) for offset in offsets(sample.read_bytes())]
    if sorted((row[0], int(row[1])) for row in rows) != starts:
        yield "index.tsv hasn't one row for each message"
    for name, offset, _, command in rows:
        lines, _ = linkshow.lines((INDEX.parent / name).read_bytes()[int(offset):])
        link = lines.split('\n  IFLA_IFNAME "')[1].split('"')[0]
        if link not in command.split() and command != "no command of iproute2":
            yield f"index.tsv: {name} at {offset} is about {link}, which its command doesn't name: {command}"


def offsets(capture):
    offset = 0
    while offset < len(capture):
        yield offset
        offset += linkoracle.round_up(linkoracle.u32(capture, offset))


def main():
    if sys.argv[1:] == ["--write"]:
        for sample in SAMPLES:
            sample.with_suffix(".lines").write_text(linkshow.lines(sample.read_bytes())[0])
        return 0
    wrong = list(index_faults())
    for sample in SAMPLES:
        wrong += [f"{sample.relative_to(TOP)}: {name} differs" for name in differences(sample, *sys.argv[1:])]
    print("".join(f"samples: {line}\n" for line in wrong), end="")
    print(f"samples: {len(SAMPLES)} captures, {len(wrong)} faults")
    return 1 if wrong else 0


if __name__ == "__main__":
    sys.exit(main())
