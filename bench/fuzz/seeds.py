#!/usr/bin/env python3
"""Writes the seeds and the dictionary of bench/fuzz.sh into a folder: FOLDER/seeds, FOLDER/netlink.dict.

    bench/fuzz/seeds.py FOLDER

Seeds are the samples and the captures of the stored vectors. The dictionary has the names of link kinds, and headers of
attributes of the sizes that payloads have.
"""
import hashlib
import os
import struct
import sys

TOP = os.path.normpath(os.path.join(os.path.dirname(os.path.abspath(__file__)), "..", ".."))
sys.path.insert(0, os.path.join(TOP, "tools", "oracle"))
import tables               # noqa: E402
import vectors              # noqa: E402

MAX_LENGTH = 1 << 16
CAPTURE_KINDS = ("norm", "same", "spelling", "refusal", "show")


def captures():
    """Yields the samples and the captures of the stored cases, which are in hex after the limit of a case."""
    for name in sorted(os.listdir(os.path.join(TOP, "samples"))):
        if name.endswith(".bin"):
            with open(os.path.join(TOP, "samples", name), "rb") as file:
                yield file.read()
    for kind in CAPTURE_KINDS:
        for case in vectors.cases(kind):
            columns = case.split(" ")[1:]
            for column in columns if kind == "same" else columns[-1:]:
                yield bytes.fromhex(column)


def dictionary():
    """Yields the entries of the dictionary for libFuzzer."""
    for name in sorted(tables.DATA_ROWS):
        yield name.encode()
        yield name.encode() + b"\0"
    for kind in range(1, 80):
        for size in (0, 1, 2, 4, 8, 16):
            yield struct.pack("<HH", 4 + size, kind)
            yield struct.pack("<HH", 4 + size, kind | 0x8000)


def main():
    if len(sys.argv) != 2:
        sys.exit("usage: bench/fuzz/seeds.py FOLDER")
    folder = sys.argv[1]
    os.makedirs(os.path.join(folder, "seeds"), exist_ok=True)
    for capture in captures():
        if len(capture) <= MAX_LENGTH:
            with open(os.path.join(folder, "seeds", hashlib.sha1(capture).hexdigest()), "wb") as file:
                file.write(capture)
    with open(os.path.join(folder, "netlink.dict"), "w", encoding="ascii") as file:
        for entry in dictionary():
            file.write('"%s"\n' % "".join("\\x%02x" % byte for byte in entry))


if __name__ == "__main__":
    main()
