#!/usr/bin/env python3
"""Checks what tools/release.py compares and reads, on made-up releases and on files that the compiler makes.

    tools/release_check.py

It needs cmp, readelf and a C compiler for x86-64. The status is 1 if something is wrong.
"""
import contextlib
import io
import os
import subprocess
import sys
import tarfile
import tempfile
from pathlib import Path

sys.dont_write_bytecode = True
from debian import compressed  # noqa: E402
from needs import needs_text  # noqa: E402
from release_compare import DIFFERENT, EQUAL, OTHER_TOOLS, compare  # noqa: E402

PROVED = "commit  1\nkit     %s\ntool    ld 2.40\ntool    cc %s\n"


def archive(program):
    """An archive with one program."""
    stream, member = io.BytesIO(), tarfile.TarInfo("bin/linkcap")
    member.size = len(program)
    with tarfile.open(fileobj=stream, mode="w") as file:
        file.addfile(member, io.BytesIO(program))
    return compressed(stream.getvalue())


def write_release(folder, program=b"program", kit="kit 1", compiler="12", more=None):
    folder.mkdir()
    proved = (PROVED % (kit, compiler)).encode()
    files = {"linkcap.tar.gz": archive(program), "PROVED.txt": proved, "SHA256SUMS": proved, **(more or {})}
    for name, content in files.items():
        (folder / name).write_bytes(content)
    return folder


def compared(work, **other):
    """The status of a comparison with another release, and what it prints."""
    folder, printed = Path(tempfile.mkdtemp(dir=work)), io.StringIO()
    with contextlib.redirect_stdout(printed):
        status = compare(write_release(folder / "made"), write_release(folder / "other", **other))
    return status, printed.getvalue()


# (what differs, the status, what is printed)
CASES = (
    ({}, EQUAL, "release: all 3 files are equal\n"),
    ({"program": b"prograM"}, DIFFERENT, "release: inside, bin/linkcap differs: byte 7\nrelease: 1 of 3 files differ\n"),
    ({"program": b"program+"}, DIFFERENT, "release: inside, bin/linkcap differs: byte 8\n"),
    ({"more": {"wheel": b""}}, DIFFERENT, "other has wheel\nrelease: 1 of 4 files differ\n"),
    ({"more": {"linkcap.tar.gz": b"no archive"}}, DIFFERENT, "release: one of them can't be unpacked: "),
    ({"compiler": "14"}, EQUAL, "other: cc 14\nrelease: all 1 files are equal, made by other tools\n"),
    ({"kit": "kit 2"}, EQUAL, "other: kit 2\nrelease: all 1 files are equal, made by other tools\n"),
    ({"compiler": "14", "program": b"prograM"}, OTHER_TOOLS, "release: 1 of 1 files differ, made by other tools\n"),
)


def compiled(work, *options):
    """The bytes of a file that the compiler makes of an empty program."""
    source, file = Path(work, "empty.c"), Path(work, "empty")
    source.write_text("int main(void) { return 0; }\n", encoding="utf-8")
    subprocess.run([os.environ.get("CC", "cc"), "-fPIC", *options, "-o", file, source], check=True)
    return file.read_bytes()


def main():
    faults = []
    with tempfile.TemporaryDirectory(prefix="linkcap-check-") as work:
        for other, status, text in CASES:
            found, printed = compared(work, **other)
            if found != status or text not in printed:
                faults.append("%s: status %d, and not %d; or prints no %r, but %r" % (other, found, status, text, printed))
        program, library = needs_text(compiled(work)), needs_text(compiled(work, "-shared", "-Wl,-z,x86-64-v3"))
        if not program.startswith("Linux ") or "__libc_start_main of " not in program and "glibc 2.14" not in program:
            faults.append("needs of a program: " + program)
        if not library.startswith("a processor with x86-64-v3; glibc "):
            faults.append("needs of a library: " + library)
    for fault in faults:
        print("release_check: " + fault)
    return bool(faults)


if __name__ == "__main__":
    sys.exit(main())
