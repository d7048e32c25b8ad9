"""Reads from programs and libraries what they need of a machine: C library, kernel and processor (tools/release.py).

It needs readelf.
"""
import re
import subprocess
import tempfile

ELF = b"\x7fELF"
# The processor for which the kit compiles. A program tests for it as it starts, and says so if it is another one.
PROCESSOR = "x86-64-v2"
# A version of the C library that all systems have; symbols of later ones are named.
EARLY = (2, 14)


def readelf(content, *options):
    """What readelf prints of a file with this content."""
    with tempfile.NamedTemporaryFile() as file:
        file.write(content)
        file.flush()
        return subprocess.run(["readelf", "--wide", *options, file.name], stdout=subprocess.PIPE, text=True, check=True).stdout


def libc_symbols(content):
    """The symbols of the C library that a file needs, by their version as numbers."""
    symbols = {}
    for name, version in re.findall(r" UND (\w+)@GLIBC_([\d.]+)", readelf(content, "--dyn-syms")):
        symbols.setdefault(tuple(map(int, version.split("."))), []).append(name)
    return symbols


def version_text(version):
    return ".".join(map(str, version))


def libc_version(entries):
    """The least version of the C library that has all symbols which these files need."""
    versions = [version for entry in entries.values() if entry.content.startswith(ELF) for version in libc_symbols(entry.content)]
    return version_text(max(versions, default=EARLY))


def libc_text(content):
    """The least version of the C library for a file, and the symbols for which it is newer than what all systems have."""
    symbols = libc_symbols(content)
    newer = ["%s of %s" % (", ".join(symbols[version]), version_text(version))
             for version in sorted(symbols, reverse=True) if version > EARLY]
    oldest = max((version for version in symbols if version <= EARLY), default=EARLY)
    details = " (for %s; all else is of %s or older)" % (", ".join(newer), version_text(oldest)) if newer else ""
    return "glibc %s%s" % (version_text(max(symbols, default=EARLY)), details)


def needs_text(content):
    """What a program or a library needs, in one line."""
    notes = readelf(content, "--notes")
    kernel = re.search(r"OS: Linux, ABI: ([\d.]+)", notes)
    marked = re.search(r"x86 ISA needed: .*?(x86-64-v\d)", notes)
    parts = ["Linux " + kernel[1]] if kernel else []
    return "; ".join([*parts, "a processor with " + (marked[1] if marked else PROCESSOR), libc_text(content)])


def needs_lines(entries):
    """What each program and library of these entries needs, a line each, which begins with its path."""
    files = {path: entry.content for path, entry in sorted(entries.items()) if entry.content.startswith(ELF)}
    return ["%s: %s" % (path, needs_text(content)) for path, content in files.items()]
