"""Compares two releases, file by file and down to the byte, and distinguishes other tools from other bytes (tools/release.py).

It needs cmp and dpkg-deb.
"""
import io
import re
import subprocess
import tarfile
import zipfile
import zlib

PROVED, SUMS = "PROVED.txt", "SHA256SUMS"
EQUAL, DIFFERENT, OTHER_TOOLS = 0, 1, 3


def stated(folder, word):
    """What PROVED.txt of a release says after a word, in all lines that begin with it."""
    return re.findall(r"^%s +(.+)$" % word, (folder / PROVED).read_text(encoding="utf-8"), re.M)


def members(file):
    """The contents of an archive by their names; nothing of another file."""
    if file.suffix == ".whl":
        with zipfile.ZipFile(file) as archive:
            return {name: archive.read(name) for name in archive.namelist()}
    if file.suffix not in (".gz", ".deb"):
        return {}
    unpack = ["dpkg-deb", "--fsys-tarfile"] if file.suffix == ".deb" else ["gzip", "-dc"]
    stream = subprocess.run([*unpack, file], stdout=subprocess.PIPE, stderr=subprocess.DEVNULL, check=True).stdout
    with tarfile.open(fileobj=io.BytesIO(stream)) as archive:
        return {member.name: archive.extractfile(member).read() for member in archive if member.isfile()}


def first_difference(one, other):
    """The number of the first byte in which two contents differ, as cmp counts; after the end of the shorter one if it is a
    prefix of the longer one."""
    return next((number for number, (a, b) in enumerate(zip(one, other), 1) if a != b), min(len(one), len(other)) + 1)


def print_differing_members(first, second):
    """Prints which contents of two archives differ."""
    try:
        one, other = members(first), members(second)
    except (OSError, subprocess.CalledProcessError, tarfile.TarError, zipfile.BadZipFile, zlib.error) as error:
        print("release: one of them can't be unpacked: %s" % error, flush=True)
        return
    for name in sorted({*one, *other}):
        if name not in one or name not in other:
            print("release: inside, only one has %s" % name, flush=True)
        elif one[name] != other[name]:
            print("release: inside, %s differs: byte %d" % (name, first_difference(one[name], other[name])), flush=True)
    if one and one == other:
        print("release: inside, all contents are equal", flush=True)


def count_differing(made, folder, names):
    """Prints which of these files differ in two folders, and returns their number."""
    differing = 0
    for name in names:
        missing = [side for side in (made, folder) if not (side / name).is_file()]
        found = subprocess.run(["cmp", made / name, folder / name], stdout=subprocess.PIPE, stderr=subprocess.STDOUT, text=True,
                               check=False)
        if missing:
            print("release: only %s has %s" % ("this build" if missing[0] == folder else folder, name), flush=True)
        elif found.returncode:
            print("release: " + found.stdout, end="", flush=True)
            print_differing_members(made / name, folder / name)
        differing += found.returncode != 0
    return differing


def print_other_tools(made, folder):
    """Prints which tools that PROVED.txt lists, the kit included, have other versions in two releases; returns whether one has."""
    here, there = ({*stated(side, "kit"), *stated(side, "tool")} for side in (made, folder))
    for title, lines in (("this build", here - there), (folder, there - here)):
        for line in sorted(lines):
            print("release: another tool, of %s: %s" % (title, line), flush=True)
    return here != there


def compare(made, folder):
    """Prints which files of two folders differ, and returns the status: 3 if some do, but tools have other versions too. Then
    PROVED.txt, which lists them, and its sum aren't compared."""
    names, other_tools = sorted({file.name for side in (made, folder) for file in side.iterdir()}), print_other_tools(made, folder)
    if other_tools:
        names = [name for name in names if name not in (PROVED, SUMS)]
    differing = count_differing(made, folder, names)
    tools = ", made by other tools" if other_tools else ""
    print("release: %d of %d files differ%s" % (differing, len(names), tools) if differing else
          "release: all %d files are equal%s" % (len(names), tools))
    return (OTHER_TOOLS if other_tools else DIFFERENT) if differing else EQUAL
