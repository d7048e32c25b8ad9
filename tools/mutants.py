#!/usr/bin/env python3
"""Tries the wrong edits of mutants/, which the gate leaves out: the prover has to refuse each.

    tools/mutants.py [CRATE..] [--sample N [--seed S]]    tries the edits of these crates, or of all
    tools/mutants.py --check                              checks in a second that each edit applies to its file

An edit is mutants/CRATE/NAME.edit, in the format of crates/CRATE/must-fail, whose edits the gate tries: a line `file: PATH`,
then pairs of lines `old: TEXT` and `new: TEXT`. Each old text occurs once in that file. --check reads both folders, since
the gate skips an edit that doesn't apply.

It tries the edits in a temporary copy of the crates with their folders out/: without the results of `rt check` there, all
dependencies are proved first. An edit takes 6 seconds to a minute, and the first edit of a crate one more check of the
crate. --sample chooses N edits at random, and the same ones for the same seed. The last line has the counts. The status is 1
if an edit isn't refused, doesn't apply, or couldn't be tried.
"""
import argparse
import os
import random
import re
import shutil
import subprocess
import sys
import tempfile
from collections import Counter
from pathlib import Path

TOP = Path(__file__).resolve().parent.parent
SOURCES = ["src", "specs", "proofs"]
RESULT = re.compile(r"must-fail (\w+)/([\w.-]+)\.edit: (refused|NOT REFUSED|BAD EDIT|NOT TRIED)")


def edits_in(pattern):
    """The edits of a folder, as pairs of a crate's name and a file."""
    return [(path.relative_to(TOP).parts[1], path) for path in sorted(TOP.glob(pattern))]


def texts(crate, edit):
    """The file, the old text and the new text of each pair of `old:` and `new:`, in order."""
    file, old = None, None
    for line in edit.read_text(encoding="utf-8").split("\n"):
        word, _, text = line.partition(": ")
        if word == "file":
            file = TOP / "crates" / crate / text.strip()
        elif word == "old":
            old = text
        elif word in ("new", "new:"):
            yield file, old, text


def fault(crate, edit):
    """Why an edit doesn't apply, or None."""
    edited_texts = {}
    for file, old, new in texts(crate, edit):
        if file is None or old is None or not file.is_file():
            return "it names no file of crates/%s" % crate
        text = edited_texts.get(file) or file.read_text(encoding="utf-8")
        if text.count(old) != 1:
            return "an old text occurs %d times in %s" % (text.count(old), file.relative_to(TOP))
        edited_texts[file] = text.replace(old, new)
    return None if edited_texts else "it has no pair of `old:` and `new:`"


def check():
    """Prints which edits don't apply, and returns whether there is one."""
    wrong = 0
    edits = edits_in("mutants/*/*") + edits_in("crates/*/must-fail/*")
    for crate, edit in edits:
        reason = fault(crate, edit)
        if reason:
            wrong += 1
            print("%s: %s" % (edit.relative_to(TOP), reason))
    print("%d edits, of which %d don't apply" % (len(edits), wrong))
    return wrong > 0


def link_or_copy(file, target):
    """Links to a file that the kit replaces and never writes into, and copies any other."""
    try:
        if file.endswith(".oantt") or "/rlib/" in file:
            return os.link(file, target)
    except OSError:
        pass
    return shutil.copy2(file, target)


def copy_repository(target):
    """Copies the crates, and the results of checks in their folders out/."""
    (target / ".git").mkdir()
    for name in ("crates.txt", "HANDLES"):
        shutil.copy(TOP / name, target)
    for folder in sorted((TOP / "crates").iterdir()):
        for part in [*SOURCES, "out/incremental", "out/rlib"]:
            if (folder / part).is_dir():
                shutil.copytree(folder / part, target / "crates" / folder.name / part, copy_function=link_or_copy)


def try_edits(edits):
    """Prints the line of `rt must-fail` about each edit, and returns the number of edits with each result."""
    results = {}
    with tempfile.TemporaryDirectory(prefix="linkcap-mutants-") as work:
        copy_repository(Path(work))
        for crate, edit in edits:
            folder = Path(work, "crates", crate, "must-fail")
            folder.mkdir(exist_ok=True)
            shutil.copy(edit, folder)
        crates = sorted({crate for crate, _ in edits})
        with subprocess.Popen(["rt", "must-fail", *crates], cwd=work, stdout=subprocess.PIPE, text=True) as process:
            for line in process.stdout:
                result = RESULT.search(line)
                if result:
                    results[result[1], result[2]] = result[3]
                    print(line.removeprefix("rt: "), end="", flush=True)
    return Counter(results.get((crate, edit.stem), "NOT TRIED") for crate, edit in edits)


def main():
    parser = argparse.ArgumentParser(description=__doc__, formatter_class=argparse.RawDescriptionHelpFormatter)
    parser.add_argument("crates", nargs="*", metavar="CRATE")
    parser.add_argument("--sample", type=int, metavar="N")
    parser.add_argument("--seed", type=int, default=random.randrange(10**6), metavar="S")
    parser.add_argument("--check", action="store_true")
    args = parser.parse_args()
    if args.check:
        return check()
    edits = edits_in("mutants/*/*.edit")
    unknown = set(args.crates) - {crate for crate, _ in edits}
    if unknown:
        parser.error("no edits in mutants/ for %s" % ", ".join(sorted(unknown)))
    edits = [(crate, edit) for crate, edit in edits if not args.crates or crate in args.crates]
    if args.sample is not None:
        edits = random.Random(args.seed).sample(edits, min(args.sample, len(edits)))
        print("a sample of %d edits, seed %d" % (len(edits), args.seed))
    counts = try_edits(edits)
    print("%d edits: %d refused, %d not refused, %d bad, %d not tried"
          % (len(edits), *(counts[result] for result in ("refused", "NOT REFUSED", "BAD EDIT", "NOT TRIED"))))
    return counts["refused"] != len(edits)


if __name__ == "__main__":
    sys.exit(main())
