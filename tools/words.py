#!/usr/bin/env python3
"""Lists lines of prose that use words which this repository has stopped using, with what to write instead.

    tools/words.py [--count] [PATH..]      at the top of the repository; all tracked files if no path is given

It reads Markdown outside code fences, comments of .rt, .antt, .py, .sh, .c, .h and .rs files, and docstrings of Python files,
which include scripts without a suffix whose first line names python3. It skips text between backticks and names of options. A
comment `words: ok` exempts its line, for a word that programs print. The exit status is 1 if anything is listed. `--count`
prints the number of lines only.
"""
import argparse
import ast
import os
import re
import subprocess
import sys

BANNED = [
    (r"\bwants? of memory\b|\bmemory\b[^.]{0,20}\bwant(ing|ed)\b|\bwant(s|ed|ing)? (no |more )?memory\b|\bmemory aside\b", "out of memory; an allocation fails"),
    (r"\b(tells?|telling|told|untold)\b", "returns, reports, says, shows, determines, identifies, names"),
    (r"\b(exactly|only) where\b", "if and only if; exactly when; only if"),
    (r"\bbehind\b", "after, following, past, trailing, beyond"),
    (r"\bin front\b", "at the start, before, leading, first"),
    (r"\b(stands?|standing|stood)\b(?! for\b)", "is, occurs, appears, lives, remains, holds"),
    (r"\bplaces?\b(?! of)|\bits place\b", "offset; position; location"),
    (r"\btruths?\b", "boolean"),
    (r"\bown (canonical )?texts?\b", "already canonical; canonical"),
    (r"\bso many\b", "n bytes (name the parameter)"),
    (r"\b(lowest|highest)( byte)? first\b", "little-endian, big-endian"),
    (r"\banswer(s|ed|ing)?\b", "returns, result; expected output (of a vector)"),
    (r"\b(hold|held|holds) against\b", "compare with"),
    (r"\b(wrong|other) words\b", "usage error; invalid arguments"),
    (r"\bhangs? on\b", "depends on"),
    (r"\bspelling|\bspelled\b", "encoding; encoding quirk"),
    (r"\b(goes|go|going) by\b", "is determined by, follows, depends on"),
    (r"\bhand(s|ed)? (on|over|in|out|back)\b", "passes, returns, gives"),
    (r"\bgive(s)? back\b|\bgiven back\b", "returns"),
    (r"\bturned round\b", "reversed, swapped"),
    (r"\bread otherwise\b|\breads otherwise\b", "reads back as a different message"),
    (r"\bwhat (of a|of the) \w+ is refused\b", "why a body was rejected"),
    (r"\bsay(s)? the same\b", "be equal; be equivalent"),
    (r"\blacks? room\b|\broom\b", "capacity, space"),
    (r"\bforeign (entr|attr)", "unexpected entries (kinds other than 1)"),
]
BANNED = [(re.compile(p, re.I), w) for p, w in BANNED]
COMMENT = {".rt": r"^\s*//[/!]?(.*)|.*?\s//\s(.*)", ".rs": r"^\s*//[/!]?(.*)", ".antt": r"^\s*--(.*)", ".py": r"^\s*#(.*)", ".sh": r"^\s*#(.*)",
           ".c": r"^\s*(?:/\*+|\*|//)(.*)", ".h": r"^\s*(?:/\*+|\*|//)(.*)"}
NOT_PROSE = re.compile(r"`[^`]*`|(?<!\S)\[?--[a-z][a-z-]*")
HAS_DOCSTRING = (ast.Module, ast.ClassDef, ast.FunctionDef, ast.AsyncFunctionDef)


def is_python(path, text):
    return path.endswith(".py") or re.match(r"#!.*\bpython3\b", text) is not None


def docstring_lines(path, text):
    """The numbers of the lines that are in docstrings: those of the module, its classes and its functions."""
    numbers = set()
    for node in ast.walk(ast.parse(text, path)):
        if isinstance(node, HAS_DOCSTRING) and ast.get_docstring(node, clean=False) is not None:
            numbers.update(range(node.body[0].lineno, node.body[0].end_lineno + 1))
    return numbers


def prose(path, text):
    """Yields the number and the prose of each line that has some: Markdown, a comment, or a line of a docstring."""
    end = path[path.rfind("."):] if "." in path.rsplit("/", 1)[-1] else ".sh"
    in_docstrings = docstring_lines(path, text) if is_python(path, text) else set()
    in_fence = False
    for number, line in enumerate(text.split("\n"), 1):
        if end == ".md":
            if line.lstrip().startswith(("```", "~~~")):
                in_fence = not in_fence
                continue
            if not in_fence:
                yield number, NOT_PROSE.sub("", line)
        elif number in in_docstrings:
            yield number, NOT_PROSE.sub("", line)
        elif end in COMMENT:
            comment = re.match(COMMENT[end], line)
            if comment:
                yield number, NOT_PROSE.sub("", next((g for g in comment.groups() if g), ""))


def main():
    parser = argparse.ArgumentParser(description=__doc__, formatter_class=argparse.RawDescriptionHelpFormatter)
    parser.add_argument("--count", action="store_true")
    parser.add_argument("paths", nargs="*", metavar="PATH")
    options = parser.parse_args()
    files = subprocess.run(["git", "ls-files", "--", *options.paths], stdout=subprocess.PIPE, text=True, check=True).stdout.split("\n")
    counts, lines = {}, 0
    for path in files:
        if not path or path.startswith((".ci/", "crates/vectors/std")) or path.endswith((".bin", ".lines", ".tsv", ".patch", ".edit", ".txt", "LICENSE")):
            continue
        try:
            text = open(path, encoding="utf-8").read()
        except (UnicodeDecodeError, IsADirectoryError):
            continue
        for number, line in prose(path, text):
            if "words: ok" in line:
                continue
            hits = [(m.group(0), instead) for p, instead in BANNED for m in p.finditer(line)]
            if hits:
                lines += 1
                end = os.path.splitext(path)[1] or "without a suffix"
                counts[end] = counts.get(end, 0) + 1
                if not options.count:
                    print("%s:%d: %s" % (path, number, "; ".join("'%s' -> %s" % h for h in hits)))
    print("%d lines%s" % (lines, "" if not counts else ": " + ", ".join("%s %d" % c for c in sorted(counts.items()))))
    return 1 if lines else 0


if __name__ == "__main__":
    sys.exit(main())
