#!/usr/bin/env python3
"""Checks the pages: their links and marks, and the blocks that quote a file.

    tools/pages.py                 checks, in a second
    tools/pages.py --run           also runs the commands of pages and manuals, with the programs that `rt ci` built
        --programs FOLDER          with the programs of a folder
        --prefix PREFIX            with what ./install PREFIX installed, the library too
    tools/pages.py --words         prints the number of words of each page
    tools/pages.py --lines         first rewrites the line of each link to a definition

A link to a definition is written [`first_fault`](../crates/link_capture_grammar/specs/Captures.antt#L70): line 70 of that
file has to have the name as a whole word, in which a path such as `CaptureReader::feed` counts by its last part. `--lines`
replaces the number by that of the line on which the file defines the name: in .antt by a signature, or by `record`, `data`,
`abbrev` or `unfoldable`; in .rt by `fn`, `struct`, `enum` or `trait`. It leaves a name that the file doesn't define, and the
check reports it.

A mark is a comment on a line by itself above a block. Blocks of `sh` are commands, which page_commands.py runs in the
environment that it describes. Marks of commands are

    <!-- wants root and strace -->                 they are run only if the machine has these
    <!-- continues -->                             they are run only if the commands before them were
    <!-- status 2 -->                              they have to end with that status
    <!-- given made.bin = samples/req-veth.bin -->  they get a copy of the file under that name first

A reader doesn't see marks. So the text between the previous block or heading and the block has to name each requirement of
`wants`, which page_commands.py lists, and each file of `given`.

A block without a language is checked if it has one of these marks:

    <!-- output -->                                the output of the commands before it
    <!-- file: samples/get-veth.lines -->          text of that file
    <!-- written by tools/layers.py -->            text that this script writes, and checks itself

Blocks of another language have one of these marks: `file: PATH`; `run by PATH`, a script that runs it; or `sketch`. One with
`saved as NAME` too is a file of that name for the commands that follow, and the text above it has to say so. Text of a
file consists of pieces with empty lines between. Each piece has to be in the file, in order, with any indentation of the whole
piece; of lines `use` only the names have to be imported there. manual_examples.py reads the examples of manuals, which have the
same marks. The status is 1 if something is wrong.
"""
import argparse
import os
import re
import sys
import textwrap
from glob import glob
from pathlib import Path

from blocks import MARKS, Block, check_visible
from definitions import definitions_of
from layers import TOP
from manual_examples import ManualExamples
from page_commands import check_requirements, run_all

PAGES = ["README.md", "CHANGELOG.md", "CONTRIBUTING.md", "docs/**/*.md", "samples/*.md", "bench/**/*.md", "bindings/**/*.md", "tools/**/*.md"]
MANUALS = ["man/*.[1-9]"]
MARK = re.compile(r"\s*<!--\s*(.*?)\s*-->\s*")
FENCE = re.compile(r"(\s*)(```+)\s*([\w+-]*)\s*")
LINK = re.compile(r"\[[^\]]*\]\(([^)\s]+)\)")
DEFINITION_LINK = re.compile(r"(\[`([^`]+)`\]\(([^)#\s]+)#L)(\d+)\)")
PATH = re.compile(r"(?:crates|docs|samples|scripts|bench|bindings|tools|man)/[\w./-]+")
NOT_A_PATH = re.compile(r"\.\.|/out/|NAME|CRATE")


class Page:
    """A page: its text, its blocks, the lines outside of them, and faults of its marks and fences."""

    def __init__(self, name, source=None):
        self.name = name
        self.source = (TOP / name).read_text(encoding="utf-8") if source is None else source
        self.blocks, self.prose, self.faults = [], [], []
        self.read()

    def fault(self, line, message):
        self.faults.append("%s:%d: %s" % (self.name, line, message))

    def read(self):
        block, fence, indent, marks = None, "", 0, []
        for number, line in enumerate(self.source.split("\n"), 1):
            opening = FENCE.fullmatch(line)
            if block is not None:
                if opening and opening.group(2).startswith(fence) and not opening.group(3):
                    self.blocks.append(block)
                    block = None
                else:
                    block.lines.append(line[indent:] if not line[:indent].strip() else line)
                continue
            if opening:
                indent, fence = len(opening.group(1)), opening.group(2)
                block, marks = Block(number, opening.group(3), marks), []
                continue
            mark = MARK.fullmatch(line)
            if mark:
                marks.append(mark.group(1))
                if not MARKS.fullmatch(mark.group(1)):
                    self.fault(number, "no such mark: %s" % mark.group(1))
            elif line.strip():
                if marks:
                    self.fault(number, "a mark without a block: %s" % marks[0])
                marks = []
            self.prose.append((number, "" if mark else line))
        if block is not None:
            self.fault(block.line, "a block without an end")

    def words(self):
        return len(re.sub(r"<!--.*?-->", "", self.source, flags=re.S).split())

    def anchors(self):
        """The anchors that GitHub gives the headings."""
        last_numbers = {}
        for _, line in self.prose:
            heading = re.match(r"#{1,6}\s+(.*?)\s*#*$", line)
            if heading:
                text = re.sub(r"\[([^\]]*)\]\([^)]*\)", r"\1", heading.group(1))
                name = re.sub(r"[^\w\- ]", "", text.lower()).replace(" ", "-")
                last_numbers[name] = last_numbers.get(name, -1) + 1
        return {name if n == 0 else "%s-%d" % (name, n) for name, last in last_numbers.items() for n in range(last + 1)}


# --------------------------------------------------------------------------
# Links, paths, marks

def check_links(page, by_name):
    """The links that lead to no file, or to no heading of it."""
    for number, line in page.prose:
        for target in LINK.findall(re.sub(r"(`+).*?\1", "", line)):
            if re.match(r"[a-z]+:", target):
                continue
            path, _, anchor = target.partition("#")
            name = os.path.normpath(os.path.join(os.path.dirname(page.name), path)) if path else page.name
            if not (TOP / name).exists():
                yield "%s:%d: no file %s" % (page.name, number, target)
            elif anchor and name in by_name and anchor not in by_name[name].anchors():
                yield "%s:%d: no heading %s" % (page.name, number, target)


def whole(name):
    """The pattern of a name that is no part of a longer one."""
    return r"(?<![\w'-])%s(?![\w'-])" % re.escape(name)


def defining_line(name, path):
    """The number of the line on which a file defines a name, one at its margin first; None if there is no definition."""
    if path.suffix == ".antt":
        return next((each.line for each in definitions_of(path) if each.name == name), None)
    begins = r"(?:[\w()]+ )*(?:fn|struct|enum|trait) %s" % whole(name)
    lines = path.read_text(encoding="utf-8").split("\n")
    for margin in ("", r"\s+"):
        for number, line in enumerate(lines, 1):
            if re.match(margin + begins, line):
                return number
    return None


def target_of(page, link):
    """The name and the file of a link to a definition."""
    return link.group(2).rpartition("::")[2], TOP / os.path.normpath(os.path.join(os.path.dirname(page.name), link.group(3)))


def check_definitions(page):
    """A link to a definition has the line of a file on which the name is."""
    for number, line in page.prose:
        for link in DEFINITION_LINK.finditer(line):
            name, path = target_of(page, link)
            if not path.is_file():
                continue  # check_links reports it
            lines = path.read_text(encoding="utf-8").split("\n")
            stated = int(link.group(4))
            if not 0 < stated <= len(lines) or not re.search(whole(name), lines[stated - 1]):
                defined = defining_line(name, path)
                where = "defines it on line %d" % defined if defined else "doesn't define it"
                yield "%s:%d: no `%s` on line %d of %s, which %s" % (page.name, number, name, stated, link.group(3), where)


def renumber(page):
    """Writes the page with the lines on which its links' names are defined; returns whether one has changed."""
    def renew(link):
        name, path = target_of(page, link)
        defined = defining_line(name, path) if path.is_file() else None
        return "%s%d)" % (link.group(1), defined or int(link.group(4)))

    lines = page.source.split("\n")
    for number, _ in page.prose:
        lines[number - 1] = DEFINITION_LINK.sub(renew, lines[number - 1])
    if lines == page.source.split("\n"):
        return False
    (TOP / page.name).write_text("\n".join(lines), encoding="utf-8")
    return True


def check_paths(page):
    """The paths in backticks, from the top of the repository, under which there is no file."""
    for number, line in page.prose:
        for _, span in re.findall(r"(`+)(.*?)\1", line):
            word = span.split()[0] if span.split() else ""
            if PATH.fullmatch(word) and not NOT_A_PATH.search(word) and not (TOP / word).exists():
                yield "%s:%d: no file %s" % (page.name, number, word)


def check_indented(page):
    """The blocks that are indented and not fenced, whose commands this script wouldn't see."""
    in_list, blank = False, True
    for number, line in page.prose:
        if not line.strip():
            blank = True
            continue
        if re.match(r" {0,3}([-*+]|\d+[.)])\s", line):
            in_list = True
        elif not line.startswith(" "):
            in_list = False
        if blank and not in_list and re.match(r" {4}|\t", line):
            yield "%s:%d: an indented block; write it fenced" % (page.name, number)
        blank = False


def check_marks(page):
    """The blocks whose marks don't fit: each language other than sh needs one that says how the text is checked."""
    after_commands = False
    for block in page.blocks:
        where = "%s:%d" % (page.name, block.line)
        kinds = {word for word in ("file", "run", "sketch", "output") if block.mark(word) is not None}
        for_commands = {word for word in ("wants", "continues", "status", "given") if block.mark(word) is not None}
        if block.language not in ("", "sh") and not kinds & {"file", "run", "sketch"}:
            yield "%s: a block of %s without a mark: file, run by or sketch" % (where, block.language)
        if for_commands and block.language != "sh":
            yield "%s: the mark %s is for commands" % (where, for_commands.pop())
        if "output" in kinds and not after_commands:
            yield "%s: output of no commands" % where
        script = block.mark("run") or block.mark("written")
        if script is not None and not (TOP / script.split()[-1]).exists():
            yield "%s: no file %s" % (where, script.split()[-1])
        after_commands = block.language == "sh"


# --------------------------------------------------------------------------
# Blocks that are a file's text

def imports(text):
    """The paths that lines `use ..;` import, each with whether it is a ghost import."""
    paths = set()
    for ghost, tree in re.findall(r"^\s*(?:pub )?(ghost )?use ([^;]*);", text, flags=re.M):
        paths |= {(bool(ghost), path) for path in expand(re.sub(r"\s+", "", tree))}
    return paths


def expand(tree):
    """Each path of `a::{b, c::{d, e}}`, or of a tree with dots."""
    opening = tree.find("{")
    if opening < 0:
        return [tree]
    parts, depth, part = [], 0, ""
    for letter in tree[opening + 1:tree.rindex("}")]:
        depth += {"{": 1, "}": -1}.get(letter, 0)
        if letter == "," and depth == 0:
            parts.append(part)
            part = ""
        else:
            part += letter
    parts.append(part)
    return [tree[:opening] + path for part in parts if part for path in expand(part)]


def pieces_of(text):
    """The pieces between empty lines, each with whether it is lines of `use`, which are a separate piece."""
    for piece in re.split(r"\n(?:[ \t]*\n)+", text.strip("\n")):
        uses = re.match(r"(?:(?:pub )?(?:ghost )?use [^;]*;\n?)+", piece)
        if uses:
            yield uses.group(), True
            piece = piece[uses.end():]
        if piece.strip():
            yield piece.rstrip(), False


def first_missing(text, file_text):
    """The first line of the first piece that isn't in the file; None if all pieces are there in order."""
    lines, position = file_text.split("\n"), 0
    file_imports = imports(file_text)
    for piece, is_use in pieces_of(text):
        if is_use:
            missing = imports(piece) - file_imports
            if missing:
                return "use " + sorted(missing)[0][1]
            continue
        piece_lines = textwrap.dedent(piece).split("\n")
        size = len(piece_lines)
        for start in range(position, len(lines) - size + 1):
            if lines[start].strip() == piece_lines[0].strip() \
                    and textwrap.dedent("\n".join(lines[start:start + size])).split("\n") == piece_lines:
                position = start + size
                break
        else:
            return piece_lines[0]
    return None


def check_snippets(page):
    for block in page.blocks:
        name = block.mark("file")
        if name is None:
            continue
        where = "%s:%d" % (page.name, block.line)
        if not (TOP / name).is_file():
            yield "%s: no file %s" % (where, name)
            continue
        missing = first_missing(block.text(), (TOP / name).read_text(encoding="utf-8"))
        if missing is not None:
            yield "%s: not the text of %s, or not in its order: %s" % (where, name, missing.strip())


def names_of(pattern):
    return {os.path.relpath(path, TOP) for path in glob(str(TOP / pattern), recursive=True)}


def read_arguments():
    parser = argparse.ArgumentParser(description=__doc__, formatter_class=argparse.RawDescriptionHelpFormatter)
    parser.add_argument("--run", action="store_true", help="also run the commands")
    parser.add_argument("--programs", metavar="FOLDER", type=Path, help="run them with the programs of this folder")
    parser.add_argument("--prefix", metavar="PREFIX", type=Path, help="run them with what is installed under PREFIX")
    parser.add_argument("--words", action="store_true", help="print the number of words of each page")
    parser.add_argument("--lines", action="store_true", help="rewrite the lines of links to definitions")
    parser.add_argument("page", nargs="*", help="check only these pages or manuals, by their paths from the top")
    return parser.parse_args()


def check_commands(page):
    """The faults of the marks of commands."""
    return [*page.faults, *check_visible(page), *check_requirements(page)]


def check_page(page, by_name):
    """The faults of a page, without running its commands."""
    return [*check_commands(page), *check_links(page, by_name), *check_definitions(page), *check_paths(page), *check_indented(page),
            *check_marks(page), *check_snippets(page)]


def main():
    args = read_arguments()
    by_name = {name: Page(name) for pattern in PAGES for name in sorted(names_of(pattern))}
    manuals = {name: ManualExamples(name) for pattern in MANUALS for name in sorted(names_of(pattern))}
    selection = [os.path.normpath(name) for name in args.page] or [*by_name, *manuals]
    faults = []
    for name in selection:
        if name in manuals:
            faults += check_commands(manuals[name])
            continue
        if args.lines and renumber(by_name[name]):
            by_name[name] = Page(name)
        if args.words:
            print("%6d %s" % (by_name[name].words(), name))
        faults += check_page(by_name[name], by_name)
    if args.run:
        selected = [manuals.get(name) or by_name[name] for name in selection]
        faults += run_all(selected, args.programs, args.prefix and args.prefix.resolve())
    for fault in faults:
        print("pages: " + fault)
    print("pages: %d pages, %d faults" % (len(selection), len(faults)))
    return 1 if faults else 0


if __name__ == "__main__":
    sys.exit(main())
