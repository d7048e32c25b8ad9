#!/usr/bin/env python3
"""Prints counts of crates, lines, functions and contracts, from the source files.

    tools/figures.py

- crates in crates.txt, and how many of them are tests and vectors
- depths: the number of crates in the longest chain of dependencies in this repository that ends in a crate, which counts too
- lines of src (.rt), specs and proofs (.antt): all of them, and after a slash those that are neither blank nor only a comment
- functions, which include members of traits and functions of macros; those of tests (crates whose names end in `_tests`,
  files whose names end in `tests`, functions under `#[test]`); those with a contract: a `requires`, `ensures` or `ensures*`
  between signature and body
- lines of contract, in all, and the mean over the functions with a contract: as each clause without comments is laid out in
  100 columns, indented by 4 more than `fn`, from its second line on by 8; and as the clauses are written
- crates whose mean is over 8
- functions outside tests with over 40 lines between the body's braces, without comments and blank lines
- crates over 100 functions or 1,500 lines of src (all lines)
- must-fail edits

A table at the end has these by crate. It needs only Python.
"""
import re
import textwrap
from collections import namedtuple

from layers import TOP, crates, depths

DEPTHS = ["linkcap", "linkshow", "link_message", "link_capture"]
WIDTH, MOST_LINES, MOST_FUNCTIONS, MOST_SOURCE, MOST_CONTRACT = 100, 40, 100, 1500, 8
# Comments, strings and characters, which may contain brackets
IN_SOURCE = re.compile(r"""//[^\n]*|/\*.*?\*/|"(?:\\.|[^"\\])*"|'(?:\\[^']+|[^'\\\n])'""", re.S)
IN_GRAMMAR = re.compile(r"(?<!\S)--(?!\S)[^\n]*|\{-.*?-\}", re.S)
FUNCTION = re.compile(r"\bfn\s+(\$?\w+)")
PART = re.compile(r"[(\[{;]|\b(?:requires|ensures)\b")
BRACKET = re.compile(r"[(\[{]|[)\]}]")
TEST = re.compile(r"#\[test\]\s*(?:#\[[^\]]*\]\s*)*(?:pub(?:\([^)]*\))?\s+)?$")

Function = namedtuple("Function", "name path lines contract_lines written_lines is_test")


def blank(match):
    """Spaces for a match of IN_SOURCE or IN_GRAMMAR, of equal length and with the same line ends. Quotes stay, so that a
    line that has only a string isn't blank."""
    text = match.group()
    return re.sub(r"[^\n\"']" if text[0] in "\"'" else r"[^\n]", " ", text)


def code_of(path):
    pattern = IN_SOURCE if path.suffix == ".rt" else IN_GRAMMAR
    return pattern.sub(blank, path.read_text(encoding="utf-8"))


def count_lines(text):
    """The number of lines that aren't blank."""
    return sum(1 for line in text.split("\n") if line.strip())


def end_of_bracket(text, start):
    """The index after the bracket that closes the one at an index."""
    depth = 0
    for bracket in BRACKET.finditer(text, start):
        depth += 1 if bracket.group() in "([{" else -1
        if depth == 0:
            return bracket.end()
    raise ValueError("no closing bracket")


def parts_of(code, start):
    """The spans of the clauses after a function's name, the start of its body, and the end of the function."""
    clauses, at = [], start
    while True:
        part = PART.search(code, at)
        if part.group() == ";":
            return clauses, part.end(), part.end()
        if part.group() == "{":
            return clauses, part.start(), end_of_bracket(code, part.start())
        opening = part.start() if part.group() in "([" else code.index("{", part.end())
        at = end_of_bracket(code, opening)
        if opening != part.start():
            clauses.append((part.start(), at))


def layout_lines(clause, indent):
    """The number of lines of a clause that is laid out anew, under a function with an indentation."""
    first, others = " " * (indent + 4), " " * (indent + 8)
    return len(textwrap.wrap(" ".join(clause.split()), WIDTH, initial_indent=first, subsequent_indent=others, break_long_words=False))


def functions_of(path):
    code = code_of(path)
    in_tests = path.stem.endswith("tests") or any(part.endswith("_tests") for part in path.parts)
    for match in FUNCTION.finditer(code):
        clauses, body, end = parts_of(code, match.end())
        before = code[code.rfind("\n", 0, match.start()) + 1:match.start()]
        indent = len(before) - len(before.lstrip())
        contract_lines = sum(layout_lines(code[first:last], indent) for first, last in clauses)
        written_lines = sum(count_lines(code[first:last]) for first, last in clauses)
        is_test = in_tests or bool(TEST.search(code[:match.start()]))
        name, lines = match.group(1), count_lines(code[body + 1:end - 1])
        yield Function(name, path.relative_to(TOP / "crates"), lines, contract_lines, written_lines, is_test)


class Crate:
    """The counts of one crate."""

    def __init__(self, name):
        self.name, folder = name, TOP / "crates" / name
        sources = sorted((folder / "src").rglob("*.rt"))
        files = [sources, *(sorted((folder / part).rglob("*.antt")) for part in ("specs", "proofs"))]
        self.lines = [sum(len(path.read_text(encoding="utf-8").splitlines()) for path in paths) for paths in files]
        self.code_lines = [sum(count_lines(code_of(path)) for path in paths) for paths in files]
        self.functions = [function for path in sources for function in functions_of(path)]
        self.edits = len(list((folder / "must-fail").glob("*.edit")))

    def contracts(self):
        return [function.contract_lines for function in self.functions if function.contract_lines]

    def mean(self):
        return mean(self.contracts())


def mean(numbers):
    return sum(numbers) / len(numbers) if numbers else 0.0


def print_list(title, lines):
    lines = list(lines)
    print("%s: %d%s" % (title, len(lines), "".join("\n    " + line for line in lines)))


def print_table(all_crates):
    print("\n%-32s %14s %14s %14s %9s %9s %9s %6s" % ("crate", "src", "specs", "proofs", "functions", "contracts", "of lines", "edits"))
    for crate in all_crates:
        sizes = ["%d/%d" % pair for pair in zip(crate.lines, crate.code_lines)]
        contracts = crate.contracts()
        print("%-32s %14s %14s %14s %9d %9d %9.2f %6d" % (crate.name, *sizes, len(crate.functions), len(contracts), crate.mean(), crate.edits))


def main():
    dependencies = crates()
    all_crates, depth = [Crate(name) for name in dependencies], depths(dependencies)
    functions = [function for crate in all_crates for function in crate.functions]
    contracts = [lines for crate in all_crates for lines in crate.contracts()]
    written_mean = mean([function.written_lines for function in functions if function.contract_lines])
    of_tests, of_vectors = (sum(bool(re.search(end, name)) for name in dependencies) for end in ("_tests$", "(^|_)vectors$"))
    print("crates: %d, of tests %d, of vectors %d" % (len(all_crates), of_tests, of_vectors))
    print("depths: " + ", ".join("%s %d" % (name, depth[name]) for name in DEPTHS))
    for index, part in enumerate(("src", "specs", "proofs")):
        sizes = [sum(crate.lines[index] for crate in all_crates), sum(crate.code_lines[index] for crate in all_crates)]
        print("lines of %s: %d/%d" % (part, *sizes))
    print("functions: %d, of tests %d" % (len(functions), sum(function.is_test for function in functions)))
    print("functions with a contract: %d" % len(contracts))
    print("lines of contract: %d, mean %.2f; as they are written %.2f" % (sum(contracts), mean(contracts), written_mean))
    verbose = [crate for crate in all_crates if crate.mean() > MOST_CONTRACT]
    print_list("crates over %d lines of contract" % MOST_CONTRACT, ("%s %.2f" % (crate.name, crate.mean()) for crate in verbose))
    long = [function for function in functions if function.lines > MOST_LINES and not function.is_test]
    print_list("functions over %d lines outside tests" % MOST_LINES, ("%s in %s, %d" % (each.name, each.path, each.lines) for each in long))
    large = [crate for crate in all_crates if len(crate.functions) > MOST_FUNCTIONS or crate.lines[0] > MOST_SOURCE]
    print_list("crates over %d functions or %d lines of src" % (MOST_FUNCTIONS, MOST_SOURCE),
               ("%s, %d functions, %d lines" % (crate.name, len(crate.functions), crate.lines[0]) for crate in large))
    print("must-fail edits: %d" % sum(crate.edits for crate in all_crates))
    print_table(all_crates)


if __name__ == "__main__":
    main()
