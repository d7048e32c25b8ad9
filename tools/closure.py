#!/usr/bin/env python3
"""Lists the definitions that the contracts of public calls rest on, and counts them.

    tools/closure.py CRATE::CALL..    lists the definitions of these calls; CALL may have its type before it, as Frame::new
    tools/closure.py                  writes the counts of the headline's calls into docs/reading-the-proofs.md
    tools/closure.py --check          ends with status 1 if the page has other counts

A contract rests on the definitions in specs/ that its clauses name, on those that these name, and so on, in all crates. Each
name is that of the file's imports or of its definitions; variables, fields and names of clauses aren't names of definitions.

- A definition is a signature with its equations, a record or a data type: each counts once, as does each alias (`X = Y z`) and
  each operator (`◌↪◌`). Constructors and fields are part of their type. A module that a crate re-exports is that crate's which
  defines it.
- A table has rows or names as data. By its type it is one if that ends in `Table`, `Names` or `Payload`, or is a list, as
  `List ℕ`, without arguments; operators are none.
- Lines are those of the signature, the equations, fields and constructors, without blank lines and comments.
- Not counted: the kit's definitions, types and constants of the code, the ghost functions of its traits, and the models and
  invariants of its types.

It needs only Python.
"""
import functools
import re
import sys

from definitions import CRATES, constructors_of, definitions_of, file_of, imports_of
from figures import FUNCTION, code_of, count_lines, parts_of
from layers import TOP

PAGE = TOP / "docs" / "reading-the-proofs.md"
COUNTS = re.compile(r"(<!-- written by tools/closure\.py -->\n```\n).*?(\n```\n)", re.S)
HEADLINE = ("link_capture_reader::normalize_bytes", "link_capture_reader::CaptureReader::feed",
            "link_capture_reader::CaptureReader::finish", "link_capture_checks::same")
TABLE = re.compile(r"(?:.*→ *)?(?:Table|Names|Payload)|List [^→]*")
STRING = re.compile(r'"(?:\\.|[^"\\])*"')
FIELD = re.compile(r"(?<=[{;])\s*[\w']+ =|^ +pub [\w']+ :", re.M)
NAME = re.compile(r"\.?[\w']+(?:\.[\w']+)*|[^\s\w'()\[\]{};,.]+")
VARIABLES = re.compile(r"λ ([^.]+)\.|[({]((?:[\w']+ )+): ")
EQUATION = re.compile(r"(.*?) =\s", re.S)
OWNER = re.compile(r"^(?:pub )?(?:impl|trait)\b[^{]*", re.M)


class Scope:
    """The definitions that each name in a file may mean, by its own definitions and by its imports."""

    def __init__(self, path):
        self.path, self.own = path, {}
        for definition in definitions_of(path) if path.suffix == ".antt" else ():
            for name in (definition.name, *constructors_of(definition)):
                self.own[name.replace("◌", "")] = definition
        self.imports = {here.replace("◌", ""): (file_of(crate, modules), name) for crate, modules, name, here in imports_of(path)}

    def named(self, name):
        """The definition with a name in this file; None if there is none in specs/."""
        first, _, rest = name.partition(".")
        if first in self.own or first not in self.imports:
            return self.own.get(first)
        file, imported = self.imports[first]
        imported = (imported or rest.partition(".")[0]).replace("◌", "")
        if file is None or not imported:
            return None
        scope = scope_of(file)
        if imported not in scope.own and imported not in scope.imports:
            raise SystemExit("closure: %s names %s, which %s doesn't define" % (self.path, imported, file))
        return scope.named(imported)


@functools.lru_cache(maxsize=None)
def scope_of(path):
    return Scope(path)


def names_in(text, scope, variables=()):
    """The definitions that a clause, a signature or an equation names. The arguments on the left of an equation are variables,
    unless they are constructors."""
    text = FIELD.sub(" ", STRING.sub(" ", text))
    variables = {*variables, *(name for pair in VARIABLES.findall(text) for name in "".join(pair).split())}
    left = EQUATION.match(text)
    for name in NAME.findall(left.group(1)) if left else ():
        if getattr(scope.named(name), "form", None) != "data":
            variables.add(name)
    named = (scope.named(name) for name in NAME.findall(text) if name[0] != "." and name.partition(".")[0] not in variables)
    return set(filter(None, named))


def names_of(definition):
    """The definitions that one names; it may name itself."""
    scope = scope_of(definition.path)
    return {each for part in re.split(r"\n(?=\S)", definition.text) for each in names_in(part, scope)}


def clauses_of(call):
    """(text, scope, parameters) of each clause of a public call."""
    crate, _, name = call.partition("::")
    owner, _, name = name.rpartition("::")
    found = []
    for path in sorted((CRATES / crate / "src").rglob("*.rt")):
        code = code_of(path)
        for function in FUNCTION.finditer(code):
            line = code[code.rfind("\n", 0, function.start()) + 1:function.start()]
            owners = OWNER.findall(code, 0, function.start()) if line.startswith(" ") else []
            if function.group(1) == name and "pub" in line and owner in ("", *re.findall(r"\w+", "".join(owners[-1:]))):
                found.append((path, code, function.end()))
    if len(found) != 1:
        raise SystemExit("closure: %d public calls are %s" % (len(found), call))
    path, code, start = found[0]
    clauses, body, _ = parts_of(code, start)
    parameters = re.findall(r"(\w+):", code[start:clauses[0][0] if clauses else body])
    return [(code[first:last].partition("{")[2], scope_of(path), parameters) for first, last in clauses]


def closure_of(calls):
    """The definitions that the contracts of calls rest on, by file and line."""
    clauses = [clause for call in calls for clause in clauses_of(call)]
    found, left = set(), {each for clause in clauses for each in names_in(*clause)}
    while left:
        found |= left
        left = {each for definition in left for each in names_of(definition)} - found
    return sorted(found, key=lambda each: (each.path, each.line))


def is_table(definition):
    signature = re.split(r"\n(?=\S)", definition.text)[0]
    signature_type = " ".join(signature.partition(" : ")[2].split())
    return definition.form is None and "◌" not in definition.name and TABLE.fullmatch(signature_type) is not None


def counts(definitions):
    """The numbers of definitions and lines that aren't tables, of those that are, and of files."""
    parts = [[each for each in definitions if is_table(each) == table] for table in (False, True)]
    sizes = [size for part in parts for size in (len(part), sum(count_lines(each.text) for each in part))]
    return [*sizes, len({each.path for each in definitions})]


def counts_text(calls):
    rows = [["", "definitions", "of lines", "and tables", "of lines", "in files"]]
    rows += [[call.rpartition("::")[2], *map(str, counts(closure_of([call])))] for call in calls]
    rows += [["all", *map(str, counts(closure_of(calls)))]]
    width = max(len(row[0]) for row in rows)
    return "\n".join(row[0].ljust(width) + "".join("%13s" % cell for cell in row[1:]) for row in rows)


def write(is_check):
    """Writes the page, or compares it."""
    page = PAGE.read_text(encoding="utf-8")
    new_page, count = COUNTS.subn(lambda match: match.group(1) + counts_text(HEADLINE) + match.group(2), page)
    if count != 1:
        sys.exit("closure: %s hasn't one block for the counts" % PAGE)
    if is_check and new_page != page:
        sys.exit("closure: docs/reading-the-proofs.md has other counts; tools/closure.py writes them")
    PAGE.write_text(new_page, encoding="utf-8")


def main():
    calls = sys.argv[1:]
    if calls in ([], ["--check"]):
        write(is_check=bool(calls))
        return
    for each in closure_of(calls):
        kind = "table" if is_table(each) else "definition"
        print("%s:%d: %s, a %s of %d lines" % (each.path.relative_to(TOP), each.line, each.name, kind, count_lines(each.text)))
    print(counts_text(calls))


if __name__ == "__main__":
    main()
