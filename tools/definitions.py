"""The definitions in specs/ and the imports of a file, for other scripts of tools/. It needs only Python.

A definition is a signature with its equations (`abbrev`, `unfoldable` or neither), a record with its fields, or a data type
with its constructors, and extends to the next one. An operator, as `◌↪◌`, is a definition like any other.
"""
import functools
import re
from collections import namedtuple

from figures import code_of
from layers import TOP

CRATES = TOP / "crates"
DEFINITION = re.compile(r"( *)(?:(?:abbrev|unfoldable|pub) )*(?:(record|data) ([^\s:]+)|([^\s:]+)(?: \{.*?\})? :(?!\S))")
# A line whose definitions are indented
GROUP = re.compile(r"(?:abbrev )?mutual\b|module ")
NO_DEFINITION = re.compile(r"(?:pub )?use |pub mod |infix")
CONSTRUCTORS = re.compile(r"^ +((?:[^\s:]+ )+): ", re.M)
IMPORT = re.compile(r"^[ \t]*(?:pub |ghost )*use Rattle\.(\w+)\.specs((?:\.\w+)*)(?:\.\{([^}]*)\})?(?: as (\w+))?;?$", re.M)

Definition = namedtuple("Definition", "name path line form text")


def definitions_of(path):
    """The definitions of a file in order, their texts without comments."""
    found, margin = [], ""
    for number, line in enumerate(code_of(path).split("\n"), 1):
        if line.strip() and line[0] != " ":
            margin = "  " if GROUP.match(line) else ""
            if margin or NO_DEFINITION.match(line):
                continue
        begins = DEFINITION.match(line)
        if begins and begins.group(1) == margin:
            found.append((begins.group(3) or begins.group(4), path, number, begins.group(2), []))
        if found:
            found[-1][-1].append(line[len(margin):].rstrip())
    return [Definition(*parts, "\n".join(text)) for *parts, text in found]


def constructors_of(definition):
    """The names of the constructors of a data type; none of another definition."""
    names = CONSTRUCTORS.findall(definition.text) if definition.form == "data" else []
    return [name for group in names for name in group.split()]


def imports_of(path):
    """(crate, modules, imported name, name in the file) of each import. The imported name is None if it is a module, all of
    whose definitions are then named after the name in the file."""
    for crate, modules, names, alias in IMPORT.findall(path.read_text(encoding="utf-8")):
        modules = tuple(modules.split(".")[1:])
        if not names:
            yield crate, modules, None, alias or modules[-1]
        for name in filter(None, re.split(r",\s*", names.strip())):
            name, _, other = name.partition(" as ")
            yield crate, modules, name.rpartition(".")[2], other or name.rpartition(".")[2]


@functools.lru_cache(maxsize=None)
def file_of(crate, modules):
    """The file of a module, which may be another crate's, re-exported; None if it is the kit's, or made of code."""
    path = CRATES / crate / "specs" / ("/".join(modules) + ".antt")
    library = CRATES / crate / "specs" / "Lib.antt"
    if path.is_file() or not library.is_file():
        return path if path.is_file() else None
    exports = (each for each in imports_of(library) if each[2] is None and (each[3],) == modules)
    return next((file_of(other, others) for other, others, _, _ in exports), None)
