#!/usr/bin/env python3
"""Compares what the packages for Python and Rust declare of the library with linkcap.h.

    tools/declarations.py [BINDINGS]

BINDINGS is the folder `bindings`, by default this repository's. Compared are

- of each function the name, the type of the result, and the order and types of the parameters, in Rust also their names;
- of each struct the names, the order and types of its fields;
- of each constant its value: in Rust those of ffi.rs, the variants of `Kind` and `QuirkKind`, and the numbers that are decoded to
  them; in Python those of _native.py and the members of `Kind` and `QuirkKind`.

A pointer of C is any pointer to the same type in Rust, and c_void_p in Python; a status is a number of 32 bits. What linkcap.h has and a package doesn't declare
has to be in UNUSED, so a new function isn't overlooked. Go repeats nothing: cgo reads linkcap.h. The status is 1 if something
differs.
"""
import ctypes
import importlib
import re
import sys
from pathlib import Path
from typing import NamedTuple
from unittest import mock

sys.dont_write_bytecode = True
from layers import TOP  # noqa: E402

RUST, PYTHON = "rust/src", "python"
#: what a package doesn't declare
UNUSED = {
    RUST: {"LINKCAP_FORMAT", "LINKCAP_WRONG", "LINKCAP_NO_MEMORY", "LINKCAP_MEMORY", "LINKCAP_READ", "LINKCAP_WRITE",
           "LINKCAP_TOO_LONG", "LINKCAP_FAILED"},
    PYTHON: {"LINKCAP_FORMAT"},
}
PREFIX = "LINKCAP_"
COMMENT = re.compile(r"/\*.*?\*/|//[^\n]*", re.DOTALL)
ENUM = re.compile(r"enum \w+ \{(.*?)\}", re.DOTALL)
PARAMETER = re.compile(r"(.*[ *])(\w+)(\[\w+\])?")
#: how linkcap.h declares a status
STATUS = "LINKCAP_STATUS"
RUST_TYPES = {"c_char": "char", "u8": "uint8_t", "u32": "uint32_t", "u64": "uint64_t", "usize": "size_t"}
RUST_POINTER = re.compile(r"(\*const |\*mut |&mut |&)(\w+)")
RUST_ARRAY = re.compile(r"\[(\w+); (\w+)\]")
C_ARRAY = re.compile(r"char\[(\w+)\]")
PYTHON_TYPES = {"uint32_t": ctypes.c_uint32, "uint64_t": ctypes.c_uint64, "size_t": ctypes.c_size_t}


class Declarations(NamedTuple):
    """Functions, each with the type of its result and then its parameters; structs with their fields; and the values of
    constants. A parameter and a field is a name and a type."""
    functions: dict
    structs: dict
    constants: dict

    def names(self):
        return {*self.functions, *self.structs, *self.constants}


# ---- C

def declared_in_c(text):
    """A name and a type, from a parameter or a field of C."""
    before, name, array = PARAMETER.fullmatch(" ".join(text.split())).groups(default="")
    return name, before.strip().replace(" *", "*") + array


def enumerated(body):
    """The values of the names between the braces of an enum of C or Rust, in which a name without a value follows the one
    before it."""
    values, following = {}, 0
    for item in filter(None, (part.strip() for part in body.split(","))):
        name, _, value = item.partition("=")
        values[name.strip()] = following = int(value) if value else following
        following += 1
    return values


def parameters_in_c(text):
    return [] if text.strip() == "void" else [declared_in_c(part) for part in text.split(",")]


def read_header(text):
    text = COMMENT.sub("", text).replace(STATUS + " linkcap", "uint32_t linkcap")
    functions = {name: [("", result), *parameters_in_c(parameters)]
                 for result, name, parameters in re.findall(r"^(\w+) (linkcap_\w+)\((.*?)\);", text, re.MULTILINE | re.DOTALL)}
    structs = {name: [declared_in_c(field) for field in body.split(";")[:-1]]
               for name, body in re.findall(r"^struct (\w+) \{(.*?)\};", text, re.MULTILINE | re.DOTALL)}
    constants = {name: int(value) for name, value in re.findall(r"#define (LINKCAP_\w+) (\d+)\n", text)}
    for body in ENUM.findall(text):
        constants.update(enumerated(body))
    return Declarations(functions, structs, constants)


# ---- Rust

def type_of_rust(text):
    """The type of C that a type of Rust is."""
    pointer, array = RUST_POINTER.fullmatch(text), RUST_ARRAY.fullmatch(text)
    if array:
        return f"{RUST_TYPES[array[1]]}[{PREFIX}{array[2]}]"
    if not pointer:
        return RUST_TYPES.get(text) or struct_type(text)
    constant = "const " if pointer[1] in ("*const ", "&") else ""
    return f"{constant}{RUST_TYPES.get(pointer[2]) or struct_type(pointer[2])}*"


def struct_type(name):
    return "struct linkcap_" + name.lower()


def declared_in_rust(text):
    """Names and types, from the parameters or the fields of Rust."""
    pairs = [part.strip().split(": ") for part in text.split(",") if part.strip()]
    return [(name.replace("pub ", "").replace("r#", ""), type_of_rust(kind)) for name, kind in pairs]


def constant_name(variant):
    """The constant of C that a variant of Rust is."""
    return PREFIX + re.sub(r"(?<!^)([A-Z])", r"_\1", variant).upper()


def read_rust(folder):
    text = COMMENT.sub("", (folder / "ffi.rs").read_text(encoding="utf-8"))
    functions = {name: [("", type_of_rust(result)), *declared_in_rust(parameters)]
                 for name, parameters, result in re.findall(r"pub fn (\w+)\((.*?)\)(?: -> (\w+))?;", text, re.DOTALL)}
    structs = {"linkcap_" + name.lower(): declared_in_rust(body)
               for name, body in re.findall(r"#\[repr\(C\)\]\n(?:#\[[^\n]*\]\n)*pub struct (\w+) \{(.*?)\}", text, re.DOTALL)}
    constants = {PREFIX + name: int(value.replace("_", "")) for name, value in re.findall(r"const (\w+): \w+ = (\w+);", text)}
    for module in ("error.rs", "quirks.rs"):
        constants.update(read_rust_kinds(COMMENT.sub("", (folder / module).read_text(encoding="utf-8"))))
    return Declarations(functions, structs, constants)


def read_rust_kinds(text):
    """The values of the enum of kinds in a module. ValueError if a number is decoded to another variant."""
    name, body = re.search(r"pub enum (Kind|QuirkKind) \{(.*?)\}", text, re.DOTALL).groups()
    variants = enumerated(body)
    for number, variant in re.findall(r"(\d+) => %s::(\w+)" % name, text):
        if variants.get(variant) != int(number):
            raise ValueError(f"{name}::{variant} is {variants.get(variant)}, and {number} is decoded to it")
    return {constant_name(variant): value for variant, value in variants.items()}


# ---- Python

class Function:
    """A function of a library that isn't loaded. It returns one number."""

    def __init__(self, result):
        self.result = result

    def __call__(self):
        return self.result


class Library:
    """A library that isn't loaded: a package sets the types of its functions."""

    _name = "liblinkcap.so"

    def __init__(self, header):
        self.version, self.functions = header.constants.get("LINKCAP_VERSION"), {}

    def __getattr__(self, name):
        return self.functions.setdefault(name, Function(self.version))


def read_python(folder, header):
    """What the Python package declares. Its types are those of ctypes."""
    library = Library(header)
    sys.path.insert(0, str(folder))
    with mock.patch("ctypes.CDLL", lambda name: library):
        package, native = importlib.import_module("linkcap"), importlib.import_module("linkcap._native")
    functions = {name: [("", function.restype), *(("", kind) for kind in function.argtypes)]
                 for name, function in library.functions.items() if hasattr(function, "argtypes")}
    structs = {struct_name(value): [(field, type_of_python(kind)) for field, kind in value._fields_]
               for value in vars(native).values() if is_struct(value)}
    members = [(kind.name, int(kind)) for kinds in (package.Kind, package.QuirkKind) for kind in kinds]
    numbers = [(name, value) for name, value in vars(native).items()
               if name.isupper() and type(value) is int and name not in ("FORMAT", "NOT_NULL")]
    return Declarations(functions, structs, {PREFIX + name: value for name, value in members + numbers})


def is_struct(kind):
    return isinstance(kind, type) and issubclass(kind, ctypes.Structure)


def struct_name(kind):
    """The name in C of a struct of Python."""
    return "linkcap_" + kind.__name__[:-len("Struct")].lower()


def type_of_python(kind):
    """A type of ctypes, or the type of C that a struct of Python is."""
    return "struct " + struct_name(kind) if is_struct(kind) else kind


def in_ctypes(kind, constants):
    array = C_ARRAY.fullmatch(kind)
    if array:
        return ctypes.c_char * constants[array[1]]
    return ctypes.c_void_p if kind.endswith("*") else PYTHON_TYPES.get(kind, kind)


def for_python(header):
    """The declarations of the header as a Python package has them: types of ctypes, and parameters without names."""
    constants = header.constants
    functions = {name: [("", in_ctypes(kind, constants)) for _, kind in parts] for name, parts in header.functions.items()}
    structs = {name: [(field, in_ctypes(kind, constants)) for field, kind in fields] for name, fields in header.structs.items()}
    return header._replace(functions=functions, structs=structs)


# ---- comparison

def shown(value):
    """A declaration in a report."""
    if isinstance(value, list):
        return ", ".join(f"{getattr(kind, '__name__', kind)} {name}".strip() for name, kind in value)
    return str(value)


def differences(package, header, found):
    """A line for each declaration of a package that isn't that of the header, or is missing."""
    for expected, declared in zip(header, found):
        for name in sorted(declared):
            if name not in expected:
                yield f"{package}: {name} isn't in linkcap.h"
            elif expected[name] != declared[name]:
                yield f"{package}: {name} is ({shown(declared[name])}), and in linkcap.h ({shown(expected[name])})"
    for name in sorted(header.names() - found.names() - UNUSED[package]):
        yield f"{package}: {name} isn't declared: declare it, or add it to UNUSED of tools/declarations.py"
    for name in sorted(UNUSED[package] & found.names() | UNUSED[package] - header.names()):
        yield f"{package}: {name} is in UNUSED of tools/declarations.py, and is declared, or isn't in linkcap.h"


def all_differences(bindings):
    header = read_header((bindings / "c/linkcap.h").read_text(encoding="utf-8"))
    packages = ((RUST, header, read_rust), (PYTHON, for_python(header), lambda folder: read_python(folder, header)))
    for package, expected, read in packages:
        try:
            yield from differences(package, expected, read(bindings / package))
        except (ImportError, ValueError) as error:
            yield f"{package}: {error}"


def main():
    bindings = Path(sys.argv[1]) if len(sys.argv) > 1 else TOP / "bindings"
    found = list(all_differences(bindings))
    for line in found:
        print("declarations: " + line)
    return 1 if found else 0


if __name__ == "__main__":
    sys.exit(main())
