#!/usr/bin/env python3
"""Checks what tools/declarations.py reports of deliberate changes, each in a copy of the declarations.

    tools/declarations_check.py

The status is 1 if something is wrong.
"""
import shutil
import subprocess
import sys
import tempfile
from pathlib import Path

sys.dont_write_bytecode = True
from layers import TOP  # noqa: E402

FILES = ("c/linkcap.h", "rust/src", "python/linkcap")
HEADER, FFI, NATIVE = "c/linkcap.h", "rust/src/ffi.rs", "python/linkcap/_native.py"

# (the file, what is replaced, by what, a part of each line that is reported)
CASES = (
    # C: a parameter's type, its name, its order; a function's name, and one more
    (HEADER, "linkcap_check(const uint8_t *capture, size_t length, const struct linkcap_options *options",
     "linkcap_check(const uint8_t *capture, size_t length, struct linkcap_options *options",
     ("rust/src: linkcap_check is (",)),
    (HEADER, "linkcap_check(const uint8_t *capture, size_t length", "linkcap_check(const uint8_t *capture, uint32_t length",
     ("rust/src: linkcap_check is (", "python: linkcap_check is (")),
    (HEADER, "linkcap_check(const uint8_t *capture, size_t length", "linkcap_check(const uint8_t *capture, size_t size",
     ("rust/src: linkcap_check is (",)),
    (HEADER, "linkcap_words(const struct linkcap_finding *finding, uint8_t *out, size_t room",
     "linkcap_words(const struct linkcap_finding *finding, size_t room, uint8_t *out",
     ("rust/src: linkcap_words is (", "python: linkcap_words is (")),
    (HEADER, "uint32_t linkcap_format(void)", "uint64_t linkcap_format(void)",
     ("rust/src: linkcap_format is (", "python: linkcap_format is (")),
    (HEADER, "uint32_t linkcap_format(void);", "uint32_t linkcap_format(void);\nuint32_t linkcap_more(void);",
     ("rust/src: linkcap_more isn't declared", "python: linkcap_more isn't declared")),
    # C: fields and constants
    (HEADER, "uint32_t side;", "uint64_t side;", ("rust/src: linkcap_finding is (", "python: linkcap_finding is (")),
    (HEADER, "struct linkcap_text only; ", "struct linkcap_piece only; ",
     ("rust/src: linkcap_options is (", "python: linkcap_options is (")),
    (HEADER, "LINKCAP_NO_ROOM = 4", "LINKCAP_NO_ROOM = 7", ("rust/src: LINKCAP_NO_ROOM is (4)", "python: LINKCAP_NO_ROOM is (4)")),
    (HEADER, "    LINKCAP_REFUSED,", "    LINKCAP_STRANGE,\n    LINKCAP_REFUSED,",
     ("rust/src: LINKCAP_EMPTY_PORTS is (5), and in linkcap.h (6)", "python: LINKCAP_FAILED is (12), and in linkcap.h (13)",
      "rust/src: LINKCAP_STRANGE isn't declared")),
    (HEADER, "#define LINKCAP_VERSION 3", "#define LINKCAP_VERSION 4",
     ("rust/src: LINKCAP_VERSION is (3)", "python: liblinkcap.so has version 4 of the interface, and 3 is needed")),
    (HEADER, "#define LINKCAP_NAME_ROOM 64", "#define LINKCAP_NAME_ROOM 32",
     ("rust/src: LINKCAP_NAME_ROOM is (64)", "python: linkcap_attribute is (")),
    # Rust
    (FFI, "pub name: [c_char; NAME_ROOM]", "pub name: [u8; NAME_ROOM]", ("rust/src: linkcap_attribute is (",)),
    (FFI, "offset: u64,\n        message: &mut Message", "offset: u32,\n        message: &mut Message",
     ("rust/src: linkcap_next_message is (",)),
    (FFI, "pub fn linkcap_quirks(\n        capture: *const u8", "pub fn linkcap_quirks(\n        capture: *mut u8",
     ("rust/src: linkcap_quirks is (",)),
    (FFI, "    pub fn linkcap_version() -> u32;\n", "", ("rust/src: linkcap_version isn't declared",)),
    (FFI, "pub fn linkcap_version()", "pub fn linkcap_versions()", ("rust/src: linkcap_versions isn't in linkcap.h",)),
    (FFI, "    pub kind: u32,\n    pub side: u32,", "    pub side: u32,\n    pub kind: u32,", ("rust/src: linkcap_finding is (",)),
    (FFI, "pub const OFFSETS: u32 = 2", "pub const OFFSETS: u32 = 4", ("rust/src: LINKCAP_OFFSETS is (4), and in linkcap.h (2)",)),
    ("rust/src/error.rs", "    ShortLength,\n", "", ("rust/src: Kind::ShortLength is None, and 2 is decoded to it",)),
    ("rust/src/error.rs", "3 => Kind::OverLimit", "3 => Kind::Cut", ("rust/src: Kind::Cut is 1, and 3 is decoded to it",)),
    ("rust/src/quirks.rs", "ShortMap,\n}", "ShortMap = 113,\n}", ("rust/src: LINKCAP_SHORT_MAP is (113), and in linkcap.h (112)",)),
    # Python
    (NATIVE, '"linkcap_check": [*bytes_, address, address, address]', '"linkcap_check": [*bytes_, address, address]',
     ("python: linkcap_check is (",)),
    (NATIVE, '"linkcap_same": [*bytes_, *bytes_, address', '"linkcap_same": [*bytes_, address, *bytes_',
     ("python: linkcap_same is (",)),
    (NATIVE, "call.argtypes, call.restype = arguments, number", "call.argtypes, call.restype = arguments, address",
     ("python: linkcap_check is (c_void_p,",)),
    (NATIVE, '("frames", "attributes",', '("attributes", "frames",', ("python: linkcap_sizes is (",)),
    (NATIVE, '("link", TextStruct), ("without", TextStruct)', '("without", TextStruct), ("link", TextStruct)',
     ("python: linkcap_options is (",)),
    (NATIVE, "OFFSETS, KEEP_GOING = 1, 2, 4", "OFFSETS, KEEP_GOING = 1, 4, 2",
     ("python: LINKCAP_OFFSETS is (4), and in linkcap.h (2)", "python: LINKCAP_KEEP_GOING is (2)")),
    ("python/linkcap/_fault.py", "    UNFIT = 6\n", "", ("python: LINKCAP_UNFIT isn't declared",)),
)


def report(bindings):
    """The status for a folder of bindings, and what is printed."""
    run = subprocess.run([sys.executable, str(TOP / "tools/declarations.py"), str(bindings)], stdout=subprocess.PIPE, text=True)
    return run.returncode, run.stdout


def copy_bindings(folder):
    for name in FILES:
        source = TOP / "bindings" / name
        (folder / name).parent.mkdir(parents=True, exist_ok=True)
        copy = shutil.copy if source.is_file() else shutil.copytree
        copy(source, folder / name)
    return folder


def is_reported(work, number, case):
    """Whether a change is reported by the lines that it has to be."""
    name, old, new, expected = case
    file = copy_bindings(Path(work) / str(number)) / name
    text = file.read_text(encoding="utf-8")
    if text.count(old) < 1:
        print(f"declarations_check: {name} has no {old!r}")
        return False
    file.write_text(text.replace(old, new, 1), encoding="utf-8")
    status, printed = report(Path(work) / str(number))
    missing = [line for line in expected if "declarations: " + line not in printed]
    if status != 1 or missing:
        print(f"declarations_check: {new!r} in {name}: status {status}, not reported: {missing}, printed: {printed}")
    return status == 1 and not missing


def main():
    with tempfile.TemporaryDirectory() as work:
        unchanged = report(copy_bindings(Path(work) / "unchanged"))
        if unchanged != (0, ""):
            print(f"declarations_check: the declarations as they are: {unchanged}")
        results = [is_reported(work, number, case) for number, case in enumerate(CASES)]
    return 0 if all(results) and unchanged == (0, "") else 1


if __name__ == "__main__":
    sys.exit(main())
