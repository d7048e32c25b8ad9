#!/usr/bin/env python3
"""Compares the results of lines_json and lines_filter with those of an independent implementation.

    scripts/tests/lines.py

The JSON of lines has to be that of tools/oracle, which has to make the lines of it again: of all samples, of all stored
results of `show`, and of the captures of the stored cases `refusal`, with refused bodies and offsets. filters.tsv has
digests of lines that lines_filter filtered. all_formats.lines has lines of every format, and all_formats.json their JSON;
header_fields.lines has headers whose fields lack a name, and routes.
The status is 0 if all agree.
"""
import hashlib
import json
import sys
from pathlib import Path

TOP = Path(__file__).resolve().parents[2]
sys.dont_write_bytecode = True
sys.path += [str(TOP / "bindings/python/linkcap"), str(TOP / "tools/oracle")]
import json_of_lines  # noqa: E402
import lines_filter  # noqa: E402
import lines_json  # noqa: E402
import linkshow  # noqa: E402
import vectors  # noqa: E402

HERE = Path(__file__).resolve().parent


def digest(text):
    return hashlib.sha256(text.encode()).hexdigest()[:16]


def stored_lines():
    """The lines of each sample, and of each stored result of `show` without its last line, the outcome."""
    for sample in sorted((TOP / "samples").rglob("*.lines")):
        yield sample.read_text()
    for result in vectors.results("show"):
        yield "".join(result.splitlines(True)[:-1])


def lines_with_refusals():
    """The lines of the captures of cases `refusal`, with the options --offsets and --keep-going."""
    for case in vectors.cases("refusal"):
        limit, capture = case.split(" ")
        yield linkshow.lines(bytes.fromhex(capture), int(limit), offsets=True, keep_going=True)[0]


def as_json(lines):
    return list(lines_json.to_json(lines.splitlines(True)))


def json_faults():
    """The lines whose JSON differs, or from whose JSON other lines are made."""
    for lines in [*stored_lines(), *lines_with_refusals()]:
        made = as_json(lines)
        if json.dumps(made, sort_keys=True) != json.dumps(json_of_lines.json_of_lines(lines), sort_keys=True):
            yield "the JSON of: " + lines[:200]
        if json_of_lines.lines_of_json(json.loads(json.dumps(made))) != lines:
            yield "the lines of the JSON of: " + lines[:200]


def stored_json_faults():
    for name in ("all_formats", "header_fields"):
        expected = [json.loads(line) for line in (HERE / f"{name}.json").read_text().splitlines()]
        if as_json((HERE / f"{name}.lines").read_text()) != expected:
            yield f"the JSON of {name}.lines"


def filter_faults():
    for row in (HERE / "filters.tsv").read_text().splitlines()[1:]:
        name, option, argument, expected = row.split("\t")
        lines = (TOP / name).read_text().splitlines()
        names = lines_filter.names_of(argument) if option == "without" else set()
        filtered_lines = lines_filter.without(lines, names) if names else lines_filter.about(lines, argument)
        if digest("".join(line + "\n" for line in filtered_lines)) != expected:
            yield f"the lines of {name} with --{option} {argument}"


def main():
    faults = [*json_faults(), *stored_json_faults(), *filter_faults()]
    for fault in faults:
        print(f"lines: differs: {fault}")
    return 1 if faults else 0


if __name__ == "__main__":
    sys.exit(main())
