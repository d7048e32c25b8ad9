#!/usr/bin/env python3
"""Computes the results of all stored cases (docs/vectors.md).

    tools/oracle/results.py
    tools/oracle/results.py --check [KIND..]
    tools/oracle/results.py --line N

It reads the cases of crates/vectors/stdin, each in a line after the word of its kind
and below a label, and writes crates/vectors/stdout. With --check it writes nothing,
and prints which results of these kinds, or of all, differ from the stored ones. With
--line it prints which case has line N of crates/vectors/stdout, which the gate names
if the program's results differ. The status is 1 if a result differs or there is no
such line, and 2 if a line of crates/vectors/stdin is no case.
"""
import argparse
import os
import sys

sys.path.insert(0, os.path.dirname(os.path.abspath(__file__)))
import linkoracle as o      # noqa: E402
import linkshow             # noqa: E402
import quirks               # noqa: E402
import vectors              # noqa: E402

MOST_DIFFERENCES = 20       # printed for a kind


def read_limit(word):
    limit = o.read_limit(word)
    if limit is None:
        raise ValueError("no limit: %s" % word)
    return limit


def outcome(fault):
    return "legal" if fault is None else o.display(fault)


def norm_result(case):
    """The texts in hex, a space, and the sizes of the capture or its fault."""
    limit, capture = case.split(" ")
    limit, capture = read_limit(limit), bytes.fromhex(capture)
    text, fault = o.normal_text(capture, limit)
    end = o.display(fault) if fault else "%d %d %d" % o.measure(capture, limit)
    return text.hex() + " " + end


def same_result(case):
    """`same`, `different`, or the first fault after `first: ` or `second: `."""
    limit, first, second = case.split(" ")
    result = o.same(bytes.fromhex(first), bytes.fromhex(second), read_limit(limit))
    if isinstance(result, bool):
        return "same" if result else "different"
    return ("second: " if result[0] else "first: ") + o.display(result[1])


def pairs_result(case):
    """For each legal capture a character for each of them: `=` if they mean the same, else `-`."""
    limit, *captures = case.split(" ")
    limit, captures = read_limit(limit), [bytes.fromhex(capture) for capture in captures]
    return "".join("".join("=" if o.same(a, b, limit) is True else "-" for b in captures) + " " for a in captures)


def show_result(case):
    """The lines, then `legal` or the fault. A word between limit and capture chooses among the lines."""
    limit, *choice, capture = case.split(" ")
    if choice[1:]:
        raise ValueError("no choice: %s" % " ".join(choice))
    only, numbers = None, choice != ["without-numbers"]
    if choice and numbers:
        only = {int(kind) for kind in choice[0].split(",")}
    text, fault = linkshow.lines(bytes.fromhex(capture), read_limit(limit), numbers=numbers, only=only)
    return text + outcome(fault)


def quirks_result(case):
    """Each quirk with its offset and `; ` after it, then `legal` or the fault."""
    limit, capture = case.split(" ")
    pairs, fault = quirks.find_quirks(bytes.fromhex(capture), read_limit(limit))
    return "".join("%s at %d; " % pair for pair in pairs) + outcome(fault)


def refusal_result(case):
    """The reason of the first refused body, or `nothing`."""
    limit, capture = case.split(" ")
    return linkshow.why(bytes.fromhex(capture), read_limit(limit)) or "nothing"


def link_info_result(case):
    """The canonical text of a link info list in hex, in which peers are bytes; `unfit` or `refused`."""
    b = bytes.fromhex(case)
    sizes = o.check_list(b, peers_judged=False)
    if sizes is None:
        return "refused"
    if not sizes[2]:
        return "unfit"
    return o.list_text(b, peers_judged=False).hex()


# The function that computes the result of a case, by the case's kind
COMPUTE = {"norm": norm_result, "same": same_result, "pairs": pairs_result, "spelling": quirks_result,
           "refusal": refusal_result, "link_info": link_info_result, "show": show_result}


def compute_results(kinds):
    """(line and label, result) of each case of these kinds. ValueError names the line of one that is no case."""
    for number, label, kind, case in vectors.labelled_cases():
        if kind not in kinds:
            continue
        try:
            yield "crates/vectors/stdin:%d: %s" % (number, label), COMPUTE[kind](case) + "\n"
        except ValueError as error:
            raise ValueError("crates/vectors/stdin:%d: %s" % (number, error)) from error


def differences(kind):
    """A line for each case of a kind whose stored result differs, with both results from the first byte that differs."""
    stored = vectors.results(kind)
    number = 0
    for number, (case, result) in enumerate(compute_results([kind]), 1):
        stored_result = stored[number - 1] if number <= len(stored) else ""
        if stored_result == result:
            continue
        at = len(os.path.commonprefix([stored_result, result]))
        yield "%s: %r is stored, %r is the result, from byte %d on" % (case, stored_result[at:at + 60], result[at:at + 60], at)
    if len(stored) > number:
        yield "%s: %d results are stored after that of the last case" % (kind, len(stored) - number)


def check(kind):
    """Prints which results of a kind differ from the stored ones, and returns whether none does."""
    lines = list(differences(kind))
    for line in lines[:MOST_DIFFERENCES]:
        print(line)
    summary = "%d results DIFFER" % len(lines) if lines else "each result is as it is stored"
    print("%s: %d cases, %s" % (kind, len(vectors.cases(kind)), summary))
    return not lines


def write():
    results = [result for _, result in compute_results(COMPUTE)]
    with open(vectors.path_of("stdout"), "w", encoding="utf-8", newline="") as stdout:
        stdout.write("".join(results))
    print("%d results written" % len(results))


def print_case(line):
    """Prints which case has a line of crates/vectors/stdout, and returns whether one has."""
    case = vectors.case_of_line(line)
    print("crates/vectors/stdin:%d: %s" % case if case else "crates/vectors/stdout has no line %d" % line)
    return case is not None


def main():
    parser = argparse.ArgumentParser(description=__doc__, formatter_class=argparse.RawDescriptionHelpFormatter)
    parser.add_argument("--check", action="store_true", help="compare, and write nothing")
    parser.add_argument("--line", type=int, metavar="N", help="print which case has line N of crates/vectors/stdout")
    parser.add_argument("kind", nargs="*", metavar="KIND", help=", ".join(COMPUTE))
    args = parser.parse_args()
    for kind in args.kind:
        if kind not in COMPUTE:
            parser.error("no kind of case: %s" % kind)
    if args.kind and not args.check:
        parser.error("a KIND needs --check: without it, all results are written")
    try:
        if args.line:
            return 0 if print_case(args.line) else 1
        if args.check:
            return 0 if all([check(kind) for kind in args.kind or COMPUTE]) else 1
        write()
    except ValueError as error:
        print(error, file=sys.stderr)
        return 2
    return 0


if __name__ == "__main__":
    sys.exit(main())
