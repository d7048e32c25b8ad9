"""The stored cases of crates/vectors (docs/vectors.md), their labels and their results. ValueError names the line of
crates/vectors/stdin, or the file, that has another format."""
import os
import re
import sys

sys.path.insert(0, os.path.dirname(os.path.abspath(__file__)))
import linkoracle as o      # noqa: E402

TOP = os.path.normpath(os.path.join(os.path.dirname(os.path.abspath(__file__)), "..", ".."))

# In the order in which they are stored. Only results of the last kind have several lines.
KINDS = ("norm", "same", "pairs", "spelling", "refusal", "link_info", "show")
OUTCOME = re.compile("legal|(%s) at [0-9]+" % "|".join(words for _, words in o.FAULT_KINDS.values()))


def path_of(name):
    return os.path.join(TOP, "crates", "vectors", name)


def lines(name):
    with open(path_of(name), encoding="utf-8", newline="") as file:
        text = file.read()
    if not text.endswith("\n"):
        raise ValueError("crates/vectors/%s doesn't end with a newline" % name)
    return text[:-1].split("\n")


def labelled_cases():
    """(line number, label, kind, case) of each case. A line that begins with `# ` is the label of the cases that follow it,
    which are of one kind, up to the next label."""
    label, label_kind, last_kind = None, None, KINDS[0]
    for number, line in enumerate(lines("stdin"), 1):
        prefix = "crates/vectors/stdin:%d: " % number
        if line.startswith("# "):
            label, label_kind = line[2:], None
            continue
        kind, space, case = line.partition(" ")
        if not space or kind not in KINDS:
            raise ValueError(prefix + "no kind of case: %s" % line[:60])
        if KINDS.index(kind) < KINDS.index(last_kind):
            raise ValueError(prefix + "%s after %s" % (kind, last_kind))
        if label is None or label_kind not in (None, kind):
            raise ValueError(prefix + "a case of %s without a label" % kind)
        last_kind = label_kind = kind
        yield number, label, kind, case


def cases(kind):
    return [case for _, _, other, case in labelled_cases() if other == kind]


def show_results(stdout_lines):
    """The results of `show` in these lines. The last line of each is its outcome."""
    result = ""
    for line in stdout_lines:
        result += line + "\n"
        if OUTCOME.fullmatch(line):
            yield result
            result = ""
    if result:
        yield result


def case_of_line(number):
    """(line number, label) of the case whose result has a line of crates/vectors/stdout; None past the last line."""
    all_results = (result for kind in KINDS for result in results(kind))
    for case_line, label, _, _ in labelled_cases():
        number -= next(all_results, "").count("\n")
        if number <= 0:
            return case_line, label
    return None


def results(kind):
    """The stored results of a kind, each with its newline."""
    kinds = [other for _, _, other, _ in labelled_cases()]
    start = sum(KINDS.index(other) < KINDS.index(kind) for other in kinds)
    stdout_lines = lines("stdout")[start:]
    if kind == KINDS[-1]:
        return list(show_results(stdout_lines))
    return [line + "\n" for line in stdout_lines[:kinds.count(kind)]]
