#!/usr/bin/env python3
"""Checks tools/pages.py on made-up pages: what it reports of marks and commands, and what it doesn't.

    tools/pages_check.py

The status is 1 if something is wrong.
"""
import contextlib
import io
import sys
import tempfile
from pathlib import Path

sys.dont_write_bytecode = True
from manual_examples import ManualExamples  # noqa: E402
from page_commands import Machine, run_page  # noqa: E402
from pages import Page, check_commands, check_marks  # noqa: E402

NEEDS_STRACE = "<!-- wants strace -->\n```sh\nstrace true\n```\n"

# (a page, what is reported of it; None if nothing is)
MARKED = (
    ("Needs strace:\n\n" + NEEDS_STRACE, None),
    ("Needs [`strace`](x.md):\n\n" + NEEDS_STRACE, None),
    (NEEDS_STRACE, "doesn't say: strace"),
    ("It straces:\n\n" + NEEDS_STRACE, "doesn't say: strace"),
    ("Needs strace:\n\n## Next\n\n" + NEEDS_STRACE, "doesn't say: strace"),
    ("Needs strace:\n\n" + NEEDS_STRACE + "\nAnd again:\n\n" + NEEDS_STRACE, "doesn't say: strace"),
    ("Needs strace:\n\n<!-- wants strace, root -->\n```sh\ntrue\n```\n", "doesn't say: root"),
    ("Of made.bin:\n\n<!-- given made.bin = README.md, other.bin = README.md -->\n```sh\ntrue\n```\n", "doesn't say: other.bin"),
    ("Save it:\n\n<!-- sketch -->\n<!-- saved as norm.c -->\n```c\n```\n", "doesn't say: norm.c"),
    ("Needs luck:\n\n<!-- wants luck -->\n```sh\ntrue\n```\n", "no such requirement: luck"),
    ("<!-- continues -->\n```sh\ntrue\n```\n", "continues no commands"),
    ("<!-- needs luck -->\n```sh\ntrue\n```\n", "no such mark: needs luck"),
    ("<!-- continues -->\n```\ntrue\n```\n", "is for commands"),
)

# (a page, the end of what is reported of its commands; None if nothing is)
RUN = (
    ("```sh\nexit 0\n```\n", None),
    ("<!-- status 3 -->\n```sh\nexit 3\n```\n", None),
    ("```sh\nexit 3\n```\n", "status 3, expected 0"),
    ("```sh\necho a\n```\n\n<!-- output -->\n```\nb\n```\n", "other output"),
    ("```sh\nfalse; true\n```\n", "status 1, expected 0"),
    ("```sh\n: $PKG_CONFIG_PATH\n```\n", "unbound variable"),
    ("```sh\nA=1\nbash -uc ': $A'\n```\n", "unbound variable"),
    ("<!-- wants the kit -->\n```sh\nfalse\n```\n\n<!-- continues -->\n```sh\nfalse\n```\n", None),
    ("<!-- given a/made.bin = LICENSE -->\n```sh\ncmp a/made.bin LICENSE\n```\n", None),
    ("<!-- sketch -->\n<!-- saved as a.c -->\n```c\nint a;\n```\n\n```sh\ngrep int a.c\n```\n", None),
)

MANUAL = """.Sh EXAMPLES
Look at
.Pa made.bin :
.\\" given made.bin = LICENSE
.Dl $ wc -l < made.bin
.Dl $ echo \\(dqa\\(dq
.Pp
.Bd -literal
$ echo b
b
.Ed
.\\" wants luck
.Dl true
.Sh SEE ALSO
.Dl none
"""
BLOCKS = [("sh", ["wc -l < made.bin", 'echo "a"']), ("sh", ["echo b"]), ("", ["b"]), ("sh", ["true"])]


def reported(faults, expected):
    """Whether the expected fault is among the faults; without one, whether there are none."""
    return not faults if expected is None else any(expected in fault for fault in faults)


def check_pages():
    """The pages of which something else is reported."""
    for source, expected in MARKED:
        page = Page("made-up.md", source)
        faults = [*check_commands(page), *check_marks(page)]
        if not reported(faults, expected):
            yield "%r: %s, expected %s" % (source, faults, expected)


def check_runs(work):
    """The pages whose commands end in another way."""
    programs = work / "programs"
    programs.mkdir()
    for name in ("linkcap", "linkshow"):
        (programs / name).touch()
    machine = Machine(work, programs, None)
    for source, expected in RUN:
        with contextlib.redirect_stdout(io.StringIO()):
            faults = list(run_page(Page("made-up.md", source), work, machine))
        if not reported(faults, expected):
            yield "%r: %s, expected %s" % (source, faults, expected)


def check_manual(work):
    """What is read of the examples of a manual."""
    path = work / "made-up.1"
    path.write_text(MANUAL, encoding="utf-8")
    manual = ManualExamples(str(path))
    blocks = [(block.language, block.lines) for block in manual.blocks]
    if blocks != BLOCKS:
        yield "the manual's blocks: %s" % blocks
    faults = check_commands(manual)
    if len(faults) != 2 or not reported(faults, "doesn't say: luck") or not reported(faults, "no such requirement: luck"):
        yield "the manual's faults: %s" % faults


def main():
    with tempfile.TemporaryDirectory(prefix="linkcap-check-") as work:
        faults = [*check_pages(), *check_runs(Path(work)), *check_manual(Path(work))]
    for fault in faults:
        print("pages_check: " + fault)
    return bool(faults)


if __name__ == "__main__":
    sys.exit(main())
