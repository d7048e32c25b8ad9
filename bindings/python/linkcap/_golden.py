"""Golden files of lines, for tests."""
import difflib
import os
from typing import TYPE_CHECKING, Iterable, List, SupportsIndex, Tuple, Union

from . import lines_filter, lines_golden, lines_record
from ._native import FORMAT, Capture
from ._options import DEFAULT_LIMIT, OF_GOLDEN, Options, check_use, of_lines
from ._record import Recording
from ._writing import write_all
from .lines_replace import Replacement

if TYPE_CHECKING:
    from typing_extensions import Unpack

# Frames of this module are left out of tracebacks, by unittest and by pytest.
__unittest = True


def golden(capture: Capture, path: Union[str, "os.PathLike[str]"], *, update: bool = False, replace: Iterable[str] = (),
           limit: SupportsIndex = DEFAULT_LIMIT, **options: "Unpack[Options]") -> None:
    """Compares a capture's lines with those of a file; if they differ, raises AssertionError with a unified diff.

    With `update` it writes the file instead, and its folder. The keywords are `only`, `link`, `without` and `numbers` of `Options`;
    by default lines lack sequence numbers and netlink port IDs. The file's head has the names of `without`. Each `REGEX=NAME` of `replace`
    puts NAME in place of the names of links and hardware addresses that match, as `linkgold --replace` does; ValueError names one that
    is malformed. A capture that isn't legal raises its `Fault`, and one without lines AssertionError: the test has captured
    nothing.

    Of a `Recording` the lines are those of linkgold: names of links in place of indexes, a line `# namespace 2` where the
    namespace changes, and a line `refused: ENODEV` after a request that the kernel refused.

    The file's first line has the format version of the lines. It may be missing, as in the output of linkshow. What the lines
    after it say that linkgold left out is left out of the capture's lines.
    """
    __tracebackhide__ = True
    check_use(options, OF_GOLDEN, "golden")
    replacement, excluded = Replacement(replace), _Excluded(options.pop("without", ()), isinstance(capture, Recording))
    text = _lines(capture, limit, options)
    made = replacement.apply(text.splitlines())
    if not made:
        raise AssertionError("the capture is empty, or has no message that is selected")
    name = os.fspath(path)
    if update:
        left_out = excluded.words + ([lines_golden.PROBES] if isinstance(capture, Recording) else [])
        _write(name, _text(lines_golden.head_lines(FORMAT, left_out) + lines_filter.without(made, excluded.names)))
        return
    head, expected = _read(name)
    made = lines_golden.without_probes(lines_golden.without_positions(made, head.positions), head.names)
    text = _text(lines_filter.without(made, head.names | excluded.names))
    if text != expected:
        raise AssertionError(_difference(name, head, expected, text))


class _Excluded:
    """The attributes and groups that a test leaves out."""

    def __init__(self, without: Iterable[str], is_recorded: bool) -> None:
        """Those of `without`, and of a recording padding too, which ip(8) takes from memory that it didn't write.

        # Errors

        TypeError for a single name, which would be read as the list of its letters, and ValueError for one that isn't known.
        """
        if isinstance(without, (str, bytes)):
            raise TypeError(f"without is a list of names, as ['IFLA_MTU'], and not {without!r}")
        self.words = [*without, *["padding"] * is_recorded]
        self.names = lines_filter.names_of(",".join(self.words)) if self.words else set()


def _lines(capture: Capture, limit: SupportsIndex, options: Options) -> str:
    """The lines of a capture; of a recording those of linkgold."""
    numbers = options.setdefault("numbers", False)
    if not isinstance(capture, Recording):
        return write_all(of_lines(limit, options), capture).decode("ascii")
    options["numbers"] = options["offsets"] = True
    return _recorded_lines(capture, write_all(of_lines(limit, options), capture).decode("ascii"), numbers)


def _text(made: List[str]) -> str:
    return "".join(line + "\n" for line in made)


def _recorded_lines(recording: Recording, text: str, numbers: bool) -> str:
    """The lines of a recording, from those with offsets and numbers, without the probes of iproute2."""
    annotated = lines_record.without_offsets(lines_record.annotated(text.splitlines(), recording.entries))
    messages = [message for message in lines_filter.messages(annotated) if not lines_record.is_probe(message)]
    kept = lines_filter.without((line for message in messages for line in message), set() if numbers else {"numbers"})
    return "".join(line + "\n" for line in lines_record.for_file(kept))


def _write(name: str, text: str) -> None:
    os.makedirs(os.path.dirname(os.path.abspath(name)), exist_ok=True)
    with open(name, "w", encoding="ascii", newline="\n") as file:
        file.write(text)


def _read(name: str) -> Tuple[lines_golden.Head, str]:
    """The head of a golden file, and the text of its lines."""
    __tracebackhide__ = True
    try:
        with open(name, encoding="utf-8", errors="backslashreplace", newline="") as file:
            text = file.read()
    except FileNotFoundError:
        raise AssertionError(f"no golden file {name}: write it by update=True, or pytest --linkcap-update") from None
    found = text.splitlines(True)
    head = lines_golden.read_head([line.rstrip("\r\n") for line in found])
    return head, "".join(found[head.size:])


def _difference(name: str, head: lines_golden.Head, expected: str, text: str) -> str:
    """The message about a golden file whose lines aren't those of a capture."""
    if expected.replace("\r\n", "\n") == text:
        return (f"{name} has the capture's lines, but ends them by CRLF: keep it as it was written, in git by a line"
                f" `*.lines -text` of .gitattributes")
    reason = "the capture isn't that of the golden file\n"
    if head.version not in (None, FORMAT):
        reason = (f"{name} has lines of format {head.version}, and this linkcap writes format {FORMAT}: update the file with the"
                  f" capture that it was made of (CHANGELOG.md)\n")
    diff = difflib.unified_diff(expected.splitlines(True), text.splitlines(True), name, "this capture")
    return reason + "".join(line if line.endswith("\n") else line + "\n\\ No newline at end of file\n" for line in diff)
