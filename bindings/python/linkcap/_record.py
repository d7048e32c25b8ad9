"""Recording of the messages that a command sends, with the program linkrec."""
import os
import shutil
import subprocess
import tempfile
from typing import Any, Dict, List, Sequence, Type, TypeVar, Union

from . import lines_record

#: the status of linkrec if it can't record here
_CANNOT_RECORD = 125

_Word = Union[str, "os.PathLike[str]"]


class RecordError(RuntimeError):
    """A command that couldn't be recorded, or that failed. The text is what the programs reported."""


_Recording = TypeVar("_Recording", bound="Recording")


class Recording(bytes):
    """A capture, as bytes, with what its record knows of each message: the names of links, the namespace, and the kernel's
    reply. `golden` shows these; a slice of it is bytes alone."""

    #: the entries of the record by the offsets of their messages, as docs/recording.md of linkcap describes them
    entries: Dict[int, Dict[str, Any]]

    @classmethod
    def read(cls: Type[_Recording], path: _Word) -> _Recording:
        """The capture of a file, with the record in the file beside it, as `linkrec run -o` writes both.

        # Errors

        OSError if one of them can't be read, and ValueError if the record isn't of this capture.
        """
        name = os.fspath(path)
        with open(name, "rb") as file:
            recording = cls(file.read())
        with open(name + lines_record.SUFFIX, encoding="utf-8") as text:
            recording.entries = lines_record.read_record(text.read(), recording)
        return recording


def record(command: Sequence[_Word], *, setup: Sequence[str] = (), here: bool = False,
           may_fail: bool = False) -> Recording:
    """The capture of the route messages that a command sends, its threads and child processes included, with its record.

    The command runs in a new network namespace, in which the shell commands of `setup` have run, or, with `here`, in the
    caller's. The program linkrec has to be on the PATH, or named by LINKREC; it needs strace, and without root a kernel
    that allows user namespaces.

    # Errors

    RecordError if there is no linkrec, if it can't record here, or if the command ends with another status than 0, unless it
    `may_fail`. ValueError for a command without words.
    """
    if isinstance(command, (str, bytes)):
        raise TypeError(f"a command is a list of words, as {command.split()!r}")
    if isinstance(setup, (str, bytes)):
        raise TypeError(f"setup is a list of shell commands, as [{setup!r}]")
    if not command:
        raise ValueError("a command has a word at least")
    program = shutil.which(os.environ.get("LINKREC", "linkrec"))
    if program is None:
        raise RecordError("no program linkrec: put it on the PATH, or name it by LINKREC (linkcap's ./install installs it)")
    with tempfile.TemporaryDirectory() as folder:
        capture = os.path.join(folder, "capture")
        process = subprocess.run([program, *_options(setup, here), "-o", capture, "--", *command], stdout=subprocess.DEVNULL,
                                 stderr=subprocess.PIPE, check=False)
        has_recorded = process.returncode != _CANNOT_RECORD and os.path.exists(capture + lines_record.SUFFIX)
        if process.returncode and not (may_fail and has_recorded):
            report = process.stderr.decode(errors="replace").strip()
            raise RecordError(f"{os.fspath(command[0])} ended with status {process.returncode}: {report}")
        try:
            return Recording.read(capture)
        except FileNotFoundError:
            raise RecordError(f"{program} wrote no record: it is of an older version") from None


def _options(setup: Sequence[str], here: bool) -> List[str]:
    options = ["run"] if here else ["run", "--netns"]
    for line in setup:
        options += ["--setup", line]
    return options
