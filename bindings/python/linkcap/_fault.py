"""Faults of captures, and why a body is refused."""
import contextlib
import enum
from typing import Any, NamedTuple, Optional, Tuple

from . import _native
from ._options import CallOptions


class Kind(enum.IntEnum):
    """The kinds of faults. Calls raise the first seven; the others are those of the program linkcap."""

    CUT = 1
    SHORT_LENGTH = 2
    OVER_LIMIT = 3
    REFUSED = 4
    EMPTY_PORTS = 5
    UNFIT = 6
    TEXT_OVER_LIMIT = 7
    MEMORY = 8
    READ = 9
    WRITE = 10
    TOO_LONG = 11
    FAILED = 12


class Refusal(NamedTuple):
    """Why a body is refused."""

    #: the names of the attribute that isn't accepted, from outside in, the reason, and the offset
    words: str
    #: the start of the attribute, in bytes from the capture's start; None for NLMSG_ERROR and NLMSG_DONE
    offset: Optional[int]


class Fault(Exception):
    """A capture's first fault. `str` gives its words, and after them the reason if a body is refused."""

    kind: Kind
    #: the start of the message that has it, in bytes from the capture's start
    offset: int
    #: of two captures 1 for the first and 2 for the second
    side: Optional[int]
    #: for example "cut frame at 48"
    words: str
    #: the output before it: normal text, or lines in ASCII
    written: bytes
    #: the attribute that isn't accepted and the reason, if the kind is `Kind.REFUSED` and there is memory for the words
    why: Optional[Refusal]

    def __init__(self, kind: int, offset: int, side: Optional[int] = None, written: bytes = b"",
                 why: Optional[Refusal] = None) -> None:
        self.kind, self.offset, self.side, self.written, self.why = Kind(kind), offset, side, written, why
        self.words = words_of(_native.FindingStruct(kind, side or 0, offset))
        super().__init__(f"{self.words}: {why.words}" if why else self.words)

    def __reduce__(self) -> Tuple[Any, ...]:
        return Fault, (int(self.kind), self.offset, self.side, self.written, self.why)


def words_of(finding: _native.FindingStruct) -> str:
    """The words of a fault or a quirk, with its offset. Raises ValueError if it is neither."""
    out, size = _native.Output(_native.WORDS_ROOM), _native.Count()
    status = _native.library.linkcap_words(_native.address_of(finding), out.at, out.capacity, _native.address_of(size))
    if status != _native.OK:
        raise ValueError("no fault or quirk of a capture")
    return out.take(size.value).decode("ascii")


def refusal(options: CallOptions, piece: _native.PieceStruct) -> Optional[Refusal]:
    """Why a body is refused, if that is the first fault of a piece; else None. Raises MemoryError if there is no memory for the
    words."""
    size, offset = _native.Count(), _native.Count()
    capacity, status = 512, _native.NO_ROOM
    while status == _native.NO_ROOM:
        out = _native.Output(capacity)
        status = _native.library.linkcap_why(options.at, _native.address_of(piece), out.at, out.capacity,
                                             _native.address_of(size), _native.address_of(offset))
        capacity = size.value
    if status == _native.NO_MEMORY:
        raise MemoryError("no memory for the words of a refusal")
    if status != _native.OK:
        return None
    return Refusal(out.take(size.value).decode("ascii"), None if offset.value == (1 << 64) - 1 else offset.value)


def first_fault(fault: _native.FindingStruct, options: CallOptions, piece: _native.PieceStruct, written: bytes = b"") -> Fault:
    """The first fault of a piece, with its reason."""
    reason = None
    if fault.kind == Kind.REFUSED:
        start = fault.offset - piece.offset
        rest = _native.PieceStruct(piece.bytes + start, piece.length - start, fault.offset, piece.last, 0)
        with contextlib.suppress(MemoryError):
            reason = refusal(options, rest)
    return Fault(fault.kind, fault.offset, fault.side or None, written, reason)


def failure(status: int, fault: _native.FindingStruct, options: CallOptions, piece: _native.PieceStruct,
            written: bytes = b"") -> Exception:
    """The exception for a status that isn't a success, over a piece."""
    if status == _native.NO_MEMORY:
        return MemoryError("no memory for the capture's text")
    if status != _native.FAULT:
        return ValueError("the capture ends 2^64 bytes or more after its start")
    return first_fault(fault, options, piece, written)
