"""Captures that come in pieces."""
import ctypes
from typing import TYPE_CHECKING, Dict, Generic, Iterator, Optional, Protocol, SupportsIndex, TypeVar

from ._fault import Fault
from ._native import BorrowedBytes, Capture
from ._options import DEFAULT_LIMIT, OF_LINES, CallOptions, Options, check_use, of_lines, with_limit
from ._writing import Written, write

if TYPE_CHECKING:
    from typing_extensions import Unpack

_HEADER = 16


class _Readable(Protocol):
    def read(self, size: int) -> Optional[bytes]: ...


class _Call:
    """A call of a reader."""

    def __init__(self) -> None:
        self.is_done = False


ResultT = TypeVar("ResultT", bytes, str)


class _Pieces(Generic[ResultT]):
    """The common part of readers. Between pieces it keeps the bytes of a cut message. The time is linear in the capture's
    length, for pieces of any sizes.
    """

    def __init__(self, options: CallOptions) -> None:
        self._options = options
        self._rest = bytearray()
        self._start = 0  # of the rest, in bytes from the capture's start
        self._least_length = _HEADER  # with a shorter rest no call writes anything
        self._has_ended = False
        self._kept: Optional[Fault] = None  # the first fault, if messages after it are written too
        self._running: Dict[str, _Call] = {}  # the call that runs, if one does

    def _result(self, output: bytes) -> ResultT:
        """The result of `feed` and `finish`, from the bytes that were written."""
        raise NotImplementedError

    def feed(self, piece: Capture) -> ResultT:
        """Takes the next piece, and returns the output for the messages that it completes, with their padding.

        Raises the capture's first `Fault`, whose `written` is the output for the messages that this piece completes before it.
        """
        call = _Call()
        try:
            with BorrowedBytes(piece) as borrowed:
                self._begin(call)
                result = self._result(self._feed(borrowed))
            call.is_done = True
            del self._running["call"]
            return result
        except BaseException:
            # A reader in which a signal handler raises an exception has ended: which bytes were used isn't known.
            self._end(call)
            raise

    def finish(self) -> ResultT:
        """Ends the capture. Returns the output for a last message that lacks padding, or raises a `Fault`."""
        call = _Call()
        try:
            self._begin(call)
            with BorrowedBytes(self._rest) as rest:
                text = self._write(rest, True).output
            if self._kept:
                self._kept.written = text
                raise self._kept
            return self._result(text)
        finally:
            self._end(call)

    def read_file(self, file: _Readable, size: int = 1 << 16) -> Iterator[ResultT]:
        """Feeds a binary file from its position to its end, in pieces of `size` bytes, and finishes. Yields each output that
        isn't empty.

        >>> import io
        >>> done = bytes.fromhex("10000000030002000000000000000000")
        >>> [text.hex() for text in Reader().read_file(io.BytesIO(done))]
        ['1400000003000200000000000000000000000000']
        """
        if size < 1:
            raise ValueError("pieces have a size of at least 1")
        while True:
            piece = file.read(size)
            if piece is None:
                raise BlockingIOError("the file has no bytes yet")
            text = self.feed(piece) if piece else self.finish()
            if text:
                yield text
            if not piece:
                return

    def _begin(self, call: _Call) -> None:
        # `setdefault` isn't interrupted, so that `_end` knows whether the call has begun.
        if self._running.setdefault("call", call) is not call:
            raise RuntimeError("another call of this reader is running")
        if self._has_ended:
            raise ValueError("the reader has ended, or has raised a fault")

    def _end(self, call: _Call) -> None:
        """Ends the reader, if the call has begun."""
        is_running = self._running.get("call") is call
        if is_running or call.is_done:
            self._has_ended = True
        if is_running:
            del self._running["call"]

    def _feed(self, piece: BorrowedBytes) -> bytes:
        if not self._rest:
            written = self._write(piece, False)
            self._rest += ctypes.string_at(piece.at + written.used, piece.length - written.used)
            self._advance(written.used)
            return written.output
        self._rest += ctypes.string_at(piece.at, piece.length)
        if len(self._rest) < self._least_length:
            return b""
        with BorrowedBytes(self._rest) as rest:
            written = self._write(rest, False)
        del self._rest[:written.used]
        self._advance(written.used)
        return written.output

    def _advance(self, used: int) -> None:
        """Counts the bytes that were used, and sets the least length of the rest: a header's, or the length in the header."""
        self._start += used
        has_header = len(self._rest) >= _HEADER
        self._least_length = int.from_bytes(self._rest[:4], "little") if has_header else _HEADER

    def _write(self, piece: BorrowedBytes, is_last: bool) -> Written:
        """Writes the complete messages of bytes that begin where those that were used end."""
        written = write(self._options, piece.at, piece.length, self._start, is_last, self._kept)
        self._kept = written.kept
        return written


class Reader(_Pieces[bytes]):
    """Normalises a capture that comes in pieces of any sizes: `feed`, `finish` and `read_file` return its normal text.

    A reader runs one call at a time: a call that is made while another one runs, by a thread, a finaliser or a signal
    handler, raises RuntimeError and changes nothing. After a call that raised a fault or another exception, and after
    `finish`, each call raises ValueError. A piece of a wrong type changes nothing.
    """

    def __init__(self, limit: SupportsIndex = DEFAULT_LIMIT) -> None:
        super().__init__(with_limit(limit))

    def _result(self, output: bytes) -> bytes:
        return output


class LineReader(_Pieces[str]):
    """Shows a capture that comes in pieces, as `Reader` normalises one: `feed`, `finish` and `read_file` return its lines.

    The keywords are those of `Options`. With `keep_going`, the first fault is raised at the capture's end, or at a fault of a
    header. A reader takes memory for one piece, its lines and a cut message, for a capture of any length.

    >>> import io
    >>> "".join(LineReader(numbers=False).read_file(io.BytesIO(bytes.fromhex("10000000030002000000000000000000"))))
    'NLMSG_DONE flags 0x2 (MULTI)\\n  code 0\\n'
    """

    def __init__(self, limit: SupportsIndex = DEFAULT_LIMIT, **options: "Unpack[Options]") -> None:
        check_use(options, OF_LINES, "LineReader")
        super().__init__(of_lines(limit, options))

    def _result(self, output: bytes) -> str:
        return output.decode("ascii")
