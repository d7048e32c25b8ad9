"""What the library writes of captures: normal text, lines and JSON."""
from typing import List, NamedTuple, Optional

from . import _native
from ._fault import Fault, failure, first_fault
from ._native import BorrowedBytes, Capture, address_of
from ._options import CallOptions


class Written(NamedTuple):
    """How far the writing of a piece came."""

    #: the bytes of the piece of which everything is written
    used: int
    output: bytes
    #: the first fault of the capture, if messages after it are written too
    kept: Optional[Fault]


def write(options: CallOptions, at: int, length: int, offset: int, is_last: bool, kept: Optional[Fault] = None) -> Written:
    """Writes the whole messages of the bytes at an address, which are a piece at an offset of a capture.

    Raises the fault at which the writing stops, or `kept`, the first fault of the pieces before, if there is one. Its `written`
    is what was written of this piece.
    """
    progress, fault = _native.ProgressStruct(), _native.FindingStruct()
    outputs: List[bytes] = []
    used, capacity, status = 0, options.expansion * length + 256, _native.NO_ROOM
    while status == _native.NO_ROOM:
        out = _native.Output(capacity)
        piece = _native.PieceStruct(at + used, length - used, offset + used, is_last, 0)
        status = _native.library.linkcap_write(options.at, address_of(piece), out.at, out.capacity, address_of(progress),
                                               address_of(fault))
        outputs.append(out.take(progress.written))
        if status == _native.FAULT and fault.offset < offset + used + progress.used:
            # The message with the fault is written, and those after it are to be.
            kept = kept or first_fault(fault, options, piece)
            status = _native.NO_ROOM
        used += progress.used
        capacity = max(progress.wanted, options.expansion * (length - used) + 256)
    output = outputs[0] if len(outputs) == 1 else b"".join(outputs)
    if status == _native.FAULT and kept:
        kept.written = output
        raise kept
    if status != _native.OK:
        raise failure(status, fault, options, piece, output)
    return Written(used, output, kept)


def _write_small(options: CallOptions, capture: bytes) -> Optional[bytes]:
    """The output of a capture; None if it is longer than a workspace's buffer, or the capture has a fault."""
    workspace = _native.take_workspace()
    out, piece = workspace.out, workspace.piece
    piece.bytes, piece.length, piece.last = _native.address_of_bytes(capture), len(capture), True
    status = _native.library.linkcap_write(options.at, workspace.piece_at, out.at, out.capacity, workspace.progress_at,
                                           workspace.fault_at)
    output = out.take(workspace.progress.written) if status == _native.OK else None
    _native.keep_workspace(workspace)
    return output


def write_all(options: CallOptions, capture: Capture) -> bytes:
    """Writes a whole capture. Raises its first fault, whose `written` is what was written."""
    if type(capture) is bytes and options.expansion * len(capture) <= _native.Workspace.SMALL:
        output = _write_small(options, capture)
        if output is not None:
            return output
    with BorrowedBytes(capture) as borrowed:
        written = write(options, borrowed.at, borrowed.length, 0, True)
    if written.kept:
        written.kept.written = written.output
        raise written.kept
    return written.output
