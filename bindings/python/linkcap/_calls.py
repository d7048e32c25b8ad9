"""The calls over a capture in memory."""
import enum
import json
from typing import TYPE_CHECKING, Any, Dict, List, NamedTuple, Optional, SupportsIndex

from . import _native
from ._fault import Refusal, failure, refusal, words_of
from ._native import BorrowedBytes, Capture, address_of, whole
from ._options import DEFAULT_LIMIT, OF_JSON, OF_LINES, CallOptions, Options, check_use, of_lines, with_limit
from ._writing import write_all

if TYPE_CHECKING:
    from typing_extensions import Unpack


class Measure(NamedTuple):
    """The sizes of a legal capture."""

    #: its messages
    frames: int
    #: the attribute headers in the bodies of its link messages, at all depths
    attributes: int
    #: the length of its normal text in bytes
    text_len: int


def _judge(capture: Capture, options: CallOptions) -> _native.Workspace:
    """The workspace of a call that found a capture legal, with its sizes; else raises its first `Fault`."""
    workspace = _native.take_workspace()
    if type(capture) is bytes:  # whose address ctypes passes by itself; a fault is found again below
        status = _native.library.linkcap_check(capture, len(capture), options.at, workspace.sizes_at, workspace.fault_at)
        if status == _native.OK:
            return workspace
    with BorrowedBytes(capture) as borrowed:
        status = _native.library.linkcap_check(borrowed.at, borrowed.length, options.at, workspace.sizes_at, workspace.fault_at)
        if status != _native.OK:
            raise failure(status, workspace.fault, options, whole(borrowed))
    return workspace


def check(capture: Capture, limit: SupportsIndex = DEFAULT_LIMIT) -> None:
    """Returns None for a legal capture. Raises the first `Fault` of any other."""
    _native.keep_workspace(_judge(capture, with_limit(limit)))


def measure(capture: Capture, limit: SupportsIndex = DEFAULT_LIMIT) -> Measure:
    """The sizes of a legal capture; else raises its first `Fault`."""
    workspace = _judge(capture, with_limit(limit))
    sizes = workspace.sizes
    result = Measure(sizes.frames, sizes.attributes, sizes.text_low + (sizes.text_high << 64))
    _native.keep_workspace(workspace)
    return result


def normalize(capture: Capture, limit: SupportsIndex = DEFAULT_LIMIT) -> bytes:
    """The normal text of a legal capture; else raises its first `Fault`, whose `written` is the normal text before it."""
    return write_all(with_limit(limit), capture)


def same(first: Capture, second: Capture, limit: SupportsIndex = DEFAULT_LIMIT, *, numbers: bool = True) -> bool:
    """Whether two legal captures mean the same: whether their normal texts are equal.

    Without `numbers`, the sequence number and the netlink port ID of each message, and those of the request's header that an
    NLMSG_ERROR repeats, are zeroed first: they change from run to run.

    If a capture isn't legal, raises the first `Fault` of the first one, or of the second one if the first is legal; its
    `side` is 1 or 2.
    """
    options = with_limit(limit) if numbers else CallOptions(limit, flags=_native.WITHOUT_NUMBERS)
    workspace = _native.take_workspace()
    fault, fault_at = workspace.fault, workspace.fault_at
    with BorrowedBytes(first) as one, BorrowedBytes(second) as other:
        status = _native.library.linkcap_same(one.at, one.length, other.at, other.length, options.at, fault_at)
        if status > _native.DIFFERENT:
            raise failure(status, fault, options, whole(other if fault.side == 2 else one))
    _native.keep_workspace(workspace)
    return bool(status == _native.OK)


def lines(capture: Capture, limit: SupportsIndex = DEFAULT_LIMIT, **options: "Unpack[Options]") -> str:
    """The lines of a legal capture that the keywords of `Options` select, as `linkshow` writes them; else raises its first `Fault`,
    whose `written` has the lines before it.

    >>> lines(bytes.fromhex("10000000030002000100000000000000"), numbers=False, offsets=True).splitlines()
    ['NLMSG_DONE flags 0x2 (MULTI) offset 0', '  code 0']
    """
    check_use(options, OF_LINES, "lines")
    return write_all(of_lines(limit, options), capture).decode("ascii")


class QuirkKind(enum.IntEnum):
    """Encodings that some kernels treat differently from their normal texts: the rows of linkcap's docs/kernels.md."""

    NESTED_PORT_SETTINGS = 101
    RESIZED_SETTINGS = 102
    PATH_DISCOVERY_OVER_ONE = 103
    LATER_PEER = 104
    LONG_ALIAS = 105
    NAME_WITHOUT_NUL = 106
    FLAG_WITH_PAYLOAD = 107
    BOOLEAN_OVER_ONE = 108
    STRAY_NESTED_BIT = 109
    FOREIGN_FUNCTION = 110
    HEADER_BYTE = 111
    SHORT_MAP = 112


class Quirk(NamedTuple):
    """An encoding that some kernels treat differently from its normal text."""

    kind: QuirkKind
    #: the start of its attribute, or the header's byte, in bytes from the capture's start
    offset: int
    #: for example "flag with a payload at 76"
    words: str


def _quirk(finding: _native.FindingStruct) -> Quirk:
    return Quirk(QuirkKind(finding.kind), finding.offset, words_of(finding))


def quirks(capture: Capture, limit: SupportsIndex = DEFAULT_LIMIT) -> List[Quirk]:
    """Each encoding of a legal capture that some kernels treat differently from its normal text, in the order of the bytes;
    else raises its first `Fault`. A normal text has none.

    >>> quirks(bytes.fromhex("20000000120001030000000000000000") + b"\\0\\1" + bytes(14))[0].words
    'second byte of the header of RTM_GETLINK at 17'
    """
    options, fault, count = with_limit(limit), _native.FindingStruct(), _native.Count()
    with BorrowedBytes(capture) as borrowed:
        capacity, status = 16, _native.NO_ROOM
        while status == _native.NO_ROOM:
            found = (_native.FindingStruct * capacity)()
            status = _native.library.linkcap_quirks(borrowed.at, borrowed.length, options.at, address_of(found), capacity,
                                                    address_of(count), address_of(fault))
            capacity = count.value
        if status != _native.OK:
            raise failure(status, fault, options, whole(borrowed))
    return [_quirk(found[index]) for index in range(count.value)]


def to_json(capture: Capture, limit: SupportsIndex = DEFAULT_LIMIT, **options: "Unpack[Options]") -> List[Dict[str, Any]]:
    """The messages of a legal capture as data, a dictionary each that `json.dumps` writes; else raises its first `Fault`.

    The keys are those of the program linkjson. The keywords are those of `Options` but `json`. The fault's `written` has a line
    of JSON for each message before it. For a long capture, `LineReader` with `json` returns these lines in pieces.

    >>> to_json(bytes.fromhex("10000000030002000000000000000000"), numbers=False)[0]["type"]
    'NLMSG_DONE'
    """
    check_use(options, OF_JSON, "to_json")
    options["json"] = True
    return [json.loads(line) for line in write_all(of_lines(limit, options), capture).splitlines()]


def why(capture: Capture, limit: SupportsIndex = DEFAULT_LIMIT) -> Optional[Refusal]:
    """Why a body is refused, if a capture's first fault is `Kind.REFUSED`; else None.

    >>> why(bytes.fromhex("28000000100000000000000000000000") + bytes(16) + bytes.fromhex("0700040001020300"))
    Refusal(words='IFLA_MTU: a payload of 3 bytes at 32', offset=32)
    """
    options = with_limit(limit)
    with BorrowedBytes(capture) as borrowed:
        return refusal(options, whole(borrowed))
