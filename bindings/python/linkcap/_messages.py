"""The messages of a capture, and their attributes."""
import builtins
import ctypes
import struct
from typing import TYPE_CHECKING, Iterator, List, NamedTuple, SupportsIndex

from . import _native
from ._fault import failure
from ._native import BorrowedBytes, Capture, address_of, whole
from ._options import DEFAULT_LIMIT, OF_ATTRIBUTES, CallOptions, Options, check_use, of_lines, with_limit
from ._writing import write_all
from .lines_filter import depth
from .lines_golden import SEPARATOR, line_paths

if TYPE_CHECKING:
    from typing_extensions import Unpack

_HEADER = struct.Struct("<IHHII")


class Message(NamedTuple):
    """A message of a capture, and its header."""

    #: where it begins, in bytes from the capture's start
    offset: int
    #: the message without its padding, which is a capture, too
    bytes: builtins.bytes
    #: for example 16 for RTM_NEWLINK
    type: int
    flags: int
    sequence_number: int
    #: the netlink port ID
    port_number: int

    def attributes(self) -> "List[Attribute]":
        """Its attributes, at all depths, each before those in it."""
        return _read(self, _ALL_LINES)

    def link_attributes(self) -> "List[LinkAttribute]":
        """The attributes of a link message with their bytes, at all depths, each before those in it. Messages of other types have
        none here, and what is in raw attributes isn't among them.

        >>> request = bytes.fromhex("280000001200010001000000000000000000000000000000000000000000000007000300") + b"lo\\0\\0"
        >>> [(a.offset, a.name, a.payload) for m in messages(request) for a in m.link_attributes()]
        [(32, 'IFLA_IFNAME', b'lo\\x00')]
        """
        return list(_read_link(self))


class Attribute(NamedTuple):
    """An attribute of a message, or a struct in an attribute, for example a next hop."""

    #: the message that has it
    message: Message
    #: the kernel's names from outside in, for example "IFLA_LINKINFO > IFLA_INFO_DATA > IFLA_VXLAN_ID"; of an attribute without a
    #: name the type, for example "kind 0x3fff"
    path: str
    #: what follows the name in its line, for example '10', '"vx0"' with its quotes, or '0x9 (Vf | SkipStats)'; nothing for an attribute
    #: with others in it
    value: str


class LinkAttribute(NamedTuple):
    """An attribute of a link message, as its bytes are."""

    #: where its header begins, in bytes from the capture's start
    offset: int
    #: its type, without flag bits
    type: int
    #: NLA_F_NESTED and NLA_F_NET_BYTEORDER of its type
    flags: int
    payload: builtins.bytes
    #: how many attributes it is inside
    depth: int
    #: for example "IFLA_VXLAN_ID"; empty if its list has no name for its type
    name: str
    #: the link kind, or the kind of port, whose data it holds or is in, for example "vxlan"; empty elsewhere
    link_kind: str


def messages(capture: Capture, limit: SupportsIndex = DEFAULT_LIMIT) -> Iterator[Message]:
    """Yields the messages of a legal capture, one after the other; of any other those before the first `Fault`, which it then
    raises.

    A bytes-like object can't be resized until the iterator has ended or is closed.

    >>> list(messages(bytes.fromhex("10000000010000000100000000000000")))[0].bytes.hex()
    '10000000010000000100000000000000'
    """
    options, found, fault = with_limit(limit), _native.MessageStruct(), _native.FindingStruct()
    return _messages(BorrowedBytes(capture), options, found, fault)


def _messages(capture: BorrowedBytes, options: CallOptions, found: _native.MessageStruct,
              fault: _native.FindingStruct) -> Iterator[Message]:
    offset, at, fault_at = 0, address_of(found), address_of(fault)
    with capture:
        while True:
            status = _native.library.linkcap_next_message(capture.at, capture.length, options.at, offset, at, fault_at)
            if status == _native.NONE:
                return
            if status != _native.OK:
                raise failure(status, fault, options, whole(capture))
            message = ctypes.string_at(capture.at + offset, found.length)
            yield Message(offset, message, *_HEADER.unpack_from(message)[1:])
            offset = found.next


#: the options by which lines of a legal message are written, whatever its length
_ALL_LINES = of_lines((1 << 32) - 1, {"numbers": False})


def attributes(capture: Capture, limit: SupportsIndex = DEFAULT_LIMIT, **options: "Unpack[Options]") -> Iterator[Attribute]:
    """Yields the attributes of a legal capture's messages, at all depths, each before those in it; of any other capture those before
    the first `Fault`, which it then raises. It takes memory for one message.

    The keywords are `only`, `link` and `without` of `Options`. An attribute in a peer has the peer's name in its path: the other
    end's name is "IFLA_LINKINFO > IFLA_INFO_DATA > VETH_INFO_PEER > IFLA_IFNAME".

    >>> request = bytes.fromhex("280000001200010001000000000000000000000000000000000000000000000007000300") + b"lo\\0\\0"
    >>> [(a.path, a.value) for a in attributes(request, only=["getlink"])]
    [('IFLA_IFNAME', '"lo"')]
    """
    check_use(options, OF_ATTRIBUTES, "attributes")
    return _attributes(messages(capture, limit), of_lines(limit, options))


def _attributes(found: Iterator[Message], options: CallOptions) -> Iterator[Attribute]:
    for message in found:
        yield from _read(message, options)


def _read(message: Message, options: CallOptions) -> List[Attribute]:
    """The attributes of a message that options select."""
    lines = write_all(options, message.bytes).decode("ascii").splitlines()
    return [Attribute(message, path, _value(path, line)) for path, line in zip(line_paths(lines), lines) if _is_attribute(line)]


def _read_link(message: Message) -> Iterator[LinkAttribute]:
    found, fault, position = _native.AttributeStruct(), _native.FindingStruct(), 0
    at, fault_at = address_of(found), address_of(fault)
    with BorrowedBytes(message.bytes) as capture:
        while True:
            status = _native.library.linkcap_next_attribute(capture.at, capture.length, _ALL_LINES.at, 0, position, at, fault_at)
            if status == _native.NONE:
                return
            if status != _native.OK:
                raise failure(status, fault, _ALL_LINES, whole(capture))
            position = found.payload
            yield LinkAttribute(message.offset + found.offset, found.type, found.flags,
                                message.bytes[position:position + found.length], found.depth, found.name.decode("ascii"),
                                found.link_kind.decode(errors="replace"))


def _is_attribute(line: str) -> bool:
    """Whether a line of a message is that of an attribute, or of a struct in one. Other lines at the first level are those of the
    header, `body` or `code`."""
    text = line.lstrip(" ")
    return depth(line) > 1 or depth(line) == 1 and (text.startswith("kind ") or not text[0].islower())


def _value(path: str, line: str) -> str:
    """What follows the name in a line."""
    return line.lstrip(" ")[len(path.rpartition(SEPARATOR)[2]) + 1:]
