"""Options of calls."""
import operator
from typing import AbstractSet, Iterable, Optional, SupportsIndex, TypedDict, Union

from . import _native
from ._native import BorrowedBytes
from ._types import MessageType, type_numbers

DEFAULT_LIMIT = _native.DEFAULT_LIMIT
#: the words for a limit that is none
LIMIT_RANGE = f"a limit is a number from {_native.MIN_LIMIT} to 4294967295"
#: how many types, and how many attributes, options name at most
MOST_WORDS = 32


def checked_limit(limit: SupportsIndex) -> int:
    """A limit as an int. Raises TypeError if it is no integer, and ValueError if it is out of range."""
    number = operator.index(limit)
    if not _native.MIN_LIMIT <= number < 1 << 32:
        raise ValueError(LIMIT_RANGE)
    return number


class Options(TypedDict, total=False):
    """The keywords of `lines`, `to_json` and `LineReader`; `attributes`, `golden` and `same` take those that they name. They are the
    options of the program linkshow:

    - `only`: only messages of these types, at most 32 of them, by name or number: `only=["newlink", 17]`;
    - `link`: only messages about this link, by name, alternative name or index;
    - `without`: no attributes of these names, at most 32 of them, with all that they nest, and none of these groups of linkshow(1):
      `without=["IFLA_MTU", "counters"]`;
    - `numbers`: whether sequence numbers and netlink port IDs, which change from run to run, are shown or compared. By default
      they are, except in golden files;
    - `offsets`: each message's first line ends with its offset in the capture, in bytes;
    - `keep_going`: messages with a fault in their body are shown too, in hex, and those after them. The first `Fault` is raised
      nevertheless, and its `written` has all these lines;
    - `json`: each message is an object of JSON, on a line of its own.

    A keyword that a call doesn't take raises TypeError, and a name that isn't known ValueError.
    """

    only: Optional[Iterable[MessageType]]
    link: Union[str, int, None]
    without: Iterable[str]
    numbers: bool
    offsets: bool
    keep_going: bool
    json: bool


class CallOptions:
    """The options of a call as the library reads them, in a struct. Its address is valid as long as this exists, and calls only read it."""

    __slots__ = ("at", "expansion", "_struct", "_texts")

    def __init__(self, limit: SupportsIndex, form: int = _native.TEXT, flags: int = 0, only: bytes = b"", link: bytes = b"",
                 without: bytes = b"") -> None:
        self._texts = [BorrowedBytes(text) for text in (only, link, without)]
        structs = (_native.TextStruct(text.at, text.length) for text in self._texts)
        self._struct = _native.OptionsStruct(*structs, checked_limit(limit), flags, form, 0)
        self.at = _native.address_of(self._struct)
        #: how many times as long as its capture an output mostly is, at most
        self.expansion = 1 if form == _native.TEXT else 4


_DEFAULT = CallOptions(DEFAULT_LIMIT)


def with_limit(limit: SupportsIndex) -> CallOptions:
    """The options with a limit. Those with the default limit are made once."""
    return _DEFAULT if limit is DEFAULT_LIMIT else CallOptions(limit)


def _joined(words: Iterable[object]) -> bytes:
    """A list of words as the library reads it. Raises ValueError for an empty word, one with a comma, or more than 32."""
    texts = [str(word) for word in words]
    for text in texts:
        if not text or "," in text:
            raise ValueError(f"{text!r} is no name")
    if len(texts) > MOST_WORDS:
        raise ValueError("a selection names at most 32 types, and at most 32 attributes")
    return ",".join(texts).encode()


def _excluded(without: Iterable[str]) -> bytes:
    """The list of names that are left out. Raises ValueError for the first one that isn't known, and TypeError for what isn't
    a list of texts."""
    if isinstance(without, str):
        raise TypeError(f"without is a list of names, as [{without!r}]")
    words = list(without)
    for word in words:
        if not isinstance(word, str):
            raise TypeError(f"a name of an attribute or a group is a text, and not {word!r}")
    names = _joined(words)
    if names:
        options, size, out = CallOptions(DEFAULT_LIMIT, without=names), _native.Count(), _native.Output(len(names))
        status = _native.library.linkcap_unknown_word(options.at, out.at, out.capacity, _native.address_of(size))
        if status != _native.NONE:
            raise ValueError(f"no attribute or group is called {out.take(size.value).decode()!r}")
    return names


def _word(link: Union[str, int, None]) -> bytes:
    """The name or the index of a link; an empty word for None, which means any link."""
    if link is None:
        return b""
    if link == "":
        raise ValueError("a link has a name or an index")
    if isinstance(link, str):
        return link.encode()
    if isinstance(link, bool) or not hasattr(link, "__index__"):
        raise TypeError(f"a link has a name, which is a text, or an index, and not {link!r}")
    return str(operator.index(link)).encode()


#: the keywords that some calls use
OF_ATTRIBUTES = frozenset({"only", "link", "without"})
OF_GOLDEN = OF_ATTRIBUTES | {"numbers"}
OF_JSON = OF_GOLDEN | {"offsets", "keep_going"}
OF_LINES = OF_JSON | {"json"}


def check_use(options: Options, used: AbstractSet[str], call: str) -> None:
    """Raises TypeError for a keyword that a call doesn't take."""
    for name in options:
        if name not in used:
            raise TypeError(f"{call}() got an unexpected keyword argument {name!r}")


def of_lines(limit: SupportsIndex, options: Options) -> CallOptions:
    """The options of a call that writes lines."""
    flags = 0 if options.get("numbers", True) else _native.WITHOUT_NUMBERS
    flags |= _native.OFFSETS if options.get("offsets") else 0
    flags |= _native.KEEP_GOING if options.get("keep_going") else 0
    only = options.get("only")
    types = b"" if only is None else _joined(type_numbers(only))
    form = _native.JSON if options.get("json") else _native.LINES
    return CallOptions(limit, form, flags, types, _word(options.get("link")), _excluded(options.get("without", ())))
