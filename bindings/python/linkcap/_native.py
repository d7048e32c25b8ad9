"""liblinkcap by ctypes: the library that is loaded, its structs, and the memory that its calls read and write.

Calls share no state. Python may run a finaliser or a signal handler between a native call and the line that reads its
result, and these may call linkcap in turn; so each call has separate structs and buffers while it runs.
"""
import ctypes
import importlib
import os
import sys
from types import TracebackType
from typing import TYPE_CHECKING, Any, Dict, List, Optional, Protocol, Type, Union, cast

if TYPE_CHECKING:
    from _typeshed import ReadableBuffer

    class _SupportsArrayInterface(Protocol):
        """numpy's arrays, which older stubs don't declare as bytes-like."""

        @property
        def __array_interface__(self) -> Dict[str, Any]: ...

    Capture = Union[ReadableBuffer, _SupportsArrayInterface]
elif sys.version_info >= (3, 12):
    from collections.abc import Buffer as Capture
else:
    Capture = Union[bytes, bytearray, memoryview]

# tools/declarations.py compares these constants, the structs and the types of the functions with linkcap.h.
VERSION = 3
MIN_LIMIT, DEFAULT_LIMIT = 16, 1048576
#: the size of a buffer for the words of any fault, or of any quirk
WORDS_ROOM = 127
NAME_ROOM = 64
OK, DIFFERENT, FAULT, WRONG, NO_ROOM, NO_MEMORY, NONE = range(7)
#: the forms of what linkcap_write writes
TEXT, LINES, JSON = range(3)
#: the flags of options
WITHOUT_NUMBERS, OFFSETS, KEEP_GOING = 1, 2, 4


class TextStruct(ctypes.Structure):
    _fields_ = [("bytes", ctypes.c_void_p), ("length", ctypes.c_size_t)]


class OptionsStruct(ctypes.Structure):
    _fields_ = [("only", TextStruct), ("link", TextStruct), ("without", TextStruct),
                *((name, ctypes.c_uint32) for name in ("limit", "flags", "form", "reserved"))]


class PieceStruct(ctypes.Structure):
    _fields_ = [("bytes", ctypes.c_void_p), ("length", ctypes.c_size_t), ("offset", ctypes.c_uint64),
                ("last", ctypes.c_uint32), ("reserved", ctypes.c_uint32)]


class ProgressStruct(ctypes.Structure):
    _fields_ = [(name, ctypes.c_uint64) for name in ("used", "written", "wanted")]


class FindingStruct(ctypes.Structure):
    _fields_ = [("kind", ctypes.c_uint32), ("side", ctypes.c_uint32), ("offset", ctypes.c_uint64)]


class SizesStruct(ctypes.Structure):
    _fields_ = [(name, ctypes.c_uint64) for name in ("frames", "attributes", "text_low", "text_high")]


class MessageStruct(ctypes.Structure):
    _fields_ = [("next", ctypes.c_uint64), ("length", ctypes.c_uint32), ("type", ctypes.c_uint32)]


class AttributeStruct(ctypes.Structure):
    _fields_ = [*((name, ctypes.c_uint64) for name in ("offset", "payload", "length")),
                *((name, ctypes.c_uint32) for name in ("type", "flags", "depth")),
                *((name, ctypes.c_char * NAME_ROOM) for name in ("name", "link_kind"))]


# These calls of CPython yield the address of the bytes of an object, and aren't interrupted.
address_of_bytes = ctypes.pythonapi.PyBytes_AsString
address_of_bytes.argtypes, address_of_bytes.restype = [ctypes.py_object], ctypes.c_void_p
_as_read_buffer = ctypes.pythonapi.PyObject_AsReadBuffer
_as_read_buffer.argtypes, _as_read_buffer.restype = [ctypes.py_object, ctypes.c_void_p, ctypes.c_void_p], ctypes.c_int
_ONE_BYTE = ctypes.create_string_buffer(1)
#: an address that is never null, for empty buffers
NOT_NULL = ctypes.addressof(_ONE_BYTE)


class BorrowedBytes:
    """The address and the length of a bytes-like object. It isn't copied, and can't be resized while this exists."""

    __slots__ = ("at", "length", "_held")

    def __init__(self, capture: Capture) -> None:
        self._held: Union[bytes, memoryview]
        self.at: int
        self.length: int
        if type(capture) is bytes:  # which is what most callers have, and is never resized
            self._held, self.at, self.length = capture, address_of_bytes(capture), len(capture)
            return
        # A memoryview that is deleted releases the object, also if a signal handler raises an exception before `with`.
        self._held = memoryview(cast(bytes, capture))
        at, length = ctypes.c_void_p(), ctypes.c_ssize_t()
        _as_read_buffer(self._held, ctypes.addressof(at), ctypes.addressof(length))
        self.at, self.length = at.value or NOT_NULL, length.value

    def __enter__(self) -> "BorrowedBytes":
        return self

    def __exit__(self, kind: Optional[Type[BaseException]], error: Optional[BaseException],
                 traceback: Optional[TracebackType]) -> None:
        if isinstance(self._held, memoryview):
            self._held.release()


def whole(capture: BorrowedBytes) -> PieceStruct:
    """A whole capture as a piece."""
    return PieceStruct(capture.at, capture.length, 0, True, 0)


#: a number that a call writes
Count = ctypes.c_uint64

#: types of buffers that are made once: ctypes makes a type for each size
_BUFFERS = {size: ctypes.c_char * size for size in (512, 4096, 65536)}


class Output:
    """A buffer that one call writes to, of at least a size."""

    __slots__ = ("at", "capacity", "_array")

    def __init__(self, capacity: int) -> None:
        if capacity > sys.maxsize:
            raise MemoryError("the result is longer than memory")
        self.capacity: int = next((size for size in _BUFFERS if size >= capacity), capacity)
        self._array: Any = (_BUFFERS.get(self.capacity) or ctypes.c_char * self.capacity)()
        self.at = ctypes.addressof(self._array)

    def take(self, length: int) -> bytes:
        """The first `length` bytes."""
        taken: bytes = self._array[:length]
        return taken


class Workspace:
    """What one call passes to the library: structs, and a buffer for a small output."""

    #: the size of the buffer
    SMALL = 4096

    __slots__ = ("piece", "progress", "fault", "sizes", "piece_at", "progress_at", "fault_at", "sizes_at", "out")

    def __init__(self) -> None:
        self.piece, self.progress, self.fault, self.sizes = PieceStruct(), ProgressStruct(), FindingStruct(), SizesStruct()
        self.piece_at, self.progress_at = address_of(self.piece), address_of(self.progress)
        self.fault_at, self.sizes_at = address_of(self.fault), address_of(self.sizes)
        self.out = Output(self.SMALL)


_unused: List[Workspace] = []
#: keeps a workspace, whose results have been read, for a later call; without this call it is freed
keep_workspace = _unused.append


def take_workspace() -> Workspace:
    """A workspace that no other call has: list.pop isn't interrupted."""
    try:
        return _unused.pop()
    except IndexError:
        return Workspace()


def address_of(value: Union[ctypes.Structure, ctypes.c_uint64, "ctypes.Array[Any]"]) -> int:
    return ctypes.addressof(value)


def _candidates() -> List[str]:
    """The paths of the library that are tried in turn. If this package contains the library, no other is tried."""
    here = os.path.dirname(os.path.abspath(__file__))
    bundled_path = os.path.join(here, "liblinkcap.so")
    if os.path.exists(bundled_path):
        return [bundled_path]
    folders: List[str] = []
    try:
        folders.append(importlib.import_module("_linkcap_editable").FOLDER)
    except ImportError:
        pass
    if os.environ.get("LINKCAP_LIB_DIR"):
        folders.append(os.environ["LINKCAP_LIB_DIR"])
    paths = [os.path.join(folder, "liblinkcap.so") for folder in folders]
    return paths or [f"liblinkcap.so.{VERSION}"]


def _open() -> ctypes.CDLL:
    errors = []
    for name in _candidates():
        try:
            return ctypes.CDLL(name)
        except OSError as error:
            errors.append(str(error))
    raise ImportError(f"{'; '.join(errors)}: name the library's folder in LINKCAP_LIB_DIR, here or at pip install")


def _load() -> ctypes.CDLL:
    library = _open()
    # Addresses are the numbers of `ctypes.addressof`.
    bytes_, number, address = [ctypes.c_void_p, ctypes.c_size_t], ctypes.c_uint32, ctypes.c_void_p
    signatures: Dict[str, List[Any]] = {
        "linkcap_version": [],
        "linkcap_format": [],
        "linkcap_check": [*bytes_, address, address, address],
        "linkcap_next_message": [*bytes_, address, ctypes.c_uint64, address, address],
        "linkcap_next_attribute": [*bytes_, address, ctypes.c_uint64, ctypes.c_uint64, address, address],
        "linkcap_quirks": [*bytes_, address, *bytes_, address, address],
        "linkcap_same": [*bytes_, *bytes_, address, address],
        "linkcap_unknown_word": [address, *bytes_, address],
        "linkcap_why": [address, address, *bytes_, address, address],
        "linkcap_words": [address, *bytes_, address],
        "linkcap_write": [address, address, *bytes_, address, address],
    }
    version = library.linkcap_version()
    if version != VERSION:
        raise ImportError(f"{library._name} has version {version} of the interface, and {VERSION} is needed")
    for name, arguments in signatures.items():
        call = getattr(library, name)
        call.argtypes, call.restype = arguments, number
    return library


#: each function returns an enum linkcap_status
library = _load()
#: the path of the library, as it was given to the loader
LIBRARY_PATH: str = library._name
#: the format version of normal texts and lines, as CHANGELOG.md has it
FORMAT: int = library.linkcap_format()

