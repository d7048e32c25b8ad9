"""Captures of Linux netlink link messages: checked, measured, normalised, compared and shown.

A capture is a byte string of netlink messages, each at a multiple of 4: any bytes-like object whose bytes are contiguous,
for example bytes, bytearray, memoryview, mmap, array or a numpy array. It isn't copied. Nobody may write to it while a call runs.
A capture is legal if it has no `Fault`. Its normal text is its canonical form: two legal captures mean the same if and only if
their normal texts are equal. `limit` is the greatest length in bytes that a message, read or written, may have, from 16 to
4294967295.

Calls are allowed

- in threads: all calls, at the same time. One Reader runs one call at a time;
- in finalisers (`__del__`, weakref callbacks), signal handlers of the module signal, and trace functions: all calls, even
  if they interrupt another call of linkcap. The result of that call doesn't change. While a call of a Reader is interrupted,
  a second call of the same Reader raises RuntimeError, and the first one continues;
- in the forked child of a process with threads, which the method "fork" of `multiprocessing` makes: no call. Use the method
  "spawn".

The package calls the library liblinkcap.so: the one in this package if there is one, otherwise the one in the folder that
LINKCAP_LIB_DIR names, otherwise the one that the loader finds. LIBRARY_PATH is its name. docs/languages.md of linkcap
is the page for callers. `python -m linkcap` normalises, compares and shows files.
"""
from ._calls import Measure, Quirk, QuirkKind, check, lines, measure, normalize, quirks, same, to_json, why
from ._fault import Fault, Kind, Refusal
from ._golden import golden
from ._messages import Attribute, LinkAttribute, Message, attributes, messages
from ._native import FORMAT, LIBRARY_PATH, Capture
from ._options import DEFAULT_LIMIT, Options
from ._reader import LineReader, Reader
from ._record import RecordError, Recording, record

__version__ = "0.1.0"

__all__ = ["DEFAULT_LIMIT", "FORMAT", "LIBRARY_PATH", "Attribute", "Capture", "Fault", "Kind", "LineReader", "LinkAttribute", "Measure", "Message",
           "Options", "Quirk", "QuirkKind", "Reader", "RecordError", "Recording", "Refusal", "attributes", "check", "golden", "lines",
           "measure", "messages", "normalize", "quirks", "record", "same", "to_json", "why"]
