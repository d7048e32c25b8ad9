"""Helpers of the tests: the repository's files, and the stored vectors."""
import os
import re
import sys
from typing import Any, List, Tuple

TOP = os.path.normpath(os.path.join(os.path.dirname(os.path.abspath(__file__)), "..", "..", ".."))
sys.path.append(os.path.join(TOP, "tools", "oracle"))
import deep                 # type: ignore[import]  # noqa: E402
import linkoracle           # type: ignore[import]  # noqa: E402
import linkshow             # type: ignore[import]  # noqa: E402
import vectors              # type: ignore[import]  # noqa: E402


def read(*names: str) -> bytes:
    with open(os.path.join(TOP, *names), "rb") as file:
        return file.read()


def sample(name: str) -> bytes:
    return read("samples", name)


def cases(kind: str) -> List[str]:
    """The stored cases of a kind, as docs/vectors.md describes them."""
    return [str(case) for case in vectors.cases(kind)]


def results(kind: str) -> List[str]:
    """The stored results of the cases of a kind."""
    return [str(result) for result in vectors.results(kind)]


def captures(kind: str) -> List[Tuple[int, List[bytes]]]:
    """The limit and the captures of each case of a kind."""
    result = []
    for case in cases(kind):
        limit, *words = case.split(" ")
        result.append((int(limit), [bytes.fromhex(word) for word in words]))
    return result


def deep_captures() -> List[Tuple[bytes, str]]:
    """Captures whose lists are as deep as 65 kB allow, and their lines, by the independent implementation."""
    return [(capture, str(linkshow.lines(capture)[0])) for capture in (deep.peers(), deep.next_hops())]


def clear_numbers(capture: bytes) -> bytes:
    """A legal capture in which sequence numbers and port IDs are zero: those of each message (netlink.h, struct nlmsghdr), and
    of the header that an NLMSG_ERROR of 36 bytes or more repeats after its code (struct nlmsgerr)."""
    out, at = bytearray(capture), 0
    while at < len(out):
        length, kind = int.from_bytes(out[at:at + 4], "little"), int.from_bytes(out[at + 4:at + 6], "little")
        for numbers in (8, 28) if kind == 2 and length >= 36 else (8,):
            out[at + numbers:at + numbers + 8] = bytes(8)
        at += (length + 3) // 4 * 4
    return bytes(out)


def is_legal(capture: bytes, limit: int) -> bool:
    """Whether a capture is legal, by the independent implementation."""
    return linkoracle.normal_text(capture, limit)[1] is None


def means_the_same(first: bytes, second: bytes, limit: int) -> bool:
    """Whether two legal captures mean the same, by the independent implementation."""
    return bool(linkoracle.same(first, second, limit))


def selected_lines(capture: bytes, without: str = "", **choice: Any) -> Tuple[str, str]:
    """The lines that options of linkshow select, and the words of the first fault or "", by the independent implementation."""
    text, fault = linkshow.lines(capture, omitted=linkshow.read_omitted(without) if without else (), **choice)
    return str(text), str(linkoracle.display(fault)) if fault else ""


def header_constants(prefix: str, *headers: str) -> List[Tuple[str, int]]:
    """The constants with a prefix in kernel headers, with their numbers; none if the headers aren't installed."""
    constants = []
    for header in headers:
        try:
            with open(os.path.join("/usr/include/linux", header), encoding="ascii") as file:
                text = file.read()
        except FileNotFoundError:
            return []
        pattern = r"^\s*(?:#define\s+)?(%s\w+)\s*=?\s*(0x[0-9a-f]+|[0-9]+)\b" % prefix
        constants += [(name, int(number, 0)) for name, number in re.findall(pattern, text, re.M)]
    return constants
