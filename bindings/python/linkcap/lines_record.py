"""Lines of linkshow with what a record knows: names in place of the indexes of links, the namespace of each message, and what
the kernel refused.

A record is a file beside a capture, as `linkrec run -o made.bin` writes it: made.bin.record, a line of JSON for each message.
Lines come as linkshow --offsets writes them. In the lines that these functions take from each other a message's first line ends
with its namespace, as ` namespace 2`, but for the first one; in files there is a line `# namespace 2` where it changes. This
file imports no other file of the package, since the scripts linkjson, linkdiff and linkgold are installed with a copy of it.
"""
import json
import re
import zlib
from typing import Any, Dict, Iterable, Iterator, List, Set, Tuple

Entry = Dict[str, Any]

FORMAT = 1
SUFFIX = ".record"

# The attributes with indexes of links, in format version 4 of the lines.
LINK_INDEXES = frozenset("""
    BRIDGE_QUERIER_IPV6_PORT BRIDGE_QUERIER_IP_PORT IFLA_AMT_LINK IFLA_BOND_ACTIVE_SLAVE IFLA_BOND_PRIMARY
    IFLA_BRIDGE_CFM_MEP_CREATE_IFINDEX IFLA_BRIDGE_MRP_INFO_I_IFINDEX IFLA_BRIDGE_MRP_INFO_P_IFINDEX
    IFLA_BRIDGE_MRP_INFO_S_IFINDEX IFLA_BRIDGE_MRP_INSTANCE_P_IFINDEX IFLA_BRIDGE_MRP_INSTANCE_S_IFINDEX
    IFLA_BRIDGE_MRP_IN_ROLE_I_IFINDEX IFLA_BRPORT_BACKUP_PORT IFLA_DSA_CONDUIT IFLA_GRE_LINK IFLA_HSR_INTERLINK
    IFLA_HSR_SLAVE1 IFLA_HSR_SLAVE2 IFLA_IPTUN_LINK IFLA_LINK IFLA_MASTER IFLA_NEW_IFINDEX IFLA_VTI_LINK IFLA_VXLAN_LINK
    IFLA_XFRM_LINK LWT_XFRM_LINK MDBA_MDB_EATTR_IFINDEX MDBE_ATTR_IFINDEX NDA_IFINDEX NDA_MASTER NDTPA_IFINDEX
    NETCONFA_IFINDEX NHA_MASTER NHA_OIF RTA_IIF RTA_OIF SEG6_LOCAL_IIF SEG6_LOCAL_OIF""".split())

# What a process sends for the namespace of another process or of a descriptor.
NAMESPACE_REFERENCES = {"IFLA_NET_NS_PID": "pid", "IFLA_NET_NS_FD": "fd"}

# A message with one of these is about the links of another namespace.
_ELSEWHERE = frozenset({"IFLA_IF_NETNSID", "IFA_TARGET_NETNSID"})

_OFFSET = re.compile(r" offset ([0-9]+)$")
_NAMESPACE = re.compile(r" namespace ([0-9]+)(?= offset [0-9]+$|$)")
_NAMESPACE_LINE = re.compile(r"# namespace ([0-9]+)")
_ATTRIBUTE = re.compile(r"( +)([A-Z]\w*)( nested)? ([0-9]+)( \(.*\))?")
_HEADER = re.compile(r"( +[a-z]\w* (?:.* )?(?:if)?index )([0-9]+)(?= |$)")
_CREATE = re.compile(r"RTM_NEWLINK .*\bCREATE\b")
_NO_INDEX = {0, 0xFFFFFFFF}  # no link; and TCM_IFINDEX_MAGIC_BLOCK of linux/rtnetlink.h, a block of filters

_REFUSAL = re.compile(r"  refused: (?:E[A-Z0-9]+|error [0-9]+)(?: \(.*\))?")

# What iproute2's `ip link` sends first, to learn whether the kernel supports RTM_NEWLINK. It is always refused.
_PROBE = re.compile(r"RTM_NEWLINK flags 0x5 \(REQUEST \| ACK\)(?: seq 0 port 0)?(?: namespace [0-9]+)?(?: offset [0-9]+)?")
_PROBE_HEADER = re.compile(r'  ifinfomsg family 0 \(AF_UNSPEC\) type 0(?: index 0)? flags 0x0 change 0x0')


class RecordFault(ValueError):
    """A record that can't be read, or that isn't of its capture."""


def read_record(text: str, capture: bytes) -> Dict[int, Entry]:
    """The entries of a record by the offsets of their messages.

    # Errors

    RecordFault if a line has another format, or a message of the capture has another entry or none.
    """
    entries: Dict[int, Entry] = {}
    for number, line in enumerate(text.splitlines(), 1):
        try:
            entry = json.loads(line)
            if number == 1 and entry["record"] != FORMAT:
                raise RecordFault(f"a record of format {entry['record']}, which isn't known")
            if number > 1:
                entries[int(entry["offset"])] = entry
        except (ValueError, LookupError, TypeError) as error:
            raise error if isinstance(error, RecordFault) else RecordFault(f"line {number} isn't of a record") from None
    for offset, message in _messages_of(capture):
        if entries.get(offset, {}).get("crc32") != zlib.crc32(message):
            raise RecordFault(f"a record of another capture, without the message at {offset}: remove it")
    return entries


def record_text(entries: Iterable[Entry]) -> str:
    """The record with these entries: a line of JSON for each."""
    return "".join(json.dumps(line) + "\n" for line in [{"record": FORMAT}, *entries])


def _messages_of(capture: bytes) -> Iterator[Tuple[int, bytes]]:
    """The offset and the bytes of each message of a capture, up to bytes that are no whole message."""
    offset = 0
    while len(capture) - offset >= 16:
        length = int.from_bytes(capture[offset:offset + 4], "little")
        if not 16 <= length <= len(capture) - offset:
            return
        yield offset, bytes(capture[offset:offset + length])
        offset += (length + 3) // 4 * 4


class Names:
    """What is shown in place of indexes. An index that the record doesn't name is numbered in order of appearance, in each
    namespace by itself."""

    def __init__(self) -> None:
        self._numbers: Dict[Tuple[int, int], int] = {}

    def annotated(self, message: List[str], entry: Entry, reasons: bool = False) -> List[str]:
        """The lines of a message with what its entry knows; with the kernel's words for what it refused, if `reasons`."""
        words = {line.split()[0] for line in message}
        lines = [self._named(line, message[0], words, entry) for line in message]
        if entry["namespace"] != 1:
            lines = [_in_namespace(lines[0], entry["namespace"]), *lines[1:]]
        if "error" in entry:
            lines = [*lines, f"  refused: {entry['error']}" + (f" ({entry['reason']})" if reasons else "")]
        return lines

    def _named(self, line: str, first_line: str, words: Set[str], entry: Entry) -> str:
        """A line of a message whose lines begin with these words, with names in place of indexes."""
        attribute = _ATTRIBUTE.fullmatch(line)
        if attribute and attribute[2] in NAMESPACE_REFERENCES:
            number = entry.get("namespaces", {}).get(f"{NAMESPACE_REFERENCES[attribute[2]]} {attribute[4]}")
            return f"{attribute[1]}{attribute[2]}{attribute[3] or ''} netns {number}" if number else line
        if "names" not in entry or words & _ELSEWHERE:
            return line
        if attribute and attribute[2] in LINK_INDEXES:
            if attribute[2] == "IFLA_NEW_IFINDEX" or attribute[2] == "IFLA_LINK" and "IFLA_LINK_NETNSID" in words:
                return line
            return f"{attribute[1]}{attribute[2]}{attribute[3] or ''} {self._name(attribute[4], entry)}"
        header = _HEADER.match(line)
        if header and not self._is_chosen(line, header[2], first_line, entry):
            return header[1] + self._name(header[2], entry) + line[header.end():]
        return line

    @staticmethod
    def _is_chosen(line: str, index: str, first_line: str, entry: Entry) -> bool:
        """Whether a request chooses the index of a new link, which therefore has no name yet."""
        return bool(line.lstrip().startswith("ifinfomsg") and _CREATE.match(first_line) and index not in entry["names"])

    def _name(self, index: str, entry: Entry) -> str:
        """What is shown for an index: its name in quotes, or a number in order of appearance."""
        if int(index) in _NO_INDEX:
            return index
        if index in entry["names"]:
            return f'"{entry["names"][index]}"'
        place = entry["namespace"], int(index)
        return f"#{self._numbers.setdefault(place, len(self._numbers) + 1)}"


def annotated(lines: Iterable[str], entries: Dict[int, Entry], reasons: bool = False) -> Iterator[str]:
    """The lines of a capture, which have offsets, with what a record knows."""
    names, message = Names(), []  # type: Names, List[str]
    for line in [*lines, ""]:
        if message and not line.startswith(" "):
            yield from names.annotated(message, entries[offset_of(message)], reasons)
            message = []
        message.append(line)


def offset_of(message: List[str]) -> int:
    """The offset of a message, whose first line has it."""
    match = _OFFSET.search(message[0])
    assert match, "lines with offsets"
    return int(match[1])


def without_offsets(lines: Iterable[str]) -> Iterator[str]:
    """The lines without the offsets of their messages."""
    for line in lines:
        yield line if line.startswith(" ") else _OFFSET.sub("", line)


def _in_namespace(line: str, namespace: int) -> str:
    """The first line of a message with its namespace, before its offset if it has one."""
    offset = _OFFSET.search(line)
    end = offset.start() if offset else len(line)
    return f"{line[:end]} namespace {namespace}{line[end:]}"


def from_file(lines: Iterable[str]) -> Iterator[str]:
    """The lines of a file, without its lines about namespaces: the messages' first lines have them."""
    namespace = 1
    for line in lines:
        change = _NAMESPACE_LINE.fullmatch(line)
        if change:
            namespace = int(change[1])
        elif line.startswith(" ") or namespace == 1:
            yield line
        else:
            yield _in_namespace(line, namespace)


def for_file(lines: Iterable[str]) -> Iterator[str]:
    """The lines as a file has them: with a line where the namespace changes."""
    namespace = 1
    for line in lines:
        if not line.startswith(" "):
            match = _NAMESPACE.search(line)
            now = int(match[1]) if match else 1
            if now != namespace:
                yield f"# namespace {now}"
            namespace, line = now, _NAMESPACE.sub("", line)
        yield line


def is_refusal(line: str) -> bool:
    """Whether a line says that the kernel refused its message."""
    return bool(_REFUSAL.fullmatch(line))


def is_probe(message: List[str]) -> bool:
    """Whether a message is a probe of iproute2."""
    rest = [line for line in message[1:] if not line.startswith("  refused: ENODEV")]
    return bool(_PROBE.fullmatch(message[0]) and len(rest) == 1 and _PROBE_HEADER.fullmatch(rest[0]))
