"""The head of a golden file of lines, and the lines without what the file leaves out.

    # linkcap lines, format 4
    # leaves out: numbers, counters, padding, IFLA_MTU, probes
    # leaves out what varies: RTM_NEWLINK "br0" > IFLA_ADDRESS

The first line has the format version. The others, if there are any, name attributes and groups (`lines_filter.names_of`), the
probes of iproute2 (`lines_record.is_probe`), and positions: a message by its type, its link and, if it isn't about the link
itself, its header; then the attributes from the outside in. A position without attributes is the message as a whole. The scripts
linkjson, linkdiff and linkgold are installed with a copy of this file, of lines_filter and of lines_record.
"""
import re
from typing import AbstractSet, Dict, Iterable, Iterator, List, NamedTuple, Optional, Sequence, Set, Tuple

try:
    from . import lines_filter, lines_record
except ImportError:  # a script, outside the package
    import lines_filter  # type: ignore
    import lines_record  # type: ignore

SEPARATOR = " > "
PROBES = "probes"

_FORMAT, _NAMES, _POSITION = "# linkcap lines", "# leaves out:", "# leaves out what varies:"
_FIRST_LINE = re.compile(_FORMAT + ", format ([0-9]+)")
_LINK_TYPES = ("RTM_NEWLINK ", "RTM_DELLINK ", "RTM_GETLINK ", "RTM_SETLINK ")
_INDEX = re.compile(r' (?:if)?index (-?\d+|#\d+|"(?:[^"\\]|\\.)*")(?= |$)')
_LINK_ATTRIBUTE = re.compile(r"  (?:RTA_OIF|NHA_OIF) (.*)")
_NAME_ATTRIBUTE = re.compile(r'  IFLA_IFNAME (".*")')


class Head(NamedTuple):
    """The head of a golden file: the format version, if it has one; what its lines leave out, by name and by position; and the
    number of its lines."""
    version: Optional[int]
    names: Set[str]
    positions: Set[str]
    size: int


def is_in_head(line: str) -> bool:
    """Whether a line at the start of a file is one of its head."""
    return line.startswith((_FORMAT, _NAMES, _POSITION))


def read_head(lines: Sequence[str]) -> Head:
    """The head of a file with these lines, which may have none.

    # Errors

    ValueError if a name is that of no attribute or group.
    """
    size = next((number for number, line in enumerate(lines) if not is_in_head(line)), len(lines))
    version = _FIRST_LINE.match(lines[0]) if size else None
    words = [word.strip() for line in lines[:size] if line.startswith(_NAMES) for word in line[len(_NAMES):].split(",")]
    positions = {line[len(_POSITION):].strip() for line in lines[:size] if line.startswith(_POSITION)}
    names = {PROBES} & set(words)
    known = [word for word in words if word and word != PROBES]
    if known:
        names |= lines_filter.names_of(",".join(known))
    return Head(int(version[1]) if version else None, names, positions, size)


def head_lines(version: int, names: Sequence[str] = (), positions: Iterable[str] = ()) -> List[str]:
    """The lines of a head."""
    lines = [f"# linkcap lines, format {version}"] + ([f"{_NAMES} {', '.join(names)}"] if names else [])
    return lines + [f"{_POSITION} {position}" for position in sorted(positions)]


def without_probes(lines: Iterable[str], names: AbstractSet[str]) -> List[str]:
    """The lines without the probes of iproute2, if the names have them."""
    return [line for message in lines_filter.messages(lines)
            if PROBES not in names or not lines_record.is_probe(message) for line in message]


def without_positions(lines: Iterable[str], positions: AbstractSet[str]) -> List[str]:
    """The lines without the attributes and the messages at some positions."""
    if not positions:
        return list(lines)
    result: List[str] = []
    for key, message in keyed_messages(list(lines)):
        if key not in positions:
            result += _without_paths(message, {position[len(key) + len(SEPARATOR):] for position in positions
                                               if position.startswith(key + SEPARATOR)})
    return result


def _without_paths(message: List[str], paths: Set[str]) -> List[str]:
    kept = [line for path, line in zip(line_paths(message), message) if path not in paths and not _is_below(path, paths)]
    return kept if paths else message


def _is_below(path: str, paths: Set[str]) -> bool:
    return any(path.startswith(outer + SEPARATOR) for outer in paths)


def keyed_messages(lines: List[str]) -> Iterator[Tuple[str, List[str]]]:
    """The messages, each with the part of a position that names it."""
    messages = list(lines_filter.messages(lines))
    names = _names_of_links(messages)
    for message in messages:
        link = _link_of(message, names)
        words = [message[0].partition(" ")[0]] + ([link] if link else [])
        if not message[0].startswith(_LINK_TYPES) and len(message) > 1:
            words.append(_INDEX.sub("", message[1].strip()))
        yield " ".join(words), message


def _names_of_links(messages: List[List[str]]) -> Dict[str, str]:
    """The name of each link, in quotes, by its index."""
    names: Dict[str, str] = {}
    for message in messages:
        index = _INDEX.search(message[1]) if message[0].startswith(_LINK_TYPES) and len(message) > 1 else None
        name = next((match[1] for match in map(_NAME_ATTRIBUTE.fullmatch, message) if match), None)
        if index and name:
            names[index[1]] = name
    return names


def _link_of(message: List[str], names: Dict[str, str]) -> str:
    """The link of a message: its name in quotes, or its index, or nothing."""
    matches = [_INDEX.search(message[1]) if len(message) > 1 else None, *map(_LINK_ATTRIBUTE.fullmatch, message)]
    link = next((match[1] for match in matches if match), "")
    name = next((match[1] for match in map(_NAME_ATTRIBUTE.fullmatch, message) if match), None)
    return name or names.get(link) or (f"index {link}" if link.lstrip("-").isdigit() else link)


def line_paths(message: List[str]) -> Iterator[str]:
    """The path of each line of a message: the names of the attributes and structs from the outside in; nothing for the first
    line."""
    names: List[str] = []
    for line in message:
        level = lines_filter.depth(line)
        words = line.split()
        del names[max(0, level - 1):]
        if level:
            names.append(" ".join(words[:2]) if words[0] == "kind" else words[0])
        yield SEPARATOR.join(names)
