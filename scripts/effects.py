"""What a command leaves in a network namespace, as lines: which of them count, and which vary from run to run."""
import re
from collections import Counter

import lines_filter
import lines_golden

# The messages of `linkrec effect --all` that count: links, addresses, routes, rules, neighbours and forwarding entries, queueing
# disciplines, next hops, VLANs. The tables of settings don't: a random time is in each (NDTPA_REACHABLE_TIME).
TYPES = ("newlink", "newaddr", "newroute", "newrule", "newneigh", "newqdisc", "newnexthop", "newvlan")

# The states PERMANENT and NOARP (NUD_* of linux/neighbour.h) of entries that aren't learned; the types of addresses that the
# kernel enters itself (RTN_LOCAL to RTN_MULTICAST of linux/rtnetlink.h); and a hardware address of a group.
_LASTING = re.compile(r"  ndmsg .* state 0x(?:80|40|c0) .*")
_OWN_TYPE = re.compile(r"  ndmsg .* type [2-5] .*")
_GROUP_ADDRESS = re.compile(r"  NDA_LLADDR [0-9a-f][13579bdf]:.*")

# The major numbers of handles that the kernel gives to queueing disciplines, by one counter for all namespaces
# (qdisc_alloc_handle of net/sched/sch_api.c).
_ALLOCATED_HANDLE = re.compile(r"(?<= (?:handle|parent) )(?!ffff)[89a-f][0-9a-f]{3}(?=:)")


def comparable(lines):
    """The lines that count: without neighbours and forwarding entries that the kernel learned from traffic, or enters by
    itself; and with `auto` in place of a handle that it allocated."""
    return [_ALLOCATED_HANDLE.sub("auto", line) if line.startswith("  tcmsg ") else line
            for message in lines_filter.messages(lines) if _is_lasting(message) for line in message]


def _is_lasting(message):
    if not message[0].startswith("RTM_NEWNEIGH "):
        return True
    return bool(_LASTING.fullmatch(message[1])) and not _OWN_TYPE.fullmatch(message[1]) \
        and not any(map(_GROUP_ADDRESS.fullmatch, message))


def links(lines):
    """The names of the links, in quotes."""
    return {key.partition(" ")[2] for key, _ in lines_golden.keyed_messages(lines) if key.startswith("RTM_NEWLINK ")}


def varying_positions(first, second):
    """The positions at which the lines of two runs differ."""
    groups = [_groups(lines) for lines in (first, second)]
    keys = {*groups[0], *groups[1]}
    return {position for key in keys for position in _positions(key, *(group.get(key, []) for group in groups))}


def _groups(lines):
    """The messages by the part of a position that names them."""
    groups = {}
    for key, message in lines_golden.keyed_messages(lines):
        groups.setdefault(key, []).append(message)
    return groups


def _positions(key, first, second):
    """The positions at which messages of the same name differ. Those that both runs have don't count."""
    first, second = _without_common(first, second), _without_common(second, first)
    if len(first) != len(second):
        yield key
        return
    for a, b in zip(first, second):
        lines = [Counter(zip(lines_golden.line_paths(message), message)) for message in (a, b)]
        for path, _ in (lines[0] - lines[1]) + (lines[1] - lines[0]):
            yield key + lines_golden.SEPARATOR + path if path else key


def _without_common(messages, others):
    """The messages that the others don't have, sorted."""
    return sorted((Counter(map(tuple, messages)) - Counter(map(tuple, others))).elements())


def sort(lines):
    """The lines with the messages of each table sorted, but for links: the kernel's order depends on random numbers."""
    tables = []
    for message in lines_filter.messages(lines):
        name = message[0].partition(" ")[0]
        if not tables or tables[-1][0] != name:
            tables.append((name, []))
        tables[-1][1].append(message)
    return [line for name, table in tables for message in (table if name == "RTM_NEWLINK" else sorted(table)) for line in message]
