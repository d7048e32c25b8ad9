"""Names of message types."""
from typing import Dict, Iterable, List, SupportsIndex, Union
import operator

#: the names of linux/netlink.h and linux/rtnetlink.h, in lower case without NLMSG_ and RTM_, which `linkshow --only` takes
NAMES: Dict[str, int] = {
    "noop": 1, "error": 2, "done": 3, "overrun": 4, "tstamp": 15,
    "newlink": 16, "dellink": 17, "getlink": 18, "setlink": 19,
    "newaddr": 20, "deladdr": 21, "getaddr": 22,
    "newroute": 24, "delroute": 25, "getroute": 26,
    "newneigh": 28, "delneigh": 29, "getneigh": 30,
    "newrule": 32, "delrule": 33, "getrule": 34,
    "newqdisc": 36, "delqdisc": 37, "getqdisc": 38,
    "newtclass": 40, "deltclass": 41, "gettclass": 42,
    "newtfilter": 44, "deltfilter": 45, "gettfilter": 46,
    "newaction": 48, "delaction": 49, "getaction": 50,
    "newprefix": 52,
    "newmulticast": 56, "delmulticast": 57, "getmulticast": 58,
    "newanycast": 60, "delanycast": 61, "getanycast": 62,
    "newneightbl": 64, "getneightbl": 66, "setneightbl": 67,
    "newnduseropt": 68,
    "newaddrlabel": 72, "deladdrlabel": 73, "getaddrlabel": 74,
    "getdcb": 78, "setdcb": 79,
    "newnetconf": 80, "delnetconf": 81, "getnetconf": 82,
    "newmdb": 84, "delmdb": 85, "getmdb": 86,
    "newnsid": 88, "delnsid": 89, "getnsid": 90,
    "newstats": 92, "getstats": 94, "setstats": 95,
    "newcachereport": 96,
    "newchain": 100, "delchain": 101, "getchain": 102,
    "newnexthop": 104, "delnexthop": 105, "getnexthop": 106,
    "newlinkprop": 108, "dellinkprop": 109, "getlinkprop": 110,
    "newvlan": 112, "delvlan": 113, "getvlan": 114,
    "newnexthopbucket": 116, "delnexthopbucket": 117, "getnexthopbucket": 118,
    "newtunnel": 120, "deltunnel": 121, "gettunnel": 122,
}

#: a type's number, or its name: 16, "newlink" or "RTM_NEWLINK"
MessageType = Union[SupportsIndex, str]


def type_number(message_type: MessageType) -> int:
    """The number of a type."""
    if not isinstance(message_type, str):
        number = operator.index(message_type)
        if not 0 <= number < 1 << 16:
            raise ValueError(f"a message type is a number from 0 to 65535, not {number}")
        return number
    name = message_type.lower()
    for prefix in ("rtm_", "nlmsg_"):
        if name.startswith(prefix):
            name = name[len(prefix):]
    if name not in NAMES:
        raise ValueError(f"no message type {message_type!r}: known are {', '.join(NAMES)}, and numbers")
    return NAMES[name]


def type_numbers(message_types: Iterable[MessageType]) -> List[int]:
    """The numbers of types, at least one.

    Raises TypeError for a single name, which would be read as the list of its letters or bytes, and ValueError for no type: the
    other languages take an empty list for all types.
    """
    if isinstance(message_types, (str, bytes, bytearray)):
        raise TypeError(f"only is a list of message types, as ['newlink'], and not {message_types!r}")
    numbers = [type_number(message_type) for message_type in message_types]
    if not numbers:
        raise ValueError("only names no message type: leave it out for all types")
    return numbers
