"""Route netlink messages: the names of their types, the tables that a kernel dumps, where messages start, and what a reply
says. The scripts share it."""
import errno
import os
import socket
import struct

HEADER_SIZE = 16
ERROR_SIZE = HEADER_SIZE + 4 + HEADER_SIZE  # an NLMSG_ERROR's least: the code, and the request's header

AF_UNSPEC = 0  # linux/socket.h
NETLINK_ROUTE = 0  # linux/netlink.h
NLMSG_ERROR, NLMSG_DONE = 2, 3
NLM_F_REQUEST, NLM_F_CAPPED, NLM_F_ACK_TLVS, NLM_F_DUMP = 0x001, 0x100, 0x200, 0x300
NLMSGERR_ATTR_MSG = 1
SOL_NETLINK, NETLINK_ADD_MEMBERSHIP = 270, 1
ATTRIBUTE_HEADER_SIZE = 4
KIND_BITS = 0x3FFF  # NLA_TYPE_MASK
IFINFOMSG_SIZE = 16  # linux/rtnetlink.h, struct ifinfomsg
RTM_NEWLINK, RTM_DELLINK, RTM_GETLINK, RTM_SETLINK = 16, 17, 18, 19
IFLA_IFNAME, IFLA_LINKINFO, IFLA_NET_NS_PID, IFLA_NET_NS_FD = 3, 18, 19, 28  # linux/if_link.h
IFLA_INFO_DATA = 2
VETH_INFO_PEER = 1  # linux/veth.h, and VXCAN_INFO_PEER of linux/can/vxcan.h

MESSAGE_TYPES = {  # linux/rtnetlink.h
    1: "NLMSG_NOOP", 2: "NLMSG_ERROR", 3: "NLMSG_DONE", 4: "NLMSG_OVERRUN", 15: "NLMSG_TSTAMP",
    16: "RTM_NEWLINK", 17: "RTM_DELLINK", 18: "RTM_GETLINK", 19: "RTM_SETLINK",
    20: "RTM_NEWADDR", 21: "RTM_DELADDR", 22: "RTM_GETADDR", 24: "RTM_NEWROUTE", 25: "RTM_DELROUTE", 26: "RTM_GETROUTE",
    28: "RTM_NEWNEIGH", 29: "RTM_DELNEIGH", 30: "RTM_GETNEIGH", 32: "RTM_NEWRULE", 33: "RTM_DELRULE", 34: "RTM_GETRULE",
    36: "RTM_NEWQDISC", 37: "RTM_DELQDISC", 38: "RTM_GETQDISC",
    40: "RTM_NEWTCLASS", 41: "RTM_DELTCLASS", 42: "RTM_GETTCLASS",
    44: "RTM_NEWTFILTER", 45: "RTM_DELTFILTER", 46: "RTM_GETTFILTER",
    48: "RTM_NEWACTION", 49: "RTM_DELACTION", 50: "RTM_GETACTION", 52: "RTM_NEWPREFIX",
    56: "RTM_NEWMULTICAST", 57: "RTM_DELMULTICAST", 58: "RTM_GETMULTICAST",
    60: "RTM_NEWANYCAST", 61: "RTM_DELANYCAST", 62: "RTM_GETANYCAST",
    64: "RTM_NEWNEIGHTBL", 66: "RTM_GETNEIGHTBL", 67: "RTM_SETNEIGHTBL", 68: "RTM_NEWNDUSEROPT",
    72: "RTM_NEWADDRLABEL", 73: "RTM_DELADDRLABEL", 74: "RTM_GETADDRLABEL", 78: "RTM_GETDCB", 79: "RTM_SETDCB",
    80: "RTM_NEWNETCONF", 81: "RTM_DELNETCONF", 82: "RTM_GETNETCONF",
    84: "RTM_NEWMDB", 85: "RTM_DELMDB", 86: "RTM_GETMDB", 88: "RTM_NEWNSID", 89: "RTM_DELNSID", 90: "RTM_GETNSID",
    92: "RTM_NEWSTATS", 94: "RTM_GETSTATS", 95: "RTM_SETSTATS", 96: "RTM_NEWCACHEREPORT",
    100: "RTM_NEWCHAIN", 101: "RTM_DELCHAIN", 102: "RTM_GETCHAIN",
    104: "RTM_NEWNEXTHOP", 105: "RTM_DELNEXTHOP", 106: "RTM_GETNEXTHOP",
    108: "RTM_NEWLINKPROP", 109: "RTM_DELLINKPROP", 110: "RTM_GETLINKPROP",
    112: "RTM_NEWVLAN", 113: "RTM_DELVLAN", 114: "RTM_GETVLAN",
    116: "RTM_NEWNEXTHOPBUCKET", 117: "RTM_DELNEXTHOPBUCKET", 118: "RTM_GETNEXTHOPBUCKET",
    120: "RTM_NEWTUNNEL", 121: "RTM_DELTUNNEL", 122: "RTM_GETTUNNEL",
}
TYPE_NUMBERS = {name: number for number, name in MESSAGE_TYPES.items()}

# The tables of a dump, each by its request, the size of the request's header (struct ifinfomsg, ifaddrmsg, ndmsg, rtmsg,
# fib_rule_hdr, nhmsg, tcmsg, ndtmsg, ifaddrlblmsg, netconfmsg, br_port_msg, br_vlan_msg) and its address family; and the groups
# of their notifications (rtnetlink.h, RTNLGRP_*).
LINKS = [("RTM_GETLINK", 16, socket.AF_UNSPEC)]
ALL_TABLES = LINKS + [
    ("RTM_GETADDR", 8, socket.AF_UNSPEC),
    ("RTM_GETNEIGH", 12, socket.AF_UNSPEC),
    ("RTM_GETROUTE", 12, socket.AF_UNSPEC),
    ("RTM_GETRULE", 12, socket.AF_UNSPEC),
    ("RTM_GETNEXTHOP", 8, socket.AF_UNSPEC),
    ("RTM_GETQDISC", 20, socket.AF_UNSPEC),
    ("RTM_GETNEIGHTBL", 4, socket.AF_UNSPEC),
    ("RTM_GETADDRLABEL", 12, socket.AF_INET6),
    ("RTM_GETNETCONF", 4, socket.AF_INET),
    ("RTM_GETNETCONF", 4, socket.AF_INET6),
    ("RTM_GETNEIGH", 12, socket.AF_BRIDGE),
    ("RTM_GETMDB", 8, socket.AF_BRIDGE),
    ("RTM_GETVLAN", 8, socket.AF_BRIDGE),
]
LINK_GROUP = [1]
ALL_GROUPS = [1, 3, 4, 5, 7, 8, 9, 11, 18, 19, 24, 25, 26, 28, 32, 33]

# Two numbers have two names each, of which the kernel uses these.
ERROR_NAMES = {**errno.errorcode, errno.EAGAIN: "EAGAIN", errno.EOPNOTSUPP: "EOPNOTSUPP"}


class Failure(Exception):
    """An error, which linkrec reports in one line, with the exit status."""

    def __init__(self, message, status=1):
        super().__init__(message)
        self.status = status


def padded_length(length):
    """The least multiple of 4 that isn't less than the length."""
    return (length + 3) // 4 * 4


def message_length(data, offset):
    """The length of the message at an offset, or None if no whole message starts there."""
    left = len(data) - offset
    if left < HEADER_SIZE:
        return None
    length, = struct.unpack_from("<I", data, offset)
    return length if HEADER_SIZE <= length <= left else None


def message_type(data, offset=0):
    return struct.unpack_from("<H", data, offset + 4)[0]


def type_name(number):
    return MESSAGE_TYPES.get(number, f"type {number}")


def type_number(word):
    """The number of a type by its name (`RTM_NEWLINK`, or `newlink`; `error`) or by the number itself."""
    names = [prefix + word.upper() for prefix in ("", "RTM_", "NLMSG_")]
    number = next((TYPE_NUMBERS[name] for name in names if name in TYPE_NUMBERS), None)
    if number is None and word.isdecimal() and int(word) < 1 << 16:
        number = int(word)
    if number is None:
        raise Failure(f"no type of messages: {word}", 2)
    return number


def messages(data):
    """The offset and the length of each message, up to the end or to bytes that are no whole message."""
    offset = 0
    while (length := message_length(data, offset)) is not None:
        yield offset, length
        offset += padded_length(length)


def as_capture(datagram):
    """The messages of a datagram, each padded, and the number of bytes after the last one that belong to none. Zeros don't
    count: iproute2 sends the rest of the struct of its request with it."""
    capture, end = bytearray(), 0
    for offset, length in messages(datagram):
        capture += datagram[offset:offset + length] + bytes(-length % 4)
        end = offset + padded_length(length)
    rest = datagram[end:]
    return bytes(capture), len(rest) if any(rest) else 0


def attributes(data, offset, end):
    """The kind and the payload of each attribute of a list, up to its end or to bytes that are no whole attribute."""
    while offset + ATTRIBUTE_HEADER_SIZE <= end:
        length, kind = struct.unpack_from("<HH", data, offset)
        if not ATTRIBUTE_HEADER_SIZE <= length <= end - offset:
            return
        yield kind & KIND_BITS, data[offset + ATTRIBUTE_HEADER_SIZE:offset + length]
        offset += padded_length(length)


def route_socket(port=0):
    """A route socket; the kernel chooses its port ID if that is 0."""
    route = socket.socket(socket.AF_NETLINK, socket.SOCK_RAW, socket.NETLINK_ROUTE)
    route.setsockopt(socket.SOL_SOCKET, socket.SO_RCVBUF, 8 << 20)
    route.bind((port, 0))
    return route


def replies(capture):
    """The header of the request, the error code and the kernel's message, or None, of each NLMSG_ERROR."""
    for offset, length in messages(capture):
        start = offset + HEADER_SIZE
        if message_type(capture, offset) == NLMSG_ERROR and length >= ERROR_SIZE:
            code, = struct.unpack_from("<i", capture, start)
            yield capture[start + 4:offset + ERROR_SIZE], code, extended_message(capture[offset:offset + length])


def refusal(request, code, reason):
    """The line for a refused request: its type, the error, and the kernel's message."""
    error = ERROR_NAMES.get(-code, f"error {-code}")
    return f"{type_name(message_type(request))}: {error} ({os.strerror(-code)})" + (f": {reason}" if reason else "")


def extended_message(message):
    """The kernel's message in an NLMSG_ERROR (NLMSGERR_ATTR_MSG), which follows the repeated request; or None."""
    flags, = struct.unpack_from("<H", message, 6)
    if not flags & NLM_F_ACK_TLVS:
        return None
    request, = struct.unpack_from("<I", message, HEADER_SIZE + 4)
    offset = HEADER_SIZE + 4 + (HEADER_SIZE if flags & NLM_F_CAPPED else padded_length(request))
    texts = [value for kind, value in attributes(message, offset, len(message)) if kind == NLMSGERR_ATTR_MSG]
    return texts[0].rstrip(b"\0").decode(errors="replace") if texts else None
