"""The kernel's tables of links, addresses and so on: dumps, notifications, and when they have settled."""
import errno
import select
import socket
import struct
import time

from route_messages import (
    ALL_GROUPS, HEADER_SIZE, LINKS, NETLINK_ADD_MEMBERSHIP, NLM_F_DUMP, NLM_F_REQUEST, NLMSG_DONE, NLMSG_ERROR, SOL_NETLINK,
    TYPE_NUMBERS, Failure, message_type, messages, route_socket)

BLOCK = 1 << 20
IFF_RUNNING = 0x40  # linux/if.h
IFA_F_DADFAILED, IFA_F_TENTATIVE = 0x08, 0x40  # linux/if_addr.h
ADDRESSES = [("RTM_GETADDR", 8, socket.AF_UNSPEC)]

# A kernel notices at most once a second that carriers changed (LINKWATCH_INTERVAL of net/core/link_watch.c).
QUIET_SECONDS, MOST_SECONDS = 1.2, 10.0
DETECTION_SECONDS = 2.2  # at most 1 s of random delay, and 1 s for an answer (RFC 4862)


def join(route, groups):
    """Makes a socket receive the notifications of some groups."""
    for group in groups:
        route.setsockopt(SOL_NETLINK, NETLINK_ADD_MEMBERSHIP, group)


def receive(route):
    """One datagram, padded to a multiple of 4 bytes, or None if the kernel had to drop messages."""
    try:
        datagram = route.recv(BLOCK)
    except OSError as error:
        if error.errno != errno.ENOBUFS:
            raise
        return None
    return datagram + bytes(-len(datagram) % 4)


def dump_tables(route, tables):
    """The datagrams with the entries of some tables (`route_messages.ALL_TABLES`).

    # Errors

    Failure if the kernel had to drop messages.
    """
    for sequence_number, (name, size, family) in enumerate(tables, 1):
        request = struct.pack("=IHHII", HEADER_SIZE + size, TYPE_NUMBERS[name], NLM_F_REQUEST | NLM_F_DUMP, sequence_number, 0)
        route.send(request + bytes([family]) + bytes(size - 1))
        yield from replies(route)


def replies(route):
    """The datagrams up to the one that ends a dump."""
    is_done = False
    while not is_done:
        datagram = receive(route)
        if datagram is None:
            raise Failure("the dump isn't whole: messages came faster than they were read")
        yield datagram
        is_done = any(message_type(datagram, offset) in (NLMSG_ERROR, NLMSG_DONE) for offset, _ in messages(datagram))


def bodies(tables, type_name):
    """The bodies of the messages of a type in a dump of some tables."""
    with route_socket() as route:
        for datagram in dump_tables(route, tables):
            yield from (datagram[offset + HEADER_SIZE:offset + length] for offset, length in messages(datagram)
                        if message_type(datagram, offset) == TYPE_NUMBERS[type_name])


def tentative_addresses():
    """Of each address for which duplicates may be looked for (RFC 4862), whether its link runs. On a link that doesn't run this
    hasn't begun, or it began while the link ran, and goes on."""
    running = {index for index, flags in (struct.unpack_from("=iI", body, 4) for body in bodies(LINKS, "RTM_NEWLINK"))
               if flags & IFF_RUNNING}
    addresses = [struct.unpack_from("=2xBxi", body) for body in bodies(ADDRESSES, "RTM_NEWADDR")]
    return [index in running for flags, index in addresses if flags & IFA_F_TENTATIVE and not flags & IFA_F_DADFAILED]


def wait_until_settled():
    """Whether the tables settled: waits until no notification came for QUIET_SECONDS and no address of a link that runs is
    tentative, for at most MOST_SECONDS; if an address of another link is, until none came for DETECTION_SECONDS."""
    end = time.monotonic() + MOST_SECONDS
    with route_socket() as route:
        join(route, ALL_GROUPS)
        while end - time.monotonic() >= QUIET_SECONDS:
            if select.select([route], [], [], QUIET_SECONDS)[0]:
                receive(route)
                continue
            tentative = tentative_addresses()
            if any(tentative):
                continue
            if not tentative or not select.select([route], [], [], DETECTION_SECONDS - QUIET_SECONDS)[0]:
                return True
    return False
