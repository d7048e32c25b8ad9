"""The recorder: from the system calls of a trace to the captures of what was sent and received over route sockets, and to the
record of each message that was sent."""
import datetime
import os
import struct
import zlib

import lines_filter
from route_messages import (
    ERROR_NAMES, HEADER_SIZE, IFINFOMSG_SIZE, IFLA_INFO_DATA, IFLA_LINKINFO, IFLA_NET_NS_FD, IFLA_NET_NS_PID, RTM_DELLINK,
    RTM_GETLINK, RTM_NEWLINK, RTM_SETLINK, VETH_INFO_PEER, as_capture, attributes, message_type, messages, refusal, replies,
    type_name)
from traces import EXIT, RECEIVING, ROUTE, SENDING, UNKNOWN, Sockets

LEAVING = {EXIT, "setns", "unshare"}
LINK_TYPES = {RTM_NEWLINK, RTM_DELLINK, RTM_GETLINK, RTM_SETLINK}


class Recorder:
    """Writes the messages that the calls of a trace send over route sockets to one file, and those that they receive to
    another one, if there is one. `entries` is the record of what was sent, an entry a message. Without namespaces, as of a
    trace that was written before, it has no names of links."""

    def __init__(self, sent_file, received_file=None, inodes=None, namespaces=None):
        self.sockets, self.namespaces = Sockets(inodes), namespaces
        self.sent_file, self.received_file = sent_file, received_file
        self.sent_bytes = self.dropped_bytes = self.unknown_calls = self.calls_without_bytes = 0
        self.refusals, self.entries = [], []

    def take(self, call):
        self._follow(call)
        sends = call.name in SENDING
        if not (sends or call.name in RECEIVING) or not call.has_succeeded() or "MSG_PEEK" in call.arguments:
            return
        socket = self.sockets.socket(call)
        if socket.family == UNKNOWN and sends and "nlmsg_len=" in call.arguments:
            self.unknown_calls += 1
        if socket.family != ROUTE:
            return
        if sends and not any(call.datagrams) and not call.result.startswith("0"):
            self.calls_without_bytes += 1
        for datagram in call.datagrams:
            capture, dropped_bytes = as_capture(bytes(datagram))
            if sends:
                self._take_sent(capture, dropped_bytes, call, socket)
            else:
                self._take_received(capture, socket)

    def _follow(self, call):
        if self.namespaces:
            self.namespaces.follow(call)
        self.sockets.follow(call, self.namespaces and self.namespaces.of_process(call.process))
        if self.namespaces and call.name in LEAVING:
            self.namespaces.release(self.sockets.namespaces())

    def _take_sent(self, capture, dropped_bytes, call, socket):
        if self.namespaces and socket.namespace is None:  # made before the trace began
            socket.namespace = self.namespaces.of_process(call.process)
        for offset, length in messages(capture):
            entry = self._entry(capture[offset:offset + length], self.sent_bytes + offset, call, socket.namespace)
            self.entries.append(entry)
            socket.waiting.append((sequence_number(capture, offset), entry))
        self.sent_bytes += write_to(self.sent_file, capture)
        self.dropped_bytes += dropped_bytes

    def _entry(self, message, offset, call, namespace):
        """The record of a message that a call sends over a socket of a namespace."""
        entry = {"offset": offset, "type": type_name(message_type(message)), "crc32": zlib.crc32(message),
                 "namespace": namespace.number if namespace else 1, "process": int(call.process or 0)}
        if call.began and "." in call.began and ":" not in call.began:
            entry["time"] = datetime.datetime.fromtimestamp(float(call.began)).astimezone().isoformat(timespec="microseconds")
        if namespace and namespace.is_known:
            entry["names"] = names_in(message, lambda index: namespace.name(index, call.stamp))
        if self.namespaces:
            entry["namespaces"] = {f"{kind} {value}": namespace.number
                                   for kind, value, *file in referred_namespaces(message, call.process)
                                   if (namespace := self.namespaces.of_file(*file, call.stamp))}
        return {key: value for key, value in entry.items() if value != {} or key == "names"}

    def _take_received(self, capture, socket):
        for request, code, reason in replies(capture):
            if code:
                self.refusals.append(refusal(request, code, reason))
            take_reply(socket, request, code, reason)
        if self.received_file:
            write_to(self.received_file, capture)

    def notes(self, is_quiet=False):
        """What was left out and, unless `is_quiet`, which requests the kernel refused: a line for each."""
        if self.unknown_calls:
            yield (f"left out {self.unknown_calls} calls on netlink sockets whose family the trace doesn't show: trace with -yy, "
                   "or with socket, dup and clone")
        if self.calls_without_bytes:
            yield f"left out {self.calls_without_bytes} calls without their bytes: trace with -e write=all"
        if self.dropped_bytes:
            yield f"left out {self.dropped_bytes} bytes that followed the messages of a call"
        for line in [] if is_quiet else self.refusals:
            yield f"refused: {line}"


def sequence_number(capture, offset=0):
    return struct.unpack_from("<I", capture, offset + 8)[0]


def names_in(message, name_of):
    """The names of the indexes that a message may hold, as lines have them: of each number of 4 bytes in its body that is an
    index of a link."""
    numbers = {struct.unpack_from("<i", message, at)[0] for at in range(HEADER_SIZE, len(message) - 3, 4)}
    names = {number: name_of(number) for number in sorted(numbers) if number > 0}
    return {str(number): lines_filter.quoted(name)[1:-1] for number, name in names.items() if name is not None}


def referred_namespaces(message, process):
    """The namespaces to which a link message of a process refers: `pid` or `fd`, its number, the namespace's file, and the
    folder of the namespaces of a process that may enter it."""
    if message_type(message) not in LINK_TYPES:
        return
    values = list(attributes(message, HEADER_SIZE + IFINFOMSG_SIZE, len(message)))
    peers = (peer for kind, info in values if kind == IFLA_LINKINFO
             for info_kind, data in attributes(info, 0, len(info)) if info_kind == IFLA_INFO_DATA
             for peer_kind, peer in attributes(data, 0, len(data)) if peer_kind == VETH_INFO_PEER)
    for peer in peers:
        values += attributes(peer, IFINFOMSG_SIZE, len(peer))
    for kind, value in values:
        if kind in (IFLA_NET_NS_PID, IFLA_NET_NS_FD) and len(value) >= 4:
            number, = struct.unpack_from("<I", value)
            if kind == IFLA_NET_NS_PID:
                yield "pid", number, f"/proc/{number}/ns/net", f"/proc/{number}/ns"
            else:
                yield "fd", number, f"/proc/{process}/fd/{number}", f"/proc/{process}/ns"


def take_reply(socket, request, code, reason):
    """Notes the kernel's reply in the entry of its request: the first one with its sequence number to which no reply came, or
    else the first one."""
    number = sequence_number(request)
    matching = [pair for pair in socket.waiting if pair[0] == number] or socket.waiting
    if matching:
        socket.waiting.remove(matching[0])
        entry = matching[0][1]
        entry["errno"] = -code
        if code:
            entry["error"], entry["reason"] = ERROR_NAMES.get(-code, f"error {-code}"), reason or os.strerror(-code)


def write_to(file, data):
    """Writes bytes, and returns their number."""
    file.write(data)
    file.flush()
    return len(data)
