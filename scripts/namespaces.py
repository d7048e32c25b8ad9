"""The network namespaces of traced processes, and the name that each link of them has, or had before some call."""
import array
import ctypes
import errno
import os
import socket
import struct
import sys

from route_messages import (
    AF_UNSPEC, HEADER_SIZE, IFINFOMSG_SIZE, IFLA_IFNAME, LINK_GROUP, NETLINK_ADD_MEMBERSHIP, NLM_F_DUMP, NLM_F_REQUEST, NLMSG_DONE,
    NLMSG_ERROR, RTM_DELLINK, RTM_GETLINK, RTM_NEWLINK, SOL_NETLINK, attributes, message_type, messages, route_socket)
from traces import EXIT

CLONE_NEWUSER, CLONE_NEWNET = 0x10000000, 0x40000000  # linux/sched.h
SO_NETNS_COOKIE, COOKIE_SIZE = 71, 8  # asm-generic/socket.h
DATAGRAM_SIZE = 1 << 20
_libc = ctypes.CDLL(None, use_errno=True)


class Namespace:
    """A network namespace: its number in order of appearance, and the names of its links. A name comes with the stamp of the
    piece of the trace before which it was learned."""

    def __init__(self, number):
        self.number = number
        self.watch = None  # a route socket in it
        self.is_known = False  # whether the kernel was asked for its links
        self._names = {}  # by index: stamps and names, None for no link

    def learn(self, stamp):
        """Reads what the kernel has notified of links since the last time."""
        while self.watch:
            try:
                datagram = self.watch.recv(DATAGRAM_SIZE, socket.MSG_DONTWAIT)
            except BlockingIOError:
                return
            except OSError:  # the kernel dropped notifications
                self.ask(stamp)
                return
            self._take(datagram, stamp)

    def ask(self, stamp):
        """Asks the kernel for all links."""
        request = struct.pack("=IHHII", HEADER_SIZE + IFINFOMSG_SIZE, RTM_GETLINK, NLM_F_REQUEST | NLM_F_DUMP, 1, 0)
        self.watch.send(request + bytes(IFINFOMSG_SIZE))
        is_done, unseen = False, set(self._names)
        while not is_done:
            try:
                datagram = self.watch.recv(DATAGRAM_SIZE)
            except OSError as error:
                if error.errno != errno.ENOBUFS:  # else it dropped notifications, and sends its reply all the same
                    raise
                continue
            unseen -= self._take(datagram, stamp)
            is_done = any(message_type(datagram, offset) in (NLMSG_DONE, NLMSG_ERROR) for offset, _ in messages(datagram))
        for index in unseen:
            self._set_name(index, None, stamp)
        self.is_known = True

    def _take(self, datagram, stamp):
        """Takes the names in messages, and returns the indexes of their links."""
        indexes = set()
        for offset, length in messages(datagram):
            kind, start = message_type(datagram, offset), offset + HEADER_SIZE
            if kind in (RTM_NEWLINK, RTM_DELLINK) and length >= HEADER_SIZE + IFINFOMSG_SIZE:
                family, index = struct.unpack_from("=B3xi", datagram, start)
                indexes.add(index)
                names = [value for number, value in attributes(datagram, start + IFINFOMSG_SIZE, offset + length)
                         if number == IFLA_IFNAME]
                if kind == RTM_NEWLINK and names:
                    self._set_name(index, names[0].rstrip(b"\0").decode(errors="surrogateescape"), stamp)
                elif kind == RTM_DELLINK and family == AF_UNSPEC:  # of another family: a port that left its bridge
                    self._set_name(index, None, stamp)
        return indexes

    def _set_name(self, index, name, stamp):
        names = self._names.setdefault(index, [])
        if not names or names[-1][1] != name:
            names.append((stamp, name))

    def name(self, index, stamp):
        """The name that the link of an index had before the piece of a stamp, or None."""
        return next((name for learned, name in reversed(self._names.get(index, [])) if learned < stamp), None)

    def close(self):
        if self.watch:
            self.watch.close()
        self.watch = None


class Namespaces:
    """The network namespaces of traced processes, which are numbered in order of appearance. Where the kernel has cookies of
    namespaces these are known again by them, since it gives the inode of a removed namespace to the next one."""

    def __init__(self):
        self._known = {}  # by cookie, or by inode where there is no cookie
        self._by_inode = {}  # those that are watched, so that no other namespace gets the inode
        self._by_process = {}

    def learn(self, stamp):
        for namespace in self._by_inode.values():
            namespace.learn(stamp)

    def follow(self, call):
        """Notes in which namespace the process of a call is, if the call may have changed that, or the process is new."""
        if call.name == EXIT:
            self._by_process.pop(call.process, None)
        elif call.process not in self._by_process or call.name in ("setns", "unshare"):
            folder = f"/proc/{call.process}/ns"
            namespace = self.of_file(f"{folder}/net", folder, call.stamp)
            self._by_process[call.process] = namespace or self._by_process.get(call.process)

    def of_process(self, process):
        """The namespace in which a traced process is, or None if that isn't known."""
        return self._by_process.get(process)

    def release(self, used):
        """Leaves the namespaces in which no traced process is, but for those that are used, so that the kernel may remove
        them."""
        kept = {*used, *self._by_process.values()}
        for inode, namespace in list(self._by_inode.items()):
            if namespace not in kept:
                namespace.close()
                del self._by_inode[inode]

    def of_file(self, path, folder, stamp):
        """The namespace of a file, as `/proc/7/ns/net` or a descriptor, with a watch in it; or None if there is none. `folder`
        has the namespaces of a process that may enter it."""
        try:
            with open(path, "rb") as file:
                inode = os.fstat(file.fileno()).st_ino
                if inode not in self._by_inode:
                    self._by_inode[inode] = self._entered(inode, watch_in(file.fileno(), folder), stamp)
                return self._by_inode[inode]
        except OSError:
            return None

    def _entered(self, inode, watch, stamp):
        """The namespace of an inode, which isn't watched yet. There is no watch if it can't be entered."""
        namespace = self._known.setdefault(cookie(watch) or inode, Namespace(len(self._known) + 1))
        if watch:
            namespace.watch = watch
            namespace.ask(stamp - 1)
        return namespace


def cookie(watch):
    """What identifies the namespace of a socket as long as the kernel runs, or None if it has no such number."""
    try:
        return watch and watch.getsockopt(socket.SOL_SOCKET, SO_NETNS_COOKIE, COOKIE_SIZE)
    except OSError:
        return None


def watch_in(namespace, folder):
    """A route socket in a network namespace, which gets notifications of links; or None if the kernel doesn't permit that.
    `folder` is that of the namespaces of a process, by whose user namespace the network namespace is entered."""
    if os.fstat(namespace).st_ino == os.stat("/proc/self/ns/net").st_ino:
        watch = route_socket()
    else:
        watch = _socket_of_child(namespace, folder)
    if watch:
        watch.setsockopt(SOL_NETLINK, NETLINK_ADD_MEMBERSHIP, LINK_GROUP[0])
    return watch


def _socket_of_child(namespace, folder):
    """A route socket that a child process makes in a namespace, since entering another user namespace can't be undone."""
    mine, child_side = socket.socketpair()
    with mine, child_side:
        child = os.fork()
        if child == 0:
            _send_socket(child_side, namespace, folder)
        child_side.close()
        descriptors = array.array("i")
        _, ancillary, _, _ = mine.recvmsg(1, socket.CMSG_SPACE(descriptors.itemsize))
        os.waitpid(child, 0)
    for _, _, data in ancillary:
        descriptors.frombytes(data[:descriptors.itemsize])
    return socket.socket(fileno=descriptors[0]) if descriptors else None


def _send_socket(channel, namespace, folder):
    """Enters a namespace, sends a route socket that is made there, and ends the process."""
    try:
        with open(os.path.join(folder, "user"), "rb") as user:
            if os.fstat(user.fileno()).st_ino != os.stat("/proc/self/ns/user").st_ino:
                _libc.setns(user.fileno(), CLONE_NEWUSER)
        if _libc.setns(namespace, CLONE_NEWNET) == 0:
            route = route_socket()
            channel.sendmsg([b"."], [(socket.SOL_SOCKET, socket.SCM_RIGHTS, array.array("i", [route.fileno()]))])
    finally:
        sys.stderr = None
        os._exit(0)
