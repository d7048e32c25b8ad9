"""Traces by strace: the system calls of a trace with the bytes that they sent or received, and which of their sockets are
route sockets."""
import re


class Call:
    """A finished system call of a trace: its process; its name, arguments and result, as strace prints them; the bytes of each
    buffer that it sent or received (one for each message of sendmmsg and recvmmsg); the stamp of the line on which it began;
    and the time at which it began, in seconds as strace prints them, if the trace has times.

    The end of a process is a call too, named EXIT."""

    def __init__(self, process, name, arguments, result, stamp=0, began=None):
        self.process, self.name, self.arguments, self.result = process, name, arguments, result
        self.stamp, self.began = stamp, began
        self.datagrams = [bytearray()]

    def has_succeeded(self):
        return not self.result.startswith(("-1", "?"))


EXIT = "+++"
PROCESS = re.compile(r"(?:\[pid +)?(\d*)\]? *")
TIME = re.compile(r"(\d+[:.\d]*) ")
CALL = re.compile(r"(\w+)\((.*)\) += (.*)$")
UNFINISHED = re.compile(r"(\w+)\((.*) <unfinished \.\.\.>$")
RESUMED = re.compile(r"<\.\.\. (\w+) resumed>(.*)\) += (.*)$")
HEX_LINE = re.compile(r" \| [0-9a-f]{5,}  ((?:[0-9a-f]{2} {1,2}){1,16})")
VECTOR_LINE = re.compile(r" = \d+ buffers in vector")


def calls(lines):
    """The finished calls of a trace. strace prints the bytes of a call after the line on which the call ends. Each line comes
    with a stamp, a number that doesn't decrease."""
    unfinished, call = {}, None
    for stamp, line in lines:
        if hex_line := HEX_LINE.match(line):
            if call:
                call.datagrams[-1] += bytes.fromhex(hex_line[1])
            continue
        if VECTOR_LINE.match(line):
            if call and call.datagrams[-1]:
                call.datagrams.append(bytearray())
            continue
        if line.startswith(" * "):
            continue
        if call:
            yield call
        call = parse_call(stamp, line.rstrip("\n"), unfinished)
    if call:
        yield call


def parse_call(stamp, line, unfinished):
    """The call that ends on a line, or None. `unfinished` has the arguments, the stamp and the time of the unfinished call of
    each process."""
    process = PROCESS.match(line)
    number, rest = process[1], line[process.end():]
    time = TIME.match(rest)
    began, rest = (time[1], rest[time.end():]) if time else (None, rest)
    if start := UNFINISHED.match(rest):
        unfinished[number] = start[2], stamp, began
        return None
    if end := RESUMED.match(rest):
        arguments, stamp, began = unfinished.pop(number, ("", stamp, began))
        return Call(number, end[1], arguments + end[2], end[3], stamp, began)
    if call := CALL.match(rest):
        return Call(number, *call.groups(), stamp, began)
    return Call(number, EXIT, "", "", stamp, began) if rest.startswith(EXIT) else None


DESCRIPTOR = re.compile(r"(\d+)(?:<(.*?)>)?(?=[,)\s]|$)")
SOCKET_INODE = re.compile(r"(?:socket|NETLINK):\[(\d+)\]$")
NAMED_FAMILY = re.compile(r"NETLINK:\[([A-Z_]+)")
ROUTE, OTHER, UNKNOWN = "route", "other", "unknown"


class Socket:
    """A socket of a traced process: its netlink family, the namespace in which it was made, if that is known, and the entries
    of the record for its requests to which no reply came yet."""

    def __init__(self, family, namespace=None):
        self.family, self.namespace, self.waiting = family, namespace, []


class Sockets:
    """The sockets of traced processes: by their names under strace's -yy, by inode (-y), or by descriptor, which is followed
    through socket, dup, close and new processes. `inodes` has the families of sockets that there are at the start."""

    def __init__(self, inodes=None):
        self.inodes = {inode: Socket(family) for inode, family in (inodes or {}).items()}
        self.names = {}
        self.tables = {}

    def table(self, process):
        return self.tables.setdefault(process, {})

    def follow(self, call, namespace=None):
        """Updates the tables by a call that makes, copies or closes a descriptor, or makes or ends a process. `namespace` is
        that of the process."""
        if call.name == EXIT:
            self.tables.pop(call.process, None)
        if not call.has_succeeded():
            return
        result = DESCRIPTOR.match(call.result)
        if call.name == "socket" and result:
            family = ROUTE if is_route_socket(call.arguments) else OTHER
            self.set_socket(call.process, result, Socket(family, namespace))
        elif call.name in ("dup", "dup2", "dup3") or call.name == "fcntl" and "F_DUPFD" in call.arguments:
            if result and (source := DESCRIPTOR.match(call.arguments)):
                self.set_socket(call.process, result, self.table(call.process).get(source[1], Socket(UNKNOWN)))
        elif call.name == "close" and (descriptor := DESCRIPTOR.match(call.arguments)):
            self.table(call.process).pop(descriptor[1], None)
        elif call.name in ("clone", "clone3", "fork", "vfork") and result:
            table = self.table(call.process)
            self.tables[result[1]] = table if "CLONE_FILES" in call.arguments else dict(table)

    def set_socket(self, process, descriptor, socket):
        self.table(process)[descriptor[1]] = socket
        inode = SOCKET_INODE.match(descriptor[2] or "")
        if inode and socket.family != UNKNOWN:
            self.inodes[inode[1]] = socket

    def socket(self, call):
        """The socket of a call, whose family may be unknown."""
        descriptor = DESCRIPTOR.match(call.arguments)
        if not descriptor:
            return Socket(UNKNOWN)
        name = descriptor[2] or ""
        if inode := SOCKET_INODE.match(name):
            return self.inodes.get(inode[1], Socket(UNKNOWN))
        if family := NAMED_FAMILY.match(name):
            return self.names.setdefault(name, Socket(ROUTE if family[1] == "ROUTE" else OTHER))
        if name:
            return Socket(OTHER)
        return self.table(call.process).get(descriptor[1], Socket(UNKNOWN))

    def namespaces(self):
        """The namespaces of the sockets that processes have."""
        return {socket.namespace for table in self.tables.values() for socket in table.values()}


def is_route_socket(arguments):
    return arguments.startswith(("AF_NETLINK", "PF_NETLINK")) and arguments.endswith("NETLINK_ROUTE")


SENDING = {"sendto", "sendmsg", "sendmmsg", "write", "writev"}
RECEIVING = {"recvfrom", "recvmsg", "recvmmsg", "read", "readv"}
