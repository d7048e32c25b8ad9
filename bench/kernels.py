#!/usr/bin/env python3
"""Shows whether this kernel treats a request and its normal text alike.

    sudo bench/kernels.py                          the pairs of bench/kernels.tsv
    sudo bench/kernels.py CAPTURE [PROGRAM]        each request of a capture, and its normal text by PROGRAM

It needs root, `ip`, and network namespaces. PROGRAM is crates/linkcap/out/linkcap by default. Each request is sent in a new
namespace with the links 50, a veth `t50` (for a request of AF_BRIDGE a port of the bridge `br51`), and 60, a veth `l60`. It
compares the error code, the replies, and a dump of all links afterwards, without what differs if the request is sent twice.
It prints a line for each pair: `alike` or `parted`, both codes with the kernel's messages, and the links that differ; or
`not here`, if this kernel lacks the kind of links. The line ends in `not as on the page` if the result isn't that of
docs/kernels.md. No gate runs this."""
import ctypes
import json
import os
import socket
import struct
import subprocess
import sys

HERE = os.path.dirname(os.path.abspath(__file__))
CLONE_NEWNET = 0x40000000
SOL_NETLINK, EXT_ACK, STRICT_CHECK = 270, 11, 12
ERROR, DONE, GETLINK = 2, 3, 18
# Attributes that differ from run to run: of a link statistics, states and changes of the carrier; of IPv6 flags of the state,
# statistics and times; timers of a bridge, and of its ports
IGNORED, IGNORED_INET6 = {7, 16, 23, 33, 35, 47, 48}, {1, 3, 5, 6}
BRIDGE_TIMERS, PORT_TIMERS = {16, 17, 18, 19}, {21, 22, 23}
LINKS = """link add t50 index 50 address 02:00:00:00:00:50 type veth peer name p50 address 02:00:00:00:01:50
link add l60 index 60 address 02:00:00:00:00:60 type veth peer name p60 address 02:00:00:00:01:60
link set l60 up
link set p60 up
"""
PORT = """link add br51 index 51 address 02:00:00:00:00:51 type bridge
link set t50 master br51
link set t50 up
link set br51 up
"""


def attributes(body):
    while len(body) >= 4:
        size, kind = struct.unpack_from("<HH", body)
        if size < 4 or size > len(body):
            return
        yield kind & 0x3FFF, body[4:size]
        body = body[(size + 3) & ~3:]


def without_timers(kind, payload):
    """(path of kinds, value in hex) of the attributes of link info, or of the settings of a port, without timers."""
    entries = list(attributes(payload))
    if kind == 12:
        yield "12", "".join(f"{k:x}={v.hex()} " for k, v in entries if k not in PORT_TIMERS)
        return
    for inner, value in entries:
        timers = BRIDGE_TIMERS if inner == 2 and (1, b"bridge\0") in entries else PORT_TIMERS if inner == 5 else set()
        text = "".join(f"{k:x}={v.hex()} " for k, v in attributes(value) if k not in timers) if timers else value.hex()
        yield f"18/{inner}", text


def flatten(body):
    """(path of kinds, value in hex) of each attribute of a link that is compared."""
    for kind, payload in attributes(body[16:]):
        if kind in IGNORED:
            continue
        if kind in (12, 18):
            yield from without_timers(kind, payload)
            continue
        if kind != 26:
            yield str(kind), payload.hex()
            continue
        for family, inside in attributes(payload):
            for inner, value in attributes(inside):
                if family != 10 or inner not in IGNORED_INET6:
                    yield f"26/{family}/{inner}", value.hex()


def frames(data):
    while len(data) >= 16:
        size, kind = struct.unpack_from("<IH", data)
        if size < 16 or size > len(data):
            return
        yield kind, data[16:size], data[:size]
        data = data[(size + 3) & ~3:]


def outcome(body, offset):
    """The code of an NLMSG_ERROR or NLMSG_DONE, and the kernel's message in the attributes at an offset of its body."""
    code, message = struct.unpack_from("<i", body)[0], ""
    for kind, payload in attributes(body[offset:]):
        if kind == 1:
            message = payload.rstrip(b"\0").decode(errors="replace")
    return code, message


def send(sock, request):
    """Sends a request, with a flag that has the kernel acknowledge it. Returns the error code, the kernel's message, and the
    links in the replies."""
    kind, flags = struct.unpack_from("<HH", request, 4)
    if kind != GETLINK or not flags & 0x300:
        request = request[:6] + struct.pack("<H", flags | 4) + request[8:]
    sock.send(request)
    code, message, replies = None, "", []
    while code is None:
        try:
            data = sock.recv(1 << 20)
        except socket.timeout:
            return None, "no reply", replies
        for kind, body, _ in frames(data):
            if kind == ERROR:
                inner = struct.unpack_from("<I", body, 4)[0]
                offset = 20 if struct.unpack_from("<H", data, 6)[0] & 0x100 else 4 + inner
                code, message = outcome(body, offset)
            elif kind == DONE:
                code, message = outcome(body, 4)
            elif kind in (16, 17):
                replies.append(sorted(flatten(body)))
    return code, message, replies


def dump(sock, family):
    request = struct.pack("<IHHIIBBHiII", 32, GETLINK, 0x301, 7, 0, family, 0, 0, 0, 0, 0)
    links = {}
    sock.send(request)
    while True:
        for kind, body, _ in frames(sock.recv(1 << 20)):
            if kind == DONE:
                return links
            if kind == 16:
                attributes_by_path = dict(flatten(body))
                name = bytes.fromhex(attributes_by_path.get("3", "")).rstrip(b"\0").decode(errors="replace")
                links[f"{name}/{family}" if family else name] = attributes_by_path


def run_in_namespace(request):
    """The result of a request in a new network namespace, with the links there afterwards; or what is lacking."""
    if ctypes.CDLL(None, use_errno=True).unshare(CLONE_NEWNET):
        return {"lacks": "no network namespaces"}
    family = request[16] if len(request) > 16 else 0
    setup = subprocess.run(["ip", "-batch", "-"], input=LINKS + (PORT if family == 7 else ""), text=True, capture_output=True)
    if setup.returncode:
        return {"lacks": setup.stderr.strip().splitlines()[0] if setup.stderr.strip() else "no links"}
    sock = socket.socket(socket.AF_NETLINK, socket.SOCK_RAW, 0)
    sock.settimeout(2)
    sock.setsockopt(SOL_NETLINK, EXT_ACK, 1)
    if struct.unpack_from("<H", request, 4)[0] == GETLINK:
        sock.setsockopt(SOL_NETLINK, STRICT_CHECK, 1)
    code, message, replies = send(sock, request)
    plain = socket.socket(socket.AF_NETLINK, socket.SOCK_RAW, 0)
    plain.settimeout(2)
    links = dump(plain, 0)
    if family == 7:
        links.update(dump(plain, 7))
    return {"code": code, "message": message, "replies": replies, "links": links}


def run(request):
    """The same in a child process, with which the namespace ends."""
    source, sink = os.pipe()
    child = os.fork()
    if child == 0:
        os.close(source)
        try:
            result = run_in_namespace(request)
        except OSError as error:
            result = {"lacks": str(error)}
        with os.fdopen(sink, "w") as pipe:
            json.dump(result, pipe)
        os._exit(0)
    os.close(sink)
    with os.fdopen(source) as pipe:
        result = json.load(pipe)
    os.waitpid(child, 0)
    return result


def differences(first, second):
    """(link, attribute) of each difference between two results."""
    pairs = set()
    for name in set(first["links"]) | set(second["links"]):
        a, b = first["links"].get(name), second["links"].get(name)
        if a is None or b is None:
            pairs.add((name, "there"))
            continue
        pairs |= {(name, kind) for kind in set(a) | set(b) if a.get(kind) != b.get(kind)}
    if first["replies"] != second["replies"]:
        pairs.add(("replies", ""))
    return pairs


def is_unsupported(result):
    return "lacks" in result or result["code"] is None or result["message"] == "Unknown device type"


def describe(result):
    return f"{result['code']} {result['message']}".strip()


def compare(request, text):
    """`alike`, `parted` or `not here`; both codes; and a description with the differences."""
    first, repetition, second = run(request), run(request), run(text)
    for result in (first, repetition, second):
        if is_unsupported(result):
            return "not here", (None, None), result.get("lacks", result.get("message", ""))
    pairs = differences(first, second) - differences(first, repetition)
    codes = (first["code"], second["code"])
    line = f"{describe(first)} | {describe(second)}"
    if pairs:
        line += " | " + ", ".join(sorted(f"{name} {kind}".strip() for name, kind in pairs))
    return ("parted" if codes[0] != codes[1] or pairs else "alike"), codes, line


def stored_pairs():
    """(row of docs/kernels.md, name, result on that page, request, normal text) of each pair of kernels.tsv."""
    with open(os.path.join(HERE, "kernels.tsv")) as table:
        for line in table:
            if not line.startswith("#"):
                row, name, verdict, codes, request, text = line.rstrip("\n").split("\t")
                yield row, name, (verdict, codes), bytes.fromhex(request), bytes.fromhex(text)


def is_as_on_page(page, verdict, codes):
    page_verdict, page_codes = page
    return page_verdict == verdict and all(c in ("?", str(code)) for c, code in zip(page_codes.split(), codes))


def capture_pairs(path, program):
    """The same of each request of a capture about links that linkcap accepts, without a result on that page."""
    with open(path, "rb") as capture:
        data = capture.read()
    for number, (kind, _, frame) in enumerate(frames(data)):
        if kind not in (16, 17, 18, 19) or not struct.unpack_from("<H", frame, 6)[0] & 1:
            continue
        process = subprocess.run([program, "norm"], input=frame, capture_output=True)
        if process.returncode == 0:
            yield "-", f"message {number}", None, frame, process.stdout


def main(args):
    if os.geteuid():
        sys.exit("kernels.py: needs root, for network namespaces")
    program = args[1] if len(args) > 1 else os.path.join(HERE, "../crates/linkcap/out/linkcap")
    pairs = capture_pairs(args[0], program) if args else stored_pairs()
    verdicts, missing = {}, set()
    print(f"Linux {os.uname().release}")
    for row, name, page, request, text in pairs:
        verdict, codes, line = compare(request, text)
        if page and verdict != "not here" and not is_as_on_page(page, verdict, codes):
            line += " | not as on the page"
        print(f"{row:>2}  {verdict:8}  {name}: {line}", flush=True)
        if verdict == "not here":
            missing.add(row)
        else:
            verdicts.setdefault(row, set()).add(verdict)
    parted = sorted((row for row in verdicts if row not in "0-" and "parted" in verdicts[row]), key=int)
    alike = sorted((row for row in verdicts if row not in "0-" and "parted" not in verdicts[row]), key=int)
    not_here = sorted((row for row in missing if row not in "0-" and row not in verdicts), key=int)
    if not args:
        rows = [" ".join(rows) or "none" for rows in (parted, alike, not_here)]
        print("parted here: %s; alike here: %s; not here: %s" % tuple(rows))


main(sys.argv[1:])
