#!/usr/bin/env bash
# Attaches linkrec to a running daemon, and ends the recording with Ctrl-C.
#
#     scripts/tests/attach.sh LINKREC
#
# LINKSHOW is the program that shows captures. The status is 0 if the daemon's requests were recorded, with
# the name of the link that they are about.
set -uo pipefail
work=$(mktemp -d)
# The daemon has a route socket before linkrec attaches, and opens another one later; it also uses generic netlink.
python3 - << 'END' &
import socket, struct, time
def ask(route, kind, size):
    route.send(struct.pack("=IHHII", 16 + size, kind, 0x301, 1, 0) + bytes(size))
    while route.recv(65536)[4:6] != b"\3\0":
        pass
early = socket.socket(socket.AF_NETLINK, socket.SOCK_RAW, socket.NETLINK_ROUTE)
generic = socket.socket(socket.AF_NETLINK, socket.SOCK_RAW, 16)
for _ in range(60):
    ask(early, 18, 16)
    early.send(struct.pack("=IHHIIBxHiII", 32, 18, 1, 2, 0, 0, 0, 1, 0, 0))  # about link 1
    early.recv(65536)
    generic.send(struct.pack("=IHHIIBBH", 20, 16, 5, 1, 0, 3, 1, 0))
    late = socket.socket(socket.AF_NETLINK, socket.SOCK_RAW, socket.NETLINK_ROUTE)
    ask(late, 22, 8)
    time.sleep(0.1)
END
daemon=$!
trap 'kill $daemon 2> /dev/null; rm -rf "$work"' EXIT
sleep 1
timeout --preserve-status -s INT 3 "$1" run --attach "$daemon" -o "$work/made"
status=$?
kill -0 "$daemon" || { echo "attach: the daemon has ended"; exit 1; }
types=$("$LINKSHOW" "$work/made" | grep -v '^ ' | cut -d ' ' -f 1 | sort -u | paste -sd ' ')
[ "$status $types" = "0 RTM_GETADDR RTM_GETLINK" ] || { echo "attach: status $status, and recorded: $types"; exit 1; }
grep -q '"names": {"1": "lo"}' "$work/made.record" || { echo "attach: no name of link 1"; exit 1; }
