"""Sends requests over sockets of two network namespaces from one process, which has to be in a new namespace.

It has links br0, v0 and v1 there; in the second one, which it makes, v1 has another index, and br1 has that of br0."""
import ctypes
import os
import socket
import struct
import subprocess

CLONE_NEWNET = 0x40000000  # linux/sched.h
RTM_NEWLINK, REQUEST_AND_ACK = 16, 5
IFLA_IFNAME, IFLA_MASTER, IFLA_NET_NS_FD = 3, 10, 28
IFF_UP = 1


def attribute(kind, value):
    return struct.pack("=HH", 4 + len(value), kind) + value + bytes(-len(value) % 4)


def request(route, index, attributes=b"", flags=0):
    body = struct.pack("=BxHiII", 0, 0, index, flags, flags) + attributes
    route.send(struct.pack("=IHHII", 16 + len(body), RTM_NEWLINK, REQUEST_AND_ACK, 7, 0) + body)
    route.recv(65536)


def new_socket():
    return socket.socket(socket.AF_NETLINK, socket.SOCK_RAW, socket.NETLINK_ROUTE)


def run(command):
    subprocess.run(command, shell=True, check=True)


run("ip link add br0 type bridge; ip link add v0 type veth peer name v1")
first = new_socket()
bridge, v0, v1 = map(socket.if_nametoindex, ("br0", "v0", "v1"))
with open("/proc/self/ns/net", "rb") as file:
    assert ctypes.CDLL(None).unshare(CLONE_NEWNET) == 0
    run("ip link add br1 index %d type bridge" % bridge)
    second = new_socket()
    with open("/proc/self/ns/net", "rb") as other:
        request(first, v1, attribute(IFLA_NET_NS_FD, struct.pack("=i", other.fileno())))
        request(first, v0, attribute(IFLA_MASTER, struct.pack("=i", bridge)))
        moved = socket.if_nametoindex("v1")
        request(second, moved, attribute(IFLA_MASTER, struct.pack("=i", bridge)))
        request(first, v0, attribute(IFLA_IFNAME, b"w0\0"))
        request(first, v0, flags=IFF_UP)
        request(second, moved, attribute(IFLA_NET_NS_FD, struct.pack("=i", file.fileno())))
        request(first, bridge, flags=IFF_UP)
