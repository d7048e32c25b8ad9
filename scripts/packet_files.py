"""The packets of pcap and pcapng files, and the route messages in them."""
import struct

from route_messages import NETLINK_ROUTE, Failure

LINKTYPE_SLL, LINKTYPE_NETLINK, LINKTYPE_SLL2 = 113, 253, 276
ARPHRD_NETLINK = 824
PCAP_ORDERS = {b"\xa1\xb2\xc3\xd4": ">", b"\xa1\xb2\x3c\x4d": ">", b"\xd4\xc3\xb2\xa1": "<", b"\x4d\x3c\xb2\xa1": "<"}
PCAPNG_SECTION = b"\n\r\r\n"


def packet_bytes(data, offset, stored_size, size):
    """The bytes of a packet. Raises a Failure if the file doesn't have all of them."""
    if stored_size < size:
        raise Failure("a packet wasn't stored whole: capture with tcpdump -s 0")
    if len(data) - offset < stored_size:
        raise Failure("the file ends inside a packet")
    return data[offset:offset + stored_size]


def pcap_packets(data):
    """The link type and the bytes of each packet of a classic pcap file."""
    order = PCAP_ORDERS[data[:4]]
    if len(data) < 24:
        raise Failure("the file ends inside its header")
    link_type, offset = struct.unpack_from(order + "I", data, 20)[0] & 0xFFFF, 24
    while offset < len(data):
        if len(data) - offset < 16:
            raise Failure("the file ends inside a packet")
        stored_size, size = struct.unpack_from(order + "II", data, offset + 8)
        yield link_type, packet_bytes(data, offset + 16, stored_size, size)
        offset += 16 + stored_size


def pcapng_blocks(data):
    """The byte order, the type and the body of each block of a pcapng file."""
    offset, order = 0, "<"
    while offset < len(data):
        if len(data) - offset < 12:
            raise Failure("the file ends inside a block")
        if data[offset:offset + 4] == PCAPNG_SECTION:
            order = "<" if data[offset + 8:offset + 12] == b"\x4d\x3c\x2b\x1a" else ">"
        kind, size = struct.unpack_from(order + "II", data, offset)
        if size < 12 or size % 4 or size > len(data) - offset:
            raise Failure("the file ends inside a block")
        yield order, kind, data[offset + 8:offset + size - 4]
        offset += size


def pcapng_packets(data):
    """The link type and the bytes of each packet of a pcapng file."""
    link_types = []
    for order, kind, body in pcapng_blocks(data):
        if kind == 0x0A0D0D0A:
            link_types = []
        elif kind == 1:
            link_types.append(struct.unpack_from(order + "H", body)[0])
        elif kind == 6 and len(body) >= 20:
            interface, _, _, stored_size, size = struct.unpack_from(order + "IIIII", body)
            if interface >= len(link_types):
                raise Failure("a packet of an interface that isn't described")
            yield link_types[interface], packet_bytes(body, 20, stored_size, size)
        elif kind == 3 and len(body) >= 4 and link_types:
            size, = struct.unpack_from(order + "I", body)
            yield link_types[0], packet_bytes(body, 4, min(size, len(body) - 4), size)


def route_bytes(link_type, packet):
    """The messages of a packet of a route socket, or None for any other packet."""
    if link_type in (LINKTYPE_NETLINK, LINKTYPE_SLL) and len(packet) >= 16:
        hardware, family, start = *struct.unpack_from(">H10xH", packet, 2), 16
    elif link_type == LINKTYPE_SLL2 and len(packet) >= 20:
        (family, hardware), start = struct.unpack_from(">H6xH", packet), 20
    else:
        return None
    return packet[start:] if hardware == ARPHRD_NETLINK and family == NETLINK_ROUTE else None
