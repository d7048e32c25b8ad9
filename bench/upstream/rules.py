"""The known differences, as rules: each says what both sides give for what it covers."""
import ipaddress
import os
import re
import sys

sys.path.insert(0, os.path.join(os.path.dirname(os.path.abspath(__file__)), "..", "..", "tools", "oracle"))
import linkoracle           # noqa: E402
import tables               # noqa: E402
from debug_text import Node, Word  # noqa: E402
from elements import KIND_MASK, LINK_HEADER_SIZE, cut, cut_first, in_force, is_node  # noqa: E402


class Rule:
    """A known difference: its name, where it is written down, and whether it covers an element."""

    def __init__(self, name, source, test):
        self.name, self.source, self.test = name, source, test

    def covers(self, element):
        try:
            return bool(self.test(element))
        except (AttributeError, IndexError, KeyError, TypeError, UnicodeDecodeError):
            return False        # values of other forms than those of the rule


RULES = []


def rule(name, source):
    def keep(test):
        RULES.append(Rule(name, source, test))
        return test
    return keep


# What both sides give

LINK_FLAGS = dict(Up=1, Broadcast=2, Debug=4, Loopback=8, Pointopoint=0x10, Notrailers=0x20, Running=0x40, Noarp=0x80, Promisc=0x100,
                  Allmulti=0x200, Controller=0x400, Port=0x800, Multicast=0x1000, Portsel=0x2000, Automedia=0x4000, Dynamic=0x8000,
                  LowerUp=0x10000, Dormant=0x20000, Echo=0x40000)
# The bits of the crate's names of flags, from the kernel's headers
FLAGS = {
    "LinkFlags": LINK_FLAGS,
    "Inet6IfaceFlags": dict(Otherconf=0x80, RaManaged=0x40, RaRcvd=0x20, RsSent=0x10, Ready=0x80000000),
    "GreIOFlags": dict(Checksum=0x8000, Routing=0x4000, Key=0x2000, Seq=0x1000, Strict0=0x800, Rec=0x700, Ack=0x80, Flags=0x78, Version=7),
    "GreEncapFlags": dict(Checksum=1, Checksum6=2, RemoteChecksum=4),
    "TunnelEncapFlags": dict(CSum=1, CSum6=2, RemCSum=4),
    "Ip6TunnelFlags": dict(IgnEncapLimit=1, UseOrigTclass=2, UseOrigFlowlabel=4, Mip6Dev=8, RcvDscpCopy=0x10, UseOrigFwMark=0x20,
                           AllowLocalRemote=0x40, CapXmit=0x10000, CapRcv=0x20000, CapPerPacket=0x40000),
    "IpVlanFlags": dict(Private=1, Vepa=2), "IpVtapFlags": dict(Private=1, Vepa=2),
    "MacVlanFlags": dict(NoPromisc=1, NoDst=2), "MacVtapFlags": dict(NoPromisc=1, NoDst=2),
}
FAMILIES = """Unspec Unix Inet Ax25 Ipx Appletalk Netrom Bridge Atmpvc X25 Inet6 Rose Decnet Netbeui Security Key Netlink Packet Ash
    Econet Atmsvc Rds Sna Irda Pppox Wanpipe Llc Ib Mpls Can Tipc Bluetooth Iucv Rxrpc Isdn Phonet Ieee802154 Caif Alg Nfc Vsock Kcm
    Qipcrtr Smc Xdp Mctp""".split()
PROTOCOLS = dict(Hopopts=0, Icmp=1, Igmp=2, Ipip=4, Tcp=6, Egp=8, Pup=12, Udp=17, Idp=22, Tp=29, Dccp=33, Ipv6=41, Rsvp=46, Gre=47,
                 Esp=50, Ah=51, Mtp=92, Beetph=94, Encap=98, Pim=103, Comp=108, L2tp=115, Sctp=132, Udplite=136, Mpls=137, Ethernet=143,
                 Raw=255)


def is_record(value, name):
    return isinstance(value, Node) and value.name == name and isinstance(value.fields, dict)


def is_raw(value, kind, payload):
    """Whether a value is the raw attribute of this kind and payload."""
    if is_node(value, "Other") or is_node(value, "ProtoInfoUnknown"):
        value = value.fields[0]
    return is_record(value, "DefaultNla") and value.fields == {"kind": kind, "value": list(payload)}


def flag_number(value, table):
    """The number that names of flags give; None if it isn't."""
    text = value if isinstance(value, Word) else value.name if isinstance(value, Node) and not value.fields else None
    if text is None:
        return value if isinstance(value, int) else None
    number = 0
    for word in text.split(" | "):
        if word not in table and not word.startswith("0x"):
            return None
        number |= table[word] if word in table else int(word, 16)
    return number


def little(payload):
    return int.from_bytes(payload, "little")


def big(payload):
    return int.from_bytes(payload, "big")


def is_number_of(value, payload):
    return isinstance(value, int) and value % 256 ** max(1, len(payload)) in (little(payload), big(payload))


def address_bytes(word):
    try:
        return ipaddress.ip_address(str(word)).packed
    except ValueError:
        return None


def holds(value, payload):
    """Whether a value of ours is that of a payload: a number, a boolean, a text, bytes, an address, a named number, or a list."""
    if isinstance(value, Node) and value.name in ("true", "false"):
        return little(payload) != 0 if value.name == "true" else little(payload) != 1
    if isinstance(value, Word):
        return address_bytes(value) == payload
    if isinstance(value, int):
        return is_number_of(value, payload)
    if isinstance(value, str):
        return value.encode() == tables.drop_nul(payload)
    if isinstance(value, list) and (not value or isinstance(value[0], Node)):
        inside = cut(payload)
        return inside is not None and len(inside) == len(value) and all(
            is_raw(item, kind, part) or holds_variant(item, part) for item, (kind, part) in zip(value, inside))
    if isinstance(value, list):
        return value == list(payload)
    if isinstance(value, Node) and value.fields == []:
        return 0 < len(payload) <= 8
    if isinstance(value, Node) and isinstance(value.fields, dict):
        size = len(payload) // max(1, len(value.fields))
        return all(holds(field, payload[size * index:size * (index + 1)]) for index, field in enumerate(value.fields.values()))
    return isinstance(value, Node) and all(holds(field, payload) for field in value.fields)


def holds_variant(value, payload):
    """Whether a variant of a family holds a payload. One without fields says that it is present."""
    return isinstance(value, Node) and value.name != "Other" and (value.fields == [] or holds(value, payload))


# Forms: the same content, written otherwise

@rule("flags by name", "DIFFERENCES: Their `Debug` prints the number")
def _(e):
    name = e.place.rsplit("/", 1)[-1]
    return e.is_inner and name in FLAGS and isinstance(e.ours, int) and e.ours == flag_number(e.theirs, FLAGS[name])


@rule("records as arrays", "DIFFERENCES: Records of many numbers of one type are arrays")
def _(e):
    return is_record(e.ours, "Values") and isinstance(e.theirs, Node) and isinstance(e.theirs.fields, dict) and \
        [value % 2 ** 64 for value in e.ours.fields["values"]] == [value % 2 ** 64 for value in e.theirs.fields.values()]


@rule("bytes in a ByteVec", "netlink_packet_core: `Vec<u8>` in `DoneMessage`, ..")
def _(e):
    return is_record(e.ours, "ByteVec") and e.ours.fields["bytes"] == e.theirs


@rule("error codes", "netlink_packet_core: `NonZeroI32` is `ErrorCode`")
def _(e):
    return is_record(e.ours, "ErrorCode") and e.ours.fields["code"] == e.theirs and e.theirs != 0


@rule("settings of virtual functions", "link_message: `VfInfoSetting`")
def _(e):
    return is_record(e.ours, "VfInfoSetting") and isinstance(e.theirs, Node) and e.theirs.name == "VfInfo" + e.place.rsplit("/", 1)[-1] \
        and e.ours.fields == e.theirs.fields


@rule("settings that a driver doesn't report", "DIFFERENCES: A setting of a virtual function .. that is 0xffffffff is disabled")
def _(e):
    if e.payload[4:8] != b"\xff" * 4:
        return False
    if e.is_written:
        return e.place == "written link/VfInfoList/LinkVfInfo" and e.proper in (4, 7, 9) and \
            e.ours_written == (e.proper, e.payload[:4] + b"\1\0\0\0") and e.theirs_written == (e.proper, e.payload[:4] + bytes(4))
    ours, theirs = e.ours.fields, e.theirs.fields
    return is_record(e.ours, "VfInfoSetting") and is_record(e.theirs, "VfInfo" + e.place.rsplit("/", 1)[-1]) and \
        ours["vf_id"] == theirs["vf_id"] and is_node(ours["enabled"], "true", 0) and is_node(theirs["enabled"], "false", 0)


@rule("numbers without a sign", "DIFFERENCES: every other number of a link is unsigned")
def _(e):
    return isinstance(e.ours, int) and isinstance(e.theirs, int) and e.theirs < 0 and e.ours == e.theirs + 2 ** 32


@rule("families by number", "DIFFERENCES: They name 8 and 2 of them. Every other number is `Other`")
def _(e):
    return e.place.endswith("LinkHeader.interface_family") and is_node(e.ours, "Other") and isinstance(e.theirs, Node) and \
        not e.theirs.fields and e.theirs.name in FAMILIES and FAMILIES.index(e.theirs.name) == e.ours.fields[0]


@rule("physical identifiers", "DIFFERENCES: A `LinkPhysId` has a maximum length; here it is any bytes")
def _(e):
    if not (is_record(e.ours, "LinkPhysId") and is_record(e.theirs, "LinkPhysId") and not e.is_written):
        return False
    kept, length = e.ours.fields["bytes"].fields["bytes"], e.theirs.fields["len"]
    return kept == list(e.payload) and length == len(kept) % 32 and e.theirs.fields["id"] == kept[:length] + [0] * (32 - length)


@rule("physical identifiers of 32 bytes and more", "a fault of 0.28: the length is taken modulo 32, so that bytes are lost")
def _(e):
    return e.is_written and e.place == "written link" and e.proper in (34, 36) and len(e.payload) >= 32 and \
        e.ours_written == (e.proper, e.payload) and e.theirs_written == (e.proper, e.payload[:len(e.payload) % 32])


# The names of variants that differ: ours, theirs
OTHER_NAMES = {
    ("link", "LinkNetnsId"): "LinkNetNsId",
}


@rule("other names", "DIFFERENCES: The variants of `LinkAttribute` after `NumTxQueues` .. may differ")
def _(e):
    return not e.is_written and isinstance(e.ours, Node) and isinstance(e.theirs, Node) and \
        OTHER_NAMES.get((e.place, e.ours.name)) == e.theirs.name and (
            e.ours.fields == e.theirs.fields or e.ours.fields == [e.theirs.fields[0] % 2 ** 32])


# What 0.28 doesn't know

LATER_KINDS = dict(vti6="Vti6", vcan="Vcan", vxcan="Vxcan", amt="Amt", batadv="BatAdv", bareudp="BareUdp", netdevsim="Netdevsim",
                   virt_wifi="VirtWifi", wwan="Wwan", can="Can", dsa="Dsa", team="Team", erspan="ErSpan", ip6erspan="Ip6ErSpan",
                   pfcp="Pfcp", rmnet="RmNet")
LATER_DATA = {"Vti", "Vxcan", "Amt", "BatAdv", "BareUdp", "Wwan", "Can", "Dsa", "ErSpan", "Ip6ErSpan", "RmNet", "Wireguard"}
# The kinds of attributes that 0.28 keeps raw, and 0.34.0 types
LATER_ROWS = {
    "link": {56: "ParentDevName", 57: "ParentDevBusName", 58: "GroMaxSize", 59: "TsoMaxSize", 60: "TsoMaxSegs", 61: "AllMulti",
             62: "DevlinkPort", 63: "GsoIpv4MaxSize", 64: "GroIpv4MaxSize", 65: "DpllPin"},
    "link/AfSpecUnspec": {45: "Mctp"},
    "link/LinkInfo/Data/Vxlan": {32: "LabelPolicy", 33: "ReservedBits", 34: "McRoute"},
    "link/LinkInfo/Data/Geneve": {17: "Local", 18: "Local6"},
    "link/LinkInfo/Data/Gtp": {1: "Fd0", 2: "Fd1", 3: "PdpHashsize", 4: "Role", 5: "CreateSockets", 6: "RestartCount", 7: "Local",
                               8: "Local6"},
    "link/LinkInfo/Data/Vti": {1: "Link", 2: "IKey", 3: "OKey", 4: "Local", 5: "Remote", 6: "FwMark"},
}
GRE_ROWS = {21: "ErSpanIndex", 22: "ErSpanVer", 23: "ErSpanDir", 24: "ErSpanHwId"}
GRE6_ROWS = {1: "Link", 9: "Tos", **GRE_ROWS}
for _name, _rows in (("GreTun", GRE_ROWS), ("GreTap", GRE_ROWS), ("GreTun6", GRE6_ROWS), ("GreTap6", GRE6_ROWS)):
    LATER_ROWS["link/LinkInfo/Data/" + _name] = _rows


def is_later(e):
    place = e.place[len("written "):] if e.is_written else e.place
    return isinstance(e.ours, Node) and LATER_ROWS.get(place, {}).get(e.proper) == e.ours.name and is_raw(e.theirs, e.kind, e.payload)


def kept_kind(kind):
    """The kind that the crate writes for a raw attribute: without the byte order bit if both flag bits are set."""
    return kind & 0xBFFF if kind & 0xC000 == 0xC000 else kind


def kept_kinds(data):
    """The attributes of a list, each with the kind that the crate writes."""
    return [(kept_kind(kind), payload) for kind, payload in cut(data)]


@rule("attributes since 0.28", "netlink-packet-route 0.34.0, src/link/link_info/{vxlan,geneve,gtp,vti,gre/*}.rs, and its "
      "`DevlinkPort`, `DpllPin`, `AfSpecMctp`")
def _(e):
    if not is_later(e):
        return False
    return e.theirs_written == (kept_kind(e.kind), e.payload) if e.is_written else holds_variant(e.ours, e.payload)


@rule("kinds of links since 0.28", "netlink-packet-route 0.34.0, src/link/link_info/infos.rs and info_port.rs")
def _(e):
    if e.place != "link/LinkInfo" or not isinstance(e.ours, Node):
        return False
    if e.proper == 1:
        text = tables.drop_nul(e.payload).decode()
    if e.proper == 1 and text in LATER_KINDS:
        return e.ours == Node("Kind", [Node(LATER_KINDS[text], [])]) and e.theirs == Node("Kind", [Node("Other", [text])])
    return e.proper == 4 and e.ours == Node("PortKind", [Node("Team", [])]) and e.theirs == Node("PortKind", [Node("Other", ["team"])])


@rule("data of kinds since 0.28", "netlink-packet-route 0.34.0, src/link/link_info/info_data.rs and info_port.rs")
def _(e):
    place = e.place[len("written "):] if e.is_written else e.place
    if place != "link/LinkInfo" or e.proper not in (2, 5) or e.kind is None:
        return False
    name = "Data" if e.proper == 2 else "PortData"
    if e.theirs != Node(name, [Node("Other", [list(e.payload)])]) or not is_node(e.ours, name):
        return False
    if e.is_written:
        return e.theirs_written == (e.proper, e.payload)
    data = e.ours.fields[0]
    return data.name in (LATER_DATA if e.proper == 2 else {"TeamPort"}) and (data.name == "Vxcan" or holds(data, e.payload))


# Typed in the crate, raw here

TYPED_THERE = {
    "link/LinkInfo/Data/Bond", "link/LinkInfo/Data/Bridge", "link/LinkInfo/Data/Vlan", "link/LinkInfo/Data/Hsr",
    "link/LinkInfo/PortData/BondPort", "link/LinkInfo/PortData/BridgePort", "link/AfSpecBridge", "link/ProtoInfoBridge",
}


def is_typed_there(e):
    place = e.place[len("written "):] if e.is_written else e.place
    return place in TYPED_THERE and is_raw(e.ours, e.kind, e.payload) and isinstance(e.theirs, Node)


@rule("settings of bond, bridge, hsr and vlan", "DIFFERENCES: The settings of `bond`, `bridge`, .. are typed values; here raw attributes")
def _(e):
    if not is_typed_there(e):
        return False
    if e.is_written:
        return e.ours_written == (e.kind, e.payload) and not is_raw(e.theirs, e.kind, e.payload)
    return e.theirs.name != "DefaultNla"


@rule("identifiers of InfiniBand", "DIFFERENCES: IFLA_VF_IB_NODE_GUID and IFLA_VF_IB_PORT_GUID are typed; here raw attributes")
def _(e):
    place = e.place[len("written "):] if e.is_written else e.place
    if place != "link/VfInfoList/LinkVfInfo" or e.proper not in (10, 11) or not is_raw(e.ours, e.kind, e.payload):
        return False
    if e.is_written:
        return e.ours_written == (e.kind, e.payload) and e.theirs_written == (e.proper, e.payload[:12])
    guid = e.theirs.fields[0].fields
    return e.theirs.name == ("IbNodeGuid" if e.proper == 10 else "IbPortGuid") and guid == {
        "vf_id": little(e.payload[:4]), "guid": little(e.payload[4:12])}


# Peers

@rule("peers as their texts", "DIFFERENCES: The same in a link message, one level deep; but the value holds its canonical text")
def _(e):
    if e.is_written:
        return e.peers() is not None
    if not (e.is_inner and e.place.endswith("/Peer") and isinstance(e.ours, list) and is_record(e.theirs, "LinkMessage")):
        return False
    e.extra.append(e.peer_payload())
    return True


# Numbers in another byte order, and flags

SWAPPED = {
    "link/LinkInfo/Data/MacSec/Port", "link/LinkInfo/Data/IpTunnel/FlowInfo", "link/LinkInfo/Data/Vxlan/Label",
    *("link/LinkInfo/Data/%s/%s" % (name, field) for name in ("GreTun", "GreTap", "GreTun6", "GreTap6") for field in ("Link", "FwMask")),
}


@rule("byte orders", "netlink-packet-route 0.34.0, src/link/link_info/{macsec,iptunnel,vxlan,gre/*}.rs")
def _(e):
    return e.place in SWAPPED and isinstance(e.ours, int) and isinstance(e.theirs, int) and sorted((e.ours, e.theirs)) == sorted(
        (little(e.payload), big(e.payload)))


ENCAPSULATIONS = {0: "None", 1: "Fou", 2: "Gue"}


@rule("encapsulation of GRE", "netlink-packet-route 0.34.0, src/link/link_info/gre/*.rs: in native order")
def _(e):
    if e.place.endswith("/EncapType") and "/Gre" in e.place:
        return all(value == (Node(ENCAPSULATIONS[number], []) if number in ENCAPSULATIONS else Node("Other", [number]))
                   for value, number in ((e.ours, little(e.payload)), (e.theirs, big(e.payload))))
    bits = dict(Checksum=0x100, Checksum6=0x200, RemoteChecksum=0x400)
    return e.place.endswith("/GreEncapFlags") and e.ours == little(e.payload) and flag_number(e.theirs, bits) == big(e.payload)


VXLAN_DF = {0: "Unset", 1: "Set", 2: "Inherit"}


@rule("flags and numbers of vxlan", "netlink-packet-route 0.34.0, src/link/link_info/vxlan.rs")
def _(e):
    if e.place == "written link/LinkInfo/Data/Vxlan" and e.proper == 28:
        return e.ours_written == (28, e.payload) and e.theirs_written == (28, b"\1") and e.payload[0] > 1
    if e.place == "link/LinkInfo/Data/Vxlan/TtlInherit":
        return e.ours == e.payload[0] and e.theirs == Node("true" if e.payload[0] else "false", [])
    if e.place == "link/LinkInfo/Data/Vxlan/Df":
        number = e.payload[0]
        return e.theirs == number and e.ours == (Node(VXLAN_DF[number], []) if number in VXLAN_DF else Node("Other", [number]))
    return False


PRESENT = {("Vxlan", 23): "Gbp", ("Vxlan", 24): "RemCsumNoPartial", ("Vxlan", 27): "Gpe", ("IpTunnel", 19): "CollectMetadata"}


@rule("flags by their presence", "netlink-packet-route 0.34.0, src/link/link_info/{vxlan,iptunnel}.rs")
def _(e):
    place = e.place[len("written "):] if e.is_written else e.place
    name = PRESENT.get((place.rsplit("/", 1)[-1], e.proper if e.kind is not None else None))
    if name is None or e.is_inner or e.ours != Node(name, []) or not is_node(e.theirs, name):
        return False
    if e.is_written:
        return e.ours_written == (e.proper, b"") and e.theirs_written[0] == e.proper and e.theirs_written[1] in (b"", b"\0", b"\1")
    return e.theirs.fields[0].name in ("true", "false")


@rule("names of IP protocols", "netlink-packet-route 0.34.0, src/link/link_info/iptunnel.rs")
def _(e):
    if not e.place.endswith("IpTunnel/Protocol") or not isinstance(e.theirs, Node) or e.theirs.name not in PROTOCOLS:
        return False
    return PROTOCOLS[e.theirs.name] == e.payload[0] and e.ours in (
        Node("Other", [e.payload[0]]), Node({4: "IpIp", 41: "Ipv6"}.get(e.payload[0], ""), []))


@rule("VLAN protocols", "a fault of 0.28: a number without a name is read as 802.1Q (src/link/vlan_protocol.rs)")
def _(e):
    if e.place.endswith("VfVlanInfo.protocol"):
        return is_node(e.ours, "Other") and e.ours.fields[0] == big(e.payload[12:14]) and e.theirs == Node("Ieee8021Q", [])
    return e.place == "written link/VfInfoList/LinkVfInfo/VlanList" and e.proper == 1 and \
        big(e.payload[12:14]) not in (0x8100, 0x88A8) and e.ours_written == (1, e.payload[:14] + b"\0\0") and \
        e.theirs_written == (1, e.payload[:12] + b"\x81\0\0\0")


@rule("layer type MCTP", "netlink-packet-route 0.34.0 has `LinkLayerType::Mctp`")
def _(e):
    if e.is_written:
        return e.place == "written header" and e.payload[2:4] == b"\x22\1" and e.ours_written[1][2:4] == b"\x22\1" and \
            e.theirs_written[1] == e.ours_written[1][:2] + b"\xff\xff" + e.ours_written[1][4:]
    return e.place.endswith("LinkHeader.link_layer_type") and e.ours == Node("Mctp", []) and e.theirs == Node("Void", [])


# What is written

@rule("both flag bits", "DIFFERENCES: An attribute that has both flag bits loses the network byte order bit when it is written")
def _(e):
    if e.place == "written walk" or e.place == "written link/LinkInfo" and e.proper == 2 and e.ours == e.theirs:
        return kept_kinds(e.ours_written[1]) == cut(e.theirs_written[1])
    return e.is_written and e.kind is not None and e.kind & 0xC000 == 0xC000 and is_raw(e.ours, e.kind, e.payload) and \
        is_raw(e.theirs, e.kind, e.payload) and e.ours_written == (e.kind, e.payload) and e.theirs_written == (e.kind & 0xBFFF, e.payload)


@rule("headroom of netkit", "DIFFERENCES: `Headroom` and `Tailroom` of `netkit` report 4 bytes and write 2")
def _(e):
    return e.is_written and e.place.endswith("Data/Netkit") and e.proper in (8, 9) and e.ours_written == (e.proper, e.payload) and \
        e.theirs_written == (e.proper, e.payload + b"\0\0")


def unfit_peers(body):
    """Whether a peer at any depth of a body has no canonical text because a length in it wouldn't fit."""
    if len(body) < LINK_HEADER_SIZE:
        return False
    for kind, payload in cut(body[LINK_HEADER_SIZE:]) or []:
        attributes = cut(payload) or [] if kind & KIND_MASK == 18 else []
        for index, (inner, data) in enumerate(attributes):
            if inner & KIND_MASK != 2:
                continue
            name = in_force(attributes[:index])[0]
            first = cut_first(data)
            peers = [first[1]] if name in ("veth", "vxcan") and first and first[0] & KIND_MASK == 1 else [
                peer for peer_kind, peer in cut(data) or [] if peer_kind & KIND_MASK == 1] if name == "netkit" else []
            if any(is_unfit(peer) or unfit_peers(peer) for peer in peers):
                return True
    return False


def is_unfit(body):
    read = linkoracle.read_link_body(linkoracle.rules_for(), body)
    return read is not None and not linkoracle.fits(read.entries)


@rule("lengths of more than 16 bits", "DIFFERENCES: The crates truncate lengths to 16 bits when they write; 0.28 then panics in most cases")
def _(e):
    if e.place != "written":
        return False
    if e.ours == "unfit":
        return is_unfit(e.payload) and (e.theirs == "panicked" or isinstance(e.theirs, bytes) and len(e.theirs) <= len(e.payload) + 3)
    return e.ours == "read" and e.theirs == "panicked" and unfit_peers(e.payload)


@rule("peers that don't fit", "DIFFERENCES: A peer without a canonical text: .. in which a length wouldn't fit")
def _(e):
    return e.place == "parts" and unfit_peers(e.payload) and e.ours == (False, True) and e.theirs[0] == e.theirs[1]


@rule("lists deep inside lists", "DIFFERENCES: The time to write lists inside lists doubles with each level")
def _(e):
    return e.place == "written" and e.theirs == "deep" and e.ours == "read"


@rule("IFLA_PORT_SELF", "DIFFERENCES: IFLA_PORT_SELF is read as a list, and written with an IFLA_VF_PORT around it")
def _(e):
    if not (e.is_written and e.place == "written link" and e.proper == 25):
        return False
    inside = cut(e.theirs_written[1])
    return e.theirs_written[0] == e.ours_written[0] == 25 and inside is not None and len(inside) == 1 and inside[0][0] == 1


@rule("nested bit of IFLA_PROTO_DOWN_REASON", "DIFFERENCES: IFLA_PROTO_DOWN_REASON is written without the nested bit")
def _(e):
    return e.is_written and e.place == "written link" and e.proper == 55 and e.ours_written[0] == 0x8037 and \
        e.theirs_written[0] == 55 and cut(e.theirs_written[1]) == kept_kinds(e.ours_written[1])


@rule("policy of netkit", "DIFFERENCES: `NetkitPolicy` of 7 is `Other(7)`, although `Redirect` is written as 7")
def _(e):
    return e.place in ("link/LinkInfo/Data/Netkit/Policy", "link/LinkInfo/Data/Netkit/PeerPolicy") and \
        little(e.payload) == 7 and e.ours == Node("Redirect", []) and e.theirs == Node("Other", [7])


# Refusals. Each is where the last attribute of what is left of a body is: kinds, with the kind of link in force.

PAIRS = re.compile("18/2 of (veth|netkit|vxcan)/1")
LATER_DATA_PLACE = re.compile("18/(2 of (%s)|5 of team)(/|$)" % "|".join([*LATER_KINDS, "wireguard"]))
ROW_PLACES = dict(vxlan="Vxlan", geneve="Geneve", gtp="Gtp", vti="Vti", gre="GreTun", gretap="GreTap", ip6gre="GreTun6",
                  ip6gretap="GreTap6")


def refused(e, *places):
    """Whether the place of a refusal is one of these, in the body or in a peer in it."""
    return e.place.startswith("refused ") and len(PAIRS.findall(e.place)) < 2 and (
        "link/" + e.place.rsplit("/peer/", 1)[-1] if "/peer/" in e.place else e.place[len("refused "):]) in places


def only_ours(e):
    return e.ours == "refused" and e.theirs == "read"


def only_theirs(e):
    return e.ours == "read" and e.theirs == "refused"


def inside_later(e):
    """Whether the crate keeps a list around it raw, in which it hence finds nothing to refuse."""
    first = LATER_DATA_PLACE.search(e.place)
    return first and len(PAIRS.findall(e.place[:first.start()])) < 2


@rule("data of kinds since 0.28 that are refused", "netlink-packet-route 0.34.0, src/link/link_info/info_data.rs and info_port.rs")
def _(e):
    return e.place.startswith("refused ") and only_ours(e) and inside_later(e) and "Data(Other([" in e.theirs_result.text


@rule("peers inside peers", "DIFFERENCES: The same in a link message, one level deep; 0.28 judges all depths")
def _(e):
    return e.place.startswith("refused ") and e.ours == "read" and e.theirs in ("refused", "panicked") and \
        len(PAIRS.findall(e.place)) > 1 and "Peer([" in e.ours_result.text


@rule("source addresses inside source addresses", "DIFFERENCES: a list inside it is kept as a raw attribute, whatever it holds")
def _(e):
    place = e.place[len("written "):] if e.is_written else e.place
    if place in ("link/LinkInfo/Data/MacVlan/MacAddrData", "link/LinkInfo/Data/MacVtap/MacAddrData") and e.proper == 5:
        return is_raw(e.ours, e.kind, e.payload) and is_node(e.theirs, "MacAddrData") and (
            not e.is_written or e.ours_written == (e.kind, e.payload) and e.theirs_written[0] == 5)
    return e.place.startswith("refused ") and only_theirs(e) and re.search("18/2 of (macvlan|macvtap)/5/5(/|$)", e.place) is not None and \
        "MacAddrData([Other(DefaultNla { kind: " in e.ours_result.text


@rule("ports of a peer", "DIFFERENCES: A peer without a canonical text: one that has a list of ports without a port")
def _(e):
    return only_ours(e) and "/peer/" in e.place and re.search("/peer/24(/|$)", e.place) is not None and e.payload is not None and \
        len(PAIRS.findall(e.place)) == 1 and (e.proper != 1 or e.place.endswith("/24"))


@rule("empty lists", "DIFFERENCES: An empty IFLA_XDP, .. is refused; here an empty list")
def _(e):
    return e.payload == b"" and only_theirs(e) and "buffer has length 0, but an NLA header is 4 bytes" in e.theirs_result.text and \
        refused(e, "link/12", "link/22/1", "link/24/1", "link/25", "link/26", "link/26/2", "link/26/10", "link/43")


@rule("map of 28 bytes", "DIFFERENCES: An IFLA_MAP of less than 32 bytes is refused")
def _(e):
    return refused(e, "link/14") and 28 <= len(e.payload) < 32 and only_theirs(e) and "MapBuffer" in e.theirs_result.text


def shows_raw(result, kind, payload):
    return "DefaultNla { kind: %d, value: %r }" % (kind, list(payload)) in result.text


TYPED_PLACE = re.compile("^link/(18/2 of (bond|bridge|vlan|hsr)/|18/5 of (bond|bridge)/|26/|12/)")


@rule("settings that the crate refuses", "DIFFERENCES: The settings of `bond`, `bridge`, .. are typed values; here raw attributes")
def _(e):
    place = "link/" + e.place.rsplit("/peer/", 1)[-1] if "/peer/" in e.place else e.place[len("refused "):]
    return e.ours == "read" and e.theirs in ("refused", "panicked") and TYPED_PLACE.match(place) is not None and \
        ("/peer/" in e.place or shows_raw(e.ours_result, e.kind, e.payload))


@rule("identifiers of InfiniBand that the crate refuses", "DIFFERENCES: IFLA_VF_IB_NODE_GUID .. are typed; 0.28 panics")
def _(e):
    return refused(e, "link/22/1/10", "link/22/1/11") and len(e.payload) < 12 and e.ours == "read" and e.theirs == "panicked" and \
        ("/peer/" in e.place or shows_raw(e.ours_result, e.kind, e.payload))


def later_place(e):
    last = "link/" + e.place.rsplit("/peer/", 1)[-1] if "/peer/" in e.place else e.place[len("refused "):]
    words = last.split("/")
    if words[1].isdigit() and int(words[1]) in LATER_ROWS["link"] or words[1:3] == ["26", "45"]:
        return True
    name = words[2][len("2 of "):] if len(words) > 3 and words[1] == "18" and words[2].startswith("2 of ") else None
    return name in ROW_PLACES and int(words[3]) in LATER_ROWS["link/LinkInfo/Data/" + ROW_PLACES[name]]


@rule("attributes since 0.28 that are refused", "netlink-packet-route 0.34.0, as for attributes since 0.28")
def _(e):
    return e.place.startswith("refused ") and only_ours(e) and later_place(e) and "Other(DefaultNla { kind: " in e.theirs_result.text


@rule("flags by their presence that the crate refuses", "netlink-packet-route 0.34.0, src/link/link_info/iptunnel.rs and vxlan.rs")
def _(e):
    return only_theirs(e) and len(e.payload) != 1 and "Expected 1 bytes" in e.theirs_result.text and refused(
        e, *("link/18/2 of %s/19" % name for name in ("ipip", "sit", "ip6tnl")),
        *("link/18/2 of vxlan/%d" % kind for kind in (23, 24, 27, 28)))
