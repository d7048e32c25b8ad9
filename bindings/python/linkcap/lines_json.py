"""Lines of linkshow as data: `to_json` makes one dictionary of each message, which `dumps` writes as linkshow does.

    {"type": "RTM_NEWADDR", "flags": {"value": 2, "flags": ["MULTI"]}, "seq": 7, "port": 1,
     "header": {"struct": "ifaddrmsg", "family": {"value": 2, "text": "AF_INET"}, "prefixlen": 24, ..},
     "attributes": [{"name": "IFA_ADDRESS", "value": "192.0.2.1"}, ..]}

Nothing of the lines is lost, and numbers are numbers. linkjson(1) describes the keys. This file imports no other file of the
package, since the scripts linkjson, linkdiff and linkgold are installed with a copy of it.
"""
import json
import re
from typing import Any, Dict, Iterable, Iterator, List, Optional

Json = Dict[str, Any]

# The attributes whose values are bytes in hex, which may look like numbers, in format version 4 of the lines.
BYTES = frozenset("""
    BOND_3AD_STAT_PAD BRIDGE_QUERIER_PAD BRIDGE_VLANDB_GOPTS_PAD BRIDGE_VLANDB_STATS_PAD BRIDGE_XSTATS_PAD FRA_PAD
    FRA_UNUSED2 FRA_UNUSED3 FRA_UNUSED4 FRA_UNUSED5 IFLA_ADDRESS IFLA_AF_SPEC IFLA_BOND_AD_ACTOR_SYSTEM
    IFLA_BOND_AD_INFO_PARTNER_MAC IFLA_BOND_SLAVE_PERM_HWADDR IFLA_BRIDGE_CFM_CC_CCM_TX_DMAC
    IFLA_BRIDGE_CFM_CC_CONFIG_EXP_MAID IFLA_BRIDGE_CFM_MEP_CONFIG_UNICAST_MAC IFLA_BROADCAST IFLA_BRPORT_BRIDGE_ID
    IFLA_BRPORT_PAD IFLA_BRPORT_ROOT_ID IFLA_BR_BRIDGE_ID IFLA_BR_GROUP_ADDR IFLA_BR_PAD IFLA_BR_ROOT_ID IFLA_COST
    IFLA_HSR_SUPERVISION_ADDR IFLA_INET6_MCAST IFLA_INFO_DATA IFLA_INFO_SLAVE_DATA IFLA_INFO_XSTATS IFLA_MACVLAN_MACADDR
    IFLA_NETKIT_PEER_INFO IFLA_PERM_ADDRESS IFLA_PHYS_PORT_ID IFLA_PHYS_SWITCH_ID IFLA_PORT_HOST_UUID
    IFLA_PORT_INSTANCE_UUID IFLA_PRIORITY IFLA_PROTINFO IFLA_WIRELESS IOAM6_IPTUNNEL_TRACE LWTUNNEL_IP6_PAD
    LWTUNNEL_IP_OPT_GENEVE_DATA LWTUNNEL_IP_PAD NDA_LLADDR NDTA_PAD NDTPA_PAD NHA_RES_BUCKET_PAD NHA_RES_GROUP_PAD
    NLMSGERR_ATTR_COOKIE NL_POLICY_TYPE_ATTR_PAD RTA_MP_ALGO RTA_PAD RTA_PROTOINFO RTA_SESSION SEG6_LOCAL_CNT_PAD
    TCA_ACT_COOKIE TCA_ACT_PAD TCA_BPF_OPS TCA_BPF_POLICE TCA_BPF_TAG TCA_FLOWER_KEY_ARP_SHA TCA_FLOWER_KEY_ARP_SHA_MASK
    TCA_FLOWER_KEY_ARP_THA TCA_FLOWER_KEY_ARP_THA_MASK TCA_FLOWER_KEY_CT_LABELS TCA_FLOWER_KEY_CT_LABELS_MASK
    TCA_FLOWER_KEY_ENC_OPTS TCA_FLOWER_KEY_ENC_OPTS_MASK TCA_FLOWER_KEY_ETH_DST TCA_FLOWER_KEY_ETH_DST_MASK
    TCA_FLOWER_KEY_ETH_SRC TCA_FLOWER_KEY_ETH_SRC_MASK TCA_FLOWER_KEY_MPLS_OPTS TCA_GACT_PAD TCA_HTB_PAD TCA_MATCHALL_PAD
    TCA_MIRRED_PAD TCA_PAD TCA_STATS_APP TCA_STATS_PAD TCA_TBF_PAD TCA_U32_PAD TCA_U32_PCNT TCA_U32_POLICE TCA_XSTATS
    VETH_INFO_PEER VNIFILTER_ENTRY_STATS_PAD VXCAN_INFO_PEER padding""".split())

# The attributes whose values are any number of numbers.
NUMBER_LISTS = frozenset("""
    IFLA_CAN_BITRATE_CONST IFLA_CAN_DATA_BITRATE_CONST IFLA_CAN_TERMINATION_CONST IFLA_CAN_XL_DATA_BITRATE_CONST
    TCA_HTB_CTAB TCA_HTB_RTAB TCA_STAB_DATA TCA_TBF_PTAB TCA_TBF_RTAB""".split())

# The fields whose values are texts, also if they have digits alone: addresses, and padding.
TEXT_FIELDS = frozenset("""
    addr pad3 padding""".split())

# The fields that are objects in each header: sets of flags, and numbers that may have a name; and the code of an NLMSG_ERROR or
# NLMSG_DONE.
OBJECT_FIELDS = frozenset("""
    action change cmpr code eaction family filter_mask flags handle hmask hops mask mode offmask pad parent proto protocol
    reserved scope state table type val""".split())

_TOKEN = re.compile(r'[^\s"(]*"(?:[^"\\]|\\.)*"|\([^)]*\)|[^\s"]+')
_NUMBER = re.compile(r"-?[0-9]+")
_ESCAPE = re.compile(r"\\(?:x([0-9a-f]{2})|(.))")
_ASSIGNMENT = re.compile(r'[^\s="(]+=')
_ERROR = re.compile(r"(E[A-Z0-9]+|error [0-9]+)(?: \((.*)\))?")
_INDENT = 2
# In texts of JSON a backslash and the character after it, and the escapes that linkshow writes in place of short ones.
_JSON_ESCAPE = re.compile(r"\\(.)")
_LONG_ESCAPES = {"b": "\\u0008", "t": "\\u0009", "n": "\\u000a", "f": "\\u000c", "r": "\\u000d"}


class LineError(ValueError):
    """A line that linkshow doesn't write."""

    def __init__(self, line: str) -> None:
        super().__init__(f"no line of linkshow: {line[:80]}")


class _Tokens:
    """The words of a line, which are taken one by one. Text in quotes or in brackets is one word."""

    def __init__(self, words: List[str]) -> None:
        self._words, self._at = words, 0

    def peek(self) -> str:
        """The next word, or an empty string at the end."""
        return self._words[self._at] if self._at < len(self._words) else ""

    def take(self) -> str:
        word = self._words[self._at]
        self._at += 1
        return word

    def rest(self) -> List[str]:
        rest, self._at = self._words[self._at:], len(self._words)
        return rest


def dumps(message: Json) -> str:
    """A message as JSON, byte for byte as `linkshow --json` writes it.

    >>> dumps({"value": "a\\b\\x01"})
    '{"value": "a\\\\u0008\\\\u0001"}'
    """
    return _JSON_ESCAPE.sub(lambda match: _LONG_ESCAPES.get(match[1], match[0]), json.dumps(message))


def _unescape(escape: "re.Match[str]") -> str:
    return chr(int(escape[1], 16)) if escape[1] else escape[2]


def _value(tokens: _Tokens, is_bytes: bool = False) -> Json:
    """A value, with the name or the names that follow it in brackets."""
    word = tokens.take()
    names = tokens.take()[1:-1] if tokens.peek().startswith("(") else None
    if word.startswith("0x"):
        return {"value": int(word, 16), "flags": names.split(" | ") if names else []}
    if word.startswith('"'):
        return {"value": _ESCAPE.sub(_unescape, word[1:-1]), "quoted": True}
    value = {"value": int(word) if _NUMBER.fullmatch(word) and not is_bytes else word}
    return {**value, "text": names} if names else value


def _short(value: Json) -> Any:
    """The value itself, if it is the only entry of its dictionary."""
    return value["value"] if len(value) == 1 else value


def _fields(tokens: _Tokens) -> Json:
    """Fields as headers have them: `family 0 (AF_UNSPEC) index 2`."""
    fields = {}
    while tokens.peek():
        name = tokens.take()
        value = _value(tokens, name in TEXT_FIELDS)
        fields[name] = value if name in OBJECT_FIELDS else _short(value)
    return fields


def _assignments(tokens: _Tokens) -> Json:
    """Fields as records have them: `rx_packets=1 flags=0x1 (UP)`."""
    fields = {}
    while tokens.peek():
        name, _, word = tokens.take().partition("=")
        names = [tokens.take()] if tokens.peek().startswith("(") else []
        fields[name] = _short(_value(_Tokens([word, *names]), name in TEXT_FIELDS))
    return fields


def _type(tokens: _Tokens) -> Any:
    """The name of a message type, or the number of one that has no name."""
    word = tokens.take()
    return int(tokens.take()) if word == "type" else word


def _attribute(tokens: _Tokens) -> Json:
    name = tokens.take()
    if name == "kind":
        return {"kind": int(tokens.take(), 16), "value": "".join(tokens.rest())}
    attribute: Json = {"name": name}
    if tokens.peek() == "nested":
        tokens.take()
        attribute["nested_bit"] = True
    return {**attribute, **_attribute_value(name, tokens)}


def _attribute_value(name: str, tokens: _Tokens) -> Json:
    first = tokens.peek()
    if not first:
        return {}
    if first == "bytes":
        return {"bytes": "".join(tokens.rest()[1:])}
    if first == "fields":
        tokens.take()
        return {"fields": int(tokens.take()), "value": _assignments(tokens)}
    if _ASSIGNMENT.match(first):
        return {"value": _assignments(tokens)}
    if name in NUMBER_LISTS:
        return {"value": _several(tokens.rest())}
    value = _value(tokens, name in BYTES)
    if tokens.peek() == "mask":
        tokens.take()
        mask = _value(tokens)
        return {**value, "mask": mask["value"], "mask_flags": mask["flags"]}
    return value if not tokens.peek() else {"value": _several([first, *tokens.rest()])}


def _several(words: List[str]) -> Any:
    """Numbers as a list, and any other text, such as a label stack, as a string."""
    return [int(word) for word in words] if all(map(_NUMBER.fullmatch, words)) else " ".join(words)


def _refusal(text: str) -> Json:
    """Why the kernel refused a request, by the name of an error, or why linkcap did."""
    error = _ERROR.fullmatch(text)
    if not error:
        return {"refused": text}
    return {"reply": {"error": error[1], "reason": error[2]} if error[2] else {"error": error[1]}}


def _table(attributes: List[Json]) -> Json:
    """A route's table as the first RTA_TABLE has it, if that is a number: the header has 8 bits for it."""
    table: Json = next((attribute for attribute in attributes if attribute.get("name") == "RTA_TABLE"), {})
    value = {key: table[key] for key in table if key != "name"}
    return {"table": value} if isinstance(value.get("value"), int) and "nested_bit" not in value else {}


def _is_struct(word: str) -> bool:
    """Whether a word is the name of a struct: it is in lower case, and neither `kind` nor `padding`."""
    return word[0].islower() and word not in ("kind", "padding")


class _Message:
    """The JSON of a message, to which its lines are added one by one."""

    def __init__(self, tokens: _Tokens) -> None:
        self._members: Json = {"type": _type(tokens), **_fields(tokens)}
        if "flags" not in self._members:
            raise ValueError
        self._lists: List[List[Json]] = [[]]
        self._attributes = self._lists[0]

    @property
    def json(self) -> Json:
        """The dictionary of the message, with a route's table before its header, and its attributes last."""
        members = dict(self._members)
        if members.get("header", {}).get("struct") == "rtmsg":
            members.update(_table(self._attributes), header=members.pop("header"))
        return {**members, "attributes": self._attributes}

    def add(self, depth: int, line: str, tokens: _Tokens) -> None:
        word = tokens.peek()
        if depth == 1 and word in ("body", "rest"):
            self._members[word] = tokens.rest()[1]
        elif depth == 1 and word == "code":
            self._members.update(_fields(tokens))
        elif depth == 1 and word == "refused:":
            self._members.update(_refusal(line.strip().partition(" ")[2]))
        elif depth == 1 and word == "request":
            self._members["request"] = self._request(tokens)
        elif depth == 1 and _is_struct(word):
            self._members["header"] = {"struct": tokens.take(), **_fields(tokens)}
        else:
            entry = {"struct": tokens.take(), "fields": _fields(tokens)} if _is_struct(word) else _attribute(tokens)
            self._list(depth).append(entry)

    @staticmethod
    def _request(tokens: _Tokens) -> Json:
        tokens.take()
        tokens.take()
        length = int(tokens.take())
        return {"length": length, "type": _type(tokens), **_fields(tokens)}

    def _list(self, depth: int) -> List[Json]:
        """The list of attributes at a depth, which is nested in the last attribute one level above."""
        del self._lists[depth:]
        if len(self._lists) < depth:
            self._lists.append(self._lists[-1][-1].setdefault("nested", []))
        if len(self._lists) != depth:
            raise IndexError
        return self._lists[-1]


def _read(message: Optional[_Message], depth: int, line: str, tokens: _Tokens) -> _Message:
    """The message to which a line belongs, with the line added."""
    if depth == 0 or message is None:
        return _Message(tokens)
    message.add(depth, line, tokens)
    return message


def to_json(lines: Iterable[str]) -> Iterator[Json]:
    """Each message of the lines, as soon as the next one begins.

    # Errors

    LineError at the first line that linkshow doesn't write.
    """
    message: Optional[_Message] = None
    for line in lines:
        line = line.rstrip("\n")
        words = _TOKEN.findall(line)
        depth, extra = divmod(len(line) - len(line.lstrip(" ")), _INDENT)
        if extra or not words or " ".join(words) != line.lstrip(" ") or not (depth == 0 or message):
            raise LineError(line)
        if depth == 0 and message:
            yield message.json
        try:
            message = _read(message, depth, line, _Tokens(words))
        except (ValueError, LookupError, TypeError):
            raise LineError(line) from None
    if message:
        yield message.json
