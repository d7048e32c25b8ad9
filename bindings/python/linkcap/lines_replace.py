"""Fixed names in place of names of links and hardware addresses that are random, in lines of linkshow.

`REGEX=NAME` puts NAME in place of each name of a link, and each hardware address, that the regular expression matches as a
whole. Other texts, such as kinds of links or IP addresses, stay as they are, so an expression can't hide them. The first text
that gets a NAME is NAME, the second `NAME#2`, and so on, in order of appearance; the same text always gets the same one.

This file imports no other file of the package, since the scripts linkjson, linkdiff and linkgold are installed with a copy of
it.
"""
import re
from typing import Dict, Iterable, List, Optional, Pattern, Tuple

# The attributes whose texts are names of links, also in place of an index.
LINK_NAMES = frozenset("""
    BRIDGE_QUERIER_IPV6_PORT BRIDGE_QUERIER_IP_PORT FRA_IIFNAME FRA_OIFNAME IFA_LABEL IFLA_ALT_IFNAME IFLA_AMT_LINK
    IFLA_BOND_ACTIVE_SLAVE IFLA_BOND_PRIMARY IFLA_BRIDGE_CFM_MEP_CREATE_IFINDEX IFLA_BRIDGE_MRP_INFO_I_IFINDEX
    IFLA_BRIDGE_MRP_INFO_P_IFINDEX IFLA_BRIDGE_MRP_INFO_S_IFINDEX IFLA_BRIDGE_MRP_INSTANCE_P_IFINDEX
    IFLA_BRIDGE_MRP_INSTANCE_S_IFINDEX IFLA_BRIDGE_MRP_IN_ROLE_I_IFINDEX IFLA_BRPORT_BACKUP_PORT IFLA_DSA_CONDUIT
    IFLA_GRE_LINK IFLA_HSR_INTERLINK IFLA_HSR_SLAVE1 IFLA_HSR_SLAVE2 IFLA_IFNAME IFLA_IPTUN_LINK IFLA_LINK IFLA_MASTER
    IFLA_NEW_IFINDEX IFLA_VTI_LINK IFLA_VXLAN_LINK IFLA_XFRM_LINK LWT_XFRM_LINK MDBA_MDB_EATTR_IFINDEX MDBE_ATTR_IFINDEX
    NDA_IFINDEX NDA_MASTER NDTPA_IFINDEX NETCONFA_IFINDEX NHA_MASTER NHA_OIF RTA_IIF RTA_OIF SEG6_LOCAL_IIF SEG6_LOCAL_OIF""".split())

# The attributes whose values are hardware addresses, and those whose values have one after a bridge's priority.
HARDWARE_ADDRESSES = frozenset("""
    IFLA_ADDRESS IFLA_BOND_AD_ACTOR_SYSTEM IFLA_BOND_AD_INFO_PARTNER_MAC IFLA_BOND_SLAVE_PERM_HWADDR
    IFLA_BRIDGE_CFM_CC_CCM_TX_DMAC IFLA_BRIDGE_CFM_MEP_CONFIG_UNICAST_MAC IFLA_BROADCAST IFLA_BR_GROUP_ADDR
    IFLA_HSR_SUPERVISION_ADDR IFLA_MACVLAN_MACADDR IFLA_PERM_ADDRESS NDA_LLADDR TCA_FLOWER_KEY_ARP_SHA
    TCA_FLOWER_KEY_ARP_THA TCA_FLOWER_KEY_ETH_DST TCA_FLOWER_KEY_ETH_SRC""".split())
BRIDGE_IDS = frozenset("""
    IFLA_BRPORT_BRIDGE_ID IFLA_BRPORT_ROOT_ID IFLA_BR_BRIDGE_ID IFLA_BR_ROOT_ID""".split())

_NAME = re.compile(r"[A-Za-z_][\w.-]*", re.ASCII)
_ATTRIBUTE = re.compile(r'( +)([A-Z]\w*)( (?:nested )?)(.*)')
_QUOTED = re.compile(r'"((?:[^"\\]|\\.)*)"')
_QUOTED_INDEX = re.compile(r'(?<= index )"((?:[^"\\]|\\.)*)"|(?<= ifindex )"((?:[^"\\]|\\.)*)"')
_HARDWARE_ADDRESS = re.compile(r"[0-9a-f]{2}(?::[0-9a-f]{2})*")
_BRIDGE_ID = re.compile(r"([0-9a-f]{4}\.)([0-9a-f]{12})")


def _rule(word: str) -> Tuple["Pattern[str]", str]:
    """The regular expression and the name of `REGEX=NAME`. The last `=` separates them.

    # Errors

    ValueError if one of them is missing or malformed.
    """
    expression, separator, name = word.rpartition("=")
    if not separator or not expression:
        raise ValueError(f"{word}: not of the form REGEX=NAME")
    if not _NAME.fullmatch(name):
        raise ValueError(f"{word}: a NAME is a letter, and letters, digits, '_', '.' and '-'")
    try:
        return re.compile(expression), name
    except re.error as error:
        raise ValueError(f"{word}: no regular expression: {error}") from None


class Replacement:
    """The names that replace texts in a file, whose lines are given to `apply` in order."""

    def __init__(self, words: Iterable[str]) -> None:
        """# Errors

        ValueError, with the word, if one isn't `REGEX=NAME`.
        """
        self._rules = [_rule(word) for word in words]
        self._names: Dict[str, str] = {}
        self._counts: Dict[str, int] = {}

    def apply(self, lines: Iterable[str]) -> List[str]:
        """The lines with names in place of texts that match."""
        return [self._line(line) for line in lines] if self._rules else list(lines)

    def _line(self, line: str) -> str:
        attribute = _ATTRIBUTE.fullmatch(line)
        if attribute is None:
            return _QUOTED_INDEX.sub(self._quoted, line) if line.startswith(" ") else line
        return "".join(attribute.group(1, 2, 3)) + self._value(attribute[2], attribute[4])

    def _value(self, attribute: str, value: str) -> str:
        """The value of an attribute, with a name in place of the text or the address in it."""
        if _QUOTED.fullmatch(value):
            return _QUOTED.sub(self._quoted, value) if attribute in LINK_NAMES else value
        if attribute in HARDWARE_ADDRESSES and _HARDWARE_ADDRESS.fullmatch(value):
            return self._name(value) or value
        bridge_id = _BRIDGE_ID.fullmatch(value) if attribute in BRIDGE_IDS else None
        name = self._name(":".join(re.findall("..", bridge_id[2]))) if bridge_id else None
        return bridge_id[1] + name if bridge_id and name else value

    def _quoted(self, match: "re.Match[str]") -> str:
        text = match[match.lastindex or 0]
        return f'"{self._name(text) or text}"'

    def _name(self, text: str) -> Optional[str]:
        """The name for a text, or None if no expression matches it."""
        if text not in self._names:
            base = next((name for expression, name in self._rules if expression.fullmatch(text)), None)
            if base is None:
                return None
            count = self._counts[base] = self._counts.get(base, 0) + 1
            self._names[text] = base if count == 1 else f"{base}#{count}"
        return self._names[text]
