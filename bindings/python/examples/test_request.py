"""A golden test of a request that pyroute2 builds."""
from pyroute2.netlink.rtnl.ifinfmsg import ifinfmsg

RTM_NEWLINK = 16


def set_mtu(name, mtu):
    message = ifinfmsg()
    message["header"]["type"] = RTM_NEWLINK
    message["attrs"] = [["IFLA_IFNAME", name], ["IFLA_MTU", mtu]]
    message.encode()
    return bytes(message.data)


def test_request(linkcap_golden):
    linkcap_golden(set_mtu("eth0", 1450), "request.lines")
