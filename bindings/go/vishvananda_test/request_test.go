// Package vishvananda_test compares requests of github.com/vishvananda/netlink with golden files.
package vishvananda_test

import (
	"flag"
	"net"
	"os"
	"os/exec"
	"path/filepath"
	"runtime"
	"testing"

	"github.com/vishvananda/netlink"
	"github.com/vishvananda/netlink/nl"
	"golang.org/x/sys/unix"

	"linkcap.invalid/linkcap"
	"linkcap.invalid/linkcap/linkcaptest"
)

// newLink returns the start of a request, as netlink.LinkAdd makes it.
func newLink(name string) *nl.NetlinkRequest {
	request := nl.NewNetlinkRequest(unix.RTM_NEWLINK, unix.NLM_F_CREATE|unix.NLM_F_EXCL|unix.NLM_F_ACK)
	request.AddData(nl.NewIfInfomsg(unix.AF_UNSPEC))
	request.AddData(nl.NewRtAttr(unix.IFLA_IFNAME, nl.ZeroTerminated(name)))
	return request
}

// linkInfo returns an IFLA_LINKINFO of a kind, and its empty IFLA_INFO_DATA.
func linkInfo(kind string) (info, data *nl.RtAttr) {
	info = nl.NewRtAttr(unix.IFLA_LINKINFO, nil)
	info.AddRtAttr(nl.IFLA_INFO_KIND, nl.NonZeroTerminated(kind))
	return info, info.AddRtAttr(nl.IFLA_INFO_DATA, nil)
}

func addVlan(name string, parent uint32, id uint16, mtu uint32) []byte {
	request := newLink(name)
	request.AddData(nl.NewRtAttr(unix.IFLA_LINK, nl.Uint32Attr(parent)))
	request.AddData(nl.NewRtAttr(unix.IFLA_MTU, nl.Uint32Attr(mtu)))
	info, data := linkInfo("vlan")
	data.AddRtAttr(nl.IFLA_VLAN_ID, nl.Uint16Attr(id))
	request.AddData(info)
	return request.Serialize()
}

func addVeth(name, peerName string, address net.HardwareAddr) []byte {
	request := newLink(name)
	info, data := linkInfo("veth")
	peer := data.AddRtAttr(nl.VETH_INFO_PEER, nil)
	nl.NewIfInfomsgChild(peer, unix.AF_UNSPEC)
	peer.AddRtAttr(unix.IFLA_IFNAME, nl.ZeroTerminated(peerName))
	peer.AddRtAttr(unix.IFLA_ADDRESS, []byte(address))
	request.AddData(info)
	return request.Serialize()
}

func TestVlan(t *testing.T) {
	linkcaptest.Golden(t, addVlan("eth0.5", 2, 5, 1450), "testdata/vlan.lines")
}

func TestVeth(t *testing.T) {
	linkcaptest.Golden(t, addVeth("v0", "v1", net.HardwareAddr{2, 0, 0, 0, 0, 1}), "testdata/veth.lines")
}

func TestPaddingMeansNothing(t *testing.T) {
	one := addVlan("eth0.5", 2, 5, 1450)
	other := append([]byte(nil), one...)
	other[len(other)-1] = 0xee // padding of IFLA_VLAN_ID
	if string(one) == string(other) {
		t.Fatal("equal bytes")
	}
	linkcaptest.Same(t, other, one)
}

// makeChildAttributes returns attributes of a link whose parent is the first one.
func makeChildAttributes(name string) netlink.LinkAttrs {
	attributes := makeAttributes(name)
	attributes.ParentIndex = 1
	return attributes
}

func makeAttributes(name string) netlink.LinkAttrs {
	attributes := netlink.NewLinkAttrs()
	attributes.Name = name
	return attributes
}

var links = map[string]netlink.Link{
	"bridge":  &netlink.Bridge{LinkAttrs: makeAttributes("br0")},
	"dummy":   &netlink.Dummy{LinkAttrs: makeAttributes("d0")},
	"ipvlan":  &netlink.IPVlan{LinkAttrs: makeChildAttributes("i0"), Mode: netlink.IPVLAN_MODE_L2},
	"macvlan": &netlink.Macvlan{LinkAttrs: makeChildAttributes("m0"), Mode: netlink.MACVLAN_MODE_BRIDGE},
	"veth":    &netlink.Veth{LinkAttrs: makeAttributes("v0"), PeerName: "v1"},
	"vlan":    &netlink.Vlan{LinkAttrs: makeChildAttributes("e0.5"), VlanId: 5, VlanProtocol: netlink.VLAN_PROTOCOL_8021Q},
	"vxlan":   &netlink.Vxlan{LinkAttrs: makeAttributes("vx0"), VxlanId: 10, Port: 4789, Learning: true},
}

var add = flag.String("add", "", "the link that this program adds, in place of its tests")

func TestMain(m *testing.M) {
	flag.Parse()
	if *add == "" {
		os.Exit(m.Run())
	}
	runtime.LockOSThread()
	if err := netlink.LinkAdd(links[*add]); err != nil {
		println(err.Error()) // this kernel may lack the kind; the request was sent
	}
}

// TestLinkAdd records the request that netlink.LinkAdd sends by linkrec, and compares it with golden files.
func TestLinkAdd(t *testing.T) {
	t.Setenv("LINKREC", "../../../scripts/linkrec")
	for name := range links {
		t.Run(name, func(t *testing.T) {
			capture := linkcaptest.Record(t, exec.Command(os.Args[0], "-add="+name))
			options := linkcap.Options{Only: "newlink"}
			linkcaptest.GoldenWith(t, capture, filepath.Join("testdata", "linkadd-"+name+".lines"), options)
		})
	}
}
