package linkcap_test

import (
	"bytes"
	"encoding/binary"
	"errors"
	"fmt"
	"path/filepath"
	"reflect"
	"strconv"
	"strings"
	"testing"

	"linkcap.invalid/linkcap"
)

const (
	vniPath  = "IFLA_LINKINFO > IFLA_INFO_DATA > IFLA_VXLAN_ID"
	peerPath = "IFLA_LINKINFO > IFLA_INFO_DATA > VETH_INFO_PEER"
	create   = 0x400
)

// A command is one of iproute2 in samples/kinds/index.tsv, with the offset of its request.
type command struct {
	offset int
	words  []string
}

func readCommands(t *testing.T, file string) (commands []command) {
	t.Helper()
	for _, row := range strings.Split(string(readFile(t, "samples/kinds/index.tsv")), "\n") {
		columns := strings.Split(row, "\t")
		if columns[0] != file {
			continue
		}
		offset, err := strconv.Atoi(columns[1])
		if err != nil {
			t.Fatal(err)
		}
		commands = append(commands, command{offset, strings.Split(columns[3], " ")})
	}
	return commands
}

// after returns the word that follows another one, or nothing.
func (c command) after(word string) string {
	for i, other := range c.words[:len(c.words)-1] {
		if other == word {
			return c.words[i+1]
		}
	}
	return ""
}

func collectAttributes(t testing.TB, all linkcap.AttributeSeq) (attributes []linkcap.Attribute) {
	t.Helper()
	all(func(attribute linkcap.Attribute, err error) bool {
		if err != nil {
			t.Error(err)
		} else {
			attributes = append(attributes, attribute)
		}
		return true
	})
	return attributes
}

// values returns the values of the attributes of a message with a path, with commas between them.
func values(attributes []linkcap.Attribute, offset int, path string) string {
	var found []string
	for _, attribute := range attributes {
		if attribute.Message.Offset == offset && attribute.Path == path {
			found = append(found, attribute.Value)
		}
	}
	return strings.Join(found, ",")
}

// createsVNI10 is the example of README.md.
func createsVNI10(capture []byte) (bool, error) {
	return linkcap.Options{Only: "newlink"}.Attributes(capture).Any(func(a linkcap.Attribute) bool {
		return a.Path == "IFLA_LINKINFO > IFLA_INFO_DATA > IFLA_VXLAN_ID" && a.Value == "10" && a.Message.Flags&create != 0
	})
}

func checkVNI10(t *testing.T, capture []byte, want bool) {
	t.Helper()
	if got, err := createsVNI10(capture); got != want || err != nil {
		t.Errorf("%x: %v %v", capture, got, err)
	}
}

func TestAttributesOfRequests(t *testing.T) {
	capture := readSample(t, "kinds/req-vxlan")
	attributes, count := collectAttributes(t, linkcap.Attributes(capture)), 0
	for _, c := range readCommands(t, "req-vxlan.bin") {
		if got := values(attributes, c.offset, "IFLA_IFNAME"); got != strconv.Quote(c.words[3]) {
			t.Errorf("%v: %s", c, got)
		}
		vni := c.after("id")
		if vni == "" {
			continue
		}
		count++
		if got := values(attributes, c.offset, vniPath); got != vni {
			t.Errorf("%v: %s", c, got)
		}
		length := int(binary.LittleEndian.Uint32(capture[c.offset:]))
		checkVNI10(t, capture[c.offset:c.offset+length], vni == "10")
	}
	if count != 10 {
		t.Errorf("%d commands", count)
	}
	checkVNI10(t, capture, true)
	// The message of a kernel creates nothing.
	checkVNI10(t, readSample(t, "kinds/get-vxlan"), false)
}

// TestAttributesOfPeers compares the names of both ends of veth pairs.
func TestAttributesOfPeers(t *testing.T) {
	attributes := collectAttributes(t, linkcap.Attributes(readSample(t, "kinds/req-veth")))
	count := 0
	for _, c := range readCommands(t, "req-veth.bin") {
		if got := values(attributes, c.offset, "IFLA_IFNAME"); got != strconv.Quote(c.words[3]) {
			t.Errorf("%v: %s", c, got)
		}
		want := ""
		if other := c.after("name"); other != "" {
			want = strconv.Quote(other)
			count++
		}
		if got := values(attributes, c.offset, peerPath+" > IFLA_IFNAME"); got != want {
			t.Errorf("%v: %s", c, got)
		}
	}
	if count != 4 {
		t.Errorf("%d peers with names", count)
	}
	for _, c := range []struct {
		offset      int
		path, value string
	}{
		// mtu 1400 .. peer name va1 .. mtu 1500
		{88, "IFLA_MTU", "1400"},
		{88, peerPath + " > IFLA_MTU", "1500"},
		// peer name vc1 index 5000
		{332, peerPath + " > ifinfomsg", "family 0 (AF_UNSPEC) type 0 index 5000 flags 0x0 change 0x0"},
	} {
		if got := values(attributes, c.offset, c.path); got != c.value {
			t.Errorf("%+v: %s", c, got)
		}
	}
}

// namesOfLines returns the names of all samples that have lines beside them.
func namesOfLines(t *testing.T) (names []string) {
	t.Helper()
	samples := filepath.Join(top, "samples")
	for _, pattern := range []string{"*.lines", "kinds/*.lines"} {
		paths, err := filepath.Glob(filepath.Join(samples, pattern))
		if err != nil || len(paths) == 0 {
			t.Fatal(pattern, err)
		}
		for _, path := range paths {
			names = append(names, strings.TrimSuffix(strings.TrimPrefix(path, samples+"/"), ".lines"))
		}
	}
	return names
}

// TestLinesOfAttributes compares each attribute's line with that of the independent implementation. Left out are the first lines
// of messages, their headers, and those of NLMSG_ERROR and NLMSG_DONE.
func TestLinesOfAttributes(t *testing.T) {
	for _, name := range namesOfLines(t) {
		var want []string
		for _, line := range strings.Split(string(readFile(t, "samples/"+name+".lines")), "\n") {
			if strings.HasPrefix(line, "   ") || strings.HasPrefix(line, "  ") && line[2:3] == strings.ToUpper(line[2:3]) {
				want = append(want, line)
			}
		}
		if len(want) == 0 {
			t.Errorf("%s has no attributes", name)
		}
		capture := readSample(t, name)
		attributes := collectAttributes(t, linkcap.Attributes(capture))
		var got []string
		for _, attribute := range attributes {
			names := strings.Split(attribute.Path, " > ")
			line := strings.Repeat("  ", len(names)) + names[len(names)-1] + " " + attribute.Value
			got = append(got, strings.TrimSuffix(line, " "))
		}
		if !reflect.DeepEqual(got, want) {
			t.Errorf("%s: %q, want %q", name, got, want)
		}
		messages, err := collect(linkcap.Messages(capture))
		if err != nil {
			t.Error(err)
		}
		var each []linkcap.Attribute
		for _, message := range messages {
			all, err := message.Attributes()
			if err != nil {
				t.Error(err)
			}
			each = append(each, all...)
		}
		if !reflect.DeepEqual(each, attributes) {
			t.Errorf("%s: %v, want %v", name, each, attributes)
		}
	}
}

// newLink returns an RTM_NEWLINK that creates a link, with these attributes.
func newLink(attributes ...[]byte) []byte {
	body := bytes.Join(attributes, nil)
	message := append(binary.LittleEndian.AppendUint32(nil, uint32(32+len(body))), 16, 0, 5, 4)
	return append(append(message, make([]byte, 24)...), body...)
}

// The order of attributes doesn't count: linux/if_link.h has IFLA_IFNAME 3, IFLA_LINKINFO 18, and in it IFLA_INFO_KIND 1,
// IFLA_INFO_DATA 2 and IFLA_INFO_SLAVE_KIND 4; in the data of vxlan IFLA_VXLAN_ID is 1, as IFLA_GENEVE_ID in those of geneve.
func TestOrdersOfAttributes(t *testing.T) {
	info := func(attributes ...[]byte) []byte { return attribute(18, bytes.Join(attributes, nil)) }
	id := func(vni byte) []byte { return attribute(2, attribute(1, []byte{vni, 0, 0, 0})) }
	name, vxlan := attribute(3, []byte("vx0\x00")), attribute(1, []byte("vxlan\x00"))
	geneve, port := attribute(1, []byte("geneve\x00")), attribute(4, []byte("bond\x00"))
	checkVNI10(t, newLink(name, info(vxlan, id(10))), true)
	checkVNI10(t, newLink(info(vxlan, id(10)), name), true)
	checkVNI10(t, newLink(name, info(vxlan, port, id(10))), true)
	checkVNI10(t, newLink(name, info(port, vxlan, id(10))), true)
	checkVNI10(t, newLink(name, info(vxlan, id(100))), false)
	checkVNI10(t, newLink(name, info(geneve, id(10))), false)
	checkVNI10(t, newLink(attribute(3, []byte("IFLA_VXLAN_ID\x00"))), false)
	others := collectAttributes(t, linkcap.Attributes(newLink(attribute(0x3fff, []byte{10, 11}))))
	if len(others) != 1 || others[0].Path != "kind 0x3fff" || others[0].Value != "0a0b" {
		t.Error(others)
	}
}

// TestOtherLines checks that the lines of an NLMSG_ERROR that repeats a request's header and 4 more bytes (netlink.h, struct
// nlmsgerr), of an NLMSG_DONE, and of a body that isn't known, have no attributes.
func TestOtherLines(t *testing.T) {
	capture := []byte("\x28\x00\x00\x00\x02\x00\x00\x01\x01\x00\x00\x00\x00\x00\x00\x00\xef\xff\xff\xff" +
		"\x14\x00\x00\x00\x10\x00\x05\x00\x01\x00\x00\x00\x00\x00\x00\x00abcd" +
		"\x10\x00\x00\x00\x03\x00\x02\x00\x00\x00\x00\x00\x00\x00\x00\x00" +
		"\x14\x00\x00\x00\x4d\x00\x00\x00\x00\x00\x00\x00\x00\x00\x00\x00abcd")
	lines, err := linkcap.Lines(capture)
	if err != nil {
		t.Error(err)
	}
	for _, word := range []string{"code", "request", "rest", "body"} {
		if !strings.Contains(lines, "\n  "+word+" ") {
			t.Errorf("no line %s in %q", word, lines)
		}
	}
	if all := collectAttributes(t, linkcap.Attributes(capture)); len(all) != 0 {
		t.Error(all)
	}
}

func TestAttributesBeforeAFault(t *testing.T) {
	request := readSample(t, "lo-request")
	capture := append(append(append([]byte(nil), request...), refusedRequest...), request...)
	got := ""
	linkcap.Attributes(capture)(func(attribute linkcap.Attribute, err error) bool {
		got += fmt.Sprintln(attribute.Path, err)
		return true
	})
	want := "IFLA_EXT_MASK <nil>\nIFLA_IFNAME <nil>\n refused body at 48: IFLA_MTU: a payload of 3 bytes at 80\n"
	if got != want {
		t.Error(got)
	}
	if found, err := createsVNI10(capture); found || !errors.Is(err, linkcap.Refused) {
		t.Error(found, err)
	}
	// An iterator that is stopped reads nothing more.
	count := 0
	found, err := linkcap.Attributes(capture).Any(func(linkcap.Attribute) bool { count++; return true })
	if !found || err != nil || count != 1 {
		t.Error(found, err, count)
	}
}

func TestSelectedAttributes(t *testing.T) {
	capture := readSample(t, "req-routes")
	for want, options := range map[string]linkcap.Options{
		"NDA_DST NDA_LLADDR": {Only: "newneigh"}, "IFLA_IFNAME": {Link: "v0", Without: "IFLA_EXT_MASK"},
	} {
		var paths []string
		for _, attribute := range collectAttributes(t, options.Attributes(capture)) {
			paths = append(paths, attribute.Path)
		}
		if got := strings.Join(paths, " "); got != want {
			t.Errorf("%+v: %s", options, got)
		}
	}
	all := linkcap.Options{Without: "mtu"}.Attributes(capture)
	if _, err := all.Any(func(linkcap.Attribute) bool { return true }); err != linkcap.UnknownNameError("mtu") {
		t.Error(err)
	}
}

// TestLinkAttributes checks IFLA_LINKINFO with the nested bit, in it IFLA_INFO_KIND and IFLA_INFO_DATA, and in that IFLA_VXLAN_ID and
// an attribute in network byte order whose type has no name.
func TestLinkAttributes(t *testing.T) {
	data := append(attribute(1, []byte{10, 0, 0, 0}), attribute(0x7fff, []byte{1, 2, 3, 4})...)
	info := append(attribute(1, []byte("vxlan\x00")), attribute(2, data)...)
	noop := []byte{16, 0, 0, 0, 1, 0, 0, 0, 0, 0, 0, 0, 0, 0, 0, 0}
	messages, err := collect(linkcap.Messages(append(noop, newLink(attribute(0x8012, info))...)))
	if err != nil || len(messages) != 2 {
		t.Fatal(len(messages), err)
	}
	if all := messages[0].LinkAttributes(); all != nil {
		t.Error(all)
	}
	expected := []linkcap.LinkAttribute{
		{48, 18, 0x8000, info, 0, "IFLA_LINKINFO", ""},
		{52, 1, 0, []byte("vxlan\x00"), 1, "IFLA_INFO_KIND", ""},
		{64, 2, 0, data, 1, "IFLA_INFO_DATA", "vxlan"},
		{68, 1, 0, []byte{10, 0, 0, 0}, 2, "IFLA_VXLAN_ID", "vxlan"},
		{76, 0x3fff, 0x4000, []byte{1, 2, 3, 4}, 2, "", "vxlan"},
	}
	if all := messages[1].LinkAttributes(); !reflect.DeepEqual(all, expected) {
		t.Errorf("%v\n%v", all, expected)
	}
}

// TestLongMessages checks the attributes of a message that is longer than the default limit.
func TestLongMessages(t *testing.T) {
	capture := newLink(bytes.Repeat(attribute(0x3fff, make([]byte, 65000)), 20))
	options := linkcap.Options{Limit: 2 * linkcap.DefaultLimit}
	messages, err := collect(options.Messages(capture))
	if err != nil || len(messages) != 1 {
		t.Fatal(len(messages), err)
	}
	if all, err := messages[0].Attributes(); len(all) != 20 || err != nil {
		t.Error(len(all), err)
	}
	if all := collectAttributes(t, options.Attributes(capture)); len(all) != 20 {
		t.Error(len(all))
	}
	never := func(linkcap.Attribute) bool { return false }
	if _, err := linkcap.Attributes(capture).Any(never); !errors.Is(err, linkcap.OverLimit) {
		t.Error(err)
	}
}
