package vishvananda_test

import (
	"bytes"
	"os"
	"path/filepath"
	"reflect"
	"strings"
	"testing"

	"github.com/vishvananda/netlink"
	"golang.org/x/sys/unix"

	"linkcap.invalid/linkcap"
)

// readLinks reads the links of a capture's RTM_NEWLINK messages.
func readLinks(t *testing.T, capture []byte) (links []netlink.Link) {
	linkcap.Messages(capture)(func(message linkcap.Message, err error) bool {
		if err != nil {
			t.Fatal(err)
		}
		if message.Type == unix.RTM_NEWLINK {
			link, err := netlink.LinkDeserialize(nil, message.Bytes[unix.SizeofNlMsghdr:])
			if err != nil {
				t.Fatal(err)
			}
			links = append(links, link)
		}
		return true
	})
	return links
}

// TestReading reads a kernel's replies, and their normal texts, which mean the same.
func TestReading(t *testing.T) {
	paths, err := filepath.Glob("../../../samples/kinds/get-*.bin")
	if err != nil || len(paths) == 0 {
		t.Fatal(paths, err)
	}
	inOtherBytes := 0
	for _, path := range paths {
		kind := strings.TrimPrefix(strings.TrimSuffix(filepath.Base(path), ".bin"), "get-")
		capture, err := os.ReadFile(path)
		if err != nil {
			t.Fatal(err)
		}
		text, err := linkcap.Normalize(capture)
		if err != nil {
			t.Fatal(err)
		}
		if !bytes.Equal(text, capture) {
			inOtherBytes++
		}
		links := readLinks(t, capture)
		if got := links[0].Type(); got != kind && !strings.HasPrefix(kind, "port-") {
			t.Errorf("%s: a link of the kind %s", path, got)
		}
		if !reflect.DeepEqual(readLinks(t, text), links) {
			t.Errorf("%s: the normal text is read in another way", path)
		}
	}
	if inOtherBytes == 0 {
		t.Error("all captures are their normal texts")
	}
}
