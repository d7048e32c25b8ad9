package linkcap_test

import (
	"bytes"
	"errors"
	"fmt"
	"io"
	"os"
	"strings"
	"syscall"

	"linkcap.invalid/linkcap"
)

// A NOOP with a body, which means nothing, and a message of type 20 of 17 bytes without its padding.
var capture = []byte("\x14\x00\x00\x00\x01\x00\x00\x00\x01\x00\x00\x00\x00\x00\x00\x00\xaa\xbb\xcc\xdd" +
	"\x11\x00\x00\x00\x14\x00\x00\x00\x02\x00\x00\x00\x00\x00\x00\x00a")

func ExampleNormalize() {
	text, err := linkcap.Normalize(capture)
	fmt.Println(len(capture), len(text), err)

	_, err = linkcap.Normalize(capture[:30])
	var fault *linkcap.Error
	if errors.As(err, &fault) {
		fmt.Println(fault, len(fault.Written))
	}
	fmt.Println(errors.Is(err, linkcap.Cut))
	// Output:
	// 37 36 <nil>
	// cut frame at 20 16
	// true
}

func ExampleSame() {
	text, _ := linkcap.Normalize(capture)
	fmt.Println(linkcap.Same(capture, text))
	fmt.Println(linkcap.Same(capture, text[:16]))
	// Output:
	// true <nil>
	// false <nil>
}

func ExampleOptions_Lines() {
	lines, _ := linkcap.Options{Numbers: linkcap.WithoutNumbers}.Lines(capture)
	fmt.Print(lines)
	// Output:
	// NLMSG_NOOP flags 0x0
	// RTM_NEWADDR flags 0x0
	//   body 61
}

func ExampleWhy() {
	request := append(append([]byte{0x28, 0, 0, 0, 0x10}, make([]byte, 27)...), 7, 0, 4, 0, 1, 2, 3, 0)
	why, _ := linkcap.Why(request)
	fmt.Println(why)
	fmt.Println(linkcap.Check(request))
	// Output:
	// IFLA_MTU: a payload of 3 bytes at 32
	// refused body at 0: IFLA_MTU: a payload of 3 bytes at 32
}

func ExampleMessages() {
	// With Go 1.23 or later: for message, err := range linkcap.Messages(capture)
	linkcap.Messages(capture)(func(message linkcap.Message, err error) bool {
		fmt.Println(message.Offset, len(message.Bytes), message.Type, err)
		return true
	})
	// Output:
	// 0 20 1 <nil>
	// 20 17 20 <nil>
}

func ExampleAttributeSeq_Any() {
	capture, err := os.ReadFile("../../samples/kinds/req-vxlan.bin")
	if err != nil {
		panic(err)
	}
	fmt.Println(linkcap.Options{Only: "newlink"}.Attributes(capture).Any(func(a linkcap.Attribute) bool {
		return a.Path == "IFLA_LINKINFO > IFLA_INFO_DATA > IFLA_VXLAN_ID" && a.Value == "10" && a.Message.Flags&syscall.NLM_F_CREATE != 0
	}))
	// Output: true <nil>
}

func ExampleMessage_Attributes() {
	request := []byte("\x28\x00\x00\x00\x12\x00\x01\x00" + strings.Repeat("\x00", 24) + "\x07\x00\x03\x00lo\x00\x00")
	linkcap.Messages(request)(func(message linkcap.Message, err error) bool {
		attributes, err := message.Attributes()
		for _, a := range attributes {
			fmt.Println(a.Path, a.Value, err)
		}
		return true
	})
	// Output: IFLA_IFNAME "lo" <nil>
}

func ExampleMeasure() {
	sizes, _ := linkcap.Measure(capture)
	fmt.Println(sizes.Frames, sizes.Attributes, sizes.TextLen)
	// Output: 2 0 36
}

func ExampleQuirks() {
	// An RTM_GETLINK whose header of a link has 1 in its second byte.
	request := append([]byte{32, 0, 0, 0, 18, 0, 1, 3, 0, 0, 0, 0, 0, 0, 0, 0, 0, 1}, make([]byte, 14)...)
	quirks, err := linkcap.Quirks(request)
	fmt.Println(quirks[0], quirks[0].Kind == linkcap.HeaderByte, err)
	// Output: second byte of the header of RTM_GETLINK at 17 true <nil>
}

func ExampleOptions_NewLineReader() {
	lines, err := io.ReadAll(linkcap.Options{Only: "noop"}.NewLineReader(bytes.NewReader(capture)))
	fmt.Print(string(lines), err)
	// Output:
	// NLMSG_NOOP flags 0x0 seq 1 port 0
	// <nil>
}

func ExampleNewReader() {
	text, err := io.ReadAll(linkcap.NewReader(bytes.NewReader(capture)))
	fmt.Println(len(text), err)
	// Output: 36 <nil>
}
