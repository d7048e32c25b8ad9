package linkcap_test

import (
	"bytes"
	"encoding/binary"
	"errors"
	"fmt"
	"io"
	"math/rand"
	"os"
	"path/filepath"
	"strings"
	"sync"
	"testing"
	"testing/iotest"

	"linkcap.invalid/linkcap"
)

// top is the path of the repository.
const top = "../.."

var sampleNames = []string{"get-veth", "notify-vrf", "req-veth", "lo-request"}

// refusedRequest is a request whose IFLA_MTU has 3 bytes.
var refusedRequest = append(append([]byte{0x28, 0, 0, 0, 0x10}, make([]byte, 27)...), 7, 0, 4, 0, 1, 2, 3, 0)

func readFile(t testing.TB, name string) []byte {
	t.Helper()
	text, err := os.ReadFile(filepath.Join(top, name))
	if err != nil {
		t.Fatal(err)
	}
	return text
}

func readSample(t testing.TB, name string) []byte {
	t.Helper()
	return readFile(t, "samples/"+name+".bin")
}

func normalize(t testing.TB, capture []byte) []byte {
	t.Helper()
	text, err := linkcap.Normalize(capture)
	if err != nil {
		t.Fatal(err)
	}
	return text
}

func requireFault(t testing.TB, err error) *linkcap.Error {
	t.Helper()
	var fault *linkcap.Error
	if !errors.As(err, &fault) {
		t.Fatalf("%v is no fault", err)
	}
	return fault
}

func TestSamples(t *testing.T) {
	for _, name := range sampleNames {
		capture := readSample(t, name)
		lines, err := linkcap.Lines(capture)
		if err != nil || lines != string(readFile(t, "samples/"+name+".lines")) {
			t.Errorf("%s: %v, lines differ", name, err)
		}
		text := normalize(t, capture)
		sizes, err := linkcap.Measure(capture)
		if err != nil || sizes.TextLen != uint64(len(text)) {
			t.Errorf("%s: %v %v, %d bytes", name, sizes, err, len(text))
		}
		if same, err := linkcap.Same(capture, text); !same || err != nil {
			t.Errorf("%s: %v %v", name, same, err)
		}
	}
}

func TestFaults(t *testing.T) {
	capture := readSample(t, "req-veth") // which is already canonical
	cut := append(append([]byte(nil), capture...), capture[:20]...)
	words := fmt.Sprintf("cut frame at %d", len(capture))
	_, err := linkcap.Normalize(cut)
	fault := requireFault(t, err)
	if fault.Kind != linkcap.Cut || fault.Offset != uint64(len(capture)) || fault.Side != 0 || fault.Why != nil || err.Error() != words {
		t.Errorf("%#v", err)
	}
	if !errors.Is(err, linkcap.Cut) || errors.Is(err, linkcap.Refused) {
		t.Error("Is")
	}
	if !bytes.Equal(fault.Written, capture) {
		t.Errorf("written %x", fault.Written)
	}
	if _, err := linkcap.Same(capture, cut); err == nil || err.Error() != "second: "+words {
		t.Error(err)
	}
	if err := (linkcap.Options{Limit: 16}).Check(capture); !errors.Is(err, linkcap.OverLimit) {
		t.Error(err)
	}
	for kind := linkcap.Cut; kind <= linkcap.TextOverLimit; kind++ {
		if got, want := (&linkcap.Error{Kind: kind, Offset: 7}).Error(), kind.Error()+" at 7"; got != want {
			t.Errorf("%q, want %q", got, want)
		}
	}
}

// TestLineOptions compares lines with those of the independent implementation.
func TestLineOptions(t *testing.T) {
	request := []byte("\x28\x00\x00\x00\x12\x00\x01\x00\x01\x00\x00\x00" + strings.Repeat("\x00", 20) + "\x07\x00\x03\x00lo\x00\x00")
	both := append(append([]byte(nil), refusedRequest...), request...)
	for want, options := range map[string]linkcap.Options{
		`RTM_NEWLINK flags 0x0 offset 0
  refused: IFLA_MTU: a payload of 3 bytes
  body 000000000000000000000000000000000700040001020300
RTM_GETLINK flags 0x1 (REQUEST) offset 40
  ifinfomsg family 0 (AF_UNSPEC) type 0 index 0 flags 0x0 change 0x0
  IFLA_IFNAME "lo"
`: {Numbers: linkcap.WithoutNumbers, Offsets: true, KeepGoing: true},
		`RTM_GETLINK flags 0x1 (REQUEST) seq 1 port 0
  ifinfomsg family 0 (AF_UNSPEC) type 0 flags 0x0 change 0x0
  IFLA_IFNAME "lo"
`: {Only: "getlink,77", Link: "lo", Without: "indexes", KeepGoing: true},
		`{"type": "RTM_NEWLINK", "flags": {"value": 0, "flags": []}, "offset": 0, "refused": "IFLA_MTU: a payload of 3 bytes", "body": "000000000000000000000000000000000700040001020300", "attributes": []}
{"type": "RTM_GETLINK", "flags": {"value": 1, "flags": ["REQUEST"]}, "offset": 40, "header": {"struct": "ifinfomsg", "family": {"value": 0, "text": "AF_UNSPEC"}, "type": {"value": 0}, "index": 0, "flags": {"value": 0, "flags": []}, "change": {"value": 0, "flags": []}}, "attributes": [{"name": "IFLA_IFNAME", "value": "lo", "quoted": true}]}
`: {Numbers: linkcap.WithoutNumbers, Offsets: true, KeepGoing: true, JSON: true},
		"": {Offsets: true},
	} {
		lines, err := options.Lines(both)
		fault := requireFault(t, err)
		if lines != "" || string(fault.Written) != want || fault.Kind != linkcap.Refused || fault.Offset != 0 {
			t.Errorf("%+v: %q, %v, %s", options, lines, fault, fault.Written)
		}
		for _, size := range []int{1, 7, 16, 4096} {
			got, err := io.ReadAll(options.NewLineReader(&chunks{both, size}))
			inPieces := requireFault(t, err)
			if string(got) != want || inPieces.Error() != fault.Error() || inPieces.Offset != 0 {
				t.Errorf("%+v in pieces of %d: %q, %v", options, size, got, err)
			}
		}
	}
	for _, name := range []string{"req-veth", "get-veth"} {
		want := readFile(t, "samples/"+name+".lines")
		for _, size := range []int{1, 7, 16, 4096} {
			source := &chunks{readSample(t, name), size}
			got, err := io.ReadAll(linkcap.Options{KeepGoing: true}.NewLineReader(source))
			if err != nil || !bytes.Equal(got, want) {
				t.Errorf("%s in pieces of %d: %v", name, size, err)
			}
		}
	}
	if lines, err := (linkcap.Options{Link: "1"}).Lines(request); lines != "" || err != nil {
		t.Error(lines, err)
	}
	// The last one isn't UTF-8.
	for _, unknown := range []string{"mtu", "\xff"} {
		options := linkcap.Options{Without: "counters," + unknown}
		_, err := options.Lines(request)
		_, readErr := io.ReadAll(options.NewLineReader(bytes.NewReader(request)))
		for _, err := range []error{err, readErr} {
			if name := linkcap.UnknownNameError(""); !errors.As(err, &name) || string(name) != unknown {
				t.Error(err)
			}
		}
	}
	if _, err := (linkcap.Options{Only: "newlink,links", Without: "mtu"}).Lines(request); err != linkcap.UnknownNameError("links") {
		t.Error(err)
	}
	many := linkcap.Options{Only: strings.Repeat("18,", 32) + "18"}
	if _, err := many.Lines(request); err != linkcap.ErrTooMany {
		t.Error(err)
	}
}

func TestReasons(t *testing.T) {
	capture := readSample(t, "lo-request")
	both := append(append([]byte(nil), capture...), refusedRequest...)
	const reason = "IFLA_MTU: a payload of 3 bytes at 80"
	_, sameErr := linkcap.Same(capture, both)
	_, readErr := io.ReadAll(linkcap.NewReader(iotest.OneByteReader(bytes.NewReader(both))))
	for err, want := range map[error]string{
		linkcap.Check(both): "refused body at 48: " + reason,
		readErr:             "refused body at 48: " + reason,
		sameErr:             "second: refused body at 48: " + reason,
	} {
		fault := requireFault(t, err)
		if err.Error() != want || fault.Why.Offset != 80 || !fault.Why.HasOffset {
			t.Errorf("%v, want %s", err, want)
		}
	}
	why, err := linkcap.Why(both)
	if err != nil || why.String() != reason {
		t.Error(why, err)
	}
}

// errorsOf returns the error of each call with options, of nothing.
func errorsOf(o linkcap.Options) map[string]error {
	_, measureErr := o.Measure(nil)
	_, sameErr := o.Same(nil, nil)
	_, normalErr := o.Normalize(nil)
	_, linesErr := o.Lines(nil)
	_, whyErr := o.Why(nil)
	_, messagesErr := collect(o.Messages(nil))
	_, attributesErr := o.Attributes(nil).Any(func(linkcap.Attribute) bool { return true })
	_, readErr := io.ReadAll(o.NewReader(bytes.NewReader(nil)))
	_, quirksErr := o.Quirks(nil)
	_, lineReaderErr := io.ReadAll(o.NewLineReader(bytes.NewReader(nil)))
	return map[string]error{
		"Check": o.Check(nil), "Measure": measureErr, "Same": sameErr, "Normalize": normalErr, "Lines": linesErr, "Why": whyErr,
		"Messages": messagesErr, "Attributes": attributesErr, "NewReader": readErr, "Quirks": quirksErr, "NewLineReader": lineReaderErr,
	}
}

func TestLimits(t *testing.T) {
	for limit, want := range map[uint32]error{0: nil, 1: linkcap.ErrLimit, 15: linkcap.ErrLimit, 16: nil} {
		for call, err := range errorsOf(linkcap.Options{Limit: limit}) {
			if err != want {
				t.Errorf("%s under %d: %v", call, limit, err)
			}
		}
	}
}

// TestUnusedOptions checks that no call ignores an option.
func TestUnusedOptions(t *testing.T) {
	users := map[string]string{
		"Only": "Lines NewLineReader Attributes", "Link": "Lines NewLineReader Attributes", "Without": "Lines NewLineReader Attributes",
		"Numbers": "Lines NewLineReader Same", "Offsets": "Lines NewLineReader", "KeepGoing": "Lines NewLineReader",
		"JSON": "Lines NewLineReader",
	}
	for name, options := range map[string]linkcap.Options{
		"Only": {Only: "newlink"}, "Link": {Link: "lo"}, "Without": {Without: "counters"}, "Numbers": {Numbers: linkcap.WithNumbers},
		"Offsets": {Offsets: true}, "KeepGoing": {KeepGoing: true}, "JSON": {JSON: true},
	} {
		for call, err := range errorsOf(options) {
			want := error(linkcap.UnusedOptionError(name))
			if strings.Contains(" "+users[name]+" ", " "+call+" ") {
				want = nil
			}
			if err != want {
				t.Errorf("%s with %s: %v", call, name, err)
			}
		}
	}
}

func TestEmpty(t *testing.T) {
	for _, empty := range [][]byte{nil, {}} {
		if err := linkcap.Check(empty); err != nil {
			t.Error(err)
		}
		text, err := linkcap.Normalize(empty)
		lines, linesErr := linkcap.Lines(empty)
		same, sameErr := linkcap.Same(empty, nil)
		why, whyErr := linkcap.Why(empty)
		messages, messagesErr := collect(linkcap.Messages(empty))
		got, readErr := io.ReadAll(linkcap.NewReader(bytes.NewReader(empty)))
		if len(text) != 0 || lines != "" || !same || why != nil || len(messages) != 0 || len(got) != 0 {
			t.Error(text, lines, same, why, messages, got)
		}
		for i, err := range []error{err, linesErr, sameErr, whyErr, messagesErr, readErr} {
			if err != nil {
				t.Errorf("call %d: %v", i, err)
			}
		}
	}
}

func TestQuirks(t *testing.T) {
	capture := readSample(t, "lo-request")
	if quirks, err := linkcap.Quirks(capture); err != nil || len(quirks) != 0 {
		t.Error(quirks, err)
	}
	capture[17] = 1
	quirks, err := linkcap.Quirks(bytes.Repeat(capture, 40))
	if err != nil || len(quirks) != 40 || quirks[1] != (linkcap.Quirk{Kind: linkcap.HeaderByte, Offset: 48 + 17}) {
		t.Error(quirks, err)
	}
	if got := (linkcap.Quirk{Kind: 13, Offset: 7}).String(); got != "quirk of kind 13 at 7" {
		t.Error(got)
	}
	if _, err := linkcap.Quirks(capture[:47]); !errors.Is(err, linkcap.Cut) {
		t.Error(err)
	}
}

func TestSameWithoutNumbers(t *testing.T) {
	withoutNumbers := linkcap.Options{Numbers: linkcap.WithoutNumbers}
	capture := readSample(t, "lo-request")
	for i := 8; i < 16; i++ { // netlink.h, struct nlmsghdr
		other := append([]byte(nil), capture...)
		other[i] ^= 1
		same, err := withoutNumbers.Same(capture, other)
		if exact, _ := linkcap.Same(capture, other); !same || exact || err != nil {
			t.Error(i, same, exact, err)
		}
	}
	other := append([]byte(nil), capture...)
	other[7] ^= 1
	if same, err := withoutNumbers.Same(capture, other); same || err != nil {
		t.Error(same, err)
	}
	_, err := withoutNumbers.Same(capture, refusedRequest)
	if fault := requireFault(t, err); fault.Side != 2 || fault.Why == nil {
		t.Error(err)
	}
}

func TestFormat(t *testing.T) {
	if !bytes.Contains(readFile(t, "bindings/c/linkcap.h"), []byte(fmt.Sprintf("\n#define LINKCAP_FORMAT %d\n", linkcap.Format))) {
		t.Error(linkcap.Format)
	}
}

func TestAppendNormal(t *testing.T) {
	capture := readSample(t, "req-veth")
	out, err := linkcap.Options{}.AppendNormal([]byte("before"), capture)
	if err != nil || string(out) != "before"+string(capture) {
		t.Error(err, len(out))
	}
	cut := append(append([]byte(nil), capture...), 1)
	out, err = linkcap.Options{}.AppendNormal([]byte("before"), cut)
	if !errors.Is(err, linkcap.Cut) || string(out) != "before"+string(capture) {
		t.Error(err, len(out))
	}
}

// collect returns the messages of an iterator, and the fault after them.
func collect(all func(yield func(linkcap.Message, error) bool)) (messages []linkcap.Message, err error) {
	all(func(message linkcap.Message, fault error) bool {
		if fault != nil {
			err = fault
			return true // nothing may come after it
		}
		messages = append(messages, message)
		return true
	})
	return messages, err
}

func TestMessages(t *testing.T) {
	capture := readSample(t, "lo-request")
	twice := append(append([]byte(nil), capture...), capture...)
	messages, err := collect(linkcap.Messages(twice))
	if err != nil || len(messages) != 2 {
		t.Fatal(err, len(messages))
	}
	for i, m := range messages {
		// the numbers that samples/lo-request.lines has
		want := linkcap.Message{Offset: 48 * i, Type: 18, Flags: 0x301, SequenceNumber: 1526271540, Bytes: capture}
		if fmt.Sprint(m) != fmt.Sprint(want) || cap(m.Bytes) != 48 {
			t.Errorf("%v, want %v", m, want)
		}
	}
	messages, err = collect(linkcap.Messages(twice[:95]))
	var fault *linkcap.Error
	if len(messages) != 1 || !errors.Is(err, linkcap.Cut) || !errors.As(err, &fault) || fault.Offset != 48 {
		t.Error(len(messages), err)
	}
	count := 0
	linkcap.Messages(twice)(func(linkcap.Message, error) bool { count++; return false })
	if count != 1 {
		t.Errorf("%d messages after a stop", count)
	}
}

func TestReader(t *testing.T) {
	for _, name := range sampleNames {
		capture := readSample(t, name)
		want := normalize(t, capture)
		for _, wrap := range []func(io.Reader) io.Reader{
			func(r io.Reader) io.Reader { return r }, iotest.OneByteReader, iotest.HalfReader, iotest.DataErrReader,
		} {
			got, err := io.ReadAll(linkcap.NewReader(wrap(bytes.NewReader(capture))))
			if err != nil || !bytes.Equal(got, want) {
				t.Errorf("%s: %v, %d bytes", name, err, len(got))
			}
		}
		sourceErr := errors.New("broken")
		got, err := io.ReadAll(linkcap.NewReader(io.MultiReader(bytes.NewReader(capture), iotest.ErrReader(sourceErr))))
		if err != sourceErr || !bytes.Equal(got, want) {
			t.Errorf("%s: %v, %d bytes", name, err, len(got))
		}
		if err := iotest.TestReader(linkcap.NewReader(bytes.NewReader(capture)), want); err != nil {
			t.Error(err)
		}
	}
}

func TestReaderOfLongMessages(t *testing.T) {
	message := make([]byte, 1<<19)
	message[2], message[4] = 1<<3, 20
	got, err := io.ReadAll(linkcap.NewReader(iotest.OneByteReader(bytes.NewReader(message))))
	if err != nil || !bytes.Equal(got, message) {
		t.Error(err, len(got))
	}
}

func TestGoroutines(t *testing.T) {
	capture := readSample(t, "notify-vrf")
	want := normalize(t, capture)
	var group sync.WaitGroup
	for i := 0; i < 16; i++ {
		group.Add(1)
		go func(seed int64) {
			defer group.Done()
			normalizePrefixes(t, rand.New(rand.NewSource(seed)), capture, want)
		}(int64(i))
	}
	group.Wait()
}

func normalizePrefixes(t *testing.T, random *rand.Rand, capture, want []byte) {
	for i := 0; i < 200; i++ {
		text, err := linkcap.Normalize(capture[:random.Intn(len(capture)+1)])
		var fault *linkcap.Error
		if errors.As(err, &fault) {
			text = fault.Written
		}
		if !bytes.HasPrefix(want, text) {
			t.Error("texts differ")
		}
	}
}

// attribute returns an attribute, with its padding.
func attribute(kind uint16, payload []byte) []byte {
	bytes := binary.LittleEndian.AppendUint16(nil, uint16(4+len(payload)))
	bytes = append(binary.LittleEndian.AppendUint16(bytes, kind), payload...)
	return append(bytes, make([]byte, -len(payload)&3)...)
}

// peers returns a link message with peers in peers: IFLA_LINKINFO, IFLA_INFO_DATA and VETH_INFO_PEER at each level.
func peers(levels int) []byte {
	peer := make([]byte, 16)
	for i := 0; i < levels; i++ {
		info := append(attribute(1, []byte("veth\x00")), attribute(2, attribute(1, peer))...)
		peer = append(make([]byte, 16), attribute(18, info)...)
	}
	message := binary.LittleEndian.AppendUint32(nil, uint32(16+len(peer)))
	message = append(message, 16, 0, 1, 0, 0, 0, 0, 0, 0, 0, 0, 0)
	return append(message, peer...)
}

// Lines of a deep capture are at most 44 times as long. bindings/check.sh runs this with a stack of 256 KiB for each thread.
func TestDeepCaptures(t *testing.T) {
	capture := peers(1600)
	lines, err := linkcap.Lines(capture)
	if err != nil || len(lines) <= len(capture) || len(lines) > 44*len(capture) {
		t.Fatalf("%d bytes of lines, %v", len(lines), err)
	}
}
