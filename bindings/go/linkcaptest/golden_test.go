package linkcaptest

import (
	"fmt"
	"os"
	"path/filepath"
	"strings"
	"testing"

	"linkcap.invalid/linkcap"
)

// A fakeTest is a test that records its failure.
type fakeTest struct {
	testing.TB
	message string
	stopped bool
	folder  string
}

type stop struct{}

func (f *fakeTest) Helper() {}

func (f *fakeTest) Errorf(format string, a ...any) { f.message += fmt.Sprintf(format, a...) }

func (f *fakeTest) Fatalf(format string, a ...any) {
	f.Errorf(format, a...)
	f.stopped = true
	panic(stop{})
}

// runFake returns the fake test after a call, with the message of its failure if it fails.
func runFake(call func(testing.TB)) (f *fakeTest) {
	f = &fakeTest{}
	defer func() {
		if r := recover(); r != nil && r != (stop{}) {
			panic(r)
		}
	}()
	call(f)
	return f
}

func runGolden(capture []byte, path string) *fakeTest {
	return runFake(func(t testing.TB) { Golden(t, capture, path) })
}

// makeLink returns an RTM_NEWLINK whose IFLA_MTU is 1280 + mtu and whose sequence number is mtu.
func makeLink(mtu byte) []byte {
	capture := append([]byte{0x28, 0, 0, 0, 0x10, 0, 5, 0, mtu, 9}, make([]byte, 22)...)
	return append(capture, 8, 0, 4, 0, mtu, 5, 0, 0)
}

func writeGolden(t *testing.T, capture []byte) string {
	t.Helper()
	path := filepath.Join(t.TempDir(), "new", "a.lines")
	*update = true
	defer func() { *update = false }()
	Golden(t, capture, path)
	return path
}

func TestGolden(t *testing.T) {
	path := writeGolden(t, makeLink(1))
	text, err := os.ReadFile(path)
	if err != nil || !strings.HasPrefix(string(text), "# linkcap lines, format 4\nRTM_NEWLINK flags 0x5 ") {
		t.Errorf("%v %q", err, text)
	}
	if f := runGolden(makeLink(1), path); f.message != "" {
		t.Error(f.message)
	}
	renumbered := makeLink(1)
	renumbered[9] = 8
	if f := runGolden(renumbered, path); f.message != "" {
		t.Error(f.message)
	}
	f := runGolden(makeLink(2), path)
	if f.stopped || !strings.Contains(f.message, "-  IFLA_MTU 1281\n+  IFLA_MTU 1282\n") {
		t.Error(f.message)
	}
	if f := runGolden(makeLink(1), path+".missing"); !f.stopped || !strings.Contains(f.message, "no golden file") {
		t.Error(f.message)
	}
}

// TestLinesOfLinkshow compares with files that linkshow wrote, as the tests of Python do.
func TestLinesOfLinkshow(t *testing.T) {
	for _, name := range []string{"get-veth", "lo-request", "notify-vrf", "req-veth"} {
		path := filepath.Join("..", "..", "..", "samples", name)
		capture, err := os.ReadFile(path + ".bin")
		if err != nil {
			t.Fatal(err)
		}
		GoldenWith(t, capture, path+".lines", linkcap.Options{Numbers: linkcap.WithNumbers})
		if f := runGolden(capture, path+".lines"); f.message == "" {
			t.Errorf("%s: lines without numbers are those with numbers", name)
		}
	}
}

func TestFaultsAndEmptyCaptures(t *testing.T) {
	path := writeGolden(t, makeLink(1))
	request := makeLink(1)
	request[32], request[39] = 7, 0
	f := runGolden(request, path)
	if f.message != "linkcap: refused body at 0: IFLA_MTU: a payload of 3 bytes at 32" {
		t.Error(f.message)
	}
	if f := runGolden(nil, path); !f.stopped || !strings.Contains(f.message, "empty") {
		t.Error(f.message)
	}
}

func TestFiles(t *testing.T) {
	path := writeGolden(t, makeLink(1))
	text, err := os.ReadFile(path)
	if err != nil {
		t.Fatal(err)
	}
	for _, c := range []struct{ name, text, message string }{
		{"lines of linkshow", string(text[strings.Index(string(text), "\n")+1:]), ""},
		{"CRLF", strings.ReplaceAll(string(text), "\n", "\r\n"), "ends them by CRLF"},
		{"no newline", strings.TrimSuffix(string(text), "\n"), "No newline at end of file"},
		{"an earlier format", strings.NewReplacer("format 4", "format 3", "1281", "1280").Replace(string(text)),
			"has lines of format 3, and this linkcap writes format 4"},
	} {
		if err := os.WriteFile(path, []byte(c.text), 0o666); err != nil {
			t.Fatal(err)
		}
		f := runGolden(makeLink(1), path)
		if (f.message == "") != (c.message == "") || !strings.Contains(f.message, c.message) {
			t.Errorf("%s: %q", c.name, f.message)
		}
	}
}

func TestHeads(t *testing.T) {
	for _, c := range []struct {
		text string
		file goldenFile
	}{
		{"RTM_GETLINK\n", goldenFile{0, "", false, "RTM_GETLINK\n"}},
		{"# linkcap lines, format 4\n# leaves out: numbers, IFLA_MTU, probes\r\nRTM_GETLINK\n", goldenFile{4, "numbers,IFLA_MTU", false, "RTM_GETLINK\n"}},
		{"# linkcap lines, format 4\n# leaves out:\n", goldenFile{4, "", false, ""}},
	} {
		if got := parse(c.text); got != c.file {
			t.Errorf("%q: %v", c.text, got)
		}
	}
	if !parse("# linkcap lines, format 4\n# leaves out what varies: RTM_NEWLINK \"v0\" > IFLA_ADDRESS\n").varies {
		t.Error("what varies")
	}
}

func TestWhatAHeadLeavesOut(t *testing.T) {
	path := writeGolden(t, makeLink(1))
	text, err := os.ReadFile(path)
	if err != nil {
		t.Fatal(err)
	}
	head, lines, _ := strings.Cut(string(text), "\n")
	lines = strings.ReplaceAll(lines, "  IFLA_MTU 1281\n", "")
	for _, c := range []struct{ line, message string }{
		{"# leaves out: numbers, IFLA_MTU", ""},
		{"# leaves out: numbers", "+  IFLA_MTU 1281"},
		{"# leaves out: IFLA_NAM", "IFLA_NAM"},
		{`# leaves out what varies: RTM_NEWLINK > IFLA_MTU`, "compare it by linkgold"},
	} {
		if err := os.WriteFile(path, []byte(head+"\n"+c.line+"\n"+lines), 0o666); err != nil {
			t.Fatal(err)
		}
		f := runGolden(makeLink(1), path)
		if (f.message == "") != (c.message == "") || !strings.Contains(f.message, c.message) {
			t.Errorf("%s: %q", c.line, f.message)
		}
	}
}

func TestGoldenWith(t *testing.T) {
	path := filepath.Join(t.TempDir(), "a.lines")
	options := linkcap.Options{Without: "IFLA_MTU,counters"}
	*update = true
	GoldenWith(t, makeLink(1), path, options)
	*update = false
	text, err := os.ReadFile(path)
	const start = "# linkcap lines, format 4\n# leaves out: IFLA_MTU, counters\nRTM_NEWLINK flags 0x5 (REQUEST | ACK)\n"
	if err != nil || !strings.HasPrefix(string(text), start) || strings.Contains(string(text), "\n  IFLA_MTU") {
		t.Errorf("%v %q", err, text)
	}
	Golden(t, makeLink(2), path)
	GoldenWith(t, makeLink(2), path, options)
	for _, c := range []struct {
		options linkcap.Options
		message string
	}{
		{linkcap.Options{Link: "v0"}, "has no message that is selected"},
		{linkcap.Options{Only: "getlink"}, "has no message that is selected"},
		{linkcap.Options{Limit: 16}, "frame over the limit at 0"},
		{linkcap.Options{Offsets: true}, "linkcap: the call doesn't use the option Offsets"},
		{linkcap.Options{KeepGoing: true}, "linkcap: the call doesn't use the option KeepGoing"},
		{linkcap.Options{JSON: true}, "linkcap: the call doesn't use the option JSON"},
		{linkcap.Options{Without: "IFLA_NAM"}, `linkcap: no type, attribute or group is called "IFLA_NAM"`},
		{linkcap.Options{Without: "IFLA_MTU", Numbers: linkcap.WithNumbers}, "+RTM_NEWLINK flags 0x5 (REQUEST | ACK) seq 2305 port 0"},
	} {
		f := runFake(func(t testing.TB) { GoldenWith(t, makeLink(1), path, c.options) })
		if !strings.Contains(f.message, c.message) || strings.Contains(f.message, "linkcap: linkcap") {
			t.Errorf("%+v: %q", c.options, f.message)
		}
	}
}

func TestSame(t *testing.T) {
	padded := append(makeLink(1), 0x14, 0, 0, 0, 1, 0, 0, 0, 1, 0, 0, 0, 0, 0, 0, 0, 1, 2, 3, 4)
	shorter := append(makeLink(1), 0x10, 0, 0, 0, 1, 0, 0, 0, 1, 0, 0, 0, 0, 0, 0, 0)
	if f := runFake(func(t testing.TB) { Same(t, padded, shorter) }); f.message != "" {
		t.Error(f.message)
	}
	f := runFake(func(t testing.TB) { Same(t, makeLink(2), makeLink(1)) })
	if !strings.Contains(f.message, "-  IFLA_MTU 1281\n+  IFLA_MTU 1282\n") {
		t.Error(f.message)
	}
	if f := runFake(func(t testing.TB) { Same(t, makeLink(2), makeLink(1)[:20]) }); f.message != "linkcap: second: cut frame at 0" {
		t.Error(f.message)
	}
}

func TestDiff(t *testing.T) {
	long := strings.Repeat("message\n", 3000)
	for _, c := range []struct{ a, b, diff string }{
		{"", "", ""},
		{"a\n", "a\n", ""},
		{"a\n", "b\n", "-a\n+b\n"},
		{"", "b\n", "+b\n"},
		{"a", "", "-a\n\\ No newline at end of file\n"},
		{"m\n 1\n 2\n 3\n 4\n 5\n 6\n", "m\n 1\n 2\n 3\n 4\n 5\n 7\n", " m\n@@\n  3\n  4\n  5\n- 6\n+ 7\n"},
		{"m\n 1\nn\n 2\no\np\nq\nr\n", "m\n 3\nn\n 2\no\np\nq\nr\n", " m\n- 1\n+ 3\n n\n  2\n o\n@@\n"},
		{"a\n" + long + "b\n", "c\n" + long + "b\n", "-a\n+c\n message\n message\n message\n@@\n"},
	} {
		if got := Diff("x", "y", c.a, c.b); got != "--- x\n+++ y\n"+c.diff {
			t.Errorf("%.20q %.20q: %q", c.a, c.b, got)
		}
	}
}

func TestDiffOfLongTexts(t *testing.T) {
	a, b := strings.Repeat("a\n", 3000), strings.Repeat("b\n", 3000)
	lines := strings.Split(Diff("x", "y", a, b), "\n")
	if len(lines) != 6003 || lines[2] != "-a" || lines[6001] != "+b" {
		t.Error(len(lines))
	}
}
