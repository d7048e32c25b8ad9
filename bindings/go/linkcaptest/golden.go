// Package linkcaptest compares captures with golden files of lines, in tests.
//
//	func TestAddVeth(t *testing.T) {
//		linkcaptest.Golden(t, request, "testdata/veth.lines")
//	}
//
// go test -linkcap.update writes the files. Only test binaries of packages that import this one have the flag, so name
// them: go test ./cni -linkcap.update.
package linkcaptest

import (
	"errors"
	"flag"
	"fmt"
	"io/fs"
	"os"
	"path/filepath"
	"regexp"
	"strconv"
	"strings"
	"testing"

	"linkcap.invalid/linkcap"
)

var update = flag.Bool("linkcap.update", false, "write the golden files of linkcaptest.Golden")

var versionLine = regexp.MustCompile(`^# linkcap lines, format ([0-9]+)\r?\n`)

// probes is what heads call the probes of iproute2, which aren't looked for here.
const probes = "probes"

var leftOutLine = regexp.MustCompile(`^# leaves out( what varies)?: ?([^\r\n]*)\r?\n`)

// A selection is what lines are compared: those that options select, with fixed names.
type selection struct {
	options linkcap.Options
	names   *replacement
}

// check returns nil if golden files use all options that are set.
func (s *selection) check() error {
	switch {
	case s.options.Offsets:
		return linkcap.UnusedOptionError("Offsets")
	case s.options.KeepGoing:
		return linkcap.UnusedOptionError("KeepGoing")
	case s.options.JSON:
		return linkcap.UnusedOptionError("JSON")
	}
	return nil
}

// lines returns the lines of a capture, without these attributes.
func (s *selection) lines(capture []byte, without string) (string, error) {
	if err := s.check(); err != nil {
		return "", err
	}
	options := s.options
	options.Without = without
	lines, err := options.Lines(capture)
	return s.names.apply(lines), err
}

// Golden compares a capture's lines with those of a file, without sequence numbers and netlink port IDs, and fails with a
// diff if they differ. It stops the test at a fault, at an empty capture, and if the file can't be read or written.
//
// The file's first line has the format version of the lines; a file without it, as linkshow writes it, will do. What the lines
// after it say that linkgold left out is left out of the capture's lines.
func Golden(t testing.TB, capture []byte, path string) {
	t.Helper()
	GoldenWith(t, capture, path, linkcap.Options{})
}

// GoldenWith is Golden for the lines that options select. A file that is written names what Without leaves out. WithNumbers
// compares sequence numbers and netlink port IDs too. It stops the test if the options aren't valid, or have Offsets, KeepGoing or
// JSON, which it doesn't use.
//
// Each word of replace is REGEX=NAME, and puts a fixed name in place of names of links and hardware addresses that match, as the
// option --replace of linkgold does.
func GoldenWith(t testing.TB, capture []byte, path string, options linkcap.Options, replace ...string) {
	t.Helper()
	names, err := newReplacement(replace)
	if err != nil {
		t.Fatalf("linkcap: %v", err)
	}
	if options.Numbers == 0 {
		options.Numbers = linkcap.WithoutNumbers
	}
	selected := &selection{options, names}
	lines, err := selected.lines(capture, options.Without)
	if err != nil {
		t.Fatalf("linkcap: %s", wordsOf(err))
	}
	if lines == "" {
		t.Fatalf("linkcap: the capture is empty, or has no message that is selected")
	}
	if *update {
		if err := write(path, head(options.Without)+lines); err != nil {
			t.Fatalf("linkcap: %v", err)
		}
		return
	}
	compare(t, capture, path, selected, lines)
}

// compare compares lines with those of a golden file: those that are selected or, if the file's head leaves out more, without that.
func compare(t testing.TB, capture []byte, path string, selected *selection, lines string) {
	t.Helper()
	text, err := os.ReadFile(path)
	if errors.Is(err, fs.ErrNotExist) {
		t.Fatalf("linkcap: no golden file %s: write it by -linkcap.update", path)
	}
	if err != nil {
		t.Fatalf("linkcap: %v", err)
	}
	golden := parse(string(text))
	if golden.varies {
		t.Fatalf("linkcap: %s is of linkgold --effect, and leaves out what varies between two runs: compare it by linkgold", path)
	}
	if golden.without != "" {
		without := joinNames([]string{golden.without, selected.options.Without})
		if lines, err = selected.lines(capture, without); err != nil {
			t.Fatalf("linkcap: %s: %s", path, wordsOf(err))
		}
	}
	if golden.lines != lines {
		t.Errorf("linkcap: %s", describeDifference(path, golden.version, golden.lines, lines))
	}
}

// wordsOf returns the words of an error of linkcap, without its name.
func wordsOf(err error) string { return strings.TrimPrefix(err.Error(), "linkcap: ") }

// Same fails if two captures don't mean the same, with a diff of their lines; sequence numbers and netlink port IDs count.
func Same(t testing.TB, got, want []byte) {
	t.Helper()
	same, err := linkcap.Same(got, want)
	if err != nil {
		t.Fatalf("linkcap: %v", err)
	}
	if same {
		return
	}
	// Both are legal.
	wantLines, _ := linkcap.Lines(want)
	gotLines, _ := linkcap.Lines(got)
	t.Errorf("linkcap: the captures don't mean the same\n%s", Diff("want", "got", wantLines, gotLines))
}

// head returns the head of a golden file that leaves out these names.
func head(without string) string {
	text := fmt.Sprintf("# linkcap lines, format %d\n", linkcap.Format)
	if without == "" {
		return text
	}
	return text + "# leaves out: " + strings.ReplaceAll(joinNames([]string{without}), ",", ", ") + "\n"
}

func write(path, text string) error {
	if err := os.MkdirAll(filepath.Dir(path), 0o777); err != nil {
		return err
	}
	return os.WriteFile(path, []byte(text), 0o666)
}

// A goldenFile is the text of a golden file: the format version that its head names, or 0; the attributes and groups that
// linkgold left out, with commas between them; whether it left out what varies between two runs; and its lines.
type goldenFile struct {
	version int
	without string
	varies  bool
	lines   string
}

// parse returns the parts of the text of a golden file.
func parse(text string) goldenFile {
	file := goldenFile{lines: text}
	if first := versionLine.FindStringSubmatch(text); first != nil {
		if version, err := strconv.Atoi(first[1]); err == nil {
			file.version, file.lines = version, text[len(first[0]):]
		}
	}
	var lists []string
	for {
		line := leftOutLine.FindStringSubmatch(file.lines)
		if line == nil {
			file.without = joinNames(lists)
			return file
		}
		file.lines = file.lines[len(line[0]):]
		file.varies = file.varies || line[1] != ""
		if line[1] == "" {
			lists = append(lists, line[2])
		}
	}
}

// joinNames returns the names of lists, each once, with commas between them, without probes.
func joinNames(lists []string) string {
	var names []string
	known := map[string]bool{probes: true}
	for _, name := range strings.FieldsFunc(strings.Join(lists, ","), func(r rune) bool { return r == ',' || r == ' ' }) {
		if !known[name] {
			names = append(names, name)
		}
		known[name] = true
	}
	return strings.Join(names, ",")
}

// describeDifference describes how the lines of a capture differ from the lines of a golden file.
func describeDifference(path string, version int, expected, lines string) string {
	if strings.ReplaceAll(expected, "\r\n", "\n") == lines {
		return path + " has the capture's lines, but ends them by CRLF: keep it as it was written, in git by a line" +
			" `*.lines -text` of .gitattributes"
	}
	reason := "the capture isn't that of the golden file"
	if version != 0 && version != linkcap.Format {
		reason = fmt.Sprintf("%s has lines of format %d, and this linkcap writes format %d: update the file with the capture"+
			" that it was made of (CHANGELOG.md)", path, version, linkcap.Format)
	}
	return reason + "\n" + Diff(path, "this capture", expected, lines)
}
