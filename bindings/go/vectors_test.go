package linkcap_test

import (
	"bytes"
	"encoding/hex"
	"errors"
	"fmt"
	"io"
	"regexp"
	"strconv"
	"strings"
	"testing"

	"linkcap.invalid/linkcap"
)

// A vector is a stored case of crates/vectors, as docs/vectors.md describes it, and its expected output.
type vector struct {
	options  linkcap.Options // with the limit alone
	choice   string          // for the kind show, the lines that are selected
	captures [][]byte
	output   string
}

var outcomeLine = regexp.MustCompile(`^(legal|[a-z][a-z0-9 ]* at [0-9]+)\n$`)

// readVectors returns the vectors of a kind. Outputs are in the order of the cases, a line each; those of show, the last kind,
// have several lines.
func readVectors(t *testing.T, kind string) []vector {
	t.Helper()
	lines := strings.Split(string(readFile(t, "crates/vectors/stdin")), "\n")
	outputs := strings.SplitAfter(string(readFile(t, "crates/vectors/stdout")), "\n")
	var vectors []vector
	start, cases := 0, 0
	for _, line := range lines {
		columns := strings.Split(line, " ")
		if columns[0] == "#" {
			continue
		}
		cases++
		if columns[0] == kind {
			vectors = append(vectors, parseVector(t, kind, columns[1:]))
			start = cases - len(vectors)
		}
	}
	if len(vectors) == 0 {
		t.Fatalf("no vectors of %s", kind)
	}
	if kind == "show" {
		outputs = joinLines(outputs[start:])
	} else {
		outputs = outputs[start:]
	}
	for i := range vectors {
		vectors[i].output = strings.TrimSuffix(outputs[i], "\n")
	}
	return vectors
}

func parseVector(t *testing.T, kind string, columns []string) vector {
	t.Helper()
	limit, err := strconv.ParseUint(columns[0], 10, 32)
	if err != nil {
		t.Fatal(err)
	}
	v, captures := vector{options: linkcap.Options{Limit: uint32(limit)}}, columns[1:]
	if kind == "show" && len(captures) == 2 {
		v.choice, captures = captures[0], captures[1:]
	}
	for _, digits := range captures {
		capture, err := hex.DecodeString(digits)
		if err != nil {
			t.Fatal(err)
		}
		v.captures = append(v.captures, capture)
	}
	return v
}

// joinLines joins lines into the outputs of captures, each of which ends with an outcome line.
func joinLines(lines []string) []string {
	var outputs []string
	output := ""
	for _, line := range lines {
		output += line
		if outcomeLine.MatchString(line) {
			outputs = append(outputs, output)
			output = ""
		}
	}
	return outputs
}

// with returns options with the vector's limit.
func (v vector) with(o linkcap.Options) linkcap.Options {
	o.Limit = v.options.Limit
	return o
}

func (v vector) check(t *testing.T, got string) {
	t.Helper()
	if got != v.output {
		t.Errorf("%.200x: %.300q, want %.300q", v.captures, got, v.output)
	}
}

// faultWords returns the words of an error, without the reason of a refusal.
func faultWords(t *testing.T, err error) string {
	t.Helper()
	fault := *requireFault(t, err)
	fault.Why = nil
	return fault.Error()
}

func TestNormVectors(t *testing.T) {
	for _, v := range readVectors(t, "norm") {
		capture := v.captures[0]
		text, err := v.options.Normalize(capture)
		if err != nil {
			text = requireFault(t, err).Written
			v.check(t, fmt.Sprintf("%x %s", text, faultWords(t, err)))
		} else {
			sizes, _ := v.options.Measure(capture)
			v.check(t, fmt.Sprintf("%x %d %d %d", text, sizes.Frames, sizes.Attributes, sizes.TextLen))
		}
		checkOtherCalls(t, v, err)
		for _, size := range []int{1, 7, 100} {
			checkPieces(t, v, size, text, err)
		}
	}
}

// checkOtherCalls checks that other calls return the same error as Normalize.
func checkOtherCalls(t *testing.T, v vector, want error) {
	t.Helper()
	_, measureErr := v.options.Measure(v.captures[0])
	messages, messagesErr := collect(v.options.Messages(v.captures[0]))
	for _, err := range []error{v.options.Check(v.captures[0]), measureErr, messagesErr} {
		if fmt.Sprint(err) != fmt.Sprint(want) {
			t.Errorf("%x: %v, want %v", v.captures[0], err, want)
		}
	}
	sizes, _ := v.options.Measure(v.captures[0])
	if want == nil && uint64(len(messages)) != sizes.Frames {
		t.Errorf("%x: %d messages, want %d", v.captures[0], len(messages), sizes.Frames)
	}
}

func checkPieces(t *testing.T, v vector, size int, text []byte, want error) {
	t.Helper()
	got, err := io.ReadAll(v.options.NewReader(&chunks{v.captures[0], size}))
	if fmt.Sprint(err) != fmt.Sprint(want) || !bytes.Equal(got, text) {
		t.Errorf("%x in pieces of %d: %x %v, want %x %v", v.captures[0], size, got, err, text, want)
	}
}

// chunks is a reader of pieces of one size.
type chunks struct {
	rest []byte
	size int
}

func (c *chunks) Read(to []byte) (int, error) {
	if len(c.rest) == 0 {
		return 0, io.EOF
	}
	n := c.size
	if n > len(c.rest) {
		n = len(c.rest)
	}
	n = copy(to, c.rest[:n])
	c.rest = c.rest[n:]
	return n, nil
}

func TestSameVectors(t *testing.T) {
	for _, v := range readVectors(t, "same") {
		same, err := v.options.Same(v.captures[0], v.captures[1])
		switch {
		case err != nil:
			v.check(t, faultWords(t, err))
		case same:
			v.check(t, "same")
		default:
			v.check(t, "different")
		}
		checkWithoutNumbers(t, v, same, err)
	}
}

// checkWithoutNumbers compares the result of Same without numbers with the lines without numbers.
func checkWithoutNumbers(t *testing.T, v vector, same bool, want error) {
	t.Helper()
	unnumbered, err := v.with(linkcap.Options{Numbers: linkcap.WithoutNumbers}).Same(v.captures[0], v.captures[1])
	if fmt.Sprint(err) != fmt.Sprint(want) {
		t.Errorf("%x: %v, want %v", v.captures, err, want)
	}
	if err != nil {
		return
	}
	one, _ := v.with(linkcap.Options{Numbers: linkcap.WithoutNumbers}).Lines(v.captures[0])
	other, _ := v.with(linkcap.Options{Numbers: linkcap.WithoutNumbers}).Lines(v.captures[1])
	if unnumbered != (one == other) || same && !unnumbered {
		t.Errorf("%x: %v", v.captures, unnumbered)
	}
}

func TestQuirkVectors(t *testing.T) {
	for _, v := range readVectors(t, "spelling") {
		capture, end := v.captures[0], "legal"
		if err := v.options.Check(capture); err != nil {
			if _, quirksErr := v.options.Quirks(capture); fmt.Sprint(quirksErr) != fmt.Sprint(err) {
				t.Errorf("%x: %v, want %v", capture, quirksErr, err)
			}
			capture, end = capture[:requireFault(t, err).Offset], faultWords(t, err)
		}
		quirks, err := v.options.Quirks(capture)
		if err != nil {
			t.Fatal(err)
		}
		listing := ""
		for _, quirk := range quirks {
			listing += quirk.String() + "; "
		}
		v.check(t, listing+end)
	}
}

func TestRefusalVectors(t *testing.T) {
	for _, v := range readVectors(t, "refusal") {
		why, err := v.options.Why(v.captures[0])
		if err != nil {
			t.Error(err)
		} else if why == nil {
			v.check(t, "nothing")
		} else {
			v.check(t, why.Words)
		}
		if err := v.options.Check(v.captures[0]); (why != nil) != errors.Is(err, linkcap.Refused) {
			t.Errorf("%x: %v", v.captures[0], err)
		}
	}
}

func TestShowVectors(t *testing.T) {
	for _, v := range readVectors(t, "show") {
		lines, err := v.with(parseOptions(v.choice)).Lines(v.captures[0])
		if err != nil {
			v.check(t, string(requireFault(t, err).Written)+faultWords(t, err))
		} else {
			v.check(t, lines+"legal")
		}
		for _, size := range []int{1, 7, 100} {
			got, readErr := io.ReadAll(v.with(parseOptions(v.choice)).NewLineReader(&chunks{v.captures[0], size}))
			if readErr != nil {
				v.check(t, string(got)+faultWords(t, readErr))
			} else {
				v.check(t, string(got)+"legal")
			}
		}
	}
}

func parseOptions(choice string) linkcap.Options {
	if choice == "without-numbers" {
		return linkcap.Options{Numbers: linkcap.WithoutNumbers}
	}
	return linkcap.Options{Only: choice}
}
