package linkcap_test

import (
	"bytes"
	"errors"
	"io"
	"testing"
	"testing/iotest"

	"linkcap.invalid/linkcap"
)

// FuzzNormalize checks the laws of one capture: go test -fuzz FuzzNormalize.
func FuzzNormalize(f *testing.F) {
	for _, name := range sampleNames {
		f.Add(readSample(f, name))
	}
	f.Add(capture)
	f.Add(refusedRequest)
	f.Fuzz(func(t *testing.T, capture []byte) {
		text, err := linkcap.Normalize(capture)
		pieces, piecesErr := io.ReadAll(linkcap.NewReader(iotest.HalfReader(bytes.NewReader(capture))))
		if err == nil {
			checkLegal(t, capture, text)
		} else {
			fault := requireFault(t, err)
			text = fault.Written
			checkFault(t, capture, fault)
		}
		if !bytes.Equal(pieces, text) || (piecesErr == nil) != (err == nil) || err != nil && piecesErr.Error() != err.Error() {
			t.Fatalf("in pieces %x %v, as a whole %x %v", pieces, piecesErr, text, err)
		}
	})
}

func checkLegal(t *testing.T, capture, text []byte) {
	t.Helper()
	if renormalized := normalize(t, text); !bytes.Equal(renormalized, text) {
		t.Fatalf("the normal text of %x is %x", text, renormalized)
	}
	if same, err := linkcap.Same(capture, text); !same || err != nil {
		t.Fatal(same, err)
	}
	if len(text) > 77*len(capture) {
		t.Fatalf("a text of %d bytes for %d", len(text), len(capture))
	}
	sizes, err := linkcap.Measure(capture)
	messages, messagesErr := collect(linkcap.Messages(capture))
	if err != nil || messagesErr != nil || sizes.TextLen != uint64(len(text)) || sizes.Frames != uint64(len(messages)) {
		t.Fatal(sizes, len(messages), err, messagesErr)
	}
	if why, err := linkcap.Why(capture); why != nil || err != nil {
		t.Fatal(why, err)
	}
}

func checkFault(t *testing.T, capture []byte, fault *linkcap.Error) {
	t.Helper()
	if prefix := normalize(t, capture[:fault.Offset]); !bytes.Equal(prefix, fault.Written) {
		t.Fatalf("%x before the fault, want %x", fault.Written, prefix)
	}
	if err := linkcap.Check(capture); err == nil || err.Error() != fault.Error() {
		t.Fatalf("%v, want %v", err, fault)
	}
	why, err := linkcap.Why(capture)
	if err != nil || (why != nil) != (fault.Kind == linkcap.Refused) || why != nil && why.Words != fault.Why.Words {
		t.Fatalf("%v %v, want %v", why, err, fault.Why)
	}
}

// FuzzSame checks the laws of two captures: go test -fuzz FuzzSame.
func FuzzSame(f *testing.F) {
	for _, name := range sampleNames {
		f.Add(readSample(f, name), readSample(f, "lo-request"))
		f.Add(readSample(f, name), normalize(f, readSample(f, name)))
	}
	f.Fuzz(func(t *testing.T, first, second []byte) {
		same, err := linkcap.Same(first, second)
		one, firstErr := linkcap.Normalize(first)
		other, secondErr := linkcap.Normalize(second)
		var fault *linkcap.Error
		switch {
		case errors.As(firstErr, &fault):
			fault.Side = 1
		case errors.As(secondErr, &fault):
			fault.Side = 2
		}
		if fault != nil && (err == nil || err.Error() != fault.Error()) {
			t.Fatalf("%v, want %v", err, fault)
		}
		if fault == nil && (err != nil || same != bytes.Equal(one, other)) {
			t.Fatalf("%v %v of %x and %x", same, err, one, other)
		}
	})
}
