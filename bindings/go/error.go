//go:build cgo && linux

package linkcap

// #include "calls.h"
import "C"

import (
	"bytes"
	"errors"
	"fmt"
	"unicode/utf8"
	"unsafe"
)

// A Kind is a kind of fault. It is an error, for errors.Is(err, linkcap.Cut).
type Kind uint32

// Kinds of faults of captures, numbered as in linkcap.h.
const (
	Cut           Kind = C.LINKCAP_CUT             // fewer bytes are left than a header has, or than its length
	ShortLength   Kind = C.LINKCAP_SHORT_LENGTH    // the header's length is under 16
	OverLimit     Kind = C.LINKCAP_OVER_LIMIT      // the header's length is over the limit
	Refused       Kind = C.LINKCAP_REFUSED         // the body isn't accepted
	EmptyPorts    Kind = C.LINKCAP_EMPTY_PORTS     // an accepted IFLA_VF_PORTS keeps no entry
	Unfit         Kind = C.LINKCAP_UNFIT           // an attribute of the text would be longer than 65535 bytes
	TextOverLimit Kind = C.LINKCAP_TEXT_OVER_LIMIT // the length of the message's text would be over the limit
)

var kindTexts = map[Kind]string{
	Cut: "cut frame", ShortLength: "length under 16", OverLimit: "frame over the limit", Refused: "refused body",
	EmptyPorts: "ports with foreign entries alone", Unfit: "attribute over 65535", TextOverLimit: "normal text over the limit",
}

// Error returns the words of the kind, for example "cut frame".
func (k Kind) Error() string {
	if text, ok := kindTexts[k]; ok {
		return text
	}
	return fmt.Sprintf("fault of kind %d", uint32(k))
}

// An Error is a capture's first fault.
type Error struct {
	Kind    Kind
	Side    int      // of two captures 1 for the first and 2 for the second, else 0
	Offset  uint64   // the start of the message that has it, in bytes from the capture's start
	Written []byte   // the output of the call before it: normal text, or lines in ASCII
	Why     *Refusal // the attribute that isn't accepted and the reason, if the kind is Refused
}

// Error returns the words of the fault, for example "cut frame at 48" or "second: cut frame at 48", followed by the reason if
// a body is refused.
func (e *Error) Error() string {
	words := e.words()
	if e.Why != nil {
		words += ": " + e.Why.Words
	}
	return words
}

// Unwrap returns the kind.
func (e *Error) Unwrap() error { return e.Kind }

func (e *Error) words() string {
	words := wordsOf(C.struct_linkcap_finding{kind: C.uint32_t(e.Kind), side: C.uint32_t(e.Side), offset: C.uint64_t(e.Offset)})
	if words == "" {
		return fmt.Sprintf("%v at %d", e.Kind, e.Offset)
	}
	return words
}

// wordsOf returns the words of a fault or a quirk, with its offset; none if it is neither.
func wordsOf(finding C.struct_linkcap_finding) string {
	var text [C.LINKCAP_WORDS_ROOM]byte
	var written C.uint64_t
	status := C.linkcap_words(&finding, (*C.uint8_t)(unsafe.Pointer(&text[0])), C.size_t(len(text)), &written)
	if status != C.LINKCAP_OK {
		return ""
	}
	return string(text[:written])
}

// Errors that aren't faults of a capture.
var (
	// ErrLimit is returned for a limit under 16.
	ErrLimit = errors.New("linkcap: limit under 16")
	// ErrTooMany is returned for options of more than 32 types, or without more than 32 attributes.
	ErrTooMany = errors.New("linkcap: more than 32 types or attributes")
	// ErrMemory is returned if the library ran out of memory, or a result is longer than a slice can be. If Go has no memory for
	// a result, it ends the process, as everywhere.
	ErrMemory = errors.New("linkcap: out of memory")
)

// An UnknownNameError is the name in options that no type of messages, no attribute and no group has.
type UnknownNameError string

// Error returns the words of the error.
func (e UnknownNameError) Error() string {
	return fmt.Sprintf("linkcap: no type, attribute or group is called %q", string(e))
}

// An UnusedOptionError is the name of an option that is set, and that the call doesn't use.
type UnusedOptionError string

// Error returns the words of the error.
func (e UnusedOptionError) Error() string {
	return fmt.Sprintf("linkcap: the call doesn't use the option %s", string(e))
}

// listError returns the error for lists that the library doesn't read, since they aren't UTF-8 or are too long.
func listError(lists ...[]byte) error {
	for _, list := range lists {
		for _, name := range bytes.Split(list, []byte(",")) {
			if !utf8.Valid(name) {
				return UnknownNameError(name)
			}
		}
	}
	return ErrTooMany
}

// failure returns the error for a status that isn't a success. The fault is that of the given piece.
func (o *callOptions) failure(status C.uint32_t, fault C.struct_linkcap_finding, p piece) error {
	if status != C.LINKCAP_FAULT {
		return ErrMemory
	}
	e := &Error{Kind: Kind(fault.kind), Side: int(fault.side), Offset: uint64(fault.offset)}
	if e.Kind == Refused {
		e.Why, _ = o.whyIn(p.from(int(e.Offset - p.offset)))
	}
	return e
}
