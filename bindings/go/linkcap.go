//go:build cgo && linux

package linkcap

// #include "calls.h"
import "C"

import (
	"fmt"
	"math"
	"unsafe"
)

// Format is the format version of the library's normal texts and lines: under one version both stay as they are, byte for
// byte.
var Format = int(C.linkcap_format())

func init() {
	if version := uint32(C.linkcap_version()); version != C.LINKCAP_VERSION {
		panic(fmt.Sprintf("linkcap: liblinkcap has version %d of the interface, and %d is needed", version, C.LINKCAP_VERSION))
	}
}

// Sizes are those of a legal capture.
type Sizes struct {
	Frames     uint64 // its messages
	Attributes uint64 // the attribute headers in the bodies of its link messages, at all depths
	TextLen    uint64 // the length of its normal text in bytes, at most 2^64 - 1
}

// A Refusal says which attribute made a body invalid, why, and at which offset.
type Refusal struct {
	// Words are the attribute's names from outside in, the reason, and the offset.
	Words string
	// Offset is the start of the attribute, in bytes from the capture's start. NLMSG_ERROR and NLMSG_DONE have none.
	Offset    uint64
	HasOffset bool
}

// String returns the words.
func (r *Refusal) String() string { return r.Words }

// address returns a pointer to the bytes, which is null if there are none.
func address(bytes []byte) *C.uint8_t {
	if len(bytes) == 0 {
		return nil
	}
	return (*C.uint8_t)(unsafe.Pointer(&bytes[0]))
}

// chars returns a pointer to the bytes of a text, which is null if there are none.
func chars(bytes []byte) *C.char { return (*C.char)(unsafe.Pointer(address(bytes))) }

// Check returns nil if a capture is legal, else its first fault. It uses the limit.
func (o Options) Check(capture []byte) error {
	_, err := o.Measure(capture)
	return err
}

// Measure returns the sizes of a legal capture, else its first fault. It uses the limit.
func (o Options) Measure(capture []byte) (Sizes, error) {
	options, err := o.forText()
	if err != nil {
		return Sizes{}, err
	}
	var fault C.struct_linkcap_finding
	var sizes C.struct_linkcap_sizes
	status := C.linkcap_go_check(address(capture), C.size_t(len(capture)), options.limit(), &sizes, &fault)
	if status != C.LINKCAP_OK {
		return Sizes{}, options.failure(status, fault, piece{capture, 0, true})
	}
	length := uint64(sizes.text_low)
	if sizes.text_high != 0 {
		length = math.MaxUint64
	}
	return Sizes{uint64(sizes.frames), uint64(sizes.attributes), length}, nil
}

// Same reports whether two legal captures mean the same, which is if and only if their normal texts are equal. Else it
// returns the first fault of the first one, or of the second if the first is legal. It uses the limit and Numbers:
// WithoutNumbers zeroes the sequence number and the netlink port ID of each message, and those of the request's header that an
// NLMSG_ERROR repeats, first.
func (o Options) Same(first, second []byte) (bool, error) {
	options, err := o.forText("Numbers")
	if err != nil {
		return false, err
	}
	var fault C.struct_linkcap_finding
	status := C.linkcap_go_same(address(first), C.size_t(len(first)), address(second), C.size_t(len(second)), options.limit(),
		options.numbers.flags, &fault)
	switch status {
	case C.LINKCAP_OK:
		return true, nil
	case C.LINKCAP_DIFFERENT:
		return false, nil
	}
	capture := first
	if fault.side == 2 {
		capture = second
	}
	return false, options.failure(status, fault, piece{capture, 0, true})
}

// AppendNormal appends a legal capture's normal text to dst. If the capture has a fault, the normal text before it is
// appended. It uses the limit.
func (o Options) AppendNormal(dst, capture []byte) ([]byte, error) {
	options, err := o.forText()
	if err != nil {
		return dst, err
	}
	return appendAll(options, dst, capture)
}

// Normalize returns a legal capture's normal text. Else it returns nil and the first fault, whose Written has the normal
// text before it. It uses the limit.
func (o Options) Normalize(capture []byte) ([]byte, error) {
	text, err := o.AppendNormal(nil, capture)
	if err != nil {
		return nil, err
	}
	return text, nil
}

// Lines returns the lines of a legal capture that the options select, as the program linkshow writes them, or the lines of JSON.
// Else it returns the first fault, whose Written has the lines before it, or with KeepGoing all lines up to a fault of a header.
// It uses all options; those that aren't valid have an [UnknownNameError], or [ErrTooMany].
func (o Options) Lines(capture []byte) (string, error) {
	options, err := o.forLines(ofLines...)
	if err != nil {
		return "", err
	}
	lines, err := appendAll(options, nil, capture)
	if err != nil {
		return "", err
	}
	return string(lines), nil
}

// Why returns the refusal of a capture's first fault if this is of the kind [Refused]; else nil. It uses the limit.
func (o Options) Why(capture []byte) (*Refusal, error) {
	options, err := o.forText()
	if err != nil {
		return nil, err
	}
	return options.whyIn(piece{capture, 0, true})
}

// whyIn returns the refusal of the first fault of a piece, if this is of the kind [Refused]; else nil.
func (o *callOptions) whyIn(p piece) (*Refusal, error) {
	words := make([]byte, 512)
	for {
		var written, offset C.uint64_t
		status := C.linkcap_go_why(o.limit(), address(p.bytes), C.size_t(len(p.bytes)), C.uint64_t(p.offset), address(words),
			C.size_t(len(words)), &written, &offset)
		switch status {
		case C.LINKCAP_NONE:
			return nil, nil
		case C.LINKCAP_OK:
			refusal := &Refusal{Words: string(words[:written])}
			if offset != math.MaxUint64 {
				refusal.Offset, refusal.HasOffset = uint64(offset), true
			}
			return refusal, nil
		case C.LINKCAP_NO_ROOM:
			words = make([]byte, written)
		default:
			return nil, ErrMemory
		}
	}
}

// Check is Options{}.Check.
func Check(capture []byte) error { return Options{}.Check(capture) }

// Measure is Options{}.Measure.
func Measure(capture []byte) (Sizes, error) { return Options{}.Measure(capture) }

// Same is Options{}.Same.
func Same(first, second []byte) (bool, error) { return Options{}.Same(first, second) }

// Quirks is Options{}.Quirks.
func Quirks(capture []byte) ([]Quirk, error) { return Options{}.Quirks(capture) }

// Normalize is Options{}.Normalize.
func Normalize(capture []byte) ([]byte, error) { return Options{}.Normalize(capture) }

// Lines is Options{}.Lines.
func Lines(capture []byte) (string, error) { return Options{}.Lines(capture) }

// Why is Options{}.Why.
func Why(capture []byte) (*Refusal, error) { return Options{}.Why(capture) }

// Messages is Options{}.Messages.
func Messages(capture []byte) func(yield func(Message, error) bool) {
	return Options{}.Messages(capture)
}
