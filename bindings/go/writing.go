//go:build cgo && linux

package linkcap

// #include "calls.h"
import "C"

import (
	"errors"
	"math"
)

// A piece is one of a capture: its bytes, their offset in the capture, and whether they are the last.
type piece struct {
	bytes  []byte
	offset uint64
	isLast bool
}

// from returns the piece from a number of bytes on.
func (p piece) from(used int) piece { return piece{p.bytes[used:], p.offset + uint64(used), p.isLast} }

// last returns whether no piece follows, as the library reads it.
func (p piece) last() C.uint32_t {
	if p.isLast {
		return 1
	}
	return 0
}

// reserve returns the same bytes with a spare capacity of at least `capacity` bytes.
func reserve(dst []byte, capacity int) []byte {
	if cap(dst)-len(dst) >= capacity {
		return dst
	}
	grown := make([]byte, len(dst), len(dst)+capacity)
	copy(grown, dst)
	return grown
}

// appendOutput appends the output for the whole messages of a piece, and returns the number of its bytes that were used. The
// first fault goes to kept, if messages after it are written too.
func (o *callOptions) appendOutput(dst []byte, p piece, kept *error) (output []byte, used int, err error) {
	wanted := 0
	for {
		rest := p.from(used)
		dst = reserve(dst, wanted+o.expansion()*len(rest.bytes)+headerLen)
		free := dst[len(dst):cap(dst)]
		var progress C.struct_linkcap_progress
		var fault C.struct_linkcap_finding
		status := C.linkcap_go_write(o.numbers, chars(o.texts), address(rest.bytes), C.size_t(len(rest.bytes)),
			C.uint64_t(rest.offset), rest.last(), address(free), C.size_t(len(free)), &progress, &fault)
		dst = dst[:len(dst)+int(progress.written)]
		used += int(progress.used)
		wanted = 0
		switch {
		case status == C.LINKCAP_OK:
			return dst, used, nil
		case status == C.LINKCAP_FAULT:
			if *kept == nil {
				*kept = o.failure(status, fault, rest)
			}
			if uint64(fault.offset) == rest.offset+uint64(progress.used) {
				return dst, used, *kept
			}
			// The message with the fault is written, and those after it are to be.
		case status != C.LINKCAP_NO_ROOM || progress.wanted > math.MaxInt/2:
			return dst, used, ErrMemory
		default:
			wanted = int(progress.wanted)
		}
	}
}

// appendAll appends the output for a whole capture. The Written of a fault is what was appended.
func appendAll(o callOptions, dst, capture []byte) ([]byte, error) {
	var kept error
	output, _, err := o.appendOutput(dst, piece{capture, 0, true}, &kept)
	if err == nil {
		err = kept
	}
	var fault *Error
	if errors.As(err, &fault) {
		fault.Written = append([]byte(nil), output[len(dst):]...)
	}
	return output, err
}
