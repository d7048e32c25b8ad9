//go:build cgo && linux

package linkcap

// #include "calls.h"
import "C"

import "encoding/binary"

const headerLen = 16

// A Message is one of a capture's messages, and its header.
type Message struct {
	Offset         int    // its start, in bytes from the capture's start
	Bytes          []byte // the message without its padding: a slice of the capture, and a capture, too
	Type           uint16 // for example unix.RTM_NEWLINK
	Flags          uint16
	SequenceNumber uint32
	PortNumber     uint32 // the netlink port ID
}

// Messages returns an iterator over a capture's messages, which it reads one after the other. After the last one before a fault it
// yields the fault. It uses the limit. With Go 1.23 or later:
//
//	for message, err := range linkcap.Messages(capture) {
func (o Options) Messages(capture []byte) func(yield func(Message, error) bool) {
	return func(yield func(Message, error) bool) {
		options, err := o.forText()
		if err != nil {
			yield(Message{}, err)
			return
		}
		for offset := 0; ; {
			var found C.struct_linkcap_message
			var fault C.struct_linkcap_finding
			status := C.linkcap_go_next_message(address(capture), C.size_t(len(capture)), options.limit(), C.uint64_t(offset), &found,
				&fault)
			if status == C.LINKCAP_NONE {
				return
			}
			if status != C.LINKCAP_OK {
				yield(Message{}, options.failure(status, fault, piece{capture, 0, true}))
				return
			}
			if !yield(newMessage(offset, capture[offset:][:found.length:found.length]), nil) {
				return
			}
			offset = int(found.next)
		}
	}
}

// newMessage returns the message at an offset, with these bytes.
func newMessage(offset int, bytes []byte) Message {
	return Message{
		Offset:         offset,
		Bytes:          bytes,
		Type:           binary.LittleEndian.Uint16(bytes[4:]),
		Flags:          binary.LittleEndian.Uint16(bytes[6:]),
		SequenceNumber: binary.LittleEndian.Uint32(bytes[8:]),
		PortNumber:     binary.LittleEndian.Uint32(bytes[12:]),
	}
}
