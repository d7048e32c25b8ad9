//go:build cgo && linux

package linkcap

// #include "calls.h"
import "C"

import (
	"fmt"
	"math"
)

// A QuirkKind is a kind of encoding that some kernels treat differently from its normal text: a row of linkcap's
// docs/kernels.md.
type QuirkKind uint32

// Kinds of quirks, numbered as in linkcap.h.
const (
	NestedPortSettings   QuirkKind = C.LINKCAP_NESTED_PORT_SETTINGS    // IFLA_PROTINFO with the nested bit, under AF_BRIDGE
	ResizedSettings      QuirkKind = C.LINKCAP_RESIZED_SETTINGS        // IFLA_INET_CONF not of 132 bytes
	PathDiscoveryOverOne QuirkKind = C.LINKCAP_PATH_DISCOVERY_OVER_ONE // IFLA_GRE_PMTUDISC over 1
	LaterPeer            QuirkKind = C.LINKCAP_LATER_PEER              // the peer of veth or vxcan after another attribute
	LongAlias            QuirkKind = C.LINKCAP_LONG_ALIAS              // IFLA_IFALIAS of 255 bytes without a NUL
	NameWithoutNul       QuirkKind = C.LINKCAP_NAME_WITHOUT_NUL        // a name without a NUL
	FlagWithPayload      QuirkKind = C.LINKCAP_FLAG_WITH_PAYLOAD       // a flag with a payload
	BooleanOverOne       QuirkKind = C.LINKCAP_BOOLEAN_OVER_ONE        // a boolean over 1 that kernels check
	StrayNestedBit       QuirkKind = C.LINKCAP_STRAY_NESTED_BIT        // the nested bit on a kind that isn't nested
	ForeignFunction      QuirkKind = C.LINKCAP_FOREIGN_FUNCTION        // an entry of another kind in IFLA_VFINFO_LIST
	HeaderByte           QuirkKind = C.LINKCAP_HEADER_BYTE             // the second byte of the header of RTM_GETLINK isn't 0
	ShortMap             QuirkKind = C.LINKCAP_SHORT_MAP               // IFLA_MAP under 32 bytes
)

// A Quirk is an encoding that some kernels treat differently from its normal text.
type Quirk struct {
	Kind   QuirkKind
	Offset uint64 // the start of the attribute that has it, or the header's byte, in bytes from the capture's start
}

// String returns the words of the quirk and its offset, for example "flag with a payload at 76".
func (q Quirk) String() string {
	words := wordsOf(C.struct_linkcap_finding{kind: C.uint32_t(q.Kind), offset: C.uint64_t(q.Offset)})
	if words == "" {
		return fmt.Sprintf("quirk of kind %d at %d", uint32(q.Kind), q.Offset)
	}
	return words
}

// Quirks returns each encoding of a legal capture that some kernels treat differently from its normal text, in the order of
// the bytes; else the first fault. A normal text has none. It uses the limit.
func (o Options) Quirks(capture []byte) ([]Quirk, error) {
	options, err := o.forText()
	if err != nil {
		return nil, err
	}
	buffer := make([]C.struct_linkcap_finding, 16)
	for {
		var count C.uint64_t
		var fault C.struct_linkcap_finding
		status := C.linkcap_go_quirks(address(capture), C.size_t(len(capture)), options.limit(), &buffer[0], C.size_t(len(buffer)),
			&count, &fault)
		switch {
		case status == C.LINKCAP_OK:
			return convertQuirks(buffer[:count]), nil
		case status != C.LINKCAP_NO_ROOM:
			return nil, options.failure(status, fault, piece{capture, 0, true})
		case count > math.MaxInt/2/C.sizeof_struct_linkcap_finding:
			return nil, ErrMemory
		}
		buffer = make([]C.struct_linkcap_finding, count)
	}
}

func convertQuirks(rows []C.struct_linkcap_finding) []Quirk {
	quirks := make([]Quirk, len(rows))
	for i, quirk := range rows {
		quirks[i] = Quirk{QuirkKind(quirk.kind), uint64(quirk.offset)}
	}
	return quirks
}
