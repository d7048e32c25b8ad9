//go:build cgo && linux

package linkcap

// #include "calls.h"
import "C"

// A LinkAttribute is an attribute of a link message, as its bytes are.
type LinkAttribute struct {
	Offset   int    // the start of its header, in bytes from the capture's start
	Type     uint16 // without flag bits
	Flags    uint16 // unix.NLA_F_NESTED and unix.NLA_F_NET_BYTEORDER of its type
	Payload  []byte // a slice of the message's bytes
	Depth    int    // how many attributes it is inside
	Name     string // for example IFLA_VXLAN_ID; empty if its list has no name for its type
	LinkKind string // the link kind, or the kind of port, whose data it holds or is in, for example vxlan; empty elsewhere
}

// LinkAttributes returns the attributes of a link message with their bytes, at all depths, each before those in it. Messages of other
// types have none here, and what is in raw attributes isn't among them.
func (m Message) LinkAttributes() (all []LinkAttribute) {
	var found C.struct_linkcap_attribute
	var fault C.struct_linkcap_finding
	for position := C.uint64_t(0); C.linkcap_go_next_attribute(address(m.Bytes), C.size_t(len(m.Bytes)), position, &found,
		&fault) == C.LINKCAP_OK; position = found.payload {
		end := found.payload + found.length
		all = append(all, LinkAttribute{
			Offset:   m.Offset + int(found.offset),
			Type:     uint16(found._type),
			Flags:    uint16(found.flags),
			Payload:  m.Bytes[found.payload:end:end],
			Depth:    int(found.depth),
			Name:     C.GoString(&found.name[0]),
			LinkKind: C.GoString(&found.link_kind[0]),
		})
	}
	return all
}
