//go:build cgo && linux

package linkcap

import (
	"math"
	"strings"
)

// separator is what is between the names of a path.
const separator = " > "

// unnamed is how the line of an attribute without a name begins, whose type follows.
const unnamed = "kind "

// An Attribute is one of a message, or a struct in an attribute, for example a next hop.
type Attribute struct {
	// Message is the message that has it.
	Message Message
	// Path has the kernel's names from outside in, for example "IFLA_LINKINFO > IFLA_INFO_DATA > IFLA_VXLAN_ID". An attribute
	// without a name has its type, for example "kind 0x3fff".
	Path string
	// Value is what follows the name in its line, for example 10, "vx0" with its quotes, or 0x9 (Vf | SkipStats). It is empty for
	// an attribute with others in it.
	Value string
}

// An AttributeSeq is an iterator over attributes, and after them the first fault, if there is one.
type AttributeSeq func(yield func(Attribute, error) bool)

// Any reports whether a function returns true for one of the attributes. If there is none before the first fault, it returns the
// fault.
func (all AttributeSeq) Any(is func(Attribute) bool) (found bool, err error) {
	all(func(attribute Attribute, fault error) bool {
		err = fault
		found = fault == nil && is(attribute)
		return !found && fault == nil
	})
	return found, err
}

// Attributes returns an iterator over the attributes of a capture's messages, at all depths, each before those in it. After the
// last one before a fault it yields the fault. It uses the limit, Only, Link and Without, and takes memory for one message. With
// Go 1.23 or later:
//
//	for attribute, err := range linkcap.Attributes(capture) {
//
// An attribute in a peer has the peer's name in its path: the other end's name is
// "IFLA_LINKINFO > IFLA_INFO_DATA > VETH_INFO_PEER > IFLA_IFNAME".
func (o Options) Attributes(capture []byte) AttributeSeq {
	return func(yield func(Attribute, error) bool) {
		options, err := o.forLines("Only", "Link", "Without")
		if err != nil {
			yield(Attribute{}, err)
			return
		}
		Options{Limit: o.Limit}.Messages(capture)(func(message Message, err error) bool {
			var all []Attribute
			if err == nil {
				all, err = message.attributes(options)
			}
			for _, attribute := range all {
				if !yield(attribute, nil) {
					return false
				}
			}
			if err != nil {
				yield(Attribute{}, err)
			}
			return err == nil
		})
	}
}

// Attributes is Options{}.Attributes.
func Attributes(capture []byte) AttributeSeq { return Options{}.Attributes(capture) }

// Attributes returns the message's attributes, at all depths, each before those in it. Its only error is ErrMemory.
func (m Message) Attributes() ([]Attribute, error) {
	options, err := Options{Limit: math.MaxUint32}.forLines()
	if err != nil {
		return nil, err
	}
	return m.attributes(options)
}

// attributes returns the message's attributes that options select.
func (m Message) attributes(o callOptions) ([]Attribute, error) {
	lines, err := appendAll(o, nil, m.Bytes)
	if err != nil {
		return nil, err
	}
	return m.parse(strings.Split(string(lines), "\n")), nil
}

// parse returns the attributes in the message's lines. The levels of a line's path end at ends.
func (m Message) parse(lines []string) (all []Attribute) {
	path, ends := "", []int{0}
	for _, line := range lines {
		text := strings.TrimLeft(line, " ")
		level := (len(line) - len(text)) / 2
		if level == 0 { // the first line, and what follows the last one
			continue
		}
		name, value := splitName(text)
		if level < len(ends) {
			ends = ends[:level]
		}
		if path = path[:ends[len(ends)-1]]; path != "" {
			path += separator
		}
		path += name
		ends = append(ends, len(path))
		if level > 1 || isAttribute(name) {
			all = append(all, Attribute{m, path, value})
		}
	}
	return all
}

// isAttribute reports whether the name of a line at the first level is that of an attribute: others are the header, body or code.
func isAttribute(name string) bool {
	return strings.HasPrefix(name, unnamed) || name[0] < 'a' || name[0] > 'z'
}

// splitName returns the name at the start of a line, and what follows it.
func splitName(text string) (name, value string) {
	start := 0
	if strings.HasPrefix(text, unnamed) {
		start = len(unnamed)
	}
	name, value, _ = strings.Cut(text[start:], " ")
	return text[:start] + name, value
}
