//go:build cgo && linux

package linkcap

// #include "calls.h"
import "C"

// DefaultLimit is the limit in bytes of the package's functions, and of the programs.
const DefaultLimit = C.LINKCAP_DEFAULT_LIMIT

// Options are the options of a call, which is one of their methods. They are those of the program linkshow. The zero value has the
// defaults, which the functions of the package take: all messages and attributes, in lines up to the first fault.
//
// Each call uses the limit. A call returns an [UnusedOptionError] for an option that it doesn't use, so none is ignored.
type Options struct {
	// Limit is the greatest length in bytes that a message, read or written, may have: from 16 on, or 0 for DefaultLimit.
	Limit uint32
	// Only has the types of the messages that are selected, at most 32 with commas between them: names, for example newlink, or
	// numbers; all are selected if it is empty.
	Only string
	// Link is the name, alternative name or index of the link that messages have to be about; about any if it is empty.
	Link string
	// Without has attributes that are left out with all that they nest: the kernel's names, at most 32, and groups of linkshow(1),
	// as counters, with commas between them. The case of ASCII letters doesn't count.
	Without string
	// Numbers says whether sequence numbers and netlink port IDs, which change from run to run, are shown or compared. By default
	// they are, except in golden files.
	Numbers Numbers
	// Offsets ends each message's first line with its offset in the capture, in bytes.
	Offsets bool
	// KeepGoing also shows messages with a fault in their body, in hex, and those after them.
	KeepGoing bool
	// JSON makes an object of each message, on a line of its own, in place of lines for people.
	JSON bool
}

// Numbers says whether sequence numbers and netlink port IDs are shown or compared. The zero value is the call's default.
type Numbers uint8

// WithNumbers shows or compares them, and WithoutNumbers doesn't.
const (
	WithNumbers Numbers = iota + 1
	WithoutNumbers
)

// ofLines are the options that calls that write lines use, beside the limit.
var ofLines = []string{"Only", "Link", "Without", "Numbers", "Offsets", "KeepGoing", "JSON"}

// check returns nil if the limit is valid, and of the other options only these are set.
func (o *Options) check(used []string) error {
	if o.Limit != 0 && o.Limit < C.LINKCAP_MIN_LIMIT {
		return ErrLimit
	}
	for i, isSet := range [...]bool{o.Only != "", o.Link != "", o.Without != "", o.Numbers != 0, o.Offsets, o.KeepGoing, o.JSON} {
		if isSet && !contains(used, ofLines[i]) {
			return UnusedOptionError(ofLines[i])
		}
	}
	return nil
}

func contains(names []string, name string) bool {
	for _, other := range names {
		if name == other {
			return true
		}
	}
	return false
}

// flags returns the flags for the library.
func (o *Options) flags() C.uint32_t {
	var flags C.uint32_t
	if o.Numbers == WithoutNumbers {
		flags |= C.LINKCAP_WITHOUT_NUMBERS
	}
	if o.Offsets {
		flags |= C.LINKCAP_OFFSETS
	}
	if o.KeepGoing {
		flags |= C.LINKCAP_KEEP_GOING
	}
	return flags
}

// callOptions are those of one call, as the library reads them: numbers, and the bytes of the texts.
type callOptions struct {
	numbers C.struct_linkcap_go_options
	texts   []byte
}

// limit returns the limit, of which 0 is the default.
func (o *callOptions) limit() C.uint32_t { return o.numbers.limit }

// forText returns the options of a call that writes normal text, or reads, and uses the limit and these.
func (o Options) forText(used ...string) (callOptions, error) {
	if err := o.check(used); err != nil {
		return callOptions{}, err
	}
	return callOptions{numbers: C.struct_linkcap_go_options{limit: C.uint32_t(o.Limit), form: C.LINKCAP_TEXT, flags: o.flags()}}, nil
}

// forLines returns the options of a call that writes lines, and uses the limit and these.
func (o Options) forLines(used ...string) (callOptions, error) {
	if err := o.check(used); err != nil {
		return callOptions{}, err
	}
	form := C.uint32_t(C.LINKCAP_LINES)
	if o.JSON {
		form = C.LINKCAP_JSON
	}
	options := callOptions{
		C.struct_linkcap_go_options{limit: C.uint32_t(o.Limit), form: form, flags: o.flags(), only: C.size_t(len(o.Only)),
			link: C.size_t(len(o.Link)), without: C.size_t(len(o.Without))},
		[]byte(o.Only + o.Link + o.Without),
	}
	return options, options.checkWords()
}

// checkWords returns nil if each word of the lists is known.
func (o *callOptions) checkWords() error {
	word := make([]byte, len(o.texts))
	var written C.uint64_t
	status := C.linkcap_go_unknown_word(o.numbers, chars(o.texts), address(word), C.size_t(len(word)), &written)
	switch status {
	case C.LINKCAP_NONE:
		return nil
	case C.LINKCAP_OK:
		return UnknownNameError(word[:written])
	}
	only, link := int(o.numbers.only), int(o.numbers.link)
	return listError(o.texts[:only], o.texts[only+link:])
}

// expansion returns how many times as long as its capture an output mostly is, at most.
func (o *callOptions) expansion() int {
	if o.numbers.form == C.LINKCAP_TEXT {
		return 1
	}
	return 4
}
