//go:build !cgo || !linux

package linkcap

// The compiler's error is the message: linkcap calls a C library, which is built for Linux.
var _ = linkcap_needs_Linux_and_CGO_ENABLED_1_and_a_C_compiler
