//go:build cgo && linux && linkcap_shared

package linkcap

// #cgo pkg-config: linkcap
import "C"
