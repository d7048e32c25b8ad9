// Package linkcap checks, measures, normalises, compares and shows captures of Linux netlink link messages, by the C
// library liblinkcap.
//
// A capture is a byte string of netlink messages, each at a multiple of 4. It is legal if it has no fault. Its normal text
// is the canonical form of a capture: two legal captures mean the same if and only if their normal texts are equal.
//
// The functions of the package take the default options; the methods of [Options] take others. For a capture that isn't legal
// they return an [*Error], with its kind and offset:
//
//	text, err := linkcap.Normalize(capture)
//	if errors.Is(err, linkcap.Refused) {
//		var fault *linkcap.Error
//		errors.As(err, &fault)
//		log.Printf("%v; before it: %q", fault, fault.Written)
//	}
//
// Calls share nothing, and may run in goroutines at once. Nobody may write to a capture while a call reads it.
//
// A module uses the package from a folder:
//
//	go mod edit -require linkcap.invalid/linkcap@v0.0.0 -replace linkcap.invalid/linkcap=FOLDER
//
// pkg-config finds the library; PKG_CONFIG_PATH names its folder. The archive liblinkcap.a is linked in, so that the program
// needs no file when it runs; with the build tag linkcap_shared the program loads liblinkcap.so instead. The package needs
// cgo, a C compiler and Linux.
package linkcap
