// Times a call over a capture on standard input, by processor time: `calls NAME SECONDS < CAPTURE`, as calls.c does.
package main

import (
	"fmt"
	"io"
	"os"
	"strconv"
	"syscall"

	"linkcap.invalid/linkcap"
)

func readClock() float64 {
	var usage syscall.Rusage
	if err := syscall.Getrusage(syscall.RUSAGE_SELF, &usage); err != nil {
		panic(err)
	}
	return float64(usage.Utime.Nano()+usage.Stime.Nano()) / 1e9
}

func main() {
	seconds, err := strconv.ParseFloat(os.Args[2], 64)
	if err != nil {
		panic(err)
	}
	capture, err := io.ReadAll(os.Stdin)
	if err != nil {
		panic(err)
	}
	call := map[string]func() error{
		"check":     func() error { return linkcap.Check(capture) },
		"normalize": func() error { _, err := linkcap.Normalize(capture); return err },
		"same":      func() error { _, err := linkcap.Same(capture, capture); return err },
		"lines":     func() error { _, err := linkcap.Lines(capture); return err },
	}[os.Args[1]]
	for count := 1; ; count *= 2 {
		begin := readClock()
		for i := 0; i < count; i++ {
			if err := call(); err != nil {
				panic(err)
			}
		}
		if took := readClock() - begin; took >= seconds {
			fmt.Printf("%.1f\n", took/float64(count)*1e9)
			return
		}
	}
}
