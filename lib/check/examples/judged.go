// A test of Go's channels: what two goroutines did is written as a journal, and judged. To run it: go run judged.go
package main

// #cgo CFLAGS: -I${SRCDIR}/../../include
// #cgo LDFLAGS: -L${SRCDIR}/../../out -lpcml_check
// #include <pcml_check.h>
import "C"

import (
	"fmt"
	"os"
	"unsafe"
)

const script = `channel c;
process producer { let i = 1; loop 3 { sync send c (i); let i = i + 1; } }
process consumer { loop 3 { x <- sync recv c; print x; } }`

// journal is what came of three rendezvous, as the receiver saw them.
func journal() (lines string) {
	c := make(chan int)
	go func() {
		for i := 1; i <= 3; i++ {
			c <- i
		}
		close(c)
	}()
	n := 0
	for x := range c {
		lines += fmt.Sprintf("%d producer.%d.0 -> consumer.%d.0 c (%d)\n", n+1, n, n, x)
		n++
	}
	return lines
}

// bytesOf has a byte more than the text, since an empty slice may have a null pointer.
func bytesOf(text string) (*C.char, C.size_t) {
	bytes := append([]byte(text), 0)
	return (*C.char)(unsafe.Pointer(&bytes[0])), C.size_t(len(text))
}

func main() {
	of, ofLen := bytesOf(script)
	lines, linesLen := bytesOf(journal())
	room := make([]byte, 4096)
	answer := C.pcml_check_journal(of, ofLen, lines, linesLen, 256, (*C.char)(unsafe.Pointer(&room[0])), C.size_t(len(room)))
	fmt.Print(string(room[:answer.text_len]))
	if answer.code != C.PCML_DONE {
		os.Exit(1)
	}
}
