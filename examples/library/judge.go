// Judges a trace file as `cops audit` does. CGO_CFLAGS=-I$PWD/release CGO_LDFLAGS=$PWD/release/libcops.a go run examples/library/judge.go TRACE
package main

// #include "cops.h"
import "C"

import (
	"os"
	"unsafe"
)

// pointer is the address of the first byte. No pointer may be null, so an empty slice has that of another byte.
func pointer(bytes []byte) *C.uint8_t {
	if len(bytes) == 0 {
		bytes = make([]byte, 1)
	}
	return (*C.uint8_t)(unsafe.Pointer(&bytes[0]))
}

func audit(trace []byte) (C.uint8_t, []byte) {
	output, written := make([]byte, C.COPS_SIZE_UNLESS_REFUSED), C.size_t(0)
	for {
		status := C.cops_audit(pointer(trace), C.size_t(len(trace)), pointer(output), C.size_t(len(output)), &written)
		if status != C.COPS_TOO_SMALL {
			return status, output[:written]
		}
		output = make([]byte, written)
	}
}

func main() {
	trace, err := os.ReadFile(os.Args[1])
	if err != nil {
		os.Exit(4)
	}
	status, text := audit(trace)
	os.Stdout.Write(text)
	os.Exit(int(status))
}
