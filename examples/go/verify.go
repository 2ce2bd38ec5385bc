// Verifies a proof for a statement: verify STATEMENT PROOF. Writes what is said; the status is the answer.
package main

// #cgo LDFLAGS: -lvoskligan
// #include "voskligan.h"
import "C"

import (
	"bytes"
	"fmt"
	"os"
	"unsafe"
)

// Where the bytes begin; nil where there are none.
func first(b []byte) *C.uint8_t {
	if len(b) == 0 {
		return nil
	}
	return (*C.uint8_t)(unsafe.Pointer(&b[0]))
}

// Verify answers 0 where the proof is accepted, 1 where it is refused, 2 where nothing was judged, and what is said of it.
func Verify(statement, proof []byte) (int, string) {
	message := make([]byte, 512)
	answer := C.voskligan_verify(
		first(statement), C.size_t(len(statement)),
		first(proof), C.size_t(len(proof)),
		first(message), C.size_t(len(message)),
	)
	text, _, _ := bytes.Cut(message, []byte{0})
	return int(answer), string(text)
}

func main() {
	if len(os.Args) != 3 {
		fmt.Fprintln(os.Stderr, "verify STATEMENT PROOF")
		os.Exit(2)
	}
	var texts [2][]byte
	for i, path := range os.Args[1:] {
		text, err := os.ReadFile(path)
		if err != nil {
			fmt.Fprintln(os.Stderr, err)
			os.Exit(2)
		}
		texts[i] = text
	}
	answer, message := Verify(texts[0], texts[1])
	fmt.Print(message)
	os.Exit(answer)
}
