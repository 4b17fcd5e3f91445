// Before a subtree is handed out, does it hold? before UID SUBTREE <TREE ends with 0 where it does, and else with 1, or 2 for a fault.
package main

// #cgo pkg-config: zirofen
// #include <zirofen.h>
import "C"

import (
	"fmt"
	"io"
	"os"
	"strings"
	"unsafe"
)

// run gives the status of the words of a command line about a tree, and the report.
func run(tree []byte, words ...string) (C.int, string) {
	lines := []byte(strings.Join(words, "\n"))
	var wanted C.size_t
	report := make([]byte, 1<<12)
	for {
		status := C.zirofen_run(text(lines), C.size_t(len(lines)), text(tree), C.size_t(len(tree)), nil, 0,
			text(report), C.size_t(len(report)), &wanted)
		if int(wanted) <= len(report) {
			return status, string(report[:wanted])
		}
		report = make([]byte, wanted)
	}
}

func text(bytes []byte) *C.char {
	if len(bytes) == 0 {
		return nil
	}
	return (*C.char)(unsafe.Pointer(&bytes[0]))
}

func main() {
	if len(os.Args) != 3 {
		os.Exit(2)
	}
	tree, err := io.ReadAll(os.Stdin)
	if err != nil {
		os.Exit(2)
	}
	status, report := run(tree, "check", "--uid", os.Args[1], "--subtree="+os.Args[2])
	switch status {
	case C.ZIROFEN_YES:
		fmt.Println("hand it out")
	case C.ZIROFEN_FAULT:
		fmt.Fprint(os.Stderr, report)
		os.Exit(2)
	default: // escapes, unsettled, or what a later version says: none of them is a yes
		fmt.Printf("keep it:\n%s", report)
		os.Exit(1)
	}
}
