// Pty_events runs a program in a pty and prints its events: pty_events PROGRAM ARGUMENT..
package main

// #include <pty.h>
// #include <vte.h>
import "C"

import (
	"fmt"
	"os"
	"os/exec"
	"syscall"
)

var names = []string{"text", "execute", "hook", "data", "unhook", "osc", "csi", "esc"}

// start runs a program in a new pty, and returns the side that reads what it writes.
func start(words []string) *os.File {
	var terminal, program C.int
	if C.openpty(&terminal, &program, nil, nil, nil) != 0 {
		os.Exit(1)
	}
	side := os.NewFile(uintptr(program), "pty")
	defer side.Close()
	command := exec.Command(words[0], words[1:]...)
	command.Stdin, command.Stdout, command.Stderr = side, side, side
	command.SysProcAttr = &syscall.SysProcAttr{Setsid: true, Setctty: true}
	if command.Start() != nil {
		os.Exit(127)
	}
	return os.NewFile(uintptr(terminal), "terminal")
}

// text returns the text of an event, which is in the bytes of the call or in the data area.
func text(event C.vte_event, bytes, data []byte) []byte {
	if event.flag != 0 {
		bytes = data
	}
	return bytes[event.start : event.start+event.code]
}

func main() {
	var parser C.vte_parser
	var events [256]C.vte_event
	var counts C.vte_counts
	buffer, data := make([]byte, 4096), make([]byte, 8192)
	terminal := start(os.Args[1:])
	// Linux answers EIO once the last program has closed the pty.
	for length, err := terminal.Read(buffer); err == nil; length, err = terminal.Read(buffer) {
		for bytes := buffer[:length]; len(bytes) > 0; {
			read := C.vte_feed(&parser, (*C.uint8_t)(&bytes[0]), C.size_t(len(bytes)),
				C.VTE_ALL_KINDS, 0, &events[0], C.size_t(len(events)),
				(*C.uint8_t)(&data[0]), C.size_t(len(data)), &counts)
			for _, event := range events[:counts.events] {
				if event.kind == C.VTE_TEXT {
					fmt.Printf("text %s\n", text(event, bytes, data))
				} else {
					fmt.Printf("%s %02x\n", names[event.kind], uint32(event.code))
				}
			}
			bytes = bytes[read:]
		}
	}
}
