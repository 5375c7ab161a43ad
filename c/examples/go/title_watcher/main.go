// Title_watcher passes its standard input on, and writes each title that the stream sets to
// standard error.
package main

// #include <stdlib.h>
// #include <vte.h>
import "C"

import (
	"fmt"
	"os"
	"strings"
	"unsafe"
)

// pieces returns the pieces of an operating system command. The data is in memory of C, because the
// items point into it.
func pieces(event *C.vte_event, data *C.uint8_t) (all []string) {
	items := C.vte_items_of(event, data)
	for C.vte_next_piece(&items) != 0 {
		all = append(all, string(C.GoBytes(unsafe.Pointer(items.at), C.int(items.length))))
	}
	return all
}

func main() {
	var parser C.vte_parser
	var events [256]C.vte_event
	var counts C.vte_counts
	buffer, data := make([]byte, 4096), (*C.uint8_t)(C.malloc(8192))
	for {
		length, err := os.Stdin.Read(buffer)
		os.Stdout.Write(buffer[:length])
		for bytes := buffer[:length]; len(bytes) > 0; {
			read := C.vte_feed(&parser, (*C.uint8_t)(&bytes[0]), C.size_t(len(bytes)),
				1<<C.VTE_OSC, 0, &events[0], C.size_t(len(events)), data, 8192, &counts)
			for i := range events[:counts.events] {
				// Operating system commands 0 and 2 set the title, which may contain `;`.
				if events[i].kind == C.VTE_OSC {
					all := pieces(&events[i], data)
					if all[0] == "0" || all[0] == "2" {
						fmt.Fprintln(os.Stderr, "title:", strings.Join(all[1:], ";"))
					}
				}
			}
			bytes = bytes[read:]
		}
		if err != nil {
			return
		}
	}
}
