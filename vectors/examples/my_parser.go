package main

import "fmt"

// parseChunks knows only text and controls.
func parseChunks(chunks [][]byte) (lines []string) {
	for _, chunk := range chunks {
		for _, b := range chunk {
			if b < 0x20 {
				lines = append(lines, fmt.Sprintf("execute %02x", b))
			} else {
				lines = append(lines, fmt.Sprintf("print %04x", b))
			}
		}
	}
	return lines
}
