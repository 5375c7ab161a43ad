// Tries a parser on events.json: go run run.go my_parser.go [WORD ..] <events.json
//
// my_parser.go, of package main, has parseChunks, a function from chunks to event lines. Each
// vector of the kind events is tried as it is, in one chunk, and byte by byte. A word is a level, a
// rule, a house rule, or strongest=LEVEL (docs/JUDGE.md): vectors that have it are left out. The
// status is 0 if all are right, 1 if not or if none is left, and 2 without the file.
package main

import (
	"encoding/hex"
	"encoding/json"
	"fmt"
	"os"
	"strings"
)

type vector struct {
	ID, Kind, Level, Strongest string
	Rules, House               []string
	Chunks, Events             []any
	Limit                      *int
}

// expand returns the text of bytes in hex or, with a line feed as the end, of lines.
func expand(value any, end string) (text string) {
	switch value := value.(type) {
	case string:
		return value + end
	case []any:
		for _, item := range value {
			text += expand(item, end)
		}
	case map[string]any:
		if line, is := value["line"]; is {
			return expand(line, "") + end
		}
		return strings.Repeat(value["repeat"].(string)+end, int(value["times"].(float64)))
	}
	return text
}

func answer(chunks [][]byte) (got string) {
	defer func() {
		if fault := recover(); fault != nil {
			got = fmt.Sprint("panic: ", fault)
		}
	}()
	return strings.Join(append(parseChunks(chunks), ""), "\n")
}

func isRight(v vector, wanted string, chunks [][]byte) bool {
	got := answer(chunks)
	if got != wanted {
		given := strings.Trim(fmt.Sprintf("%x", chunks), "[]")
		fmt.Printf("%s: %.300s gives %.300q, not %.300q (%s: %s)\n", v.ID, given, got, wanted,
			v.Level, strings.Join(v.Rules, ", "))
	}
	return got == wanted
}

// isLeftOut says whether a vector is none of those to try, or has one of the words, which have a
// line each.
func isLeftOut(v vector, lines string) bool {
	skip := v.Kind != "events" || v.Limit == nil || *v.Limit != 1024
	for _, word := range append(append(v.Rules, v.House...), v.Level, "strongest="+v.Strongest) {
		skip = skip || strings.Contains(lines, "\n"+word+"\n")
	}
	return skip
}

// tryVector returns whether a vector is right in each way, and prints the first in which it is
// wrong.
func tryVector(v vector) bool {
	var cut, single [][]byte
	var stream []byte
	for _, chunk := range v.Chunks {
		bytes, _ := hex.DecodeString(expand(chunk, ""))
		cut, stream = append(cut, bytes), append(stream, bytes...)
	}
	for i := range stream {
		single = append(single, stream[i:i+1])
	}
	wanted, joined := expand(v.Events, "\n"), [][]byte{stream}
	return isRight(v, wanted, cut) && isRight(v, wanted, joined) && isRight(v, wanted, single)
}

func main() {
	var file struct{ Vectors, Long []vector }
	if err := json.NewDecoder(os.Stdin).Decode(&file); err != nil {
		fmt.Fprintln(os.Stderr, "this isn't events.json:", err)
		os.Exit(2)
	}
	wrong, tried, leftOut := 0, 0, "\n"+strings.Join(os.Args[1:], "\n")+"\n"
	for _, v := range append(file.Vectors, file.Long...) {
		if isLeftOut(v, leftOut) {
			continue
		}
		tried++
		if !tryVector(v) {
			wrong++
		}
	}
	fmt.Printf("%d of %d wrong\n", wrong, tried)
	if wrong > 0 || tried == 0 {
		os.Exit(1)
	}
}
