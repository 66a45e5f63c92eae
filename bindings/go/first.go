//go:build ignore

// Says of each file whether it is handed on: go run first.go FILE..
package main

import (
	"fmt"
	"os"

	"serialcheck"
)

const filter = "maxbytes=1000000;maxdepth=20;java.util.*;java.lang.*;!*"

func admitted(stream []byte) bool {
	_, err := serialcheck.Check(stream, filter, serialcheck.Options{Anywhere: true})
	return err == nil
}

func main() {
	for _, file := range os.Args[1:] {
		stream, fault := os.ReadFile(file)
		if fault == nil && admitted(stream) {
			fmt.Println("handed on")
		} else {
			fmt.Println("refused")
		}
	}
}
