// For tools/test_formats.py: the same as main.rt.txt beside it, by kube-openapi's strfmt.
package main

import (
	"bufio"
	"encoding/hex"
	"fmt"
	"os"
	"strings"

	"k8s.io/kube-openapi/pkg/validation/strfmt"
)

func textOf(word string) string {
	text, err := hex.DecodeString(strings.TrimPrefix(word, "x"))
	if err != nil {
		panic(err)
	}
	return string(text)
}

func answer(line string) string {
	words := strings.Fields(line)
	if !strfmt.Default.ContainsName(words[0]) {
		return "none"
	}
	answers := make([]byte, 0, len(words))
	for _, word := range words[1:] {
		if strfmt.Default.Validates(words[0], textOf(word)) {
			answers = append(answers, '1')
		} else {
			answers = append(answers, '0')
		}
	}
	return string(answers)
}

func main() {
	in := bufio.NewScanner(os.Stdin)
	in.Buffer(nil, 1<<26)
	out := bufio.NewWriter(os.Stdout)
	for in.Scan() {
		fmt.Fprintln(out, answer(in.Text()))
	}
	if err := in.Err(); err != nil {
		panic(err)
	}
	if err := out.Flush(); err != nil {
		panic(err)
	}
}
