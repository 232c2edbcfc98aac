// Uses Debian's go-dap to decode messages of the Debug Adapter Protocol, one per line of JSON. Prints the type of each
// message, and a field of it that go-dap doesn't know.
package main

import (
	"bufio"
	"encoding/json"
	"fmt"
	"os"
	"reflect"

	"github.com/google/go-dap"
)

// lost returns the place of a value that is in sent but not in known, or an empty string. known may lack zero values.
func lost(sent, known any, where string) string {
	switch sent := sent.(type) {
	case map[string]any:
		known, _ := known.(map[string]any)
		for name, value := range sent {
			other, there := known[name]
			if !there && !isZero(value) {
				return where + "." + name
			}
			if there {
				if said := lost(value, other, where+"."+name); said != "" {
					return said
				}
			}
		}
	case []any:
		known, _ := known.([]any)
		if len(known) != len(sent) {
			return where
		}
		for at := range sent {
			if said := lost(sent[at], known[at], where); said != "" {
				return said
			}
		}
	default:
		if !reflect.DeepEqual(sent, known) {
			return where
		}
	}
	return ""
}

func isZero(value any) bool {
	switch value := value.(type) {
	case map[string]any:
		return len(value) == 0
	case []any:
		return len(value) == 0
	}
	return value == nil || reflect.ValueOf(value).IsZero()
}

func main() {
	lines := bufio.NewScanner(os.Stdin)
	lines.Buffer(make([]byte, 1<<20), 1<<24)
	for lines.Scan() {
		message, err := dap.DecodeProtocolMessage(lines.Bytes())
		if err != nil {
			fmt.Println("not decoded:", err)
			continue
		}
		again, _ := json.Marshal(message)
		var sent, known any
		json.Unmarshal(lines.Bytes(), &sent)
		json.Unmarshal(again, &known)
		fmt.Printf("%T %s\n", message, lost(sent, known, ""))
	}
}
