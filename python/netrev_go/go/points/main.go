// Command points puts netrev's points into files of the installed Go, for `go build -overlay`.
//
//	points fit SRC              says which rules fit the sources below SRC
//	points calls SRC            lists the calls of internal/poll's FD
//	points overlay SRC LOG OUT  writes the changed files and new.json, the list of them, to OUT; LOG has our own functions
//
// No source of Go is copied here: rules.go names functions, and the calls and comparisons in them.
package main

import (
	"encoding/json"
	"fmt"
	"os"
	"path/filepath"
	"strings"
)

// overlay writes the changed files, and the list of them.
func overlay(folder, log, out string, sources map[string]*source, fittings []fitting) error {
	changes := map[string][]change{}
	for _, f := range fittings {
		changes[f.rule.file] = append(changes[f.rule.file], f.changes...)
	}
	replaced := map[string]string{}
	for file, s := range sources {
		if len(changes[file]) == 0 {
			continue
		}
		text, end := "", s.offset(s.syntax.Name.End())
		has := s.imported()
		for _, ours := range appended[file] {
			functions, imports, err := oursFor(folder, filepath.Join(log, ours), has)
			if err != nil {
				return err
			}
			text += functions
			changes[file] = append(changes[file], change{end, end, imports})
		}
		name := filepath.Join(out, strings.ReplaceAll(file, "/", "_"))
		if err := os.WriteFile(name, []byte(s.changed(changes[file])+text), 0o644); err != nil {
			return err
		}
		replaced[filepath.Join(folder, filepath.FromSlash(file))] = name
	}
	list, err := json.Marshal(map[string]map[string]string{"Replace": replaced})
	if err != nil {
		return err
	}
	return os.WriteFile(filepath.Join(out, "new.json"), list, 0o644)
}

func fail(err error) {
	fmt.Fprintln(os.Stderr, err)
	os.Exit(1)
}

func main() {
	arguments := os.Args[1:]
	counts := map[string]int{"fit": 2, "calls": 2, "overlay": 4}
	if len(arguments) == 0 || len(arguments) != counts[arguments[0]] {
		fmt.Fprintln(os.Stderr, "points fit SRC, points calls SRC, or points overlay SRC LOG OUT")
		os.Exit(2)
	}
	folder := arguments[1]
	poll, err := readPackage(folder, "internal/poll")
	if err != nil {
		fail(err)
	}
	if arguments[0] == "calls" {
		fmt.Println(strings.Join(callsOf(poll), "\n"))
		return
	}
	runtime, err := readPackage(folder, "runtime")
	if err != nil {
		fail(err)
	}
	sources, fittings := fitAll(folder)
	if report(fittings)+guarded(poll, runtime) > 0 {
		os.Exit(1)
	}
	if arguments[0] == "overlay" {
		if err := overlay(folder, arguments[2], arguments[3], sources, fittings); err != nil {
			fail(err)
		}
	}
}
