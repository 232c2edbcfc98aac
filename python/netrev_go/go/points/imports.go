package main

import (
	"fmt"
	"go/ast"
	"path/filepath"
	"strings"
)

// before124 says how older releases differ in the packages that our functions use: a package has another path, or a call is replaced.
var before124 = map[string]struct {
	packages                []string
	declares, what, instead string
}{
	"internal/runtime/atomic":        {packages: []string{"runtime/internal/atomic"}, declares: "Xadd64"},
	"internal/runtime/syscall/linux": {packages: []string{"internal/runtime/syscall", "runtime/internal/syscall"}, declares: "Syscall6"},
	"internal/runtime/sys":           {declares: "GetCallerSP", what: "sys.GetCallerSP()", instead: "getcallersp()"},
}

// imported returns the names by which a file refers to packages.
func (s *source) imported() map[string]bool {
	has := map[string]bool{}
	for _, i := range s.syntax.Imports {
		has[localName(i)] = true
	}
	return has
}

// oursFor returns the part of our file that is appended to a Go file, and the imports that the Go file lacks, which it adds to `has`.
func oursFor(folder, path string, has map[string]bool) (functions, imports string, err error) {
	ours, err := readSource(path)
	if err != nil {
		return "", "", err
	}
	text := ours.text[ours.endOfImports():]
	for _, i := range ours.syntax.Imports {
		path, name := strings.Trim(i.Path.Value, `"`), localName(i)
		older, moved := before124[path]
		if moved {
			path, err = firstThere(folder, append([]string{path}, older.packages...), older.declares)
		}
		if err != nil && older.instead == "" {
			return "", "", err
		}
		if err != nil {
			text, err = strings.ReplaceAll(text, older.what, older.instead), nil
		} else if !has[name] {
			imports += fmt.Sprintf("; import %s %q", name, path)
			has[name] = true
		}
	}
	return text, imports, nil
}

// endOfImports returns the end of a file's imports, or of its package clause if the file has no imports.
func (s *source) endOfImports() int {
	end := s.offset(s.syntax.Name.End())
	for _, declaration := range s.syntax.Decls {
		if d, ok := declaration.(*ast.GenDecl); ok && len(d.Specs) > 0 {
			if _, ok := d.Specs[0].(*ast.ImportSpec); ok {
				end = s.offset(d.End())
			}
		}
	}
	return end
}

// localName returns the name by which a file refers to a package.
func localName(i *ast.ImportSpec) string {
	if i.Name != nil {
		return i.Name.Name
	}
	return filepath.Base(strings.Trim(i.Path.Value, `"`))
}

// firstThere returns the first of these packages that exists and declares a function.
func firstThere(folder string, packages []string, function string) (string, error) {
	for _, name := range packages {
		files, _ := filepath.Glob(filepath.Join(folder, filepath.FromSlash(name), "*.go"))
		for _, file := range files {
			if s, err := readSource(file); err == nil && s.declares(function) {
				return name, nil
			}
		}
	}
	return "", fmt.Errorf("none of the packages %v has a function %s", packages, function)
}
