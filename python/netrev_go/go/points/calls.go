package main

import (
	"go/ast"
	"go/build"
	"os"
	"path/filepath"
	"sort"
	"strings"
)

// A function of Go that has a body, with its file.
type function struct {
	file   string
	source *source
	syntax *ast.FuncDecl
}

// A folder holds a package's functions, read from the files that Go compiles for linux/amd64.
type folder struct {
	name      string
	functions []function
}

// linux returns the build context that chooses the files of recorded programs.
func linux() build.Context {
	context := build.Default
	context.GOOS, context.GOARCH, context.CgoEnabled = "linux", "amd64", true
	return context
}

func readPackage(root, name string) (*folder, error) {
	path := filepath.Join(root, filepath.FromSlash(name))
	files, err := os.ReadDir(path)
	if err != nil {
		return nil, err
	}
	context, read := linux(), &folder{name: name}
	for _, file := range files {
		if !strings.HasSuffix(file.Name(), ".go") || strings.HasSuffix(file.Name(), "_test.go") {
			continue
		}
		if matches, err := context.MatchFile(path, file.Name()); err != nil || !matches {
			continue
		}
		s, err := readSource(filepath.Join(path, file.Name()))
		if err != nil {
			return nil, err
		}
		for _, declaration := range s.syntax.Decls {
			if f, ok := declaration.(*ast.FuncDecl); ok && f.Body != nil {
				read.functions = append(read.functions, function{file.Name(), s, f})
			}
		}
	}
	return read, nil
}

// callsOf lists what other packages call on an FD: its exported methods, and the exported functions with an FD as a parameter.
func callsOf(poll *folder) []string {
	var calls []string
	for _, f := range poll.functions {
		switch name := f.syntax.Name.Name; {
		case !ast.IsExported(name):
		case f.syntax.Recv != nil && isFD(f.syntax.Recv.List):
			calls = append(calls, "FD."+name)
		case f.syntax.Recv == nil && isFD(f.syntax.Type.Params.List):
			calls = append(calls, name)
		}
	}
	sort.Strings(calls)
	return calls
}

// isFD returns whether an *FD is among these parameters.
func isFD(fields []*ast.Field) bool {
	for _, field := range fields {
		if star, ok := field.Type.(*ast.StarExpr); ok && printed(star.X) == "FD" {
			return true
		}
	}
	return false
}
