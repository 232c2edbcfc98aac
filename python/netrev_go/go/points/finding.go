package main

import (
	"bytes"
	"fmt"
	"go/ast"
	"go/parser"
	"go/printer"
	"go/token"
	"os"
	"path/filepath"
	"sort"
	"strconv"
	"strings"
)

// A source is a Go file: its text and its syntax.
type source struct {
	text   string
	set    *token.FileSet
	syntax *ast.File
}

func readSource(path string) (*source, error) {
	text, err := os.ReadFile(path)
	if err != nil {
		return nil, err
	}
	set := token.NewFileSet()
	syntax, err := parser.ParseFile(set, filepath.Base(path), text, parser.ParseComments)
	if err != nil {
		return nil, err
	}
	return &source{string(text), set, syntax}, nil
}

func (s *source) offset(at token.Pos) int { return s.set.Position(at).Offset }

func (s *source) textOf(n ast.Node) string { return s.text[s.offset(n.Pos()):s.offset(n.End())] }

func (s *source) function(name string) *ast.FuncDecl {
	for _, declaration := range s.syntax.Decls {
		if f, ok := declaration.(*ast.FuncDecl); ok && f.Name.Name == name && f.Body != nil {
			return f
		}
	}
	return nil
}

// printed returns an expression as gofmt prints it, on one line.
func printed(n ast.Node) string {
	var text bytes.Buffer
	if err := printer.Fprint(&text, token.NewFileSet(), n); err != nil {
		return ""
	}
	return text.String()
}

// declares returns whether the file declares a function, possibly one written in assembly.
func (s *source) declares(name string) bool {
	for _, declaration := range s.syntax.Decls {
		if f, ok := declaration.(*ast.FuncDecl); ok && f.Name.Name == name && f.Recv == nil {
			return true
		}
	}
	return false
}

// has returns whether a name occurs anywhere in the file.
func (s *source) has(name string) bool {
	has := false
	ast.Inspect(s.syntax, func(n ast.Node) bool {
		i, ok := n.(*ast.Ident)
		has = has || ok && i.Name == name
		return !has
	})
	return has
}

// found is a call or a comparison, and the statement of a block that contains it.
type found struct {
	expression ast.Expr
	statement  ast.Stmt
}

func matches(e ast.Expr, find string) bool {
	switch e.(type) {
	case *ast.CallExpr, *ast.BinaryExpr:
	default:
		return false
	}
	if prefix := strings.TrimSuffix(find, "...)"); prefix != find {
		return strings.HasPrefix(printed(e), prefix)
	}
	return printed(e) == find
}

// findAll returns each occurrence of an expression in a function, from the function's first line on.
func findAll(f *ast.FuncDecl, find string) []found {
	var all []found
	var parents []ast.Node
	ast.Inspect(f.Body, func(n ast.Node) bool {
		if n == nil {
			parents = parents[:len(parents)-1]
			return true
		}
		if e, ok := n.(ast.Expr); ok && matches(e, find) {
			all = append(all, found{e, enclosing(parents)})
		}
		parents = append(parents, n)
		return true
	})
	return all
}

// enclosing returns the innermost statement that is directly in a block.
func enclosing(parents []ast.Node) ast.Stmt {
	for i := len(parents) - 1; i > 0; i-- {
		statement, ok := parents[i].(ast.Stmt)
		if _, inBlock := parents[i-1].(*ast.BlockStmt); ok && inBlock {
			return statement
		}
	}
	return nil
}

// returned returns the expression of the function's last return.
func returned(s *source, f *ast.FuncDecl) string {
	text := ""
	ast.Inspect(f.Body, func(n ast.Node) bool {
		if r, ok := n.(*ast.ReturnStmt); ok && len(r.Results) == 1 {
			text = s.textOf(r.Results[0])
		}
		return true
	})
	return text
}

// A change is a part of a file's text, and the text that replaces it.
type change struct {
	from, to int
	text     string
}

// unfit says why a rule doesn't fit.
type unfit struct{ rule, variant, why string }

func (u unfit) Error() string { return u.rule + ": " + u.why }

// changes returns the changes that a variant's edits make in a function.
func (s *source) changes(f *ast.FuncDecl, edits []edit) ([]change, error) {
	var made []change
	for _, e := range edits {
		if e.how == rename {
			made = append(made, change{s.offset(f.Name.Pos()), s.offset(f.Name.End()), e.put[0]})
			continue
		}
		all := findAll(f, e.find)
		if len(all) != e.times {
			return nil, fmt.Errorf("%s occurs there %d times, not %d", e.find, len(all), e.times)
		}
		for i, at := range all {
			put := e.put[i%len(e.put)]
			if put == "" {
				continue
			}
			c, err := s.changeOf(f, e, at, put)
			if err != nil {
				return nil, err
			}
			made = append(made, c)
		}
	}
	return made, nil
}

// changeOf returns the change of one edit. It adds no line, so that Go's own line numbers stay the same.
func (s *source) changeOf(f *ast.FuncDecl, e edit, at found, put string) (change, error) {
	text := s.filled(f, at.expression, put)
	if e.how == beside {
		from := s.offset(f.End())
		return change{from, from, "; " + text}, nil
	}
	if e.how == replace {
		return change{s.offset(at.expression.Pos()), s.offset(at.expression.End()), text}, nil
	}
	if at.statement == nil {
		return change{}, fmt.Errorf("%s isn't in a statement of a block", e.find)
	}
	if e.how == before {
		from := s.offset(at.statement.Pos())
		return change{from, from, text + "; "}, nil
	}
	from := s.offset(at.statement.End())
	return change{from, from, "; " + text}, nil
}

// filled returns a text with $0, $1, $3.. and $return filled in.
func (s *source) filled(f *ast.FuncDecl, e ast.Expr, put string) string {
	var arguments []ast.Expr
	if call, ok := e.(*ast.CallExpr); ok {
		arguments = call.Args
	}
	for i := len(arguments); i > 0; i-- {
		number := "$" + strconv.Itoa(i)
		rest := s.text[s.offset(arguments[i-1].Pos()):s.offset(arguments[len(arguments)-1].End())]
		put = strings.ReplaceAll(put, number+"..", rest)
		put = strings.ReplaceAll(put, number, s.textOf(arguments[i-1]))
	}
	put = strings.ReplaceAll(put, "$return", returned(s, f))
	return strings.ReplaceAll(put, "$0", s.textOf(e))
}

// changed returns the file's text with these changes.
func (s *source) changed(changes []change) string {
	sort.SliceStable(changes, func(i, j int) bool { return changes[i].from < changes[j].from })
	var text strings.Builder
	at := 0
	for _, c := range changes {
		text.WriteString(s.text[at:c.from])
		text.WriteString(c.text)
		at = c.to
	}
	text.WriteString(s.text[at:])
	return text.String()
}
