// Tells the functions and literals of functions of the Go files whose paths it reads, for bench/functions.py.
package main

import (
	"bufio"
	"fmt"
	"go/ast"
	"go/parser"
	"go/token"
	"os"
)

func main() {
	out := bufio.NewWriter(os.Stdout)
	defer out.Flush()
	paths := bufio.NewScanner(os.Stdin)
	for paths.Scan() {
		path := paths.Text()
		set := token.NewFileSet()
		file, err := parser.ParseFile(set, path, nil, parser.SkipObjectResolution)
		if err != nil {
			fmt.Fprintf(out, "%s\tfault\n", path)
			continue
		}
		tell := func(kind, name string, first, last token.Pos) {
			fmt.Fprintf(out, "%s\t%s\t%s\t%d\t%d\n", path, kind, name, set.PositionFor(first, false).Line, set.PositionFor(last, false).Line)
		}
		ast.Inspect(file, func(node ast.Node) bool {
			switch it := node.(type) {
			case *ast.FuncDecl:
				kind := "function"
				if it.Recv != nil {
					kind = "method"
				}
				if it.Body == nil {
					tell(kind+" without a body", it.Name.Name, it.Name.Pos(), it.End()-1)
				} else {
					tell(kind, it.Name.Name, it.Name.Pos(), it.Body.Rbrace)
				}
			case *ast.FuncLit:
				tell("literal", "", it.Pos(), it.Body.Rbrace)
			}
			return true
		})
	}
}
