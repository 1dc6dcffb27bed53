package http

import (
	"go/parser"
	gotoken "go/token"
	"os"
	"path"
	"path/filepath"
	"regexp"
	"sort"
	"strconv"
	"strings"
	"testing"
)

// TestTheMapOfPackages compares the table of packages in docs/ARCHITECTURE.md with the packages that each one imports.
func TestTheMapOfPackages(t *testing.T) {
	mapped := packagesOnThePage(t)
	found := map[string][]string{}
	for _, pattern := range []string{"../../gateway/*.go", "../../internal/*/*.go", "../../internal/store/*/*.go", "../../client/*/*.go", "../*/*.go"} {
		files, _ := filepath.Glob(pattern)
		for _, file := range files {
			if name := path.Base(path.Dir(file)); !strings.HasSuffix(file, "_test.go") {
				found[name] = append(found[name], importsOf(t, file)...)
			}
		}
	}
	for name, uses := range found {
		want, there := mapped[name]
		if got := joinedOnce(uses); !there || got != want {
			t.Errorf("%s uses %q, and the page says %q", name, got, want)
		}
		delete(mapped, name)
	}
	errorIf(t, len(found) < 10 || len(mapped) > 0,
		"%d packages are found, and the page has %v too", len(found), mapped)
}

// packagesOnThePage returns the packages of the table, each with those that it uses.
func packagesOnThePage(t *testing.T) map[string]string {
	t.Helper()
	page, err := os.ReadFile("../../../docs/ARCHITECTURE.md")
	must(t, err)
	_, table, _ := strings.Cut(string(page), "| Package | What it does | Uses |\n|---|---|---|\n")
	table, _, _ = strings.Cut(table, "\n\n")
	name := regexp.MustCompile("`([a-z/]+)`")
	mapped := map[string]string{}
	for _, row := range strings.Split(table, "\n") {
		cells := strings.Split(row, "|")
		if len(cells) != 5 {
			t.Fatalf("a row has %d cells: %s", len(cells), row)
		}
		var uses []string
		for _, one := range name.FindAllStringSubmatch(cells[3], -1) {
			uses = append(uses, path.Base(one[1]))
		}
		for _, one := range name.FindAllStringSubmatch(cells[1], -1) {
			mapped[path.Base(one[1])] = joinedOnce(uses)
		}
	}
	return mapped
}

// importsOf returns the packages of this module that a file imports.
func importsOf(t *testing.T, file string) (names []string) {
	t.Helper()
	parsed, err := parser.ParseFile(gotoken.NewFileSet(), file, nil, parser.ImportsOnly)
	must(t, err)
	for _, one := range parsed.Imports {
		if from, _ := strconv.Unquote(one.Path.Value); strings.HasPrefix(from, "luvdregan.example/resb/deploy/") {
			names = append(names, path.Base(from))
		}
	}
	return names
}

// joinedOnce returns names in their order, each once.
func joinedOnce(names []string) string {
	sort.Strings(names)
	var once []string
	for i, name := range names {
		if i == 0 || name != names[i-1] {
			once = append(once, name)
		}
	}
	return strings.Join(once, " ")
}
