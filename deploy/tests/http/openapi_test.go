package http

import (
	"bytes"
	"os"
	"os/exec"
	"path/filepath"
	"regexp"
	"sort"
	"strings"
	"testing"

	"luvdregan.example/resb/deploy/tests/harness"
)

// TestTheDescriptionHasTheRoutes compares the methods that openapi.json has of each address with those
// that the gateway says by OPTIONS. `describes` compares the statuses of all requests of the tests.
func TestTheDescriptionHasTheRoutes(t *testing.T) {
	s := open(t)
	s.describe()
	for path, methods := range described.paths {
		if !strings.HasPrefix(path, "/v1/") || path == "/v1/{app}/look" || strings.Contains(path, "}.") { // the address of a locale has more
			continue
		}
		want := []string{"OPTIONS"}
		if methods["get"] != nil {
			want = append(want, "HEAD")
		}
		for method := range methods {
			if method != "parameters" {
				want = append(want, strings.ToUpper(method))
			}
		}
		got := s.ask("OPTIONS", strings.NewReplacer("{app}", "shop", "{locale}", "de", "{path}", "a/b", "{id}", "1").Replace(path), shopWrites, "")
		may := strings.Split(got.Header.Get("Allow"), ", ")
		sort.Strings(may)
		sort.Strings(want)
		errorIf(t, got.Status != 204 || strings.Join(may, " ") != strings.Join(want, " "),
			"%s: %d, %v are answered and %v described", path, got.Status, may, want)
	}
}

// TestTheDescriptionHasTheErrors compares the error codes that openapi.json names with those that are explained.
func TestTheDescriptionHasTheErrors(t *testing.T) {
	open(t).describe()
	explained, err := os.ReadFile("../../../crates/rb_explain/src/words.rt")
	must(t, err)
	named := map[string]bool{}
	for _, one := range regexp.MustCompile("`([A-Z]\\w+)`").FindAllStringSubmatch(described.text, -1) {
		named[one[1]] = true
	}
	for word := range named {
		errorIf(t, !bytes.Contains(explained, []byte("\n"+word+"\\t")), "%s isn't explained", word)
	}
	errorIf(t, len(named) < 35, "only %d error codes are named", len(named))
}

// TestTheTestsOfInvariants looks for each test that docs/ARCHITECTURE.md names.
func TestTheTestsOfInvariants(t *testing.T) {
	page, err := os.ReadFile("../../../docs/ARCHITECTURE.md")
	must(t, err)
	var sources strings.Builder
	for _, pattern := range []string{"*_test.go", "../*/*_test.go", "../../internal/*/*_test.go", "../../internal/*/*/*_test.go"} {
		files, _ := filepath.Glob(pattern)
		for _, file := range files {
			content, _ := os.ReadFile(file)
			sources.Write(content)
		}
	}
	named := regexp.MustCompile("`(Test[A-Z]\\w+)`").FindAllSubmatch(page, -1)
	for _, one := range named {
		errorIf(t, !strings.Contains(sources.String(), "\nfunc "+string(one[1])+"(t *testing.T)"),
			"there is no test %s", one[1])
	}
	errorIf(t, len(named) < 5, "only %d tests are named", len(named))
}

// TestTheDescriptionMakesAClient has Debian's libopenapi-client-perl judge the description and make a client of it.
func TestTheDescriptionMakesAClient(t *testing.T) {
	if exec.Command("perl", "-MOpenAPI::Client", "-e", "1").Run() != nil {
		t.Skip("skipped: libopenapi-client-perl is not there")
	}
	s := open(t)
	s.put("de", `de{a{"A"} menu{open{"O"}}}`)
	spoiled := fileOf(t, strings.Replace(described.text, `"parameters":`, `"answers":1,"parameters":`, 1))
	if text, err := exec.Command("perl", "testdata/client.pl", spoiled).CombinedOutput(); err == nil || !strings.Contains(string(text), "Properties not allowed: answers") {
		t.Errorf("a description with an unknown member: %v %s", err, text)
	}
	text, err := exec.Command("perl", "testdata/client.pl", s.URL+"/openapi.json", s.URL, shopWrites).CombinedOutput()
	const want = "list look put remove history release restore erase getTxt\nA\nO\n1\n400\nde{a{\"A\"} menu{open{\"O\"}}}\n"
	errorIf(t, err != nil || string(text) != want, "%v\n%s", err, text)
}

// TestAGeneratedClient makes a client of the description by the rules of OpenAPI alone, which escape the slashes of a path, and calls each
// operation.
func TestAGeneratedClient(t *testing.T) {
	const clientsToken = "shop-client-0123456789"
	s := granting(t, harness.TokenLine("shop", "write,own", clientsToken))
	if text, err := client(t, "python3", "testdata/client.py", s.URL, clientsToken); err != nil || text != "are not called\n" {
		t.Errorf("%v\n%s", err, text)
	}
}
