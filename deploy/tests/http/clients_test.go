package http

import (
	"context"
	"fmt"
	"io"
	"net/http"
	"net/http/httptest"
	"os"
	"os/exec"
	"path/filepath"
	"strconv"
	"strings"
	"testing"

	"luvdregan.example/resb/deploy/tests/harness"
)

const clients = "../../../examples/clients/"

// client runs a program of a language, where the language is there.
func client(t *testing.T, language string, arguments ...string) (string, error) {
	t.Helper()
	return clientOf(t, shopWrites, language, arguments...)
}

// clientOf runs a program with a token.
func clientOf(t *testing.T, token, language string, arguments ...string) (string, error) {
	t.Helper()
	path, err := exec.LookPath(language)
	if err != nil {
		t.Skipf("skipped: %s is not there", language)
	}
	ctx, cancel := context.WithTimeout(context.Background(), generous)
	defer cancel()
	command := exec.CommandContext(ctx, path, arguments...)
	command.Env = append(os.Environ(), "PYTHONIOENCODING=utf-8", "PYTHONDONTWRITEBYTECODE=1", "RESB_TOKEN="+token)
	text, err := command.CombinedOutput()
	return string(text), err
}

// TestClients runs the clients of examples/clients that speak HTTP; the first request of each comes after
// a start. A client removes only what it installed.
func TestClients(t *testing.T) {
	s := open(t)
	for language, file := range map[string]string{"python3": "over_http.py", "node": "over_http.mjs"} {
		t.Run(file, func(t *testing.T) {
			its := &site{s.Gateway, t}
			s.Restart()
			text, err := client(t, language, clients+file, s.URL, "shop", shopWrites)
			want := `de de_AT
menu/open Öffnen
menu/close Zumachen
menu/none None
Öffnen
Öffnen Schließen NoBundle
400 BadText in line 1
412 PreconditionFailed
True
None
`
			if got := strings.ReplaceAll(text, "null", "None"); err != nil || got != want {
				t.Errorf("%v\n%s", err, text)
			}
			its.names()
			its.put("de_AT", `de_AT{mine{"M"}}`)
			if text, err := client(t, language, clients+file, s.URL, "shop", shopWrites); err == nil || !strings.Contains(text, "shop already has a bundle") {
				t.Errorf("%v\n%s", err, text)
			}
			its.names("de_AT") // it removed what it installed, and nothing else
			its.ask("DELETE", "/v1/shop/de_AT", shopWrites, "")
		})
	}
}

// TestTheClientsPatch a bundle, and return the tree that it makes.
func TestTheClientsPatch(t *testing.T) {
	for language, script := range map[string]string{"python3": "patch.py", "node": "patch.mjs"} {
		t.Run(language, func(t *testing.T) {
			text, err := client(t, language, "testdata/"+script, open(t).URL, shopWrites)
			if want := "{'a': 'D', 'b': 'B'} D True\n412 PreconditionFailed\n"; err != nil || text != want {
				t.Errorf("%v\n%s", err, text)
			}
		})
	}
}

// TestTheClientSendsLanguages in the place of a locale, and takes a release back by its id.
func TestTheClientSendsLanguages(t *testing.T) {
	text, err := client(t, "python3", "testdata/languages.py", beside(t).URL, shopWrites)
	errorIf(t, err != nil || text != "de\nfr\nde\nroot\n1 []\n404 NoVersion\n", "%v\n%s", err, text)
}

// TestTheClientsGiveUp has the clients refused for the rest of the day, and by a proxy, which sends no
// JSON: they say so at once.
func TestTheClientsGiveUp(t *testing.T) {
	folder := t.TempDir()
	must(t, os.WriteFile(folder+"/de.txt", []byte("de{}"), 0o600))
	for status, body := range map[int]string{429: "{\"error\":\"OverRate\"}\n", 502: "<html></html>"} {
		to := httptest.NewServer(http.HandlerFunc(func(w http.ResponseWriter, r *http.Request) {
			w.Header().Set("Retry-After", "40000")
			w.WriteHeader(status)
			_, _ = w.Write([]byte(body))
		}))
		defer to.Close()
		for _, arguments := range [][]string{{"python3", "over_http.py", to.URL, "shop", shopWrites}, {"node", "over_http.mjs", to.URL, "shop", shopWrites},
			{"python3", "resb-put", folder, to.URL + "/v1/shop"}} {
			t.Run(arguments[1], func(t *testing.T) {
				text, err := client(t, arguments[0], append([]string{clients + arguments[1]}, arguments[2:]...)...)
				errorIf(t, err == nil || !strings.Contains(text, strconv.Itoa(status)),
					"%v\n%s", err, text)
			})
		}
	}
}

// TestTheClientsLoseAnswers has each change made, and the first answer to it lost: the clients ask again, and see no conflict.
func TestTheClientsLoseAnswers(t *testing.T) {
	s := beside(t)
	for language, script := range map[string]string{"python3": "lost.py", "node": "lost.mjs"} {
		seen := map[string]bool{}
		proxy := httptest.NewServer(http.HandlerFunc(func(w http.ResponseWriter, r *http.Request) {
			body, _ := io.ReadAll(r.Body)
			var headers []string
			for _, name := range []string{"Authorization", "Content-Type", "If-Match", "If-None-Match"} {
				headers = append(headers, name, r.Header.Get(name))
			}
			got, err := harness.Send(harness.Client, r.Method, s.URL+r.URL.RequestURI(), "", string(body), headers...)
			what := r.Method + r.Header.Get("If-Match")
			if lost := err != nil || r.Method != "GET" && !seen[what]; lost {
				seen[what] = true
				panic(http.ErrAbortHandler)
			}
			w.Header().Set("ETag", got.Tag())
			w.WriteHeader(got.Status)
			_, _ = io.WriteString(w, got.Body)
		}))
		text, err := client(t, language, "testdata/"+script, proxy.URL, shopWrites)
		proxy.Close()
		errorIf(t, err != nil || text != "C\n0\n" || len(seen) != 4, "%s: %v %s %v", script, err, text, seen)
	}
	equal(t, len(s.past("")), 8, "changes")
}

// TestALargeBodyGetsItsAnswer through each client, also those that read it only once they have sent the whole body.
func TestALargeBodyGetsItsAnswer(t *testing.T) {
	s := beside(t)
	const path = "/v1/shop/de.txt"
	long := strings.Repeat("x", 24<<20)
	file := fileOf(t, long)
	for token, want := range map[string]string{shopWrites: "413", "nobody-0123456789-0123456789": "401"} {
		is := func(what, got string, err error) {
			t.Helper()
			others := strings.Trim(strings.ReplaceAll(got, want, ""), "\n")
			errorIf(t, err != nil || got == "" || others != "", "%s: %v %s, and not %s", what, err, got, want)
		}
		got, err := harness.Send(harness.Client, "PUT", s.URL+path, token, long)
		is("Go", fmt.Sprint(got.Status), err)
		chunked, _ := http.NewRequest("PUT", s.URL+path, io.MultiReader(strings.NewReader(long)))
		chunked.Header.Set("Authorization", "Bearer "+token)
		answer, err := http.DefaultClient.Do(chunked)
		if err == nil {
			got.Status = answer.StatusCode
			_ = answer.Body.Close()
		}
		is("Go, chunked", fmt.Sprint(got.Status), err)
		for what, arguments := range map[string][]string{"python3": {"testdata/large.py"}, "node": {"testdata/large.mjs"}} {
			text, err := client(t, what, append(arguments, s.Address, path, token, file)...)
			is(what, text, err)
		}
		for _, expect := range []string{"Expect:", "Expect: 100-continue"} {
			text, err := client(t, "curl", "-s", "-o", "/dev/null", "-w", "%{http_code}", "-H", expect, "-H", "Authorization: Bearer "+token, "-T", file, s.URL+path)
			is("curl "+expect, text, err)
		}
	}
	s.rest()
}

// A folder is one of bundles, beside a gateway.
type folder struct {
	*site
	path string
}

// run runs resb-put or resb-get with options, which must end with a status and print some texts.
func (f *folder) run(status int, words string, texts ...string) {
	f.t.Helper()
	arguments := append(strings.Fields(clients+words), f.path, f.URL+"/v1/shop")
	text, err := client(f.t, "python3", arguments...)
	got := 0
	if err != nil {
		got = err.(*exec.ExitError).ExitCode()
	}
	for _, want := range texts {
		errorIf(f.t, !strings.Contains(text, want), "%s: no %q in %s", words, want, text)
	}
	errorIf(f.t, got != status || len(texts) == 0 && text != "", "%s: status %d, and not %d: %s", words, got, status, text)
}

// file fails unless a file of the folder has a text; "" is none.
func (f *folder) file(name, want string) {
	f.t.Helper()
	content, _ := os.ReadFile(filepath.Join(f.path, name))
	equal(f.t, string(content), want, name)
}

func (f *folder) write(name, text string) {
	f.t.Helper()
	must(f.t, os.WriteFile(filepath.Join(f.path, name), []byte(text), 0o600))
}

// TestGitMergesBothSides by the commands that resb-put and resb-get print.
func TestGitMergesBothSides(t *testing.T) {
	t.Run("resb-put", func(t *testing.T) { mergeAfter(t, "resb-put") })
	t.Run("resb-get", func(t *testing.T) { mergeAfter(t, "resb-get") })
}

func mergeAfter(t *testing.T, program string) {
	f := &folder{beside(t), filepath.Join(t.TempDir(), "a folder")}
	must(t, os.Mkdir(f.path, 0o700))
	programs, err := filepath.Abs(clients)
	must(t, err)
	run := func(script string) {
		t.Helper()
		text, err := client(t, "env", "PATH="+programs+":"+os.Getenv("PATH"), "HOME="+f.path, "sh", "-ec", script)
		errorIf(t, err != nil, "%v: %s", err, text)
	}
	if _, err := exec.LookPath("git"); err != nil {
		t.Skip("skipped: git is not there")
	}
	text := "de{\n a{\"A\"}\n b{\"B\"}\n c{\"C\"}\n d{\"D\"}\n}\n"
	f.write("de.txt", text)
	f.run(0, "resb-put", "sent 1 of 1")
	run("cd '" + f.path + "'; git init -q; git config user.email a@b.example; git config user.name A; git add .; git commit -qm A")
	f.put("de", strings.Replace(text, "A", "T", 1))
	f.put("it", "it{}")
	f.write("de.txt", strings.Replace(text, "D", "F", 1))
	printed, _ := client(t, "python3", clients+program, f.path, f.URL+"/v1/shop")
	_, commands, _ := strings.Cut(printed, ":\n  (")
	run("(" + commands)
	f.file("de.txt", strings.NewReplacer("A", "T", "D", "F").Replace(text))
	f.run(0, "resb-put", "sent 1 of 2")
	f.is("de/a", "T")
	f.is("de/d", "F")
}

// TestAFolderIsWatched brings each change into a folder until the program is ended.
func TestAFolderIsWatched(t *testing.T) {
	f := &folder{beside(t), t.TempDir()}
	f.put("de", "de{}")
	ctx, cancel := context.WithCancel(context.Background())
	defer cancel()
	watcher := exec.CommandContext(ctx, "python3", clients+"resb-get", "--watch", f.path, f.URL+"/v1/shop")
	watcher.Env = append(os.Environ(), "PYTHONDONTWRITEBYTECODE=1", "RESB_TOKEN="+shopReads)
	if watcher.Start() != nil {
		t.Skip("skipped: python3 is not there")
	}
	for _, text := range []string{"de{}", `de{a{"A"}}`, `de{a{"B"}}`} {
		f.put("de", text)
		eventually(t, "the file has "+text, func() bool {
			content, _ := os.ReadFile(filepath.Join(f.path, "de.txt"))
			return string(content) == text
		})
	}
	cancel()
	_ = watcher.Wait()
}
