package http

import (
	"bytes"
	"encoding/json"
	"fmt"
	"os"
	"path/filepath"
	"sort"
	"strings"
	"syscall"
	"testing"
	"time"

	"luvdregan.example/resb/deploy/tests/harness"
)

// A past is a change in the reply to a request for the history.
type past struct {
	ID, Bytes, Revision       int
	Locale, Op, Token, SHA256 string
	Kept                      bool
	At                        time.Time
}

func (s *site) past(query string) []past {
	s.t.Helper()
	got := s.ask("GET", "/v1/shop/_history"+query, shopWrites, "")
	var reply struct{ History []past }
	if err := json.Unmarshal([]byte(got.Body), &reply); err != nil || got.Status != 200 {
		s.t.Fatalf("%v: %d %s", err, got.Status, got.Body)
	}
	return reply.History
}

// TestTheHistory has each change with the token's name, and earlier versions come back.
func TestTheHistory(t *testing.T) {
	s := beside(t)
	made := strings.TrimSpace(command(t, 0, "", "token", "add", "-tokens", s.Tokens, "-name", "translator", "shop", "write"))
	eventually(t, "the token is known", func() bool { return s.ask("GET", "/v1/shop", made, "").Status == 200 })
	began := time.Now().Truncate(time.Millisecond)
	s.ask("PUT", "/v1/shop/de.txt", made, `de{a{"A"}}`)
	s.ask("PUT", "/v1/bank/de.txt", bankWrites, `de{a{"Z"}}`)
	s.put("de", `de{a{"B"}}`)
	s.put("fr", `fr{a{"F"}}`)
	s.ask("DELETE", "/v1/shop/de", shopWrites, "")
	all := s.past("")
	if len(all) != 4 || all[3].Token != "translator" || all[3].Op != "install" || all[3].Bytes != 10 || all[2].Op != "replace" || all[0].Op != "remove" ||
		all[1].Locale != "fr" || len(all[1].SHA256) != 64 || len(all[2].Token) != 8 || !all[3].Kept {
		t.Fatalf("%+v", all)
	}
	for i, later := 0, time.Now(); i < len(all); i++ {
		errorIf(t, all[i].Revision != 4-i || all[i].At.After(later) || all[i].At.Before(began),
			"%+v after %v", all[i], later)
		later = all[i].At
	}
	if some := s.past("?locale=DE&last=1&before=" + fmt.Sprint(all[0].ID)); len(some) != 1 || some[0].ID != all[2].ID {
		t.Errorf("%+v", some)
	}
	first, removal := fmt.Sprint(all[3].ID), fmt.Sprint(all[0].ID)
	s.script("TheHistory", "first", first, "removal", removal, "other", fmt.Sprint(all[1].ID))
	for i := 0; i < 103; i++ {
		s.put("it", fmt.Sprintf(`it{a{"%d"}}`, i))
	}
	if len(s.past("")) != 100 || len(s.past("?last=103&locale=it")) != 103 || len(s.past("?last=0")) != 0 || len(s.past("?last=1000")) != 109 {
		t.Errorf("%d", len(s.past("?last=1000")))
	}
	before := s.past("?last=1000")
	if s.Restart(); fmt.Sprint(s.past("?last=1000")) != fmt.Sprint(before) {
		t.Error("the history is another one after a start")
	}
}

// filesWith returns the files of the state that have a text.
func (s *site) filesWith(text string) (all []string) {
	_ = filepath.Walk(s.State, func(path string, _ os.FileInfo, _ error) error {
		if content, err := os.ReadFile(path); err == nil && bytes.Contains(content, []byte(text)) {
			all = append(all, path)
		}
		return nil
	})
	return all
}

// patch sends a merge patch.
func (s *site) patch(path, body string, headers ...string) harness.Answer {
	s.t.Helper()
	return s.ask("PATCH", path, shopWrites, body, append([]string{"Content-Type", asPatch}, headers...)...)
}

// TestPatchesAtOnce has 8 callers patch a key each at the same time, five times: no patch is lost.
func TestPatchesAtOnce(t *testing.T) {
	s := beside(t)
	s.put("de", `de{a{"A"}}`)
	const writers, rounds = 8, 5
	harness.Together(writers, func(w int) {
		for i := 1; i <= rounds; {
			got, err := harness.Send(harness.Client, "PATCH", s.URL+"/v1/shop/de", shopWrites, fmt.Sprintf(`{"w%c":"%d"}`, 'a'+w, i), "Content-Type", asPatch)
			switch {
			case err == nil && got.Status == 200:
				i++
			case err != nil || got.Status != 503 && got.Status != 504: // too many others changed it
				t.Error(err, got.Status, got.Body)
				return
			}
		}
	})
	want := `{"a":"A"`
	for w := 0; w < writers; w++ {
		want += fmt.Sprintf(`,"w%c":"%d"`, 'a'+w, rounds)
	}
	s.has("/de.json", want+"}\n")
	equal(t, len(s.past("")), 1+writers*rounds, "versions")
}

// journal reads the lines of a log that are about an application. None may have a token.
func journal(t *testing.T, path string) (all []map[string]any) {
	t.Helper()
	content, err := os.ReadFile(path)
	must(t, err)
	for _, line := range strings.SplitAfter(string(content), "\n") {
		var value map[string]any
		if err := json.Unmarshal([]byte(line), &value); err != nil && strings.HasSuffix(line, "\n") {
			t.Errorf("%v: %s", err, line)
		}
		if value["app"] != nil {
			all = append(all, value)
		}
	}
	for _, token := range []string{shopWrites, shopReads, "nobody"} {
		errorIf(t, bytes.Contains(content, []byte(token)), "%s has a token", path)
	}
	return all
}

// TestEachRefusedChange has a line in the audit log for each kind of refusal, with the error code and the caller behind a proxy.
func TestEachRefusedChange(t *testing.T) {
	t.Parallel()
	audit := filepath.Join(t.TempDir(), "audit")
	s := open(t, "-audit-log", audit, "-proxies", "127.0.0.1", "-text-bytes", "2000", "-app-bytes", "3000", "-apps", "2", "-rate", "100", "-patience", "3s")
	s.put("de", `de{a{"A"}}`)
	other := s.put("de", `de{a{"B"}}`).Tag()
	noise := `x{a{"` + harness.Noise(1600) + `"}}`
	all := []struct{ do, headers, body, action, code string }{
		{"- PUT /v1/shop/de.txt", "", "de{}", "put", "Unauthorized"}, {"r PUT /v1/shop/de.txt", "", "de{}", "put", "Forbidden"},
		{"b DELETE /v1/shop/de", "", "", "remove", "Forbidden"}, {"r DELETE /v1/shop?erase", "", "", "erase", "Forbidden"},
		{"w DELETE /v1/shop", "", "", "erase", "BadQuery"}, {"w DELETE /v1/shop?erase=no", "", "", "erase", "BadQuery"},
		{"w PUT /v1/shop/de.txt?after=x", "", "de{}", "put", "BadRevision"}, {"w PUT /v1/shop/de.txt?%zz", "", "de{}", "put", "BadQuery"},
		{"w PUT /v1/shop/de.txt?after=99", "", "de{}", "put", "Behind"}, {"w PUT /v1/shop/a%20b.txt", "", "de{}", "put", "BadLocale"},
		{"w PUT /v1/shop/de", "Content-Type: text/html", "de{}", "put", "BadType"}, {"w PUT /v1/shop/de.txt", "Content-Encoding: gzip", "de{}", "put", "BadType"},
		{"w PUT /v1/shop/de.txt", "Content-Range: bytes 0-1/2", "de{}", "put", "BadLength"}, {"w PUT /v1/shop/de.txt", "", "\xff", "put", "BadText"},
		{"w PUT /v1/shop/de.res", "", "de{}", "put", "BadFile"}, {"w PUT /v1/shop/fr.txt?strict", "", "de{}", "put", "OtherName"},
		{"w PUT /v1/shop/de.txt", "", noise + noise, "put", "TooLarge"}, {"w PUT /v1/shop/de.txt", "", noise, "put", "OverQuota"},
		{"w PUT /v1/shop/de.txt", "If-Match: \"x\"", "de{}", "put", "PreconditionFailed"}, {"w POST /v1/shop/de.txt", "", "de{}", "install", "Exists"},
		{"w POST /v1/shop/de.txt", "If-Match: " + other, "de{}", "install", "Exists"}, {"w DELETE /v1/shop/fr", "", "", "remove", "Absent"},
		{"w DELETE /v1/shop/de", "If-Match: \"x\"", "", "remove", "PreconditionFailed"}, {"w PATCH /v1/shop/de", "Content-Type: " + asPatch, "[", "patch", "BadPatch"},
		{"w PATCH /v1/shop/de", "", "{}", "patch", "BadType"}, {"w PATCH /v1/shop/fr", "Content-Type: " + asPatch, "{}", "patch", "Absent"},
		{"w POST /v1/shop/_releases", "Content-Type: " + asLines, "{", "release", "BadRelease"}, {"w POST /v1/shop/_releases", "", "{}", "release", "BadType"},
		{"w POST /v1/shop/_history/99/restore", "", "", "restore", "NoVersion"}, {"w PUT /v1/shop/_history/1", "", "", "put", "NotAllowed"},
		{"w PUT /v1/shop", "", "", "put", "NotAllowed"}, {"w PUT /v1/shop/de/a", "", "", "put", "NotAllowed"}, {"w PATCH /v1/shop/_none/x/y", "", "", "patch", "NotFound"},
		{"w DELETE /v1/shop/a%2Fb", "", "", "delete", "BadPath"}, {"w DELETE /v1/shop/%2E%2E", "", "", "delete", "BadPath"}, {"w DELETE /v1/shop//a", "", "", "delete", "BadPath"},
	}
	const before = 2
	eventually(t, "both changes are logged", func() bool { return len(journal(t, audit)) == before })
	var want, got []string // a request of another connection may be logged first
	for _, one := range all {
		words := strings.SplitN(one.do, " ", 3)
		headers := []string{"X-Forwarded-For", "203.0.113.9"}
		if name, value, is := strings.Cut(one.headers, ": "); is {
			headers = append(headers, name, value)
		}
		answer := s.Ask(words[1], words[2], tokens[words[0]], one.body, headers...)
		errorIf(t, answer.Error() != one.code, "%s: %d %s, and not %s", one.do, answer.Status, answer.Body, one.code)
		want = append(want, "203.0.113.9 "+one.action+" "+one.code)
	}
	eventually(t, "all are logged", func() bool { return len(journal(t, audit)) >= before+len(all) })
	for _, line := range journal(t, audit)[before:] {
		got = append(got, fmt.Sprint(line["from"], " ", line["action"], " ", line["result"]))
	}
	var locales, notes []string
	for _, line := range journal(t, audit) {
		if line["result"] == "Unauthorized" || line["result"] == "Forbidden" {
			locales = append(locales, fmt.Sprint(line["locale"]))
		}
		if line["note"] != nil {
			notes = append(notes, fmt.Sprint(line["note"]))
		}
	}
	sort.Strings(locales)
	equal(t, [][]string{locales, notes}, [][]string{{"<nil>", "de", "de", "de"}, {"no"}})
	sort.Strings(want)
	sort.Strings(got)
	equal(t, strings.Join(got, "\n"), strings.Join(want, "\n"))
	s.is("de/a", "B")
}

// TestLogs has a line of JSON for each request and each change that was asked for, whatever callers send, and no token in any.
func TestLogs(t *testing.T) {
	t.Parallel()
	folder := t.TempDir()
	access, audit := filepath.Join(folder, "access"), filepath.Join(folder, "audit")
	s := open(t, "-access-log", access, "-audit-log", audit, "-proxies", "127.0.0.0/8")
	s.script("Logs", "token", shopWrites)
	s.get("/v1/shop/%22%0a%ff")
	s.ask("GET", "/v1/shop/de", "nobody's token, which is long enough", "")
	eventually(t, "all requests are logged", func() bool { return len(journal(t, access)) == 5 })
	requests, changes := journal(t, access), journal(t, audit)
	if requests[0]["from"] != "192.0.2.7" || changes[0]["from"] != "192.0.2.7" || requests[1]["from"] != "127.0.0.1" {
		t.Errorf("from %v, %v and then %v", requests[0]["from"], changes[0]["from"], requests[1]["from"])
	}
	first := requests[0]
	if first["path"] != "/v1/shop/de.txt" || first["status"] != 201.0 || first["app"] != "shop" || len(fmt.Sprint(first["token"])) != 8 || first["method"] != "PUT" {
		t.Errorf("%v", first)
	}
	errorIf(t, requests[4]["token"] != nil || requests[4]["status"] != 401.0, "%v", requests[4])
	var results []any
	for _, one := range changes {
		results = append(results, one["app"], one["result"])
	}
	equal(t, results, []any{"shop", "ok", "shop", "BadText", "shop", "ok"})
	errorIf(t, changes[0]["sha256"] == nil || changes[0]["bytes"] != 10.0, "%v", changes[0])
	must(t, os.Rename(access, access+".1"))
	s.Signal(syscall.SIGHUP)
	eventually(t, "the log is opened again", func() bool {
		_, err := os.Stat(access)
		return err == nil
	})
	s.get("/v1/shop")
	eventually(t, "the new log has a line", func() bool { return len(journal(t, access)) == 1 })
}
