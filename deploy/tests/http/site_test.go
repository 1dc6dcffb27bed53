// Package http tests a gateway over HTTP, as callers see it.
package http

import (
	"encoding/json"
	"fmt"
	"net"
	"net/http"
	"os"
	"regexp"
	"sort"
	"strconv"
	"strings"
	"sync"
	"syscall"
	"testing"
	"time"

	"github.com/prometheus/common/expfmt"

	"luvdregan.example/resb/deploy/tests/harness"
)

const (
	shopWrites = harness.ShopWrites
	shopReads  = harness.ShopReads
	bankWrites = harness.BankWrites
	bothRead   = harness.BothRead
	appsWrite  = harness.AppsWrite
	yes        = "{\"ok\":true}\n"
	asTar      = "application/x-tar"
	asZip      = "application/zip"
	asLines    = "application/x-ndjson"
	asPatch    = "application/merge-patch+json"
	generous   = harness.Generous
)

var (
	eventually = harness.Eventually
	must       = harness.Must
	errorIf    = harness.ErrorIf
	equal      = harness.Equal
)

// A site is a gateway that a test asks.
type site struct {
	*harness.Gateway
	t *testing.T
}

// open starts a gateway with options, and waits until it is ready.
func open(t *testing.T, options ...string) *site {
	t.Helper()
	return &site{harness.Open(t, harness.Setup{Options: options}), t}
}

// beside starts a gateway with options while other tests run.
func beside(t *testing.T, options ...string) *site {
	t.Helper()
	t.Parallel()
	return open(t, options...)
}

// prepare returns a gateway that isn't started.
func prepare(t *testing.T, options ...string) *site {
	t.Helper()
	return &site{harness.New(t, harness.Setup{Options: options}), t}
}

// leave ends the gateway by SIGTERM, which must succeed.
func (s *site) leave() {
	s.t.Helper()
	s.Signal(syscall.SIGTERM)
	equal(s.t, s.Wait(), 0, "status")
}

// ask sends a request, with headers in pairs. What is answered must be described.
func (s *site) ask(method, path, token, body string, headers ...string) harness.Answer {
	s.t.Helper()
	got := s.Ask(method, path, token, body, headers...)
	s.describes(method, path, got.Status)
	return got
}

// get reads an address of shop.
func (s *site) get(path string, headers ...string) harness.Answer {
	s.t.Helper()
	return s.ask("GET", path, shopReads, "", headers...)
}

// put installs a text, which must succeed.
func (s *site) put(locale, text string) harness.Answer {
	s.t.Helper()
	got := s.ask("PUT", "/v1/shop/"+locale+".txt", shopWrites, text)
	if got.Status != 200 && got.Status != 201 {
		s.t.Fatalf("%s: %d %s", locale, got.Status, got.Body)
	}
	return got
}

// is fails unless a lookup of shop finds a value.
func (s *site) is(path, value string) {
	s.t.Helper()
	if got := s.get("/v1/shop/" + path); got.Status != 200 || got.Value() != value {
		s.t.Errorf("%s: %d %.200s, and not %.200q", path, got.Status, got.Body, value)
	}
}

// has fails unless an address of shop has a body.
func (s *site) has(path, body string) {
	s.t.Helper()
	if got := s.get("/v1/shop" + path); got.Status != 200 || got.Body != body {
		s.t.Errorf("%s: %d %.200q, and not %.200q", path, got.Status, got.Body, body)
	}
}

// names fails unless shop has these bundles, in this order.
func (s *site) names(names ...string) {
	s.t.Helper()
	text, _ := json.Marshal(map[string][]string{"names": append([]string{}, names...)})
	s.has("", string(text)+"\n")
}

// A step is a request and what must come back.
type step struct {
	do      string // a token, a method and a path: w and r write and read shop, o owns it, b writes bank, both reads both, a writes app.*, - is none
	headers string // Name: value | ..
	body    string
	status  int
	want    string // =body, !error code, ~expression, or a part of the body; "" is anything
	reply   string // Name: value | .. of the reply; Name is there, -Name isn't, Name~part has the part, Name>x is stored for {x}, body>x the body, .name>x its member
}

var tokens = map[string]string{"w": shopWrites, "r": shopReads, "b": bankWrites, "both": bothRead, "a": appsWrite, "o": shopOwner, "-": ""}

// script plays a section of testdata/steps, where {name} stands for the text after name.
func (s *site) script(section string, pairs ...string) {
	s.t.Helper()
	for i := 0; i < len(pairs); i += 2 {
		pairs[i] = "{" + pairs[i] + "}"
	}
	(&scene{site: s, given: pairs}).play("steps", section)
}

// sectionOf returns the lines of a section of a file in testdata, without those that begin with #.
func sectionOf(t *testing.T, file, section string) (lines []string) {
	t.Helper()
	content, err := os.ReadFile("testdata/" + file)
	_, text, found := strings.Cut(string(content), "\n-- "+section+" --\n")
	if !found {
		t.Fatalf("%s has no section %s: %v", file, section, err)
	}
	text, _, _ = strings.Cut(text, "\n-- ")
	for _, line := range strings.Split(text, "\n") {
		if line != "" && line[0] != '#' {
			lines = append(lines, line)
		}
	}
	return lines
}

// add adds what a line of testdata/steps says.
func (one *step) add(kind string, status int, text string) {
	switch kind {
	case ">":
		one.headers = strings.TrimPrefix(one.headers+" | "+text, " | ")
	case "<":
		one.reply = strings.TrimPrefix(one.reply+" | "+text, " | ")
	case "+":
		one.body = unescaped(text)
	default:
		plain := strings.TrimLeft(text, "=!~")
		one.status, one.want = status, text[:len(text)-len(plain)]+unescaped(plain)
	}
}

// unescaped returns a text of testdata as it is meant: a string of Go after $, or with `\n` and `\r`.
func unescaped(text string) string {
	if quoted, err := strconv.Unquote(strings.TrimPrefix(text, "$")); err == nil && text[0] == '$' {
		return quoted
	}
	return strings.NewReplacer(`\n`, "\n", `\r`, "\r").Replace(text)
}

// run makes steps, one after the other.
func (s *site) run(steps ...step) {
	s.t.Helper()
	(&scene{site: s}).perform(steps)
}

// perform makes steps, and stores what is asked for of replies.
func (c *scene) perform(steps []step) {
	c.t.Helper()
	for n, one := range steps {
		words := strings.SplitN(c.fill(one.do), " ", 3)
		var headers []string
		for _, h := range strings.Split(c.fill(one.headers), " | ") {
			if name, value, found := strings.Cut(h, ": "); found {
				headers = append(headers, name, value)
			}
		}
		token, known := tokens[words[0]]
		if !known {
			token = words[0]
		}
		got := c.ask(words[1], words[2], token, c.fill(one.body), headers...)
		what := fmt.Sprintf("%d: %s [%s] %.60q", n, one.do, one.headers, one.body)
		errorIf(c.t, got.Status != one.status || !wanted(c.fill(one.want), got),
			"%s: %d %.300s, and not %d %.300s", what, got.Status, got.Body, one.status, one.want)
		for _, spec := range strings.Split(c.fill(one.reply), " | ") {
			name, variable, isStored := strings.Cut(spec, ">")
			if !isStored {
				errorIf(c.t, !headed(spec, got.Header), "%s: no %q in %v", what, spec, got.Header)
				continue
			}
			value := got.Header.Get(name)
			if name == "body" {
				value = got.Body
			} else if name[0] == '.' {
				var reply map[string]any
				_ = json.Unmarshal([]byte(got.Body), &reply)
				value = fmt.Sprint(reply[name[1:]])
			}
			errorIf(c.t, value == "", "%s: no %s in %v %s", what, name, got.Header, got.Body)
			c.store(variable, value)
		}
	}
}

// wanted returns true if a body is as it should be.
func wanted(want string, got harness.Answer) bool {
	switch {
	case strings.HasPrefix(want, "="):
		return got.Body == want[1:]
	case strings.HasPrefix(want, "!"):
		return got.Error() == want[1:]
	}
	if pattern := strings.TrimPrefix(want, "~"); pattern != want {
		return regexp.MustCompile(pattern).MatchString(got.Body)
	}
	return strings.Contains(got.Body, want)
}

// headed returns true if a header is as it should be.
func headed(spec string, h http.Header) bool {
	name, value, exact := strings.Cut(spec, ": ")
	part, has, some := strings.Cut(spec, "~")
	switch {
	case spec == "":
		return true
	case exact:
		return strings.Join(h.Values(name), ", ") == value
	case some:
		return strings.Contains(strings.Join(h.Values(part), ", "), has)
	case strings.HasPrefix(spec, "-"):
		return h.Values(spec[1:]) == nil
	}
	return h.Get(spec) != ""
}

// described has what openapi.json says of each address and method, and expressions for the addresses,
// the longest first.
var described struct {
	sync.Once
	text     string
	paths    map[string]map[string]json.RawMessage
	patterns []*regexp.Regexp
	of       map[*regexp.Regexp]string
}

// describe reads openapi.json.
func (s *site) describe() {
	d := &described
	d.Do(func() {
		d.text = s.Ask("GET", "/openapi.json", "", "").Body
		var page struct {
			Paths map[string]map[string]json.RawMessage
		}
		must(s.t, json.Unmarshal([]byte(d.text), &page))
		d.paths, d.of = page.Paths, map[*regexp.Regexp]string{}
		for path := range d.paths {
			text := strings.NewReplacer(`\{path\}`, ".*", `\{locale\}`, "(?:[^/_][^/]*|)").Replace(regexp.QuoteMeta(path))
			one := regexp.MustCompile("^" + regexp.MustCompile(`\\{[a-z]+\\}`).ReplaceAllString(text, "[^/]*") + "$")
			d.patterns, d.of[one] = append(d.patterns, one), path
		}
		literal := func(i int) int {
			return len(strings.NewReplacer("(?:[^/_][^/]*|)", "", "[^/]*", "", ".*", "").Replace(d.patterns[i].String()))
		}
		sort.SliceStable(d.patterns, func(i, j int) bool { return literal(i) > literal(j) })
	})
}

// describes fails where openapi.json doesn't have a status that a request had.
func (s *site) describes(method, path string, status int) {
	s.t.Helper()
	s.describe()
	path, _, _ = strings.Cut(path, "?")
	method = strings.ToLower(strings.Replace(method, "HEAD", "GET", 1))
	for _, one := range described.patterns {
		of := described.paths[described.of[one]][method]
		if of == nil || !one.MatchString(path) {
			continue
		}
		var at struct{ Responses map[string]json.RawMessage }
		if err := json.Unmarshal(of, &at); err != nil || at.Responses[fmt.Sprint(status)] == nil {
			s.t.Errorf("openapi.json has no status %d of %s %s (%s): %v", status, method, path, described.of[one], err)
		}
		return
	}
	errorIf(s.t, status < 400 && method != "options",
		"openapi.json has no %s %s, which is answered %d", method, path, status)
}

// raw sends bytes over a separate connection, and returns the whole response.
func (s *site) raw(bytes string) string {
	s.t.Helper()
	text, err := harness.Exchange(s.Address, bytes, true)
	if err != nil && text == "" {
		s.t.Logf("%.60q: %v", bytes, err)
	}
	return text
}

// dial opens a connection.
func (s *site) dial() net.Conn {
	s.t.Helper()
	c, err := net.Dial("tcp", s.Address)
	must(s.t, err)
	s.t.Cleanup(func() { _ = c.Close() })
	_ = c.SetDeadline(time.Now().Add(harness.Generous))
	return c
}

// begins returns the beginning of a request, which is written as in a step.
func begins(do, rest string) string {
	words := strings.SplitN(do, " ", 3)
	if token := tokens[words[0]]; token != "" {
		rest = "Authorization: Bearer " + token + "\r\n" + rest
	}
	return words[1] + " " + words[2] + " HTTP/1.1\r\nHost: x\r\n" + rest
}

// statusOfText returns the first status of some responses.
func statusOfText(text string) string {
	words := strings.Fields(text)
	if len(words) < 2 {
		return ""
	}
	return words[1]
}

// measured reads the metrics, which Prometheus must be able to read.
func (s *site) measured() map[string]float64 {
	s.t.Helper()
	got, err := harness.Send(harness.Client, "GET", s.Inside+"/metrics", "", "")
	if err == nil {
		_, err = new(expfmt.TextParser).TextToMetricFamilies(strings.NewReader(got.Body))
	}
	if err != nil || got.Status != 200 || !strings.HasPrefix(got.Header.Get("Content-Type"), "text/plain; version=0.0.4") {
		s.t.Fatalf("%v %d %v", err, got.Status, got.Header)
	}
	values := map[string]float64{}
	for _, line := range strings.Split(got.Body, "\n") {
		if at := strings.LastIndexByte(line, ' '); at > 0 && line[0] != '#' {
			values[line[:at]], _ = strconv.ParseFloat(line[at+1:], 64)
		}
	}
	return values
}

// awaitMetric waits until a measure is as a condition wants.
func (s *site) awaitMetric(name string, is func(float64) bool) {
	s.t.Helper()
	harness.Eventually(s.t, name, func() bool { return is(s.measured()[name]) })
}

// rest waits until no request is left.
func (s *site) rest() {
	s.t.Helper()
	s.awaitMetric("resb_requests_now", func(n float64) bool { return n == 0 })
	s.awaitMetric("resb_body_bytes_now", func(n float64) bool { return n == 0 })
}
