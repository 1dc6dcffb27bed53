package http

import (
	"encoding/json"
	"fmt"
	"os"
	"os/exec"
	"path/filepath"
	"regexp"
	"strconv"
	"strings"
	"testing"
	"time"

	"luvdregan.example/resb/deploy/tests/harness"
)

// TestTokensPart tries each token at each application, to read and to write.
func TestTokensPart(t *testing.T) {
	s := beside(t)
	const read, write = 1, 2
	for token, may := range map[string]map[string]int{
		shopWrites: {"shop": write}, shopReads: {"shop": read}, bankWrites: {"bank": write}, bothRead: {"shop": read, "bank": read},
		"": {}, "other": {}, shopWrites[:21]: {}, shopWrites + "x": {}, strings.Repeat("x", 5000): {},
	} {
		for _, app := range []string{"shop", "bank", "none", "SHOP", "ICUDATA", "a%00b", "%ff"} {
			for method, needed := range map[string]int{"GET": read, "HEAD": read, "PUT": write, "POST": write, "DELETE": write} {
				got := s.ask(method, "/v1/"+app+"/fr", token, "fr{}", "Content-Type", "text/plain")
				denied := got.Status == 401 || got.Status == 403
				errorIf(t, denied == (may[app] >= needed),
					"%q: %s %s: %d", token, method, app, got.Status)
				if denied && (got.Status == 401) != (len(may) == 0) || (got.Status == 401) != (got.Header.Get("WWW-Authenticate") != "") {
					t.Errorf("%q: %s %s: %d, %v", token, method, app, got.Status, got.Header)
				}
			}
		}
	}
	s.script("TokensPart", "token", shopReads)
	twice := s.raw("GET /v1/shop HTTP/1.1\r\nHost: x\r\nConnection: close\r\nAuthorization: Bearer " + shopReads + "\r\nAuthorization: Bearer " + shopReads + "\r\n\r\n")
	errorIf(t, statusOfText(twice) != "401", "%v", twice)
}

// TestTagsAndHeads has HEAD answer the header of GET at each kind of address, and conditions of GET hold.
func TestTagsAndHeads(t *testing.T) {
	s := beside(t)
	s.put("de", `de{a{"A"}}`)
	for path, kind := range map[string]string{"/v1/shop/de/a": "application/json", "/v1/shop": "application/json", "/v1/shop/de?tree": "application/json",
		"/v1/shop/de": "application/json", "/v1/shop/de.txt": "text/plain; charset=utf-8", "/v1/shop/de.json": "application/json",
		"/v1/shop/de.res": "application/octet-stream", "/openapi.json": "application/json", "/": "text/html; charset=utf-8",
		"/page/index.html": "text/html; charset=utf-8", "/page/page.css": "text/css; charset=utf-8", "/page/main.mjs": "text/javascript; charset=utf-8"} {
		first := s.get(path)
		tag := first.Tag()
		if len(tag) < 10 || !strings.Contains(first.Header.Get("Cache-Control"), "no-cache") || first.Header.Get("Content-Type") != kind {
			t.Errorf("%s: %v", path, first.Header)
		}
		for _, match := range []string{tag, "W/" + tag, `"x", ` + tag, "*"} {
			s.run(step{"r GET " + path, "If-None-Match: " + match, "", 304, "=", "ETag: " + tag})
		}
		s.run(step{"r GET " + path, `If-None-Match: "x"`, "", 200, "=" + first.Body, ""})
		head := s.ask("HEAD", path, shopReads, "")
		if head.Status != 200 || head.Body != "" || head.Length != int64(len(first.Body)) || head.Tag() != tag || head.Header.Get("Content-Type") != kind {
			t.Errorf("%s: %v", path, head.Header)
		}
	}
	s.script("TagsAndHeads")
}

func TestMethodsAndPages(t *testing.T) {
	s := beside(t)
	s.script("MethodsAndPages")
	for path, want := range map[string]int{"/metrics": 200, "/healthz": 200, "/readyz": 200, "/": 404, "/v1/shop": 404} {
		if got, err := harness.Send(harness.Client, "GET", s.Inside+path, "", ""); err != nil || got.Status != want {
			t.Errorf("inside %s: %v %d", path, err, got.Status)
		}
	}
}

func TestManyLookups(t *testing.T) {
	s := beside(t)
	s.put("de", `de{a{"A"} b{"B"}}`)
	s.script("ManyLookups")
	item := func(value string) string {
		return fmt.Sprintf(`{"actual":"de","type":"string","valid":"de","value":%q}`, value) + "\n"
	}
	var asked, replies strings.Builder
	for i := 0; i < 20000; i++ {
		fmt.Fprintf(&asked, "{\"path\":%q,\"locale\":\"de\"}\n", string(rune('a'+i%3)))
		replies.WriteString([]string{item("A"), item("B"), "{\"error\":\"Missing\"}\n"}[i%3])
	}
	if got := s.ask("POST", "/v1/shop/look", shopReads, asked.String()); got.Body != replies.String() {
		t.Errorf("%d bytes in the place of %d", len(got.Body), replies.Len())
	}
	// the beginnings of a line, and lines with each byte in a place: each has a reply, in order
	const line = `{"locale":"de","path":"a"}`
	var torn strings.Builder
	count := 0
	for cut := 0; cut < len(line); cut++ {
		torn.WriteString(line[:cut] + "\n")
		count++
	}
	for b := 0; b < 256; b++ {
		if one := string([]byte{byte(b)}); b != '\n' {
			torn.WriteString(`{"locale":"de","path":"a` + one + `b"}` + "\n" + one + line + "\n" + line + one + "\n")
			count += 3
		}
	}
	torn.WriteString(strings.Repeat("[", 100000) + "\n" + `{"locale":"de","path":"a","x":` + strings.Repeat("[", 500) + strings.Repeat("]", 500) + "}\n" + line)
	got := s.ask("POST", "/v1/shop/look", shopReads, torn.String())
	lines := strings.Split(strings.TrimSuffix(got.Body, "\n"), "\n")
	errorIf(t, got.Status != 200 || len(lines) != count+3 || lines[count+2]+"\n" != item("A"),
		"%d, %d replies to %d: %q", got.Status, len(lines), count+3, lines[len(lines)-1])
}

// TestRevisions follows the revision of an application through changes and reads. Another one's changes don't count.
func TestRevisions(t *testing.T) {
	s := beside(t, "-patience", "3s")
	s.script("Revisions")
	done := make(chan harness.Answer, 1)
	go func() { done <- s.get("/v1/shop/de/a?after=3") }()
	time.Sleep(50 * time.Millisecond)
	s.put("de", `de{a{"C"}}`)
	if got := <-done; got.Status != 200 || got.Revision() != 3 || got.Value() != "C" {
		t.Errorf("a waiter got %d %s", got.Status, got.Body)
	}
}

// TestRatesOfAnApplication end with 429, and others are answered.
func TestRatesOfAnApplication(t *testing.T) {
	s := beside(t, "-rate", "5")
	s.run(step{"r POST /v1/shop/look", "", strings.Repeat("{\"locale\":\"de\",\"path\":\"a\"}\n", 5000), 200, "", ""})
	got := s.get("/v1/shop")
	wait, err := strconv.Atoi(got.Header.Get("Retry-After"))
	errorIf(t, got.Status != 429 || err != nil || wait < 1 || got.Error() != "OverRate",
		"%d %v %s", got.Status, got.Header, got.Body)
	s.run(step{"b GET /v1/bank", "", "", 200, "", ""})
	s = open(t, "-day-bytes", "2000")
	for _, want := range []int{201, 200, 429} {
		s.run(step{"w PUT /v1/shop/de.txt", "", `de{a{"` + strings.Repeat("x", 1000) + `"}}`, want, "", ""})
	}
}

// TestMetrics counts some requests; the buckets go up to the count.
func TestMetrics(t *testing.T) {
	s := beside(t)
	s.put("de", `de{a{"A"}}`)
	for i := 0; i < 5; i++ {
		s.is("de/a", "A")
	}
	s.run([]step{{"r GET /v1/shop/de/b", "", "", 404, "", ""}, {"- GET /v1/shop/de/b", "", "", 401, "", ""},
		{"b GET /v1/bank/de/b", "", "", 404, "", ""}}...)
	values := s.measured()
	for at := range values {
		errorIf(t, strings.Contains(at, "bank"), "an application without bundles: %s", at)
	}
	for at, want := range map[string]float64{`resb_requests_total{kind="look",status="200"}`: 5, `resb_requests_total{kind="look",status="404"}`: 2,
		`resb_app_requests_total{app="shop"}`: 7, `resb_app_stored_bytes{app="shop"}`: 10, `resb_app_bundles_bytes{app="shop"}`: values["resb_bundles_bytes"],
		`resb_requests_total{kind="other",status="401"}`: 1, `resb_requests_total{kind="change",status="201"}`: 1, `resb_request_seconds_count{kind="look"}`: 7,
		`resb_left_out`: 0, `resb_writes`: 1, `resb_ready`: 1, `resb_bundles`: 1, `resb_apps`: 1} {
		errorIf(t, values[at] != want, "%s is %v", at, values[at])
	}
	last := 0.0
	for _, bound := range []string{"0.0001", "0.001", "0.01", "0.1", "1", "10", "+Inf"} {
		at, there := values[fmt.Sprintf(`resb_request_seconds_bucket{kind="look",le=%q}`, bound)]
		errorIf(t, !there || at < last, "the bucket of %s has %v after %v", bound, at, last)
		last = at
	}
	if last != 7 || values[`resb_memory_bytes`] < 1000 || values[`resb_database_bytes`] < 20 || values["resb_free_bytes"] < 1000 ||
		values["resb_backup_timestamp_seconds"] != 0 || values["resb_behind_seconds"] > 60 {
		t.Errorf("%v", values)
	}
	before := float64(time.Now().Unix() - 1)
	command(t, 0, "", "backup", "-state", s.State, "--", filepath.Join(t.TempDir(), "copy"))
	s.awaitMetric("resb_backup_timestamp_seconds", func(n float64) bool { return n > before })
}

// TestAlertRules has a metric of the gateway for each name in the rules for Prometheus and in the dashboard, and promtool try each expression.
func TestAlertRules(t *testing.T) {
	s := beside(t)
	s.put("de", `de{a{"A"}}`)
	values := s.measured()
	rules, err := os.ReadFile(harness.Top("deploy/prometheus.rules.yml"))
	must(t, err)
	tried, err := os.ReadFile("testdata/alerts.yml")
	must(t, err)
	names := regexp.MustCompile(`resb_\w+`).FindAllString(string(rules)+triedDashboard(t), -1)
	for _, name := range names {
		there := false
		for metric := range values {
			metric, _, _ = strings.Cut(metric, "{")
			there = there || metric == name
		}
		errorIf(t, !there, "no metric %s", name)
	}
	alerts := regexp.MustCompile(`alert: (\w+)`).FindAllStringSubmatch(string(rules), -1)
	for _, alert := range alerts {
		errorIf(t, strings.Count(string(tried), "alertname: "+alert[1]) != 2, "%s isn't tried", alert[1])
	}
	errorIf(t, len(names) < 15 || len(alerts) < 15, "%d names, %d alerts", len(names), len(alerts))
	metrics, err := harness.Send(harness.Client, "GET", s.Inside+"/metrics", "", "")
	must(t, err)
	promtool, err := exec.LookPath("promtool")
	if err != nil {
		t.Skip("skipped: promtool (Debian's prometheus) isn't there")
	}
	text, err := exec.Command(promtool, "test", "rules", "testdata/alerts.yml", "testdata/dashboard.yml").CombinedOutput()
	errorIf(t, err != nil, "%v: %s", err, text)
	check := exec.Command(promtool, "check", "metrics")
	check.Stdin = strings.NewReader(metrics.Body)
	text, err = check.CombinedOutput()
	errorIf(t, err != nil, "%v: %s", err, text)
}

// triedDashboard returns the expressions of the dashboard, each of which promtool has to try.
func triedDashboard(t *testing.T) string {
	t.Helper()
	content, err := os.ReadFile(harness.Top("deploy/grafana.json"))
	must(t, err)
	tried, err := os.ReadFile("testdata/dashboard.yml")
	must(t, err)
	var board struct {
		Panels []struct{ Targets []struct{ Expr string } }
	}
	must(t, json.Unmarshal(content, &board))
	var all []string
	for _, panel := range board.Panels {
		for _, target := range panel.Targets {
			errorIf(t, !strings.Contains(string(tried), "expr: '"+target.Expr+"'\n"), "%s isn't tried", target.Expr)
			all = append(all, target.Expr)
		}
	}
	errorIf(t, len(board.Panels) < 10 || len(all) != strings.Count(string(tried), "expr: "), "%d panels, %d expressions", len(board.Panels), len(all))
	return strings.Join(all, "\n")
}
