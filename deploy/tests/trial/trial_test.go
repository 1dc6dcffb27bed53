package trial

import (
	"fmt"
	"io"
	"math/rand"
	"net/http"
	"net/http/httptest"
	"net/url"
	"regexp"
	"strconv"
	"strings"
	"sync"
	"testing"
	"time"

	"luvdregan.example/resb/deploy/tests/harness"
)

// A planter is a proxy of a gateway that plants a fault in some of the requests that the fault's name is
// about. Requests pass one after the other.
type planter struct {
	sync.Mutex
	fault   string
	planted int
	rand    *rand.Rand
	to      string                      // the gateway
	last    map[string]int64            // the newest revision that replies of an application had
	old     map[string][]harness.Answer // replies to reads, by their paths
	gap     map[string]int64            // the revision after which an application's history counts one too many
	sha     string                      // a digest that changes in the history
}

// A passing is a request on its way to the gateway.
type passing struct {
	method, path, query, body, app, rest string
	header                               http.Header
}

// plants returns true if the fault is planted now, for requests that it is about.
func (p *planter) plants(fault string, about bool) bool {
	if p.fault != fault || !about || p.rand.Intn(6) > 0 {
		return false
	}
	p.planted++
	return true
}

func (p *planter) ServeHTTP(w http.ResponseWriter, r *http.Request) {
	body, _ := io.ReadAll(r.Body)
	q := &passing{method: r.Method, path: r.URL.EscapedPath(), query: r.URL.RawQuery, body: string(body), header: r.Header}
	words := append(strings.SplitN(q.path, "/", 4), "")
	q.app, q.rest = words[2], words[3]
	p.Lock()
	defer p.Unlock()
	got := p.answer(q)
	if revision := got.Revision(); revision > p.last[q.app] && p.fault != "a revision that is never stored" {
		p.last[q.app] = revision
	}
	for _, name := range []string{"ETag", "Resb-Revision"} {
		if value := got.Header.Get(name); value != "" {
			w.Header().Set(name, value)
		}
	}
	w.WriteHeader(got.Status)
	_, _ = io.WriteString(w, got.Body)
}

// pass sends a request to the gateway.
func (p *planter) pass(q *passing) harness.Answer {
	var headers []string
	for _, name := range []string{"If-Match", "If-None-Match", "Content-Type"} {
		headers = append(headers, name, q.header.Get(name))
	}
	got, err := harness.Send(harness.Client, q.method, p.to+q.path+"?"+q.query, harness.AppsWrite, q.body, headers...)
	if err != nil {
		return made(504, -1, `{"error":"Timeout"}`)
	}
	return got
}

// made returns a reply of the planter.
func made(status int, revision int64, body string) harness.Answer {
	a := harness.Answer{Status: status, Header: http.Header{}, Body: body}
	if revision >= 0 {
		a.Header.Set("Resb-Revision", fmt.Sprint(revision))
	}
	return a
}

// moved returns a reply with another revision.
func moved(a harness.Answer, by int64) harness.Answer {
	a.Header.Set("Resb-Revision", fmt.Sprint(a.Revision()+by))
	return a
}

func (p *planter) answer(q *passing) harness.Answer {
	switch {
	case q.rest == "_history":
		return p.history(q, p.pass(q))
	case q.method == "GET" || q.rest == "look":
		return p.read(q, p.pass(q))
	case p.rand.Intn(20) > 0:
		return p.change(q)
	case p.rand.Intn(2) == 0:
		p.pass(q)
	}
	return made(504, -1, `{"error":"Timeout"}`) // which may be made
}

// change passes a change, or another one.
func (p *planter) change(q *passing) harness.Answer {
	single, last := !strings.HasPrefix(q.rest, "_"), p.last[q.app]
	conditional := q.header.Get("If-Match") != "" || q.header.Get("If-None-Match") != ""
	plain := single && !conditional && q.method == "PUT"
	const between = `{"locale":"it","text":"it{v{\"nobody's\"}}"}` + "\n"
	switch {
	case p.plants("an acknowledged change is lost", plain):
		return made(200, last+1, "")
	case p.plants("a refusal without a reason", plain):
		return made(412, last, `{"error":"PreconditionFailed"}`)
	case p.plants("what isn't made is made", plain):
		p.pass(q)
		return made(503, -1, `{"error":"Busy"}`)
	case p.plants("a condition isn't judged", conditional), p.plants("a refused change is made", conditional):
		q.header.Del("If-Match")
		q.header.Del("If-None-Match")
		if got := p.pass(q); p.fault == "a condition isn't judged" || got.Status > 201 {
			return got
		}
		return made(412, last, `{"error":"PreconditionFailed"}`)
	case p.plants("a bundle is installed over another", single && q.method == "POST"):
		q.method = "PUT"
	case p.plants("a change is made twice", plain):
		p.pass(q)
		p.pass(&passing{method: "POST", path: "/v1/" + q.app + "/_releases", body: between, header: http.Header{"Content-Type": {"application/x-ndjson"}}})
	case p.plants("a change also changes another bundle", plain && !strings.HasPrefix(q.rest, "it")):
		text := strings.ReplaceAll(q.body, `"`, `\"`)
		q.body = fmt.Sprintf(`{"locale":"%s","text":"%s"}`+"\n%s", strings.TrimSuffix(q.rest, ".txt"), text, between)
		q.method, q.path, q.header = "POST", "/v1/"+q.app+"/_releases", http.Header{"Content-Type": {"application/x-ndjson"}}
	case p.plants("a part of a release is lost", q.rest == "_releases"):
		q.body = q.body[strings.IndexByte(q.body, '\n')+1:]
	case p.plants("another version is restored", strings.HasSuffix(q.rest, "/restore")):
		id, _ := strconv.Atoi(strings.Split(q.rest, "/")[1])
		q.path = fmt.Sprintf("/v1/%s/_history/%d/restore", q.app, id-1-p.rand.Intn(3))
	}
	got := p.pass(q)
	switch {
	case p.plants("two changes have one revision", got.Status < 300 && got.Revision() > 1):
		return moved(got, -1)
	case p.plants("a refusal is judged by an old state", (got.Status == 412 || got.Status == 409) && got.Revision() > 8):
		return moved(got, -6)
	}
	return got
}

// read passes a reply to a read, or another one.
func (p *planter) read(q *passing, got harness.Answer) harness.Answer {
	if got.Status != 200 || strings.HasPrefix(q.rest, "_") {
		return got
	}
	var old harness.Answer
	for _, one := range p.old[q.path] {
		if one.Body != got.Body && one.Revision() < got.Revision() {
			old = one
		}
	}
	after, _ := url.ParseQuery(q.query)
	asked, _ := strconv.ParseInt(after.Get("after"), 10, 64)
	lines := strings.SplitAfter(got.Body, "\n")
	olds := append(strings.SplitAfter(old.Body, "\n"), "", "", "", "")
	p.old[q.path] = append(p.old[q.path], got)
	switch {
	case p.plants("a read with after is stale", old.Body != "" && asked > old.Revision()), p.plants("a gateway goes back", old.Body != "" && asked == 0):
		return old
	case p.plants("a reply has another revision's number", old.Body != "" && q.rest != "look"):
		return made(200, got.Revision(), old.Body)
	case p.plants("a revision that is never stored", true):
		return moved(made(200, got.Revision(), got.Body), 500)
	case p.plants("a list lacks a bundle", q.rest == "" && strings.Contains(got.Body, `,"`)):
		return made(200, got.Revision(), regexp.MustCompile(`"[a-z]+",`).ReplaceAllString(got.Body, ""))
	case p.plants("a line of many lookups is older", q.rest == "look" && len(lines) > 3 && strings.Contains(olds[3], "value") && olds[3] != lines[3]):
		return made(200, got.Revision(), strings.Join(lines[:3], "")+olds[3])
	}
	return got
}

// history passes the history, or another one. What was changed once stays so.
func (p *planter) history(q *passing, got harness.Answer) harness.Answer {
	digests := regexp.MustCompile(`[0-9a-f]{64}`).FindAllString(got.Body, -1)
	if p.sha == "" && p.plants("the history changes", len(digests) > 5) {
		p.sha = digests[len(digests)-1] // which was read before
	}
	if p.gap[q.app] == 0 && p.plants("a revision is left out", got.Revision() > 5) {
		p.gap[q.app] = got.Revision()
	}
	if p.sha != "" {
		got.Body = strings.ReplaceAll(got.Body, p.sha, strings.Repeat("0", 64))
	}
	if gap := p.gap[q.app]; gap > 0 {
		got.Body = regexp.MustCompile(`"revision":\d+`).ReplaceAllStringFunc(got.Body, func(one string) string {
			revision, _ := strconv.ParseInt(one[len(`"revision":`):], 10, 64)
			return fmt.Sprintf(`"revision":%d`, revision+map[bool]int64{true: 1}[revision > gap])
		})
	}
	return got
}

// tryFault has clients work at two planters of a gateway, and returns the kinds of faults that are found.
func tryFault(g *harness.Gateway, fault string, steps int, seed int64) (kinds map[string]int, planted int) {
	p := &planter{fault: fault, rand: rand.New(rand.NewSource(seed)), to: g.URL, last: map[string]int64{}, old: map[string][]harness.Answer{}, gap: map[string]int64{}}
	t := newTrial(seed)
	for i := 0; i < 2; i++ {
		s := httptest.NewServer(p)
		defer s.Close()
		t.urls, t.apps = append(t.urls, s.URL), append(t.apps, fmt.Sprintf("app.%d", rand.Int()))
	}
	ended := make(chan struct{})
	var all []*worker
	for i := 0; i < 4; i++ {
		all = append(all, t.worker())
	}
	go func() {
		defer close(ended)
		harness.Together(len(all), func(i int) {
			for n := 0; n < steps; n++ {
				all[i].step()
			}
		})
	}()
	for i := 0; i < 10; i++ {
		time.Sleep(50 * time.Millisecond)
		t.collect(time.Second)
	}
	<-ended
	t.collect(time.Second)
	return t.judge(io.Discard), p.planted
}

// TestPlantedFaults plants faults between clients and a gateway: the checker finds each, and none without.
func TestPlantedFaults(t *testing.T) {
	g := harness.Open(t, harness.Setup{})
	for seed := int64(1); seed <= 3; seed++ {
		if kinds, _ := tryFault(g, "", 150, seed); len(kinds) > 0 {
			t.Errorf("without a fault: %v", kinds)
		}
	}
	for _, fault := range []string{"an acknowledged change is lost", "what isn't made is made", "a change is made twice", "a change also changes another bundle",
		"a revision is left out", "two changes have one revision", "a part of a release is lost", "another version is restored", "a refused change is made",
		"a condition isn't judged", "a bundle is installed over another", "a refusal without a reason", "a refusal is judged by an old state",
		"a line of many lookups is older", "a list lacks a bundle", "a revision that is never stored", "a reply has another revision's number",
		"a gateway goes back", "a read with after is stale", "the history changes"} {
		kinds, planted := map[string]int{}, 0
		for seed := int64(1); seed <= 20 && len(kinds) == 0; seed++ { // a fault may not be planted, or change nothing
			kinds, planted = tryFault(g, fault, 200, seed)
		}
		harness.ErrorIf(t, len(kinds) == 0 || planted == 0,
			"%s: planted %d times, and not found", fault, planted)
		t.Logf("%s: planted %d times, found as %v", fault, planted, kinds)
	}
}
