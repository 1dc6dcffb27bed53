package trial

import (
	"crypto/sha256"
	"encoding/base64"
	"encoding/hex"
	"encoding/json"
	"errors"
	"flag"
	"fmt"
	"math/rand"
	"net"
	"net/http"
	"strings"
	"sync"
	"sync/atomic"
	"time"

	"luvdregan.example/resb/deploy/tests/check"
	"luvdregan.example/resb/deploy/tests/harness"
)

var patience = flag.Duration("patience", 8*time.Second, "of the gateways")

// A book knows which value each bundle that was sent has, by its digest, and the tag of each value.
type book struct {
	sync.Mutex
	values map[string]string // by the SHA-256 in hexadecimal
	tags   map[string]string // by the value
	ids    map[string]version
}

// A version is what the history says of a change.
type version struct{ id, locale, value string }

func newBook() *book {
	return &book{values: map[string]string{}, tags: map[string]string{}, ids: map[string]version{}}
}

// text makes a bundle with a value, and notes it.
func (b *book) text(locale, value string, padding int) string {
	text := fmt.Sprintf("%s{v{\"%s\"} pad{\"%s\"}}", locale, value, strings.Repeat("x", padding))
	sum := sha256.Sum256([]byte(text))
	b.Lock()
	defer b.Unlock()
	b.values[hex.EncodeToString(sum[:])] = value
	b.tags[value] = `"` + base64.RawURLEncoding.EncodeToString(sum[:16]) + `"`
	return text
}

func (b *book) tag(value string) string {
	b.Lock()
	defer b.Unlock()
	return b.tags[value]
}

func (b *book) note(value, tag string) {
	b.Lock()
	defer b.Unlock()
	b.tags[value] = tag
}

// A worker is a client that does one operation after the other.
type worker struct {
	id     int
	urls   []string
	began  time.Time
	rand   *rand.Rand
	client *http.Client
	*book
	apps  []string
	ops   []*check.Op
	last  map[string]int64  // the revision of an application's last change of this client
	known map[string]string // the last value of an application's locale that it saw
}

var locales = []string{"de", "en", "fr", "it"}

func newWorker(id int, urls, apps []string, b *book, began time.Time, seed int64) *worker {
	return &worker{id: id, urls: urls, apps: apps, book: b, began: began, rand: rand.New(rand.NewSource(seed + int64(id))),
		client: &http.Client{Timeout: *patience + 4*time.Second, Transport: &http.Transport{MaxIdleConnsPerHost: 4}}, last: map[string]int64{}, known: map[string]string{}}
}

// A request is what an operation sends.
type request struct {
	method, path, body string
	header             []string
}

// step does an operation.
func (w *worker) step() {
	at, app := w.rand.Intn(len(w.urls)), w.apps[w.rand.Intn(len(w.apps))]
	locale := locales[w.rand.Intn(len(locales))]
	op := &check.Op{App: app, Gateway: w.urls[at], Revision: -1}
	var r request
	if w.rand.Intn(100) < 60 {
		r = w.change(op, locale)
	} else {
		r = w.look(op, locale)
	}
	w.send(op, r)
	w.ops = append(w.ops, op)
	if op.Outcome == check.NotMade || op.Outcome == check.Unknown {
		time.Sleep(20 * time.Millisecond)
	}
}

// value returns a value that no worker has had, also before a copy was restored.
func (w *worker) value() string { return fmt.Sprintf("%d-%d", w.id, atomic.AddInt64(&values, 1)) }

var values int64

// change chooses a change.
func (w *worker) change(op *check.Op, locale string) request {
	op.Write, op.Puts = true, check.State{}
	value, padding := w.value(), w.rand.Intn(2000)
	known := w.known[op.App+" "+locale]
	put := func(header ...string) request {
		op.Puts[locale] = value
		return request{"PUT", "/" + locale + ".txt", w.text(locale, value, padding), header}
	}
	switch n := w.rand.Intn(60); {
	case n < 22:
		op.What = "PUT"
		return put()
	case n < 32:
		op.What, op.If = "PUT if", known
		if w.tag(known) == "" {
			op.If = "none"
			return put("If-Match", `"none"`)
		}
		return put("If-Match", w.tag(known))
	case n < 36:
		op.What, op.Absent = "PUT if none", true
		return put("If-None-Match", "*")
	case n < 40:
		op.What, op.Absent = "POST", true
		r := put()
		r.method = "POST"
		return r
	case n < 46:
		op.What, op.Present, op.Puts[locale] = "DELETE", true, ""
		return request{method: "DELETE", path: "/" + locale}
	case n < 54:
		return w.release(op, value)
	case n < 58:
		op.What, op.Present, op.Puts[locale] = "PATCH", true, value
		return request{"PATCH", "/" + locale, fmt.Sprintf(`{"v":%q}`, value), []string{"Content-Type", "application/merge-patch+json"}}
	}
	return w.restore(op, locale, put)
}

// release changes all locales, and removes one of them at times.
func (w *worker) release(op *check.Op, value string) request {
	var body strings.Builder
	removed := w.rand.Intn(2 * len(locales))
	for i, locale := range locales {
		line := map[string]any{"locale": locale}
		if i == removed {
			op.Puts[locale], line["remove"] = "", true
		} else {
			one := fmt.Sprintf("%s-%d", value, i)
			op.Puts[locale], line["text"] = one, w.text(locale, one, w.rand.Intn(500)<<(w.rand.Intn(8)&^1)) // up to 32 KB
		}
		text, _ := json.Marshal(line)
		body.Write(append(text, '\n'))
	}
	op.What = "release"
	return request{"POST", "/_releases", body.String(), []string{"Content-Type", "application/x-ndjson"}}
}

// restore makes a bundle what it was after a change that the collector has read.
func (w *worker) restore(op *check.Op, locale string, otherwise func(...string) request) request {
	w.book.Lock()
	defer w.book.Unlock()
	for key, v := range w.ids {
		if strings.HasPrefix(key, op.App+" ") && v.locale == locale && v.value != "" {
			op.What, op.Puts[locale] = "restore", v.value
			return request{method: "POST", path: "/_history/" + v.id + "/restore"}
		}
	}
	w.book.Unlock()
	defer w.book.Lock()
	op.What = "PUT"
	return otherwise()
}

// look chooses a read.
func (w *worker) look(op *check.Op, locale string) request {
	r := request{method: "GET", path: "/" + locale + "/v"}
	op.Saw = check.State{locale: ""}
	switch n := w.rand.Intn(20); {
	case n < 8:
		op.What = "lookup"
	case n < 12:
		op.What, r.path = "bundle", "/"+locale+".txt"
	case n < 15:
		op.What, op.Saw, op.Whole, r.path = "list", check.State{}, true, ""
	case n < 16:
		op.What, r.path = "tree", "/"+locale+"?tree"
	default:
		op.What, op.Saw, r.method, r.path = "lookups", check.State{}, "POST", "/look"
		for _, one := range locales {
			r.body += fmt.Sprintf("{\"locale\":%q,\"path\":\"v\"}\n", one)
		}
	}
	op.Least = op.What == "lookup" || op.What == "tree"
	if last := w.last[op.App]; last > 0 && w.rand.Intn(2) == 0 {
		op.After = last
		r.path += map[bool]string{true: "&", false: "?"}[strings.Contains(r.path, "?")] + fmt.Sprintf("after=%d", last)
	}
	return r
}

// send sends a request, and notes what came of it.
func (w *worker) send(op *check.Op, r request) {
	op.Outcome = check.Unknown
	op.Start = time.Since(w.began)
	got, err := harness.Send(w.client, r.method, op.Gateway+"/v1/"+op.App+r.path, harness.AppsWrite, r.body, r.header...)
	op.End = time.Since(w.began)
	var dial *net.OpError
	if errors.As(err, &dial) && dial.Op == "dial" {
		op.Outcome = check.NotMade
	}
	if err != nil {
		return
	}
	op.Status, op.Revision = got.Status, got.Revision()
	op.Outcome = outcome(op, got)
	if op.Outcome == check.Done && !op.Write {
		w.saw(op, got)
	}
	if op.Outcome == check.Done && op.Write {
		w.last[op.App] = op.Revision
		if op.What == "PATCH" {
			for _, value := range op.Puts {
				w.note(value, got.Tag())
			}
		}
	}
	for locale, value := range op.Saw {
		w.known[op.App+" "+locale] = value
	}
}

// outcome returns what a response says was done.
func outcome(op *check.Op, got harness.Answer) string {
	status := got.Status
	switch {
	case status == 200 || status == 201:
		return check.Done
	case !op.Write && status == 404 && (got.Error() == "NoBundle" || got.Error() == "Absent"):
		return check.Done
	case op.What == "release" && status == 404: // it removes what isn't there
		return check.NotMade
	case op.Write && (status == 412 || status == 409 && got.Error() == "Exists" || status == 404 && got.Error() == "Absent"):
		return check.Refused
	case status == 500 || status == 504 || got.Error() == "NotKept":
		return check.Unknown
	}
	return check.NotMade
}

// saw notes the values in a reply.
func (w *worker) saw(op *check.Op, got harness.Answer) {
	for locale := range op.Saw {
		if got.Status == 200 {
			op.Saw[locale] = valueIn(op.What, got)
		}
	}
	switch op.What {
	case "list":
		var list struct{ Names []string }
		if json.Unmarshal([]byte(got.Body), &list) != nil {
			op.Outcome = check.Unknown
		}
		for _, name := range list.Names {
			op.Saw[name] = "*"
		}
	case "lookups":
		lines := strings.Split(strings.TrimSpace(got.Body), "\n")
		for i, locale := range locales {
			if i < len(lines) {
				op.Lines = append(op.Lines, locale, harness.Answer{Body: lines[i]}.Value())
			}
		}
	}
}

// valueIn returns the value that a reply has.
func valueIn(what string, got harness.Answer) string {
	if what == "lookup" {
		return got.Value()
	}
	return valueOfText(got.Body)
}

// valueOfText returns the value of a bundle's text or tree.
func valueOfText(text string) string {
	if strings.HasPrefix(text, "{") {
		var tree struct{ V string }
		_ = json.Unmarshal([]byte(text), &tree)
		return tree.V
	}
	_, rest, _ := strings.Cut(text, "v")
	_, rest, _ = strings.Cut(rest, `"`)
	value, _, _ := strings.Cut(rest, `"`)
	return value
}
