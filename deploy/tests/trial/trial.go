// Package trial has clients change and read bundles at gateways that are disturbed, and judges what the
// clients saw.
package trial

import (
	"context"
	"fmt"
	"io"
	"net/http"
	"sort"
	"strings"
	"sync"
	"testing"
	"time"

	"luvdregan.example/resb/deploy/tests/check"
	"luvdregan.example/resb/deploy/tests/harness"
)

// A trial has clients work at gateways, and judges what they saw.
type trial struct {
	*collector
	urls, apps []string
	workers    []*worker
	began      time.Time
	took       time.Duration
	seed       int64
	base       map[string]int64 // revisions that are there at the beginning
	ended      sync.WaitGroup
	stop       context.CancelFunc
}

func newTrial(seed int64) *trial {
	return &trial{collector: newCollector(newBook()), began: time.Now(), seed: seed, base: map[string]int64{}}
}

// worker adds a client.
func (t *trial) worker() *worker {
	w := newWorker(len(t.workers), t.urls, t.apps, t.book, t.began, t.seed)
	t.workers = append(t.workers, w)
	return w
}

// begin starts clients, and reads the histories while they work.
func (t *trial) begin(to testing.TB, clients int) {
	ctx, cancel := context.WithCancel(context.Background())
	t.stop = cancel
	to.Cleanup(t.end)
	for i := 0; i < clients; i++ {
		w := t.worker()
		t.ended.Add(1)
		go func() {
			defer t.ended.Done()
			for ctx.Err() == nil {
				w.step()
			}
		}()
	}
	t.ended.Add(1)
	go func() {
		defer t.ended.Done()
		for ctx.Err() == nil {
			t.collect(0)
			select {
			case <-ctx.Done():
			case <-time.After(300 * time.Millisecond):
			}
		}
	}()
}

// end stops the clients.
func (t *trial) end() {
	if t.took == 0 {
		t.took = time.Since(t.began)
	}
	t.stop()
	t.ended.Wait()
}

// collect reads the histories of all applications at a gateway that answers, for a time.
func (t *trial) collect(most time.Duration) {
	for _, app := range t.apps {
		for i, end := 0, time.Now().Add(most); ; i++ {
			err := t.read(t.urls[i%len(t.urls)], app)
			if err == nil || i >= len(t.urls) && time.Now().After(end) {
				break
			}
			time.Sleep(20 * time.Millisecond)
		}
	}
}

// finish reads all that is stored at each gateway, once no client works.
func (t *trial) finish() error {
	last := map[string]int64{}
	for _, w := range t.workers {
		for app, revision := range w.last {
			if revision > last[app] {
				last[app] = revision
			}
		}
	}
	for i := range t.urls {
		w := newWorker(1000+i, t.urls[i:i+1], t.apps, t.book, t.began, t.seed)
		w.client = &http.Client{Timeout: time.Minute}
		t.workers = append(t.workers, w)
		for _, app := range t.apps {
			for n := 0; n <= 2*len(locales); n++ {
				op := &check.Op{App: app, Gateway: t.urls[i], After: last[app], Revision: -1, Saw: check.State{}}
				r := request{method: "GET", path: fmt.Sprintf("?after=%d", last[app])}
				if op.What, op.Whole = "list", n == 0; n > 0 {
					locale := locales[(n-1)/2]
					op.What, op.Saw[locale] = []string{"lookup", "bundle"}[n%2], ""
					r.path = "/" + locale + []string{"/v", ".txt"}[n%2] + r.path
				}
				if w.send(op, r); op.Outcome != check.Done {
					return fmt.Errorf("at the end: %v", op)
				}
				w.ops = append(w.ops, op)
			}
		}
	}
	t.collect(30 * time.Second)
	return nil
}

// judge checks all operations, prints the first faults of each kind, and returns how many of each kind there are.
func (t *trial) judge(out io.Writer) map[string]int {
	ops, kinds := map[string][]*check.Op{}, map[string]int{}
	for _, w := range t.workers {
		for _, op := range w.ops {
			ops[op.App] = append(ops[op.App], op)
		}
	}
	for _, text := range t.faults {
		kinds["history"]++
		fmt.Fprintf(out, "FAULT history: %s\n", text)
	}
	for app, of := range ops {
		for _, f := range check.Check(of, t.changes(app), t.base[app], len(t.urls) == 1) {
			if kinds[f.Kind]++; kinds[f.Kind] <= 3 {
				fmt.Fprintf(out, "FAULT %s: %.900s\n", f.Kind, f.Text)
			}
		}
	}
	return kinds
}

// report prints what was done and how long changes took.
func (t *trial) report(out io.Writer) {
	outcomes := map[string]int{}
	var slow harness.Times
	for _, w := range t.workers {
		for _, op := range w.ops {
			what := "reads "
			if op.Write {
				what = "changes "
			}
			outcomes[what+op.Outcome]++
			if op.Write && op.Outcome == check.Done {
				slow = append(slow, op.End-op.Start)
			}
		}
	}
	fmt.Fprintf(out, "%s in %.0f s; acknowledged changes: %.0f a second, median %v, p99 %v, longest %v; load %s\n", counts(outcomes),
		t.took.Seconds(), float64(len(slow))/t.took.Seconds(), slow.At(50), slow.At(99), slow.At(100), harness.Load())
}

// counts returns names with their numbers, in order.
func counts(of map[string]int) string {
	var text []string
	for name, n := range of {
		text = append(text, fmt.Sprintf("%s %d", name, n))
	}
	sort.Strings(text)
	return strings.Join(text, ", ")
}
