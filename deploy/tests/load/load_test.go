// Package load measures gateways, as benchmarks: the processor time of a lookup beside that of a
// constant handler, changes a second, and the times of a start, a long release and trees.
package load

import (
	"archive/tar"
	"bufio"
	"bytes"
	"encoding/json"
	"flag"
	"fmt"
	"io"
	"net"
	"net/http"
	"os"
	"path/filepath"
	"strings"
	"sync"
	"testing"
	"time"

	"luvdregan.example/resb/deploy/tests/harness"
)

var length = flag.Duration("time", 5*time.Second, "of each measure")

func TestMain(m *testing.M) {
	if address := os.Getenv("CONSTANT"); address != "" {
		panic(constant(address))
	}
	status := m.Run()
	fmt.Println("load", harness.Load())
	os.Exit(status)
}

// A reply is what the constant handler answers.
type reply struct {
	Header http.Header
	Body   string
}

// constant serves a reply, without looking at requests.
func constant(address string) error {
	var r reply
	if err := json.Unmarshal([]byte(os.Getenv("CONSTANT_REPLY")), &r); err != nil {
		return err
	}
	body := []byte(r.Body)
	return http.ListenAndServe(address, http.HandlerFunc(func(w http.ResponseWriter, _ *http.Request) {
		for name, values := range r.Header {
			w.Header()[name] = values
		}
		_, _ = w.Write(body)
	}))
}

// open starts a gateway with more options than those that all measures have.
func open(b *testing.B, options ...string) *harness.Gateway {
	return harness.Open(b, harness.Setup{Options: append([]string{"-rate", "0"}, options...)})
}

// BenchmarkLookups measures the processor time of lookups at a gateway and at a constant handler,
// alternating: the ratio of the medians may be 1.4.
func BenchmarkLookups(b *testing.B) {
	g := open(b)
	const path = "/v1/app.one/de_AT/menu/open"
	g.Make("PUT", "/v1/app.one/de.txt", `de{menu{open{"Öffnen"} close{"Schließen"}}}`)
	got := g.Make("GET", path, "")
	delete(got.Header, "Date")
	text, _ := json.Marshal(reply{got.Header, got.Body})
	address := fmt.Sprint("127.0.0.1:", harness.Ports(b, 1)[0])
	other := &harness.Process{T: b, Name: "constant", Args: os.Args[:1], Health: "http://" + address,
		Env: []string{"CONSTANT=" + address, "CONSTANT_REPLY=" + string(text)}}
	b.Cleanup(other.Kill)
	other.Restart()
	request := "GET " + path + " HTTP/1.1\r\nHost: gateway\r\nAuthorization: Bearer " + harness.AppsWrite + "\r\n\r\n"
	var ours, theirs harness.Times
	for i := 0; i < 7; i++ {
		ours = append(ours, costs(b, g.Process, g.Address, request))
		theirs = append(theirs, costs(b, other, address, request))
	}
	b.ReportMetric(float64(ours.At(50))/float64(theirs.At(50)), "ratio")
	b.ReportMetric(float64(ours.At(50))/1e6, "cpu-µs/lookup")
	b.ReportMetric(float64(theirs.At(50))/1e6, "cpu-µs/constant")
}

// costs returns the processor time of 1,000 requests at a process, over 16 connections.
func costs(b *testing.B, p *harness.Process, address, request string) time.Duration {
	var mu sync.Mutex
	count, before := 0, p.Usage().Processor
	harness.Together(16, func(int) {
		n, err := repeat(address, request, time.Now().Add(*length/7))
		mu.Lock()
		defer mu.Unlock()
		if count += n; err != nil {
			b.Error(err)
		}
	})
	return (p.Usage().Processor - before) * 1000 / time.Duration(count+1)
}

// repeat sends a request over one connection until a time, and returns how often it was answered.
func repeat(address, request string, end time.Time) (n int, err error) {
	c, err := net.Dial("tcp", address)
	if err != nil {
		return 0, err
	}
	defer c.Close()
	for from := bufio.NewReader(c); time.Now().Before(end); n++ {
		if _, err = io.WriteString(c, request); err != nil {
			return n, err
		}
		got, err := http.ReadResponse(from, nil)
		if err != nil {
			return n, err
		}
		if _, err = io.Copy(io.Discard, got.Body); err != nil || got.StatusCode != http.StatusOK {
			return n, fmt.Errorf("%v: %s", err, got.Status)
		}
	}
	return n, nil
}

// BenchmarkChanges measures changes of 1 and 16 applications over SQLite (500 a second are asked of
// 16) and over three gateways with three members of etcd (200), and a sync of the disk.
func BenchmarkChanges(b *testing.B) {
	for _, callers := range []int{1, 16} {
		b.Run(fmt.Sprint("sqlite/", callers), func(b *testing.B) { changes(b, callers, open(b)) })
		b.Run(fmt.Sprint("etcd/", callers), func(b *testing.B) {
			changes(b, callers, harness.NewMachines(b, false, []string{"-rate", "0"}).Gateways...)
		})
	}
}

// changes has callers make changes, each of a separate application.
func changes(b *testing.B, callers int, gateways ...*harness.Gateway) {
	took, began := make([]harness.Times, callers), time.Now()
	harness.Together(callers, func(i int) {
		for n := 0; !b.Failed() && time.Since(began) < *length; n++ {
			at := time.Now()
			got, err := harness.Send(harness.Client, "PUT", fmt.Sprintf("%s/v1/app.%d/de.txt", gateways[i%len(gateways)].URL, i),
				harness.AppsWrite, fmt.Sprintf(`de{a{"%d"}}`, n))
			if took[i] = append(took[i], time.Since(at)); err != nil || got.Status > 201 {
				b.Errorf("%v %d %s", err, got.Status, got.Body)
			}
		}
	})
	var all harness.Times
	for _, some := range took {
		all = append(all, some...)
	}
	b.ReportMetric(float64(len(all))/time.Since(began).Seconds(), "changes/s")
	report(b, "p50", all.At(50))
	report(b, "p99", all.At(99))
	report(b, "sync", syncs(b))
}

// report reports a time.
func report(b *testing.B, what string, took time.Duration) {
	b.ReportMetric(float64(took)/1e6, "ms-"+what)
}

// syncs returns how long the disk takes to sync a page.
func syncs(b *testing.B) time.Duration {
	file, err := os.Create(filepath.Join(b.TempDir(), "file"))
	harness.Must(b, err)
	defer file.Close()
	var took harness.Times
	for i := 0; i < 50; i++ {
		began := time.Now()
		_, _ = file.Write(make([]byte, 4096))
		_ = file.Sync()
		took = append(took, time.Since(began))
	}
	return took.At(50)
}

const asLines = "application/x-ndjson"

// releaseOf returns the lines of a release of short bundles.
func releaseOf(bundles int) string {
	var lines strings.Builder
	for i := 0; i < bundles; i++ {
		fmt.Fprintf(&lines, "{\"locale\":\"l%c%c_%cA\",\"text\":\"l{a{\\\"%d\\\"}}\"}\n", 'a'+i%16, 'a'+i/16%16, 'A'+i/256%16, i)
	}
	return lines.String()
}

// BenchmarkManifest measures what a change writes to files and connections in an application of 4,096
// bundles: 16 KB of manifest are asked.
func BenchmarkManifest(b *testing.B) {
	g := open(b)
	g.Make("POST", "/v1/app.full/_releases", releaseOf(4096), "Content-Type", asLines)
	const times = 50
	before, began := g.Usage().Written, time.Now()
	for i := 0; i < times; i++ {
		g.Make("PUT", "/v1/app.full/laa_AA.txt", fmt.Sprintf(`l{a{"again %d"}}`, i))
	}
	report(b, "change", time.Since(began)/times)
	b.ReportMetric(float64(g.Usage().Written-before)/times/1024, "KB/change")
}

// BenchmarkReady measures a start over 20,000 bundles: 5 s are asked.
func BenchmarkReady(b *testing.B) {
	g := open(b)
	for i := 0; i < 5; i++ {
		g.Make("POST", fmt.Sprintf("/v1/app.%d/_releases", i), releaseOf(4000), "Content-Type", asLines)
	}
	g.Kill()
	began := time.Now()
	g.Restart()
	report(b, "ready", time.Since(began))
	usage := g.Usage()
	report(b, "cpu", usage.Processor)
	b.ReportMetric(float64(usage.Memory>>20), "MB")
}

// BenchmarkRelease measures a release of 100 MB in 50 bundles, which a reader sees whole: 10 s are asked.
func BenchmarkRelease(b *testing.B) {
	g := open(b, "-release-bytes", "200000000", "-app-bytes", "1000000000", "-app-stored-bytes", "1000000000",
		"-body-bytes", "2000000000", "-read-time", "5m", "-patience", "5m")
	var out bytes.Buffer
	to := tar.NewWriter(&out)
	for i := 0; i < 50; i++ {
		var text strings.Builder
		fmt.Fprintf(&text, "l{n{\"%d\"} t{", i)
		for n := 0; text.Len() < 2<<20; n++ {
			fmt.Fprintf(&text, "k%d{\"The text of item %d of this bundle, which isn't short\"}\n", n, n)
		}
		text.WriteString("}}")
		_ = to.WriteHeader(&tar.Header{Name: fmt.Sprintf("l%c%c.txt", 'a'+i/26, 'a'+i%26), Size: int64(text.Len()), Mode: 0o644})
		_, _ = to.Write([]byte(text.String()))
	}
	_ = to.Close()
	done, began := make(chan struct{}), time.Now()
	go func() {
		defer close(done)
		for n := 0; n != 50 && !b.Failed(); time.Sleep(10 * time.Millisecond) {
			got, err := harness.Send(harness.Client, "GET", g.URL+"/v1/app.long", harness.AppsWrite, "")
			if n = strings.Count(got.Body, `"l`); err != nil || n != 0 && n != 50 {
				b.Errorf("a reader sees a part of the release: %v %d %.300s", err, got.Status, got.Body)
			}
		}
	}()
	g.Make("POST", "/v1/app.long/_releases", out.String(), "Content-Type", "application/x-tar")
	report(b, "release", time.Since(began))
	<-done
	if got := g.Make("GET", "/v1/app.long/lbx/n", ""); got.Value() != "49" {
		b.Error(got.Body)
	}
	usage := g.Usage()
	report(b, "cpu", usage.Processor)
	b.ReportMetric(float64(usage.Memory>>20), "MB")
}

// BenchmarkTree measures trees of 1,000 items: 30 ms are asked.
func BenchmarkTree(b *testing.B) {
	g := open(b)
	for _, locale := range []string{"root", "de", "de_AT"} {
		text := locale + "{"
		for i := 0; i < 1000; i++ {
			text += fmt.Sprintf("k%d{\"The text of item %d in %s\"}", i, i, locale)
		}
		g.Make("PUT", "/v1/app.one/"+locale+".txt", text+"}")
	}
	var took harness.Times
	for i := 0; i < 100; i++ {
		began := time.Now()
		got := g.Make("GET", "/v1/app.one/de_AT?tree", "")
		if took = append(took, time.Since(began)); len(got.Body) < 30000 {
			b.Fatal(len(got.Body))
		}
	}
	report(b, "p50", took.At(50))
	report(b, "p99", took.At(99))
}
