package front

import (
	"context"
	"math"
	"net/http"
	"strconv"
	"sync"
	"sync/atomic"
	"time"

	"github.com/prometheus/client_golang/prometheus"
	"github.com/prometheus/client_golang/prometheus/promhttp"
	"github.com/prometheus/procfs"

	"luvdregan.example/resb/deploy/internal/auth"
	"luvdregan.example/resb/deploy/internal/limits"
	"luvdregan.example/resb/deploy/internal/replica"
	"luvdregan.example/resb/deploy/internal/store"
)

// bounds are the upper bounds of the histograms' buckets, in seconds.
var bounds = []float64{50e-6, 100e-6, 250e-6, 500e-6, 1e-3, 2.5e-3, 5e-3, 10e-3, 25e-3, 50e-3, 0.1, 0.25, 0.5, 1, 2.5, 10}

// Requests are counted by kind and status.
type requests [len(kindNames)][600]atomic.Int64

var requestsTotal = prometheus.NewDesc("resb_requests_total", "Requests by kind and status.", []string{"kind", "status"}, nil)

// Describe describes the metric.
func (r *requests) Describe(to chan<- *prometheus.Desc) { to <- requestsTotal }

// Collect gives the counts that aren't 0.
func (r *requests) Collect(to chan<- prometheus.Metric) {
	for kind := range r {
		for status := range r[kind] {
			if n := float64(r[kind][status].Load()); n > 0 {
				to <- prometheus.MustNewConstMetric(requestsTotal, prometheus.CounterValue, n, kindNames[kind], strconv.Itoa(status))
			}
		}
	}
}

// byApp has the metrics of each application that has bundles. The limit on those bounds them.
type byApp struct {
	*replica.Replica
	limits *limits.Limits
}

var (
	appRequests = prometheus.NewDesc("resb_app_requests_total", "Admitted requests of applications with bundles.", []string{"app"}, nil)
	appFiles    = prometheus.NewDesc("resb_app_bundles_bytes", "Bytes of an application's compiled bundles.", []string{"app"}, nil)
	appStored   = prometheus.NewDesc("resb_app_stored_bytes", "Bytes of what was submitted for an application's bundles.", []string{"app"}, nil)
)

// Describe describes the metrics.
func (b byApp) Describe(to chan<- *prometheus.Desc) {
	to <- appRequests
	to <- appFiles
	to <- appStored
}

// Collect gives their values.
func (b byApp) Collect(to chan<- prometheus.Metric) {
	b.Each(func(name string, v *replica.View) {
		if len(v.Bundles) > 0 {
			to <- prometheus.MustNewConstMetric(appRequests, prometheus.CounterValue, float64(b.limits.Begun(name)), name)
			to <- prometheus.MustNewConstMetric(appFiles, prometheus.GaugeValue, float64(v.Compiled), name)
			to <- prometheus.MustNewConstMetric(appStored, prometheus.GaugeValue, float64(v.Bytes), name)
		}
	})
}

// Metrics count requests by kind and status, and their times.
type Metrics struct {
	registry    *prometheus.Registry
	requests    requests
	times       []prometheus.Observer // by kind
	refused     prometheus.Counter
	panics      prometheus.Counter
	connections int64

	mu    sync.Mutex
	asked time.Time // when stats were asked for
	stats store.Stats
}

func newMetrics(backend *replica.Replica, of *limits.Limits, tokens *auth.Tokens, isAlone bool) *Metrics {
	counter := func(name, help string) prometheus.CounterOpts {
		return prometheus.CounterOpts{Name: "resb_" + name, Help: help}
	}
	times := prometheus.NewHistogramVec(prometheus.HistogramOpts{Name: "resb_request_seconds", Buckets: bounds,
		Help: "Times from a request's header to the end of its response."}, []string{"kind"})
	m := &Metrics{
		registry: prometheus.NewRegistry(),
		refused:  prometheus.NewCounter(counter("connections_refused_total", "Connections past the limit.")),
		panics:   prometheus.NewCounter(counter("panics_total", "Requests that met a fault of the gateway.")),
	}
	for _, name := range kindNames {
		m.times = append(m.times, times.WithLabelValues(name))
	}
	m.registry.MustRegister(&m.requests, byApp{backend, of}, times, m.refused, m.panics)
	sum := func(of func(replica.Sum) float64) func() float64 { return func() float64 { return of(backend.Sum()) } }
	stats := func(of func(store.Stats) float64) func() float64 { return func() float64 { return of(m.now(backend)) } }
	for _, g := range []struct {
		name, help string
		value      func() float64
	}{
		{"connections", "Connections of callers.", func() float64 { return float64(atomic.LoadInt64(&m.connections)) }},
		{"memory_bytes", "Memory of the gateway.", memory},
		{"requests_now", "Requests of applications on their way.", func() float64 { n, _ := of.Now(); return float64(n) }},
		{"body_bytes_now", "Bytes of requests on their way.", func() float64 { _, n := of.Now(); return float64(n) }},
		{"works_waiting", "Requests that wait for their turn of long work.", func() float64 { return float64(of.Waiting()) }},
		{"changes_waiting", "Changes that are judged, or wait to be stored.", func() float64 { return float64(backend.Changing()) }},
		{"tokens_file_bad", "1 if the file of tokens can't be read, or a line of it is wrong.", func() float64 { return float64(tokens.Bad()) }},
		{"ready", "1 if lookups are answered.", func() float64 { return one(backend.Ready() == nil) }},
		{"writes", "1 if changes are stored, as far as is known.", func() float64 { return one(soon(backend.Writable) == nil) }},
		{"apps", "Applications with bundles.", sum(func(s replica.Sum) float64 { return float64(s.Apps) })},
		{"bundles", "Bundles.", sum(func(s replica.Sum) float64 { return float64(s.Bundles) })},
		{"left_out", "Stored bundles that the library of this gateway refuses.", sum(func(s replica.Sum) float64 { return float64(s.LeftOut) })},
		{"bundles_bytes", "Bytes of the compiled bundles.", sum(func(s replica.Sum) float64 { return float64(s.FilesBytes) })},
		{"stored_bytes", "Bytes of what was submitted for the present bundles.", sum(func(s replica.Sum) float64 { return float64(s.StoredBytes) })},
		{"database_bytes", "Bytes of the store's files, or of etcd's database.", stats(func(s store.Stats) float64 { return float64(s.Bytes) })},
		{"behind_seconds", "For how many seconds the gateway may have lacked a change that the store has.", stats(func(s store.Stats) float64 {
			return time.Since(backend.Behind(s.Sure)).Seconds()
		})},
	} {
		m.Gauge(g.name, g.help, g.value)
	}
	if isAlone { // etcd's own metrics have these figures, and its snapshots no mark
		m.Gauge("free_bytes", "Bytes that are free on the disk of the store.", stats(func(s store.Stats) float64 { return float64(s.Free) }))
		m.Gauge("backup_timestamp_seconds", "When the last backup was made, in seconds since 1970, or 0.", stats(func(s store.Stats) float64 {
			return math.Max(0, float64(s.Backup.Unix()))
		}))
	}
	return m
}

// now returns the figures of the store, which it asks once a second at most. One that doesn't answer gives what it knows.
func (m *Metrics) now(backend *replica.Replica) store.Stats {
	m.mu.Lock()
	defer m.mu.Unlock()
	if time.Since(m.asked) > time.Second {
		_ = soon(func(ctx context.Context) (err error) {
			m.stats, err = backend.Stats(ctx)
			return err
		})
		m.asked = time.Now()
	}
	return m.stats
}

// soon asks the store, which may not answer.
func soon(ask func(context.Context) error) error {
	ctx, cancel := context.WithTimeout(context.Background(), time.Second)
	defer cancel()
	return ask(ctx)
}

func one(is bool) float64 {
	if is {
		return 1
	}
	return 0
}

// memory returns the memory of the process in bytes, or 0.
func memory() float64 {
	var stat procfs.ProcStat
	self, err := procfs.Self()
	if err == nil {
		stat, _ = self.Stat()
	}
	return float64(stat.ResidentMemory())
}

// Gauge adds a metric whose value is asked for when it is read.
func (m *Metrics) Gauge(name, help string, value func() float64) {
	m.registry.MustRegister(prometheus.NewGaugeFunc(prometheus.GaugeOpts{Name: "resb_" + name, Help: help}, value))
}

// Counter adds a metric that only grows, whose value is asked for when it is read.
func (m *Metrics) Counter(name, help string, value func() float64) {
	m.registry.MustRegister(prometheus.NewCounterFunc(prometheus.CounterOpts{Name: "resb_" + name, Help: help}, value))
}

// Connect counts a connection that was opened or closed, and returns how many there are.
func (m *Metrics) Connect(more int64) int64 { return atomic.AddInt64(&m.connections, more) }

// Refuse counts a connection past the limit.
func (m *Metrics) Refuse() { m.refused.Inc() }

func (m *Metrics) count(of Kind, status int, took time.Duration) {
	m.requests[of][status].Add(1)
	m.times[of].Observe(took.Seconds())
}

// measured writes the metrics in Prometheus' text form.
func (c *Call) measured() error {
	c.NoStore()
	c.Status = http.StatusOK
	promhttp.HandlerFor(c.Metrics.registry, promhttp.HandlerOpts{}).ServeHTTP(counting{c.W, &c.Sent}, c.R)
	return nil
}

// A counting writer counts the bytes of a body.
type counting struct {
	http.ResponseWriter
	sent *int
}

// Write writes a part of the body.
func (w counting) Write(b []byte) (n int, err error) {
	n, err = w.ResponseWriter.Write(b)
	*w.sent += n
	return n, err
}
