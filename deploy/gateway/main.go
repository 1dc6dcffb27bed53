// The gateway answers HTTP for applications over resource bundles, which it stores in a database of this machine, or in an etcd that several
// gateways share. README.md says how it is used and what it promises.
package main

import (
	"bytes"
	"context"
	"errors"
	"flag"
	"fmt"
	"log"
	"net"
	"net/http"
	"os"
	"os/signal"
	"runtime/debug"
	"strings"
	"syscall"
	"time"

	"github.com/coreos/go-systemd/daemon"

	"luvdregan.example/resb/deploy/internal/api"
	"luvdregan.example/resb/deploy/internal/front"
	"luvdregan.example/resb/deploy/internal/replica"
	"luvdregan.example/resb/deploy/internal/serve"
	"luvdregan.example/resb/deploy/internal/settings"
	"luvdregan.example/resb/deploy/internal/wire"
)

// version and commit name the sources of the gateway; `-ldflags "-X main.version=.. -X main.commit=.."` sets them.
var version, commit = "unknown", "unknown"

// Requests leave much garbage and little is kept, so memory is collected less often as long as there is little of it beside the bodies of
// requests.
const (
	garbage   = 400 // percent
	softLimit = 1 << 30
)

// usage is what -help prints before the options.
var usage = "usage: resb-gateway OPTIONS\n" + strings.ReplaceAll(operatorUsage+healthUsage+settings.Usage+tokenUsage, "usage:", "      ") + "\nOptions:\n"

func main() {
	switch command := append(os.Args, "")[1]; command {
	case "healthcheck", "-healthcheck", "--healthcheck":
		os.Exit(healthCommand(os.Args[2:], os.Stderr))
	case "token":
		os.Exit(tokenCommand(os.Args[2:], os.Stdout, os.Stderr))
	case "options":
		os.Exit(settings.Describe(os.Args[2:], os.Stdout))
	case "init", "backup", "restore", "copy", "export", "list":
		os.Exit(operatorCommand(command, os.Args[2:], os.Stdout, os.Stderr))
	}
	s, err := settings.Read(os.Args[1:], usage, os.Stderr)
	if errors.Is(err, flag.ErrHelp) {
		return
	}
	serve.StartLog(s.Log)
	status := 0
	switch {
	case err != nil:
		status = fail(s, err, 2)
	case s.Version:
		fmt.Printf("resb-gateway %s (%s)\n", version, commit)
	case s.CheckOnly:
		if _, err := s.Open(); err != nil {
			status = fail(s, err, 2)
		} else {
			fmt.Println("the configuration can be used")
		}
	default:
		if err := run(s); err != nil {
			status = fail(s, err, 1)
		}
	}
	serve.FlushLog()
	os.Exit(status)
}

// fail reports an error in the form of the log, and returns the status.
func fail(s settings.Settings, err error, status int) int {
	if s.Log == "json" {
		log.Printf("gateway: %v", err)
	} else {
		serve.Print("resb-gateway: " + err.Error())
	}
	return status
}

// run serves until a signal ends it.
func run(s settings.Settings) error {
	if os.Getenv("GOGC") == "" {
		debug.SetGCPercent(garbage)
	}
	if os.Getenv("GOMEMLIMIT") == "" {
		debug.SetMemoryLimit(softLimit + s.Front.Limits.Bytes)
	}
	leaving, stop := signal.NotifyContext(context.Background(), os.Interrupt, syscall.SIGTERM)
	defer stop()
	hangups := make(chan os.Signal, 1)
	signal.Notify(hangups, syscall.SIGHUP) // also during a long start, which it would end
	p, err := s.Open()
	if err != nil {
		return err
	}
	outer, err := net.Listen("tcp", s.Listen)
	if err != nil {
		return s.Wrong("listen", ": %w", err)
	}
	opened := make(chan *replica.Replica, 1)
	go func() {
		if err := announce(leaving, opened); err != nil {
			log.Printf("gateway: NOTIFY_SOCKET: %v", err)
		}
	}()
	g, err := newGateway(leaving, s, p)
	if err != nil {
		return err
	}
	opened <- g.Backend
	defer g.close()
	go g.refresh(leaving, hangups, p.Pair)
	if s.Inside != "" {
		inner, err := net.Listen("tcp", s.Inside)
		if err != nil {
			return s.Wrong("inside", ": %w", err)
		}
		inside := g.server(g.Handler.Inside()) // the metrics, and whether the gateway is ready
		go func() { _ = inside.Serve(inner) }()
		defer inside.Close()
	}
	return g.listenOn(outer, p.Pair)
}

// A gateway is a handler with the settings of its listeners.
type gateway struct {
	settings.Settings
	*front.Handler
	leaving   context.Context // is done when the gateway ends
	refreshed chan struct{}   // is closed when nothing is read again any more
	unkept    string          // why the tokens of -add-tokens weren't stored, or empty
	access    *serve.Journal
	audit     *serve.Journal
}

// newGateway opens the store and the logs, and begins to follow the store.
func newGateway(leaving context.Context, s settings.Settings, p settings.Parts) (g *gateway, err error) {
	g = &gateway{Settings: s, leaving: leaving, refreshed: make(chan struct{})}
	of, refusal, err := s.FindStore() // which may make the folder of the logs
	if err != nil {
		return nil, err
	}
	if refusal != nil {
		log.Print(refusal)
	}
	if g.access, err = serve.OpenJournal(s.AccessLog); err != nil {
		return nil, s.Wrong("access-log", ": %w", err)
	}
	if g.audit, err = serve.OpenJournal(s.AuditLog); err != nil {
		return nil, s.Wrong("audit-log", ": %w", err)
	}
	options := s.Front
	options.Access, options.Audit = serve.JournalOf(g.access), serve.JournalOf(g.audit)
	options.Version, options.Commit, options.Leaving = version, commit, leaving
	g.Handler = api.New(&front.Handler{Backend: replica.Open(of, p.Engine, s.Replica), Engine: p.Engine, Tokens: p.Tokens, Options: options})
	g.Metrics.Counter("log_lines_dropped_total", "Lines of logs that were left out, as nobody took them.", serve.Dropped)
	g.Metrics.Gauge("certificate_expiry_timestamp_seconds", "When the certificate expires, in seconds since 1970, or 0 without one.", p.Pair.Expires)
	g.Metrics.Gauge("certificate_bad", "1 if the files of the certificate can't be read again.", p.Pair.Bad)
	g.Metrics.Gauge("log_lines_waiting", "Lines of logs that wait to be written.", serve.Queued)
	return g, nil
}

// close ends what newGateway began.
func (g *gateway) close() {
	g.Backend.Close()
	g.access.Flush()
	g.audit.Flush()
}

// refresh reads the file of tokens and the certificates again when they change, and opens the logs again at each hangup.
func (g *gateway) refresh(ctx context.Context, hangups <-chan os.Signal, p *serve.Pair) {
	defer close(g.refreshed)
	ticks := time.NewTicker(time.Second)
	soon := time.NewTicker(50 * time.Millisecond) // new tokens are stored at once, as the gateway may end soon
	defer soon.Stop()
	defer ticks.Stop()
	for {
		select {
		case <-ctx.Done():
			return
		case <-ticks.C:
			g.keepTokens()
			g.Tokens.Reload(false)
			p.Again()
		case <-soon.C:
			if g.keepTokens(); g.AddTokens == "" || g.unkept != "" {
				soon.Stop()
			}
		case <-hangups:
			g.Tokens.Reload(true)
			p.Again()
			for _, j := range []*serve.Journal{g.access, g.audit} {
				if err := j.Again(); err != nil {
					log.Print(err)
				}
			}
		}
	}
}

// keepTokens stores the tokens of -add-tokens once lookups are answered, so that a gateway that fails to start leaves none.
func (g *gateway) keepTokens() {
	if g.AddTokens == "" || g.Backend.Ready() != nil {
		return
	}
	if err := g.Tokens.Keep(); err != nil {
		if g.unkept != err.Error() {
			log.Printf("tokens: those of %s can't be stored: %v", g.AddTokens, err)
		}
		g.unkept = err.Error()
		return
	}
	_ = os.Remove(g.AddTokens)
	g.AddTokens = ""
}

// server returns a server with the limits of the settings.
func (g *gateway) server(handler http.Handler) *http.Server {
	return &http.Server{
		Handler: handler, ReadHeaderTimeout: g.HeaderTime, ReadTimeout: g.Front.ReadTime, WriteTimeout: g.WriteTime,
		IdleTimeout: g.IdleTime, MaxHeaderBytes: 16 << 10, ConnState: serve.State, ConnContext: wire.WithConn,
		ErrorLog: log.New(quiet{}, "", 0),
	}
}

// Quiet leaves out what net/http says of each bad connection, but not that it can't accept any.
type quiet struct{}

func (quiet) Write(b []byte) (int, error) {
	if bytes.HasPrefix(b, []byte("http: Accept error")) {
		log.Printf("gateway: %s", bytes.TrimSpace(b))
	}
	return len(b), nil
}

// listenOn answers until the gateway is to end; then what is on its way is answered, and no more taken.
func (g *gateway) listenOn(outer net.Listener, p *serve.Pair) error {
	server := g.server(g)
	var l net.Listener = &serve.Listener{Listener: outer, Metrics: g.Metrics, Most: g.Connections, Plain: p == nil}
	if p != nil {
		l = serve.NewSecure(l, p.Configuration(), g.HeaderTime)
	}
	ended := make(chan error, 1)
	go func() { ended <- server.Serve(l) }()
	log.Printf("gateway: answers at %s", outer.Addr())
	select {
	case err := <-ended:
		return err
	case err := <-g.Backend.WentBack():
		return fmt.Errorf("%w; the next start reads it anew", err)
	case <-g.leaving.Done():
	}
	log.Print("gateway: ends")
	_, _ = daemon.SdNotify(false, stopping)
	<-g.refreshed
	g.keepTokens() // of a gateway that ends right after its start
	select {
	case err := <-ended:
		return err
	case <-time.After(g.Drain):
	}
	late, cancel := context.WithTimeout(context.Background(), g.Leave)
	defer cancel()
	if err := server.Shutdown(late); err != nil {
		_ = server.Close()
		return fmt.Errorf("requests were on their way for %v; they are cut off", g.Leave)
	}
	return nil
}

// Messages to the service manager.
const (
	serving  = daemon.SdNotifyReady + "\nSTATUS=serves"
	filling  = "STATUS=reads the bundles\nEXTEND_TIMEOUT_USEC=30000000"
	waiting  = "STATUS=waits for the store"
	stopping = daemon.SdNotifyStopping + "\nSTATUS=answers what is on its way"
)

// announce tells the service manager, if there is one, once lookups are answered (sd_notify(3)). Reading the bundles may take long, so the time
// for the start is extended while the store is opened and checked, and while bundles are read. It isn't while the store doesn't answer: a start
// must end.
func announce(ctx context.Context, opened <-chan *replica.Replica) error {
	ticks := time.NewTicker(200 * time.Millisecond)
	defer ticks.Stop()
	var of *replica.Replica
	last := int64(-1)
	for n := 0; of == nil || of.Ready() != nil; n++ {
		if n%10 == 0 {
			message := filling
			if of != nil {
				now := of.Read()
				if now == last {
					message = waiting
				}
				last = now
			}
			if isThere, err := daemon.SdNotify(false, message); !isThere {
				return err
			}
		}
		select {
		case of = <-opened:
		case <-ctx.Done():
			return nil
		case <-ticks.C:
		}
	}
	_, err := daemon.SdNotify(false, serving)
	return err
}
