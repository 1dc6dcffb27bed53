package harness

import (
	"crypto/sha256"
	"encoding/hex"
	"fmt"
	"os"
	"os/exec"
	"path/filepath"
	"strings"
	"sync"
	"testing"
)

// The tokens of the tests: shop has one to write and one to read, bank has one to write, one reads
// both, and one writes all applications whose names begin with `app.`.
const (
	ShopWrites = "shop-writes-0123456789"
	ShopReads  = "shop-reads-0123456789"
	BankWrites = "bank-writes-0123456789"
	BothRead   = "both-read-0123456789"
	AppsWrite  = "apps-write-0123456789"
)

// TokenLine returns the line of a token in the file of tokens.
func TokenLine(app, may, token string) string {
	sum := sha256.Sum256([]byte(token))
	return app + " " + may + " " + hex.EncodeToString(sum[:]) + "\n"
}

// Tokens has the lines of all tokens of the tests.
var Tokens = "# tokens of the tests\n\n" + TokenLine("shop", "write", ShopWrites) +
	TokenLine("shop", "read", ShopReads) + TokenLine("bank", "write", BankWrites) +
	TokenLine("shop", "read", BothRead) + TokenLine("bank", "read", BothRead) +
	TokenLine("app.*", "write", AppsWrite)

var build struct {
	sync.Once
	path, text string
	err        error
}

// Program returns the path of the gateway that the variable GATEWAY names, or builds it once.
func Program(t testing.TB) string {
	t.Helper()
	build.Do(func() {
		if build.path = os.Getenv("GATEWAY"); build.path == "" {
			build.path = Top("deploy/out/bin/gateway")
			text, err := exec.Command(Top("deploy/gateway/build"), build.path).CombinedOutput()
			build.text, build.err = string(text), err
		}
	})
	if build.err != nil {
		t.Fatalf("the gateway isn't built: %v\n%s", build.err, build.text)
	}
	return build.path
}

// Top returns the path of a file of the checkout.
func Top(file string) string {
	at, _ := os.Getwd()
	for ; at != "/"; at = filepath.Dir(at) {
		if _, err := os.Stat(filepath.Join(at, "deploy/gateway/build")); err == nil {
			break
		}
	}
	return filepath.Join(at, file)
}

// A Setup says how a gateway is started.
type Setup struct {
	Folder  string   // of its state and tokens; by default a new one
	Host    string   // where it answers; by default loopback
	Network string   // the namespace in which it runs, or nothing
	Etcd    string   // the members' addresses with commas, or nothing for SQLite
	Options []string // more than those that all have
}

// A Gateway is a process of the gateway.
type Gateway struct {
	*Process
	Address, URL string
	Inside       string // the address of its metrics
	State        string // the folder of its store
	Tokens       string // the file of tokens
}

// New returns a gateway that isn't started yet.
func New(t testing.TB, s Setup) *Gateway {
	t.Helper()
	if s.Folder == "" {
		s.Folder = t.TempDir()
	}
	if s.Host == "" {
		s.Host = "127.0.0.1"
	}
	ports := Ports(t, 2)
	g := &Gateway{Address: fmt.Sprint(s.Host, ":", ports[0]), Inside: fmt.Sprint("http://", s.Host, ":", ports[1]),
		State: filepath.Join(s.Folder, "state"), Tokens: filepath.Join(s.Folder, "tokens")}
	g.URL = "http://" + g.Address
	Must(t, os.WriteFile(g.Tokens, []byte(Tokens), 0o600))
	// no folder but the state's can be written, as in a container with a read-only root
	g.Process = &Process{T: t, Name: "gateway at " + g.Address, Health: g.URL + "/readyz", Env: []string{"TMPDIR=/proc/none"}}
	if s.Network != "" {
		g.Args = []string{"ip", "netns", "exec", s.Network}
	}
	g.Args = append(g.Args, Program(t), "-listen", g.Address, "-inside", strings.TrimPrefix(g.Inside, "http://"), "-tokens", g.Tokens)
	if s.Etcd != "" {
		g.Args = append(g.Args, "-etcd", s.Etcd)
	} else {
		g.Args = append(g.Args, "-state", g.State, "-init")
	}
	g.Args = append(g.Args, s.Options...)
	t.Cleanup(func() {
		g.Kill()
		text := g.Log.Tail(1 << 20)
		if strings.Contains(text, "DATA RACE") || strings.Contains(text, "goroutine ") || t.Failed() && testing.Verbose() {
			t.Errorf("the log of the %s: %s", g.Name, g.Log.Tail(20000))
		}
	})
	return g
}

// Open starts a gateway, and waits until it is ready.
func Open(t testing.TB, s Setup) *Gateway {
	t.Helper()
	g := New(t, s)
	g.Start()
	g.Await(Generous)
	return g
}

// Ask sends a request, with headers in pairs.
func (g *Gateway) Ask(method, path, token, body string, headers ...string) Answer {
	g.T.Helper()
	got, err := Send(Client, method, g.URL+path, token, body, headers...)
	if err != nil {
		g.T.Fatalf("%s %s: %v: %s", method, path, err, g.Log.Tail(2000))
	}
	return got
}

// Make sends a request of an application `app.*`, which must succeed.
func (g *Gateway) Make(method, path, body string, headers ...string) Answer {
	g.T.Helper()
	got := g.Ask(method, path, AppsWrite, body, headers...)
	if got.Status/100 != 2 {
		g.T.Fatalf("%s %s: %d %.300s", method, path, got.Status, got.Body)
	}
	return got
}

// Run runs a command of the gateway to its end.
func Run(t testing.TB, arguments ...string) (status int, text string) {
	t.Helper()
	c := exec.Command(Program(t), arguments...)
	printed, err := c.CombinedOutput()
	if c.ProcessState == nil {
		t.Fatal(err)
	}
	return c.ProcessState.ExitCode(), string(printed)
}
