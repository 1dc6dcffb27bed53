package http

import (
	"context"
	"crypto/ecdsa"
	"crypto/elliptic"
	"crypto/rand"
	"crypto/tls"
	"crypto/x509"
	"crypto/x509/pkix"
	"encoding/json"
	"encoding/pem"
	"errors"
	"fmt"
	"io"
	"math/big"
	"net"
	"net/http"
	"net/http/httptest"
	"os"
	"os/exec"
	"path/filepath"
	"strings"
	"syscall"
	"testing"
	"time"

	"luvdregan.example/resb/deploy/tests/harness"
)

// command runs a command of the gateway to its end, and fails unless it ends with a status and prints a text.
func command(t *testing.T, status int, want string, arguments ...string) string {
	t.Helper()
	got, text := harness.Run(t, arguments...)
	errorIf(t, got != status || !strings.Contains(text, want),
		"%q: status %d: %s, and not %d %s", arguments, got, text, status, want)
	return text
}

// fileOf writes a file.
func fileOf(t *testing.T, text string) string {
	t.Helper()
	path := filepath.Join(t.TempDir(), "file")
	must(t, os.WriteFile(path, []byte(text), 0o600))
	return path
}

// configured makes the files that rows of testdata/config name, and returns their folder.
func configured(t *testing.T) string {
	t.Helper()
	dir := t.TempDir()
	const hash = " 0123456789012345678901234567890123456789012345678901234567890123"
	for name, text := range map[string]string{"tokens": harness.Tokens, "words": "shop", "words.txt": "shop", "empty": "", "login": "gateway password",
		"tokens.words": "shop", "tokens.right": "\nshop sing" + hash, "tokens.hash": "shop read 12", "tokens.name": "shop read" + hash + " name=a/b",
		"tokens.expires": "shop read" + hash + " expires=soon", "tokens.app": "sh*p read" + hash, "tokens.open": "", "de.txt": `de{a{"A"}}`,
		"earlier/changes.db": "x", "folder/file": ""} {
		path := filepath.Join(dir, name)
		_ = os.Mkdir(filepath.Dir(path), 0o700)
		must(t, os.WriteFile(path, []byte(text), 0o600))
	}
	must(t, os.Chmod(filepath.Join(dir, "tokens.open"), 0o666))
	must(t, os.Symlink("tokens", filepath.Join(dir, "link")))
	must(t, syscall.Mkfifo(filepath.Join(dir, "fifo"), 0o600))
	writePair(t, dir, 1, time.Now())
	must(t, os.Rename(filepath.Join(dir, "key"), filepath.Join(dir, "key.other")))
	writePair(t, dir, 2, time.Now())
	return dir
}

// whole returns a file of the configuration that has some members, and what else a usable one has.
func whole(members string) string {
	for _, member := range []string{`"tokens": "DIR/tokens"`, `"state": "DIR/state"`, `"listen": "127.0.0.1:0"`, `"init": true`} {
		if name, _, _ := strings.Cut(member, " "); !strings.Contains(members, name) {
			members += ",\n " + member
		}
	}
	return "{\n" + strings.TrimPrefix(members, ",\n") + "\n}\n"
}

// starts runs a gateway that must end by itself, and returns its status and what it printed.
func starts(t *testing.T, arguments ...string) (status int, text string) {
	t.Helper()
	ctx, cancel := context.WithTimeout(context.Background(), generous)
	defer cancel()
	c := exec.CommandContext(ctx, harness.Program(t), arguments...)
	printed, _ := c.CombinedOutput()
	errorIf(t, ctx.Err() != nil, "%q doesn't end: %s", arguments, printed)
	return c.ProcessState.ExitCode(), string(printed)
}

// TestErrorsOfTheConfiguration names the file, the line, the option and what is wrong there, with -check-config and at a start alike. No file
// is changed.
func TestErrorsOfTheConfiguration(t *testing.T) {
	t.Parallel()
	dir := configured(t)
	before := contentOf(t, dir)
	rows := sectionOf(t, "config", "files")
	files := len(rows)
	rows = append(rows, sectionOf(t, "config", "members")...)
	harness.Together(4, func(w int) {
		for i := w; i < len(rows); i += 4 {
			text, want, _ := strings.Cut(rows[i], "⇒ ")
			if text = unescaped(strings.TrimSuffix(text, " ")); i >= files {
				text = whole(" " + text)
			}
			file := filepath.Join(t.TempDir(), "gateway.json")
			named := strings.NewReplacer("DIR", dir, "THIS", file)
			must(t, os.WriteFile(file, []byte(named.Replace(text)), 0o600))
			want = "resb-gateway: " + file + ": " + named.Replace(strings.TrimPrefix(want, "file: "))
			status, said := starts(t, "-check-config", "-config", file)
			errorIf(t, status != 2 || !strings.HasPrefix(said, want), "%s: -check-config: status %d: %s, and not %s", text, status, said, want)
			status, again := starts(t, "-config", file)
			errorIf(t, status < 1 || again != said, "%s: a start: status %d: %s, and not %s", text, status, again, said)
		}
	})
	equal(t, contentOf(t, dir), before)
	command(t, 2, "no such file", "-config", filepath.Join(dir, "none"))
	command(t, 0, "can be used", "-check-config", "-config", fileOf(t, strings.ReplaceAll(whole(""), "DIR", dir)))
}

// contentOf returns the regular files below a folder.
func contentOf(t *testing.T, folder string) map[string]string {
	t.Helper()
	all := map[string]string{}
	must(t, filepath.WalkDir(folder, func(path string, entry os.DirEntry, err error) error {
		if err == nil && entry.Type().IsRegular() {
			content, _ := os.ReadFile(path)
			all[path] = string(content)
		}
		return err
	}))
	return all
}

// TestCheckConfig ends with 0 or 2, and makes nothing, also beside a gateway over the same folder. The command line wins over the file.
func TestCheckConfig(t *testing.T) {
	t.Parallel()
	state, tokens, wrong := filepath.Join(t.TempDir(), "state"), fileOf(t, harness.Tokens), fileOf(t, "shop")
	check := func(status int, want string, more ...string) {
		t.Helper()
		command(t, status, want, append([]string{"-check-config", "-init", "-state", state, "-tokens", tokens}, more...)...)
	}
	check(0, "can be used")
	check(0, "can be used", "-config", fileOf(t, `{"each": 4}`))
	check(0, "can be used", "-config", fileOf(t, `{"listen": "nowhere", "tokens": "/none"}`), "-listen", "127.0.0.1:0")
	check(2, "line 2", "-config", fileOf(t, "{\n\"eech\": 4}"))
	check(2, "no such file", "-tokens", filepath.Join(state, "none"))
	check(2, "line 1", "-tokens", wrong)
	check(2, "no such file", "-init=false")
	check(2, "nowhere", "-listen", "nowhere")
	check(2, "tls", "-cert", wrong, "-key", wrong)
	check(2, "-each", "-each", "x")
	check(0, "can be used", "-audit-log", filepath.Join(state, "audit")) // in a folder that the start makes
	if _, err := os.Stat(state); !os.IsNotExist(err) {
		t.Error("the folder of the state was made")
	}
	s := prepare(t)
	s.Args = append(s.Args, "-audit-log", filepath.Join(s.State, "audit"))
	s.Restart()
	s.put("de", `de{a{"A"}}`)
	eventually(t, "the change is logged", func() bool { return len(journal(t, filepath.Join(s.State, "audit"))) == 1 })
	before := contentOf(t, s.State) // while the gateway runs
	command(t, 0, "can be used", append([]string{"-check-config"}, s.Args[1:]...)...)
	equal(t, contentOf(t, s.State), before)
	s.put("de", `de{a{"B"}}`)
	command(t, 0, "resb-gateway ", "-version")
}

// TestTheExampleHasEveryOption compares gateway.example.json with the options that the command line has.
func TestTheExampleHasEveryOption(t *testing.T) {
	t.Parallel()
	content, err := os.ReadFile(harness.Top("deploy/gateway.example.json"))
	var all map[string]json.RawMessage
	if err != nil || json.Unmarshal(content, &all) != nil {
		t.Fatal(err, string(content))
	}
	help := command(t, 0, "-listen", "-help")
	for _, line := range strings.Split(help, "\n") {
		name := strings.TrimPrefix(strings.TrimSpace(line), "-")
		if name, _, _ = strings.Cut(name, " "); !strings.HasPrefix(line, "  -") || strings.Contains(" config check-config version help ", " "+name+" ") {
			continue
		}
		errorIf(t, all[name] == nil, "the example lacks %s", name)
		delete(all, name)
	}
	errorIf(t, len(all) > 0, "more than the options: %v", all)
}

// TestAGatewayThatFailsLeavesNoToken starts a gateway with a further token: at an address that is taken, and well.
func TestAGatewayThatFailsLeavesNoToken(t *testing.T) {
	t.Parallel()
	taken, err := net.Listen("tcp", "127.0.0.1:0")
	must(t, err)
	defer taken.Close()
	const added = "a-token-that-is-added-later"
	more := fileOf(t, harness.TokenLine("post", "write", added))
	s := prepare(t, "-add-tokens", more)
	for _, option := range []string{"-listen", "-inside"} {
		command(t, 1, option+": listen tcp ", append(append([]string{}, s.Args[1:]...), option, taken.Addr().String())...)
	}
	if content, _ := os.ReadFile(s.Tokens); string(content) != harness.Tokens {
		t.Errorf("%s", content)
	}
	s.Restart()
	eventually(t, "the token is stored", func() bool {
		content, _ := os.ReadFile(s.Tokens)
		_, err := os.Stat(more)
		return strings.Contains(string(content), harness.TokenLine("post", "write", added)) && os.IsNotExist(err)
	})
	if got := s.ask("GET", "/v1/post", added, ""); got.Status != 200 {
		t.Errorf("%d %s", got.Status, got.Body)
	}
}

// writePair makes a certificate for 127.0.0.1 with a serial number, in the files `cert` and `key` of a folder.
func writePair(t *testing.T, folder string, serial int64, at time.Time) {
	t.Helper()
	key, err := ecdsa.GenerateKey(elliptic.P256(), rand.Reader)
	must(t, err)
	about := x509.Certificate{SerialNumber: big.NewInt(serial), Subject: pkix.Name{CommonName: "gateway"}, NotAfter: time.Now().Add(time.Hour), DNSNames: []string{"localhost"},
		IPAddresses: []net.IP{net.IPv4(127, 0, 0, 1)}}
	cert, err := x509.CreateCertificate(rand.Reader, &about, &about, &key.PublicKey, key)
	must(t, err)
	secret, err := x509.MarshalECPrivateKey(key)
	must(t, err)
	for name, block := range map[string]*pem.Block{"key": {Type: "EC PRIVATE KEY", Bytes: secret}, "cert": {Type: "CERTIFICATE", Bytes: cert}} {
		must(t, os.WriteFile(filepath.Join(folder, name), pem.EncodeToMemory(block), 0o600))
		_ = os.Chtimes(filepath.Join(folder, name), at, at)
	}
}

// TestTLS speaks HTTP over TLS, and changes the certificate meanwhile, by files that are older than the ones before too.
func TestTLS(t *testing.T) {
	t.Parallel()
	folder := t.TempDir()
	writePair(t, folder, 1, time.Now())
	s := prepare(t, "-cert", filepath.Join(folder, "cert"), "-key", filepath.Join(folder, "key"), "-header-time", "3s", "-read-time", "4s")
	s.Health = s.Inside + "/readyz"
	s.Restart()
	trusting := &tls.Config{InsecureSkipVerify: true}
	get := func() (*http.Response, error) {
		client := &http.Client{Transport: &http.Transport{TLSClientConfig: trusting, DisableKeepAlives: true}}
		r, _ := http.NewRequest("GET", "https://"+s.Address+"/v1/shop", nil)
		r.Header.Set("Authorization", "Bearer "+shopReads)
		got, err := client.Do(r)
		if err == nil {
			_ = got.Body.Close()
		}
		return got, err
	}
	got, err := get()
	if err != nil || got.StatusCode != 200 || got.TLS.PeerCertificates[0].SerialNumber.Int64() != 1 || got.Header.Get("Strict-Transport-Security") == "" {
		t.Fatalf("%v, %v", err, got)
	}
	command(t, 0, "", "-healthcheck", s.Address)
	command(t, 1, "https://", "-healthcheck", s.Address+"/none")
	if text := s.raw("GET / HTTP/1.1\r\nHost: x\r\n\r\n"); !strings.HasPrefix(text, "HTTP/1.0 400 ") {
		t.Errorf("without TLS: %q", text)
	}
	slow := [][2]string{{"\x16\x03\x01\x02", ""}, {"", ""}, {"GET /v1/sh", "408"}, {"GET / HTTP/1.1\r\nHost: x\r\nA: b", "408"},
		{begins("w PUT /v1/shop/fr.txt", "Content-Length: 20\r\n\r\nfr{"), "408"}}
	ended := make(chan struct{})
	go func() {
		defer close(ended)
		harness.Together(len(slow), func(i int) {
			c := s.dial()
			if i > 0 {
				c = tls.Client(c, trusting)
			}
			_, _ = io.WriteString(c, slow[i][0])
			text, err := io.ReadAll(c)
			if statusOfText(string(text)) != slow[i][1] || strings.Count(string(text), "HTTP/1.1 ") > 1 || errors.Is(err, os.ErrDeadlineExceeded) {
				t.Errorf("%q: %q, %v", slow[i][0], text, err)
			}
		})
	}()
	renew := func(serial int64, at time.Time, hangup bool) {
		writePair(t, folder, serial, at)
		if hangup {
			s.Signal(syscall.SIGHUP)
		}
		eventually(t, "the certificate is read again", func() bool {
			got, err := get()
			return err == nil && got.TLS.PeerCertificates[0].SerialNumber.Int64() == serial
		})
	}
	renew(2, time.Now().Add(-24*time.Hour), false)
	isAtOnce := false
	for serial := int64(3); serial < 20 && !isAtOnce; serial++ { // the next look without a signal comes a second after the last one
		began := time.Now()
		renew(serial, began.Add(-24*time.Hour), true)
		isAtOnce = time.Since(began) < 500*time.Millisecond
	}
	errorIf(t, !isAtOnce, "a hangup doesn't have the certificate read")
	must(t, os.WriteFile(filepath.Join(folder, "cert"), []byte("half"), 0o600))
	time.Sleep(1500 * time.Millisecond)
	if got, err := get(); err != nil || got.StatusCode != 200 {
		t.Errorf("with a wrong certificate in the file: %v", err)
	}
	ends := s.measured()["resb_certificate_expiry_timestamp_seconds"]
	errorIf(t, s.measured()["resb_certificate_bad"] != 1 || ends < float64(time.Now().Unix()) || ends > float64(time.Now().Unix()+3600), "%v %v", ends, s.measured())
	<-ended
}

// TestHealthCheck asks servers that are ready, aren't, are slow or lead elsewhere.
func TestHealthCheck(t *testing.T) {
	t.Parallel()
	serve := func(ready int) *httptest.Server {
		to := httptest.NewUnstartedServer(http.HandlerFunc(func(w http.ResponseWriter, r *http.Request) {
			switch r.URL.Path {
			case "/elsewhere":
				http.Redirect(w, r, "/readyz", http.StatusFound)
			case "/healthz":
			default:
				w.WriteHeader(ready)
			}
		}))
		t.Cleanup(to.Close)
		return to
	}
	up, replaying, secure, gone := serve(200), serve(503), serve(200), serve(200)
	up.Start()
	replaying.Start()
	secure.StartTLS()
	gone.Start()
	gone.Close()
	host := func(s *httptest.Server) string { return s.Listener.Addr().String() }
	for _, c := range []struct {
		given  string
		status int
	}{{host(up), 0}, {up.URL + "/", 0}, {host(up) + "/healthz", 0}, {host(up) + "/elsewhere", 1}, {host(replaying), 1}, {host(replaying) + "/healthz", 0},
		{secure.URL, 0}, {host(secure), 1}, {host(gone), 1}, {"not|an|address", 1}, {"", 2}, {host(up) + " " + host(up), 2}} {
		if text := command(t, c.status, "", append([]string{"healthcheck"}, strings.Fields(c.given)...)...); (text == "") != (c.status == 0) {
			t.Errorf("%q: %s", c.given, text)
		}
	}
}

// TestTheServiceManagerIsNotified has a gateway tell in NOTIFY_SOCKET that it serves once it does, and that it ends. Its log is JSON.
func TestTheServiceManagerIsNotified(t *testing.T) {
	t.Parallel()
	for _, name := range []string{filepath.Join(t.TempDir(), "n"), fmt.Sprintf("@gateway-test-%d", os.Getpid())} {
		socket, err := net.ListenUnixgram("unixgram", &net.UnixAddr{Name: name, Net: "unixgram"})
		must(t, err)
		defer socket.Close()
		_ = socket.SetReadDeadline(time.Now().Add(generous))
		s := prepare(t, "-log", "json")
		s.Process.Env = append(s.Process.Env, "NOTIFY_SOCKET="+name)
		s.Restart()
		said := func(part string) bool {
			buffer := make([]byte, 1000)
			n, err := socket.Read(buffer)
			return err != nil || strings.Contains(string(buffer[:n]), part)
		}
		eventually(t, "it serves", func() bool { return said("READY=1") })
		s.leave()
		eventually(t, "it ends", func() bool { return said("STOPPING=1") })
		text, _, _ := strings.Cut(s.Log.Tail(1<<20), "ended: ")
		for _, line := range strings.Split(strings.TrimSuffix(text, "\n"), "\n") {
			var got struct{ Time, Part, Message string }
			if err := json.Unmarshal([]byte(line), &got); err != nil || got.Message == "" || got.Part == "" {
				t.Errorf("%v %q", err, line)
			}
		}
	}
}

// TestAStartThatWaits doesn't extend the start while etcd doesn't answer. A hangup ends no start.
func TestAStartThatWaits(t *testing.T) {
	t.Parallel()
	c := harness.NewCluster(t, t.TempDir(), 1, nil)
	name := filepath.Join(t.TempDir(), "n")
	socket, err := net.ListenUnixgram("unixgram", &net.UnixAddr{Name: name, Net: "unixgram"})
	must(t, err)
	defer socket.Close()
	_ = socket.SetReadDeadline(time.Now().Add(generous))
	g := harness.New(t, harness.Setup{Etcd: c.From(0)})
	g.Env = append(g.Env, "NOTIFY_SOCKET="+name)
	g.Start()
	waits, buffer := 0, make([]byte, 1000)
	for said := ""; !strings.Contains(said, "READY=1"); said = string(buffer) {
		n, err := socket.Read(buffer[:cap(buffer)])
		must(t, err)
		g.Signal(syscall.SIGHUP) // of logrotate, which ends no start
		switch buffer = buffer[:n]; {
		case strings.Contains(string(buffer), "EXTEND") && waits > 0:
			errorIf(t, waits < 3, "the start is extended")
		case string(buffer) == "STATUS=waits for the store":
			if waits++; waits == 3 {
				harness.StartAll(c.Members)
			}
		}
	}
}

// TestEnds has gateways end: with an upload on its way, which is answered and stored; and with time for a proxy to notice.
func TestEnds(t *testing.T) {
	s := beside(t)
	c := s.dial()
	fmt.Fprint(c, begins("w PUT /v1/shop/de.txt", "Content-Length: 10\r\n\r\nde{a"))
	s.awaitMetric("resb_requests_now", func(n float64) bool { return n == 1 })
	s.Signal(syscall.SIGINT)
	eventually(t, "it takes no more connections", func() bool {
		more, err := net.Dial("tcp", s.Address)
		if err == nil {
			_ = more.Close()
		}
		return err != nil
	})
	fmt.Fprint(c, `{"A"}}`)
	if got, _ := io.ReadAll(c); statusOfText(string(got)) != "201" {
		t.Errorf("%q", got)
	}
	equal(t, s.Wait(), 0)
	s.Restart()
	s.is("de/a", "A")
	s = open(t, "-drain", "1m")
	s.put("de", `de{a{"A"}}`)
	s.Signal(syscall.SIGTERM)
	eventually(t, "it says that it ends", func() bool { return !s.Healthy() })
	s.is("de/a", "A")
	s = open(t, "-drain", "10ms")
	s.leave()
}

// TestALostFolder has the settings of the example, which take no folder without a store, be it new or emptied, until `init` makes one.
func TestALostFolder(t *testing.T) {
	t.Parallel()
	dir := t.TempDir()
	given := []string{"-config", harness.Top("deploy/gateway.example.json"), "-state", dir, "-tokens", fileOf(t, harness.Tokens),
		"-listen", "127.0.0.1:0", "-inside", "127.0.0.1:0", "-log=text"}
	lost := func() {
		t.Helper()
		for _, more := range []string{"-check-config", "-log=text"} {
			status, said := starts(t, append(given, more)...)
			errorIf(t, status < 1 || !strings.Contains(said, "there is no store in this folder"), "%s: status %d: %s", more, status, said)
		}
	}
	lost()
	for i := 0; i < 2; i++ { // the second one leaves it as it is
		command(t, 0, "", "init", "-state", dir)
		command(t, 0, "can be used", append(given, "-check-config")...)
	}
	for path := range contentOf(t, dir) {
		must(t, os.Remove(path))
	}
	lost()
	command(t, 2, "resb-gateway init: -state is missing\nusage:", "init")
	command(t, 2, "resb-gateway init: there are 1 arguments in place of 0\nusage:", "init", "-state", dir, "more")
}

// TestTheLoginOfEtcd has etcd ask who one is: -check-config says what a start says, of a wrong password, of a user without rights, and of an
// etcd that isn't there.
func TestTheLoginOfEtcd(t *testing.T) {
	t.Parallel()
	c := harness.NewCluster(t, t.TempDir(), 1, nil)
	harness.StartAll(c.Members)
	for _, words := range []string{"user add root:root", "user grant-role root root", "user add gateway:right", "user add idle:idle", "role add all",
		"role grant-permission all --prefix=true readwrite m/", "user grant-role gateway all", "auth enable"} {
		if text, err := c.Ctl(strings.Fields(words)...); err != nil {
			t.Fatalf("%s: %v: %s", words, err, text)
		}
	}
	dir := configured(t)
	login := filepath.Join(dir, "login")
	members := unescaped(fmt.Sprintf(` "etcd": %q,\n "state": "",\n "etcd-login": %q`, c.From(0), login))
	file := fileOf(t, strings.ReplaceAll(whole(members), "DIR", dir))
	for _, of := range []struct{ login, want string }{{"gateway wrong", `line 4: "etcd-login": etcd: etcdserver: authentication failed`},
		{"idle idle", `line 2: "etcd": the store can't be reached: etcdserver: permission denied`}, {"gateway right", ""}, {"gone", `line 2: "etcd": etcd: context deadline exceeded`}} {
		must(t, os.WriteFile(login, []byte(of.login), 0o600))
		if of.login == "gone" {
			c.Members[0].Kill()
			must(t, os.WriteFile(login, []byte("gateway right"), 0o600))
		}
		if of.want == "" {
			command(t, 0, "can be used", "-check-config", "-config", file)
			continue
		}
		said := command(t, 2, "resb-gateway: "+file+": "+of.want, "-check-config", "-config", file)
		status, again := starts(t, "-config", file)
		errorIf(t, status != 1 || again != said, "a start: status %d: %s, and not %s", status, again, said)
	}
}
