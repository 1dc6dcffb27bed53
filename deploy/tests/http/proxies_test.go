package http

import (
	"context"
	"crypto/tls"
	"fmt"
	"net"
	"net/http"
	"os"
	"os/exec"
	"path/filepath"
	"strings"
	"syscall"
	"testing"
	"time"

	"luvdregan.example/resb/deploy/tests/harness"
)

// A proxy is a program whose settings deploy/proxies has. Settings for a test replace texts of the file.
type proxy struct {
	file     string
	replaced []string // CERT, KEY and PORT stand for those of the test
	compress string   // a line that has it compress replies
	after    string   // before which that line belongs
	around   string   // FILE stands for the settings, FOLDER for a folder
	arguments,
	ports []string
}

var proxies = map[string]proxy{
	"nginx": {"nginx.conf", []string{"/etc/ssl/gateway.pem", "CERT", "/etc/ssl/private/gateway.key", "KEY", "listen 443", "listen 127.0.0.1:PORT"},
		"gzip on; gzip_types *;", "gzip off;", "user root; pid FOLDER/pid; events {} http { access_log off; client_body_temp_path FOLDER/a; proxy_temp_path FOLDER/b; " +
			"fastcgi_temp_path FOLDER/c; uwsgi_temp_path FOLDER/d; scgi_temp_path FOLDER/e;\nFILE }",
		[]string{"-e", "stderr", "-g", "daemon off;", "-p", "FOLDER", "-c", "FOLDER/settings"}, nil},
	"caddy": {"Caddyfile", []string{"gateway.example {", "https://localhost:PORT {\n\ttls CERT KEY"}, "encode { \n gzip \n minimum_length 1 \n }", "header Strict",
		"{\n admin off\n auto_https disable_redirects\n}\nFILE", []string{"run", "--adapter", "caddyfile", "--config", "FOLDER/settings"}, nil},
	"haproxy": {"haproxy.cfg", []string{"/etc/haproxy/gateway.pem", "BOTH", "bind :443", "bind 127.0.0.1:PORT", "maxconn 16384", "maxconn 1000"}, "compression algo gzip\n    compression type text/plain",
		"acl changes method", "FILE\n", []string{"-db", "-f", "FOLDER/settings"}, nil},
}

// startProxy starts a proxy before a gateway, and returns its address.
func startProxy(t *testing.T, name string, s *site, compresses bool) string {
	t.Helper()
	p, folder := proxies[name], t.TempDir()
	writePair(t, folder, 1, time.Now())
	cert, key := filepath.Join(folder, "cert"), filepath.Join(folder, "key")
	first, _ := os.ReadFile(cert)
	second, _ := os.ReadFile(key)
	must(t, os.WriteFile(filepath.Join(folder, "both"), append(first, second...), 0o600))
	settings, err := os.ReadFile(harness.Top("deploy/proxies/" + p.file))
	must(t, err)
	text := strings.NewReplacer(append(p.replaced, "127.0.0.1:6422", s.Address, "gateway.example", "localhost")...).Replace(string(settings))
	if compresses {
		before, after, found := strings.Cut(text, p.after)
		errorIf(t, !found, "%s lacks %s", p.file, p.after)
		text = before + p.compress + "\n" + p.after + after
		if name == "nginx" {
			text = strings.Replace(text, p.after, "", 1)
		}
	}
	address := fmt.Sprint("127.0.0.1:", harness.Ports(t, 1)[0])
	_, port, _ := net.SplitHostPort(address)
	fill := strings.NewReplacer("FILE", text, "FOLDER", folder).Replace
	filled := strings.NewReplacer("CERT", cert, "KEY", key, "BOTH", filepath.Join(folder, "both"), "PORT", port).Replace(fill(p.around))
	must(t, os.WriteFile(filepath.Join(folder, "settings"), []byte(filled), 0o600))
	run := &harness.Process{T: t, Name: name, Args: append([]string{name}, p.arguments...), Health: "https://" + address,
		Env: []string{"HOME=" + folder, "XDG_DATA_HOME=" + folder, "XDG_CONFIG_HOME=" + folder}}
	for i := range run.Args {
		run.Args[i] = fill(run.Args[i])
	}
	t.Cleanup(func() {
		run.Signal(syscall.SIGTERM) // nginx ends its workers then
		run.Wait()
		if t.Failed() {
			t.Log(run.Log.Tail(5000))
		}
	})
	run.Start()
	run.Await(generous)
	return address
}

// TestProxies asks a gateway through each proxy with the settings of deploy/proxies: all is answered as by the gateway itself, logs name the caller,
// and where the proxy compresses replies their weak tags still hold.
func TestProxies(t *testing.T) {
	for name := range proxies {
		name := name
		if _, err := exec.LookPath(name); err != nil {
			t.Logf("skipped: there is no %s", name)
			continue
		}
		t.Run(name, func(t *testing.T) {
			access := filepath.Join(t.TempDir(), "access")
			s := beside(t, "-proxies", "127.0.0.1", "-access-log", access, "-patience", "3s")
			address := ""
			dial := func(ctx context.Context, network, _ string) (net.Conn, error) {
				return (&net.Dialer{LocalAddr: &net.TCPAddr{IP: net.IPv4(127, 0, 0, 2)}}).DialContext(ctx, network, address)
			}
			client := &http.Client{Timeout: time.Minute, Transport: &http.Transport{TLSClientConfig: &tls.Config{InsecureSkipVerify: true}, DialContext: dial,
				DisableCompression: true, DisableKeepAlives: true}}
			for _, compresses := range []bool{false, true} {
				address = startProxy(t, name, s, compresses)
				_, port, _ := net.SplitHostPort(address)
				ask := func(method, path, body string, headers ...string) harness.Answer {
					t.Helper()
					got, err := harness.Send(client, method, "https://localhost:"+port+path, shopWrites, body, headers...)
					must(t, err)
					return got
				}
				eventually(t, "the proxy finds the gateway", func() bool { return ask("GET", "/writez", "").Status == 200 })
				asksThrough(t, ask, compresses)
				eventually(t, "a body over the limit is refused", func() bool { // unless the proxy closes before the client has sent it
					got, err := harness.Send(client, "PUT", "https://localhost:"+port+"/v1/shop/de.txt", shopWrites, `de{a{"`+strings.Repeat("x", 9<<20)+`"}}`)
					return err == nil && got.Status == 413 && got.Error() == "TooLarge"
				})
			}
			s.leave()
			lines, _ := os.ReadFile(access)
			if text := string(lines); !strings.Contains(text, `"from":"127.0.0.2","method":"PUT"`) || strings.Contains(text, "203.0.113.9") {
				t.Errorf("%.2000s", text)
			}
		})
	}
}

// asksThrough makes requests whose answers a proxy could spoil.
func asksThrough(t *testing.T, ask func(method, path, body string, headers ...string) harness.Answer, compresses bool) {
	t.Helper()
	text := `de{a{"A"} b{"` + strings.Repeat("b", 500) + `"}}`
	is := func(got harness.Answer, status int, code string) harness.Answer {
		t.Helper()
		if got.Status != status || got.Error() != code {
			t.Errorf("%d %.200s, and not %d %s", got.Status, got.Body, status, code)
		}
		return got
	}
	ask("DELETE", "/v1/shop/de", "")
	is(ask("PUT", "/v1/shop/de.txt", text, "X-Forwarded-For", "203.0.113.9"), 201, "")
	equal(t, is(ask("GET", "/v1/shop/d%65/%61", ""), 200, "").Value(), "A")
	for _, path := range []string{"/v1/shop/de/a%2fb", "/v1/shop/de//a", "/v1/shop/de/%2e%2e/a"} {
		is(ask("GET", path, ""), 400, "BadPath")
	}
	is(ask("GET", "/v1/shop/de/a?after=99", ""), 503, "Behind")
	is(ask("PATCH", "/v1/shop/de", "{}"), 415, "BadType")
	is(ask("PUT", "/v1/shop/de.txt", `de{a{"`+strings.Repeat("x", 3<<20)+`"}}`), 200, "")
	is(ask("PUT", "/v1/shop/de.txt", text), 200, "")
	for _, taken := range []string{"gzip", ""} {
		got := is(ask("GET", "/v1/shop/de.txt", "", "Accept-Encoding", taken), 200, "")
		tag := got.Tag()
		if compresses && taken != "" && got.Header.Get("Content-Encoding") != "gzip" {
			t.Errorf("it isn't compressed: %v", got.Header)
		}
		t.Logf("with %q: %s", taken, tag)
		is(ask("GET", "/v1/shop/de.txt", "", "If-None-Match", tag, "Accept-Encoding", taken), 304, "")
		is(ask("PUT", "/v1/shop/de.txt", text, "If-Match", tag), 200, "")
	}
	is(ask("PUT", "/v1/shop/de.txt", "de{}", "If-Match", `"x"`), 412, "PreconditionFailed")
	is(ask("DELETE", "/v1/shop/de", "", "If-Match", "*"), 200, "")
}
