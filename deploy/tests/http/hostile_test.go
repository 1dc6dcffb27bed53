package http

import (
	"bufio"
	"fmt"
	"io"
	"net"
	"strings"
	"testing"

	"luvdregan.example/resb/deploy/tests/harness"
)

// withBundle returns a gateway where shop has one bundle.
func withBundle(t *testing.T, options ...string) *site {
	t.Helper()
	s := beside(t, options...)
	s.put("de", `de{a{"A"}}`)
	return s
}

func TestBytesThatAreNoRequests(t *testing.T) {
	s := withBundle(t)
	long := strings.NewReplacer("{2000}", strings.Repeat("x", 2000), "{40000}", strings.Repeat("x", 40000))
	for _, line := range sectionOf(t, "hostile", "bytes") {
		begin, bytes, _ := strings.Cut(line, "⇒ ")
		want, do, _ := strings.Cut(strings.TrimSpace(begin), " ")
		if bytes = unescaped(bytes); do != "" {
			bytes = begins(do, bytes)
		}
		// who says that no more comes may be taken for one that has gone
		if got, _ := harness.Exchange(s.Address, long.Replace(bytes), want[0] != '2'); statusOfText(got) != want {
			t.Errorf("%.90q: %.120q, and not %s", bytes, got, want)
		}
	}
	s.is("de/a", "A")
}

// TestTwoLengths sends requests of which a proxy may see another end, each with a further request hidden in it or behind it: that one
// isn't answered.
func TestTwoLengths(t *testing.T) {
	s := withBundle(t)
	const chunks = "4\r\nfr{}\r\n0\r\n\r\n"
	hidden := begins("w DELETE /v1/shop/de", "\r\n")
	for name, c := range map[string]struct{ fields, status string }{
		"both":      {fmt.Sprintf("Content-Length: %d\r\nTransfer-Encoding: chunked\r\n", len(chunks+hidden)), "400"},
		"reversed":  {"Transfer-Encoding: chunked\r\nContent-Length: 4\r\n", "400"},
		"chunked":   {"Transfer-Encoding: chunked\r\n", "201"},
		"bare feed": {"Transfer-Encoding: chunked\r\n", ""},
	} {
		body := chunks
		if name == "bare feed" {
			body = strings.Replace(chunks, "4\r\n", "4\n", 1) // as CVE-2025-22871 has it; later Go refuses it
		}
		got, _ := harness.Exchange(s.Address, begins("w POST /v1/shop/fr.txt", c.fields+"\r\n"+body+hidden), false)
		if c.status != "" && statusOfText(got) != c.status || strings.Count(got, "HTTP/1.1 ") != 1 || !strings.Contains(got, "Connection: close\r\n") {
			t.Errorf("%s: %q", name, got)
		}
		s.ask("DELETE", "/v1/shop/fr", shopWrites, "")
	}
	first := begins("w GET /v1/shop", "\r\n") // the connection was used before
	if got := s.raw(first + begins("w PUT /v1/shop/fr.txt", "Content-Length: 4\r\nTransfer-Encoding: chunked\r\n\r\n"+chunks+hidden)); strings.Count(got, "HTTP/1.1 ") != 2 {
		t.Errorf("%q", got)
	}
	s.is("de/a", "A")
}

func TestLimitsOfBodies(t *testing.T) {
	s := withBundle(t, "-text-bytes", "1000", "-file-bytes", "2000", "-look-bytes", "1500", "-body-bytes", "20000")
	for n, at := range []struct {
		method, path string
		length, want int
	}{
		{"PUT", "fr.txt", 1000, 201}, {"PUT", "fr.txt", 1001, 413}, {"POST", "fr.txt", 100000, 413}, {"PUT", "fr.res", 2001, 413}, {"POST", "look", 1500, 200}, {"POST", "look", 1501, 413},
	} {
		body := "fr{a{\"" + strings.Repeat("x", at.length-9) + "\"}}"
		if got := s.ask(at.method, "/v1/shop/"+at.path, shopWrites, body); got.Status != at.want {
			t.Errorf("%d: %d %s", n, got.Status, got.Body)
		}
		chunked := fmt.Sprintf("Transfer-Encoding: chunked\r\nConnection: close\r\n\r\n%x\r\n%s\r\n0\r\n\r\n", len(body), body)
		if at.want == 201 {
			at.want = 200 // it is there now
		}
		// to a server a client that closes its half has gone, and a change may be refused then
		got, _ := harness.Exchange(s.Address, begins("w "+at.method+" /v1/shop/"+at.path, chunked), false)
		if statusOfText(got) != fmt.Sprint(at.want) {
			t.Errorf("%d in pieces: %.100q", n, got)
		}
	}
	s.is("de/a", "A")
}

// half sends a part of a request's body over a separate connection.
func (s *site) half(do string, length, sent int) net.Conn {
	s.t.Helper()
	c := s.dial()
	fmt.Fprint(c, begins(do, fmt.Sprintf("Content-Length: %d\r\n\r\n%s", length, strings.Repeat("x", sent))))
	return c
}

// begun reads the status of a response that may not have ended.
func begun(c net.Conn) string {
	line, _ := bufio.NewReader(c).ReadString('\n')
	return statusOfText(line)
}

// TestBodiesAtOnce has bodies that stop: past half of what others leave it is 429, and bank has its own.
func TestBodiesAtOnce(t *testing.T) {
	s := withBundle(t, "-body-bytes", "40000", "-text-bytes", "100000")
	const shop, bank = "w PUT /v1/shop/fr.txt", "b PUT /v1/bank/fr.txt"
	held := func(least float64) { s.awaitMetric("resb_body_bytes_now", func(n float64) bool { return n >= least }) }
	first := s.half(shop, 90000, 16000)
	held(16000)
	equal(t, begun(s.half(shop, 90000, 16000)), "429", "past an application's")
	third := s.half(bank, 90000, 8000)
	held(24000)
	equal(t, begun(s.half(bank, 90000, 16000)), "429", "past what others leave")
	_, _ = first.Close(), third.Close()
	s.rest()
	s.is("de/a", "A")
}

// TestRequestsAtOnce has slow bodies take all places of an application: its other requests are 429, and
// bank's are answered.
func TestRequestsAtOnce(t *testing.T) {
	s := withBundle(t, "-each", "3", "-all", "8")
	var slow []net.Conn
	for i := 0; i < 3; i++ {
		slow = append(slow, s.half("w PUT /v1/shop/fr.txt", 10, 2))
	}
	s.awaitMetric("resb_requests_now", func(n float64) bool { return n == 3 })
	s.run(step{"r GET /v1/shop/de/a", "", "", 429, "!TooMany", "Retry-After"}, step{"b GET /v1/bank/de/a", "", "", 404, "", ""})
	for _, c := range slow {
		_ = c.Close()
	}
	s.rest()
	s.is("de/a", "A")
}

// TestSlowSenders sends headers and bodies too slowly: each sender gets an error.
func TestSlowSenders(t *testing.T) {
	s := withBundle(t, "-header-time", "2s", "-read-time", "4s", "-idle-time", "2s") // a whole header has this time too
	both := [][2]string{{"GET /v1/sh", "408"}, {"GET / HTTP/1.1\r\nHost: x\r\nA: b", "408"}, {"", ""},
		{begins("w PUT /v1/shop/fr.txt", "Content-Length: 20\r\n\r\nfr{"), "408"},
		{begins("w PUT /v1/shop/fr.txt", "Transfer-Encoding: chunked\r\n\r\n4\r\nfr"), "408"},
		{begins("w GET /v1/shop/de/a", "\r\n") + "GET ", "200"},
		{begins("w POST /v1/shop/look", "Content-Length: 100\r\n\r\n{\"locale\":\"de\"}\n"), "408"}}
	harness.Together(len(both), func(i int) {
		c, bytes, want := s.dial(), both[i][0], both[i][1]
		for _, b := range []byte(bytes) { // a byte at a time
			_, _ = c.Write([]byte{b})
		}
		text, err := io.ReadAll(c)
		errorIf(t, err != nil || statusOfText(string(text)) != want,
			"%q: %v, %.100q", bytes, err, text)
		if next := strings.HasSuffix(bytes, "GET "); next && !strings.Contains(string(text), "HTTP/1.1 40") || !next && strings.Count(string(text), "HTTP/1.1 ") > 1 {
			t.Errorf("%q: %q", bytes, text)
		}
	})
	s.is("de/a", "A")
}

// TestBodiesThatStop are ended after some seconds, and what they held is free again.
func TestBodiesThatStop(t *testing.T) {
	s := beside(t)
	for i := 0; i < 8; i++ {
		s.half("w PUT /v1/shop/fr.txt", 6000000, 5<<20)
	}
	s.awaitMetric("resb_body_bytes_now", func(n float64) bool { return n >= 8<<20 })
	s.awaitMetric("resb_body_bytes_now", func(n float64) bool { return n == 0 })
}

// TestARefusalDoesntWaitForTheBody sends only the beginning of a body: a request that is forbidden or fails is answered at once.
func TestARefusalDoesntWaitForTheBody(t *testing.T) {
	s := withBundle(t)
	for bytes, want := range map[string]string{
		begins("- PUT /v1/shop/fr.txt", "Content-Length: 90\r\n\r\nfr"):                      "401",
		begins("w PUT /v1/bank/fr.txt", "Content-Length: 90\r\n\r\nfr"):                      "403",
		begins("w PUT /v1/shop/fr", "Content-Length: 90\r\n\r\nfr"):                          "415",
		begins("w PUT /v1/shop/fr/x", "Transfer-Encoding: chunked\r\n\r\n2"):                 "405",
		begins("w PUT /v1/shop/fr.txt", "Content-Length: 99999999\r\n\r\nfr"):                "413",
		begins("w PUT /v1/shop/fr.txt", "Content-Length: 9\r\nExpect: 100-continue\r\n\r\n"): "100",
		begins("w PUT /v1/bank/fr.txt", "Content-Length: 9\r\nExpect: 100-continue\r\n\r\n"): "403",
	} {
		c := s.dial()
		fmt.Fprint(c, bytes)
		equal(t, begun(c), want, bytes)
		_ = c.Close()
	}
	s.is("de/a", "A")
}

// TestConnectionsPastTheLimit opens connections past the limit: these get 503, and the others are served.
func TestConnectionsPastTheLimit(t *testing.T) {
	s := open(t, "-connections", "20")
	s.put("de", `de{a{"A"}}`)
	connections := func(want float64) { s.awaitMetric("resb_connections", func(n float64) bool { return n == want }) }
	harness.Client.CloseIdleConnections()
	connections(0)
	var some []net.Conn
	for i := 0; i < 20; i++ {
		some = append(some, s.dial())
	}
	connections(20)
	if got := s.raw(""); statusOfText(got) != "503" || !strings.Contains(got, "Retry-After: ") || !strings.HasSuffix(got, "\r\n\r\n{\"error\":\"Busy\"}\n") {
		t.Errorf("%q", got)
	}
	s.answers(some[7])
	for _, c := range some {
		_ = c.Close()
	}
	connections(0)
	s.is("de/a", "A")
}

// answers fails unless a lookup over a connection that is open is answered.
func (s *site) answers(c net.Conn) {
	s.t.Helper()
	fmt.Fprint(c, begins("w GET /v1/shop/de/a", "Connection: close\r\n\r\n"))
	if got, _ := io.ReadAll(c); statusOfText(string(got)) != "200" {
		s.t.Errorf("%q", got)
	}
}

// TestManyIdleConnections opens 10,000 connections, and asks over the last one.
func TestManyIdleConnections(t *testing.T) {
	s := open(t, "-header-time", "10m")
	s.put("de", `de{a{"A"}}`)
	const many = 10000
	before := s.Usage().Memory
	var idle []net.Conn
	for i := 0; i < many; i++ {
		idle = append(idle, s.dial())
		if i%100 == 0 { // some have asked once
			fmt.Fprint(idle[i], begins("w GET /v1/shop/de/a", "\r\n"))
		}
	}
	s.is("de/a", "A")
	t.Logf("%d idle connections take %d KB each", many, (s.Usage().Memory-before)/many/1024)
	s.answers(idle[many-1])
}
