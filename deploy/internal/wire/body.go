// Package wire reads what callers send and writes what they get: bodies at a least rate, tags and conditions, compression, problems, the
// headers for scripts of other origins, and lines of logs.
package wire

import (
	"context"
	"errors"
	"io"
	"net"
	"net/http"
	"net/url"
	"os"
	"strings"
	"time"

	"luvdregan.example/resb/deploy/internal/convert"
	"luvdregan.example/resb/deploy/internal/engine"
)

// The types of bodies.
const (
	JSON  = "application/json"
	Lines = "application/x-ndjson"
	Text  = "text/plain"
	File  = "application/octet-stream"
	Patch = "application/merge-patch+json"
)

// A Form is one in which a bundle is submitted and returned. Kind is that of its bodies.
type Form struct {
	Suffix, Type, Kind string
	Header             []string // Content-Type
}

// Forms are all forms, the last one that of trees.
var Forms = []Form{
	{"txt", Text, engine.Text, []string{Text + "; charset=utf-8"}},
	{"res", File, engine.File, []string{File}},
	{"json", JSON, convert.JSON, []string{JSON}},
}

// FormOf returns the form that the suffix of a name says, and the name without it.
func FormOf(name string) (locale string, of Form, ok bool) {
	for _, f := range Forms {
		if locale = strings.TrimSuffix(name, "."+f.Suffix); locale != name {
			return locale, f, true
		}
	}
	return name, of, false
}

// A body must come at a least rate: leastBytes in each leastInterval, unless it is whole.
const (
	leastBytes    = 256 << 10
	leastInterval = 10 * time.Second
)

// firstBytes is the memory that a body has at first.
const firstBytes = 4096

type connKey struct{}

// WithConn returns a context with the connection of its requests, for http.Server.ConnContext.
func WithConn(ctx context.Context, c net.Conn) context.Context {
	return context.WithValue(ctx, connKey{}, c)
}

// HasTwoLengths returns true if a request says in two ways where its body ends. Only a connection that reads the header itself knows.
func HasTwoLengths(r *http.Request) bool {
	if len(r.TransferEncoding) == 0 && r.ProtoAtLeast(1, 1) {
		return false
	}
	conn, can := r.Context().Value(connKey{}).(interface{ HasTwoLengths() bool })
	return can && conn.HasTwoLengths()
}

// ReadBody reads the body of a request, up to a limit, and lets a function count its memory before it takes it. It may take a time.
func ReadBody(w http.ResponseWriter, r *http.Request, limit int64, takes time.Duration, hold func(bytes int64) error) (body []byte, err error) {
	if r.ContentLength > limit {
		return nil, TooLarge
	}
	p := newPace(r, http.MaxBytesReader(w, r.Body, limit), takes)
	body, err = readAll(p, hold)
	p.stop(err == nil)
	var long *http.MaxBytesError
	var problem Problem
	switch {
	case err == nil:
		return body, nil
	case errors.As(err, &long):
		return body, TooLarge
	case errors.Is(err, os.ErrDeadlineExceeded), p.late:
		return body, Slow
	case errors.As(err, &problem):
		return body, problem
	}
	return body, CutOff
}

// What is read of a body after a response that refused it.
const (
	mostLingering = 256 << 20
	lingerTime    = 30 * time.Second
	lingerPause   = 2 * time.Second // between two parts
)

// Linger reads on what a caller still sends after its response: many read that only then, and lose it if the connection is closed before.
func Linger(r *http.Request) {
	conn, _ := r.Context().Value(connKey{}).(net.Conn)
	if conn == nil || r.ProtoMajor != 1 {
		return
	}
	part := make([]byte, 8<<10)
	for end, got := time.Now().Add(lingerTime), 0; got < mostLingering && time.Now().Before(end); {
		_ = conn.SetReadDeadline(time.Now().Add(lingerPause))
		n, err := r.Body.Read(part)
		if got += n; err != nil {
			return
		}
	}
}

// readAll reads a body to its end.
func readAll(from io.Reader, hold func(bytes int64) error) ([]byte, error) {
	var body []byte
	for {
		if len(body) == cap(body) {
			more := int64(cap(body))
			if more < firstBytes {
				more = firstBytes
			}
			if err := hold(more); err != nil {
				return body, ProblemOf(err)
			}
			grown := make([]byte, len(body), int64(len(body))+more)
			copy(grown, body)
			body = grown
		}
		n, err := from.Read(body[len(body):cap(body)])
		body = body[:len(body)+n]
		if errors.Is(err, io.EOF) {
			return body, nil
		} else if err != nil {
			return body, err
		}
	}
}

// A pace ends the reading of a body that comes too slowly: over HTTP/1.1 by the connection's deadline, over HTTP/2 by closing the body.
type pace struct {
	io.Reader
	conn  net.Conn
	end   time.Time // of the whole request
	got   int
	timer *time.Timer
	late  bool
}

func newPace(r *http.Request, body io.ReadCloser, takes time.Duration) *pace {
	p := &pace{Reader: body, end: time.Now().Add(takes)}
	if r.ProtoMajor == 1 {
		p.conn, _ = r.Context().Value(connKey{}).(net.Conn)
	} else {
		p.timer = time.AfterFunc(leastInterval, func() { _ = body.Close() })
	}
	p.next()
	return p
}

// Read reads the next bytes.
func (p *pace) Read(b []byte) (int, error) {
	n, err := p.Reader.Read(b)
	if p.got += n; p.got >= leastBytes {
		p.next()
	}
	return n, err
}

// next begins an interval.
func (p *pace) next() {
	p.got = 0
	at := time.Now().Add(leastInterval)
	if at.After(p.end) {
		at = p.end
	}
	switch {
	case p.timer != nil:
		p.timer.Reset(time.Until(at))
	case p.conn != nil:
		_ = p.conn.SetReadDeadline(at)
	}
}

// stop restores the deadline of the request. After a whole body there is none: net/http reads on, and would take a caller whose request came
// just before the deadline for one that has gone.
func (p *pace) stop(whole bool) {
	switch {
	case p.timer != nil:
		p.late = !p.timer.Stop()
	case p.conn != nil && whole:
		_ = p.conn.SetReadDeadline(time.Time{})
	case p.conn != nil:
		_ = p.conn.SetReadDeadline(p.end)
	}
}

// Segments returns the parts of an address, unescaped. A part with a slash, `.` or `..` is refused: no key has a slash, and proxies treat the
// others in different ways.
func Segments(escaped string) (parts []string, ok bool) {
	if !strings.HasPrefix(escaped, "/") {
		return nil, false
	}
	parts = strings.Split(escaped[1:], "/")
	for i, part := range parts {
		plain, err := part, error(nil)
		if strings.IndexByte(part, '%') >= 0 {
			plain, err = url.PathUnescape(part)
		}
		if err != nil || strings.IndexByte(plain, '/') >= 0 || plain == "." || plain == ".." {
			return nil, false
		}
		parts[i] = plain
	}
	return parts, true
}

// Caller returns the address from which a request comes, without the port: behind proxies that the operator names, the last address in
// X-Forwarded-For that is none of theirs.
func Caller(r *http.Request, proxies []*net.IPNet) string {
	host, _, err := net.SplitHostPort(r.RemoteAddr)
	if err != nil {
		host = r.RemoteAddr
	}
	if len(proxies) == 0 || !isOf(host, proxies) {
		return host
	}
	forwarded := members(r.Header["X-Forwarded-For"])
	for i := len(forwarded) - 1; i >= 0; i-- {
		if net.ParseIP(forwarded[i]) == nil {
			return host
		}
		if host = forwarded[i]; !isOf(host, proxies) {
			break
		}
	}
	return host
}

func isOf(host string, proxies []*net.IPNet) bool {
	ip := net.ParseIP(host)
	for _, one := range proxies {
		if ip != nil && one.Contains(ip) {
			return true
		}
	}
	return false
}

// Headers that scripts of other origins may send and read (CORS).
const (
	corsMethods = "GET, HEAD, PUT, POST, PATCH, DELETE"
	corsHeaders = "Authorization, Content-Type, If-Match, If-None-Match, If-Unmodified-Since, Accept-Language"
	corsReads   = "ETag, Last-Modified, Location, Retry-After, Content-Language, Resb-Revision"
)

// CORS lets scripts of the allowed origins ask, and returns true if a browser asks whether one may, for which the headers are set then. That
// needs no token, since browsers send none then; it tells nothing of applications.
func CORS(h http.Header, r *http.Request, origins []string) (asks bool) {
	if len(origins) == 0 {
		return false
	}
	h.Add("Vary", "Origin")
	origin := r.Header.Get("Origin")
	allowed := ""
	for _, one := range origins {
		if one == "*" || origin != "" && strings.EqualFold(one, origin) {
			allowed = one
		}
	}
	if origin == "" || allowed == "" {
		return false
	}
	if allowed != "*" {
		allowed = origin
	}
	h.Set("Access-Control-Allow-Origin", allowed)
	if r.Method != http.MethodOptions || r.Header.Get("Access-Control-Request-Method") == "" {
		h.Set("Access-Control-Expose-Headers", corsReads)
		return false
	}
	h.Set("Access-Control-Allow-Methods", corsMethods)
	h.Set("Access-Control-Allow-Headers", corsHeaders)
	h.Set("Access-Control-Max-Age", "600")
	return true
}
