// Package serve has the listeners of a gateway, with TLS and a limit on connections, and the files of its logs.
package serve

import (
	"bytes"
	"errors"
	"net"
	"net/http"
	"os"
	"strings"
	"sync"
	"sync/atomic"
	"time"

	"luvdregan.example/resb/deploy/internal/front"
)

// A Listener counts connections, and refuses those past the limit.
type Listener struct {
	net.Listener
	Metrics *front.Metrics
	Most    int64
	Plain   bool // no TLS is spoken over it
}

const (
	tooManyConnections = "HTTP/1.1 503 Service Unavailable\r\nContent-Type: application/json\r\nContent-Length: 17\r\n" +
		"Retry-After: 1\r\nConnection: close\r\n\r\n{\"error\":\"Busy\"}\n"
	tooSlow = "HTTP/1.1 408 Request Timeout\r\nContent-Type: application/json\r\nContent-Length: 17\r\nConnection: close\r\n\r\n" +
		"{\"error\":\"Slow\"}\n"
)

// Accept returns the next connection that is within the limit.
func (l *Listener) Accept() (net.Conn, error) {
	for {
		c, err := l.Listener.Accept()
		if err != nil {
			return nil, err
		}
		if l.Metrics.Connect(1) <= l.Most {
			counted := &conn{Conn: c, of: l}
			if l.Plain {
				return &caller{Conn: counted}, nil
			}
			return counted, nil
		}
		l.Metrics.Connect(-1)
		l.Metrics.Refuse()
		if l.Plain {
			_ = c.SetWriteDeadline(time.Now().Add(time.Second))
			_, _ = c.Write([]byte(tooManyConnections))
		}
		_ = c.Close()
	}
}

// A conn is a connection, which is counted as long as it is open.
type conn struct {
	net.Conn
	of      *Listener
	closing sync.Once
}

// Close ends the connection.
func (c *conn) Close() error {
	c.closing.Do(func() { c.of.Metrics.Connect(-1) })
	return c.Conn.Close()
}

// A caller is a connection for HTTP/1.1, within TLS if that is on.
type caller struct {
	net.Conn
	begun atomic.Bool // a part of a header has come
	asked atomic.Bool // a whole header has come, and its response isn't done
	late  atomic.Bool // the caller got the error that it is too slow

	next lengths // of the header that comes
	both bool    // the last header has two lengths
}

// HasTwoLengths returns true if the header of the request has both Content-Length and Transfer-Encoding, of which net/http drops the
// first. Another program before this one may have gone by the other. A header that came with an earlier request's body isn't seen.
func (c *caller) HasTwoLengths() bool { return c.both }

// Lengths are the fields of a header that say where a body ends.
type lengths struct {
	line              [len("transfer-encoding:")]byte // the begin of the one that comes
	used              int
	content, encoding bool
	over              bool // the header has ended, with an empty line
}

// take reads the next bytes of a header, and what follows it.
func (l *lengths) take(header []byte) {
	for isWhole := true; isWhole && !l.over; {
		var part []byte
		part, header, isWhole = bytes.Cut(header, []byte("\n"))
		l.used += copy(l.line[l.used:], part)
		if line := bytes.TrimRight(l.line[:l.used], "\r"); isWhole {
			name, _, _ := strings.Cut(string(line), ":")
			l.content = l.content || strings.EqualFold(name, "Content-Length")
			l.encoding = l.encoding || strings.EqualFold(name, "Transfer-Encoding")
			l.over, l.used = len(line) == 0, 0
		}
	}
}

// Read reads bytes of the caller. If they don't come in time, and a header is begun, the caller gets an error.
func (c *caller) Read(b []byte) (int, error) {
	n, err := c.Conn.Read(b)
	if n > 0 {
		c.begun.Store(true)
		if !c.asked.Load() {
			c.next.take(b[:n])
		}
	}
	late := errors.Is(err, os.ErrDeadlineExceeded) && c.begun.Load() && !c.asked.Load()
	if late && c.late.CompareAndSwap(false, true) {
		_ = c.SetWriteDeadline(time.Now().Add(time.Second))
		_, _ = c.Conn.Write([]byte(tooSlow))
	}
	return n, err
}

// Write writes bytes to the caller, unless it got the error for being slow: net/http mistakes the part of a line for the whole.
func (c *caller) Write(b []byte) (int, error) {
	if c.late.Load() {
		return 0, os.ErrDeadlineExceeded
	}
	return c.Conn.Write(b)
}

// State is called by the server when a connection changes its state.
func State(of net.Conn, to http.ConnState) {
	c, ok := of.(*caller)
	if !ok {
		return
	}
	switch to {
	case http.StateActive:
		c.asked.Store(true)
		c.both, c.next = c.next.content && c.next.encoding, lengths{}
	case http.StateIdle:
		c.begun.Store(false)
		c.asked.Store(false)
	}
}
