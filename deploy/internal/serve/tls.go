package serve

import (
	"crypto/tls"
	"crypto/x509"
	"errors"
	"fmt"
	"io"
	"log"
	"net"
	"reflect"
	"regexp"
	"runtime"
	"strings"
	"sync/atomic"
	"time"
)

// A secure listener gives connections over which TLS was agreed upon, in whatever order they are done.
type secure struct {
	net.Listener
	configuration *tls.Config
	patience      time.Duration // how long an agreement may take
	agreed        chan net.Conn
	failed        chan error
	ended         chan struct{} // closed with the listener
}

// needsTLS is the response to a caller who speaks HTTP without TLS.
const needsTLS = "HTTP/1.0 400 Bad Request\r\nContent-Type: application/json\r\nConnection: close\r\n\r\n{\"error\":\"NeedsTLS\"}\n"

// isRequest matches the first five bytes of a request.
var isRequest = regexp.MustCompile(`^(GET /|HEAD |POST |PUT /|PATCH|OPTIO|DELET)$`)

// NewSecure returns a listener that agrees upon TLS over another one.
func NewSecure(over net.Listener, configuration *tls.Config, patience time.Duration) net.Listener {
	s := &secure{over, configuration, patience, make(chan net.Conn), make(chan error), make(chan struct{})}
	go func() {
		for {
			c, err := s.Listener.Accept()
			switch {
			case err == nil:
				go s.agree(c)
			case errors.Is(err, net.ErrClosed):
				close(s.ended)
				return
			default:
				s.failed <- err
			}
		}
	}()
	return s
}

// agree agrees upon TLS with a caller. HTTP/2 is net/http's own matter.
func (s *secure) agree(c net.Conn) {
	over := tls.Server(c, s.configuration)
	_ = c.SetDeadline(time.Now().Add(s.patience))
	if err := over.Handshake(); err != nil {
		var wrong tls.RecordHeaderError
		if errors.As(err, &wrong) && wrong.Conn != nil && isRequest.Match(wrong.RecordHeader[:]) {
			_, _ = io.WriteString(c, needsTLS)
		}
		_ = c.Close()
		return
	}
	_ = c.SetDeadline(time.Time{})
	var agreed net.Conn = over
	if over.ConnectionState().NegotiatedProtocol != "h2" {
		agreed = &caller{Conn: over}
	}
	select {
	case s.agreed <- agreed:
	case <-s.ended:
		_ = c.Close()
	}
}

// Accept returns the next connection.
func (s *secure) Accept() (net.Conn, error) {
	select {
	case c := <-s.agreed:
		return c, nil
	case err := <-s.failed:
		return nil, err
	case <-s.ended:
		return nil, net.ErrClosed
	}
}

// A Pair is a certificate with its key, read again when the files have another one.
type Pair struct {
	cert, key string // the files
	now       atomic.Pointer[tls.Certificate]
	failed    string // why the files could not be read again, or empty
	isBad     atomic.Bool
}

// OpenPair reads the files; without files there is no pair.
func OpenPair(cert, key string) (*Pair, error) {
	if cert == "" {
		return nil, nil
	}
	p := &Pair{cert: cert, key: key}
	_, err := p.read()
	return p, err
}

// read reads the files. It returns false if they have the certificate of the last time.
func (p *Pair) read() (isNew bool, err error) {
	pair, err := tls.LoadX509KeyPair(p.cert, p.key)
	last := p.now.Load()
	if err != nil || last != nil && reflect.DeepEqual(pair.Certificate, last.Certificate) {
		return false, err
	}
	pair.Leaf, err = x509.ParseCertificate(pair.Certificate[0])
	p.now.Store(&pair)
	return true, err
}

// Expires returns when the certificate ends, in seconds since 1970, or 0 without one.
func (p *Pair) Expires() float64 {
	if p == nil {
		return 0
	}
	return float64(p.now.Load().Leaf.NotAfter.Unix())
}

// Bad returns 1 if the files could not be read again, else 0.
func (p *Pair) Bad() float64 {
	if p != nil && p.isBad.Load() {
		return 1
	}
	return 0
}

// Again reads the files again. If they don't fit each other the earlier ones stay, and the files are read once more the next time: one of them
// may have been written just before the other.
func (p *Pair) Again() {
	if p == nil {
		return
	}
	isNew, err := p.read()
	p.isBad.Store(err != nil)
	switch {
	case err != nil && p.failed != err.Error():
		log.Printf("certificates: %v; the earlier ones stay", err)
		p.failed = err.Error()
	case err == nil && isNew:
		log.Print("certificates: read again")
		fallthrough
	case err == nil:
		p.failed = ""
	}
}

// protocols returns those that are offered over TLS. HTTP/2 is one of them if Go limits the streams that a caller opens and resets
// (CVE-2023-44487), as 1.20.10 and 1.21.3 do.
func protocols(version string) []string {
	var minor, patch int
	_, _ = fmt.Sscanf(version, "go1.%d.%d", &minor, &patch)
	if minor > 21 || minor == 21 && patch >= 3 || minor == 20 && patch >= 10 {
		return []string{"h2", "http/1.1"}
	}
	return []string{"http/1.1"}
}

// Configuration returns that of TLS. In each suite of TLS 1.2 a key that is found later decrypts nothing.
func (p *Pair) Configuration() *tls.Config {
	c := &tls.Config{MinVersion: tls.VersionTLS12, NextProtos: protocols(runtime.Version()),
		GetCertificate: func(*tls.ClientHelloInfo) (*tls.Certificate, error) { return p.now.Load(), nil }}
	for _, suite := range tls.CipherSuites() {
		if strings.HasPrefix(suite.Name, "TLS_ECDHE_") {
			c.CipherSuites = append(c.CipherSuites, suite.ID)
		}
	}
	return c
}
