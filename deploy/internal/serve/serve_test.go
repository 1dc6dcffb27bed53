package serve

import (
	"bytes"
	"crypto/rand"
	"crypto/rsa"
	"crypto/tls"
	"crypto/x509"
	"io"
	"math/big"
	"net"
	"strings"
	"syscall"
	"testing"
	"time"

	"luvdregan.example/resb/deploy/tests/harness"
)

// A fullDisk takes a part of the first line.
type fullDisk struct{ bytes.Buffer }

func (d *fullDisk) Write(line []byte) (int, error) {
	if d.Len() == 0 {
		n, _ := d.Buffer.Write(line[:3])
		return n, syscall.ENOSPC
	}
	return d.Buffer.Write(line)
}

// TestAJournalOnAFullDisk writes a part of a line, and then the next ones as lines.
func TestAJournalOnAFullDisk(t *testing.T) {
	j, err := OpenJournal("-")
	harness.Must(t, err)
	disk := &fullDisk{}
	j.mu.Lock()
	j.to = disk
	j.mu.Unlock()
	for _, text := range []string{"first", "next", "last"} {
		j.Write(text)
	}
	j.Flush()
	harness.Equal(t, disk.String(), "\"fi\n\"next\"\n\"last\"\n")
}

// TestTwoLengths finds both lengths in a header, in whatever parts it comes.
func TestTwoLengths(t *testing.T) {
	for text, want := range map[string]bool{
		"PUT / HTTP/1.1\r\nContent-Length: 1\r\ntransfer-encoding: chunked\r\n\r\n":                true,
		"PUT / HTTP/1.1\r\nContent-Length: 1\r\nX: Transfer-Encoding:\r\n\r\nTransfer-Encoding:\n": false,
	} {
		here, there := net.Pipe()
		c := &caller{Conn: here}
		go func() {
			_, _ = io.WriteString(there, text)
			_ = there.Close()
		}()
		for buffer := make([]byte, 3); ; {
			if _, err := c.Read(buffer); err != nil {
				break
			}
		}
		harness.Equal(t, c.next.content && c.next.encoding, want, text)
	}
}

// TestForwardSecrecy tries each suite and version of TLS over an RSA key, whose owner could else read what was recorded.
func TestForwardSecrecy(t *testing.T) {
	key, err := rsa.GenerateKey(rand.Reader, 2048)
	harness.Must(t, err)
	about := x509.Certificate{SerialNumber: big.NewInt(1), NotAfter: time.Now().Add(time.Hour)}
	cert, err := x509.CreateCertificate(rand.Reader, &about, &about, &key.PublicKey, key)
	harness.Must(t, err)
	p := &Pair{}
	p.now.Store(&tls.Certificate{Certificate: [][]byte{cert}, PrivateKey: key})
	agrees := func(caller *tls.Config) bool {
		here, there := net.Pipe()
		defer here.Close()
		go func() { _ = tls.Server(there, p.Configuration()).Handshake() }()
		caller.InsecureSkipVerify = true
		return tls.Client(here, caller).Handshake() == nil
	}
	for _, suite := range append(tls.CipherSuites(), tls.InsecureCipherSuites()...) {
		is12, isRSA := suite.SupportedVersions[0] != tls.VersionTLS13, strings.Contains(suite.Name, "ECDHE_RSA")
		isNew := !strings.Contains(suite.Name, "RC4") && !strings.Contains(suite.Name, "3DES") && !strings.Contains(suite.Name, "CBC_SHA256")
		if is12 {
			got := agrees(&tls.Config{MaxVersion: tls.VersionTLS12, CipherSuites: []uint16{suite.ID}})
			harness.Equal(t, got, isRSA && isNew, suite.Name)
		}
	}
	for version, want := range map[uint16]bool{tls.VersionTLS10: false, tls.VersionTLS11: false, tls.VersionTLS12: true, tls.VersionTLS13: true} {
		harness.Equal(t, agrees(&tls.Config{MinVersion: version, MaxVersion: version}), want, version)
	}
}

func TestProtocols(t *testing.T) {
	for version, want := range map[string]int{"go1.19.8": 1, "go1.20.9": 1, "go1.20.10": 2, "go1.21.2": 1, "go1.21.3": 2, "go1.23.1": 2} {
		if got := protocols(version); len(got) != want {
			t.Error(version, got)
		}
	}
}
