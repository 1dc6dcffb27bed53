package etcd

import (
	"crypto/ecdsa"
	"crypto/elliptic"
	cryptorand "crypto/rand"
	"crypto/tls"
	"crypto/x509"
	"crypto/x509/pkix"
	"encoding/pem"
	"errors"
	"math/big"
	"net"
	"os"
	"path/filepath"
	"testing"
	"time"

	"go.etcd.io/etcd/clientv3"

	"luvdregan.example/resb/deploy/internal/store"
	. "luvdregan.example/resb/deploy/internal/store/storetest"
)

// An authority makes certificates.
type authority struct {
	folder string
	cert   *x509.Certificate
	key    *ecdsa.PrivateKey
}

// issue writes NAME.pem and NAME.key; the first certificate is the authority's.
func (a *authority) issue(t testing.TB, name string) {
	t.Helper()
	key, err := ecdsa.GenerateKey(elliptic.P256(), cryptorand.Reader)
	Must(t, err)
	template := &x509.Certificate{SerialNumber: big.NewInt(time.Now().UnixNano()), Subject: pkix.Name{CommonName: name},
		NotBefore: time.Now().Add(-time.Hour), NotAfter: time.Now().Add(time.Hour), KeyUsage: x509.KeyUsageDigitalSignature,
		ExtKeyUsage: []x509.ExtKeyUsage{x509.ExtKeyUsageServerAuth, x509.ExtKeyUsageClientAuth}, IPAddresses: []net.IP{net.IPv4(127, 0, 0, 1)}}
	parent, signs := a.cert, a.key
	if parent == nil {
		template.IsCA, template.BasicConstraintsValid, template.KeyUsage = true, true, x509.KeyUsageCertSign
		parent, signs = template, key
	}
	made, err := x509.CreateCertificate(cryptorand.Reader, template, parent, &key.PublicKey, signs)
	Must(t, err)
	if a.cert == nil {
		a.key = key
		a.cert, err = x509.ParseCertificate(made)
		Must(t, err)
	}
	secret, err := x509.MarshalECPrivateKey(key)
	Must(t, err)
	Must(t, os.WriteFile(a.path(name+".pem"), pem.EncodeToMemory(&pem.Block{Type: "CERTIFICATE", Bytes: made}), 0o600))
	Must(t, os.WriteFile(a.path(name+".key"), pem.EncodeToMemory(&pem.Block{Type: "EC PRIVATE KEY", Bytes: secret}), 0o600))
}

func (a *authority) path(name string) string { return filepath.Join(a.folder, name) }

// TestTLSAndUsers reaches etcd with certificates and a user that may write the store's keys only. Without either nothing is answered.
func TestTLSAndUsers(t *testing.T) {
	a := &authority{folder: t.TempDir()}
	for _, name := range []string{"ca", "server", "client"} {
		a.issue(t, name)
	}
	c, endpoint := Etcd(t, Memory(t), 1, "--cert-file", a.path("server.pem"), "--key-file", a.path("server.key"), "--client-cert-auth",
		"--trusted-ca-file", a.path("ca.pem"))
	secured := []string{"--cacert", a.path("ca.pem"), "--cert", a.path("client.pem"), "--key", a.path("client.key")}
	for _, args := range [][]string{{"user", "add", "root:secret"}, {"user", "grant-role", "root", "root"}, {"user", "add", "gateway:password"},
		{"role", "add", "gateway"}, {"role", "grant-permission", "gateway", "readwrite", "b/", "--prefix"},
		{"role", "grant-permission", "gateway", "readwrite", "d/", "--prefix"}, {"role", "grant-permission", "gateway", "readwrite", "h/", "--prefix"},
		{"role", "grant-permission", "gateway", "readwrite", "m/", "--prefix"}, {"user", "grant-role", "gateway", "gateway"}, {"auth", "enable"}} {
		ctl(t, c, append(append([]string{}, secured...), args...)...)
	}
	pair, err := tls.LoadX509KeyPair(a.path("client.pem"), a.path("client.key"))
	Must(t, err)
	roots := x509.NewCertPool()
	roots.AddCert(a.cert)
	connect := func(config *tls.Config, password string) (*Store, error) {
		s, err := Open(clientv3.Config{Endpoints: []string{endpoint}, TLS: config, Username: "gateway", Password: password})
		if err == nil {
			t.Cleanup(func() { _ = s.Close() })
			s.grace = 0
		}
		return s, err
	}
	s, err := connect(&tls.Config{RootCAs: roots, Certificates: []tls.Certificate{pair}}, "password")
	Must(t, err)
	now := Make(t, s, Empty("a"), Put("de", random(3<<20)))
	for i := 0; i < 3; i++ {
		now = Make(t, s, now, Put("de", random(100)))
	}
	Check(t, s, now)
	watch(t, s)
	Must(t, s.Sync(within(t, 10*time.Second)))
	Must(t, s.Writable(within(t, 10*time.Second)))
	if n, err := s.Collect(within(t, 20*time.Second), store.Keep{Manifests: 1}); err != nil || n == 0 {
		t.Error(n, err)
	}
	if _, err := s.Put(Ctx, "other", "x"); err == nil {
		t.Error("the user may write other keys")
	}
	for name, refused := range map[string]func() (*Store, error){
		"no certificate": func() (*Store, error) { return connect(&tls.Config{RootCAs: roots}, "password") },
		"other password": func() (*Store, error) {
			return connect(&tls.Config{RootCAs: roots, Certificates: []tls.Certificate{pair}}, "other")
		},
	} {
		s, err := refused()
		if err == nil {
			err = s.Sync(within(t, 3*time.Second))
		}
		if err == nil || errors.Is(err, store.ErrUnsettled) {
			t.Error(name, err)
		}
		t.Log(name, ": ", err)
	}
}
