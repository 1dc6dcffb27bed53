package settings

import (
	"context"
	"crypto/tls"
	"crypto/x509"
	"errors"
	"fmt"
	"net"
	"os"
	"path/filepath"
	"strings"
	"syscall"
	"time"

	"go.etcd.io/etcd/clientv3"
	"go.etcd.io/etcd/pkg/transport"

	"luvdregan.example/resb/deploy/internal/auth"
	"luvdregan.example/resb/deploy/internal/engine"
	"luvdregan.example/resb/deploy/internal/serve"
	"luvdregan.example/resb/deploy/internal/store"
	"luvdregan.example/resb/deploy/internal/store/etcd"
	"luvdregan.example/resb/deploy/internal/store/sqlite"
)

// checkTime is how long etcd may take to answer.
const checkTime = 5 * time.Second

// Parts are what the files of the settings give to a gateway.
type Parts struct {
	Tokens *auth.Tokens
	Pair   *serve.Pair // or nil
	Engine *engine.Engine
}

// Open reads the files that the settings name, and returns an error if one isn't as it must be. It changes nothing, and binds none of their
// ports, so a gateway may run meanwhile. A start and -check-config have the same errors from it.
func (s *Settings) Open() (p Parts, err error) {
	for _, step := range []func(*Parts) error{
		s.checkUses, s.openTokens, s.openPair, s.checkAddresses, s.checkLogs, s.openEngine, s.checkStore} {
		if err := step(&p); err != nil {
			return p, err
		}
	}
	return p, nil
}

// A named is a file that an option names.
type named struct {
	option, path string
	use          use
}

// files returns the files that options name.
func (s *Settings) files() (all []named) {
	for _, one := range s.table() {
		of, _ := one.has.(use)
		switch to := one.to.(type) {
		case *string:
			if of != 0 && *to != "" && *to != "-" {
				all = append(all, named{one.name, *to, of})
			}
		case *listValue:
			for _, text := range *to {
				_, path, _ := strings.Cut(text, "=")
				all = append(all, named{one.name, path, of})
			}
		}
	}
	return all
}

// checkUses finds a file that isn't one, and one that the gateway would write or remove though another option names it, or the store has it.
func (s *Settings) checkUses(*Parts) error {
	files := s.files()
	for _, one := range files {
		if why := s.misuse(one, files); why != "" {
			return s.Wrong(one.option, ": %s%s", one.path, why)
		}
	}
	return nil
}

// misuse returns why an option can't have its file, or "".
func (s *Settings) misuse(one named, all []named) string {
	if info, err := os.Stat(one.path); err == nil && !info.Mode().IsRegular() && one.option != "config" {
		return ": not a regular file" // it might never end
	}
	if s.State != "" && sqlite.Owns(filepath.Base(one.path)) && isSame(filepath.Dir(one.path), s.State) {
		return " is a file of the store"
	}
	for _, other := range all {
		isWritten := one.use != reads && (one.use != appends || other.use != appends)
		if isWritten && other != one && isSame(other.path, one.path) {
			return fmt.Sprintf(" is the file of -%s too", other.option)
		}
	}
	return ""
}

// isSame returns true if two paths lead to one file or folder, whether or not it is there.
func isSame(a, b string) bool {
	there, errThere := os.Stat(a)
	other, errOther := os.Stat(b)
	if errThere == nil && errOther == nil {
		return os.SameFile(there, other)
	}
	a, errThere = filepath.Abs(a)
	b, errOther = filepath.Abs(b)
	return errThere == nil && errOther == nil && a == b
}

func (s *Settings) openTokens(p *Parts) (err error) {
	if p.Tokens, err = auth.Open(s.tokenFile); err != nil {
		return s.Wrong("tokens", ": %w", err)
	}
	if s.AddTokens == "" {
		return nil
	}
	if err := p.Tokens.Add(s.AddTokens); err != nil {
		return s.Wrong("add-tokens", ": %w", err)
	}
	// the file of tokens is replaced by one beside it, and the other one removed
	for _, path := range []string{s.tokenFile, s.AddTokens} {
		if real, err := filepath.EvalSymlinks(path); err == nil {
			path = real
		}
		if err := serve.CanMake(path); err != nil {
			return s.Wrong("add-tokens", ": %w", err)
		}
	}
	return nil
}

func (s *Settings) openPair(p *Parts) (err error) {
	p.Pair, err = serve.OpenPair(s.cert, s.key)
	return s.wrongPair("cert", "key", err)
}

// wrongPair returns the error of a certificate with its key, or nil.
func (s *Settings) wrongPair(cert, key string, err error) error {
	var at *os.PathError
	switch {
	case err == nil:
		return nil
	case errors.As(err, &at) && at.Path != s.cert && at.Path != s.etcdCert,
		at == nil && strings.Contains(err.Error(), "key") && !strings.Contains(err.Error(), "certificate input"):
		cert = key
	}
	return s.Wrong(cert, ": %w", err)
}

// checkAddresses finds addresses at which this machine can never listen. Whether another process has one, a start finds out.
func (s *Settings) checkAddresses(*Parts) error {
	listen, err := s.address("listen", s.Listen)
	if err != nil || s.Inside == "" {
		return err
	}
	inside, err := s.address("inside", s.Inside)
	isAll := func(ip net.IP) bool { return ip == nil || ip.IsUnspecified() }
	if err == nil && inside.Port == listen.Port && inside.Port != 0 &&
		(inside.IP.Equal(listen.IP) || isAll(inside.IP) || isAll(listen.IP)) {
		err = s.Wrong("inside", " can't be %q: -listen has this address", s.Inside)
	}
	return err
}

// address returns where an option has the gateway listen.
func (s *Settings) address(name, text string) (*net.TCPAddr, error) {
	at, err := net.ResolveTCPAddr("tcp", text)
	if err == nil && !isLocal(at.IP) {
		err = errors.New("this machine hasn't the address")
	}
	if err != nil {
		err = s.Wrong(name, " can't be %q: %w", text, err)
	}
	return at, err
}

// isLocal returns true unless the machine can't listen at an address because it doesn't have it. It tries that at a port that nobody uses.
func isLocal(ip net.IP) bool {
	if ip == nil || ip.IsUnspecified() || ip.IsLoopback() {
		return true // even if it lacks IPv6: a name may have another address
	}
	l, err := net.ListenTCP("tcp", &net.TCPAddr{IP: ip})
	if err == nil {
		_ = l.Close()
	}
	return !errors.Is(err, syscall.EADDRNOTAVAIL) && !errors.Is(err, syscall.EAFNOSUPPORT)
}

func (s *Settings) checkLogs(*Parts) error {
	for _, one := range s.files() {
		_, err := os.Stat(s.State)
		isMade := err != nil && s.Create && s.State != "" && isSame(filepath.Dir(one.path), s.State) // with the store
		if one.use == appends && !isMade {
			if err := serve.CanAppend(one.path); err != nil {
				return s.Wrong(one.option, ": %w", err)
			}
		}
	}
	return nil
}

func (s *Settings) openEngine(p *Parts) (err error) {
	if err := s.sources(); err != nil {
		return err
	}
	p.Engine, err = engine.Open(s.engine)
	switch {
	case err != nil && strings.HasPrefix(err.Error(), "parents"):
		return s.Wrong("parents", ": %w", err)
	case err != nil && len(s.icuData) > 0:
		return s.Wrong("icudata", ": %w", err)
	}
	return err
}

// checkStore looks at the folder of the store, or reads the files for etcd. Whether etcd answers, a start finds out by itself: it waits for it.
func (s *Settings) checkStore(*Parts) error {
	if s.Etcd == "" {
		if err := sqlite.Look(s.folder()); err != nil {
			return s.Wrong("state", ": %w", err)
		}
		return nil
	}
	if _, err := s.etcdOptions(); err != nil || !s.CheckOnly {
		return err
	}
	of, err := s.OpenStore()
	if err == nil {
		err = of.Close()
	}
	return err
}

// folder returns the options of a store on this machine.
func (s *Settings) folder() sqlite.Options { return sqlite.Options{Folder: s.State, Create: s.Create} }

// OpenStore opens the store that the settings name. etcd must answer.
func (s *Settings) OpenStore() (store.Store, error) {
	of, refusal, err := s.FindStore()
	if err == nil {
		err = refusal
	}
	return of, err
}

// FindStore opens the store that the settings name. The refusal says why etcd doesn't answer yet; what it will never answer is an error.
func (s *Settings) FindStore() (of store.Store, refusal, err error) {
	if s.Etcd == "" {
		of, err = sqlite.Open(s.folder())
		return of, nil, err
	}
	options, err := s.etcdOptions()
	if err != nil {
		return nil, nil, err
	}
	shared, err := etcd.Open(options)
	if err != nil {
		name := "etcd"
		if s.etcdLogin != "" && !errors.Is(err, context.DeadlineExceeded) {
			name = "etcd-login"
		}
		return nil, nil, s.Wrong(name, ": %w", err)
	}
	ctx, cancel := context.WithTimeout(context.Background(), checkTime)
	defer cancel()
	if refusal = shared.Reach(ctx); refusal != nil {
		refusal = s.Wrong("etcd", ": %w", refusal)
		if ctx.Err() == nil {
			_ = shared.Close()
			return nil, nil, refusal
		}
	}
	return shared, refusal, nil
}

// etcdOptions reads the files that say how etcd is reached.
func (s *Settings) etcdOptions() (o clientv3.Config, err error) {
	o.Endpoints = split(s.Etcd)
	if s.etcdLogin != "" {
		text, err := os.ReadFile(s.etcdLogin)
		if err != nil {
			return o, s.Wrong("etcd-login", ": %w", err)
		}
		words := strings.Fields(string(text))
		if len(words) != 2 {
			return o, s.Wrong("etcd-login", ": %s: a user and a password are missing", s.etcdLogin)
		}
		o.Username, o.Password = words[0], words[1]
	}
	if s.etcdCert != "" {
		if _, err := tls.LoadX509KeyPair(s.etcdCert, s.etcdKey); err != nil {
			return o, s.wrongPair("etcd-cert", "etcd-key", err)
		}
	}
	if s.etcdCA != "" {
		text, err := os.ReadFile(s.etcdCA)
		if err == nil && !x509.NewCertPool().AppendCertsFromPEM(text) {
			err = fmt.Errorf("%s: there is no certificate in it", s.etcdCA)
		}
		if err != nil {
			return o, s.Wrong("etcd-ca", ": %w", err)
		}
	}
	if s.etcdCA != "" || s.etcdCert != "" {
		files := transport.TLSInfo{TrustedCAFile: s.etcdCA, CertFile: s.etcdCert, KeyFile: s.etcdKey}
		if o.TLS, err = files.ClientConfig(); err != nil {
			err = s.Wrong("etcd-ca", ": %w", err)
		}
	}
	return o, err
}
