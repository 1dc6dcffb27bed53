package etcd

import (
	"context"
	"errors"
	"fmt"
	"io"
	"math/rand"
	"net"
	"path/filepath"
	"strings"
	"sync/atomic"
	"syscall"
	"testing"
	"time"

	"luvdregan.example/resb/deploy/internal/store"
	. "luvdregan.example/resb/deploy/internal/store/storetest"
	"luvdregan.example/resb/deploy/tests/harness"
)

func random(bytes int) string {
	text := make([]byte, bytes)
	rand.Read(text)
	return string(text)
}

// within returns a context that ends with the test, or before.
func within(t testing.TB, d time.Duration) context.Context {
	ctx, cancel := context.WithTimeout(Ctx, d)
	t.Cleanup(cancel)
	return ctx
}

func watch(t testing.TB, s *Store) {
	ctx := within(t, time.Hour)
	go func() { _ = s.Watch(ctx, func(string, int64) {}) }()
}

// ctl runs etcdctl, which must succeed.
func ctl(t testing.TB, c *harness.Cluster, args ...string) {
	t.Helper()
	_, err := c.Ctl(args...)
	Must(t, err)
}

// A proxy passes connections on, and may drop what a server answers and cut the connection.
type proxy struct {
	net.Listener
	to    string
	drops int32
}

func newProxy(t testing.TB, to string) *proxy {
	l, err := net.Listen("tcp", "127.0.0.1:0")
	Must(t, err)
	p := &proxy{Listener: l, to: strings.TrimPrefix(to, "http://")}
	t.Cleanup(func() { _ = l.Close() })
	go func() {
		for {
			c, err := l.Accept()
			if err != nil {
				return
			}
			go p.pass(c)
		}
	}()
	return p
}

func (p *proxy) pass(c net.Conn) {
	defer c.Close()
	s, err := net.Dial("tcp", p.to)
	if err != nil {
		return
	}
	defer s.Close()
	go func() { _, _ = io.Copy(s, c) }()
	some := make([]byte, 1<<16)
	for {
		n, err := s.Read(some)
		if err != nil {
			return
		}
		if atomic.LoadInt32(&p.drops) > 0 {
			time.Sleep(20 * time.Millisecond) // for what else the server does
			atomic.AddInt32(&p.drops, -1)
			return
		}
		if _, err := c.Write(some[:n]); err != nil {
			return
		}
	}
}

// TestLostAnswers loses the answers to swaps: each is stored once, and its caller learns that it is, also if it lost the answer twice. A rival that
// stores the same revision at that moment has the conflict, or the caller has.
func TestLostAnswers(t *testing.T) {
	_, endpoint := Etcd(t, Memory(t), 1)
	p := newProxy(t, endpoint)
	s, rival := open(t, "http://"+p.Addr().String()), open(t, endpoint)
	now := Make(t, s, Empty("a"), Put("de", "x"))
	for i := 0; i < 24; i++ {
		next, bodies := Next(t, now, Put("de", fmt.Sprint("text ", i)))
		other, others := Next(t, now, Put("de", fmt.Sprint("rival ", i)))
		atomic.StoreInt32(&p.drops, int32(1+i%3))
		lost := make(chan error, 1)
		go func() { lost <- s.Swap(within(t, 30*time.Second), next, bodies) }()
		rivals := error(store.ErrConflict)
		if i%2 == 1 {
			rivals = rival.Swap(Ctx, other, others)
		}
		err := <-lost
		atomic.StoreInt32(&p.drops, 0)
		switch {
		case err == nil && errors.Is(rivals, store.ErrConflict):
			now = next
		case errors.Is(err, store.ErrConflict) && rivals == nil:
			now = other
		default:
			t.Fatalf("change %d: %v, the rival's: %v", i, err, rivals)
		}
		Check(t, rival, now)
	}
}

// TestOneOfThreeServers stops two of three servers: nothing is stored until they continue.
func TestOneOfThreeServers(t *testing.T) {
	c, endpoints := Etcd(t, Memory(t), 3)
	s, all := open(t, endpoints), c.Members
	watch(t, s)
	now := Make(t, s, Empty("a"), Put("de", "0"))
	all[0].Signal(syscall.SIGSTOP)
	all[1].Signal(syscall.SIGSTOP)
	next, bodies := Next(t, now, Put("de", "last"))
	if err := s.Swap(within(t, 5*time.Second), next, bodies); !errors.Is(err, store.ErrUnsettled) && !errors.Is(err, store.ErrUnreached) {
		t.Error("Swap with one of three servers: ", err)
	}
	if err := s.Sync(within(t, 3*time.Second)); !errors.Is(err, store.ErrUnreached) {
		t.Error("Sync with one of three servers: ", err)
	}
	if err := s.Writable(within(t, 3*time.Second)); err == nil {
		t.Error("writable with one of three servers")
	}
	all[0].Signal(syscall.SIGCONT)
	all[1].Signal(syscall.SIGCONT)
	Must(t, s.Sync(within(t, harness.Generous)))
	if err := s.Swap(within(t, harness.Generous), next, bodies); err != nil { // it finds itself if it was stored
		t.Error(err)
	}
	Check(t, s, next)
}

// TestAFullQuota fills a database: what is refused isn't stored, the rest works, and after a collection and defragmentation changes do.
func TestAFullQuota(t *testing.T) {
	c, endpoints := Etcd(t, Memory(t), 3, "--quota-backend-bytes", fmt.Sprint(12<<20))
	s := open(t, endpoints)
	watch(t, s)
	now := Make(t, s, Empty("a"), Put("de", "x"))
	var err error
	for i := 0; err == nil; i++ {
		next, bodies := Next(t, now, Put("de", random(900<<10)))
		if err = s.Swap(within(t, 30*time.Second), next, bodies); err == nil {
			now = next
		}
	}
	if !errors.Is(err, store.ErrNoRoom) || now.Revision < 5 {
		t.Fatal(now.Revision, err)
	}
	Check(t, s, now)
	if _, err := s.Manifest(Ctx, "a", now.Revision+1, nil); !errors.Is(err, store.ErrNoVersion) {
		t.Error("the refused one: ", err)
	}
	if err := s.Writable(Ctx); !errors.Is(err, store.ErrNoRoom) {
		t.Error(err)
	}
	Must(t, s.Sync(Ctx))
	removed, err := s.Collect(Ctx, store.Keep{Manifests: 1})
	if err != nil || removed == 0 {
		t.Fatal(removed, err)
	}
	Check(t, s, now)
	ctl(t, c, "defrag")
	ctl(t, c, "alarm", "disarm")
	Check(t, s, Make(t, s, now, Put("de", random(900<<10))))
	Must(t, s.Writable(Ctx))
}

// TestASnapshot restores a snapshot into another cluster, where a client changes a manifest that the snapshot doesn't have. A client that saw that
// manifest notices, also once the cluster has had as many changes; and another one takes no collection for such a loss.
func TestASnapshot(t *testing.T) {
	folder := Memory(t)
	c, endpoint := Etcd(t, folder, 1)
	s := open(t, endpoint)
	now := Make(t, s, Empty("a"), Put("de", random(3<<20)), Put("fr", "x"))
	now = Make(t, s, now, Put("fr", "y"))
	file := filepath.Join(folder, "snapshot")
	ctl(t, c, "snapshot", "save", file)
	lost := Make(t, s, now, Put("fr", "lost"))
	watch(t, s)
	Must(t, s.Sync(Ctx))
	seen := s.reported
	Must(t, s.look(Ctx, seen))
	other := Memory(t)
	ctl(t, c, "snapshot", "restore", file, "--data-dir", filepath.Join(other, "etcd0"))
	_, endpoint = Etcd(t, other, 1, "--force-new-cluster")
	s = open(t, endpoint)
	Check(t, s, now)
	next, bodies := Next(t, lost, Put("fr", "z"))
	if err := s.Swap(Ctx, next, bodies); !errors.Is(err, store.ErrConflict) {
		t.Error("a change of a lost manifest: ", err)
	}
	if err := s.look(Ctx, seen); !errors.Is(err, store.ErrWentBack) {
		t.Error(err)
	}
	for i := 0; i < 4; i++ {
		now = Make(t, s, now, Put("fr", fmt.Sprint(i)))
		Check(t, s, now)
	}
	if err := s.look(Ctx, seen); !errors.Is(err, store.ErrWentBack) {
		t.Error("after other changes: ", err)
	}
	watch(t, s)
	Must(t, s.Sync(Ctx))
	seen = s.reported
	_, err := s.Collect(Ctx, store.Keep{Manifests: 1})
	Must(t, err)
	if err := s.look(Ctx, seen); errors.Is(err, store.ErrWentBack) {
		t.Error("after a collection: ", err)
	}
}
