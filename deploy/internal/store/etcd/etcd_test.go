package etcd

import (
	"strings"
	"testing"

	"go.etcd.io/etcd/clientv3"

	"luvdregan.example/resb/deploy/internal/store"
	"luvdregan.example/resb/deploy/internal/store/sqlite"
	"luvdregan.example/resb/deploy/internal/store/storetest"
)

func open(t testing.TB, endpoints string) *Store {
	t.Helper()
	s, err := Open(clientv3.Config{Endpoints: strings.Split(endpoints, ",")})
	storetest.Must(t, err)
	s.grace = 0
	t.Cleanup(func() { _ = s.Close() })
	return s
}

// TestSuite has clients of three servers, in turn.
func TestSuite(t *testing.T) {
	_, endpoints := storetest.Etcd(t, storetest.Memory(t), 3)
	all, opened := strings.Split(endpoints, ","), 0
	storetest.Suite(t, func(t *testing.T) storetest.Kind {
		_, err := open(t, endpoints).Delete(storetest.Ctx, "\x00", clientv3.WithFromKey())
		storetest.Must(t, err)
		return storetest.Kind{Shared: true, Open: func(t *testing.T) store.Store {
			opened++
			return open(t, all[opened%3])
		}, Other: func(t *testing.T) store.Store {
			s, err := sqlite.Open(sqlite.Options{Folder: t.TempDir(), Create: true})
			storetest.Must(t, err)
			t.Cleanup(func() { _ = s.Close() })
			return s
		}}
	})
}
