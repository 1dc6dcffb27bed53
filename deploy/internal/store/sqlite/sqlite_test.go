package sqlite

import (
	"testing"

	"luvdregan.example/resb/deploy/internal/store"
	"luvdregan.example/resb/deploy/internal/store/storetest"
)

// opened opens the store of a folder until the test ends.
func opened(t testing.TB, folder string) *Store {
	t.Helper()
	s, err := Open(Options{Folder: folder, Create: true})
	storetest.Must(t, err)
	t.Cleanup(func() { _ = s.Close() })
	return s
}

func TestSuite(t *testing.T) {
	storetest.Suite(t, func(t *testing.T) storetest.Kind {
		s := opened(t, t.TempDir())
		return storetest.Kind{Open: func(*testing.T) store.Store { return s }, Other: func(t *testing.T) store.Store { return opened(t, t.TempDir()) }}
	})
}
