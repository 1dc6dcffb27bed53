package sqlite

import (
	"bytes"
	"context"
	"errors"
	"fmt"
	"os"
	"path/filepath"
	"strings"
	"testing"
	"time"

	"luvdregan.example/resb/deploy/internal/manifest"
	"luvdregan.example/resb/deploy/internal/store"
	. "luvdregan.example/resb/deploy/internal/store/storetest"
)

// TestAMarkerThatIsMade has a kill between the making of the marker and its first number.
func TestAMarkerThatIsMade(t *testing.T) {
	folder := t.TempDir()
	s, err := Open(Options{Folder: folder, Create: true})
	Must(t, err)
	now := Make(t, s, Empty("a"), Put("de", "x"))
	Must(t, s.Close())
	Must(t, os.WriteFile(filepath.Join(folder, marker), nil, 0o600))
	Check(t, opened(t, folder), now)
}

// TestUnfinishedFiles has kills while a database is made or restored.
func TestUnfinishedFiles(t *testing.T) {
	folder := t.TempDir()
	for _, end := range []string{".new", ".new-wal", ".new-shm", ".new-12345"} {
		Must(t, os.WriteFile(filepath.Join(folder, database+end), []byte("unfinished"), 0o600))
	}
	s := opened(t, folder)
	Check(t, s, Make(t, s, Empty("a"), Put("de", "x")))
	if left, _ := filepath.Glob(filepath.Join(folder, database+".new*")); len(left) > 0 {
		t.Error(left)
	}
}

// TestAKillAfterErasing has a kill after an erasure was stored and before the WAL was emptied: the next start empties it.
func TestAKillAfterErasing(t *testing.T) {
	from, to := t.TempDir(), t.TempDir()
	s := opened(t, from)
	now := Make(t, s, Empty("a"), Put("de", "a-secret"))
	s.reading.RLock() // the kill comes while the checkpoint waits for a reader
	erased, _ := manifest.Judge(now, &manifest.Change{App: "a", ID: "gone", At: time.Now().UnixMilli(), Erase: true}, manifest.Limits{})
	done := make(chan error)
	go func() { done <- s.Swap(Ctx, erased, nil) }()
	for has := ""; has != "0000000000000000002\n"; {
		content, err := os.ReadFile(filepath.Join(from, marker))
		Must(t, err)
		has = string(content)
	}
	copyTo(t, from, to)
	s.reading.RUnlock()
	Must(t, <-done)
	Check(t, opened(t, to), erased)
	for _, name := range files {
		if content, err := os.ReadFile(filepath.Join(to, name)); err == nil && bytes.Contains(content, []byte("a-secret")) {
			t.Errorf("%s has what was erased", name)
		}
	}
}

// TestACollectionOverwrites has a collection remove what was erased: no file has a part of it.
func TestACollectionOverwrites(t *testing.T) {
	folder := t.TempDir()
	s := opened(t, folder)
	now := Make(t, s, Empty("a"), Put("de", "a-secret"))
	erased, _ := manifest.Judge(now, &manifest.Change{App: "a", ID: "gone", At: 1, Erase: true, Until: 1}, manifest.Limits{})
	Must(t, s.Swap(Ctx, erased, nil))
	n, err := s.Collect(Ctx, store.Keep{})
	if err != nil || n == 0 {
		t.Error(n, err)
	}
	for _, name := range files {
		if content, err := os.ReadFile(filepath.Join(folder, name)); err == nil && bytes.Contains(content, []byte("a-secret")) {
			t.Errorf("%s has what was erased", name)
		}
	}
}

// TestBodiesWithoutAManifest has a kill after a first release stored its bodies.
func TestBodiesWithoutAManifest(t *testing.T) {
	s := opened(t, t.TempDir())
	edit := Put("de", "x")
	put := func(t *transaction) error { return t.put("a", map[manifest.Digest][]byte{edit.Digest: edit.Body}) }
	Must(t, s.submit(Ctx, &job{do: put}))
	if n, err := s.Collect(Ctx, store.Keep{}); err != nil || n != 1 {
		t.Error(n, err)
	}
}

// TestACollectionThatIsCutOff has collections end at any moment, as they do with the gateway: all that is to stay is there.
func TestACollectionThatIsCutOff(t *testing.T) {
	s := opened(t, t.TempDir())
	all := []*manifest.Manifest{Make(t, s, Empty("a"), Put("de", "0"))}
	for i := 1; i < 30; i++ {
		all = append(all, Make(t, s, all[i-1], Put("de", fmt.Sprint(i))))
	}
	for i := 0; i < 300; i++ {
		ctx, cancel := context.WithTimeout(Ctx, time.Duration(i)*3*time.Microsecond)
		if _, err := s.Collect(ctx, store.Keep{Manifests: 100 + i}); err != nil && !errors.Is(err, store.ErrUnreached) {
			t.Error(err)
		}
		cancel()
	}
	for _, m := range all {
		Check(t, s, m)
	}
}

// TestALongRelease stores 20 MB in one change beside collections, which find bodies that no manifest names yet.
func TestALongRelease(t *testing.T) {
	s := opened(t, t.TempDir())
	ctx, stop := context.WithCancel(Ctx)
	ended := make(chan struct{})
	go func() {
		defer close(ended)
		for ctx.Err() == nil {
			if _, err := s.Collect(Ctx, store.Keep{Manifests: 1}); err != nil {
				t.Error(err)
			}
		}
	}()
	now := Empty("a")
	for round := 0; round < 3; round++ {
		var edits []manifest.Edit
		for i := 0; i < 40; i++ {
			edits = append(edits, Put(fmt.Sprint("l", i), strings.Repeat(fmt.Sprint(round%2, i), 1<<17)))
		}
		now = Make(t, s, now, edits...)
		Check(t, s, now)
	}
	stop()
	<-ended
	Check(t, s, now)
}
