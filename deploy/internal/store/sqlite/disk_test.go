package sqlite

import (
	"context"
	"errors"
	"fmt"
	"math/rand"
	"os"
	"path/filepath"
	"strings"
	"sync"
	"syscall"
	"testing"
	"time"

	"github.com/mattn/go-sqlite3"

	"luvdregan.example/resb/deploy/internal/manifest"
	"luvdregan.example/resb/deploy/internal/store"
	. "luvdregan.example/resb/deploy/internal/store/storetest"
)

// tiny mounts a disk of some bytes in memory.
func tiny(t *testing.T, bytes int) string {
	t.Helper()
	folder := t.TempDir()
	if err := syscall.Mount("tmpfs", folder, "tmpfs", 0, fmt.Sprint("size=", bytes)); err != nil {
		t.Skip("no tmpfs can be mounted: ", err)
	}
	t.Cleanup(func() { _ = syscall.Unmount(folder, syscall.MNT_DETACH) })
	return folder
}

func random(bytes int) string {
	text := make([]byte, bytes)
	rand.Read(text)
	return string(text)
}

// TestAFullDisk fills a disk: changes are refused, and nothing else. Removals, collections and erasing work.
func TestAFullDisk(t *testing.T) {
	folder := tiny(t, 12<<20)
	s, err := Open(Options{Folder: folder, Create: true})
	Must(t, err)
	now := Empty("a")
	for i := 0; i < 60; i++ { // more than the disk has, one after the other in one bundle
		now = Make(t, s, now, Put("de", random(300<<10)))
		if _, err := s.Collect(Ctx, store.Keep{Manifests: 2}); err != nil {
			t.Fatal(err)
		}
	}
	for i := 0; err == nil; i++ {
		next, bodies := Next(t, now, Put(fmt.Sprint("l", i), random(200<<10)))
		if err = s.Swap(Ctx, next, bodies); err == nil {
			now = next
		}
	}
	t.Logf("%d bundles: %v", len(now.Bundles), err)
	if !errors.Is(err, store.ErrNoRoom) || len(now.Bundles) < 10 {
		t.Fatal(err)
	}
	fill, err := os.Create(filepath.Join(folder, "other"))
	Must(t, err)
	for n := 1 << 20; n > 0; n /= 2 { // somebody else takes the last bytes
		for err = nil; err == nil; {
			_, err = fill.Write(make([]byte, n))
		}
	}
	Must(t, fill.Close())
	if err := s.Writable(Ctx); !errors.Is(err, store.ErrNoRoom) {
		t.Error("writable: ", err)
	}
	Check(t, s, now)
	if n, err := s.Collect(Ctx, store.Keep{Manifests: 1}); err != nil || n == 0 {
		t.Error(n, err)
	}
	for len(now.Bundles) > 6 {
		now = Make(t, s, now, manifest.Edit{Locale: now.Bundles[3].Locale})
	}
	Check(t, s, now)
	erased, _ := manifest.Judge(now, &manifest.Change{App: "a", ID: "gone", At: time.Now().UnixMilli(), Erase: true}, manifest.Limits{})
	Must(t, s.Swap(Ctx, erased, nil))
	Must(t, os.Remove(filepath.Join(folder, "other")))
	time.Sleep(1100 * time.Millisecond)
	Must(t, s.Writable(Ctx))
	now = Make(t, s, erased, Put("de", random(300<<10)))
	Must(t, s.Close())
	Check(t, opened(t, folder), now)
}

// TestAFailedSync breaks the store down until the next start: after it a sync may succeed without what the first one lost.
func TestAFailedSync(t *testing.T) {
	s := opened(t, t.TempDir())
	one := Make(t, s, Empty("a"), Put("de", "x"))
	err := s.submit(Ctx, &job{do: func(*transaction) error {
		return sqlite3.Error{Code: sqlite3.ErrIoErr, ExtendedCode: sqlite3.ErrIoErrFsync}
	}})
	if !errors.Is(err, store.ErrUnsettled) {
		t.Error(err)
	}
	next, bodies := Next(t, one, Put("de", "y"))
	for i := 0; i < 2; i++ {
		if err := s.Swap(Ctx, next, bodies); !errors.Is(err, store.ErrBroken) {
			t.Error(err)
		}
	}
	if err := s.Writable(Ctx); !errors.Is(err, store.ErrBroken) {
		t.Error(err)
	}
	Check(t, s, one)
}

// TestAReadOnlyDisk has SQLite say that the disk is read-only: the change is refused, and later ones are stored.
func TestAReadOnlyDisk(t *testing.T) {
	s := opened(t, t.TempDir())
	one := Make(t, s, Empty("a"), Put("de", "x"))
	if err := s.submit(Ctx, &job{do: func(*transaction) error { return sqlite3.Error{Code: sqlite3.ErrReadonly} }}); !errors.Is(err, store.ErrBroken) {
		t.Error(err)
	}
	if err := s.Writable(Ctx); err != nil { // it tries
		t.Error(err)
	}
	Check(t, s, Make(t, s, one, Put("de", "y")))
}

// TestAGroup has a transaction of twenty changes, one of which conflicts and one of which SQLite can't store: all others are stored.
func TestAGroup(t *testing.T) {
	s := opened(t, t.TempDir())
	now := Make(t, s, Empty("a"), Put("de", "x"))
	release := make(chan struct{})
	var all sync.WaitGroup
	all.Add(1)
	go func() {
		defer all.Done()
		_ = s.submit(Ctx, &job{do: func(*transaction) error { <-release; return nil }})
	}()
	time.Sleep(20 * time.Millisecond)
	stored := make([]*manifest.Manifest, 20)
	for i := range stored {
		next, bodies := Next(t, Empty(fmt.Sprint("app", i)), Put("de", fmt.Sprint(i)))
		want := error(nil)
		if i == 7 {
			next, bodies = Next(t, &manifest.Manifest{App: "a", Revision: 1, ID: "another"}, Put("de", "lost"))
			want = store.ErrConflict
		}
		stored[i] = next
		all.Add(1)
		go func(i int) {
			defer all.Done()
			if i == 11 {
				if err := s.submit(Ctx, &job{do: func(t *transaction) error { _, err := t.exec("no statement"); return err }}); err == nil {
					t.Error("no error")
				}
			} else if err := s.Swap(Ctx, next, bodies); !errors.Is(err, want) {
				t.Errorf("change %d: %v", i, err)
			}
		}(i)
	}
	time.Sleep(50 * time.Millisecond)
	close(release)
	all.Wait()
	for i, m := range stored {
		if i != 7 && i != 11 {
			Check(t, s, m)
		}
	}
	Check(t, s, now)
}

// TestTheWALIsBounded has readers that overlap all the time beside a writer.
func TestTheWALIsBounded(t *testing.T) {
	folder := t.TempDir()
	s := opened(t, folder)
	now := Make(t, s, Empty("a"), Put("de", random(1<<20)))
	ctx, stop := context.WithCancel(Ctx)
	var all sync.WaitGroup
	for i := 0; i < 6; i++ {
		all.Add(1)
		go func() {
			defer all.Done()
			for ctx.Err() == nil {
				if _, err := s.History(Ctx, "a", 0, 1000); err != nil {
					t.Error(err)
				}
			}
		}()
	}
	most := int64(0)
	for i := 0; i < 40; i++ {
		now = Make(t, s, now, Put("de", random(1<<20)))
		if info, err := os.Stat(filepath.Join(folder, database+"-wal")); err == nil && info.Size() > most {
			most = info.Size()
		}
	}
	stop()
	all.Wait()
	t.Logf("the WAL had at most %d MB", most>>20)
	if most > 24<<20 {
		t.Error("it isn't bounded")
	}
}

// TestTheWALOfKilledProcesses has processes end before they move the WAL: the next start does it.
func TestTheWALOfKilledProcesses(t *testing.T) {
	from, to := t.TempDir(), t.TempDir()
	s := opened(t, from)
	now := Make(t, s, Empty("a"), Put("de", random(1<<20)))
	for i := 0; i < 2; i++ {
		Must(t, s.submit(Ctx, &job{do: func(t *transaction) error { // as in a process that has just begun
			t.unmoved = 0
			return nil
		}}))
		now = Make(t, s, now, Put("de", random(1<<20)))
	}
	copyTo(t, from, to)
	again := opened(t, to)
	if info, err := os.Stat(filepath.Join(to, database+"-wal")); err != nil || info.Size() > someWAL {
		t.Error(info.Size(), err)
	}
	Check(t, again, now)
}

// TestOneProcessHasAFolder opens a store twice, and has the folder of another one copied.
func TestOneProcessHasAFolder(t *testing.T) {
	folder, other := t.TempDir(), t.TempDir()
	opened(t, folder)
	if _, err := Open(Options{Folder: folder}); err == nil || !strings.Contains(err.Error(), "another gateway has this folder") {
		t.Error("two have it: ", err)
	}
	if _, err := Backup(other, filepath.Join(other, "copy")); !errors.Is(err, ErrMissing) {
		t.Error(err)
	}
}
