package sqlite

import (
	"bytes"
	"context"
	"database/sql"
	"encoding/json"
	"errors"
	"fmt"
	"os"
	"path/filepath"
	"reflect"
	"strings"
	"sync/atomic"
	"testing"
	"time"

	"luvdregan.example/resb/deploy/internal/manifest"
	"luvdregan.example/resb/deploy/internal/store"
	. "luvdregan.example/resb/deploy/internal/store/storetest"
	"luvdregan.example/resb/deploy/tests/harness"
)

// files are those of a folder that have changes.
var files = []string{database, database + "-wal", marker}

// copyTo copies the files of a store.
func copyTo(t testing.TB, from, to string) {
	t.Helper()
	for _, name := range files {
		content, err := os.ReadFile(filepath.Join(from, name))
		if errors.Is(err, os.ErrNotExist) {
			_ = os.Remove(filepath.Join(to, name))
			continue
		}
		Must(t, err)
		Must(t, os.WriteFile(filepath.Join(to, name), content, 0o600))
	}
	_ = os.Remove(filepath.Join(to, database+"-shm"))
}

// small fills a store with some changes, and returns copies of its files: as a clean end leaves them, and as a kill does, with the last changes in the
// WAL.
func small(t *testing.T) (closed, killed string) {
	t.Helper()
	from := t.TempDir()
	closed, killed = Memory(t), Memory(t)
	s, err := Open(Options{Folder: from, Create: true})
	Must(t, err)
	var edits []manifest.Edit
	for i := 0; i < 70; i++ {
		edits = append(edits, Put(fmt.Sprint("l", i), fmt.Sprint("text ", i)))
	}
	shop := Make(t, s, Empty("shop"), edits...)
	bank := Make(t, s, Empty("bank"), Put("de", strings.Repeat("y", 700)))
	Must(t, s.Close())
	db, err := sql.Open("sqlite3", filepath.Join(from, database))
	Must(t, err)
	db.SetMaxOpenConns(1)
	_, err = db.Exec("pragma journal_mode = delete; pragma page_size = 512; vacuum; pragma journal_mode = wal") // few bytes
	Must(t, err)
	Must(t, db.Close())
	copyTo(t, from, closed)
	s = opened(t, from)
	Make(t, s, shop, Put("l7", "x"))
	Make(t, s, bank, Put("fr", strings.Repeat("x", 700)))
	copyTo(t, from, killed)
	return closed, killed
}

// contents returns all that the newest manifests name.
func contents(s *Store) (all []string, err error) {
	ctx := context.Background()
	last := map[string]int64{}
	if err := s.Newest(ctx, func(app string, revision int64) { last[app] = revision }); err != nil {
		return nil, err
	}
	for _, app := range []string{"bank", "shop"} {
		m, err := s.Manifest(ctx, app, last[app], nil)
		if err != nil {
			return nil, err
		}
		for _, b := range m.Bundles {
			body, err := s.Body(ctx, app, b)
			if err != nil {
				return nil, err
			}
			all = append(all, fmt.Sprint(app, m.Revision, b.Locale, string(body)))
		}
	}
	return all, nil
}

// every has one of this many bytes damaged: RESB_EVERY_BYTE damages all of them, which takes minutes.
const every = 211

// TestEachByteDamaged flips a bit of bytes of each file: the store doesn't open and names the file, or it has all bundles.
func TestEachByteDamaged(t *testing.T) {
	closed, killed := small(t)
	for _, from := range []string{closed, killed} {
		folder := Memory(t)
		copyTo(t, from, folder)
		s, err := Open(Options{Folder: folder})
		Must(t, err)
		want, err := contents(s)
		Must(t, err)
		_ = s.Close()
		for _, name := range files {
			content, err := os.ReadFile(filepath.Join(from, name))
			if err != nil {
				continue
			}
			t.Run(filepath.Base(from)+name, func(t *testing.T) { eachByte(t, from, name, content, want) })
		}
	}
}

// eachByte flips the bytes of one file, in two folders at once.
func eachByte(t *testing.T, from, name string, content []byte, want []string) {
	var folders [2]string
	for w := range folders {
		folders[w] = Memory(t)
	}
	flipped(t, content, func(w int, bad []byte) ([]string, error) {
		copyTo(t, from, folders[w])
		Must(t, os.WriteFile(filepath.Join(folders[w], name), bad, 0o600))
		found, err := reopened(folders[w])
		if err != nil && !strings.Contains(err.Error(), folders[w]) {
			t.Error("it doesn't name the folder: ", err)
		}
		return found, err
	}, want)
}

// flipped calls a function, twice at once, with a content in which one bit is another: it must find damage, or what is wanted.
func flipped(t *testing.T, content []byte, find func(w int, bad []byte) ([]string, error), want []string) {
	var refused, tried int64
	step := every
	if os.Getenv("RESB_EVERY_BYTE") != "" || len(content) < 100 {
		step = 1
	}
	harness.Together(2, func(w int) {
		for at := w * step; at < len(content); at += 2 * step {
			bad := append([]byte(nil), content...)
			bad[at] ^= byte(1 << (at % 8))
			found, err := find(w, bad)
			atomic.AddInt64(&tried, 1)
			if errors.Is(err, store.ErrDamaged) {
				atomic.AddInt64(&refused, 1)
			} else if err != nil || !reflect.DeepEqual(found, want) {
				t.Errorf("byte %d of %d: %v, %s", at, len(content), err, firstOther(found, want))
			}
		}
	})
	t.Logf("%d of %d refused", refused, tried)
}

// firstOther returns the first text that differs.
func firstOther(found, want []string) string {
	for i, one := range found {
		if i >= len(want) || one != want[i] {
			return fmt.Sprintf("%.200q", one)
		}
	}
	return fmt.Sprint(len(found), " of ", len(want))
}

// whole returns all that a store has: each manifest that stays, what it made, and each body that it names.
func whole(s *Store) (all []string, err error) {
	var apps []string
	if err := s.Newest(Ctx, func(app string, _ int64) { apps = append(apps, app) }); err != nil {
		return nil, err
	}
	for _, app := range apps {
		history, err := s.History(Ctx, app, 0, 1000)
		for _, m := range history {
			if err != nil {
				break
			}
			made, _ := json.Marshal(m.Made)
			all = append(all, fmt.Sprint(app, m.Revision, m.ID, m.Op, m.Who, m.At, string(made)))
			if m, err = s.Manifest(Ctx, app, m.Revision, nil); err == nil {
				err = bodiesIn(s, app, m.Bundles, &all)
			}
			if err == nil && m.Erasure != nil {
				page := func(d manifest.Digest) ([]byte, error) { return s.Body(Ctx, app, manifest.Bundle{Digest: d}) }
				var erased []manifest.Bundle
				if erased, err = manifest.ReadErased(m.Erasure, page); err == nil {
					err = bodiesIn(s, app, erased, &all)
				}
			}
		}
		if err != nil {
			return nil, err
		}
	}
	return all, nil
}

func bodiesIn(s *Store, app string, bundles []manifest.Bundle, all *[]string) error {
	for _, b := range bundles {
		body, err := s.Body(Ctx, app, b)
		if err != nil {
			return err
		}
		text, _ := json.Marshal(b)
		*all = append(*all, string(text)+string(body))
	}
	return nil
}

// restored returns all that is in the store of a copy.
func restored(t *testing.T, copied []byte) ([]string, error) {
	folder := Memory(t)
	defer os.RemoveAll(folder)
	file := filepath.Join(folder, "copy")
	Must(t, os.WriteFile(file, copied, 0o600))
	if _, err := Restore(filepath.Join(folder, "state"), file); err != nil {
		return nil, err
	}
	s, err := Open(Options{Folder: filepath.Join(folder, "state")})
	if err != nil {
		return nil, fmt.Errorf("restored, and it doesn't open: %v", err) // whatever is damaged: the copy was taken
	}
	defer s.Close()
	return whole(s)
}

// TestEachByteOfACopyDamaged flips a bit of bytes of a copy, and cuts it off: it isn't restored, or it has all, with the history and what
// was erased and may come back.
func TestEachByteOfACopyDamaged(t *testing.T) {
	folder := t.TempDir()
	s, err := Open(Options{Folder: folder, Create: true})
	Must(t, err)
	shop := Make(t, s, Empty("shop"), Put("de", "A"), Put("fr", strings.Repeat("f", 3000)))
	shop = Make(t, s, shop, Put("de", "B"))
	shop = Make(t, s, shop, manifest.Edit{Locale: "fr"})
	var many []manifest.Edit
	for i := 0; i < 70; i++ {
		many = append(many, Put(fmt.Sprint("l", i), fmt.Sprint("text ", i)))
	}
	shop = Make(t, s, shop, many...)
	Make(t, s, shop, Put("l7", "x"))
	bank := Make(t, s, Empty("bank"), Put("de", "Z"), Put("fr", "Y"))
	at := time.Now()
	erased, refusal := manifest.Judge(bank, &manifest.Change{App: "bank", ID: "erased", Op: "erase", At: at.UnixMilli(), Erase: true,
		Until: at.Add(time.Hour).UnixMilli()}, manifest.Limits{})
	if refusal != nil {
		t.Fatal(refusal)
	}
	Must(t, s.Swap(Ctx, erased, nil))
	Must(t, s.Close())
	file := filepath.Join(t.TempDir(), "copy")
	_, err = Backup(folder, file)
	Must(t, err)
	content, err := os.ReadFile(file)
	Must(t, err)
	want, err := restored(t, content)
	Must(t, err)
	if len(want) < 140 {
		t.Fatalf("%q", want)
	}
	flipped(t, content, func(_ int, bad []byte) ([]string, error) { return restored(t, bad) }, want)
	// what SQLite's own check doesn't see in a copy: an entry of the index with another length, so another row, and another text of the schema
	for _, of := range []string{"4\x04\x15c\x01shop" + string(manifest.DigestOf([]byte("text 7"))), "1), swaps integer"} {
		at := bytes.Index(content, []byte(of))
		bad := append([]byte(nil), content...)
		bad[at] ^= 8
		if found, err := restored(t, bad); !errors.Is(err, store.ErrDamaged) {
			t.Errorf("byte %d: %v %s", at, err, firstOther(found, want))
		}
	}
	for cut := 0; cut < len(content); cut += 4099 {
		if _, err := restored(t, content[:cut]); !errors.Is(err, store.ErrDamaged) {
			t.Errorf("the first %d of %d bytes: %v", cut, len(content), err)
		}
	}
}

func reopened(folder string) ([]string, error) {
	s, err := Open(Options{Folder: folder})
	if err != nil {
		return nil, err
	}
	defer s.Close()
	return contents(s)
}

// TestALostTailIsNoticed removes the WAL: changes that were acknowledged are missing, unless the marker is removed too.
func TestALostTailIsNoticed(t *testing.T) {
	_, killed := small(t)
	Must(t, os.Remove(filepath.Join(killed, database+"-wal")))
	_, err := Open(Options{Folder: killed})
	if !errors.Is(err, store.ErrDamaged) || !strings.Contains(err.Error(), "0000000000004\\n\", the database has 2") {
		t.Fatal(err)
	}
	Must(t, os.Remove(filepath.Join(killed, marker)))
	if _, err := reopened(killed); err != nil {
		t.Fatal(err)
	}
}

// TestDamageNamesTheRow changes rows: the error names the file, the table and the row.
func TestDamageNamesTheRow(t *testing.T) {
	closed, _ := small(t)
	for change, want := range map[string]string{
		"delete from manifests where app = 'shop'":                                                      "table manifests has 1 revisions",
		"update manifests set revision = 7 where app = 'shop'":                                          "table manifests has 8 revisions",
		"update manifests set head = zeroblob(9) where app = 'bank'":                                    "table manifests, row [bank 1]",
		"delete from bodies where app = 'bank'":                                                         "table bodies, row [bank",
		"update bodies set body = 'y' where app = 'shop' and digest = (select max(digest) from bodies)": "table bodies, row [shop ",
		"update manifests set head = (select head from manifests where app = 'bank')":                   "table manifests, row [shop 1]",
		"alter table bodies add column more integer":                                                    "its tables are others",
		"delete from state":       "table state",
		"pragma user_version = 9": "no store of version 3",
	} {
		folder := t.TempDir()
		copyTo(t, closed, folder)
		db, err := sql.Open("sqlite3", filepath.Join(folder, database))
		Must(t, err)
		_, err = db.Exec(change)
		Must(t, err)
		Must(t, db.Close())
		_, err = Open(Options{Folder: folder})
		if !errors.Is(err, store.ErrDamaged) || !strings.Contains(err.Error(), want) || !strings.Contains(err.Error(), filepath.Join(folder, database)) {
			t.Errorf("%s: %v", change, err)
		}
	}
}

// spoil changes a database.
func spoil(t testing.TB, folder, change string, args ...any) {
	t.Helper()
	db, err := sql.Open("sqlite3", filepath.Join(folder, database))
	Must(t, err)
	_, err = db.Exec(change, args...)
	Must(t, err)
	Must(t, db.Close())
}

const spoilBody = "update bodies set body = zeroblob(3) where app = ? and digest = ?"

// withFile returns a store with a bundle whose compiled file is stored too, and an earlier version.
func withFile(t testing.TB) (folder string, now *manifest.Manifest) {
	t.Helper()
	folder = t.TempDir()
	s, err := Open(Options{Folder: folder, Create: true})
	Must(t, err)
	before := Make(t, s, Empty("shop"), Put("de", "earlier"))
	edit := Put("de", "text")
	edit.File = manifest.DigestOf([]byte("file"))
	now, bodies := Next(t, before, edit)
	bodies[edit.File] = []byte("file")
	Must(t, s.Swap(Ctx, now, bodies))
	Must(t, s.Close())
	return folder, now
}

// TestADamagedBody has one of the two bodies of a bundle damaged, and an earlier version: the store opens, and a body that is stored again is
// sound. If both are damaged the error names the application, the locale and the digest.
func TestADamagedBody(t *testing.T) {
	folder, now := withFile(t)
	b := now.Bundles[0]
	earlier := Put("de", "earlier")
	for _, d := range []manifest.Digest{b.File, earlier.Digest} {
		spoil(t, folder, spoilBody, "shop", d)
	}
	s, err := Open(Options{Folder: folder})
	Must(t, err)
	if _, err := s.Body(Ctx, "shop", b.FileBody()); !errors.Is(err, store.ErrDamaged) {
		t.Error("the file: ", err)
	}
	Check(t, s, now)
	again, bodies := Next(t, now, earlier)
	Must(t, s.Swap(Ctx, again, bodies))
	Check(t, s, again)
	Must(t, s.Close())
	Check(t, opened(t, folder), again)

	folder, _ = withFile(t)
	spoil(t, folder, spoilBody, "shop", b.Digest)
	s, err = Open(Options{Folder: folder})
	Must(t, err)
	if file, err := s.Body(Ctx, "shop", b.FileBody()); err != nil || string(file) != "file" {
		t.Error(string(file), err)
	}
	if _, err := Backup(folder, filepath.Join(t.TempDir(), "copy")); !errors.Is(err, store.ErrDamaged) {
		t.Error("a backup without the text: ", err)
	}
	Must(t, s.Close())
	spoil(t, folder, spoilBody, "shop", b.File)
	_, err = Open(Options{Folder: folder})
	if !errors.Is(err, store.ErrDamaged) || !strings.Contains(err.Error(), "[shop "+string(b.Digest)+"]: the bundle de ") {
		t.Error("none can be read: ", err)
	}
}

// TestABackupWithoutAFile copies a store of which only a compiled file is damaged.
func TestABackupWithoutAFile(t *testing.T) {
	folder, now := withFile(t)
	spoil(t, folder, spoilBody, "shop", now.Bundles[0].File)
	file, into := filepath.Join(t.TempDir(), "copy"), t.TempDir()
	_, err := Backup(folder, file)
	Must(t, err)
	_, err = Restore(into, file)
	Must(t, err)
	Check(t, opened(t, into), now)
}
