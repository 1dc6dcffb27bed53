// Package storetest has the tests that every store must pass.
package storetest

import (
	"bytes"
	"context"
	"errors"
	"fmt"
	"math/rand"
	"sync"
	"sync/atomic"
	"testing"
	"time"

	"luvdregan.example/resb/deploy/internal/manifest"
	"luvdregan.example/resb/deploy/internal/store"
)

// A Kind is a kind of store. Open opens another client of the same data, or the same one if the store has only one.
type Kind struct {
	Open   func(t *testing.T) store.Store
	Other  func(t *testing.T) store.Store // opens an empty store, which may be of another kind
	Shared bool                           // several clients may have the data
	Grace  time.Duration                  // the shortest one that Collect honours
}

// Suite runs all tests. Each gets separate data.
func Suite(t *testing.T, fresh func(t *testing.T) Kind) {
	for name, test := range map[string]func(*testing.T, Kind){
		"Bodies": testBodies, "Conflicts": testConflicts, "Pages": testPages, "History": testHistory, "Erase": testErase, "Undo": testUndo, "Races": testRaces,
		"Watch": testWatch, "Collect": testCollect, "CollectUnderWriters": testCollectUnderWriters, "Each": testEach, "Release": testRelease, "Copy": testCopy,
		"GivenUp": testGivenUp, "Gone": testGone,
	} {
		t.Run(name, func(t *testing.T) { test(t, fresh(t)) })
	}
}

// Ctx is the context of a test.
var Ctx = context.Background()

// Must ends a test at an error.
func Must(t testing.TB, err error) {
	t.Helper()
	if err != nil {
		t.Fatal(err)
	}
}

// Put returns an edit that puts a text.
func Put(locale, text string) manifest.Edit {
	body := []byte(text)
	return manifest.Edit{Locale: locale, Body: body, Kind: "text", Digest: manifest.DigestOf(body), Compiled: int64(len(body))}
}

var ids int64

// Next returns the manifest that edits make, and the bodies that the one before doesn't name.
func Next(t testing.TB, now *manifest.Manifest, edits ...manifest.Edit) (*manifest.Manifest, map[manifest.Digest][]byte) {
	t.Helper()
	c := manifest.Change{App: now.App, ID: fmt.Sprint("id", atomic.AddInt64(&ids, 1)), Op: "put", Who: "me", At: time.Now().UnixMilli(), Edits: edits}
	next, refusal := manifest.Judge(now, &c, manifest.Limits{})
	if refusal != nil {
		t.Fatal(refusal)
	}
	had, bodies := map[manifest.Digest]bool{}, map[manifest.Digest][]byte{}
	for _, b := range now.Bundles {
		had[b.Digest] = true
	}
	for _, e := range edits {
		if e.Body != nil && !had[e.Digest] {
			bodies[e.Digest] = e.Body
		}
	}
	return next, bodies
}

// Make makes a change, and returns its manifest.
func Make(t testing.TB, s store.Store, now *manifest.Manifest, edits ...manifest.Edit) *manifest.Manifest {
	t.Helper()
	next, bodies := Next(t, now, edits...)
	Must(t, s.Swap(Ctx, next, bodies))
	return next
}

// Empty is an application without bundles.
func Empty(app string) *manifest.Manifest { return &manifest.Manifest{App: app} }

// Check reads a manifest with all its bodies, and compares it with what it must be.
func Check(t testing.TB, s store.Store, want *manifest.Manifest) {
	t.Helper()
	got, err := s.Manifest(Ctx, want.App, want.Revision, nil)
	Must(t, err)
	if got.Bytes != want.Bytes || got.Compiled != want.Compiled || got.Orders != want.Orders {
		t.Fatal("other sums")
	}
	if got.ID != want.ID || got.Before != want.Before || fmt.Sprint(got.Bundles) != fmt.Sprint(want.Bundles) {
		t.Fatalf("%s at %d is another manifest: %+v and not %+v", want.App, want.Revision, got, want)
	}
	for _, b := range got.Bundles {
		body, err := s.Body(Ctx, got.App, b)
		Must(t, err)
		if int64(len(body)) != b.Bytes || manifest.DigestOf(body) != b.Digest {
			t.Fatalf("%s, %s: other bytes", got.App, b.Locale)
		}
	}
}

func testBodies(t *testing.T, k Kind) {
	s := k.Open(t)
	now := Empty("a")
	long := bytes.Repeat([]byte("0123456789abcdef"), 1<<17) // 2 MB
	for _, body := range []string{"", "x{}", string(long[:1<<20]), string(long[:1<<20+1]), string(long), "x{}"} {
		now = Make(t, s, now, Put("de", body), Put(fmt.Sprint("l", now.Revision), "y{}"))
		Check(t, s, now)
		if got, err := s.Manifest(Ctx, "a", 0, nil); err != nil || got.ID != now.ID {
			t.Fatal("the newest one: ", got, err)
		}
	}
	_, err := s.Body(Ctx, "a", manifest.Bundle{Digest: manifest.DigestOf([]byte("no")), Bytes: 2})
	if !errors.Is(err, store.ErrNoBody) {
		t.Error(err)
	}
	if _, err = s.Body(Ctx, "b", now.Bundles[0]); !errors.Is(err, store.ErrNoBody) {
		t.Error("a body of another application:", err)
	}
	for _, at := range []struct {
		app      string
		revision int64
	}{{"a", 7}, {"b", 0}, {"b", 1}} {
		if _, err := s.Manifest(Ctx, at.app, at.revision, nil); !errors.Is(err, store.ErrNoVersion) {
			t.Error(at, err)
		}
	}
	Must(t, s.Writable(Ctx))
	stats, err := s.Stats(Ctx)
	if err != nil || stats.Bytes == 0 {
		t.Error(stats, err)
	}
}

func testConflicts(t *testing.T, k Kind) {
	s := k.Open(t)
	one := Make(t, s, Empty("a"), Put("de", "one"))
	Make(t, s, Empty("a.b"), Put("de", "other")) // a name that begins alike
	conflicts := func(now *manifest.Manifest) {
		t.Helper()
		next, bodies := Next(t, now, Put("de", "lost"))
		if err := s.Swap(Ctx, next, bodies); !errors.Is(err, store.ErrConflict) {
			t.Errorf("revision %d after %q: %v", next.Revision, next.Before, err)
		}
	}
	conflicts(Empty("a"))
	conflicts(&manifest.Manifest{App: "a", Revision: 1, ID: "another"})
	conflicts(&manifest.Manifest{App: "a", Revision: 2, ID: one.ID})
	conflicts(&manifest.Manifest{App: "none", Revision: 2, ID: one.ID})
	two := Make(t, s, one, Put("de", "two"))
	conflicts(one)
	Check(t, s, two)
	if _, err := s.Manifest(Ctx, "a", 3, nil); !errors.Is(err, store.ErrNoVersion) {
		t.Error(err)
	}
	Make(t, s, two, manifest.Edit{Locale: "de"})
}

func testPages(t *testing.T, k Kind) {
	s := k.Open(t)
	var edits []manifest.Edit
	for i := 0; i < 300; i++ {
		edits = append(edits, Put(fmt.Sprint("l", i), fmt.Sprint("text ", i)))
	}
	now := Make(t, s, Empty("a"), edits...)
	Check(t, s, now)
	for i := 0; i < 5; i++ {
		near := now
		now = Make(t, s, now, Put(fmt.Sprint("l", i*7), fmt.Sprint("new ", i)), manifest.Edit{Locale: fmt.Sprint("l", 200+i)})
		Check(t, s, now)
		got, err := s.Manifest(Ctx, "a", now.Revision, near)
		Must(t, err)
		if len(got.Bundles) != 299-i || len(manifest.Diff(got, now)) != 0 || len(manifest.Diff(near, got)) != 2 {
			t.Fatal("a manifest near another one differs")
		}
		now = got
	}
}

func testHistory(t *testing.T, k Kind) {
	s := k.Open(t)
	now := Empty("a")
	var edits []manifest.Edit
	for i := 0; i < 80; i++ {
		edits = append(edits, Put(fmt.Sprint("l", i), "x"))
	}
	now = Make(t, s, now, edits...)
	for i := 0; i < 24; i++ {
		now = Make(t, s, now, Put("l1", fmt.Sprint(i)))
	}
	for _, c := range []struct {
		before int64
		most   int
		want   string
	}{{0, 3, "25 24 23"}, {24, 2, "23 22"}, {2, 5, "1"}, {1, 5, ""}, {99, 1, "25"}, {0, 100, "25"}} {
		all, err := s.History(Ctx, "a", c.before, c.most)
		Must(t, err)
		var got []string
		for _, m := range all {
			got = append(got, fmt.Sprint(m.Revision))
			if m.Who != "me" || m.Revision > 1 && (len(m.Made) != 1 || m.Made[0].Op != manifest.Replace) || m.Revision == 1 && len(m.Made) != 80 {
				t.Fatalf("%+v", m)
			}
		}
		if c.most == 100 && len(all) == 25 {
			continue
		}
		if fmt.Sprint(got) != "["+c.want+"]" {
			t.Errorf("before %d: %v", c.before, got)
		}
	}
	if all, err := s.History(Ctx, "none", 0, 9); err != nil || len(all) != 0 {
		t.Error(all, err)
	}
}

func testErase(t *testing.T, k Kind) {
	s := k.Open(t)
	one := Make(t, s, Empty("a"), Put("de", "one"))
	other := Make(t, s, Empty("a-b"), Put("de", "one"))
	two := Make(t, s, one, Put("de", "two"))
	erased, _ := manifest.Judge(two, &manifest.Change{App: "a", ID: "gone", At: time.Now().UnixMilli(), Erase: true}, manifest.Limits{})
	Must(t, s.Swap(Ctx, erased, nil))
	for revision := int64(1); revision < 3; revision++ {
		if _, err := s.Manifest(Ctx, "a", revision, nil); !errors.Is(err, store.ErrNoVersion) {
			t.Error(revision, err)
		}
	}
	if all, err := s.History(Ctx, "a", 0, 9); err != nil || len(all) != 1 || !all[0].Erased {
		t.Error(all, err)
	}
	Check(t, s, erased)
	Check(t, s, other)
	four := Make(t, s, erased, Put("de", "one"))
	if four.Revision != 4 {
		t.Error(four.Revision)
	}
	Check(t, s, four)
}

// testUndo has an erasure that can be undone: what it removed stays until its time, and earlier versions don't.
func testUndo(t *testing.T, k Kind) {
	s := k.Open(t)
	now := Make(t, s, Empty("a"), Put("de", "earlier"), Put("fr", "french"))
	now = Make(t, s, now, Put("de", "a-secret"))
	change := func(c manifest.Change) *manifest.Manifest {
		t.Helper()
		c.App, c.ID, c.At = "a", fmt.Sprint("id", atomic.AddInt64(&ids, 1)), time.Now().UnixMilli()
		next, refusal := manifest.Judge(now, &c, manifest.Limits{})
		if refusal != nil {
			t.Fatal(refusal)
		}
		Must(t, s.Swap(Ctx, next, nil))
		return next
	}
	has := func(text string) bool {
		_, err := s.Body(Ctx, "a", manifest.Bundle{Digest: manifest.DigestOf([]byte(text)), Bytes: int64(len(text))})
		return err == nil
	}
	collect := func() {
		t.Helper()
		time.Sleep(2*k.Grace + 20*time.Millisecond)
		for i := 0; i < 2; i++ {
			_, err := s.Collect(Ctx, store.Keep{Manifests: 1, Bytes: 1, Grace: k.Grace})
			Must(t, err)
		}
	}
	now = change(manifest.Change{Erase: true, Until: time.Now().Add(time.Hour).UnixMilli()})
	now = change(manifest.Change{Erase: true, Until: time.Now().Add(time.Hour).UnixMilli()})
	now = Make(t, s, now, Put("fr", "new"))
	collect()
	if all, err := s.History(Ctx, "a", 0, 9); err != nil || len(all) > 2 || has("earlier") || !has("a-secret") || !has("french") {
		t.Error(all, err, has("earlier"), has("a-secret"))
	}
	gone, err := manifest.ReadErased(now.Erasure, func(d manifest.Digest) ([]byte, error) { return s.Body(Ctx, "a", manifest.Bundle{Digest: d}) })
	Must(t, err)
	now = change(manifest.Change{IsUndo: true, Erased: gone})
	Check(t, s, now)
	if len(now.Bundles) != 2 || now.Find("de").Digest != manifest.DigestOf([]byte("a-secret")) || now.Find("fr").Bytes != 3 || now.Erasure != nil {
		t.Errorf("%+v", now)
	}
	collect()
	Check(t, s, now)
	now = change(manifest.Change{Erase: true, Until: time.Now().Add(-time.Hour).UnixMilli()})
	collect()
	if has("a-secret") || has("new") {
		t.Error("what was erased is there after its time")
	}
	Check(t, s, now)
}

// testRaces has four clients make the same revision, 100 times: exactly one succeeds, and its manifest is stored.
func testRaces(t *testing.T, k Kind) {
	clients := []store.Store{k.Open(t)}
	for len(clients) < 4 {
		s := clients[0]
		if k.Shared {
			s = k.Open(t)
		}
		clients = append(clients, s)
	}
	now := Empty("a")
	for round := 0; round < 100; round++ {
		var all sync.WaitGroup
		var won [4]*manifest.Manifest
		for i, s := range clients {
			next, bodies := Next(t, now, Put("de", fmt.Sprint(round, " of ", i)))
			all.Add(1)
			go func(i int, s store.Store) {
				defer all.Done()
				switch err := s.Swap(Ctx, next, bodies); {
				case err == nil:
					won[i] = next
				case !errors.Is(err, store.ErrConflict):
					t.Error(err)
				}
			}(i, s)
		}
		all.Wait()
		winners := 0
		for _, m := range won {
			if m != nil {
				winners++
				now = m
			}
		}
		if winners != 1 || now.Revision != int64(round+1) {
			t.Fatalf("round %d: %d won", round, winners)
		}
		Check(t, clients[round%4], now)
	}
}

// testWatch has writers and a watcher that begins in their midst: a Sync returns after all that was stored before was reported.
func testWatch(t *testing.T, k Kind) {
	s := k.Open(t)
	watcher := s
	if k.Shared {
		watcher = k.Open(t)
	}
	const apps = 4
	var mu sync.Mutex
	byWatcher := map[string]int64{}
	ctx, stop := context.WithCancel(Ctx)
	var all sync.WaitGroup
	now := make([]*manifest.Manifest, apps)
	for i := range now {
		now[i] = Make(t, s, Empty(fmt.Sprint("app", i)), Put("de", "0"))
	}
	all.Add(1)
	go func() {
		defer all.Done()
		_ = watcher.Watch(ctx, func(app string, revision int64) {
			mu.Lock()
			defer mu.Unlock()
			if revision > byWatcher[app] {
				byWatcher[app] = revision
			}
		})
	}()
	for round := 1; round < 40; round++ {
		for i := range now {
			now[i] = Make(t, s, now[i], Put("de", fmt.Sprint(round)))
		}
		if round%4 != 0 {
			continue
		}
		Must(t, watcher.Sync(Ctx))
		mu.Lock()
		for i := range now {
			if byWatcher[now[i].App] < now[i].Revision {
				t.Errorf("after Sync the watcher knows %d of %d", byWatcher[now[i].App], now[i].Revision)
			}
		}
		mu.Unlock()
	}
	stop()
	all.Wait()
}

func testCollect(t *testing.T, k Kind) {
	s := k.Open(t)
	var edits []manifest.Edit
	for i := 0; i < 80; i++ {
		edits = append(edits, Put(fmt.Sprint("l", i), fmt.Sprint("text ", i)))
	}
	all := []*manifest.Manifest{Make(t, s, Empty("a"), edits...)}
	for i := 0; i < 9; i++ {
		all = append(all, Make(t, s, all[i], Put("l1", fmt.Sprintf("%01000d", i))))
	}
	kept := func(first int) {
		t.Helper()
		for i, m := range all {
			if i+1 >= first {
				Check(t, s, m)
			} else if _, err := s.Manifest(Ctx, "a", m.Revision, nil); !errors.Is(err, store.ErrNoVersion) {
				t.Errorf("manifest %d: %v", m.Revision, err)
			}
		}
	}
	collect := func(keep store.Keep) {
		t.Helper()
		_, err := s.Collect(Ctx, keep)
		Must(t, err)
	}
	collect(store.Keep{Manifests: 20, Age: time.Hour, Bytes: 1 << 20, Grace: k.Grace})
	kept(1)
	collect(store.Keep{Manifests: 1, Grace: time.Hour})
	kept(1)
	time.Sleep(2*k.Grace + 20*time.Millisecond)
	collect(store.Keep{Bytes: 5500, Grace: k.Grace}) // the newest, and 5 of 1,000 bytes before it
	kept(5)
	collect(store.Keep{Manifests: 3, Grace: k.Grace})
	kept(8)
	gone := manifest.Bundle{Digest: manifest.DigestOf([]byte(fmt.Sprintf("%01000d", 0))), Bytes: 1000}
	if _, err := s.Body(Ctx, "a", gone); !errors.Is(err, store.ErrNoBody) {
		t.Error(err)
	}
	collect(store.Keep{Age: time.Millisecond, Grace: k.Grace})
	kept(10)
	collect(store.Keep{Grace: k.Grace})
	lost, bodies := Next(t, all[8], Put("l1", "lost"), Put("l2", string(bytes.Repeat([]byte("0123456789abcdef"), 1<<20)))) // 16 MB, stored before the conflict
	if err := s.Swap(Ctx, lost, bodies); !errors.Is(err, store.ErrConflict) {
		t.Error(err)
	}
	collect(store.Keep{Grace: k.Grace})
	if _, err := s.Body(Ctx, "a", *lost.Find("l2")); !errors.Is(err, store.ErrNoBody) {
		t.Error("a body of a refused change: ", err)
	}
	last := all[9]
	for i := 0; i < 3; i++ { // bodies that were removed
		last = Make(t, s, last, Put("l1", fmt.Sprintf("%01000d", i)))
		Check(t, s, last)
	}
}

// testEach collects after 300 releases of 20 bundles: the last three versions of each bundle stay, also of one that was edited before the
// releases, and of one that was removed; and nothing else but the newest manifests.
func testEach(t *testing.T, k Kind) {
	s := k.Open(t)
	now := Make(t, s, Empty("a"), Put("de", "one"), Put("en", "eins"))
	for _, text := range []string{"two", "three", "four"} {
		now = Make(t, s, now, Put("de", text))
	}
	now = Make(t, s, now, manifest.Edit{Locale: "en"})
	release := func(n int) {
		var edits []manifest.Edit
		for i := 0; i < 20; i++ {
			edits = append(edits, Put(fmt.Sprint("l", i), fmt.Sprint("release ", n, " of ", i)))
		}
		now = Make(t, s, now, edits...)
	}
	for n := 0; n < 300; n++ {
		release(n)
	}
	versions := func() (all map[string]string) {
		all = map[string]string{}
		manifests, err := s.History(Ctx, "a", 0, 1000)
		Must(t, err)
		stored, err := s.Digests(Ctx, "a")
		Must(t, err)
		for _, m := range manifests {
			for _, made := range m.Made {
				b := manifest.Bundle{Digest: made.Digest, Bytes: made.Bytes}
				body, err := s.Body(Ctx, "a", b)
				if stored[made.Digest] != (err == nil) {
					t.Errorf("%s at %d: %v, and it is stored: %v", made.Locale, m.Revision, err, stored[made.Digest])
				}
				if made.Digest == "" || err == nil {
					all[made.Locale] += fmt.Sprint(m.Revision, " ", string(body), ", ")
				}
			}
		}
		return all
	}
	collect := func(keep store.Keep) map[string]string {
		t.Helper()
		keep.Grace = k.Grace
		_, err := s.Collect(Ctx, keep)
		Must(t, err)
		return versions()
	}
	is := func(got map[string]string, locale, want string) {
		t.Helper()
		if got[locale] != want {
			t.Errorf("%s: %q, and not %q", locale, got[locale], want)
		}
	}
	time.Sleep(2*k.Grace + 20*time.Millisecond)
	keep := store.Keep{Manifests: 2, Each: 3, EachBytes: 2000}
	for range []int{1, 2} { // the second one reads what the first one left
		got := collect(keep)
		is(got, "de", "4 four, 3 three, 2 two, ")
		is(got, "en", "5 , 1 eins, ")
		is(got, "l7", "305 release 299 of 7, 304 release 298 of 7, 303 release 297 of 7, ")
	}
	Check(t, s, now)
	release(300)
	time.Sleep(2*k.Grace + 20*time.Millisecond)
	is(collect(store.Keep{Bytes: 1, Each: 1}), "de", "4 four, ")
	is(collect(store.Keep{Manifests: 1, Each: 1, EachBytes: 3}), "de", "")
	is(collect(store.Keep{Age: time.Millisecond, Each: 3}), "l7", "306 release 300 of 7, ")
	Check(t, s, now)
}

// testCollectUnderWriters collects all the time while writers put, among few, bodies that may just be collected.
func testCollectUnderWriters(t *testing.T, k Kind) {
	s := k.Open(t)
	collector := s
	if k.Shared {
		collector = k.Open(t)
	}
	stop := make(chan struct{})
	var all, collecting sync.WaitGroup
	collecting.Add(1)
	removed := 0
	go func() {
		defer collecting.Done()
		for {
			n, err := collector.Collect(Ctx, store.Keep{Manifests: 1, Grace: k.Grace})
			if removed += n; err != nil {
				t.Error(err)
			}
			select {
			case <-stop:
				return
			case <-time.After(5 * time.Millisecond):
			}
		}
	}()
	for w := 0; w < 4; w++ {
		all.Add(1)
		go func(app string, random *rand.Rand) {
			defer all.Done()
			now := Empty(app)
			for i := 0; i < 60 && !t.Failed(); i++ {
				next, bodies := Next(t, now, Put("de", fmt.Sprint("body ", random.Intn(3), i%2)))
				if next == now {
					continue
				}
				if err := s.Swap(Ctx, next, bodies); err != nil {
					t.Error(err)
					return
				}
				now = next
				if i%10 == 0 {
					if got, err := s.Manifest(Ctx, app, now.Revision, nil); err != nil || len(got.Bundles) != 1 {
						t.Error(got, err)
					} else if _, err := s.Body(Ctx, app, got.Bundles[0]); err != nil {
						t.Error(err)
					}
				}
			}
		}(fmt.Sprint("app", w), rand.New(rand.NewSource(int64(w))))
	}
	all.Wait()
	close(stop)
	collecting.Wait()
	t.Logf("%d removed", removed)
	if removed == 0 {
		t.Error("nothing was removed")
	}
}

// testRelease stores 2,000 bundles at once, and one in an application of so many.
func testRelease(t *testing.T, k Kind) {
	s := k.Open(t)
	var edits []manifest.Edit
	for i := 0; i < 2000; i++ {
		edits = append(edits, Put(fmt.Sprint("l", i), fmt.Sprintf("%02000d", i)))
	}
	now := Make(t, s, Empty("a"), edits...)
	Check(t, s, now)
	Check(t, s, Make(t, s, now, Put("l7", "x")))
}

// testCopy copies a store into another one: the newest manifests, under their revisions.
func testCopy(t *testing.T, k Kind) {
	s, to := k.Open(t), k.Other(t)
	now := Empty("a")
	for i := 0; i < 5; i++ {
		now = Make(t, s, now, Put(fmt.Sprint("l", i), fmt.Sprint(i)))
	}
	b := Make(t, s, Empty("b"), Put("de", "x"))
	n, err := store.Copy(Ctx, s, to)
	if err != nil || n != 2 {
		t.Fatal(n, err)
	}
	for _, want := range []*manifest.Manifest{now, b} {
		got, err := to.Manifest(Ctx, want.App, want.Revision, nil)
		if err != nil || fmt.Sprint(got.Bundles) != fmt.Sprint(want.Bundles) {
			t.Fatal(got, err)
		}
	}
	if _, err := store.Copy(Ctx, s, to); !errors.Is(err, store.ErrConflict) {
		t.Error("a second copy: ", err)
	}
	Check(t, to, Make(t, to, now, Put("de", "after")))
}

// testGivenUp has callers give up at any moment: what got no answer is stored whole or not, and what got one is as it says.
func testGivenUp(t *testing.T, k Kind) {
	s := k.Open(t)
	now := Make(t, s, Empty("a"), Put("de", "0"))
	for i := 0; i < 60; i++ {
		next, bodies := Next(t, now, Put("de", fmt.Sprint("text ", i)))
		ctx, cancel := context.WithTimeout(Ctx, time.Duration(i*i)*10*time.Microsecond)
		err := s.Swap(ctx, next, bodies)
		cancel()
		if k.Shared && errors.Is(err, store.ErrUnsettled) { // it may be stored at any time; a second one finds it
			err = s.Swap(Ctx, next, bodies)
		}
		got, there := s.Manifest(Ctx, "a", next.Revision, nil)
		stored := there == nil && got.ID == next.ID
		switch {
		case err == nil && !stored, errors.Is(err, store.ErrUnreached) && stored, errors.Is(err, store.ErrConflict):
			t.Fatalf("change %d: %v, stored %v", i, err, stored)
		case stored:
			now = next
		}
	}
}

// testGone has readers go at any moment: they get what they asked for, or that the store isn't reached.
func testGone(t *testing.T, k Kind) {
	s := k.Open(t)
	now := Empty("a")
	for i := 0; i < 20; i++ {
		now = Make(t, s, now, Put("de", fmt.Sprint("text ", i)))
	}
	for i := 0; i < 300; i++ {
		ctx, cancel := context.WithTimeout(Ctx, time.Duration(i)*3*time.Microsecond)
		all, err := s.History(ctx, "a", 0, 20)
		if err == nil && len(all) != 20 || err != nil && !errors.Is(err, store.ErrUnreached) {
			t.Errorf("%d manifests: %v", len(all), err)
		}
		if _, err := s.Manifest(ctx, "a", 0, nil); err != nil && !errors.Is(err, store.ErrUnreached) {
			t.Error("a manifest: ", err)
		}
		if _, err := s.Body(ctx, "a", now.Bundles[0]); err != nil && !errors.Is(err, store.ErrUnreached) {
			t.Error("a body: ", err)
		}
		cancel()
	}
}
