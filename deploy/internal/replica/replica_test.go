package replica

import (
	"context"
	"errors"
	"fmt"
	"strings"
	"sync"
	"testing"
	"time"

	"luvdregan.example/resb/deploy/internal/engine"
	"luvdregan.example/resb/deploy/internal/manifest"
	"luvdregan.example/resb/deploy/internal/store"
	"luvdregan.example/resb/deploy/internal/store/sqlite"
	"luvdregan.example/resb/deploy/tests/harness"
)

var ctx = context.Background()

// A gateway is a replica with its engine.
type gateway struct {
	*Replica
	engine *engine.Engine
}

func open(t *testing.T, folder string, wrap func(store.Store) store.Store) *gateway {
	t.Helper()
	return openKeeping(t, folder, wrap, store.Keep{})
}

func openKeeping(t *testing.T, folder string, wrap func(store.Store) store.Store, keep store.Keep) *gateway {
	t.Helper()
	g := begin(t, folder, wrap, keep)
	harness.Eventually(t, "it is ready", func() bool { return g.Ready() == nil })
	return g
}

func begin(t *testing.T, folder string, wrap func(store.Store) store.Store, keep store.Keep) *gateway {
	t.Helper()
	s, err := sqlite.Open(sqlite.Options{Folder: folder, Create: true})
	if err != nil {
		t.Fatal(err)
	}
	e, err := engine.Open(engine.Options{Steps: 1000, TreeSteps: 1000, ReplyBytes: 1 << 20})
	if err != nil {
		t.Fatal(err)
	}
	return &gateway{Open(wrap(s), e, Options{Apps: 64, Bytes: 1 << 30, Keep: keep, Every: time.Hour}), e}
}

func asIs(s store.Store) store.Store { return s }

// put puts a text.
func (g *gateway) put(app, locale, text string) (*manifest.Manifest, error) {
	b, err := engine.Prepare(engine.Text, []byte(text))
	if err != nil {
		return nil, err
	}
	defer b.Discard()
	edit := manifest.Edit{Locale: locale, Body: []byte(text), Kind: engine.Text, Digest: manifest.DigestOf([]byte(text)), Compiled: b.Compiled()}
	m, _, err := g.Change(ctx, Request{App: app, Who: "me", Op: "put", IsGone: func() bool { return false }, Mine: func(string) bool { return true },
		Make: func(context.Context, *View) ([]Edit, error) { return []Edit{{edit, b}}, nil }})
	return m, err
}

func (g *gateway) is(t *testing.T, app, locale, path, value string) {
	t.Helper()
	reply, _, code := g.engine.Item(nil, app, locale, path, 1<<20)
	if code != "" || !strings.Contains(string(reply), `"value":"`+value+`"`) {
		t.Errorf("%s/%s/%s: %s %s, and not %s", app, locale, path, reply, code, value)
	}
}

func long(value string) string {
	return `de{a{"` + value + `"}b{"` + strings.Repeat("long ", 1000) + `"}}`
}

// A lossy store has no compiled files, and counts the texts that are read.
type lossy struct {
	store.Store
	isLost func(b manifest.Bundle) bool
}

func (s lossy) Body(ctx context.Context, app string, b manifest.Bundle) ([]byte, error) {
	if s.isLost(b) {
		return nil, store.ErrNoBody
	}
	return s.Store.Body(ctx, app, b)
}

// TestCompiledFiles starts from compiled files alone, and without them from the texts.
func TestCompiledFiles(t *testing.T) {
	folder := t.TempDir()
	g := open(t, folder, asIs)
	if m, err := g.put("shop", "fr", `fr{a{"F"}}`); err != nil || m.Bundles[0].File != "" {
		t.Fatal("a short text: ", m, err)
	}
	m, err := g.put("shop", "de", long("A"))
	if err != nil || m.Bundles[1].File == "" {
		t.Fatal(m, err)
	}
	text, file := m.Bundles[1].Digest, m.Bundles[1].File
	g.is(t, "shop", "de_AT", "a", "A")
	g.Close()
	for _, lost := range []manifest.Digest{text, file} {
		lost := lost
		g = open(t, folder, func(s store.Store) store.Store {
			return lossy{s, func(b manifest.Bundle) bool { return b.Digest == lost }}
		})
		g.is(t, "shop", "de_AT", "a", "A")
		g.is(t, "shop", "fr", "a", "F")
		g.Close()
	}
}

// TestAStalledStart has a store that stands still while a start reads it: the gateway has a part then, and isn't ready before it has all.
func TestAStalledStart(t *testing.T) {
	folder, may := t.TempDir(), make(chan bool)
	g := open(t, folder, asIs)
	for _, app := range []string{"bank", "shop"} {
		_, err := g.put(app, "de", `de{a{"`+app+`"}}`)
		harness.Must(t, err)
	}
	stalled := g.Now("shop").Bundles[0].Digest
	g.Close()
	g = begin(t, folder, func(s store.Store) store.Store {
		return lossy{s, func(b manifest.Bundle) bool { return b.Digest == stalled && !<-may }}
	}, store.Keep{})
	defer g.Close()
	harness.Eventually(t, "it has a part", func() bool { return g.Now("bank").Revision == 1 })
	time.Sleep(50 * time.Millisecond)
	if _, err := g.put("bank", "de", "de{}"); g.Ready() != ErrReplaying || err != ErrReplaying {
		t.Error(g.Ready(), err)
	}
	may <- true
	harness.Eventually(t, "it is ready", func() bool { return g.Ready() == nil })
	g.is(t, "shop", "de", "a", "shop")
}

// TestCollectsAfterAStart has a gateway that ends long before the time between two collections is over.
func TestCollectsAfterAStart(t *testing.T) {
	folder := t.TempDir()
	g := open(t, folder, asIs)
	for i := 0; i < 3; i++ {
		if _, err := g.put("shop", "de", fmt.Sprintf(`de{a{"%d"}}`, i)); err != nil {
			t.Fatal(err)
		}
	}
	g.Close()
	g = openKeeping(t, folder, asIs, store.Keep{Manifests: 1})
	defer g.Close()
	harness.Eventually(t, "earlier manifests are removed", func() bool {
		all, err := g.History(ctx, "shop", 0, 10)
		return err == nil && len(all) == 1
	})
}

// TestErasures erases an application and undoes that, beside its writers and readers, and beside the collector. Nobody finds what was erased, and what
// came back has its bodies.
func TestErasures(t *testing.T) {
	g := open(t, t.TempDir(), asIs)
	defer g.Close()
	end, stop := context.WithTimeout(ctx, 2*time.Second)
	defer stop()
	var all sync.WaitGroup
	work := func(n int, do func(w, i int)) {
		for w := 0; w < n; w++ {
			all.Add(1)
			go func(w int) {
				defer all.Done()
				for i := 0; end.Err() == nil; i++ {
					do(w, i)
				}
			}(w)
		}
	}
	work(3, func(w, i int) {
		locale := fmt.Sprintf("l%c", 'a'+w)
		if _, err := g.put("shop", locale, strings.Replace(long(fmt.Sprint(i)), "de", locale, 1)); err != nil {
			t.Error(err)
		}
	})
	change := func(q Request) error {
		q.App, q.Who, q.IsGone, q.Mine = "shop", "me", func() bool { return false }, func(string) bool { return true }
		_, _, err := g.Change(ctx, q)
		return err
	}
	work(1, func(_, i int) {
		if err := change(Request{Op: "erase", Erase: true, Undoable: time.Duration(i%4) * time.Hour}); err != nil {
			t.Error(err)
		}
	})
	work(1, func(int, int) {
		if err := change(Request{Op: "undo", Undo: true}); err != nil && !errors.Is(err, store.ErrNoVersion) {
			t.Error(err)
		}
	})
	work(2, func(w, i int) {
		soon, cancel := context.WithTimeout(ctx, time.Duration(i%40)*50*time.Microsecond)
		defer cancel()
		if _, err := g.History(soon, "shop", 0, 20); err != nil && !errors.Is(err, store.ErrUnreached) {
			t.Error(err)
		}
		for _, b := range g.Now("shop").Bundles {
			_, err := g.Body(soon, "shop", b)
			if err != nil && !errors.Is(err, store.ErrUnreached) && !errors.Is(err, store.ErrNoBody) {
				t.Error(err)
			}
			g.engine.Item(nil, "shop", b.Locale, "a", 1<<20)
			g.engine.Tree("shop", b.Locale, "")
		}
	})
	work(1, func(int, int) {
		if _, err := g.store.Collect(ctx, store.Keep{Manifests: 2}); err != nil {
			t.Error(err)
		}
	})
	all.Wait()
	for _, b := range g.Now("shop").Bundles {
		if _, err := g.Body(ctx, "shop", b); err != nil {
			t.Error(err)
		}
	}
}

// TestWriters has changes of some applications at once. Each is found once it is acknowledged, and none is lost.
func TestWriters(t *testing.T) {
	g := open(t, t.TempDir(), asIs)
	defer g.Close()
	var all sync.WaitGroup
	for w := 0; w < 8; w++ {
		all.Add(1)
		go func(w int) {
			defer all.Done()
			app, locale := fmt.Sprint("app", w%3), fmt.Sprintf("l%c", 'a'+w)
			for i := 0; i < 10; i++ {
				value := fmt.Sprint(w, " ", i)
				m, err := g.put(app, locale, locale+`{a{"`+value+`"}}`)
				if err != nil {
					t.Error(err)
					return
				}
				g.is(t, app, locale, "a", value)
				if err := g.Await(ctx, app, m.Revision); err != nil {
					t.Error(err)
				}
			}
		}(w)
	}
	all.Wait()
	if sum := g.Sum(); sum.Apps != 3 || sum.Bundles != 8 || g.Now("app0").Revision != 30 || g.Now("app2").Revision != 20 {
		t.Error(sum, g.Now("app0").Revision)
	}
}

// TestAwait waits for an application that isn't there yet, and leaves none behind.
func TestAwait(t *testing.T) {
	g := open(t, t.TempDir(), asIs)
	defer g.Close()
	soon, cancel := context.WithTimeout(ctx, 10*time.Millisecond)
	defer cancel()
	if err := g.Await(soon, "none", 1); !errors.Is(err, ErrBehind) {
		t.Error(err)
	}
	if _, there := g.apps.Load("none"); there {
		t.Error("it is left behind")
	}
	came := make(chan error)
	go func() { came <- g.Await(ctx, "shop", 2) }()
	for i := 0; i < 2; i++ {
		if _, err := g.put("shop", "de", fmt.Sprintf(`de{a{"%d"}}`, i)); err != nil {
			t.Fatal(err)
		}
	}
	if err := <-came; err != nil {
		t.Error(err)
	}
}
