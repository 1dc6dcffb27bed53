// Package replica brings an engine to the manifests of a store, and has changes made.
package replica

import (
	"context"
	"errors"
	"log"
	"runtime"
	"strconv"
	"sync"
	"sync/atomic"
	"time"

	"luvdregan.example/resb/deploy/internal/engine"
	"luvdregan.example/resb/deploy/internal/manifest"
	"luvdregan.example/resb/deploy/internal/names"
	"luvdregan.example/resb/deploy/internal/store"
)

// The errors of a replica.
var (
	ErrBehind      = errors.New("the gateway doesn't have this revision yet")
	ErrReplaying   = errors.New("the gateway doesn't have all bundles yet")
	ErrTooManyApps = errors.New("too many applications have bundles")
	ErrGone        = errors.New("the caller has gone")
)

// Options are the limits of changes, and what stays of earlier manifests.
type Options struct {
	Limits manifest.Limits
	Apps   int   // the most with bundles
	Bytes  int64 // the most of all compiled bundles
	Keep   store.Keep
	Every  time.Duration // between two collections of what need not stay
}

// The past is what a replica reads from its store for callers.
type past interface {
	History(ctx context.Context, app string, before int64, most int) ([]*manifest.Manifest, error)
	Body(ctx context.Context, app string, b manifest.Bundle) ([]byte, error)
	Digests(ctx context.Context, app string) (map[manifest.Digest]bool, error)
	Stats(ctx context.Context) (store.Stats, error)
}

// A Replica is a gateway's copy of all applications.
type Replica struct {
	past
	store     store.Store
	engine    *engine.Engine
	options   Options
	ctx       context.Context
	stop      context.CancelFunc
	ending    sync.Mutex // locked while ends grows
	ends      sync.WaitGroup
	reading   places // taken by each bundle that is read from the store
	preparing places // taken while it is prepared
	ready     atomic.Bool
	read      atomic.Int64 // bodies of the store
	changing  atomic.Int64 // changes on their way
	madeRoom  atomic.Int64 // when, in seconds
	wentBack  chan error
	long      sync.Map // of places by holder, taken while a long change is stored

	apps sync.Map // of *app by name
	mu   sync.Mutex
}

// An app is one application.
type app struct {
	name    string
	writing places     // taken by the change that is made, so that a gateway's own changes don't conflict
	bring   sync.Mutex // locked while the engine moves to a manifest
	now     atomic.Pointer[View]
	users   int // calls that need it, under the replica's mu

	mu      sync.Mutex
	moved   chan struct{} // closed when now changes
	wanted  int64         // the newest revision that the store reported
	since   time.Time     // when it reported the first one that the engine hasn't
	swaps   int64         // the revision that a change of this gateway makes now, or 0
	follows bool          // a goroutine brings the engine there
}

// A View is the manifest that the engine has.
type View struct {
	*manifest.Manifest
	leftOut map[string]bool // bundles that the engine refuses
	header  []string
}

// Header returns the revision as the value of a header, which nobody changes.
func (v *View) Header() []string { return v.header }

func viewOf(m *manifest.Manifest, leftOut map[string]bool) *View {
	return &View{m, leftOut, []string{strconv.FormatInt(m.Revision, 10)}}
}

// empty returns the view of an application that was never changed.
func empty(name string) *View { return viewOf(&manifest.Manifest{App: name}, nil) }

// mostRead is how many bundles are read at once.
const mostRead = 32

// Open begins to follow a store.
func Open(s store.Store, e *engine.Engine, o Options) *Replica {
	ctx, stop := context.WithCancel(context.Background())
	r := &Replica{past: s, store: s, engine: e, options: o, ctx: ctx, stop: stop,
		reading: make(places, mostRead), preparing: make(places, runtime.GOMAXPROCS(0)), wentBack: make(chan error, 1)}
	r.do(r.watch)
	r.do(func() {
		r.start()
		r.collect()
	})
	return r
}

// do does something that Close waits for, unless that was called.
func (r *Replica) do(work func()) {
	r.ending.Lock()
	defer r.ending.Unlock()
	if r.ctx.Err() != nil {
		return
	}
	r.ends.Add(1)
	go func() {
		defer r.ends.Done()
		work()
	}()
}

// Close ends it, and closes the store.
func (r *Replica) Close() {
	r.ending.Lock()
	r.stop()
	r.ending.Unlock()
	r.ends.Wait()
	if err := r.store.Close(); err != nil {
		log.Printf("store: %v", err)
	}
}

// Places are taken by as many at once as there are.
type places chan struct{}

func (p places) take(ctx context.Context) error {
	select {
	case p <- struct{}{}:
		return nil
	case <-ctx.Done():
		return store.ErrUnreached
	}
}

func (p places) leave() { <-p }

func (r *Replica) watch() {
	for r.ctx.Err() == nil {
		err := r.store.Watch(r.ctx, func(name string, revision int64) { r.seen(name, revision, false) })
		if errors.Is(err, store.ErrWentBack) {
			r.ready.Store(false)
			r.wentBack <- err
			return
		} else if err != nil && r.ctx.Err() == nil {
			log.Printf("store: watch: %v", err)
			store.Pause(r.ctx, time.Second)
		}
	}
}

// WentBack gives an error once the store lacks changes that the engine has. Nothing is answered then until a process reads the store anew.
func (r *Replica) WentBack() <-chan error { return r.wentBack }

// start becomes ready once all applications have what was stored before. Then some processors are left for lookups.
func (r *Replica) start() {
	began, bundles := time.Now(), 0
	for failures := 0; r.ctx.Err() == nil; failures++ {
		err := r.store.Sync(r.ctx)
		if err == nil {
			break
		} else if failures == 0 {
			log.Printf("store: %v", err)
		}
		store.Pause(r.ctx, 100*time.Millisecond)
	}
	r.apps.Range(func(_, of any) bool {
		a := of.(*app)
		err := r.await(r.ctx, a, a.target())
		bundles += len(a.now.Load().Bundles)
		return err == nil
	})
	if r.ctx.Err() != nil {
		return
	}
	r.ready.Store(true)
	log.Printf("gateway: ready with %d bundles after %v", bundles, time.Since(began).Round(time.Millisecond))
	left := cap(r.preparing) - engine.Works() - 1 // beside the long work of requests
	if left < 1 {
		left = 1
	}
	for n := left; n < cap(r.preparing); n++ {
		r.preparing <- struct{}{}
	}
}

// collect removes what the store need not keep, at once and then now and then: a gateway that is always killed soon collects too.
func (r *Replica) collect() {
	for goes := r.ctx.Err() == nil; goes; goes = store.Pause(r.ctx, r.options.Every) {
		if removed, err := r.store.Collect(r.ctx, r.options.Keep); err != nil && r.ctx.Err() == nil {
			log.Printf("store: collect: %v", err)
		} else if removed > 0 {
			log.Printf("store: %d earlier manifests and bodies are removed", removed)
		}
	}
}

// Ready returns nil if the engine has all that was stored before the start.
func (r *Replica) Ready() error {
	if !r.ready.Load() {
		return ErrReplaying
	}
	return nil
}

// Read returns how many bodies of the store were read, so that a caller sees whether a start moves on.
func (r *Replica) Read() int64 { return r.read.Load() }

// Behind returns since when the engine lacks a change that the store has, as far as is known at a time; or that time.
func (r *Replica) Behind(now time.Time) time.Time {
	r.apps.Range(func(_, of any) bool {
		a := of.(*app)
		a.mu.Lock()
		defer a.mu.Unlock()
		if a.wanted > a.now.Load().Revision && a.since.Before(now) {
			now = a.since
		}
		return true
	})
	return now
}

// Changing returns how many changes are judged, or wait to be stored.
func (r *Replica) Changing() int64 { return r.changing.Load() }

// Writable returns nil if changes are stored, as far as is known.
func (r *Replica) Writable(ctx context.Context) error {
	if err := r.Ready(); err != nil {
		return err
	}
	return r.store.Writable(ctx)
}

// use returns an application, which is added if it is missing. Leave must follow.
func (r *Replica) use(name string) *app {
	r.mu.Lock()
	defer r.mu.Unlock()
	of, _ := r.apps.Load(name)
	a, there := of.(*app)
	if !there {
		a = &app{name: name, writing: make(places, 1), moved: make(chan struct{})}
		a.now.Store(empty(name))
		r.apps.Store(name, a)
	}
	a.users++
	return a
}

// leave ends a use. An application without a revision is removed.
func (r *Replica) leave(a *app) {
	r.mu.Lock()
	defer r.mu.Unlock()
	if a.users--; a.users == 0 && a.target() == 0 && a.now.Load().Revision == 0 {
		r.apps.Delete(a.name)
	}
}

// target returns the newest revision that the store reported.
func (a *app) target() int64 {
	a.mu.Lock()
	defer a.mu.Unlock()
	return a.wanted
}

// Now returns what the engine has of an application.
func (r *Replica) Now(name string) *View {
	if a, there := r.apps.Load(name); there {
		return a.(*app).now.Load()
	}
	return empty(name)
}

// Await waits until the engine has a revision of an application.
func (r *Replica) Await(ctx context.Context, name string, revision int64) error {
	a := r.use(name)
	defer r.leave(a)
	return r.await(ctx, a, revision)
}

func (r *Replica) await(ctx context.Context, a *app, revision int64) error {
	for {
		a.mu.Lock()
		moved := a.moved
		a.mu.Unlock()
		if a.now.Load().Revision >= revision {
			return nil
		}
		select {
		case <-moved:
		case <-ctx.Done():
			return ErrBehind
		case <-r.ctx.Done():
			return ErrBehind
		}
	}
}

// seen notes that the store has a revision, and moves the engine there. The revision that a change of this gateway makes now is left to
// it for a while.
func (r *Replica) seen(name string, revision int64, late bool) {
	a := r.use(name)
	defer r.leave(a)
	a.mu.Lock()
	defer a.mu.Unlock()
	if revision > a.wanted {
		if a.wanted <= a.now.Load().Revision {
			a.since = time.Now()
		}
		a.wanted = revision
	}
	switch {
	case a.wanted <= a.now.Load().Revision || a.follows || r.ctx.Err() != nil:
	case a.wanted == a.swaps && !late:
		time.AfterFunc(100*time.Millisecond, func() { r.seen(name, revision, true) })
	default:
		a.follows = true
		r.do(func() { r.follow(a) })
	}
}

// follow brings the engine to the newest manifest, passing over those before it.
func (r *Replica) follow(a *app) {
	for wait := time.Duration(0); ; {
		a.mu.Lock()
		wanted, now := a.wanted, a.now.Load()
		if wanted <= now.Revision || r.ctx.Err() != nil {
			a.follows = false
			a.mu.Unlock()
			return
		}
		a.mu.Unlock()
		m, err := r.store.Manifest(r.ctx, a.name, wanted, now.Manifest)
		if err == nil {
			err = r.apply(r.ctx, a, m, nil)
		}
		if err == nil {
			wait = 0
			continue
		}
		if wait > time.Second {
			log.Printf("application %s, revision %d: %v", a.name, wanted, err)
		}
		if wait = 2*wait + 10*time.Millisecond; wait > 5*time.Second {
			wait = 5 * time.Second
		}
		store.Pause(r.ctx, wait)
	}
}

// apply brings the engine to a manifest in one step, unless it has a newer one. The bundles of own are prepared already, by locale.
func (r *Replica) apply(ctx context.Context, a *app, m *manifest.Manifest, own map[string]*engine.Bundle) error {
	a.bring.Lock()
	defer a.bring.Unlock()
	now := a.now.Load()
	if now.Revision >= m.Revision {
		return nil
	}
	edits, leftOut, err := r.edits(ctx, now, m, own)
	if err != nil {
		for _, one := range edits {
			one.Bundle.Discard()
		}
		return err
	}
	next := viewOf(m, leftOut)
	r.engine.Release(a.name, edits, func() { a.now.Store(next) })
	a.mu.Lock()
	defer a.mu.Unlock()
	close(a.moved)
	a.moved = make(chan struct{})
	return nil
}

// edits returns what leads the engine from a view to a manifest, and which bundles of that it refuses.
func (r *Replica) edits(ctx context.Context, now *View, m *manifest.Manifest, own map[string]*engine.Bundle) (
	edits []engine.Edit, leftOut map[string]bool, err error) {
	leftOut = map[string]bool{}
	for locale := range now.leftOut {
		leftOut[locale] = true
	}
	moves := manifest.Diff(now.Manifest, m)
	bundles, errs := r.prepareAll(ctx, m.App, moves, own)
	for i, move := range moves {
		locale := move.Locale()
		isThere := move.Old != nil && !leftOut[locale]
		delete(leftOut, locale)
		var fault *engine.Fault
		if errors.As(errs[i], &fault) {
			log.Printf("application %s: the bundle %s is left out: %v", m.App, locale, errs[i])
			leftOut[locale] = true
		} else if err == nil {
			err = errs[i]
		}
		if bundles[i] != nil || isThere {
			edits = append(edits, engine.Edit{Locale: locale, Bundle: bundles[i]})
		}
	}
	return edits, leftOut, err
}

// prepareAll prepares the bundles that a manifest puts and own doesn't have.
func (r *Replica) prepareAll(ctx context.Context, name string, moves []manifest.Difference, own map[string]*engine.Bundle) (
	bundles []*engine.Bundle, errs []error) {
	bundles, errs = make([]*engine.Bundle, len(moves)), make([]error, len(moves))
	var ends sync.WaitGroup
	for i, move := range moves {
		if move.New == nil {
			continue
		}
		if bundles[i] = own[move.New.Locale]; bundles[i] != nil {
			continue
		}
		r.reading <- struct{}{}
		ends.Add(1)
		go func(i int, b *manifest.Bundle) {
			defer ends.Done()
			bundles[i], errs[i] = r.prepare(ctx, name, b)
			<-r.reading
		}(i, move.New)
	}
	ends.Wait()
	return bundles, errs
}

// prepare reads a bundle of the store: its compiled file, or what was submitted if there is none, or if it is one of another version.
func (r *Replica) prepare(ctx context.Context, name string, b *manifest.Bundle) (*engine.Bundle, error) {
	if _, ok := names.Canonical(b.Locale); !ok {
		return nil, &engine.Fault{Code: "BadLocale"}
	}
	if b.File != "" {
		prepared, err := r.prepareBody(ctx, name, engine.File, b.FileBody())
		if err == nil {
			return prepared, nil
		}
		if errors.Is(err, store.ErrDamaged) || errors.Is(err, store.ErrNoBody) {
			log.Printf("application %s: the text of the bundle %s is compiled again: %v", name, b.Locale, err)
		}
	}
	return r.prepareBody(ctx, name, b.Kind, *b)
}

func (r *Replica) prepareBody(ctx context.Context, name, kind string, b manifest.Bundle) (*engine.Bundle, error) {
	body, err := r.store.Body(ctx, name, b)
	if err != nil {
		return nil, err
	}
	r.read.Add(1)
	if err := r.preparing.take(ctx); err != nil {
		return nil, err
	}
	defer r.preparing.leave()
	return engine.Prepare(kind, body)
}
