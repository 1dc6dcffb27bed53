package replica

import (
	"context"
	"crypto/rand"
	"encoding/hex"
	"errors"
	mathrand "math/rand"
	"time"

	"luvdregan.example/resb/deploy/internal/engine"
	"luvdregan.example/resb/deploy/internal/limits"
	"luvdregan.example/resb/deploy/internal/manifest"
	"luvdregan.example/resb/deploy/internal/store"
)

// An Edit is one of a change, with its bundle prepared.
type Edit struct {
	manifest.Edit
	Bundle *engine.Bundle
}

// A Request is a change that a caller asks for.
type Request struct {
	App, Who, Op string
	Erase        bool
	Undoable     time.Duration // how long an erasure is
	Undo         bool          // of the last erasure
	Default      *string       // the application's default locale, or nil if that stays
	// Tokens changes the tokens of the application, unless it is nil.
	Tokens func(now []string) (next []string, refusal string)
	// Make, unless it is nil, returns the edits against a view; it is called again if another change came first. The bundles are the request's to discard.
	Make func(ctx context.Context, now *View) ([]Edit, error)
	// IsGone tells whether the caller has gone; then nothing is stored any more.
	IsGone func() bool
	// Mine returns true for the applications that the caller may change.
	Mine func(name string) bool
}

// Change has a change made. It returns the manifest that the change made, or the one that it was judged against if it changes nothing or is
// refused.
func (r *Replica) Change(ctx context.Context, q Request) (made *manifest.Manifest, isSame bool, err error) {
	if err := r.Ready(); err != nil {
		return nil, false, err
	}
	r.changing.Add(1)
	defer r.changing.Add(-1)
	a := r.use(q.App)
	defer r.leave(a)
	if err := a.writing.take(ctx); err != nil {
		return nil, false, err
	}
	defer a.writing.leave()
	c := manifest.Change{App: q.App, Who: q.Who, Op: q.Op, ID: newID(), Erase: q.Erase, Tokens: q.Tokens, Default: q.Default}
	confirmed := int64(-1) // the revision up to which the store had reported all when the change had come
	for {
		now := a.now.Load()
		next, edits, err := r.judge(ctx, &q, &c, now)
		if isSame := next == now.Manifest; err != nil || isSame { // it is final only against the newest manifest
			if confirmed == now.Revision {
				return now.Manifest, isSame, err
			}
			if err := r.sync(ctx, a); err != nil {
				return nil, false, err
			}
			confirmed = a.now.Load().Revision
			continue
		}
		if q.IsGone() {
			return nil, false, ErrGone
		}
		switch err := r.swap(ctx, a, now, next, edits); {
		case err == nil:
			return next, false, nil
		case !errors.Is(err, store.ErrConflict):
			return nil, false, err
		}
		store.Pause(ctx, time.Duration(mathrand.Intn(3))*time.Millisecond)
	}
}

// newID returns a random name.
func newID() string {
	var id [16]byte
	if _, err := rand.Read(id[:]); err != nil {
		panic(err)
	}
	return hex.EncodeToString(id[:])
}

// judge makes the next manifest of a change.
func (r *Replica) judge(ctx context.Context, q *Request, c *manifest.Change, now *View) (*manifest.Manifest, []Edit, error) {
	var edits []Edit
	if q.Make != nil {
		made, err := q.Make(ctx, now)
		if err != nil {
			return nil, nil, err
		}
		edits = made
	}
	c.Edits, c.At = make([]manifest.Edit, len(edits)), time.Now().UnixMilli()
	if q.Undoable > 0 {
		c.Until = c.At + q.Undoable.Milliseconds()
	}
	if c.IsUndo = q.Undo; q.Undo {
		var err error
		if c.Erased, err = r.erased(ctx, now); err != nil {
			return nil, nil, err
		}
	}
	for i := range edits {
		edits[i].File = r.stored(edits[i].Bundle)
		c.Edits[i] = edits[i].Edit
	}
	next, refusal := manifest.Judge(now.Manifest, c, r.options.Limits)
	if refusal != nil {
		return nil, nil, refusal
	}
	return next, edits, r.fits(q, now, next)
}

// erased returns what the last erasure removed, if that can still be undone.
func (r *Replica) erased(ctx context.Context, now *View) ([]manifest.Bundle, error) {
	e := now.Erasure
	if e == nil || time.Now().UnixMilli() >= e.Until {
		return nil, store.ErrNoVersion
	}
	return manifest.ReadErased(e, func(d manifest.Digest) ([]byte, error) {
		return r.store.Body(ctx, now.App, manifest.Bundle{Digest: d})
	})
}

// stored returns the digest of a bundle's compiled file, if that is stored too. To make a long one counts as preparing it.
func (r *Replica) stored(b *engine.Bundle) manifest.Digest {
	if b != nil && b.Compiled() > longChange {
		_ = r.preparing.take(context.Background())
		defer r.preparing.leave()
	}
	_, digest := b.Stored()
	return digest
}

// fits returns an error if a change takes more of what all applications share than there is. A caller may have half of what others leave, so that
// some is always left.
func (r *Replica) fits(q *Request, now *View, next *manifest.Manifest) error {
	isNew := len(now.Bundles) == 0 && len(next.Bundles) > 0
	if !isNew && next.Compiled <= now.Compiled {
		return nil
	}
	var all, mine Sum
	r.Each(func(name string, v *View) {
		all.add(v)
		if q.Mine(name) {
			mine.add(v)
		}
	})
	switch {
	case isNew && mine.Apps > 0 && int64(mine.Apps) >= limits.HalfOfFree(int64(r.options.Apps), int64(all.Apps), int64(mine.Apps)),
		isNew && all.Apps >= r.options.Apps:
		return ErrTooManyApps
	case mine.FilesBytes-now.Compiled+next.Compiled > limits.HalfOfFree(r.options.Bytes, all.FilesBytes, mine.FilesBytes):
		return &manifest.Refusal{Code: manifest.OverQuota}
	}
	return nil
}

// longChange is how many bytes of bodies a change has of which a holder stores one at a time, so that others' changes come between.
const longChange = 64 << 10

// turn waits until no other long change of a holder is stored.
func (r *Replica) turn(ctx context.Context, who string, bodies map[manifest.Digest][]byte) (end func(), err error) {
	bytes := 0
	for _, body := range bodies {
		bytes += len(body)
	}
	if bytes < longChange {
		return func() {}, nil
	}
	of, _ := r.long.LoadOrStore(who, make(places, 1))
	return of.(places).leave, of.(places).take(ctx)
}

// swap stores a manifest, and brings the engine to it.
func (r *Replica) swap(ctx context.Context, a *app, now *View, next *manifest.Manifest, edits []Edit) error {
	put := bodies(edits, now)
	end, err := r.turn(ctx, next.Who, put)
	if err != nil {
		return err
	}
	a.make(next.Revision)
	err = r.store.Swap(ctx, next, put)
	if errors.Is(err, store.ErrNoRoom) && r.makeRoom(ctx) {
		err = r.store.Swap(ctx, next, put)
	}
	end()
	if err == nil {
		own := map[string]*engine.Bundle{}
		for _, one := range edits {
			own[one.Locale] = one.Bundle // the last one of a locale counts
		}
		err = r.apply(r.ctx, a, next, own)
		r.seen(a.name, next.Revision, err != nil)
		if err != nil && r.await(ctx, a, next.Revision) != nil { // it is stored, so its caller waits until it could be applied
			err = store.ErrUnsettled
		} else {
			err = nil
		}
	}
	a.make(0)
	if errors.Is(err, store.ErrConflict) {
		r.seen(a.name, next.Revision, true)
		if r.await(ctx, a, next.Revision) != nil {
			return store.ErrUnreached
		}
	}
	return err
}

// makeRoom removes what need not stay, at most once a second. It returns true if that was something.
func (r *Replica) makeRoom(ctx context.Context) bool {
	now := time.Now().Unix()
	if r.madeRoom.Swap(now) == now {
		return false
	}
	removed, err := r.store.Collect(ctx, r.options.Keep)
	return err == nil && removed > 0
}

// make notes which revision a change of this gateway makes.
func (a *app) make(revision int64) {
	a.mu.Lock()
	defer a.mu.Unlock()
	a.swaps = revision
}

// bodies returns those that the edits put and the present manifest doesn't name for the same locale. Another version of the library may compile
// a text to another file.
func bodies(edits []Edit, now *View) map[manifest.Digest][]byte {
	all := map[manifest.Digest][]byte{}
	for _, e := range edits {
		if b := now.Find(e.Locale); e.Body != nil && (b == nil || b.Digest != e.Digest || b.File != e.File) {
			all[e.Digest] = e.Body
			if file, digest := e.Bundle.Stored(); file != nil {
				all[digest] = file
			}
		}
	}
	return all
}

// sync waits until the engine has all of an application that was stored before the call.
func (r *Replica) sync(ctx context.Context, a *app) error {
	if err := r.store.Sync(ctx); err != nil {
		return err
	}
	if r.await(ctx, a, a.target()) != nil {
		return store.ErrUnreached
	}
	return nil
}

// A Sum is what the replica has.
type Sum struct {
	Apps, Bundles, LeftOut  int
	StoredBytes, FilesBytes int64
}

// Sum returns what the replica has of all applications.
func (r *Replica) Sum() (s Sum) {
	r.Each(func(_ string, v *View) { s.add(v) })
	return s
}

// Each calls a function with each application.
func (r *Replica) Each(do func(name string, v *View)) {
	r.apps.Range(func(name, of any) bool {
		do(name.(string), of.(*app).now.Load())
		return true
	})
}

// add adds an application.
func (s *Sum) add(v *View) {
	if len(v.Bundles) > 0 {
		s.Apps++
	}
	s.Bundles += len(v.Bundles)
	s.LeftOut += len(v.leftOut)
	s.StoredBytes, s.FilesBytes = s.StoredBytes+v.Bytes, s.FilesBytes+v.Compiled
}
