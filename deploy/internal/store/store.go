// Package store describes what a gateway needs of a store of manifests and bodies.
//
// A store keeps each manifest under its application and revision, and each body under its application and digest. Neither ever changes. A
// gateway that makes revision R + 1 must have read R, and at most one gateway succeeds: that is the compare-and-set.
package store

import (
	"context"
	"errors"
	"fmt"
	"time"

	"luvdregan.example/resb/deploy/internal/manifest"
)

// The errors of a store. Each says that nothing was stored, except ErrUnsettled.
var (
	ErrConflict  = errors.New("the application has another manifest of this revision")
	ErrNoVersion = errors.New("the store has no such manifest")
	ErrNoBody    = errors.New("the store has no such body")
	ErrNoRoom    = errors.New("no space is left")
	ErrTooLong   = errors.New("the manifest is too long for the store")
	ErrUnreached = errors.New("the store can't be reached")
	ErrUnsettled = errors.New("the change may have been stored")
	ErrBroken    = errors.New("the store takes no changes")
	ErrWentBack  = errors.New("the store is an earlier one again")
	ErrDamaged   = manifest.ErrDamaged
)

// Keep says which manifests Collect leaves in addition to the newest one. An earlier manifest stays if it is younger than Grace, if all of
// Manifests, Age and Bytes permit it, or if Age permits it and it has one of the last changes of a bundle; a limit of 0 is no limit. A body stays
// if a manifest that stays so names it, or if it is younger than Grace. Grace must be longer than any change takes, and than a gateway that stands
// still keeps its connection to the store.
type Keep struct {
	Manifests int           // the newest ones
	Age       time.Duration // of a manifest
	Bytes     int64         // of the bodies that the newest manifest doesn't name
	Each      int           // how many of the last changes of each bundle stay, whatever Manifests and Bytes say
	EachBytes int64         // the most that stays only for Each
	Grace     time.Duration
}

// Stats are what the metrics report of a store. What it doesn't know is zero.
type Stats struct {
	Bytes  int64     // of its files, or of etcd's database
	Free   int64     // that the disk has for more
	Sure   time.Time // when Watch had reported all changes
	Backup time.Time // when the last one was made
}

// A Store stores manifests and bodies. All methods may be called at the same time.
type Store interface {
	// Swap stores a manifest which Judge made, and before it the bodies, which must be all that the manifest before doesn't name.
	Swap(ctx context.Context, next *manifest.Manifest, bodies map[manifest.Digest][]byte) error
	// Manifest returns the manifest of a revision, or the newest one for 0, without Made if the change was long. It reads less if it is given a
	// manifest of the application of about that time; near may be nil.
	Manifest(ctx context.Context, app string, revision int64, near *manifest.Manifest) (*manifest.Manifest, error)
	// History returns the last manifests whose revision is less than a number, or the last ones if that is 0, the newest first. They have Made,
	// and may lack bundles.
	History(ctx context.Context, app string, before int64, most int) ([]*manifest.Manifest, error)
	// Body returns a body, whose bytes have the digest. If it is missing the error wraps ErrNoBody.
	Body(ctx context.Context, app string, b manifest.Bundle) ([]byte, error)
	// Digests returns those of the bodies that are stored of an application.
	Digests(ctx context.Context, app string) (map[manifest.Digest]bool, error)
	// Newest calls a function for the newest manifest of each application.
	Newest(ctx context.Context, each func(app string, revision int64)) error
	// Watch reports the newest manifests of all applications, and then those that are stored, until the context ends. It may leave out a
	// manifest if the application has a later one, and may report one again. The function must not block. A store is watched by one caller. The
	// error is ErrWentBack if changes that were reported are no longer there.
	Watch(ctx context.Context, seen func(app string, revision int64)) error
	// Sync returns once Watch has reported all that was stored before the call.
	Sync(ctx context.Context) error
	// Collect removes what need not stay, and returns how many manifests and bodies it removed.
	Collect(ctx context.Context, keep Keep) (int, error)
	// Writable returns nil if the store takes changes now, as far as it knows.
	Writable(ctx context.Context) error
	Stats(ctx context.Context) (Stats, error)
	Close() error
}

// Pause waits, and returns false if the context ends before.
func Pause(ctx context.Context, d time.Duration) bool {
	late := time.NewTimer(d)
	defer late.Stop()
	select {
	case <-late.C:
		return true
	case <-ctx.Done():
		return false
	}
}

// A Reader reads one application in a store.
type Reader interface {
	// Heads returns the last manifests before a revision, or the last ones if that is 0, the newest
	// first. They lack what their pages have.
	Heads(before int64, most int) ([]*manifest.Manifest, error)
	// Page returns a page of a manifest. If it is missing the error wraps ErrNoBody.
	Page(manifest.Digest) ([]byte, error)
}

// someHeads is how many heads are read at a time.
const someHeads = 64

// EachHead calls a function for all heads, the newest first, until it returns false.
func EachHead(from Reader, do func(m *manifest.Manifest) (more bool, err error)) error {
	for before := int64(0); ; {
		some, err := from.Heads(before, someHeads)
		for _, m := range some {
			if more, err := do(m); err != nil || !more {
				return err
			}
			before = m.Revision
		}
		if err != nil || len(some) < someHeads {
			return err
		}
	}
}

// ReadHead reads the head that is stored for a revision of an application.
func ReadHead(app string, revision int64, head []byte) (*manifest.Manifest, error) {
	m, err := manifest.ReadHead(head)
	if err == nil && (m.App != app || m.Revision != revision) {
		err = fmt.Errorf("%w: it is the manifest of %s at %d", ErrDamaged, m.App, m.Revision)
	}
	return m, err
}

// ReadManifest does for a reader what Manifest does for a store.
func ReadManifest(from Reader, revision int64, near *manifest.Manifest) (*manifest.Manifest, error) {
	before := revision
	if revision > 0 {
		before++
	}
	found, err := from.Heads(before, 1)
	switch {
	case err != nil:
		return nil, err
	case len(found) == 0 || revision > 0 && found[0].Revision != revision:
		return nil, ErrNoVersion
	}
	return found[0], found[0].Fill(near, from.Page)
}

// ReadHistory does for a reader what History does for a store.
func ReadHistory(from Reader, before int64, most int) (all []*manifest.Manifest, err error) {
	all, err = from.Heads(before, most)
	for _, m := range all {
		if err == nil {
			err = m.FillMade(from.Page)
		}
	}
	return all, err
}

// Copy copies the newest manifests of all applications, with their bodies, into a store that has none of these applications, and returns how many
// they are. They keep their revisions; earlier manifests are left behind. Nobody may write to either store meanwhile.
func Copy(ctx context.Context, from, to Store) (apps int, err error) {
	last := map[string]int64{}
	if err := from.Newest(ctx, func(app string, revision int64) { last[app] = revision }); err != nil {
		return 0, err
	}
	for app, revision := range last {
		if err := copyOne(ctx, from, to, app, revision); err != nil {
			return apps, fmt.Errorf("%s: %w", app, err)
		}
		apps++
	}
	return apps, nil
}

func copyOne(ctx context.Context, from, to Store, app string, revision int64) error {
	m, err := from.Manifest(ctx, app, revision, nil)
	if err != nil {
		return err
	}
	bodies := map[manifest.Digest][]byte{}
	for _, b := range m.Bundles {
		if bodies[b.Digest], err = from.Body(ctx, app, b); err != nil {
			return err
		}
		if file := b.FileBody(); b.File != "" {
			if bodies[b.File], err = from.Body(ctx, app, file); err != nil {
				return err
			}
		}
	}
	return to.Swap(ctx, m.First(), bodies)
}
