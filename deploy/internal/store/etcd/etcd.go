// Package etcd stores manifests and bodies in etcd, which any number of gateways share.
//
//	m/APP              REVISION ID of the newest manifest. A swap compares the whole value, so a copy of all keys works as well as a snapshot.
//	m/                 the ID of the last manifest of all applications; its modification revision is that of the last swap.
//	h/APP/REVISION     the head of each manifest, with 16 digits.
//	d/APP/DIGEST       nothing, for each body, or page of a manifest, whose parts are below. A client that stores a body puts this first.
//	b/APP/DIGEST/PART  a part of a body.
//
// Names have no `/`, and a prefix always ends in it, so no application is in another one's.
package etcd

import (
	"context"
	"errors"
	"fmt"
	"log"
	"strings"
	"sync"
	"time"

	"go.etcd.io/etcd/clientv3"
	"go.etcd.io/etcd/etcdserver/api/v3rpc/rpctypes"
	"go.etcd.io/etcd/mvcc/mvccpb"
	"go.uber.org/zap"
	"google.golang.org/grpc/codes"
	"google.golang.org/grpc/status"

	"luvdregan.example/resb/deploy/internal/manifest"
	"luvdregan.example/resb/deploy/internal/store"
)

const (
	wait     = 2 * time.Second // for an answer; then another server is asked
	overdue  = 3 * time.Second // after which a watch that is behind is begun again
	pulse    = 2 * time.Second // between two looks whether the watch still works
	pageKeys = 64              // keys of a list

	leastGrace = 10 * time.Minute // of a collection: a change may take this long after it stored its bodies
)

// A moment is a revision of etcd, with the value of m/ then.
type moment struct {
	revision int64
	last     string
}

// A Store is a client of etcd.
type Store struct {
	*clientv3.Client
	grace     time.Duration // the least of a collection
	collector store.Collector

	mu       sync.Mutex
	marks    []mark
	sure     time.Time     // when Watch had reported all swaps
	reported moment        // Watch has reported all swaps up to it
	moved    chan struct{} // closed when reported grows
	again    chan error    // why another watch is begun
}

// Open makes a client for the servers and the user of a configuration. It doesn't wait for a server.
func Open(to clientv3.Config) (*Store, error) {
	logs := zap.NewProductionConfig()
	logs.Level = zap.NewAtomicLevelAt(zap.ErrorLevel)
	to.DialTimeout, to.DialKeepAliveTime, to.DialKeepAliveTimeout = wait, 10*time.Second, wait
	to.PermitWithoutStream, to.LogConfig = true, &logs
	c, err := clientv3.New(to)
	if err != nil {
		return nil, fmt.Errorf("etcd: %w", err)
	}
	return &Store{Client: c, grace: leastGrace, sure: time.Now(), moved: make(chan struct{}), again: make(chan error, 1)}, nil
}

// Reach returns an error unless etcd answers a read: at once if it refuses this client, or when the context ends.
func (s *Store) Reach(ctx context.Context) error {
	_, err := s.get(ctx, "m/")
	return err
}

// finalError returns what an error of etcd is for a caller if the same request again can't help, or nil.
func finalError(err error) error {
	switch rpctypes.Error(err) {
	case rpctypes.ErrNoSpace:
		return fmt.Errorf("%w: %v", store.ErrNoRoom, err)
	case rpctypes.ErrRequestTooLarge, rpctypes.ErrTooManyOps:
		return store.ErrTooLong
	case rpctypes.ErrPermissionDenied, rpctypes.ErrAuthFailed, rpctypes.ErrUserEmpty:
		return fmt.Errorf("%w: %v", store.ErrUnreached, err)
	case rpctypes.ErrFutureRev:
		return fmt.Errorf("%w: %v", store.ErrWentBack, err)
	case rpctypes.ErrCompacted:
		return err
	}
	return nil
}

// isUnsent returns true if no server can have got the request.
func isUnsent(err error) bool {
	s, _ := status.FromError(err)
	message := strings.ToLower(s.Message())
	return s.Code() == codes.Unavailable && (strings.Contains(message, "error while dialing") ||
		strings.Contains(message, "no address available") || strings.Contains(message, "no connection available"))
}

// try does something that may be done twice until a server answers. The client takes the servers in turn, so the next attempt is at another one.
func (s *Store) try(ctx context.Context, do func(ctx context.Context) error) error {
	for {
		within, cancel := context.WithTimeout(ctx, wait)
		err := do(within)
		cancel()
		if err == nil {
			return nil
		}
		if final := finalError(err); final != nil {
			return final
		}
		if !store.Pause(ctx, 30*time.Millisecond) {
			return fmt.Errorf("%w: %v", store.ErrUnreached, err)
		}
	}
}

func (s *Store) get(ctx context.Context, key string, options ...clientv3.OpOption) (r *clientv3.GetResponse, err error) {
	err = s.try(ctx, func(ctx context.Context) (err error) {
		r, err = s.Get(ctx, key, options...)
		return err
	})
	return r, err
}

// list calls a function for the keys with a prefix. A server reads the values of a page into its memory even if it sends only the keys, so pages are
// short.
func (s *Store) list(ctx context.Context, prefix string, each func(kv *mvccpb.KeyValue), options ...clientv3.OpOption) error {
	for from, end := prefix, clientv3.GetPrefixRangeEnd(prefix); ; {
		r, err := s.get(ctx, from, append(options, clientv3.WithRange(end), clientv3.WithLimit(pageKeys))...)
		if err != nil {
			return err
		}
		for _, kv := range r.Kvs {
			each(kv)
		}
		if !r.More {
			return nil
		}
		from = string(r.Kvs[len(r.Kvs)-1].Key) + "\x00"
	}
}

func headKey(app string, revision int64) string { return fmt.Sprintf("h/%s/%016d", app, revision) }

// newestValue is the value of m/APP.
func newestValue(revision int64, id string) string { return fmt.Sprintf("%d %s", revision, id) }

// newestOf reads m/APP; the application is "" for m/ itself.
func newestOf(kv *mvccpb.KeyValue) (app string, revision int64) {
	_, _ = fmt.Sscanf(string(kv.Value), "%d", &revision)
	return string(kv.Key[len("m/"):]), revision
}

// newestRevision returns that of the newest manifest, or 0.
func (s *Store) newestRevision(ctx context.Context, app string) (revision int64, err error) {
	r, err := s.get(ctx, "m/"+app)
	if err == nil && len(r.Kvs) > 0 {
		_, revision = newestOf(r.Kvs[0])
	}
	return revision, err
}

// A reader reads an application. Its manifests are there at one moment, and their pages for as long as
// a collection leaves them.
type reader struct {
	*Store
	ctx context.Context
	app string
}

// Heads returns the last manifests before a revision.
func (r reader) Heads(before int64, most int) (all []*manifest.Manifest, err error) {
	if before > 0 {
		all, err = r.heads(before, most)
		if err != nil || len(all) > 0 && all[0].Revision == before-1 {
			return all, err
		}
	}
	newest, err := r.newestRevision(r.ctx, r.app)
	if err != nil || before > 0 && before <= newest+1 {
		return all, err
	}
	return r.heads(newest+1, most)
}

// heads reads manifests whose revisions are the last ones before one. The last revisions have no gaps, so a server needn't read and sort more
// than these; for earlier ones it reads more each time.
func (r reader) heads(before int64, most int) (all []*manifest.Manifest, err error) {
	for size := int64(most); before > 0 && len(all) < most && err == nil; size *= 2 {
		first := before - size
		if first < 0 {
			first = 0
		}
		all, err = r.appendHeads(all, first, before, most)
		before = first
	}
	return all, err
}

// appendHeads adds the last manifests from one revision to before another, up to a number.
func (r reader) appendHeads(all []*manifest.Manifest, first, before int64, most int) ([]*manifest.Manifest, error) {
	got, err := r.get(r.ctx, headKey(r.app, first), clientv3.WithRange(headKey(r.app, before)),
		clientv3.WithSort(clientv3.SortByKey, clientv3.SortDescend), clientv3.WithLimit(int64(most-len(all))))
	if err != nil {
		return nil, err
	}
	for _, kv := range got.Kvs {
		var revision int64
		_, _ = fmt.Sscanf(string(kv.Key[len("h//")+len(r.app):]), "%d", &revision)
		m, err := store.ReadHead(r.app, revision, kv.Value)
		if err != nil {
			return nil, fmt.Errorf("etcd: %s: %w", kv.Key, err)
		}
		all = append(all, m)
	}
	return all, nil
}

// Page returns a page of a manifest.
func (r reader) Page(d manifest.Digest) ([]byte, error) { return r.body(r.ctx, r.app, d, 0) }

// Manifest returns the manifest of a revision.
func (s *Store) Manifest(ctx context.Context, app string, revision int64, near *manifest.Manifest) (*manifest.Manifest, error) {
	return store.ReadManifest(reader{s, ctx, app}, revision, near)
}

// History returns the last manifests.
func (s *Store) History(ctx context.Context, app string, before int64, most int) ([]*manifest.Manifest, error) {
	return store.ReadHistory(reader{s, ctx, app}, before, most)
}

// Digests returns those of the bodies of an application.
func (s *Store) Digests(ctx context.Context, app string) (map[manifest.Digest]bool, error) {
	all := map[manifest.Digest]bool{}
	err := s.list(ctx, indexKey(app, ""), func(kv *mvccpb.KeyValue) {
		all[manifest.Digest(kv.Key[len("d//")+len(app):])] = true
	}, clientv3.WithKeysOnly())
	return all, err
}

// Body returns a body.
func (s *Store) Body(ctx context.Context, app string, b manifest.Bundle) ([]byte, error) {
	return s.body(ctx, app, b.Digest, b.Bytes)
}

// body reads the parts of a body of this length, or of a page, which has one part: from any server, as
// they never change, or with most of them if that one lacks a part.
func (s *Store) body(ctx context.Context, app string, d manifest.Digest, bytes int64) ([]byte, error) {
	body := make([]byte, 0, bytes)
	for part := 0; part == 0 || int64(part*partSize) < bytes; part++ {
		r, err := s.get(ctx, partKey(app, d, part), clientv3.WithSerializable())
		if err == nil && len(r.Kvs) == 0 {
			r, err = s.get(ctx, partKey(app, d, part))
		}
		if err == nil && len(r.Kvs) == 0 {
			err = fmt.Errorf("%w: %s, %s", store.ErrNoBody, app, d)
		}
		if err != nil {
			return nil, err
		}
		body = append(body, r.Kvs[0].Value...)
	}
	if manifest.DigestOf(body) != d {
		return nil, fmt.Errorf("etcd: %s, %s has another digest: %w", app, d, store.ErrDamaged)
	}
	return body, nil
}

// Newest calls a function for the newest manifest of each application.
func (s *Store) Newest(ctx context.Context, each func(app string, revision int64)) error {
	return s.list(ctx, "m/", func(kv *mvccpb.KeyValue) {
		if app, revision := newestOf(kv); app != "" {
			each(app, revision)
		}
	})
}

// Watch reports all manifests. A watch at a server that stands still doesn't end, so a Sync is made all the time, and the watch is begun again if it is
// behind.
func (s *Store) Watch(ctx context.Context, seen func(app string, revision int64)) error {
	go func() {
		for before := (moment{}); store.Pause(ctx, pulse); {
			within, cancel := context.WithTimeout(ctx, 2*overdue)
			s.mu.Lock()
			now := s.reported
			s.mu.Unlock()
			for _, one := range []moment{before, now} {
				if err := s.look(within, one); errors.Is(err, store.ErrWentBack) {
					s.begin(err)
				}
			}
			before = now
			_ = s.Sync(within)
			cancel()
		}
	}()
	for ctx.Err() == nil {
		if err := s.watchOnce(ctx, seen); errors.Is(err, store.ErrWentBack) {
			return err
		} else if err != nil && ctx.Err() == nil {
			log.Printf("etcd: watch: %v", err)
			store.Pause(ctx, 100*time.Millisecond)
		}
	}
	return ctx.Err()
}

// begin has the watch end, and then begun again if that can help.
func (s *Store) begin(why error) {
	select {
	case s.again <- why:
	default:
	}
}

// look returns ErrWentBack unless etcd still has a moment: after a snapshot was restored it has no such revision, or another change was the last one
// then. What etcd has forgotten isn't compared.
func (s *Store) look(ctx context.Context, at moment) error {
	if at.revision == 0 {
		return nil
	}
	r, err := s.get(ctx, "m/", clientv3.WithRev(at.revision))
	if err == nil && momentOf(r).last != at.last {
		return fmt.Errorf("%w: it has another change at revision %d of etcd", store.ErrWentBack, at.revision)
	}
	return err
}

// momentOf returns when m/ was read.
func momentOf(r *clientv3.GetResponse) moment {
	at := moment{revision: r.Header.Revision}
	if len(r.Kvs) > 0 {
		at.last = string(r.Kvs[0].Value)
	}
	return at
}

// watchOnce lists what is there, and watches from that revision on. The watcher is a separate one, as the client's would stay at its server.
func (s *Store) watchOnce(ctx context.Context, seen func(app string, revision int64)) error {
	r, err := s.get(ctx, "m/")
	if err != nil {
		return err
	}
	from := momentOf(r)
	if err := s.Newest(ctx, seen); err != nil {
		return err
	}
	s.report(from)
	w := clientv3.NewWatcher(s.Client)
	within, cancel := context.WithCancel(clientv3.WithRequireLeader(ctx))
	defer func() {
		cancel()
		go w.Close()
	}()
	updates := w.Watch(within, "m/", clientv3.WithPrefix(), clientv3.WithRev(from.revision+1))
	for {
		select {
		case u, open := <-updates:
			if !open || u.Err() != nil {
				return fmt.Errorf("it ended: %v", u.Err())
			}
			var at moment // not that of the header, which may be before its events
			for _, e := range u.Events {
				if app, revision := newestOf(e.Kv); app == "" {
					at = moment{e.Kv.ModRevision, string(e.Kv.Value)}
				} else if e.Type == clientv3.EventTypePut {
					seen(app, revision)
				}
			}
			s.report(at)
		case err := <-s.again:
			return err
		case <-ctx.Done():
			return ctx.Err()
		}
	}
}

// report notes that Watch has reported all swaps up to a moment.
func (s *Store) report(at moment) {
	s.mu.Lock()
	defer s.mu.Unlock()
	if at.revision > s.reported.revision {
		s.reported = at
		close(s.moved)
		s.moved = make(chan struct{})
	}
}

// Sync reads when the last swap was, which most servers must confirm, and waits until Watch has come to it. A progress request of etcd 3.4 can't
// serve for this: its answer may come before events that it covers.
func (s *Store) Sync(ctx context.Context) error {
	began := time.Now()
	r, err := s.get(ctx, "m/")
	if err != nil {
		return err
	}
	last := int64(0)
	if len(r.Kvs) > 0 {
		last = r.Kvs[0].ModRevision
	}
	late := time.NewTimer(overdue)
	defer late.Stop()
	for {
		s.mu.Lock()
		reported, moved := s.reported.revision, s.moved
		isDone := reported >= last && reported > 0
		if isDone && began.After(s.sure) {
			s.sure = began
		}
		s.mu.Unlock()
		if isDone {
			s.report(momentOf(r)) // which etcd forgets later than that of the last swap
			return nil
		}
		select {
		case <-moved:
		case <-late.C:
			s.begin(errors.New("it stands still"))
			late.Reset(overdue)
		case <-ctx.Done():
			return store.ErrUnreached
		}
	}
}

// Writable returns an error if most servers can't be reached, or if one has raised an alarm, as it does when its quota is full.
func (s *Store) Writable(ctx context.Context) error {
	if _, err := s.get(ctx, "m/"); err != nil {
		return err
	}
	within, cancel := context.WithTimeout(ctx, wait)
	defer cancel()
	r, err := s.AlarmList(within)
	if err == nil && len(r.Alarms) > 0 {
		return fmt.Errorf("%w: etcd has the alarm %v", store.ErrNoRoom, r.Alarms[0].Alarm)
	}
	return nil // the list needs rights that a gateway may not have
}

// Stats returns the length of the database at the first server that answers, and also without one when Watch had reported all.
func (s *Store) Stats(ctx context.Context) (stats store.Stats, err error) {
	s.mu.Lock()
	stats.Sure, err = s.sure, store.ErrUnreached
	s.mu.Unlock()
	for _, endpoint := range s.Endpoints() {
		within, cancel := context.WithTimeout(ctx, wait)
		r, failed := s.Status(within, endpoint)
		cancel()
		if failed == nil {
			stats.Bytes = r.DbSize
			return stats, nil
		}
		err = fmt.Errorf("%w: %v", store.ErrUnreached, failed)
	}
	return stats, err
}
