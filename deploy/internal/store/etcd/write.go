package etcd

import (
	"context"
	"errors"
	"fmt"
	"log"
	"strings"
	"time"

	"go.etcd.io/etcd/clientv3"
	"go.etcd.io/etcd/mvcc/mvccpb"

	"luvdregan.example/resb/deploy/internal/manifest"
	"luvdregan.example/resb/deploy/internal/store"
)

// The limits of one transaction. A request to etcd may have 1.5 MB and 128 operations.
const (
	mostBytes = 1 << 20
	mostOps   = 112
	partSize  = 1 << 20 // of a body
)

func partKey(app string, d manifest.Digest, part int) string {
	return fmt.Sprintf("b/%s/%s/%d", app, d, part)
}

func indexKey(app string, d manifest.Digest) string { return "d/" + app + "/" + string(d) }

// A blob is a body or a page of a manifest.
type blob struct {
	digest manifest.Digest
	body   []byte
}

// Swap stores the bodies, and then the manifest, if the application still has the one before. What fits into the transaction of the manifest is in it;
// longer bodies are stored before. If an answer is lost it tries again: the second transaction finds the manifest of the first one, and knows it by its
// ID.
func (s *Store) Swap(ctx context.Context, next *manifest.Manifest, put map[manifest.Digest][]byte) error {
	head := string(next.Head())
	room := mostBytes - len(head)
	if room < 0 {
		return store.ErrTooLong
	}
	var within, before []blob
	for _, of := range []map[manifest.Digest][]byte{next.Fresh(), put} {
		for d, body := range of {
			if len(body) <= room && len(within) < mostOps/2 {
				room -= len(body)
				within = append(within, blob{d, body})
			} else {
				before = append(before, blob{d, body})
			}
		}
	}
	if err := s.upload(ctx, next.App, before); err != nil {
		return err
	}
	return s.exchange(ctx, next, s.txn(next, head, within))
}

// txn returns the transaction that stores a manifest.
func (s *Store) txn(next *manifest.Manifest, head string, within []blob) func(ctx context.Context) (*clientv3.TxnResponse, error) {
	now, key := "m/"+next.App, headKey(next.App, next.Revision)
	same := clientv3.Compare(clientv3.CreateRevision(now), "=", 0)
	if next.Before != "" {
		same = clientv3.Compare(clientv3.Value(now), "=", newestValue(next.Revision-1, next.Before))
	}
	then := []clientv3.Op{clientv3.OpPut(now, newestValue(next.Revision, next.ID)), clientv3.OpPut(key, head), clientv3.OpPut("m/", next.ID)}
	for _, b := range within {
		then = append(then, b.ops(next.App)...)
	}
	if next.Erased {
		then = append(then, clientv3.OpDelete("h/"+next.App+"/", clientv3.WithRange(key)))
	}
	return func(ctx context.Context) (*clientv3.TxnResponse, error) {
		return s.Txn(ctx).If(same).Then(then...).Else(clientv3.OpGet(key)).Commit()
	}
}

// ops returns what stores a blob: its index key, which keeps a collection from deleting the parts, and the parts.
func (b blob) ops(app string) []clientv3.Op {
	ops := []clientv3.Op{clientv3.OpPut(indexKey(app, b.digest), "")}
	for part, rest := 0, b.body; part == 0 || len(rest) > 0; part++ {
		n := len(rest)
		if n > partSize {
			n = partSize
		}
		ops = append(ops, clientv3.OpPut(partKey(app, b.digest, part), string(rest[:n])))
		rest = rest[n:]
	}
	return ops
}

// exchange sends a transaction until it knows whether it was made, or until the context ends.
func (s *Store) exchange(ctx context.Context, next *manifest.Manifest, commit func(ctx context.Context) (*clientv3.TxnResponse, error)) error {
	for sent := false; ; {
		within, cancel := context.WithTimeout(ctx, wait)
		r, err := commit(within)
		cancel()
		final := finalError(err)
		switch {
		case err == nil && r.Succeeded:
			return nil
		case err == nil:
			if done, err := settled(r.Responses[0].GetResponseRange().Kvs, next); done {
				return err
			} else if sent {
				return store.ErrUnsettled // collected meanwhile
			}
			return store.ErrConflict
		case errors.Is(final, store.ErrNoRoom): // also of a transaction that was made, but raised the alarm
			if r, err := s.get(ctx, headKey(next.App, next.Revision)); err != nil {
				return store.ErrUnsettled
			} else if done, err := settled(r.Kvs, next); done {
				return err
			} else if !sent {
				return final
			}
		case final != nil && !sent:
			return final
		}
		sent = sent || !isUnsent(err)
		if !store.Pause(ctx, 30*time.Millisecond) {
			if sent {
				return fmt.Errorf("%w: %v", store.ErrUnsettled, err)
			}
			return fmt.Errorf("%w: %v", store.ErrUnreached, err)
		}
	}
}

// settled returns true if there is a manifest of the revision, and an error if it is another one.
func settled(kvs []*mvccpb.KeyValue, next *manifest.Manifest) (bool, error) {
	if len(kvs) == 0 {
		return false, nil
	}
	there, err := manifest.ReadHead(kvs[0].Value)
	if err == nil && there.ID != next.ID {
		err = store.ErrConflict
	}
	return true, err
}

// upload stores bodies, several short ones in one transaction. It stores them also if they are there, as they may just be collected.
func (s *Store) upload(ctx context.Context, app string, all []blob) error {
	var ops []clientv3.Op
	room := mostBytes
	send := func() error {
		if len(ops) == 0 {
			return nil
		}
		err := s.try(ctx, func(ctx context.Context) error {
			_, err := s.Txn(ctx).Then(ops...).Commit()
			return err
		})
		ops, room = nil, mostBytes
		return err
	}
	for _, b := range all {
		for _, op := range b.ops(app) {
			if bytes := len(op.ValueBytes()); bytes > room || len(ops) == mostOps {
				if err := send(); err != nil {
					return err
				}
			}
			ops = append(ops, op)
			room -= len(op.ValueBytes())
		}
	}
	return send()
}

// Collect removes manifests and bodies, and then what etcd keeps of earlier revisions. It removes a body only if nobody has stored it again meanwhile.
func (s *Store) Collect(ctx context.Context, keep store.Keep) (removed int, err error) {
	if keep.Grace < s.grace {
		keep.Grace = s.grace
	}
	mark, err := s.mark(ctx, keep.Grace)
	if err != nil {
		return 0, err
	}
	apps, bodies := map[string]store.Stamp{}, map[string]map[manifest.Digest]int64{}
	err = s.list(ctx, "d/", func(kv *mvccpb.KeyValue) {
		p := strings.Split(string(kv.Key), "/")
		if kv.ModRevision > mark || len(p) != 3 {
			return
		}
		if bodies[p[1]] == nil {
			bodies[p[1]] = map[manifest.Digest]int64{}
		}
		bodies[p[1]][manifest.Digest(p[2])] = kv.ModRevision
		of := apps[p[1]]
		if of.Bodies < kv.ModRevision {
			of.Bodies = kv.ModRevision
		}
		apps[p[1]] = of // also without a manifest
	})
	if err == nil {
		err = s.Newest(ctx, func(app string, revision int64) {
			apps[app] = store.Stamp{Revision: revision, Bodies: apps[app].Bodies}
		})
	}
	if err != nil {
		return 0, err
	}
	removed, err = s.collector.Collect(apps, keep, func(app string) (removed int, isFinal bool, err error) {
		plan, err := store.NewPlan(reader{s, ctx, app}, keep)
		if err != nil {
			return 0, false, err
		}
		for _, one := range plan.Gone {
			if err == nil {
				var n int
				n, err = s.delete(ctx, headKey(app, one.From), headKey(app, one.End))
				removed += n
			}
		}
		for d, modified := range bodies[app] {
			if err == nil && !plan.Named[d] {
				var n int
				n, err = s.deleteBody(ctx, app, d, modified)
				removed += n
			}
		}
		return removed, plan.IsFinal, err
	})
	if err != nil {
		return removed, err
	}
	return removed, s.compact(ctx)
}

// compact has etcd forget what was overwritten or deleted.
func (s *Store) compact(ctx context.Context) error {
	r, err := s.get(ctx, "m/")
	if err != nil {
		return err
	}
	if _, err := s.Compact(ctx, r.Header.Revision, clientv3.WithCompactPhysical()); err != nil {
		log.Printf("etcd: compact: %v", err) // another gateway was first
	}
	return nil
}

// A mark is a revision of etcd, and when this process read it. etcd keeps no times, and other machines' clocks may be wrong.
type mark struct {
	revision int64
	at       time.Time
}

// mark notes the present revision, and returns the last one that was noted an age ago, or 0.
func (s *Store) mark(ctx context.Context, age time.Duration) (revision int64, err error) {
	r, err := s.get(ctx, "m/")
	if err != nil {
		return 0, err
	}
	s.mu.Lock()
	defer s.mu.Unlock()
	s.marks = append(s.marks, mark{r.Header.Revision, time.Now()})
	for len(s.marks) > 1 && time.Since(s.marks[1].at) >= age {
		s.marks = s.marks[1:]
	}
	if time.Since(s.marks[0].at) < age {
		return 0, nil
	}
	return s.marks[0].revision, nil
}

// delete deletes the keys from one to before another, and returns how many they were.
func (s *Store) delete(ctx context.Context, from, end string) (n int, err error) {
	err = s.try(ctx, func(ctx context.Context) error {
		r, err := s.Delete(ctx, from, clientv3.WithRange(end))
		if err == nil {
			n = int(r.Deleted)
		}
		return err
	})
	return n, err
}

// deleteBody deletes a body if nobody has stored it again since it was listed.
func (s *Store) deleteBody(ctx context.Context, app string, d manifest.Digest, modified int64) (n int, err error) {
	key := indexKey(app, d)
	is := clientv3.Compare(clientv3.ModRevision(key), "=", modified)
	parts := clientv3.OpDelete("b/"+app+"/"+string(d)+"/", clientv3.WithPrefix())
	err = s.try(ctx, func(ctx context.Context) error {
		r, err := s.Txn(ctx).If(is).Then(clientv3.OpDelete(key), parts).Commit()
		if err == nil && r.Succeeded {
			n = 1
		}
		return err
	})
	return n, err
}
