package sqlite

import (
	"context"
	"database/sql"
	"errors"
	"fmt"
	"os"
	"path/filepath"
	"syscall"
	"time"

	"github.com/mattn/go-sqlite3"

	"luvdregan.example/resb/deploy/internal/manifest"
	"luvdregan.example/resb/deploy/internal/store"
)

// The limits of one transaction of several short jobs. A long job is alone, and has its turn after them, so a short one waits for at most one of them.
const (
	mostJobs  = 256
	mostBytes = 2 << 20
	mostShort = 64 << 10 // bytes
	perJob    = 16 << 10 // what the tables of a job take in the WAL, about
)

// A job is a part of a transaction.
type job struct {
	do      func(t *transaction) error
	bytes   int
	shrinks bool   // it may have the reserve of a full disk
	wipes   bool   // what it deletes is overwritten; it is alone
	stored  func() // called once it is stored, or nil
	done    chan error
	err     error
}

// A transaction has the connection that writes, and the state as it will be.
type transaction struct {
	*Store
	state
}

func (s *Store) exec(query string, args ...any) (sql.Result, error) {
	return s.writer.Exec(query, args...)
}

// submit has a job done. The context counts only until a transaction has it.
func (s *Store) submit(ctx context.Context, j *job) error {
	j.done = make(chan error, 1)
	to := s.short
	if j.bytes > mostShort || j.wipes {
		to = s.long
	}
	select {
	case to <- j:
		return <-j.done
	case <-ctx.Done():
	case <-s.closing:
	}
	return store.ErrUnreached
}

// run makes transactions of the jobs that wait. While one is synced the next ones gather.
func (s *Store) run() {
	defer close(s.ended)
	for {
		group := s.gather(nil)
		if len(group) == 0 {
			select {
			case j := <-s.short:
				group = s.gather([]*job{j})
			case j := <-s.long:
				group = []*job{j}
			case <-s.closing:
				return
			}
		}
		s.finish(group)
		select {
		case j := <-s.long:
			s.finish([]*job{j})
		default:
		}
	}
}

// gather adds the short jobs that wait.
func (s *Store) gather(group []*job) []*job {
	for bytes := 0; len(group) < mostJobs && bytes < mostBytes; {
		select {
		case j := <-s.short:
			bytes += j.bytes
			group = append(group, j)
		default:
			return group
		}
	}
	return group
}

// finish stores a group, and answers.
func (s *Store) finish(group []*job) {
	s.committing.Lock()
	s.commit(group)
	s.committing.Unlock()
	for _, j := range group {
		j.done <- j.err
	}
	s.boundWAL()
}

// commit stores a group, or the jobs of one that fails one by one: a change for which there is no space must not keep others from being stored.
func (s *Store) commit(group []*job) {
	err := s.attempt(group)
	if err != nil && len(group) > 1 && s.failure() == nil {
		for i := range group {
			s.commit(group[i : i+1])
		}
		return
	}
	if errors.Is(err, store.ErrNoRoom) && group[0].shrinks {
		s.withReserve(func() {
			group[0].wipes = false // for which the space may be missing
			err = s.transact(group)
		})
	}
	if err != nil || !group[0].shrinks {
		s.mu.Lock()
		s.failed = err
		s.mu.Unlock()
	}
	for _, j := range group {
		if err != nil {
			j.err = err
		} else if j.err == nil && j.stored != nil {
			j.stored()
		}
	}
}

// attempt stores a group if there is space.
func (s *Store) attempt(group []*job) error {
	bytes := 0
	for _, j := range group {
		bytes += j.bytes
	}
	if !s.fits(bytes) {
		return fmt.Errorf("%w on the disk of %s", store.ErrNoRoom, s.folder)
	}
	s.unmoved += bytes + len(group)*perJob
	return s.transact(group)
}

// transact makes a transaction. A job that is refused leaves nothing in it; any other error ends it.
func (s *Store) transact(group []*job) error {
	if err := s.failure(); err != nil {
		return err
	}
	wipes := group[0].wipes
	if wipes {
		_, _ = s.exec("pragma secure_delete = on")
		defer func() { _, _ = s.exec("pragma secure_delete = off") }()
	}
	if _, err := s.exec("begin immediate"); err != nil {
		return s.judge(err)
	}
	t := &transaction{s, s.state}
	err := t.all(group)
	if err == nil {
		_, err = s.exec("commit")
	}
	if err != nil {
		_, _ = s.exec("rollback") // SQLite may have done it
		return s.judge(err)
	}
	s.state = t.state
	s.mark()
	if wipes {
		s.truncate() // the WAL has what was erased
	}
	return nil
}

// all does the jobs. One that conflicts has changed nothing.
func (t *transaction) all(group []*job) error {
	for _, j := range group {
		if j.err = j.do(t); j.err != nil && !errors.Is(j.err, store.ErrConflict) {
			return j.err
		}
	}
	_, err := t.exec("update state set swaps = ?, revisions = ? where one = 1", t.swaps, t.revisions)
	return err
}

// Swap stores a manifest with its bodies. Once its transaction has begun it doesn't give up, so it knows whether it stored them, unless a sync
// failed. Most bodies of a long change are stored before, so that the changes of others come between.
func (s *Store) Swap(ctx context.Context, next *manifest.Manifest, bodies map[manifest.Digest][]byte) error {
	head, blobs := next.Head(), next.Fresh()
	bytes := len(head)
	part := map[manifest.Digest][]byte{}
	for digest, body := range bodies {
		blobs[digest], part[digest] = body, body
		if bytes += len(body); bytes < mostBytes {
			continue
		}
		early := part
		err := s.submit(ctx, &job{bytes: bytes, do: func(t *transaction) error { return t.put(next.App, early) }})
		if err != nil {
			return err
		}
		bytes, part = 0, map[manifest.Digest][]byte{}
	}
	return s.submit(ctx, &job{do: func(t *transaction) error { return t.swap(next, head, blobs) }, bytes: bytes, shrinks: len(bodies) == 0,
		wipes: next.Erased, stored: func() { s.tell(next.App, next.Revision) }})
}

// swap stores a manifest if the application has the one before.
func (t *transaction) swap(next *manifest.Manifest, head []byte, blobs map[manifest.Digest][]byte) error {
	var revision int64
	var stored []byte
	now := &manifest.Manifest{}
	row := t.writer.QueryRow(`select revision, head from manifests where app = ?
		order by revision desc limit 1`, next.App)
	err := row.Scan(&revision, &stored)
	if err == nil {
		now, err = manifest.ReadHead(stored)
	} else if errors.Is(err, sql.ErrNoRows) {
		err = nil
	}
	switch {
	case err != nil:
		return err
	case now.ID != next.Before || revision > 0 && revision != next.Revision-1:
		return store.ErrConflict
	}
	t.revisions += next.Revision - revision
	if next.Erased {
		_, err = t.exec("delete from manifests where app = ?", next.App)
	}
	if err == nil && next.Erased && next.Erasure == nil { // else a collection deletes what need not stay
		_, err = t.exec("delete from bodies where app = ?", next.App)
	}
	if err == nil {
		err = t.put(next.App, blobs)
	}
	if err == nil {
		_, err = t.exec("insert into manifests values (?, ?, ?)", next.App, next.Revision, head)
	}
	return err
}

// put stores bodies with the number of this change, so that a plan which was made before doesn't remove them. Of one that is there SQLite writes only
// the pages that are damaged.
func (t *transaction) put(app string, blobs map[manifest.Digest][]byte) error {
	t.swaps++
	for digest, body := range blobs {
		if body == nil {
			body = []byte{}
		}
		_, err := t.exec(`insert into bodies values (?, ?, ?, ?, ?)
			on conflict (app, digest) do update set swap = excluded.swap, crc = excluded.crc, body = excluded.body`,
			app, digest, t.swaps, checksum(body), body)
		if err != nil {
			return err
		}
	}
	return nil
}

// judge returns what an error of SQLite means. After a failed sync nobody knows what the disk has: the system may have dropped the pages that it
// couldn't write, and the next sync succeeds without them. So no more changes are stored until the next start, which checks what is there.
func (s *Store) judge(err error) error {
	var of sqlite3.Error
	switch {
	case !errors.As(err, &of):
		return err
	case of.Code == sqlite3.ErrFull:
		return fmt.Errorf("%w: %v", store.ErrNoRoom, err)
	case of.ExtendedCode == sqlite3.ErrIoErrFsync || of.ExtendedCode == sqlite3.ErrIoErrDirFsync:
		s.mu.Lock()
		defer s.mu.Unlock()
		s.broken = fmt.Errorf("%w until the next start: %v", store.ErrBroken, err)
		return fmt.Errorf("%w: %v", store.ErrUnsettled, err)
	}
	return fmt.Errorf("%w: %v", store.ErrBroken, err) // such as a disk that is read-only, perhaps for a while
}

func (s *Store) failure() error {
	s.mu.Lock()
	defer s.mu.Unlock()
	return s.broken
}

// Writable returns why the last transaction failed, unless a new one succeeds. It tries one at most once a second, also if nothing has failed and the
// disk is nearly full.
func (s *Store) Writable(ctx context.Context) error {
	free, _, known := s.disk()
	s.mu.Lock()
	err := s.failed
	isNearlyFull := known && free <= s.spare+2*mostShort
	retries := (err != nil || isNearlyFull) && time.Since(s.tried) > time.Second
	if retries {
		s.tried = time.Now()
	}
	s.mu.Unlock()
	if !retries {
		return err
	}
	return s.submit(ctx, &job{do: func(t *transaction) error {
		t.swaps++ // SQLite writes nothing if nothing changes
		return nil
	}, bytes: mostShort})
}

// The lengths of the WAL. From the first one on it is moved into the database, as far as nobody reads what is there; from the second one on those
// that read wait until it is empty, because a WAL that somebody reads all the time never gets empty by itself.
const (
	someWAL = 2 << 20
	mostWAL = 16 << 20
)

// boundWAL moves a long WAL into the database. A reader in another process, such as a backup, isn't waited for.
func (s *Store) boundWAL() {
	if s.unmoved < someWAL {
		return
	}
	s.unmoved = 0
	how := "passive"
	if info, err := os.Stat(filepath.Join(s.folder, database+"-wal")); err == nil && info.Size() > mostWAL {
		how = "truncate"
	}
	_ = s.checkpoint(how)
}

// truncate moves the WAL into the database and empties it. If that fails the next collection tries again.
func (s *Store) truncate() { s.unwiped.Store(s.checkpoint("truncate") != nil) }

// checkpoint moves the changes from the WAL into the database. SQLite's own checkpoints are off, as they don't say if a sync failed.
func (s *Store) checkpoint(how string) error {
	if how == "truncate" {
		s.reading.Lock()
		defer s.reading.Unlock()
		_, _ = s.exec("pragma busy_timeout = 20")
		defer func() { _, _ = s.exec("pragma busy_timeout = 5000") }()
	}
	var busy, pages, moved int
	row := s.writer.QueryRow("pragma wal_checkpoint(" + how + ")")
	if err := row.Scan(&busy, &pages, &moved); err != nil {
		return s.judge(err)
	}
	if busy != 0 {
		return errors.New("somebody reads what is in the WAL")
	}
	return nil
}

// disk returns the bytes that are free on the disk, and its size.
func (s *Store) disk() (free, size int64, ok bool) {
	var of syscall.Statfs_t
	if syscall.Statfs(s.folder, &of) != nil {
		return 0, 0, false
	}
	return int64(of.Bavail) * of.Bsize, int64(of.Blocks) * of.Bsize, true
}

// fits returns true if the disk has space for a change of this many bytes: in the WAL, in the database except for its free pages, and what is
// to be left.
func (s *Store) fits(bytes int) bool {
	free, _, ok := s.disk()
	if !ok || free > 2*int64(bytes)+s.spare {
		return true
	}
	var pages, page int64
	row := s.writer.QueryRow("select freelist_count, page_size from pragma_freelist_count, pragma_page_size")
	if row.Scan(&pages, &page) != nil {
		return false
	}
	grows := int64(bytes) - pages*page
	if grows <= 0 {
		return free > int64(bytes)
	}
	return free > int64(bytes)+grows+s.spare
}

// reserve fills a file, so that removals have space on a full disk: for the WAL, and for what is in the WAL and not yet in the database.
func (s *Store) reserve() {
	_, size, ok := s.disk()
	bytes := int64(4 << 20)
	if ok && size/4 < bytes {
		bytes = size / 4
	}
	if s.spare == 0 {
		s.spare = bytes / 4
	}
	path := filepath.Join(s.folder, reserved)
	f, err := os.OpenFile(path, os.O_CREATE|os.O_RDWR, 0o600)
	if err != nil {
		return
	}
	defer f.Close()
	_ = own(s.folder, path)
	_ = syscall.Fallocate(int(f.Fd()), 0, 0, bytes)
}

// withReserve calls a function with the space of the reserve, moves the WAL into the database, and takes the space again.
func (s *Store) withReserve(do func()) {
	_ = os.Truncate(filepath.Join(s.folder, reserved), 0)
	do()
	_ = s.checkpoint("truncate")
	s.reserve()
}

// A plan says what is removed of an application. It is made while others write: what they store again has a later number.
type plan struct {
	app     string
	gone    []store.Span      // manifests
	unnamed []manifest.Digest // bodies, and pages
	swaps   int64             // the number of the last change when it was made
	isFinal bool
	wipes   bool // what is removed is overwritten
}

// Collect removes earlier manifests, and bodies that none names, of one application in each transaction. A swap stores its bodies itself, so they need
// no time of grace.
func (s *Store) Collect(ctx context.Context, keep store.Keep) (removed int, err error) {
	if s.unwiped.Load() {
		nothing := func(*transaction) error { return nil }
		if err := s.submit(ctx, &job{shrinks: true, wipes: true, do: nothing}); err != nil {
			return 0, err
		}
	}
	apps := map[string]store.Stamp{}
	err = s.read(ctx, func(tx *sql.Tx) error {
		var app string
		var of store.Stamp
		return each(tx, func() error {
			apps[app] = of
			return nil
		}, []any{&app, &of.Bodies, &of.Revision}, `select app, count(*), (select ifnull(max(revision), 0) from manifests m where m.app = b.app)
			from bodies b group by app`)
	})
	if err != nil {
		return 0, err
	}
	return s.collector.Collect(apps, keep, func(app string) (removed int, isFinal bool, err error) {
		p := &plan{app: app}
		err = s.read(ctx, func(tx *sql.Tx) error { return p.make(tx, keep) })
		if err == nil && len(p.gone)+len(p.unnamed) > 0 {
			err = s.submit(ctx, &job{shrinks: true, wipes: p.wipes, do: func(t *transaction) (err error) {
				removed, err = p.carryOut(t)
				return err
			}})
		}
		return removed, p.isFinal, err
	})
}

// make plans with the database at one moment.
func (p *plan) make(tx *sql.Tx, keep store.Keep) error {
	if err := tx.QueryRow("select swaps from state").Scan(&p.swaps); err != nil {
		return err
	}
	stay, err := store.NewPlan(reader{tx, p.app}, keep)
	if err != nil {
		return err
	}
	p.gone, p.isFinal, p.wipes = stay.Gone, stay.IsFinal, stay.IsErased
	stored, err := reader{tx, p.app}.digests()
	for d := range stored {
		if !stay.Named[d] {
			p.unnamed = append(p.unnamed, d)
		}
	}
	return err
}

// carryOut removes what was planned, except what was stored again.
func (p *plan) carryOut(t *transaction) (removed int, err error) {
	remove := func(query string, args ...any) {
		if err != nil {
			return
		}
		var done sql.Result
		if done, err = t.exec(query, args...); err == nil {
			n, _ := done.RowsAffected()
			removed += int(n)
		}
	}
	for _, one := range p.gone {
		remove("delete from manifests where app = ? and revision >= ? and revision < ?", p.app, one.From, one.End)
	}
	for _, d := range p.unnamed {
		remove("delete from bodies where app = ? and digest = ? and swap <= ?", p.app, d, p.swaps)
	}
	return removed, err
}
