// Package sqlite stores manifests and bodies in a database on one machine. All changes that wait are one transaction, which is synced before they
// are acknowledged.
package sqlite

import (
	"context"
	"database/sql"
	"errors"
	"fmt"
	"io/fs"
	"log"
	"math"
	"os"
	"path/filepath"
	"strings"
	"sync"
	"sync/atomic"
	"syscall"
	"time"

	_ "github.com/mattn/go-sqlite3" // the driver

	"luvdregan.example/resb/deploy/internal/manifest"
	"luvdregan.example/resb/deploy/internal/store"
)

const (
	database = "manifests.db"
	earlier  = "changes.db" // of earlier versions
	locked   = "lock"       // the file of the process that has the folder
	reserved = "reserve"    // the file with the space of a full disk
	backedUp = "backed-up"  // the file whose time is that of the last backup
	readers  = 4            // connections that read at once
)

// Owns returns true for the name of a file that the store has, or had, in its folder.
func Owns(name string) bool {
	return strings.HasPrefix(name, database) || name == earlier || name == marker || name == reserved || name == locked ||
		name == backedUp
}

// ErrMissing is the error of a folder that has no store.
var ErrMissing = errors.New("there is no store in this folder")

// Options say how a store is opened.
type Options struct {
	Folder string
	Create bool // makes the store if it is missing
}

// A Store is the database of a folder. One process at a time has it.
type Store struct {
	folder string
	lock   *os.File
	reader *sql.DB
	writer *sql.DB  // with one connection
	marker *os.File // has the number of the last change that was acknowledged
	spare  int64    // bytes that a change leaves free on the disk

	short, long chan *job
	closing     chan struct{}
	ended       chan struct{}
	committing  sync.Mutex   // held until the changes of a transaction are reported
	reading     sync.RWMutex // held while a connection reads, so that a checkpoint can wait until none does
	collector   store.Collector
	unwiped     atomic.Bool // the WAL may have what was erased

	state              // of the database; the goroutine that writes has it
	unmoved int        // bytes that were written since the last checkpoint, about; the same
	mu      sync.Mutex // guards what follows
	broken  error
	failed  error // of the last transaction that needed space
	tried   time.Time
	seen    func(app string, revision int64) // of Watch
	watched chan struct{}                    // closed once Watch has reported all that was there
}

// Open opens the store of a folder. If something in it isn't what was acknowledged it returns an error that wraps store.ErrDamaged and names the
// place; what is damaged and not needed for the present bundles is only logged.
func Open(o Options) (*Store, error) {
	if err := Look(o); err != nil {
		return nil, err
	}
	if err := makeFolder(o.Folder); err != nil {
		return nil, err
	}
	lock, err := takeLock(o.Folder)
	if err != nil {
		return nil, err
	}
	s := &Store{folder: o.Folder, lock: lock, short: make(chan *job), long: make(chan *job),
		closing: make(chan struct{}), ended: make(chan struct{}), watched: make(chan struct{})}
	if err := s.open(); err != nil {
		s.release()
		return nil, err
	}
	s.reserve()
	go s.run()
	return s, nil
}

// Look returns an error if no store can be in the folder, or if there must be one and isn't. It changes nothing.
func Look(o Options) error {
	_, err := os.Stat(o.Folder)
	if err != nil && !o.Create {
		return fmt.Errorf("%w: %v; -init makes an empty one", ErrMissing, err)
	}
	if err := takesFiles(filepath.Clean(o.Folder)); err != nil {
		return err
	}
	if _, err := os.Stat(filepath.Join(o.Folder, earlier)); err == nil {
		return fmt.Errorf("%s: %s is the store of an earlier version, which isn't read; take an empty folder, and send all bundles again", o.Folder, earlier)
	}
	if info, err := os.Stat(filepath.Join(o.Folder, database)); !o.Create && (err != nil || info.Size() == 0) {
		return fmt.Errorf("%s: %w; -init makes an empty one", o.Folder, ErrMissing)
	}
	return nil
}

// takesFiles returns an error unless files can be made in a folder, or in the nearest one around it if it is missing.
func takesFiles(folder string) error {
	const mayWrite = 2 | 1 // of access(2)
	info, err := os.Stat(folder)
	switch {
	case errors.Is(err, fs.ErrNotExist):
		return takesFiles(filepath.Dir(folder))
	case err == nil && !info.IsDir():
		err = syscall.ENOTDIR
	case err == nil:
		err = syscall.Access(folder, mayWrite)
	}
	if err != nil {
		err = &fs.PathError{Op: "write to", Path: folder, Err: err}
	}
	return err
}

// makeFolder makes a folder with those around it, if they are missing. Each belongs to the owner of the one around it, whose gateway is to use it.
func makeFolder(path string) error {
	path = filepath.Clean(path)
	around := filepath.Dir(path)
	if _, err := os.Stat(path); err == nil || around == path {
		return err
	}
	return inTurn(
		func() error { return makeFolder(around) },
		func() error { return os.Mkdir(path, 0o700) },
		func() error { return own(around, path) })
}

// takeLock keeps a second process from the folder.
func takeLock(folder string) (*os.File, error) {
	path := filepath.Join(folder, locked)
	lock, err := os.OpenFile(path, os.O_CREATE|os.O_RDWR, 0o600)
	if err != nil {
		return nil, err
	}
	if err := syscall.Flock(int(lock.Fd()), syscall.LOCK_EX|syscall.LOCK_NB); err != nil {
		_ = lock.Close()
		return nil, fmt.Errorf("%s: another gateway has this folder; stop it first", path)
	}
	return lock, own(folder, path)
}

func (s *Store) open() error {
	path := filepath.Join(s.folder, database)
	unfinished, _ := filepath.Glob(path + ".new*") // of processes that were killed
	for _, one := range unfinished {
		_ = os.Remove(one)
	}
	if info, err := os.Stat(path); err != nil || info.Size() == 0 {
		if err := create(path); err != nil {
			return err
		}
	}
	// SQLite needn't overwrite what it deletes, for which a full disk would lack the space; Debian's
	// does it by default.
	options := "_journal_mode=WAL&_synchronous=FULL&_busy_timeout=5000&_secure_delete=off"
	var err error
	if s.writer, err = openDatabase(path, options); err != nil {
		return err
	}
	s.writer.SetMaxOpenConns(1)
	// also finds out if the file can be opened
	_, err = s.writer.Exec("pragma wal_autocheckpoint = 0; pragma journal_size_limit = 4194304")
	if err == nil {
		s.reader, err = openDatabase(path, options+"&_query_only=on")
	}
	var found *checked
	if err == nil {
		s.reader.SetMaxOpenConns(readers)
		s.reader.SetMaxIdleConns(readers)
		found, err = check(s.reader, false)
	}
	if err != nil {
		return fmt.Errorf("%s: %w; restore a backup", path, damaged(err))
	}
	s.state = found.state
	for _, row := range found.damaged {
		log.Printf("%s: table bodies, row %s: %v; all bundles are answered without it", path, row, errChecksum)
	}
	if err := s.openMarker(); err != nil {
		return err
	}
	s.truncate() // the WAL of a process that was killed may be long, or have what was erased
	return nil
}

func openDatabase(path, options string) (*sql.DB, error) {
	return sql.Open("sqlite3", "file:"+strings.NewReplacer("%", "%25", "?", "%3f", "#", "%23").Replace(path)+"?"+options)
}

// release closes what is open. The last connection moves the changes from the WAL into the database.
func (s *Store) release() {
	for _, db := range []*sql.DB{s.reader, s.writer} {
		if db != nil {
			_ = db.Close()
		}
	}
	if s.marker != nil {
		_ = s.marker.Close()
	}
	_ = s.lock.Close()
}

// Close ends the transaction that is made, and closes the store.
func (s *Store) Close() error {
	close(s.closing)
	<-s.ended
	s.release()
	return nil
}

// read calls a function with the database at one moment.
func (s *Store) read(ctx context.Context, do func(tx *sql.Tx) error) error {
	s.reading.RLock()
	defer s.reading.RUnlock()
	err := inTx(ctx, s.reader, do)
	if ctx.Err() != nil { // which closes the rows: what was read may be a part, without an error
		err = fmt.Errorf("%w: %v", store.ErrUnreached, ctx.Err())
	}
	return err
}

func inTx(ctx context.Context, db *sql.DB, do func(tx *sql.Tx) error) error {
	tx, err := db.BeginTx(ctx, nil)
	if err != nil {
		return err
	}
	defer func() { _ = tx.Rollback() }()
	return do(tx)
}

// each reads the columns of each row of a query, and then calls a function.
func each(tx *sql.Tx, do func() error, columns []any, query string, args ...any) error {
	rows, err := tx.Query(query, args...)
	if err != nil {
		return err
	}
	defer rows.Close()
	for err == nil && rows.Next() {
		if err = rows.Scan(columns...); err == nil {
			err = do()
		}
	}
	if err == nil {
		err = rows.Err()
	}
	return err
}

// A reader reads an application.
type reader struct {
	tx  *sql.Tx
	app string
}

// Heads returns the last manifests before a revision.
func (r reader) Heads(before int64, most int) (all []*manifest.Manifest, err error) {
	if before == 0 {
		before = math.MaxInt64
	}
	var revision int64
	var head []byte
	err = each(r.tx, func() error {
		m, err := store.ReadHead(r.app, revision, head)
		if err != nil {
			return rowDamaged("manifests", err, r.app, revision)
		}
		all = append(all, m)
		return nil
	}, []any{&revision, &head}, "select revision, head from manifests where app = ? and revision < ? order by revision desc limit ?", r.app, before, most)
	return all, err
}

// Page returns a page of a manifest, or a body, which are stored alike.
func (r reader) Page(d manifest.Digest) (body []byte, err error) {
	var crc uint32
	row := r.tx.QueryRow("select crc, body from bodies where app = ? and digest = ?", r.app, d)
	if err = row.Scan(&crc, &body); errors.Is(err, sql.ErrNoRows) {
		return nil, fmt.Errorf("%w: %s, %s", store.ErrNoBody, r.app, d)
	}
	if err == nil && checksum(body) != crc {
		err = rowDamaged("bodies", errChecksum, r.app, d)
	}
	return body, err
}

// digests returns those of the bodies.
func (r reader) digests() (map[manifest.Digest]bool, error) {
	all := map[manifest.Digest]bool{}
	var d manifest.Digest
	return all, each(r.tx, func() error {
		all[d] = true
		return nil
	}, []any{&d}, "select digest from bodies where app = ?", r.app)
}

// of returns what a function reads of an application at one moment.
func of[T any](ctx context.Context, s *Store, app string, read func(from reader) (T, error)) (found T, err error) {
	err = s.read(ctx, func(tx *sql.Tx) error {
		found, err = read(reader{tx, app})
		return err
	})
	return found, err
}

// Manifest returns the manifest of a revision.
func (s *Store) Manifest(ctx context.Context, app string, revision int64, near *manifest.Manifest) (*manifest.Manifest, error) {
	return of(ctx, s, app, func(from reader) (*manifest.Manifest, error) { return store.ReadManifest(from, revision, near) })
}

// History returns the last manifests.
func (s *Store) History(ctx context.Context, app string, before int64, most int) ([]*manifest.Manifest, error) {
	return of(ctx, s, app, func(from reader) ([]*manifest.Manifest, error) { return store.ReadHistory(from, before, most) })
}

// Digests returns those of the bodies of an application.
func (s *Store) Digests(ctx context.Context, app string) (map[manifest.Digest]bool, error) {
	return of(ctx, s, app, reader.digests)
}

// Body returns a body.
func (s *Store) Body(ctx context.Context, app string, b manifest.Bundle) ([]byte, error) {
	return of(ctx, s, app, func(from reader) ([]byte, error) { return from.Page(b.Digest) })
}

// selectNewest finds each application with its last revision by a few steps in the index.
const selectNewest = `
with recursive n (app) as (
	select min(app) from manifests
	union all
	select (select min(app) from manifests where app > n.app) from n where app is not null
)
select app, (select max(revision) from manifests where app = n.app) from n where app is not null`

func newest(tx *sql.Tx, do func(app string, revision int64)) error {
	var app string
	var revision int64
	return each(tx, func() error {
		do(app, revision)
		return nil
	}, []any{&app, &revision}, selectNewest)
}

// Newest calls a function for the newest manifest of each application.
func (s *Store) Newest(ctx context.Context, do func(app string, revision int64)) error {
	return s.read(ctx, func(tx *sql.Tx) error { return newest(tx, do) })
}

// Watch reports all newest manifests, and then those that this process stores. There is one Watch at a time.
func (s *Store) Watch(ctx context.Context, seen func(app string, revision int64)) error {
	s.mu.Lock()
	isFirst := s.seen == nil
	s.seen = seen
	s.mu.Unlock()
	if err := s.Newest(ctx, seen); err != nil {
		return err
	}
	if isFirst {
		close(s.watched)
	}
	<-ctx.Done()
	return ctx.Err()
}

// tell reports a stored manifest.
func (s *Store) tell(app string, revision int64) {
	s.mu.Lock()
	defer s.mu.Unlock()
	if s.seen != nil {
		s.seen(app, revision)
	}
}

// Sync waits until somebody watches, and until the changes of the transaction that is made are reported.
func (s *Store) Sync(ctx context.Context) error {
	select {
	case <-s.watched:
	case <-ctx.Done():
		return store.ErrUnreached
	}
	s.committing.Lock()
	defer s.committing.Unlock()
	return nil
}

// Stats returns how long the files are, what is free on the disk, and when the last backup was made.
func (s *Store) Stats(context.Context) (stats store.Stats, err error) {
	stats.Sure = time.Now()
	for _, end := range []string{"", "-wal"} {
		if info, err := os.Stat(filepath.Join(s.folder, database+end)); err == nil {
			stats.Bytes += info.Size()
		}
	}
	stats.Free, _, _ = s.disk()
	if info, err := os.Stat(filepath.Join(s.folder, backedUp)); err == nil {
		stats.Backup = info.ModTime()
	}
	return stats, nil
}
