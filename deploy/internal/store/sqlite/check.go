package sqlite

import (
	"context"
	"database/sql"
	"errors"
	"fmt"
	"hash/crc32"
	"io/fs"
	"os"
	"path/filepath"
	"strconv"
	"strings"
	"sync"
	"syscall"
	"time"

	"luvdregan.example/resb/deploy/internal/manifest"
	"luvdregan.example/resb/deploy/internal/store"
)

// The marks of the database in its header.
const (
	applicationID = 0x52455342
	version       = 3
)

// schema makes the tables. The one row of state has the number of all changes, and the sum of the last revisions of all applications, so a manifest
// that was lost is noticed. Pages of manifests are in the table bodies, which has the number of the change that stored each last, and a checksum
// that takes less time than the digest. A change writes a few rows in different places, so the pages of the database are short.
const schema = `
pragma page_size = 1024;
pragma journal_mode = wal;
begin;
pragma application_id = 0x52455342;
pragma user_version = 3;
create table manifests (app text not null, revision integer not null, head blob not null, primary key (app, revision)) without rowid;
create table bodies (
	app text not null, digest text not null, swap integer not null, crc integer not null, body blob not null, unique (app, digest)
);
create table state (one integer primary key check (one = 1), swaps integer not null, revisions integer not null);
insert into state values (1, 0, 0);
commit;
`

// inTurn calls functions until one fails.
func inTurn(steps ...func() error) (err error) {
	for i := 0; i < len(steps) && err == nil; i++ {
		err = steps[i]()
	}
	return err
}

// create makes an empty database. It has its name once it is whole.
func create(path string) error {
	made, folder := path+".new", filepath.Dir(path)
	db, err := openDatabase(made, "")
	if err != nil {
		return err
	}
	defer db.Close()
	err = inTurn(
		func() error { _, err := db.Exec(schema); return err },
		db.Close,
		func() error { return os.Chmod(made, 0o600) }, // and so is the WAL
		func() error { return own(folder, made) },
		func() error { return os.Rename(made, path) },
		func() error { return syncFolder(folder) })
	if err != nil {
		return fmt.Errorf("%s: %w", path, err)
	}
	return nil
}

func syncFolder(path string) error {
	folder, err := os.Open(path)
	if err != nil {
		return err
	}
	defer folder.Close()
	return folder.Sync()
}

// A state is that of the whole database.
type state struct{ swaps, revisions int64 }

func damaged(err error) error {
	if errors.Is(err, store.ErrDamaged) {
		return err
	}
	return fmt.Errorf("%w: %v", store.ErrDamaged, err)
}

func rowDamaged(table string, err error, key ...any) error {
	return damaged(fmt.Errorf("table %s, row %v: %v", table, key, err))
}

var errChecksum = errors.New("it has another checksum")

// A checked is what check finds of a database that can be used.
type checked struct {
	state
	mu      sync.Mutex
	damaged []string // rows of the table bodies without which all bundles can be read
}

// check returns an error if the database is damaged. It reads all bodies of each application, and compares them with what the newest manifest
// names. A bundle of that one needs one of its two bodies. A whole database has all that the newest one names, no damaged body, and earlier
// manifests that can be read.
func check(db *sql.DB, whole bool) (*checked, error) {
	found := &checked{}
	if err := checkFile(db); err != nil {
		return nil, damaged(err)
	}
	var apps []string
	err := inTx(context.Background(), db, func(tx *sql.Tx) error {
		var sum int64
		row := tx.QueryRow("select swaps, revisions from state where one = 1")
		if err := row.Scan(&found.swaps, &found.revisions); err != nil {
			return fmt.Errorf("table state: %w", err)
		}
		err := newest(tx, func(app string, revision int64) {
			sum += revision
			apps = append(apps, app)
		})
		if err == nil && sum != found.revisions {
			err = fmt.Errorf("table manifests has %d revisions, and table state says %d", sum, found.revisions)
		}
		return err
	})
	if err == nil {
		err = found.checkAll(db, apps, whole)
	}
	if err != nil {
		return nil, damaged(err)
	}
	return found, nil
}

// checkAll checks applications, some at once.
func (c *checked) checkAll(db *sql.DB, apps []string, whole bool) (err error) {
	next, failed := make(chan string), make(chan error, len(apps))
	for w := 0; w < readers; w++ {
		go func() {
			for app := range next {
				failed <- inTx(context.Background(), db, func(tx *sql.Tx) error {
					return c.checkApp(reader{tx, app}, whole)
				})
			}
		}()
	}
	for _, app := range apps {
		next <- app
	}
	close(next)
	for range apps {
		if one := <-failed; one != nil {
			err = one
		}
	}
	return err
}

// checkApp compares the bodies of an application with what its manifests name.
func (c *checked) checkApp(from reader, whole bool) error {
	sound, err := c.bodiesOf(from)
	if err == nil {
		var sweep manifest.Sweep
		err = store.EachHead(from, func(m *manifest.Manifest) (more bool, err error) {
			return whole, checkHead(from, m, &sweep, sound, whole)
		})
	}
	c.mu.Lock()
	defer c.mu.Unlock()
	for d, is := range sound {
		if !is {
			c.damaged = append(c.damaged, fmt.Sprint([]any{from.app, d}))
		}
	}
	return err
}

// checkHead compares the bodies with what a manifest names, the newest one first. An earlier one may stay for some of what it made alone, without
// its pages and its other bodies.
func checkHead(from reader, m *manifest.Manifest, sweep *manifest.Sweep, sound map[manifest.Digest]bool, whole bool) error {
	if !whole {
		m.Erasure = nil // without what was erased all bundles can be read
	}
	isNewest := sweep.Named == nil
	bundles, err := sweep.Add(m, from.Page)
	if !isNewest && errors.Is(err, store.ErrNoBody) {
		err = nil
	}
	if err == nil && whole {
		err = m.FillMade(from.Page)
		for _, made := range m.Made {
			bundles = append(bundles, manifest.Bundle{Locale: made.Locale, Digest: made.Digest})
		}
	}
	if err != nil {
		return err
	}
	for _, b := range bundles {
		is, there := sound[b.Digest]
		isNeeded := there || isNewest && b.Digest != ""
		if !is && isNeeded && (whole || !sound[b.File]) {
			fault := fmt.Errorf("the bundle %s can't be read", b.Locale)
			return rowDamaged("bodies", fault, from.app, b.Digest)
		}
	}
	return nil
}

// bodiesOf compares the bodies of an application with their checksums. None is of a later change than the last one.
func (c *checked) bodiesOf(from reader) (sound map[manifest.Digest]bool, err error) {
	sound = map[manifest.Digest]bool{}
	var d manifest.Digest
	var swap int64
	var crc uint32
	var body sql.RawBytes
	err = each(from.tx, func() error {
		if swap < 0 || swap > c.swaps {
			return rowDamaged("bodies", fmt.Errorf("it is of change %d of %d", swap, c.swaps), from.app, d)
		}
		sound[d] = checksum(body) == crc
		return nil
	}, []any{&d, &swap, &crc, &body}, "select digest, swap, crc, body from bodies where app = ?", from.app)
	return sound, err
}

var castagnoli = crc32.MakeTable(crc32.Castagnoli)

func checksum(body []byte) uint32 { return crc32.Checksum(body, castagnoli) }

// tables returns how SQLite stores the statements of the schema. No page has a checksum, so another text would be another table.
func tables() (all string) {
	for _, one := range strings.Split(schema, ";") {
		if _, table, is := strings.Cut(one, "create table "); is {
			all += "CREATE TABLE " + table + "\n"
		}
	}
	return all
}

const selectTables = `select group_concat(sql || char(10), '') from (select sql from sqlite_schema where sql is not null order by rowid)`

// countMisled counts the entries of an index that lead to another row. SQLite's own check doesn't see it in the copy of an entry that was too long.
const countMisled = `
select (select count(*) from bodies not indexed) - (
	select count(*) from bodies i indexed by sqlite_autoindex_bodies_1 join bodies t not indexed on t.rowid = i.rowid
	where t.app = i.app and t.digest = i.digest)`

// checkFile checks the header, the schema and the pages of the database.
func checkFile(db *sql.DB) error {
	var id, of int
	var verdict string
	for query, to := range map[string]any{"application_id": &id, "user_version": &of, "integrity_check(1)": &verdict} {
		if err := db.QueryRow("pragma " + query).Scan(to); err != nil {
			return err
		}
	}
	if id != applicationID || of != version {
		return fmt.Errorf("this is no store of version %d", version)
	}
	if verdict != "ok" {
		return errors.New(verdict)
	}
	var found string
	var misled int
	err := inTurn(
		func() error { return db.QueryRow(selectTables).Scan(&found) },
		func() error { return db.QueryRow(countMisled).Scan(&misled) })
	switch {
	case err != nil:
		return err
	case found != tables():
		return errors.New("its tables are others")
	case misled != 0:
		return errors.New("the index of the table bodies leads to other rows")
	}
	return nil
}

// marker is the file with the number of the last change that was acknowledged. SQLite takes a WAL with a damaged frame for one that ends there;
// a database that is behind this file lost acknowledged changes. It is written in place and not synced: a loss of power may leave an earlier
// number in it, which is harmless.
const marker = "acknowledged"

// openMarker compares the file with the database, and makes it if it is missing, as it is beside a backup.
func (s *Store) openMarker() error {
	path := filepath.Join(s.folder, marker)
	content, err := os.ReadFile(path)
	if err == nil && len(content) > 0 { // one that was made just before a kill is empty
		number, err := strconv.ParseInt(strings.TrimSpace(string(content)), 10, 64)
		if err != nil || number > s.swaps {
			return fmt.Errorf("%s: %w: acknowledged changes are missing: the last one was %.20q, the database has %d; to start with what the database "+
				"has, remove this file", path, store.ErrDamaged, content, s.swaps)
		}
	} else if err != nil && !errors.Is(err, fs.ErrNotExist) {
		return err
	}
	if s.marker, err = os.OpenFile(path, os.O_CREATE|os.O_RDWR, 0o600); err != nil {
		return err
	}
	s.mark()
	return inTurn(
		func() error { return own(s.folder, path) },
		s.marker.Sync,
		func() error { return syncFolder(s.folder) })
}

// mark writes the number of the last change. One that can't be written leaves an earlier one.
func (s *Store) mark() {
	_, _ = s.marker.WriteAt([]byte(fmt.Sprintf("%019d\n", s.swaps)), 0)
}

// ErrExists is the error of a copy that would replace something.
var ErrExists = errors.New("it exists")

// A Summary describes a copy.
type Summary struct {
	Apps, Changes int64
	Bytes         int64 // of the file
}

// Backup writes a copy of a folder's store into a file that must not exist, also while a gateway uses the store. It has all changes that were
// acknowledged before.
func Backup(folder, file string) (Summary, error) {
	path := filepath.Join(folder, database)
	if _, err := os.Stat(path); errors.Is(err, fs.ErrNotExist) {
		return Summary{}, fmt.Errorf("%s: %w", folder, ErrMissing)
	}
	if into, err := os.Stat(filepath.Dir(file)); err == nil && Owns(filepath.Base(file)) {
		if of, err := os.Stat(folder); err == nil && os.SameFile(of, into) {
			return Summary{}, fmt.Errorf("%s: it is a file of the store", file)
		}
	}
	sum, err := copyDatabase(path, "mode=rw&_busy_timeout=60000", file)
	if errors.Is(err, store.ErrDamaged) {
		err = fmt.Errorf("%w; restore a backup", err)
	}
	if err == nil {
		noteBackup(folder)
	}
	return sum, err
}

// noteBackup gives a file the present time, which the metrics report. A folder that can't be written keeps the earlier one.
func noteBackup(folder string) {
	path := filepath.Join(folder, backedUp)
	if f, err := os.OpenFile(path, os.O_CREATE|os.O_WRONLY, 0o600); err == nil {
		_ = f.Close()
		_ = own(folder, path)
		_ = os.Chtimes(path, time.Now(), time.Now())
	}
}

// Restore makes the store of a folder that has none from a copy, which it checks before. If it fails it leaves nothing.
func Restore(folder, file string) (sum Summary, err error) {
	if err := checkCopy(file); err != nil {
		return sum, fmt.Errorf("%s: %w", file, err)
	}
	path := filepath.Join(folder, locked)
	_, hadFolder := os.Stat(folder)
	_, hadLock := os.Stat(path)
	defer func() {
		if err != nil && hadLock != nil {
			_ = os.Remove(path)
		}
		if err != nil && hadFolder != nil {
			_ = os.Remove(folder)
		}
	}()
	if err := makeFolder(folder); err != nil {
		return Summary{}, err
	}
	lock, err := takeLock(folder)
	if err != nil {
		return Summary{}, err
	}
	defer lock.Close()
	for _, name := range []string{database + "-wal", database + "-shm", marker} {
		if _, err := os.Lstat(filepath.Join(folder, name)); err == nil {
			return Summary{}, fmt.Errorf("this folder has a store: %s: %w", name, ErrExists)
		}
	}
	return copyDatabase(file, "mode=ro&immutable=1", filepath.Join(folder, database))
}

// checkCopy returns an error if a copy is damaged.
func checkCopy(file string) error {
	if _, err := os.Stat(file); err != nil {
		return err
	}
	db, err := openDatabase(file, "mode=ro&immutable=1")
	if err != nil {
		return err
	}
	defer db.Close()
	_, err = check(db, true)
	return err
}

// copyDatabase copies a database at one moment into a file that must not exist. The file gets its name once it was checked, with the history, and
// synced.
func copyDatabase(from, options, to string) (sum Summary, err error) {
	folder := filepath.Dir(to)
	made, err := os.CreateTemp(folder, filepath.Base(to)+".new-*")
	if err != nil {
		return sum, err
	}
	defer made.Close()
	defer os.Remove(made.Name())
	source, err := openDatabase(from, options)
	if err != nil {
		return sum, err
	}
	defer source.Close()
	if _, err = source.Exec("vacuum into ?", made.Name()); err != nil {
		return sum, fmt.Errorf("%s: %w", from, damaged(err))
	}
	db, err := openDatabase(made.Name(), "mode=ro&immutable=1")
	if err != nil {
		return sum, err
	}
	defer db.Close()
	found, err := check(db, true)
	if err == nil {
		err = db.QueryRow("select count(distinct app) from manifests").Scan(&sum.Apps)
	}
	if err != nil {
		return sum, fmt.Errorf("%s: %w", from, err)
	}
	info, err := made.Stat()
	if err != nil {
		return sum, err
	}
	sum.Changes, sum.Bytes = found.swaps, info.Size()
	err = inTurn(
		func() error { return own(folder, made.Name()) },
		made.Sync,
		func() error { return os.Link(made.Name(), to) }, // unlike a renaming it replaces nothing
		func() error { return syncFolder(folder) })
	if errors.Is(err, fs.ErrExist) {
		err = fmt.Errorf("%s: %w", to, ErrExists)
	}
	return sum, err
}

// own gives a file that root makes to the owner of the folder, whose gateway is to use it.
func own(folder, path string) error {
	info, err := os.Stat(folder)
	if err != nil || os.Geteuid() != 0 {
		return err
	}
	of := info.Sys().(*syscall.Stat_t)
	return os.Lchown(path, int(of.Uid), int(of.Gid))
}
