package api

import (
	"encoding/base64"
	"encoding/hex"
	"fmt"
	"math"
	"strconv"
	"time"

	"luvdregan.example/resb/deploy/internal/auth"
	"luvdregan.example/resb/deploy/internal/convert"
	"luvdregan.example/resb/deploy/internal/manifest"
	"luvdregan.example/resb/deploy/internal/names"
	"luvdregan.example/resb/deploy/internal/release"
	"luvdregan.example/resb/deploy/internal/replica"
	"luvdregan.example/resb/deploy/internal/store"
	"luvdregan.example/resb/deploy/internal/wire"
)

// The changes of the history in one reply, and how many manifests are read at a time.
const (
	usualHistory = 100
	mostHistory  = 1000
	someHistory  = 100
)

// A version is what a change did to one bundle, in the reply to a request for the history. Its number is that of the manifest, times the most
// changes of one, and its place among them.
type version struct {
	At       string `json:"at"`
	Bytes    int64  `json:"bytes"`
	Change   string `json:"change"`
	ID       int64  `json:"id"`
	Kept     bool   `json:"kept"`
	Locale   string `json:"locale"`
	Op       string `json:"op"`
	Revision int64  `json:"revision"`
	SHA256   string `json:"sha256,omitempty"`
	Token    string `json:"token"`
}

func versionOf(m *manifest.Manifest, place int, isStored bool) version {
	made := m.Made[place]
	sum, _ := base64.RawURLEncoding.DecodeString(string(made.Digest)) // a digest of a manifest is valid
	at := time.UnixMilli(m.At).UTC().Format(time.RFC3339Nano)
	return version{at, made.Bytes, m.Op, idAt(m, place), isStored, made.Locale, made.Op, m.Revision, hex.EncodeToString(sum), m.Who}
}

// idAt returns the number of the version that a manifest has at a place.
func idAt(m *manifest.Manifest, place int) int64 { return m.Revision*release.Most + int64(place) }

// A group is a change with all that it did, in the reply to a request for the history by changes.
type group struct {
	At       string    `json:"at"`
	Bundles  []version `json:"bundles"`
	Change   string    `json:"change"`
	ID       int64     `json:"id"`
	Revision int64     `json:"revision"`
	Token    string    `json:"token"`
}

// number reads a number of the query.
func number(c *call, name string, usual, most int64) (int64, error) {
	if c.Query.Get(name) == "" {
		return usual, nil
	}
	n, err := strconv.ParseInt(c.Query.Get(name), 10, 64)
	if err != nil || n < 0 || n > most {
		return 0, wire.BadQuery.With(fmt.Sprintf("?%s= must be a number from 0 to %d", name, most))
	}
	return n, nil
}

// A listing is what a request for the history asks for.
type listing struct {
	before   int64  // only what has a lower number, unless it is 0
	locale   string // only of this one, unless it is ""
	most     int
	byChange bool
	stored   map[manifest.Digest]bool // or nil: a change of one bundle has its version
	versions []version
	groups   []group
}

// history answers with the last changes of the application.
func history(c *call) error {
	most, err := number(c, "last", usualHistory, mostHistory)
	if err != nil {
		return err
	}
	l := listing{locale: c.Query.Get("locale"), most: int(most), versions: []version{}, groups: []group{}}
	if l.before, err = number(c, "before", 0, math.MaxInt64); err != nil {
		return err
	}
	by := c.Query.Get("by")
	if l.byChange = by == "change"; by != "" && !l.byChange {
		return wire.BadQuery.With("?by= must be change")
	}
	if name, ok := names.Canonical(l.locale); ok && l.locale != "" {
		l.locale = name
	}
	if err := c.Permit(auth.Edit, l.locale); err != nil {
		return err
	}
	c.W.Header()["Resb-Revision"] = c.Backend.Now(c.App).Header()
	if err = c.Work(c.Context(), func() error { return l.read(c) }); err != nil {
		return err
	}
	if l.byChange {
		return c.Reply(map[string][]group{"history": l.groups})
	}
	return c.Reply(map[string][]version{"history": l.versions})
}

// read reads the last changes, the newest first.
func (l *listing) read(c *call) error {
	from := int64(0) // a revision, for the store
	if l.before > 0 {
		from = l.before/release.Most + 1
	}
	for !l.isFull() {
		some, err := c.Backend.History(c.Context(), c.App, from, someHistory)
		if err != nil {
			return err
		}
		for i := 0; i < len(some) && !l.isFull(); i++ {
			if err := l.add(c, some[i]); err != nil {
				return err
			}
			from = some[i].Revision
		}
		if len(some) < someHistory || from <= 1 {
			break
		}
	}
	return nil
}

// isFull returns true if the listing has enough. One by changes ends after as many bundles as a release may have.
func (l *listing) isFull() bool {
	if l.byChange {
		return len(l.groups) >= l.most || len(l.versions) >= release.Most
	}
	return len(l.versions) >= l.most
}

// add adds what a manifest has of what is asked for, the last one first.
func (l *listing) add(c *call, m *manifest.Manifest) (err error) {
	if len(m.Made) > 1 && l.stored == nil {
		if l.stored, err = c.Backend.Digests(c.Context(), c.App); err != nil {
			return err
		}
	}
	begin := len(l.versions)
	for i := len(m.Made) - 1; i >= 0 && (l.byChange || !l.isFull()); i-- {
		d := m.Made[i].Digest
		v := versionOf(m, i, d == "" || len(m.Made) == 1 || l.stored[d])
		if (l.before == 0 || v.ID < l.before) && (l.locale == "" || l.locale == v.Locale) {
			l.versions = append(l.versions, v)
		}
	}
	if made := l.versions[begin:]; len(made) > 0 {
		last := made[len(made)-1]
		l.groups = append(l.groups, group{last.At, made, last.Change, last.ID, last.Revision, last.Token})
	}
	return nil
}

// changeOf returns the manifest that a change of the history made, and its place in that.
func changeOf(c *call, id int64) (m *manifest.Manifest, place int, err error) {
	some, err := c.Backend.History(c.Context(), c.App, id/release.Most+1, 1)
	place = int(id % release.Most)
	if err == nil && (id < 0 || len(some) == 0 || some[0].Revision != id/release.Most || place >= len(some[0].Made)) {
		err = store.ErrNoVersion
	}
	if err != nil {
		return nil, 0, err
	}
	return some[0], place, nil
}

// find returns the bundle after a change of the history, which has no digest if the change removed it.
func find(c *call, id int64) (b manifest.Bundle, err error) {
	m, place, err := changeOf(c, id)
	if err != nil {
		return b, err
	}
	made := m.Made[place]
	b = manifest.Bundle{Locale: made.Locale, Digest: made.Digest, Kind: made.Kind, Bytes: made.Bytes, Compiled: made.Compiled, At: m.At}
	return b, c.Permit(auth.Edit, made.Locale)
}

// idOf reads the number of a change.
func idOf(digits string) (int64, error) {
	id, err := strconv.ParseInt(digits, 10, 64)
	if err != nil {
		return 0, wire.NoPage
	}
	return id, nil
}

// answerVersion answers with a bundle as it was after a change.
func answerVersion(c *call) error {
	digits, form, isForm := wire.FormOf(c.Parts[1])
	id, err := idOf(digits)
	if err != nil || !isForm {
		return wire.NoPage
	}
	c.W.Header()["Resb-Revision"] = c.Backend.Now(c.App).Header()
	b, err := find(c, id)
	if err == nil && b.Digest == "" {
		err = store.ErrNoVersion
	}
	if err != nil {
		return err
	}
	return render(c, b, form)
}

// mostDifferences is the most bytes of the items that differ between two versions.
const mostDifferences = 16 << 20

// differences answers with the items that differ between two versions. After a removal there are none.
func differences(c *call) error {
	from, err := idOf(c.Parts[1])
	if err != nil {
		return err
	}
	if c.Query.Get("with") == "" {
		return wire.BadQuery.With("?with= must have the id of the version to compare with")
	}
	to, err := number(c, "with", 0, math.MaxInt64)
	if err != nil {
		return err
	}
	var found []convert.Difference
	err = c.Work(c.Context(), func() error {
		old, err := treeOf(c, from)
		if err != nil {
			return err
		}
		new, err := treeOf(c, to)
		if err == nil {
			found, err = convert.Differences(c.Context(), old, new, mostDifferences)
		}
		return err
	})
	if err != nil {
		return err
	}
	return c.Reply(map[string]any{"changes": found, "from": from, "to": to})
}

// treeOf returns a version as JSON, or nothing for a removal.
func treeOf(c *call, id int64) ([]byte, error) {
	b, err := find(c, id)
	if err != nil || b.Digest == "" {
		return nil, err
	}
	return converted(c, b, wire.Forms[len(wire.Forms)-1])
}

// restore makes a bundle what it was after a change.
func restore(c *call) error {
	id, err := idOf(c.Parts[1])
	if err != nil {
		return err
	}
	b, err := find(c, id)
	if err != nil {
		return err
	}
	edit := replica.Edit{}
	edit.If = condition(c, &edit)
	defer func() { edit.Bundle.Discard() }()
	if err := prepareStored(c, &edit, b); err != nil {
		return err
	}
	return makeEdit(c, "restore", &edit, "")
}

// prepareStored makes the edit that brings back a version, or without a digest removes the bundle.
func prepareStored(c *call, edit *replica.Edit, b manifest.Bundle) error {
	edit.Locale = b.Locale
	if c.Asked(b.Locale, nil); b.Digest == "" {
		return nil
	}
	body, err := load(c, b)
	if err != nil {
		return err
	}
	c.Asked(b.Locale, body)
	return prepare(c, edit, payload{b.Locale, b.Kind, body})
}

// undo takes back a change of the history, such as a release: each of its bundles becomes what it was before, unless one was changed since.
func undo(c *call) error {
	id, err := idOf(c.Parts[1])
	if err != nil {
		return err
	}
	m, _, err := changeOf(c, id)
	if err != nil {
		return err
	}
	needs := auth.Edit | auth.Release // either: a release may have one bundle
	if len(m.Made) > 1 {
		needs = auth.Release
	}
	edits := make([]replica.Edit, len(m.Made))
	defer discard(edits)
	for i := range m.Made {
		err := c.Permit(needs, m.Made[i].Locale)
		if err == nil {
			err = takeBack(c, &edits[i], &m.Made[i])
		}
		if err != nil {
			return named(err, m.Made[i].Locale)
		}
	}
	return makeAll(c, "undo", edits, func(locale string) string { return locale })
}

// takeBack makes the edit that takes back what a change did to a bundle, if that still is what the change made.
func takeBack(c *call, edit *replica.Edit, made *manifest.Made) error {
	was := manifest.Bundle{Locale: made.Locale}
	if of := made.Was; of != nil {
		was.Digest, was.Kind, was.Bytes, was.Compiled = of.Digest, of.Kind, of.Bytes, of.Compiled
	} else if made.Op != manifest.Install { // an earlier version of the gateway stored it
		return store.ErrNoVersion
	}
	edit.If = func(now *manifest.Bundle) bool {
		return now == nil && made.Digest == "" || now != nil && now.Digest == made.Digest
	}
	return prepareStored(c, edit, was)
}
