// Package manifest describes an application by one small value: its bundles, by the digests of their bodies. It judges changes, each of which
// makes the next manifest from the present one. It does no input or output.
package manifest

import (
	"crypto/sha256"
	"encoding/base64"
	"sync"
)

// A Digest is the SHA-256 of a body in base64url. A body is stored under its application and its digest, and never changes.
type Digest string

// DigestOf returns the digest of a body.
func DigestOf(body []byte) Digest {
	sum := sha256.Sum256(body)
	return Digest(base64.RawURLEncoding.EncodeToString(sum[:]))
}

// A Bundle describes the bundle of one locale.
type Bundle struct {
	Locale   string `json:"l"`
	Digest   Digest `json:"d"`
	Kind     string `json:"k"`           // text or file
	Bytes    int64  `json:"b"`           // of the body
	Compiled int64  `json:"c"`           // of the compiled file
	File     Digest `json:"f,omitempty"` // of the compiled file, if it is stored too
	At       int64  `json:"t"`           // milliseconds since 1970
	Who      string `json:"w,omitempty"`
	Order    int64  `json:"o"` // grows with each installation in the application
}

// FileBody returns the bundle with the stored compiled file as its body.
func (b Bundle) FileBody() Bundle {
	b.Digest, b.Bytes = b.File, b.Compiled
	return b
}

// The operations of a Made.
const (
	Install = "install"
	Replace = "replace"
	Remove  = "remove"
)

// A Made is what a change did to the bundle of one locale. A removal has no digest.
type Made struct {
	Op       string `json:"op,omitempty"`
	Locale   string `json:"l,omitempty"`
	Digest   Digest `json:"d,omitempty"`
	Kind     string `json:"k,omitempty"`
	Bytes    int64  `json:"b,omitempty"`
	Compiled int64  `json:"c,omitempty"`
	Was      *Made  `json:"w,omitempty"` // the bundle before, without its locale; nil if there was none
}

// Before returns what a bundle was before a change, if the change made it and a condition holds for that, or nil. A removal made one without a
// digest.
func (m *Made) Before(now Bundle, holds func(*Bundle) bool) *Bundle {
	if m.Was == nil || m.Digest != now.Digest {
		return nil
	}
	now.Digest, now.Kind, now.Bytes, now.Compiled = m.Was.Digest, m.Was.Kind, m.Was.Bytes, m.Was.Compiled
	if !holds(&now) {
		return nil
	}
	return &now
}

// A Manifest is an application at one revision. It never changes: a change makes the next one, whose revision is one more. Revision 0 is the
// application before its first change.
type Manifest struct {
	App      string   `json:"app"`
	Revision int64    `json:"rev"`
	ID       string   `json:"id"`               // the random name of the change that made it
	Before   string   `json:"before,omitempty"` // the ID of the manifest that it replaced
	Op       string   `json:"op"`
	Who      string   `json:"who,omitempty"`
	At       int64    `json:"at"`
	Erased   bool     `json:"erased,omitempty"`  // no earlier manifest is kept
	Default  string   `json:"default,omitempty"` // the locale for callers none of whose languages has a bundle
	Erasure  *Erasure `json:"erasure,omitempty"`
	Tokens   []string `json:"tokens,omitempty"` // those that owners made, as lines of the file of tokens
	Made     []Made   `json:"-"`                // what the change did, in the order of its edits
	Bundles  []Bundle `json:"-"`                // in the order of their installation
	Orders   int64    `json:"orders,omitempty"` // how many installations there were
	Bytes    int64    `json:"bytes,omitempty"`  // of the bodies together
	Compiled int64    `json:"compiled,omitempty"`

	pages []page // of the bundles; nil if the head has them
	log   page   // of Made; empty if the head has it
	gone  page   // of what this manifest erased
	index *index // nil if nobody made it
}

// An Erasure is one that can be undone until a time. What it removed is in a page like those of a manifest.
type Erasure struct {
	Page  Digest `json:"page"`
	Until int64  `json:"until"` // in milliseconds since 1970
}

// forgotten is how long after its time the manifests have an erasure, so that what it removed is overwritten.
const forgotten = 24 * 60 * 60 * 1000 // milliseconds

// An index finds bundles. It is made when it is first needed.
type index struct {
	once  sync.Once
	place map[string]int
}

// Find returns the bundle of a locale, or nil.
func (m *Manifest) Find(locale string) *Bundle {
	if m.index == nil { // it isn't of Judge or ReadHead
		m = &Manifest{Bundles: m.Bundles, index: &index{}}
	}
	m.index.once.Do(func() {
		m.index.place = make(map[string]int, len(m.Bundles))
		for i := range m.Bundles {
			m.index.place[m.Bundles[i].Locale] = i
		}
	})
	if at, there := m.index.place[locale]; there {
		return &m.Bundles[at]
	}
	return nil
}

// A Difference is a bundle that two manifests have differently. Old or New is nil if one of them doesn't have the bundle.
type Difference struct{ Old, New *Bundle }

// Locale returns that of the bundle.
func (d *Difference) Locale() string {
	if d.New == nil {
		return d.Old.Locale
	}
	return d.New.Locale
}

// Diff returns what differs between the bundles of two manifests, the removed ones last.
func Diff(from, to *Manifest) (all []Difference) {
	same := equalPages(from, to)
	old := map[string]*Bundle{}
	for i := range from.Bundles {
		if b := &from.Bundles[i]; !same[pageOf(b.Locale)] {
			old[b.Locale] = b
		}
	}
	for i := range to.Bundles {
		b := &to.Bundles[i]
		was := old[b.Locale]
		delete(old, b.Locale)
		if !same[pageOf(b.Locale)] &&
			(was == nil || was.Digest != b.Digest || was.Kind != b.Kind || was.Order != b.Order) {
			all = append(all, Difference{was, b})
		}
	}
	for _, b := range old {
		all = append(all, Difference{b, nil})
	}
	return all
}
