package manifest

import (
	"bytes"
	"compress/flate"
	"encoding/binary"
	"encoding/json"
	"errors"
	"fmt"
	"hash/crc32"
	"io"
	"sort"
	"sync"
)

// A stored manifest is a head and pages. A page has the bundles whose locales have one hash, and is stored like a body, under its digest; so a
// change writes the head and the pages that differ. The head of a small application has the bundles itself.
const (
	pageCount  = 64
	mostInHead = 64 // bundles
	mostMade   = 16 // of a change, in the head; more of them are in a page too
)

// ErrDamaged is the error of a stored manifest that isn't what was written.
var ErrDamaged = errors.New("what is stored is damaged")

// A page is a part of a stored manifest. It has its stored form only if the manifest before doesn't have it.
type page struct {
	digest Digest
	stored []byte
}

// A head is the first part of a stored manifest.
type head struct {
	*Manifest
	Bundles []Bundle `json:"bundles,omitempty"`
	Pages   []Digest `json:"pages,omitempty"`
	Made    []Made   `json:"made,omitempty"`
	Log     Digest   `json:"log,omitempty"`
}

// pageOf returns the page of a locale, by the FNV-1a hash, which hash/fnv makes only from bytes in the heap.
func pageOf(locale string) int {
	hash := uint32(2166136261)
	for i := 0; i < len(locale); i++ {
		hash = (hash ^ uint32(locale[i])) * 16777619
	}
	return int(hash % pageCount)
}

// First returns the manifest as the first one that a store gets of its application, with all its pages.
func (m *Manifest) First() *Manifest {
	first := *m
	first.Before, first.Made, first.Erasure, first.pages, first.log = "", nil, nil, nil, page{}
	first.seal(&Manifest{})
	return &first
}

// erase makes the manifest that of an application without bundles. What the one before has can be restored until a time, unless that is 0.
func (m *Manifest) erase(before *Manifest, until int64) {
	m.Erased = true
	switch {
	case until > 0 && len(before.Bundles) == 0: // a request that is repeated takes nothing from the earlier one
		m.Erasure = before.Erasure
	case until > 0:
		m.gone = newPage(before.Bundles)
		m.Erasure = &Erasure{m.gone.digest, until}
	}
}

// ReadErased returns what an erasure removed.
func ReadErased(e *Erasure, read func(Digest) ([]byte, error)) ([]Bundle, error) {
	return appendPage(nil, e.Page, read)
}

// seal makes the pages. Those that no edit changed are those of the manifest before.
func (m *Manifest) seal(before *Manifest) {
	if len(m.Made) > mostMade {
		m.log = newPage(m.Made)
	}
	if len(m.Bundles) <= mostInHead {
		return
	}
	m.pages = make([]page, pageCount)
	var changed [pageCount]bool
	for _, made := range m.Made {
		changed[pageOf(made.Locale)] = true
	}
	var parts [pageCount][]Bundle
	for i := range m.Bundles {
		if at := pageOf(m.Bundles[i].Locale); before.pages == nil || changed[at] {
			parts[at] = append(parts[at], m.Bundles[i])
		}
	}
	for i := range m.pages {
		if before.pages != nil && !changed[i] {
			m.pages[i].digest = before.pages[i].digest
		} else if len(parts[i]) > 0 {
			m.pages[i] = newPage(parts[i])
		}
	}
}

func newPage(of any) page {
	stored := pack(of)
	return page{DigestOf(stored), stored}
}

// Head returns the head as it is stored.
func (m *Manifest) Head() []byte {
	h := head{Manifest: m, Log: m.log.digest}
	if m.log.digest == "" {
		h.Made = m.Made
	}
	for _, p := range m.pages {
		h.Pages = append(h.Pages, p.digest)
	}
	if m.pages == nil {
		h.Bundles = m.Bundles
	}
	packed := pack(h)
	return append(binary.BigEndian.AppendUint32(nil, crc32.Checksum(packed, castagnoli)), packed...)
}

// Fresh returns the stored pages that the manifest before doesn't have.
func (m *Manifest) Fresh() map[Digest][]byte {
	all := map[Digest][]byte{}
	for _, p := range append([]page{m.log, m.gone}, m.pages...) {
		if p.stored != nil {
			all[p.digest] = p.stored
		}
	}
	return all
}

var castagnoli = crc32.MakeTable(crc32.Castagnoli)

// ReadHead reads a stored head. The manifest has its bundles once Fill was called, and Made after FillMade.
func ReadHead(stored []byte) (*Manifest, error) {
	if len(stored) < 4 || binary.BigEndian.Uint32(stored) != crc32.Checksum(stored[4:], castagnoli) {
		return nil, fmt.Errorf("the head of a manifest: %w", ErrDamaged)
	}
	h := head{Manifest: &Manifest{index: &index{}}}
	if err := unpack(stored[4:], &h); err != nil {
		return nil, err
	}
	m := h.Manifest
	m.Bundles, m.Made, m.log.digest = h.Bundles, h.Made, h.Log
	for _, d := range h.Pages {
		m.pages = append(m.pages, page{digest: d})
	}
	return m, nil
}

// Fill reads the bundles from the pages. It takes those of pages that a near manifest has too, which may be nil, from there.
func (m *Manifest) Fill(near *Manifest, read func(Digest) ([]byte, error)) error {
	if m.pages == nil {
		return nil
	}
	same := equalPages(near, m)
	for i, p := range m.pages {
		if p.digest == "" || same[i] {
			continue
		}
		var err error
		if m.Bundles, err = appendPage(m.Bundles, p.digest, read); err != nil {
			return err
		}
	}
	if near != nil {
		for _, b := range near.Bundles {
			if same[pageOf(b.Locale)] {
				m.Bundles = append(m.Bundles, b)
			}
		}
	}
	sort.Slice(m.Bundles, func(i, j int) bool { return m.Bundles[i].Order < m.Bundles[j].Order })
	return nil
}

// equalPages returns which pages two manifests have alike.
func equalPages(a, b *Manifest) (equal [pageCount]bool) {
	if a == nil || len(a.pages) != len(b.pages) {
		return equal
	}
	for i := range a.pages {
		equal[i] = a.pages[i].digest == b.pages[i].digest
	}
	return equal
}

// FillMade reads what the change did from its page.
func (m *Manifest) FillMade(read func(Digest) ([]byte, error)) error {
	if m.log.digest == "" {
		return nil
	}
	return readPage(m.log.digest, read, &m.Made)
}

// appendPage adds the bundles of a page to others.
func appendPage(to []Bundle, digest Digest, read func(Digest) ([]byte, error)) ([]Bundle, error) {
	var some []Bundle
	err := readPage(digest, read, &some)
	return append(to, some...), err
}

func readPage(digest Digest, read func(Digest) ([]byte, error), to any) error {
	stored, err := read(digest)
	if err != nil {
		return err
	}
	if DigestOf(stored) != digest {
		return fmt.Errorf("the page %s of a manifest: %w", digest, ErrDamaged)
	}
	return unpack(stored, to)
}

// A Sweep has what some manifests of an application name, the newest of which is added first, and what that one's erasure removed. It reads each page
// once. Of the compiled files only those of the newest manifest and of its erasure are needed.
type Sweep struct {
	Named map[Digest]bool // bodies and pages
}

// Add adds what a manifest names of which the head was read. It returns the bundles whose bodies no
// manifest before it named.
func (s *Sweep) Add(m *Manifest, read func(Digest) ([]byte, error)) (fresh []Bundle, err error) {
	isNewest := s.Named == nil
	if isNewest {
		s.Named = map[Digest]bool{}
	}
	if m.log.digest != "" {
		s.Named[m.log.digest] = true
	}
	all := m.Bundles[:len(m.Bundles):len(m.Bundles)]
	for _, p := range m.pages {
		if p.digest == "" || s.Named[p.digest] {
			continue
		}
		if all, err = appendPage(all, p.digest, read); err != nil {
			return nil, err
		}
		s.Named[p.digest] = true
	}
	if isNewest && m.Erasure != nil {
		if all, err = appendPage(all, m.Erasure.Page, read); err != nil {
			return nil, err
		}
		s.Named[m.Erasure.Page] = true
	}
	for _, b := range all {
		if isNewest && b.File != "" {
			s.Named[b.File] = true
		}
		if !s.Named[b.Digest] {
			s.Named[b.Digest] = true
			fresh = append(fresh, b)
		}
	}
	return fresh, nil
}

// AddMade adds, of a manifest that isn't to be read whole, what its change made of the bundles that a function chooses. It returns false if that
// chooses none, and then adds nothing.
func (s *Sweep) AddMade(m *Manifest, chosen func(*Made) bool) (any bool) {
	for i := range m.Made {
		if made := &m.Made[i]; chosen(made) {
			any = true
			s.Named[made.Digest] = true
		}
	}
	if any && m.log.digest != "" {
		s.Named[m.log.digest] = true
	}
	return any
}

// A writer of compressed bytes takes 600 KB and a reader 40 KB, so they are used again.
var writers = sync.Pool{New: func() any {
	w, _ := flate.NewWriter(io.Discard, flate.BestSpeed) // the level is a valid one
	return w
}}

// pack returns a value as compressed JSON.
func pack(value any) []byte {
	text, err := json.Marshal(value)
	if err != nil {
		panic(err) // the types have only strings and numbers
	}
	var out bytes.Buffer
	w := writers.Get().(*flate.Writer)
	defer writers.Put(w)
	w.Reset(&out)
	_, _ = w.Write(text) // a buffer takes all
	_ = w.Close()
	return out.Bytes()
}

var readers = sync.Pool{New: func() any { return flate.NewReader(nil) }}

func unpack(packed []byte, to any) error {
	r := readers.Get().(io.Reader)
	defer readers.Put(r)
	err := r.(flate.Resetter).Reset(bytes.NewReader(packed), nil)
	var text []byte
	if err == nil {
		text, err = io.ReadAll(r)
	}
	if err == nil {
		err = json.Unmarshal(text, to)
	}
	if err != nil {
		return fmt.Errorf("a manifest: %w: %v", ErrDamaged, err)
	}
	return nil
}
