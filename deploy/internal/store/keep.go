package store

import (
	"fmt"
	"sync"
	"time"

	"luvdregan.example/resb/deploy/internal/manifest"
)

// A Plan says what stays of an application.
type Plan struct {
	Gone           []Span // the revisions that go, the last ones first
	IsFinal        bool   // only a change of the application can make another plan
	IsErased       bool   // what it removes may be what was erased
	manifest.Sweep        // what the manifests that stay name
	keep           Keep
	now            time.Time
	manifests      int
	isPast         bool  // only Each lets a manifest stay
	bytes          int64 // of the bodies that the newest manifest doesn't name
	newest         *manifest.Manifest
	changes        map[string]int // how many of a bundle stay
	removed        int            // bundles among them that the newest manifest doesn't have
	eachBytes      int64          // of what stays for Each alone
}

// undoTime is how long what was erased stays after its time, as undoing it may have begun before.
const undoTime = 15 * time.Minute

// A Span has revisions, from one to before another.
type Span struct{ From, End int64 }

// NewPlan plans with what a reader finds.
func NewPlan(from Reader, keep Keep) (*Plan, error) {
	p := &Plan{keep: keep, now: time.Now(), IsFinal: keep.Age == 0, changes: map[string]int{}}
	err := EachHead(from, func(m *manifest.Manifest) (more bool, err error) {
		stays, err := p.add(m, from)
		if err == nil && !stays {
			more = p.remove(m)
		}
		return more || stays, err
	})
	return p, err
}

// remove has a manifest go. It returns false if all earlier ones go too.
func (p *Plan) remove(m *manifest.Manifest) (more bool) {
	one := Span{m.Revision, m.Revision + 1}
	if more = p.keep.Each > 0 && !p.isOld(m); !more {
		one.From = 0
	}
	if last := len(p.Gone) - 1; last >= 0 && p.Gone[last].From == one.End {
		p.Gone[last].From = one.From
	} else {
		p.Gone = append(p.Gone, one)
	}
	return more
}

// add adds the head of a manifest. It returns false if this one need not stay.
func (p *Plan) add(m *manifest.Manifest, from Reader) (stays bool, err error) {
	if p.keep.Each > 0 {
		err = m.FillMade(from.Page)
	}
	if p.isPast = p.isPast || !p.permits(m); err == nil && !p.isPast {
		stays, err = p.addWhole(m, from)
	}
	if err != nil || p.keep.Each == 0 || p.isOld(m) {
		return stays, err
	}
	return p.AddMade(m, func(made *manifest.Made) bool { return p.isOfEach(made, stays) }) || stays, nil
}

// addWhole adds all that a manifest names, and returns false if that is too much. It may stay once more.
func (p *Plan) addWhole(m *manifest.Manifest, from Reader) (stays bool, err error) {
	if e := m.Erasure; p.manifests == 0 && e != nil {
		isOver := p.now.After(time.UnixMilli(e.Until).Add(undoTime))
		if p.IsErased = true; isOver {
			m.Erasure = nil // nothing of it stays
		}
		p.IsFinal = p.IsFinal && isOver
	}
	more, err := p.Sweep.Add(m, from.Page)
	if err != nil {
		return false, err
	}
	if p.manifests == 0 {
		p.IsFinal = p.IsFinal && p.age(m) >= p.keep.Grace
		if p.newest = m; p.keep.Each > 0 {
			err = m.Fill(nil, from.Page)
		}
	} else {
		for _, b := range more {
			p.bytes += b.Bytes
		}
	}
	if p.isPast = !p.permits(m); !p.isPast {
		p.manifests++
	}
	return !p.isPast, err
}

// permits returns true if a manifest stays, whatever it made.
func (p *Plan) permits(m *manifest.Manifest) bool {
	k := &p.keep
	return p.manifests == 0 || p.age(m) < k.Grace ||
		(k.Manifests == 0 || p.manifests < k.Manifests) && !p.isOld(m) && (k.Bytes == 0 || p.bytes <= k.Bytes)
}

// isOld returns true if the age of a manifest alone has it go.
func (p *Plan) isOld(m *manifest.Manifest) bool {
	return p.manifests > 0 && p.keep.Age > 0 && p.age(m) >= p.keep.Age && p.age(m) >= p.keep.Grace
}

// mostRemoved is of how many bundles that were removed the last versions stay: as many as an application may have.
const mostRemoved = 4096

// isOfEach returns true if a change is among the last ones of its bundle that stay, and counts it then.
func (p *Plan) isOfEach(made *manifest.Made, stays bool) bool {
	n := p.changes[made.Locale]
	isRemoved := n == 0 && p.newest.Find(made.Locale) == nil
	if n == p.keep.Each || isRemoved && p.removed == mostRemoved || p.isFull(made, stays) {
		return false
	}
	if isRemoved {
		p.removed++
	}
	if !stays {
		p.eachBytes += made.Bytes
	}
	p.changes[made.Locale]++
	return true
}

// isFull returns true if a version would take more than what may stay for Each alone.
func (p *Plan) isFull(made *manifest.Made, stays bool) bool {
	return !stays && p.keep.EachBytes > 0 && p.eachBytes+made.Bytes > p.keep.EachBytes
}

func (p *Plan) age(m *manifest.Manifest) time.Duration { return p.now.Sub(time.UnixMilli(m.At)) }

// A Stamp changes if another plan may be made of an application.
type Stamp struct {
	Revision, Bodies int64
	keep             Keep
}

// A Collector has plans carried out, and remembers of which applications nothing is to be removed.
type Collector struct {
	mu   sync.Mutex
	done map[string]Stamp
}

// Collect calls a function for each application of which something may have to be removed.
func (c *Collector) Collect(apps map[string]Stamp, keep Keep,
	remove func(app string) (removed int, isFinal bool, err error)) (removed int, err error) {
	c.mu.Lock()
	defer c.mu.Unlock()
	done := map[string]Stamp{}
	defer func() { c.done = done }()
	for app, now := range apps {
		if now.keep = keep; c.done[app] == now {
			done[app] = now
			continue
		}
		n, isFinal, err := remove(app)
		removed += n
		if err != nil {
			return removed, fmt.Errorf("%s: %w", app, err)
		}
		if n == 0 && isFinal {
			done[app] = now
		}
	}
	return removed, nil
}
