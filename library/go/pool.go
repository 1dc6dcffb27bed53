package resb

import (
	"sync"
	"sync/atomic"
)

// A Pool has several handles of one engine, so that as many goroutines look up at once. A change waits until no lookup runs.
type Pool struct {
	slots []slot
	next  uint32 // where the next lookup searches first
}

// A slot has a handle, which is locked while it is used.
type slot struct {
	sync.Mutex
	*Bundles
	_ [48]byte // so that two slots don't share a cache line
}

// OpenPool returns a pool of a number of handles, which is at least 1.
func OpenPool(options Options, handles int) (*Pool, error) {
	first, err := OpenWith(options)
	if err != nil {
		return nil, err
	}
	p := &Pool{slots: make([]slot, handles)}
	p.slots[0].Bundles = first
	p.share()
	return p, nil
}

// share makes the other handles of the first one's engine. Without memory for one, lookups in its slot use the first, until the next change.
func (p *Pool) share() {
	first := p.slots[0].Bundles
	for i := range p.slots[1:] {
		other, err := first.Share()
		if err != nil {
			other = first
		}
		p.slots[i+1].Bundles = other
	}
}

// take returns a slot that nobody uses, locked, or waits for one.
func (p *Pool) take() *slot {
	start := int(atomic.AddUint32(&p.next, 1) % uint32(len(p.slots)))
	for i := range p.slots {
		if s := &p.slots[(start+i)%len(p.slots)]; s.TryLock() {
			return s
		}
	}
	s := &p.slots[start]
	s.Lock()
	return s
}

// Look runs a function with Bundles for lookups, which nobody else uses meanwhile.
func (p *Pool) Look(do func(*Bundles)) {
	s := p.take()
	defer s.Unlock()
	do(s.Bundles)
}

// Change runs a function with the only Bundles of the engine, for changes. It waits for the lookups that run, and the next ones wait for it.
func (p *Pool) Change(do func(*Bundles) error) error {
	for i := range p.slots {
		p.slots[i].Lock()
		defer p.slots[i].Unlock()
	}
	first := p.slots[0].Bundles
	for i := range p.slots[1:] {
		if other := p.slots[i+1].Bundles; other != first {
			other.Close()
		}
	}
	defer p.share()
	return do(first)
}
