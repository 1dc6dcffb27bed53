// Package engine has the bundles of all applications in the process, over the library's binding for Go. Short lookups continue while a change
// waits for long ones; it stops them for microseconds.
package engine

import (
	"errors"
	"fmt"
	"hash/maphash"
	"os"
	"runtime"
	"sort"
	"sync"
	"time"

	"luvdregan.example/resb/deploy/internal/manifest"
	resb "luvdregan.example/resb/library/go"
)

// The kinds of bodies.
const (
	Text = "text"
	File = "file"
)

// Options are what an engine begins with.
type Options struct {
	ICUData    []Source // bundles that all applications see
	Parents    []byte   // a bundle text with explicit parents (docs/LOOKUP.md), or nothing
	Steps      uint64   // the most of a lookup
	TreeSteps  uint64   // the most of a tree
	ReplyBytes int64    // the most of a reply
}

// A Source is a bundle of ICUDATA.
type Source struct {
	Locale string
	Body   []byte
	IsText bool
}

// An Engine has the bundles of all applications.
type Engine struct {
	options Options
	seed    maphash.Seed
	shards  []*shard
}

// A shard has the bundles of the applications whose names have one of some hashes. A long change or a tree holds up changes of its shard alone.
type shard struct {
	pool *resb.Pool
	long sync.RWMutex // read by trees and long items, so that a change waits for them while short lookups continue
}

// The number of shards, which is less if all together would have more than some bytes of ICUDATA.
const (
	mostShards = 32
	mostShared = 128 << 20
)

// shardsOf returns how many shards there are, each with these bundles of ICUDATA.
func shardsOf(icuData []Source) int {
	bytes := 0
	for _, s := range icuData {
		bytes += len(s.Body)
	}
	switch n := mostShared / (bytes + 1); {
	case n > mostShards:
		return mostShards
	case n < 2:
		return 2
	default:
		return n
	}
}

// Works returns how much long work may run at once: some processors are left for lookups.
func Works() int {
	if n := runtime.GOMAXPROCS(0) / 2; n > 2 {
		return n
	}
	return 2 // so that one doesn't hold up all others
}

// Open returns an engine with the bundles of ICUDATA alone.
func Open(o Options) (*Engine, error) {
	entries := make([]resb.Entry, len(o.ICUData))
	for i, s := range o.ICUData {
		entries[i] = resb.Entry{Locale: s.Locale, Bundle: s.Body, IsText: s.IsText}
	}
	e := &Engine{options: o, seed: maphash.MakeSeed(), shards: make([]*shard, shardsOf(o.ICUData))}
	for i := range e.shards {
		pool, err := resb.OpenPool(resb.Options{ICUData: entries, Parents: o.Parents}, Works()+2*runtime.GOMAXPROCS(0))
		var fault *resb.Error
		switch {
		case errors.As(err, &fault) && fault.Locale != "":
			return nil, fmt.Errorf("bundle %s of ICUDATA: %s", fault.Locale, fault.Code)
		case errors.As(err, &fault):
			return nil, fmt.Errorf("parents: line %d: %s", fault.Line, fault.Code)
		case err != nil:
			return nil, err
		}
		e.shards[i] = &shard{pool: pool}
	}
	return e, nil
}

// of returns the shard of an application. Nobody can choose names that share one.
func (e *Engine) of(app string) *shard {
	return e.shards[maphash.String(e.seed, app)%uint64(len(e.shards))]
}

// longItem is the most bytes of a reply that is made beside lookups, for which a change waits.
const longItem = 64 << 10

// Item appends what `resb serve` replies to a lookup (docs/SERVER.md), without its line feed, or returns the code of a refusal. If the reply has
// more than some bytes it only returns about how many, or how many at least.
func (e *Engine) Item(dst []byte, app, locale, path string, most int) (reply []byte, needs int, code string) {
	its, limit := e.of(app), int(e.options.ReplyBytes)
	if most > longItem {
		its.long.RLock()
		defer its.long.RUnlock()
	} else if limit > longItem {
		limit = longItem // to count more would take long
	}
	var err error
	its.pool.Look(func(b *resb.Bundles) {
		reply, needs, err = b.AppendItemWithin(dst, app, locale, path, e.options.Steps, most, limit)
	})
	if int64(needs) > e.options.ReplyBytes {
		return dst, 0, "ReplyTooLong"
	}
	return reply, needs, codeOf(err)
}

// Tree returns an item with everything that it inherits as one value of JSON, or the code of a refusal.
func (e *Engine) Tree(app, locale, path string) (tree []byte, code string) {
	its := e.of(app)
	its.long.RLock()
	defer its.long.RUnlock()
	var err error
	its.pool.Look(func(b *resb.Bundles) { tree, err = b.TreeJSON(app, locale, path, e.options.TreeSteps) })
	return tree, codeOf(err)
}

// Valid returns the first bundle on the trail of a locale, or "" if there is none.
func (e *Engine) Valid(app, locale string) (valid string) {
	e.of(app).pool.Look(func(b *resb.Bundles) { valid, _ = b.Valid(app, locale) })
	return valid
}

// codeOf returns the code of an error of the library, or "".
func codeOf(err error) string {
	if err == nil {
		return ""
	}
	var of *resb.Error
	errors.As(err, &of) // as each error of a lookup is
	return of.Code.Error()
}

// An Edit puts a prepared bundle, or removes the one that is there.
type Edit struct {
	Locale string
	Bundle *Bundle // or nil
}

// mostEdits is how many edits the library makes in one release.
const mostEdits = 4096

// Release makes all edits of an application at once, which takes the bundles out of them. Before any lookup finds the new state it calls a
// function. The edits are known to be possible; only memory may run out, and then the process ends, as its state is lost.
func (e *Engine) Release(app string, edits []Edit, done func()) {
	all := make([]resb.Edit, len(edits))
	for i, edit := range edits {
		if all[i].Locale = edit.Locale; edit.Bundle != nil {
			all[i].Bundle = edit.Bundle.Bundle
		}
	}
	// removals first, so that there is always room for what is put
	sort.SliceStable(all, func(i, j int) bool { return all[i].Bundle == nil && all[j].Bundle != nil })
	its := e.of(app)
	its.long.Lock()
	defer its.long.Unlock()
	err := its.pool.Change(func(b *resb.Bundles) error {
		for len(all) > mostEdits { // nobody looks up in the shard meanwhile
			if err := b.Release(app, all[:mostEdits]); err != nil {
				return err
			}
			all = all[mostEdits:]
		}
		err := b.Release(app, all)
		if err == nil {
			done()
		}
		return err
	})
	if err != nil {
		time.AfterFunc(time.Second, func() { os.Exit(1) })                        // if nobody reads what follows
		fmt.Fprintf(os.Stderr, "gateway: engine: a change of %s: %v\n", app, err) // the log waits in a queue
		os.Exit(1)
	}
}

// A Fault is the first error of a text, a file or a text of JSON.
type Fault struct {
	Code string // which `resb explain` knows
	Line uint64 // of a text, or 0
}

func (f *Fault) Error() string { return f.Code }

// FaultOf returns the fault of an error of the library, or the error if memory ran out.
func FaultOf(err error) error {
	var of *resb.Error
	if !errors.As(err, &of) || of.Code == resb.ErrMemory {
		return err
	}
	return &Fault{of.Code.Short(), of.Line}
}

// A Bundle was read and checked. Discard frees it, unless a change has taken it.
type Bundle struct {
	*resb.Bundle
	compiled int64
	isText   bool
	file     []byte // of Stored
	digest   manifest.Digest
}

// Prepare reads and checks a body. The error is a *Fault, except if memory runs out.
func Prepare(kind string, body []byte) (*Bundle, error) {
	prepared, err := resb.Prepare(body, kind == Text)
	if err != nil {
		return nil, FaultOf(err)
	}
	b := &Bundle{Bundle: prepared, compiled: int64(len(body)), isText: kind == Text}
	if b.isText {
		length, err := prepared.FileLen()
		b.compiled = int64(length)
		return b, err
	}
	return b, nil
}

// Discard frees the bundle, if there is one.
func (b *Bundle) Discard() {
	if b != nil {
		b.Bundle.Discard()
	}
}

// Compiled returns how long the compiled file is.
func (b *Bundle) Compiled() int64 { return b.compiled }

// leastStored is how long a compiled text is that is stored too. Compiling a shorter text takes no longer than reading a second body.
const leastStored = 4 << 10

// Stored returns the compiled file and its digest if it is worth being stored beside the text: checking it takes a fraction of the time.
func (b *Bundle) Stored() ([]byte, manifest.Digest) {
	if b == nil || !b.isText || b.compiled < leastStored {
		return nil, ""
	}
	if b.file == nil {
		if file, err := b.File(); err == nil {
			b.file, b.digest = file, manifest.DigestOf(file)
		}
	}
	return b.file, b.digest
}
