// Package check decides whether what clients of an application did and saw is linearizable. Revisions order all changes, so it is if
// each change made its bundles from those of the revision before, each read has exactly the bundles of one revision, and the order of
// revisions doesn't contradict that of time.
package check

import (
	"fmt"
	"sort"
	"time"
)

// The outcomes of an operation.
const (
	Done    = "done"
	Refused = "refused"  // a condition didn't hold
	NotMade = "not made" // the gateway said, or the client knows, that nothing was done
	Unknown = "unknown"
)

// A State has the value of each locale of an application. Each value is written once, except by restorations.
type State map[string]string

// A Change is a revision in the history that the gateway stores: its values, "" where a bundle was removed.
type Change struct {
	Revision int64
	Puts     State
}

// An Op is what a client did and saw.
type Op struct {
	What, App, Gateway string
	Start, End         time.Duration
	Outcome            string
	Status             int
	Revision           int64 // of the reply, or -1
	// of a change
	Write           bool
	Puts            State
	If              string // the value that the only locale in Puts must have
	Absent, Present bool   // or that it must have none, or any
	// of a read
	After int64
	Least bool     // the revision of the reply is the least that it has
	Saw   State    // values that belong to one revision; "*" is any value, "" none
	Whole bool     // no other locale has a value
	Lines []string // locales and values in pairs that belong to revisions which don't go back
}

func (o *Op) String() string {
	return fmt.Sprintf("%s of %s at %s, %v to %v: %s %d, revision %d, puts %v, if %q %v, after %d, saw %v %v", o.What, o.App, o.Gateway,
		o.Start.Round(time.Microsecond), o.End.Round(time.Microsecond), o.Outcome, o.Status, o.Revision, o.Puts, o.If, o.Absent, o.After, o.Saw, o.Lines)
}

// A Fault is a promise that was broken.
type Fault struct{ Kind, Text string }

type checker struct {
	revisions []int64
	states    []State // of revisions; the first is that of revision 0, without bundles
	changes   map[int64]Change
	idle      map[*Op]bool // restorations that changed nothing
	faults    []Fault
	one       bool
	base      int64
}

// Check returns the faults of an application's operations. The history has all its changes; those up to the revision base were made by
// others. With one gateway each read must be linearizable.
func Check(ops []*Op, history []Change, base int64, oneGateway bool) []Fault {
	c := &checker{one: oneGateway, base: base, changes: map[int64]Change{}, idle: map[*Op]bool{},
		revisions: []int64{0}, states: []State{{}}}
	sort.Slice(history, func(i, j int) bool { return history[i].Revision < history[j].Revision })
	for _, change := range history {
		c.add(change)
	}
	c.findIdle(ops)
	c.claims(ops)
	c.counts(ops)
	windows := windowsOf(ops, c)
	for i, op := range ops {
		switch {
		case op.Outcome == Done && op.Write && !c.idle[op]:
			c.write(op, windows[i])
		case op.Outcome == Refused:
			c.refusal(op, windows[i])
		case op.Outcome == Done:
			c.read(op, windows[i]) // or a restoration that changed nothing
		}
	}
	return c.faults
}

func (c *checker) bad(kind, format string, args ...any) {
	c.faults = append(c.faults, Fault{kind, fmt.Sprintf(format, args...)})
}

// add applies a change to the last state.
func (c *checker) add(change Change) {
	last := len(c.revisions) - 1
	if change.Revision != c.revisions[last]+1 {
		c.bad("gap", "revision %d follows %d", change.Revision, c.revisions[last])
	}
	next := State{}
	for locale, value := range c.states[last] {
		next[locale] = value
	}
	for locale, value := range change.Puts {
		if value == "" {
			delete(next, locale)
		} else {
			next[locale] = value
		}
	}
	c.revisions, c.states = append(c.revisions, change.Revision), append(c.states, next)
	c.changes[change.Revision] = change
}

// index returns the place of a revision, or -1.
func (c *checker) index(revision int64) int {
	i := sort.Search(len(c.revisions), func(i int) bool { return c.revisions[i] >= revision })
	if i == len(c.revisions) || c.revisions[i] != revision {
		return -1
	}
	return i
}

// claims finds for each stored revision the operation that made it: one that was acknowledged with it, or one without an answer.
func (c *checker) claims(ops []*Op) {
	of, unknown := map[int64]*Op{}, map[*Op]bool{}
	for _, op := range ops {
		switch {
		case op.Write && op.Outcome == Unknown:
			unknown[op] = true
		case op.Write && op.Outcome == Done && c.idle[op]:
		case op.Write && op.Outcome == Done && of[op.Revision] != nil:
			c.bad("twice", "%v and %v have one revision", op, of[op.Revision])
		case op.Write && op.Outcome == Done:
			of[op.Revision] = op
		}
	}
	for _, revision := range c.revisions[1:] {
		if revision <= c.base || of[revision] != nil || c.unanswered(unknown, c.changes[revision]) {
			continue
		}
		c.bad("made", "nobody made revision %d: %v", revision, c.changes[revision].Puts)
	}
}

// findIdle finds the restorations that changed nothing, as their bundle was that already. They make no
// revision, and their replies have the newest one: it is of another operation that put the same if the
// revision had been seen before, or if that operation began earlier.
func (c *checker) findIdle(ops []*Op) {
	ends, next, seen := order(ops, func(o *Op) time.Duration { return o.End }), 0, int64(0)
	makers := map[int64]bool{}
	for _, at := range order(ops, func(o *Op) time.Duration { return o.Start }) {
		op := ops[at]
		for ; next < len(ends) && ops[ends[next]].End < op.Start; next++ {
			o := ops[ends[next]]
			if (o.Outcome == Done || o.Outcome == Refused) && o.Revision > seen {
				seen = o.Revision
			}
		}
		if i := c.index(op.Revision); op.Write && op.Outcome == Done && i > 0 {
			isNew := op.Revision > seen && !makers[op.Revision] &&
				same(op.Puts, c.changes[op.Revision].Puts, c.states[i-1])
			c.idle[op] = op.What == "restore" && !isNew && (&Op{Saw: op.Puts}).agrees(c.states[i])
			makers[op.Revision] = true
		}
	}
}

// unanswered takes an operation without an answer that can have made a change.
func (c *checker) unanswered(unknown map[*Op]bool, change Change) bool {
	before := c.states[c.index(change.Revision)-1]
	for op := range unknown {
		if same(op.Puts, change.Puts, before) {
			delete(unknown, op)
			return true
		}
	}
	return false
}

// same returns true if a change has what an operation puts. A removal of what is missing may be left out.
func same(puts, made, before State) bool {
	for locale, value := range puts {
		if got, there := made[locale]; (!there || got != value) && (value != "" || before[locale] != "" || there) {
			return false
		}
	}
	for locale := range made {
		if _, there := puts[locale]; !there {
			return false
		}
	}
	return true
}

// counts checks that no value came more often than operations put it.
func (c *checker) counts(ops []*Op) {
	may, were := map[string]int{}, map[string]int{}
	for _, op := range ops {
		if op.Write && (op.Outcome == Done || op.Outcome == Unknown) {
			for locale, value := range op.Puts {
				may[locale+" "+value]++
			}
		}
	}
	for _, change := range c.changes {
		for locale, value := range change.Puts {
			if key := locale + " " + value; value != "" && change.Revision > c.base {
				if were[key]++; were[key] > may[key] {
					c.bad("made", "%s was made %d times, and at most %d times by a client", key, were[key], may[key])
				}
			}
		}
	}
}

// A window has the first and the last revision that an operation can belong to.
type window struct{ acked, committed, seen, last int64 }

// windowsOf returns the windows of operations: what was acknowledged before an operation began is older, what began after its end is
// newer. committed is what any gateway had shown before, seen what the operation's gateway had.
func windowsOf(ops []*Op, c *checker) []window {
	all := make([]window, len(ops))
	starts, ends := order(ops, func(o *Op) time.Duration { return o.Start }), order(ops, func(o *Op) time.Duration { return o.End })
	acked, committed, at, next := int64(0), int64(0), map[string]int64{}, 0
	for _, i := range starts {
		for ; next < len(ends) && ops[ends[next]].End < ops[i].Start; next++ {
			o := ops[ends[next]]
			if o.Outcome != Done && o.Outcome != Refused {
				continue
			}
			if o.Revision > acked && (o.Write || o.After > 0 || c.one) {
				acked = o.Revision
			}
			if o.Revision > committed {
				committed = o.Revision
			}
			if o.Outcome == Done && o.Revision > at[o.Gateway] {
				at[o.Gateway] = o.Revision
			}
		}
		all[i] = window{acked: acked, committed: committed, seen: at[ops[i].Gateway]}
	}
	last, later := c.revisions[len(c.revisions)-1], len(starts)-1
	for k := len(ends) - 1; k >= 0; k-- {
		for ; later >= 0 && ops[starts[later]].Start > ops[ends[k]].End; later-- {
			if o := ops[starts[later]]; o.Write && o.Outcome == Done && o.Revision-1 < last && !c.idle[o] {
				last = o.Revision - 1
			}
		}
		all[ends[k]].last = last
	}
	return all
}

// order returns the places of operations in the order of a time.
func order(ops []*Op, at func(*Op) time.Duration) []int {
	all := make([]int, len(ops))
	for i := range all {
		all[i] = i
	}
	sort.Slice(all, func(i, j int) bool { return at(ops[all[i]]) < at(ops[all[j]]) })
	return all
}

func (c *checker) write(op *Op, w window) {
	i := c.index(op.Revision)
	if i < 1 {
		c.bad("lost", "%v isn't stored", op)
		return
	}
	before := c.states[i-1]
	if !same(op.Puts, c.changes[op.Revision].Puts, before) {
		c.bad("lost", "%v, and stored is %v", op, c.changes[op.Revision].Puts)
	}
	for locale := range op.Puts {
		if !op.holds(before[locale]) {
			c.bad("condition", "%v was made over %q", op, before[locale])
		}
	}
	switch {
	case op.Revision <= w.committed:
		c.bad("order", "%v began after revision %d", op, w.committed)
	case op.Revision > w.last:
		c.bad("order", "%v ended before revision %d began", op, w.last+1)
	}
}

// holds returns true if a change's condition holds for the value that its locale has.
func (o *Op) holds(value string) bool {
	return (o.If == "" || o.If == value) && !(o.Absent && value != "") && !(o.Present && value == "")
}

func (c *checker) refusal(op *Op, w window) {
	fails := func(i int) bool {
		for locale := range op.Puts {
			if !op.holds(c.states[i][locale]) {
				return true
			}
		}
		return false
	}
	if op.Revision >= 0 {
		i := c.index(op.Revision)
		switch {
		case i < 0:
			c.bad("phantom", "%v has a revision that isn't stored", op)
		case !fails(i):
			c.bad("refusal", "%v had no reason in %v", op, c.states[i])
		case op.Revision < w.acked:
			c.bad("stale", "%v was judged before revision %d", op, w.acked)
		}
		return
	}
	for i, revision := range c.revisions {
		if revision >= w.acked && revision <= w.last && fails(i) {
			return
		}
	}
	c.bad("refusal", "%v had no reason in revisions %d to %d", op, w.acked, w.last)
}

func (c *checker) read(op *Op, w window) {
	least := op.After
	if c.one && w.acked > least {
		least = w.acked
	}
	if w.seen > least {
		least = w.seen
	}
	if op.Revision >= 0 {
		i := c.index(op.Revision)
		switch {
		case i < 0:
			c.bad("phantom", "%v has a revision that isn't stored", op)
		case op.Revision < op.After || c.one && op.Revision < w.acked:
			c.bad("stale", "%v began after revision %d", op, w.acked)
		case op.Revision < w.seen:
			c.bad("back", "%v: the gateway had revision %d", op, w.seen)
		case op.Revision > w.last:
			c.bad("order", "%v ended before revision %d began", op, w.last+1)
		case !op.Least && !op.agrees(c.states[i]), op.Least && !c.agrees(op, op.Revision, w.last):
			c.bad("mixed", "%v, and revision %d has %v", op, op.Revision, c.states[i])
		}
		c.lines(op, op.Revision, w.last)
		return
	}
	if !c.agrees(op, least, w.last) {
		c.bad("mixed", "%v is of no revision from %d to %d", op, least, w.last)
	}
	c.lines(op, least, w.last)
}

// agrees returns true if a read saw what one of some revisions has.
func (c *checker) agrees(op *Op, least, last int64) bool {
	at := sort.Search(len(c.revisions), func(i int) bool { return c.revisions[i] >= least })
	for ; at < len(c.revisions) && c.revisions[at] <= last; at++ {
		if op.agrees(c.states[at]) {
			return true
		}
	}
	return false
}

// agrees returns true if a read saw what a state has.
func (o *Op) agrees(s State) bool {
	for locale, value := range o.Saw {
		if has := s[locale]; has != value && !(value == "*" && has != "") {
			return false
		}
	}
	for locale := range s {
		if _, there := o.Saw[locale]; o.Whole && !there {
			return false
		}
	}
	return true
}

// lines checks a reply to many lookups: each line is of a revision that isn't before that of the line above.
func (c *checker) lines(op *Op, least, last int64) {
	at := sort.Search(len(c.revisions), func(i int) bool { return c.revisions[i] >= least })
	for i := 0; i < len(op.Lines); i += 2 {
		for ; at < len(c.revisions) && c.states[at][op.Lines[i]] != op.Lines[i+1]; at++ {
		}
		if at == len(c.revisions) || c.revisions[at] > last {
			c.bad("mixed", "%v: line %d is of no revision up to %d", op, i/2, last)
			return
		}
	}
}
