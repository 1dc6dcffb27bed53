package check

import (
	"testing"
	"time"
)

// TestARestorationThatChangesNothing has a bundle restored that is the newest, before and after its
// change was seen; and one that is acknowledged and not made.
func TestARestorationThatChangesNothing(t *testing.T) {
	history := []Change{{1, State{"de": "A"}}, {2, State{"de": "B"}}}
	op := func(what, value string, start, end int, revision int64) *Op {
		one := &Op{What: what, Outcome: Done, Revision: revision, Write: true, Puts: State{"de": value}}
		one.Start, one.End = time.Duration(start), time.Duration(end)
		return one
	}
	first, second := op("PUT", "A", 0, 1, 1), op("PUT", "B", 2, 4, 2)
	for _, c := range []struct {
		last *Op
		isOK bool
	}{{op("restore", "B", 6, 7, 2), true}, {op("restore", "B", 3, 5, 2), true},
		{op("restore", "A", 6, 7, 2), false}, {op("PUT", "B", 6, 7, 2), false}} {
		faults := Check([]*Op{first, second, c.last}, history, 0, true)
		if (len(faults) == 0) != c.isOK {
			t.Errorf("%v: %v", c.last, faults)
		}
	}
}
