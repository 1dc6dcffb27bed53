package trial

import (
	"encoding/json"
	"fmt"
	"net/http"
	"sort"
	"time"

	"luvdregan.example/resb/deploy/tests/check"
	"luvdregan.example/resb/deploy/tests/harness"
)

// An entry is a change in the history that a gateway returns.
type entry struct {
	ID       json.Number
	Revision int64
	Locale   string
	Op       string
	SHA256   string
}

// A collector reads the histories of applications while they grow, since a gateway returns the last 1,000 changes only.
type collector struct {
	*book
	client  *http.Client
	entries map[string]map[string]entry // by application and ID
	values  map[string]string           // of versions, by application and ID
	faults  []string
}

func newCollector(b *book) *collector {
	return &collector{book: b, client: &http.Client{Timeout: 30 * time.Second}, entries: map[string]map[string]entry{}, values: map[string]string{}}
}

// read reads the changes that came since the last time, all of them or none, since the next time begins where this one ended. What it read before must
// not have changed.
func (c *collector) read(url, app string) error {
	known := c.entries[app]
	if known == nil {
		known = map[string]entry{}
		c.entries[app] = known
	}
	first, read := len(known) == 0, map[string]entry{}
	for before, last := "", 200; ; {
		address := fmt.Sprintf("%s/v1/%s/_history?last=%d", url, app, last)
		if before != "" {
			address += "&before=" + before
		}
		got, err := harness.Send(c.client, "GET", address, harness.AppsWrite, "")
		if err != nil {
			return err
		}
		var reply struct{ History []entry }
		if err := json.Unmarshal([]byte(got.Body), &reply); err != nil || got.Status != 200 {
			return fmt.Errorf("%s: %d %.200s", address, got.Status, got.Body)
		}
		found := false
		for _, e := range reply.History {
			was, there := known[e.ID.String()]
			if there && was != e {
				c.faults = append(c.faults, fmt.Sprintf("the history of %s had %+v and has %+v", app, was, e))
			}
			found = found || there
			if !there {
				if err := c.value(url, app, e); err != nil {
					return err // it is read again
				}
				read[e.ID.String()] = e
			}
			before = e.ID.String()
		}
		if found || len(reply.History) < last || first && len(reply.History) == 0 {
			for id, e := range read {
				known[id] = e
			}
			return nil
		}
	}
}

// value finds the value of a version, by its digest or by its text.
func (c *collector) value(url, app string, e entry) error {
	if e.Op == "remove" || e.SHA256 == "" {
		return nil
	}
	c.Lock()
	value, there := c.book.values[e.SHA256]
	c.Unlock()
	if !there {
		got, err := harness.Send(c.client, "GET", fmt.Sprintf("%s/v1/%s/_history/%s.txt", url, app, e.ID), harness.AppsWrite, "")
		if err != nil || got.Status != 200 {
			return fmt.Errorf("version %s of %s: %v %d %s", e.ID, app, err, got.Status, got.Body)
		}
		value = valueOfText(got.Body)
	}
	c.values[app+" "+e.ID.String()] = value
	c.Lock()
	defer c.Unlock()
	c.book.values[e.SHA256] = value
	c.ids[app+" "+e.ID.String()] = version{e.ID.String(), e.Locale, value}
	return nil
}

// changes returns the history of an application in its order.
func (c *collector) changes(app string) (all []check.Change) {
	of := map[int64]check.State{}
	for id, e := range c.entries[app] {
		if of[e.Revision] == nil {
			of[e.Revision] = check.State{}
		}
		of[e.Revision][e.Locale] = c.values[app+" "+id]
	}
	for revision, puts := range of {
		all = append(all, check.Change{Revision: revision, Puts: puts})
	}
	sort.Slice(all, func(i, j int) bool { return all[i].Revision < all[j].Revision })
	return all
}
