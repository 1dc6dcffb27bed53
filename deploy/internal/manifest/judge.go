package manifest

import "fmt"

// Limits are those of an application. 0 is no limit.
type Limits struct {
	Bundles  int
	Bytes    int64 // of the submitted bodies together
	Compiled int64 // of the compiled files together
}

// An Edit puts a bundle, or removes it if Body is nil. Digest, Compiled and File are the body's.
type Edit struct {
	Locale       string
	Body         []byte
	Kind         string
	Digest       Digest
	Compiled     int64
	File         Digest
	MustBeAbsent bool
	If           func(now *Bundle) bool // judges the bundle that is there, or nil; if it is nil itself the edit has no condition
}

// A Change is what a caller asks for. Its edits are all made or none.
type Change struct {
	App, Who, Op, ID string
	At               int64
	Edits            []Edit
	Default          *string // the application's default locale, or nil if that stays
	Erase            bool
	Until            int64 // when an erasure is final, or 0 for at once
	IsUndo           bool  // of the erasure that removed these
	Erased           []Bundle
	Tokens           func(now []string) (next []string, refusal string) // changes the tokens; or nil
}

// A Refusal says why a change can't be made. Locale is that of the edit at fault, or "".
type Refusal struct{ Code, Locale string }

func (r *Refusal) Error() string { return fmt.Sprintf("%s %s", r.Code, r.Locale) }

// The codes of refusals.
const (
	Exists    = "Exists"
	Absent    = "Absent"
	Full      = "Full"
	OverQuota = "OverQuota"
	Unmet     = "PreconditionFailed"
)

// Judge makes the next manifest from the present one, or refuses. It returns the present one itself if the change changes nothing.
func Judge(now *Manifest, c *Change, l Limits) (*Manifest, *Refusal) {
	next := &Manifest{App: c.App, Revision: now.Revision + 1, ID: c.ID, Before: now.ID, Op: c.Op, Who: c.Who, At: c.At, index: &index{}}
	next.Tokens = now.Tokens
	if c.Erase {
		next.erase(now, c.Until)
		return next, nil
	}
	next.Orders, next.Bytes, next.Compiled, next.Default = now.Orders, now.Bytes, now.Compiled, now.Default
	if c.Default != nil {
		next.Default = *c.Default
	}
	if now.Erasure != nil && c.At < now.Erasure.Until+forgotten {
		next.Erasure = now.Erasure
	}
	d := newDraft(now, next, c.Edits)
	for i := range c.Edits {
		if code := d.make(&c.Edits[i], c, l); code != "" {
			return nil, &Refusal{code, c.Edits[i].Locale}
		}
	}
	code := ""
	switch {
	case c.IsUndo:
		next.Erasure = nil
		code = d.bring(now, c.Erased, l)
	case c.Tokens != nil:
		next.Tokens, code = c.Tokens(now.Tokens)
	case len(next.Made) == 0 && next.Default == now.Default:
		return now, nil
	}
	if code != "" {
		return nil, &Refusal{code, ""}
	}
	d.close()
	// A change that shrinks an application over a narrowed limit is never refused.
	if exceeds(next.Bytes, now.Bytes, l.Bytes) || exceeds(next.Compiled, now.Compiled, l.Compiled) {
		return nil, &Refusal{OverQuota, ""}
	}
	next.seal(now)
	return next, nil
}

func exceeds(sum, before, limit int64) bool { return limit > 0 && sum > limit && sum > before }

// A draft is a manifest while edits are made in it. A removed bundle stays in its place with no locale until the draft is closed.
type draft struct {
	*Manifest
	bundles int            // how many there are
	place   map[string]int // of a bundle that an edit is about, or -1
}

func newDraft(now, next *Manifest, edits []Edit) *draft {
	d := &draft{next, len(now.Bundles), make(map[string]int, len(edits))}
	for i := range edits {
		d.place[edits[i].Locale] = -1
	}
	next.Bundles = append(make([]Bundle, 0, len(now.Bundles)+len(edits)), now.Bundles...)
	for i := range next.Bundles {
		if _, edited := d.place[next.Bundles[i].Locale]; edited {
			d.place[next.Bundles[i].Locale] = i
		}
	}
	return d
}

// make makes an edit, or returns why it can't.
func (d *draft) make(e *Edit, c *Change, l Limits) string {
	at := d.place[e.Locale]
	there := at >= 0
	var old *Bundle
	if there {
		old = &d.Bundles[at]
	}
	if e.If != nil && !e.If(old) {
		return Unmet
	}
	b := Bundle{e.Locale, e.Digest, e.Kind, int64(len(e.Body)), e.Compiled, e.File, c.At, c.Who, 0}
	made := Made{Install, e.Locale, e.Digest, e.Kind, b.Bytes, b.Compiled, old.version()}
	switch {
	case e.MustBeAbsent && there:
		return Exists
	case e.Body == nil && !there:
		return Absent
	case e.Body == nil:
		d.count(old, -1)
		old.Locale = ""
		d.place[e.Locale] = -1
		made = Made{Op: Remove, Locale: e.Locale, Was: made.Was}
	case !there && l.Bundles > 0 && d.bundles >= l.Bundles:
		return Full
	case !there:
		d.Orders++
		b.Order = d.Orders
		d.count(&b, 1)
		d.place[e.Locale] = len(d.Bundles)
		d.Bundles = append(d.Bundles, b)
	case old.Digest == e.Digest && old.Kind == e.Kind:
		return ""
	default:
		b.Order = old.Order
		d.count(old, -1)
		d.count(&b, 1)
		*old = b
		made.Op = Replace
	}
	d.Made = append(d.Made, made)
	return ""
}

// bring adds bundles whose locales have none, or returns why it can't.
func (d *draft) bring(now *Manifest, bundles []Bundle, l Limits) string {
	for _, b := range bundles {
		if now.Find(b.Locale) != nil {
			continue
		}
		if l.Bundles > 0 && d.bundles >= l.Bundles {
			return Full
		}
		d.Orders++
		b.Order = d.Orders
		d.count(&b, 1)
		d.Bundles = append(d.Bundles, b)
		d.Made = append(d.Made, Made{Install, b.Locale, b.Digest, b.Kind, b.Bytes, b.Compiled, nil})
	}
	return ""
}

// version returns what a bundle is, as Made has it, or nil if there is none.
func (b *Bundle) version() *Made {
	if b == nil {
		return nil
	}
	return &Made{Digest: b.Digest, Kind: b.Kind, Bytes: b.Bytes, Compiled: b.Compiled}
}

// count adds a bundle to the sums, or takes it off.
func (d *draft) count(b *Bundle, sign int64) {
	d.bundles += int(sign)
	d.Bytes += sign * b.Bytes
	d.Compiled += sign * b.Compiled
}

// close takes out the bundles that were removed.
func (d *draft) close() {
	kept := d.Bundles[:0]
	for _, b := range d.Bundles {
		if b.Locale != "" {
			kept = append(kept, b)
		}
	}
	d.Bundles = kept
}
