package convert

import (
	"bytes"
	"context"
	"encoding/json"
	"strings"
)

// A Difference is an item that only one of two trees has, or that has other values in them. Path is as in lookups. Old or New is
// missing if the tree has no such item. Items with items in them differ if these do.
type Difference struct {
	New  json.RawMessage `json:"new,omitempty"`
	Old  json.RawMessage `json:"old,omitempty"`
	Path string          `json:"path"`
}

// A differ collects what differs.
type differ struct {
	ctx   context.Context
	left  int // bytes of the result
	found []Difference
}

// Differences compares two trees of compact JSON. An empty tree is that of no bundle. The error is ErrOutput if the result has over this many
// bytes.
func Differences(ctx context.Context, old, new json.RawMessage, most int) ([]Difference, error) {
	d := &differ{ctx: ctx, left: most, found: []Difference{}}
	err := d.compare(nil, bytes.TrimSpace(old), bytes.TrimSpace(new))
	return d.found, err
}

// compare compares the items at a path, of which an empty one is missing.
func (d *differ) compare(path []string, old, new json.RawMessage) error {
	a, inA := itemsIn(old)
	b, inB := itemsIn(new)
	switch {
	case bytes.Equal(old, new):
		return nil
	case d.ctx.Err() != nil:
		return ErrTime
	case len(old) > 0 && len(new) > 0 && a != b:
		if err := d.compare(path, old, nil); err != nil {
			return err
		}
		return d.compare(path, nil, new)
	case !inA && !inB:
		return d.add(path, old, new)
	}
	return pairs(membersOf(old), membersOf(new), func(one, other member) error {
		name := one.name
		if one.value == nil {
			name = other.name
		}
		return d.compare(append(path, strings.TrimPrefix(string(name), ":")), one.value, other.value) // as the bundle has it
	})
}

// itemsIn returns the brace that begins an item, or 0 for one that has no items, and whether there are items in it.
func itemsIn(value []byte) (brace byte, are bool) {
	first := membersOf(value)()
	if len(value) == 0 || value[0] != '{' && value[0] != '[' || isSpecial(string(first.name)) {
		return 0, false
	}
	return value[0], first.value != nil
}

func (d *differ) add(path []string, old, new json.RawMessage) error {
	one := Difference{Old: old, New: new, Path: strings.Join(path, "/")}
	if d.left -= len(old) + len(new) + len(one.Path) + 16; d.left < 0 {
		return ErrOutput
	}
	d.found = append(d.found, one)
	return nil
}

// isSpecial returns true for the only name in an object that is no table (docs/JSON.md).
func isSpecial(key string) bool { return strings.HasPrefix(key, ":") && !strings.HasPrefix(key, "::") }

// Marshal returns a value as JSON without escapes that only HTML needs.
func Marshal(value any) json.RawMessage {
	var out bytes.Buffer
	to := json.NewEncoder(&out)
	to.SetEscapeHTML(false)
	if err := to.Encode(value); err != nil {
		panic(err) // the values have only texts, numbers and JSON
	}
	return bytes.TrimSuffix(out.Bytes(), []byte("\n"))
}
