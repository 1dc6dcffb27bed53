package convert

import (
	"bytes"
	"errors"
	"strconv"
	"strings"

	resb "luvdregan.example/resb/library/go"
)

// errAnew is the error of trees of which no text is changed into the other's.
var errAnew = errors.New("more differs than strings, numbers and new items")

// textAfter returns a text of a patched bundle, whose trees before and after are given: the text before it with other values and new items if that
// compiles to the same file, or else a new one.
func textAfter(locale string, text, old, new []byte, after *resb.Bundle) ([]byte, error) {
	file, err := after.File()
	if err != nil {
		return nil, err
	}
	if made, err := rewritten(text, old, new); err == nil {
		if its, err := resb.Compile(made); err == nil && bytes.Equal(its, file) {
			return made, nil
		}
	}
	anew, err := after.Text(locale)
	return []byte(anew), err
}

// A change is what differs in an item between two trees: its value, or items in it. Its memory is that of the patch's value (CheckPatch).
type change struct {
	value  []byte             // as JSON, or nil
	inside map[string]*change // by key or index
	added  []member           // that only the second tree has
}

// changeBetween returns what differs between two trees of compact JSON.
func changeBetween(old, new []byte) (*change, error) {
	brace, _ := itemsIn(old)
	other, _ := itemsIn(new)
	switch {
	case brace != other || brace == 0 && (old[0] == '{' || new[0] == '{'):
		return nil, errAnew
	case brace == 0:
		return &change{value: new}, nil
	}
	c := &change{inside: map[string]*change{}}
	return c, pairs(membersOf(old), membersOf(new), func(one, other member) (err error) {
		switch {
		case bytes.Equal(one.value, other.value):
		case other.value == nil:
			return errAnew
		case one.value == nil:
			c.added = append(c.added, other)
		default:
			c.inside[strings.TrimPrefix(string(one.name), ":")], err = changeBetween(one.value, other.value)
		}
		return err
	})
}

// A rewriter changes items of a text (docs/LANGUAGE.md), and leaves its other bytes as they are. It reads no more than it needs to find most items:
// whether the right text was made is for its caller to see.
type rewriter struct {
	text, made []byte
	done       int // bytes of the text that are in made
	root       *change
	open       []body // those around the current token
	from, to   int    // the pieces before the current token; from is -1 without any
	indent     []byte // before these pieces, or nil if they don't begin a line
	line       int    // where the line begins, or -1 after what isn't white space
	isType     bool   // after a colon
}

// A body is what is in braces.
type body struct {
	of     *change // or nil
	count  int     // items of an array
	last   int     // where the last one ends
	indent []byte  // of the last entry that begins a line, or nil
}

// item returns the change of the next item, which has a key, or is one of an array.
func (b *body) item(key []byte) *change {
	if b.of == nil {
		return nil
	}
	name := strings.Trim(string(key), `"`)
	if name == "" {
		name = strconv.Itoa(b.count)
		b.count++
	}
	return b.of.inside[name]
}

// rewritten returns a text with what differs between two trees.
func rewritten(text, old, new []byte) ([]byte, error) {
	root, err := changeBetween(old, new)
	r := &rewriter{text: text, root: root, from: -1}
	for at, end := 0, 0; at < len(text) && err == nil; at = end {
		end = tokenEnd(text, at)
		err = r.take(at, end)
	}
	r.put(len(text), len(text))
	return r.made, err
}

// tokenEnd returns where a token ends: a quoted piece, a comment, a sign, or a character of white space or of an unquoted piece.
func tokenEnd(text []byte, at int) int {
	n, rest := 1, text[at:]
	switch {
	case rest[0] == '"':
		n += lastOf(rest)
	case rest[0] == '\\':
		n = 2
	case bytes.HasPrefix(rest, []byte("//")):
		n = bytes.IndexAny(rest, "\n\r\u2029")
	case bytes.HasPrefix(rest, []byte("/*")):
		n = 4 + bytes.Index(rest[2:], []byte("*/"))
	}
	if n < 1 || n > len(rest) {
		n = len(rest)
	}
	return at + n
}

// put writes some texts in place of a part of the text.
func (r *rewriter) put(from, to int, texts ...string) {
	r.made = append(append(r.made, r.text[r.done:from]...), strings.Join(texts, "")...)
	r.done = to
}

// take takes a token.
func (r *rewriter) take(at, end int) (err error) {
	line := r.line
	r.line = -1
	switch kind := r.text[at]; {
	case kind == '\n':
		r.line = end
	case strings.IndexByte(blank, kind) >= 0:
		r.line = line
	case kind == '/' && end > at+1: // a comment
	case kind == ':':
		r.isType = true
	case kind == '{':
		r.begin(end)
	case (kind == ',' || kind == '}') && len(r.open) > 0:
		err = r.end(kind == '}', at, end, line)
	case !r.isType && r.from < 0:
		r.from, r.to, r.indent = at, end, nil
		if line >= 0 {
			r.indent = r.text[line:at]
		}
	case !r.isType:
		r.to = end
	}
	return err
}

// begin takes the brace before a value, or before items.
func (r *rewriter) begin(end int) {
	of, key := r.root, []byte(nil)
	if r.from >= 0 {
		key = r.text[r.from:r.to]
	}
	if n := len(r.open); n > 0 {
		in := &r.open[n-1]
		of = in.item(key)
		if key != nil && r.indent != nil {
			in.indent = r.indent
		}
	}
	r.open = append(r.open, body{of: of, last: end})
	r.from, r.isType = -1, false
}

// end takes what ends an item: a comma, or the brace behind a value or items.
func (r *rewriter) end(isBrace bool, at, end, line int) (err error) {
	in, n, hasText := &r.open[len(r.open)-1], len(r.open)-1, r.from >= 0
	of := in.of
	if of != nil && of.value == nil && hasText {
		of = in.item(nil)
	}
	if !hasText {
		r.from, r.to = at, at // as in a{}
	}
	if of != nil && of.value != nil {
		r.put(r.from, r.to, string(of.value))
	}
	if isBrace {
		err = r.add(in, hasText, at, line)
		r.open, n = r.open[:n], n-1
	}
	if n >= 0 {
		r.open[n].last = end
	}
	r.from = -1
	return err
}

// add writes what is new in a body, before the brace that ends it.
func (r *rewriter) add(in *body, hasText bool, at, line int) error {
	if in.of == nil || len(in.of.added) == 0 {
		return nil
	}
	if added := in.of.added; added[0].quoted != nil { // a table
		return r.addEntries(in, at, line)
	}
	before, after := " ", ","
	if hasText {
		in.last, before, after = r.to, ", ", ""
	}
	for _, m := range in.of.added {
		r.put(in.last, in.last, before, string(m.value), after)
	}
	return nil
}

// mostIndent is the most white space in front of a new entry, so that many take no more memory than the patch.
const mostIndent = 64

// addEntries writes entries as `resb text` does: on lines before that of the brace, or before it on its line.
func (r *rewriter) addEntries(in *body, at, line int) error {
	tree := []byte("{")
	for _, m := range in.of.added {
		tree = append(append(append(append(tree, m.quoted...), ':'), m.value...), ',')
	}
	tree[len(tree)-1] = '}'
	b, err := resb.PrepareJSON(tree)
	if err != nil {
		return err
	}
	defer b.Discard()
	text, err := b.Text("")
	lines := strings.Split(text, "\n") // the first and the last two have the braces
	if err != nil || len(lines) < 4 {
		return err
	}
	lines = lines[1 : len(lines)-2]
	indent, end := in.indent, "\n"
	if indent == nil && line >= 0 {
		indent = append([]byte("    "), r.text[line:at]...)
	}
	if line < 0 || len(indent) > mostIndent {
		for i := range lines {
			lines[i] = strings.TrimSpace(lines[i])
		}
		r.put(at, at, strings.TrimPrefix(" ", string(r.text[at-1])), strings.Join(lines, " "), " ")
		return nil
	}
	if bytes.HasSuffix(r.text[:line], []byte("\r\n")) {
		end = "\r\n"
	}
	for i := range lines {
		lines[i] = string(indent) + strings.TrimPrefix(lines[i], "    ") + end
	}
	r.put(line, line, lines...)
	return nil
}
