package convert

import (
	"bytes"
	"encoding/json"
	"strconv"
	"strings"
)

// A cursor walks through a text of JSON, from one value to the next.
type cursor struct {
	text []byte
	at   int         // after what was passed
	open []container // what the value is in
	path []string    // of the value
}

// A container is an object, whose names were read, or an array.
type container struct {
	end   byte
	names map[string]bool
	count int
}

// atEnd ends a walk, as error codes of JSON do.
const atEnd = "end"

// The characters between values.
const (
	blank   = " \t\r\n"
	between = blank + ",:"
)

// skip passes what is between two values, and returns the comma or colon there.
func (c *cursor) skip() string {
	from := c.at
	for c.at < len(c.text) && strings.IndexByte(between, c.text[c.at]) >= 0 {
		c.at++
	}
	return string(bytes.Trim(c.text[from:c.at], blank))
}

// next passes the next value, or the begin of one that has values in it. It returns where that begins, or why there is none.
func (c *cursor) next() (at int, code string) {
	isFirst, n := c.at == 0, len(c.open)
	mark := c.skip()
	for n > 0 && mark == "" && c.isAt(c.open[n-1].end) {
		n--
		c.at++
		mark = c.skip()
	}
	c.open = c.open[:n]
	switch {
	case n > 0:
		if code = c.key(&c.open[n-1], mark); code != "" {
			return c.at, code
		}
	case isFirst && mark != "":
		return c.at, "NotJson"
	case !isFirst:
		if c.path = nil; c.at < len(c.text) || mark != "" {
			return c.at, "TrailingText"
		}
		return c.at, atEnd
	}
	at = c.at
	switch {
	case c.isAt('{'):
		c.open = append(c.open, container{end: '}', names: map[string]bool{}})
		c.at++
	case c.isAt('['):
		c.open = append(c.open, container{end: ']'})
		c.at++
	default:
		if token := c.token(); json.Valid(token) {
			c.at += len(token)
		} else {
			return at, "NotJson"
		}
	}
	return at, ""
}

func (c *cursor) isAt(b byte) bool { return c.at < len(c.text) && c.text[c.at] == b }

// token returns the string, the number or the word that comes next, if it is one.
func (c *cursor) token() []byte {
	rest, end := c.text[c.at:], 0
	if c.isAt('"') {
		end = lastOf(rest) + 1
	} else {
		end = bytes.IndexAny(rest, between+`{}[]"`)
	}
	if end < 0 || end > len(rest) {
		return rest
	}
	return rest[:end]
}

// key passes the name or the index of the next value, after what is between that and the last one.
func (c *cursor) key(in *container, mark string) (code string) {
	name, index := "", in.count
	isWrong := index == 0 && mark != "" || index > 0 && mark != ","
	in.count++
	if in.names != nil {
		quoted := c.token()
		if isWrong || !c.isAt('"') || !json.Valid(quoted) {
			return "NotJson"
		}
		name = string(unquoted(quoted))
		c.at += len(quoted)
		isWrong = c.skip() != ":"
	} else if name = strconv.Itoa(index); mark == "" && (c.at == len(c.text) || c.isAt('}')) {
		return "NotJson"
	}
	c.path = append(c.path[:len(c.open)-1], name)
	switch {
	case in.names[name]:
		return "DuplicateKey"
	case isWrong:
		return "NotJson"
	case in.names != nil:
		in.names[name] = true
	}
	return ""
}

// isOnTheWay returns true if the value at which the cursor is has the item at a path in it, or is it.
func (c *cursor) isOnTheWay(path []string) bool {
	for i := range c.path {
		if i == len(path) || c.path[i] != path[i] {
			return false
		}
	}
	return true
}

// A member is one of an object of JSON, or an element of an array, whose name is its index. Without a value there is none.
type member struct {
	name   []byte // without quotes and escapes
	quoted []byte // as in the object
	value  []byte
}

// members returns the next member at each call.
type members func() member

// membersOf reads the members of an object or array; another value has none. The text must be valid JSON. It isn't copied.
func membersOf(text []byte) members {
	isObject, index := bytes.HasPrefix(text, []byte("{")), 0
	if !isObject && !bytes.HasPrefix(text, []byte("[")) {
		return func() member { return member{} }
	}
	text = text[1:]
	return func() (m member) {
		if text = bytes.TrimLeft(text, between); len(text) == 0 || text[0] == '}' || text[0] == ']' {
			return member{}
		}
		if isObject {
			m.quoted, text = cutValue(text)
			m.name = unquoted(m.quoted)
		} else {
			m.name = strconv.AppendInt(nil, int64(index), 10)
			index++
		}
		m.value, text = cutValue(bytes.TrimLeft(text, between))
		return m
	}
}

// each calls a function for each member.
func (next members) each(do func(member)) {
	for m := next(); m.value != nil; m = next() {
		do(m)
	}
}

// cutValue returns the value that a text begins with, and what follows it.
func cutValue(text []byte) (value, rest []byte) {
	depth := 0
	for i := 0; i < len(text); i++ {
		switch text[i] {
		case '"':
			i += lastOf(text[i:])
		case '{', '[':
			depth++
		case '}', ']':
			if depth--; depth < 0 {
				return text[:i], text[i:]
			}
		case ',', ':', ' ', '\t', '\r', '\n':
			if depth == 0 {
				return text[:i], text[i:]
			}
		}
	}
	return text, nil
}

// lastOf returns where the quote is that ends a string.
func lastOf(quoted []byte) int {
	for i := 1; i < len(quoted); i++ {
		switch quoted[i] {
		case '"':
			return i
		case '\\':
			i++
		}
	}
	return len(quoted)
}

// unquoted returns what a string of JSON means.
func unquoted(quoted []byte) []byte {
	if bytes.IndexByte(quoted, '\\') < 0 {
		return quoted[1 : len(quoted)-1]
	}
	var text string
	_ = json.Unmarshal(quoted, &text) // it is valid
	return []byte(text)
}

// pairs calls a function for each name of two objects, whose members are in order, or for each index of two arrays, until there is an error.
func pairs(nextA, nextB members, do func(a, b member) error) error {
	for a, b := nextA(), nextB(); a.value != nil || b.value != nil; {
		order := 0
		switch {
		case a.value == nil:
			order = 1
		case b.value == nil:
			order = -1
		case a.quoted != nil:
			order = bytes.Compare(a.name, b.name)
		}
		var one, other member
		if order <= 0 {
			one, a = a, nextA()
		}
		if order >= 0 {
			other, b = b, nextB()
		}
		if err := do(one, other); err != nil {
			return err
		}
	}
	return nil
}
