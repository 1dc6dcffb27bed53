package convert

import (
	"bytes"
	"encoding/binary"
	"encoding/json"
	"errors"
	"fmt"
	"strings"
	"unicode/utf8"

	"luvdregan.example/resb/deploy/internal/engine"
	"luvdregan.example/resb/deploy/internal/manifest"
	resb "luvdregan.example/resb/library/go"
)

// A JSONFault is why a patch, or what it makes of a bundle, is refused, and where in the patch. Path is a JSON pointer (RFC 6901).
type JSONFault struct {
	Code         string
	Line, Column int
	Path         string
}

// Error returns the code and the place.
func (f *JSONFault) Error() string {
	return fmt.Sprintf("%d:%d: %s %s", f.Line, f.Column, f.Code, f.Path)
}

// faultAt returns a fault at a byte of a text, in the value at a path.
func faultAt(text []byte, code string, at int, path []string) *JSONFault {
	f := &JSONFault{Code: code}
	for _, part := range path {
		f.Path += "/" + strings.NewReplacer("~", "~0", "/", "~1").Replace(part)
	}
	before := text[:at]
	line := bytes.LastIndexByte(before, '\n') + 1
	f.Line, f.Column = 1+bytes.Count(before, []byte("\n")), 1+utf8.RuneCount(before[line:])
	return f
}

// A patch is as deep as bundles are, and each value takes this many bytes of memory, at most.
const (
	mostDepth  = 64
	valueBytes = 128
)

// CheckPatch returns why a text is no JSON merge patch (RFC 7396), as a *JSONFault. The memory that a patch takes is given to a function, whose error
// it returns.
func CheckPatch(text []byte, hold func(bytes int64) error) error {
	for at := 0; at < len(text); {
		r, size := utf8.DecodeRune(text[at:])
		if r == utf8.RuneError && size < 2 {
			return faultAt(text, "NotUtf8", at, nil)
		}
		at += size
	}
	c := &cursor{text: text}
	for {
		at, code := c.next()
		if code == "" && len(c.open) > mostDepth {
			code = "TooDeep"
		}
		switch code {
		case "":
			if err := hold(valueBytes); err != nil {
				return err
			}
		case atEnd:
			return hold(int64(len(text)))
		default:
			return faultAt(text, code, at, c.path)
		}
	}
}

// merge appends a value of JSON, or nothing for none, with a patch. Both are valid. It scans them once or twice for each level of the patch.
func merge(to, old, patch []byte) []byte {
	if !bytes.HasPrefix(patch, []byte("{")) {
		return append(to, patch...)
	}
	to = append(to, '{')
	begin := len(to)
	put := func(m member) {
		if len(to) > begin {
			to = append(to, ',')
		}
		to = append(append(to, m.quoted...), ':')
	}
	isObject := bytes.HasPrefix(old, []byte("{")) // nothing is left of another value
	changes := map[string][]byte{}                // that are to be made
	if isObject {
		membersOf(patch).each(func(m member) { changes[string(m.name)] = m.value })
		membersOf(old).each(func(m member) {
			change, is := changes[string(m.name)]
			delete(changes, string(m.name))
			if !is {
				put(m)
				to = append(to, m.value...)
			} else if string(change) != "null" {
				put(m)
				to = merge(to, m.value, change)
			}
		})
	}
	if !isObject || len(changes) > 0 {
		membersOf(patch).each(func(m member) {
			if _, is := changes[string(m.name)]; (is || !isObject) && string(m.value) != "null" {
				put(m)
				to = merge(to, nil, m.value)
			}
		})
	}
	return append(to, '}')
}

// Patched returns a bundle with a patch of its JSON (docs/JSON.md) in the form in which it was, and whether it has the same items. The error is a
// *JSONFault if what the patch makes is no bundle. The memory of what is made is given to a function.
func Patched(b manifest.Bundle, body, patch []byte, hold func(bytes int64) error) (made []byte, same bool, err error) {
	file, err := To(engine.File, b.Locale, b.Kind, body)
	if err != nil {
		return nil, false, err
	}
	old, err := To(JSON, b.Locale, engine.File, file)
	if err == nil {
		err = hold(int64(3*len(file) + 4*len(old) + 2*len(patch)))
	}
	if err != nil {
		return nil, false, err
	}
	merged := merge(make([]byte, 0, len(old)+len(patch)), old, bytes.TrimSpace(patch))
	after, err := prepared(patch, merged, isLast(file))
	if err != nil {
		return nil, false, err
	}
	defer after.Discard()
	new, err := after.JSON()
	switch same = bytes.Equal(bytes.TrimSpace(old), new); {
	case err != nil || same:
	case b.Kind == engine.File:
		made, err = after.File()
	default:
		made, err = textAfter(b.Locale, body, old, new, after)
	}
	if err == nil {
		err = hold(int64(len(made) + len(new)))
	}
	return made, same, engine.FaultOf(err)
}

// prepared returns the bundle that a patch made. Only a text says that a lookup stops there.
func prepared(patch, merged []byte, isLast bool) (*resb.Bundle, error) {
	b, err := resb.PrepareJSON(merged)
	if err != nil {
		return nil, placed(patch, merged, engine.FaultOf(err))
	}
	if !isLast {
		return b, nil
	}
	defer b.Discard()
	text, err := b.Text("root")
	if err != nil {
		return nil, engine.FaultOf(err)
	}
	_, entries, _ := strings.Cut(text, "{")
	if b, err = resb.Prepare([]byte("root:table(nofallback) {"+entries), true); err != nil {
		return nil, &engine.Fault{Code: "TooLarge"}
	}
	return b, nil
}

// placed returns where in a patch the error of what it made is. The library names the line of an error, so each item gets one; the place in the
// patch is that of the value on the way to the item.
func placed(patch, merged []byte, err error) error {
	var fault *engine.Fault
	var lines bytes.Buffer
	if errors.As(err, &fault) && json.Indent(&lines, merged, "", "") == nil {
		_, err = resb.PrepareJSON(lines.Bytes())
	}
	if fault == nil || !errors.As(engine.FaultOf(err), &fault) {
		return err
	}
	path := pathAt(lines.Bytes(), int(fault.Line), fault.Code)
	return faultAt(patch, fault.Code, placeOf(patch, path), path)
}

// pathAt returns the path of the item in a line of indented JSON, or that of its table if the code is an error of the item's key.
func pathAt(text []byte, line int, code string) []string {
	end := 0
	for ; line > 0; line-- {
		next := bytes.IndexByte(text[end:], '\n') + 1
		if end += next; next == 0 {
			end = len(text)
		}
	}
	c := &cursor{text: bytes.TrimRight(text[:end], ",\n")}
	for why := ""; why == ""; {
		_, why = c.next()
	}
	if n := len(c.path) - 1; n >= 0 && (isSpecial(c.path[n]) || code == "BadKey") {
		return c.path[:n]
	}
	return c.path
}

// placeOf returns where the value at a path begins in a patch, or the last one on the way there.
func placeOf(patch []byte, path []string) (at int) {
	c := &cursor{text: patch}
	for next, why := c.next(); why == ""; next, why = c.next() {
		if c.isOnTheWay(path) {
			at = next
		}
	}
	return at
}

// isLast returns true if a valid file has the flag that a lookup stops at its bundle (docs/FORMAT.md).
func isLast(file []byte) bool {
	const minor, length, attributes = 17, 4, 6 * 4
	data := file[binary.LittleEndian.Uint16(file):]
	return file[minor] >= 2 && data[length] >= 6 && data[attributes]&1 == 1
}
