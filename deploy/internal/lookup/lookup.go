// Package lookup answers what callers look up: items, trees, many lookups in one request, and the names of the bundles.
package lookup

import (
	"bytes"
	"encoding/json"
	"io"
	"net/http"
	"strings"
	"sync"
	"time"
	"unicode/utf8"

	"luvdregan.example/resb/deploy/internal/convert"
	"luvdregan.example/resb/deploy/internal/front"
	"luvdregan.example/resb/deploy/internal/names"
	"luvdregan.example/resb/deploy/internal/replica"
	"luvdregan.example/resb/deploy/internal/wire"
)

// A call is a request for what an application has.
type call = front.Call

// byLanguage in the place of a locale stands for the one that the caller's languages choose.
const byLanguage = "-"

// Item answers GET of an item.
func Item(c *call) error {
	if c.Parts[0] == byLanguage {
		c.W.Header().Add("Vary", "Accept-Language")
	}
	if c.Asks("tree") {
		return tree(c)
	}
	return look(c)
}

// localeOf returns the locale of an address. In the place of `-` it is the first of the caller's languages on whose trail a bundle comes before
// root, or else the default of the application.
func localeOf(c *call) string {
	if c.Parts[0] != byLanguage {
		return c.Parts[0]
	}
	for _, language := range names.Ranges(c.R.Header["Accept-Language"]) {
		if valid := c.Engine.Valid(c.App, language); valid != "" && valid != "root" {
			return language
		}
	}
	return c.Backend.Now(c.App).Default
}

// mostTries is how often a lookup is made anew if the application changes meanwhile.
const mostTries = 3

// withView makes a lookup, and returns the view that the engine had then. If the application changes all the time it is an earlier one.
func withView(c *call, look func()) (now *replica.View) {
	for try := 0; try < mostTries; try++ {
		now = c.Backend.Now(c.App)
		look()
		if c.Backend.Now(c.App).Revision == now.Revision {
			break
		}
	}
	return now
}

// mostReply is more than any reply has.
const mostReply = 1 << 30

// look answers one lookup. The tag of a whole bundle also names its bytes.
func look(c *call) (err error) {
	buffer := buffers.Get().(*[]byte)
	defer buffers.Put(buffer)
	var reply []byte
	var needs int
	var code string
	now := withView(c, func() { reply, needs, code = c.Engine.Item((*buffer)[:0], c.App, localeOf(c), c.Path, front.Short) })
	if needs > 0 { // it waits for its turn
		if err = c.Hold(int64(needs)); err == nil {
			err = c.Work(c.Context(), func() error {
				now = withView(c, func() { reply, _, code = c.Engine.Item(nil, c.App, localeOf(c), c.Path, mostReply) })
				return holdMore(c, len(reply)-needs)
			})
		}
		if err != nil {
			return err
		}
	} else if cap(reply) <= mostBuffer {
		*buffer = reply
	}
	h := c.W.Header()
	h["Resb-Revision"] = now.Header()
	if code != "" {
		return wire.ProblemWith(code)
	}
	actual := ""
	if c.Path == "" || c.Parts[0] == byLanguage {
		actual = actualOf(reply)
	}
	if c.Parts[0] == byLanguage && actual != "root" && actual != "" {
		h.Set("Content-Language", strings.ReplaceAll(actual, "_", "-"))
	}
	tag := wire.TagOf(reply)
	if c.Path == "" {
		if b := now.Find(actual); b != nil {
			tag = wire.BundleTag(b.Digest, strings.Trim(tag, `"`))
		}
	}
	return answer(c, tag, append(reply, '\n'))
}

// holdMore counts the bytes by which a reply is longer than it was said to be.
func holdMore(c *call, bytes int) error {
	if bytes <= 0 {
		return nil
	}
	return c.Hold(int64(bytes))
}

// actualOf returns the locale in which an item was found.
func actualOf(reply []byte) string {
	_, rest, _ := bytes.Cut(reply, []byte(`"actual":"`)) // the first member
	actual, _, _ := bytes.Cut(rest, []byte(`"`))
	return string(actual)
}

// answer writes a reply with a tag, unless the caller has it, or asks for another one.
func answer(c *call, tag string, body []byte) error {
	c.Privately()
	given, has := wire.Has(c.R, tag)
	c.W.Header()["Etag"] = []string{given}
	switch {
	case len(c.R.Header["If-Match"]) > 0 && !wire.IsOneOf(tag, c.R.Header["If-Match"]):
		return wire.Unmet
	case has:
		return c.Write(http.StatusNotModified, nil, nil)
	}
	return c.Write(http.StatusOK, front.JSONType, body)
}

// List answers with the names of the application's bundles.
func List(c *call) error {
	now := c.Backend.Now(c.App)
	c.W.Header()["Resb-Revision"] = now.Header()
	all := struct {
		Default string   `json:"default,omitempty"`
		Names   []string `json:"names"`
	}{now.Default, make([]string, len(now.Bundles))}
	for i := range now.Bundles {
		all.Names[i] = now.Bundles[i].Locale
	}
	reply := convert.Marshal(all)
	return answer(c, wire.TagOf(reply), append(reply, '\n'))
}

// tree answers with an item and all that it inherits, as one value of JSON.
func tree(c *call) error {
	var now *replica.View
	var tree []byte
	var code string
	err := c.Work(c.Context(), func() error {
		now = withView(c, func() { tree, code = c.Engine.Tree(c.App, localeOf(c), c.Path) })
		return c.Hold(int64(len(tree)))
	})
	if err != nil {
		return err
	}
	c.W.Header()["Resb-Revision"] = now.Header()
	if code == "TooManySteps" { // of a tree
		code = "TreeTooLarge"
	}
	if code != "" {
		return wire.ProblemWith(code)
	}
	return answer(c, wire.TagOf(tree), append(tree, '\n'))
}

// Many answers many lookups: a line each, and a line of the reply each, in order.
func Many(c *call) error {
	body, err := c.Body(c.Options.LookBytes)
	if err != nil {
		return err
	}
	if more := bytes.Count(body, []byte("\n")) - 1; more > 0 {
		if err := c.Ticket.Ask(more, time.Now()); err != nil {
			return err
		}
	}
	h := c.W.Header()
	h["Resb-Revision"], h["Content-Type"] = c.Backend.Now(c.App).Header(), linesType
	c.NoStore()
	var made bytes.Buffer
	to, end := wire.Compressed(h, c.R, &made)
	c.Status = http.StatusOK
	c.W.WriteHeader(http.StatusOK)
	stream(c, body, &made, to, end)
	return nil
}

var linesType = []string{wire.Lines}

// together is how many lookups are made before others have their turn, and leastFlush how many bytes are sent together.
const (
	together   = 256
	leastFlush = 32 << 10
)

// stream writes the replies to lines. While the caller reads it takes no turn.
func stream(c *call, lines []byte, made *bytes.Buffer, to io.Writer, end func() error) {
	var replies []byte
	before, isLong := c.Ticket.Held(), len(lines) > front.Short // many short lines take long, too
	some := func() error {
		replies = replies[:0]
		for n := 0; n < together && len(lines) > 0 && len(replies) < mostBuffer; n++ {
			line, rest, _ := bytes.Cut(lines, []byte("\n"))
			replies, lines = append(answerLine(c, replies, line, isLong), '\n'), rest
		}
		_, err := to.Write(replies)
		if err == nil && len(lines) == 0 {
			err = end()
		}
		return err
	}
	for isLast := false; !isLast && c.R.Context().Err() == nil; {
		if inTurn(c, isLong, some) != nil {
			return
		}
		if isLast = len(lines) == 0; isLast || made.Len() >= leastFlush {
			n, err := made.WriteTo(c.W)
			if c.Sent += int(n); err != nil {
				return
			}
		}
		c.Ticket.Free(before)
		if cap(replies) > mostBuffer {
			replies = nil
		}
	}
}

// inTurn does work once it is the turn of the application, if it is long.
func inTurn(c *call, isLong bool, do func() error) error {
	if isLong {
		return c.Work(c.R.Context(), do)
	}
	return do()
}

// The replies to lines that aren't looked up.
const (
	badLine  = `{"error":"BadLine"}`
	otherApp = `{"error":"OtherApp"}`
)

// answerLine appends the reply to a line.
func answerLine(c *call, dst, line []byte, hasTurn bool) []byte {
	locale, path, refusal := question(c, line)
	if refusal != "" {
		return append(dst, refusal...)
	}
	before := len(dst)
	dst, needs, code := c.Engine.Item(dst, c.App, locale, path, front.Short)
	if needs > 0 {
		err := inTurn(c, !hasTurn, func() (err error) {
			if err = c.Hold(3 * int64(needs)); err == nil { // here, and in the buffers of the stream
				dst, _, code = c.Engine.Item(dst, c.App, locale, path, mostReply)
				err = holdMore(c, 3*(len(dst)-before-needs))
			}
			return err
		})
		if err != nil {
			dst, code = dst[:before], wire.ProblemOf(err).Code
		}
	}
	if code != "" {
		dst = append(append(append(dst, `{"error":"`...), code...), `"}`...)
	}
	return dst
}

// question reads a line: an object with the texts `locale` and `path`. If it has `op` or `app`, these must be `look` and the application.
func question(c *call, line []byte) (locale, path, refusal string) {
	const first, second = `{"locale":"`, `","path":"`
	if bytes.HasPrefix(line, []byte(first)) { // what most clients send needs no reading as JSON
		a, rest, _ := bytes.Cut(line[len(first):], []byte(second))
		b, end, _ := bytes.Cut(rest, []byte(`"`))
		if string(end) == "}" && isPlain(a) && isPlain(b) {
			return string(a), string(b), ""
		}
	}
	var members map[string]json.RawMessage
	if !utf8.Valid(line) || json.Unmarshal(line, &members) != nil {
		return "", "", badLine
	}
	texts := map[string]string{"op": "look", "app": c.App}
	for _, name := range []string{"locale", "path", "op", "app"} {
		value, there := members[name]
		if !there && texts[name] != "" {
			continue
		}
		var text *string
		if json.Unmarshal(value, &text) != nil || text == nil || name == "op" && *text != "look" {
			return "", "", badLine
		}
		if name == "app" && *text != c.App {
			return "", "", otherApp
		}
		texts[name] = *text
	}
	return texts["locale"], texts["path"], ""
}

// isPlain returns true if a text is printable ASCII without quotes and escapes.
func isPlain(text []byte) bool {
	for _, b := range text {
		if b < ' ' || b > '~' || b == '"' || b == '\\' {
			return false
		}
	}
	return true
}

// buffers are for replies to lookups.
var buffers = sync.Pool{New: func() any {
	b := make([]byte, 0, 4096)
	return &b
}}

// mostBuffer is the most bytes of a buffer that is used again.
const mostBuffer = 64 << 10
