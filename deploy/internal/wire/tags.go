package wire

import (
	"bytes"
	"compress/gzip"
	"crypto/sha256"
	"encoding/base64"
	"io"
	"net/http"
	"runtime"
	"strings"
	"sync"
	"time"

	"luvdregan.example/resb/deploy/internal/manifest"
	"luvdregan.example/resb/deploy/internal/names"
)

// gzipTag ends the tag of a compressed reply, inside its quotes: a strong tag names bytes.
const gzipTag = ".gz"

// tagBytes is how many bytes of a hash a tag has.
const tagBytes = 16

// TagOf returns the tag of a reply, equal only for equal replies.
func TagOf(reply []byte) string {
	sum := sha256.Sum256(reply)
	return `"` + base64.RawURLEncoding.EncodeToString(sum[:tagBytes]) + `"`
}

// BundleTag returns the tag of a bundle: the first bytes of its SHA-256. After a full stop a tag of another form has its name, and one of a
// reply a hash of it.
func BundleTag(digest manifest.Digest, suffix string) string {
	whole, err := base64.RawURLEncoding.DecodeString(string(digest))
	if err != nil || len(whole) < tagBytes {
		whole = make([]byte, tagBytes) // no bundle has such a digest
	}
	if suffix != "" {
		suffix = "." + suffix
	}
	return `"` + base64.RawURLEncoding.EncodeToString(whole[:tagBytes]) + suffix + `"`
}

// isTagOf returns true if a tag is one of a bundle, in whatever form.
func isTagOf(tag string, b *manifest.Bundle) bool {
	if len(tag) < 2 || tag[0] != '"' || tag[len(tag)-1] != '"' {
		return false
	}
	hash, _, _ := strings.Cut(tag[1:len(tag)-1], ".")
	return `"`+hash+`"` == BundleTag(b.Digest, "")
}

// members returns those of headers that are lists.
func members(headers []string) (all []string) {
	for _, header := range headers {
		for _, one := range strings.Split(header, ",") {
			all = append(all, strings.TrimSpace(one))
		}
	}
	return all
}

// tags returns the tags of headers. The gateway makes strong ones only: a weak one was strong until a proxy compressed its reply, so it
// names the same bundle, also in If-Match.
func tags(headers []string) []string {
	all := members(headers)
	for i, one := range all {
		all[i] = strings.TrimPrefix(one, "W/")
	}
	return all
}

// Has returns true if the caller has what a tag names, perhaps compressed, and the tag that the reply gets.
func Has(r *http.Request, tag string) (reply string, has bool) {
	return find(tag, r.Header["If-None-Match"])
}

// IsOneOf returns true if headers with tags have one.
func IsOneOf(tag string, headers []string) bool {
	_, is := find(tag, headers)
	return is
}

// find returns the tag in headers that names what a tag does, or the tag itself and false.
func find(tag string, headers []string) (found string, is bool) {
	for _, one := range tags(headers) {
		if one == "*" || one == tag {
			return tag, true
		}
		if strings.TrimSuffix(one, gzipTag+`"`)+`"` == tag {
			return one, true
		}
	}
	return tag, false
}

// Conditions are those of a request that changes a bundle (RFC 9110, 13.1).
type Conditions struct {
	match, noneMatch []string // tags
	since            time.Time
}

// ConditionsOf reads the headers of a request.
func ConditionsOf(h http.Header) (c Conditions) {
	c.match, c.noneMatch = tags(h.Values("If-Match")), tags(h.Values("If-None-Match"))
	if date, err := http.ParseTime(h.Get("If-Unmodified-Since")); err == nil && len(c.match) == 0 {
		c.since = date
	}
	return c
}

// Any returns true if there are conditions.
func (c Conditions) Any() bool { return len(c.match) > 0 || len(c.noneMatch) > 0 || !c.since.IsZero() }

// Hold returns true if all conditions hold for a bundle, or for nil if there is none. If it is what the change makes, the tag and the date needn't
// be its own: the answer of that change may have been lost (RFC 9110, 13.1.1).
func (c Conditions) Hold(now *manifest.Bundle, made manifest.Digest) bool {
	one := func(all []string) bool {
		for _, tag := range all {
			if now != nil && (tag == "*" || isTagOf(tag, now)) {
				return true
			}
		}
		return false
	}
	switch {
	case one(c.noneMatch):
		return false
	case now != nil && now.Digest == made:
		return true
	case len(c.match) > 0 && !one(c.match):
		return false
	case !c.since.IsZero() && (now == nil || At(now).Truncate(time.Second).After(c.since)):
		return false
	}
	return true
}

// At returns when a bundle was put.
func At(b *manifest.Bundle) time.Time { return time.UnixMilli(b.At).UTC() }

// LeastGzip is the fewest bytes that are worth compressing.
const LeastGzip = 1 << 10

// slice is how much is compressed before other goroutines run.
const slice = 32 << 10

var zippers = sync.Pool{New: func() any {
	w, _ := gzip.NewWriterLevel(io.Discard, gzip.BestSpeed) // the level is a valid one
	return w
}}

// TakesGzip returns true if the caller takes compressed replies (RFC 9110, 12.5.3).
func TakesGzip(r *http.Request) bool {
	weight := 0.0 // of `*`
	for _, one := range members(r.Header["Accept-Encoding"]) {
		member, parameters, _ := strings.Cut(one, ";")
		switch member = strings.TrimSpace(member); {
		case strings.EqualFold(member, "gzip"):
			return names.Weight(parameters) > 0
		case member == "*":
			weight = names.Weight(parameters)
		}
	}
	return weight > 0
}

// Zipped returns the body compressed, and changes the headers that say so; or the body itself if that isn't shorter.
func Zipped(h http.Header, body []byte) []byte {
	var out bytes.Buffer
	w := zippers.Get().(*gzip.Writer)
	defer zippers.Put(w)
	w.Reset(&out)
	for left := body; len(left) > 0; runtime.Gosched() {
		n := len(left)
		if n > slice {
			n = slice
		}
		_, _ = w.Write(left[:n]) // a buffer takes all
		left = left[n:]
	}
	if w.Close() != nil || out.Len() >= len(body) {
		return body
	}
	h.Set("Content-Encoding", "gzip")
	if tag := h.Get("ETag"); tag != "" {
		h.Set("ETag", strings.TrimSuffix(tag, `"`)+gzipTag+`"`)
	}
	return out.Bytes()
}

// Compressed returns a writer whose bytes are compressed if the caller takes that, and sets the headers. The function writes what is left.
func Compressed(h http.Header, r *http.Request, to io.Writer) (w io.Writer, end func() error) {
	h.Add("Vary", "Accept-Encoding")
	if !TakesGzip(r) {
		return to, func() error { return nil }
	}
	h.Set("Content-Encoding", "gzip")
	z := zippers.Get().(*gzip.Writer)
	z.Reset(to)
	return z, func() error {
		defer zippers.Put(z)
		return z.Close()
	}
}
