// Package names reads the names of locales: in addresses, in texts, and in what callers prefer.
package names

import (
	"regexp"
	"sort"
	"strconv"
	"strings"
)

// mostName is the most bytes of a locale's name.
const mostName = 64

// Canonical returns the name under which a bundle of a locale is stored; the second result is false if the locale isn't valid
// (docs/LOOKUP.md).
func Canonical(locale string) (name string, ok bool) {
	name, _, _ = strings.Cut(locale, "@")
	if name == "" {
		return "root", true
	}
	parts := strings.Split(strings.ReplaceAll(name, "-", "_"), "_")
	for i, part := range parts {
		letters := isAll(part, false)
		switch {
		case i == 0 && letters && len(part) >= 2 && len(part) <= 8:
			parts[i] = strings.ToLower(part)
		case i == 1 && letters && len(part) == 4:
			parts[i] = strings.ToUpper(part[:1]) + strings.ToLower(part[1:])
		case i > 0 && len(part) > 0 && len(part) <= 8 && isAll(part, true):
			parts[i] = strings.ToUpper(part)
		default:
			return locale, false
		}
	}
	return strings.Join(parts, "_"), len(name) <= mostName
}

// isAll returns true if a text has only ASCII letters, or digits too.
func isAll(text string, digits bool) bool {
	for _, b := range []byte(text) {
		if !(b >= 'a' && b <= 'z' || b >= 'A' && b <= 'Z' || digits && b >= '0' && b <= '9') {
			return false
		}
	}
	return true
}

// The name that a text begins with, after white space and comments (docs/LANGUAGE.md). A name with an escape isn't read.
var inText = regexp.MustCompile(`^(?:[\x{FEFF}\s\x{85}\x{2028}\x{2029}]|//[^\n]*\n|/\*(?s:.*?)\*/)*(?:"([^"\\\n]*)"|([A-Za-z0-9_@=.\-]+))\s*[:{]`)

// mostBegin is the most bytes in which the name of a text is searched.
const mostBegin = 64 << 10

// InText returns the name that a bundle text begins with, if it can be read.
func InText(text []byte) (name string, ok bool) {
	if len(text) > mostBegin {
		text = text[:mostBegin]
	}
	found := inText.FindSubmatch(text)
	if found == nil {
		return "", false
	}
	return string(found[1]) + string(found[2]), true
}

// mostRanges is how many languages of a caller are read.
const mostRanges = 64

// Ranges returns the languages of Accept-Language as locales, the preferred ones first (RFC 9110, 12.5.4), without `*` and without what follows a
// part that no locale has, such as an extension.
func Ranges(headers []string) (names []string) {
	type one struct {
		name string
		q    float64
	}
	var all []one
	for _, part := range strings.Split(strings.Join(headers, ","), ",") {
		name, parameters, _ := strings.Cut(part, ";")
		name = withoutExtensions(strings.TrimSpace(name))
		if q := Weight(parameters); name != "" && q > 0 && len(all) < mostRanges {
			all = append(all, one{name, q})
		}
	}
	sort.SliceStable(all, func(i, j int) bool { return all[i].q > all[j].q })
	for _, r := range all {
		names = append(names, r.name)
	}
	return names
}

// withoutExtensions returns the beginning of a language's tag that can be a locale.
func withoutExtensions(tag string) string {
	end := 0
	for _, part := range strings.Split(tag, "-") {
		next := end + len(part)
		if end > 0 {
			next++
		}
		if len(part) < 2 || len(part) > 8 || !isAll(part, true) || next > mostName {
			break
		}
		end = next
	}
	return tag[:end]
}

// Weight reads a parameter such as `q=0.5`; without one it is 1.
func Weight(parameters string) float64 {
	name, value, _ := strings.Cut(strings.TrimSpace(parameters), "=")
	if !strings.EqualFold(strings.TrimSpace(name), "q") {
		return 1
	}
	q, err := strconv.ParseFloat(strings.TrimSpace(value), 64)
	if err != nil || !(q >= 0 && q <= 1) {
		return 0
	}
	return q
}
