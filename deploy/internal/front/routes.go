package front

import (
	"context"
	"fmt"
	"net/http"
	"net/url"
	"strings"
	"time"

	"luvdregan.example/resb/deploy/internal/auth"
	"luvdregan.example/resb/deploy/internal/convert"
	"luvdregan.example/resb/deploy/internal/page"
	"luvdregan.example/resb/deploy/internal/wire"
	resb "luvdregan.example/resb/library/go"
)

// A Kind is what a request is counted as.
type Kind int

// The kinds.
const (
	KindOther Kind = iota
	KindLook
	KindLooks
	KindList
	KindChange
	KindFetch
	KindHistory
	KindCheck
)

var kindNames = [...]string{"other", "look", "looks", "list", "change", "fetch", "history", "check"}

// An Operation is what a method does at an address, and how it is described.
type Operation struct {
	Method, ID, Summary string
	Forms               string // what the ID of the reading of a form begins with, if there are forms
	Right               auth.Right
	AnyLocale           bool // the right may be one for a locale, which Do asks for
	Kind                Kind
	Action              string // the name of a change in the audit log
	Do                  func(*Call) error
	Takes, Gives        []string // the types of bodies and replies
	Statuses            []int    // beside those of all addresses
	Query               []string // names beside `after`, with a blank and that of the description in openapi.json if it is another one
}

// admits returns an error if the query of a change has a name that the operation doesn't know, or has one twice: a change that isn't what its
// caller means would be made.
func (o *Operation) admits(query url.Values) error {
	for name, values := range query {
		known := name == "after"
		for _, words := range o.Query {
			known = known || name == strings.Fields(words)[0]
		}
		if o.Kind == KindChange && (!known || len(values) > 1) {
			return wire.BadQuery.With(fmt.Sprintf("%.80q isn't asked for, or is there twice", name))
		}
	}
	return nil
}

// Other is the operation of all that has none.
var Other = Operation{}

// An Address is a pattern below /v1/{app} with its operations. `{locale}` and the like stand for one part, `{path}` for one or more.
type Address struct {
	Pattern    string
	Operations []Operation
}

// Parts returns the parts of the pattern.
func (a *Address) Parts() []string {
	if a.Pattern == "" {
		return nil
	}
	return strings.Split(a.Pattern[1:], "/")
}

// locale returns which part of the pattern is a locale, or -1.
func (a *Address) locale() int {
	for i, part := range a.Parts() {
		if part == "{locale}" {
			return i
		}
	}
	return -1
}

// A route is an address that is ready to be found.
type route struct {
	parts      []string
	locale     int                   // which part is one, or -1
	operations map[string]*Operation // by method
	allow      string
}

func routesOf(addresses []Address) (all []route) {
	for i := range addresses {
		a := &addresses[i]
		one := route{a.Parts(), a.locale(), map[string]*Operation{}, ""}
		for j := range a.Operations {
			o := &a.Operations[j]
			one.operations[o.Method] = o
			if one.allow += o.Method + ", "; o.Method == http.MethodGet {
				one.operations[http.MethodHead] = o
				one.allow += "HEAD, "
			}
		}
		one.allow += "OPTIONS"
		all = append(all, one)
	}
	return all
}

// matches returns true if the parts of an address fit a pattern. What begins with `_` is the gateway's own, and no locale.
func (r *route) matches(parts []string) bool {
	n := len(r.parts)
	if len(parts) < n || len(parts) > n && !(n > 0 && r.parts[n-1] == "{path}") {
		return false
	}
	for i, part := range r.parts {
		if part[0] != '{' && part != parts[i] || part[0] == '{' && i == 0 && strings.HasPrefix(parts[0], "_") {
			return false
		}
	}
	return true
}

// find returns the operation of a method at an address after the application, the locale there, and the methods that the address has, or "" if there is
// no such address. If it hasn't the method, the operation does nothing.
func (h *Handler) find(parts []string, method string) (o *Operation, locale, allow string) {
	for i := range h.routes {
		r := &h.routes[i]
		if !r.matches(parts) {
			continue
		}
		if allow == "" {
			allow = r.allow
		}
		if r.locale >= 0 {
			locale = parts[r.locale]
		}
		if o := r.operations[method]; o != nil {
			return o, locale, r.allow
		}
	}
	return &Other, locale, allow
}

// health has the addresses that say whether the gateway works.
var health = map[string]func(*Call) error{
	"healthz": (*Call).healthz,
	"readyz":  func(c *Call) error { return c.state(c.Backend.Ready()) },
	"writez": func(c *Call) error {
		ctx, cancel := context.WithTimeout(c.R.Context(), time.Second)
		defer cancel()
		return c.state(c.Backend.Writable(ctx))
	},
}

// page answers what is no application's.
func (c *Call) page(parts []string) error {
	name := strings.Join(parts, "/")
	do := health[name]
	switch {
	case name == "":
		do = func(c *Call) error { return c.part("index.html") }
	case len(parts) == 2 && parts[0] == "page":
		do = func(c *Call) error { return c.part(parts[1]) }
	case name == "openapi.json":
		do = func(c *Call) error { return c.fixed(wire.JSON, c.OpenAPI) }
	}
	return c.read(do)
}

// inside answers at the address that callers don't reach.
func (c *Call) inside() error {
	name := strings.TrimPrefix(c.R.URL.Path, "/")
	if name == "metrics" {
		return c.read((*Call).measured)
	}
	return c.read(health[name])
}

// read answers GET and HEAD of a page, or nil if it is missing.
func (c *Call) read(do func(*Call) error) error {
	switch {
	case do == nil:
		return wire.NoPage
	case c.R.Method == http.MethodGet, c.R.Method == http.MethodHead:
		return do(c)
	}
	c.W.Header().Set("Allow", "GET, HEAD")
	return wire.NotAllowed
}

// part writes a part of the page.
func (c *Call) part(name string) error {
	content, kind, there := page.Find(name)
	if !there {
		return wire.NoPage
	}
	if strings.HasPrefix(kind, "text/html") { // at whichever of its two addresses
		c.W.Header().Set("Content-Security-Policy", page.Policy)
		c.W.Header().Set("Referrer-Policy", "no-referrer")
	}
	return c.fixed(kind, content)
}

// fixed writes a page that stays the same as long as the gateway runs.
func (c *Call) fixed(kind string, content []byte) error {
	h := c.W.Header()
	h.Set("Cache-Control", "no-cache")
	tag, has := wire.Has(c.R, wire.TagOf(content))
	h.Set("ETag", tag)
	if has {
		return c.Write(http.StatusNotModified, nil, nil)
	}
	return c.Write(http.StatusOK, []string{kind}, content)
}

// healthz answers that the gateway runs, and names its version and that of the library.
func (c *Call) healthz() error {
	c.NoStore()
	return c.Write(http.StatusOK, JSONType, append(convert.Marshal(struct {
		OK      bool   `json:"ok"`
		Version string `json:"version"`
		Commit  string `json:"commit"`
		Program string `json:"program,omitempty"`
	}{true, c.Options.Version, c.Options.Commit, "resb " + resb.Version()}), '\n'))
}

// state answers whether the gateway does something.
func (c *Call) state(err error) error {
	status, text := http.StatusOK, "ready\n"
	switch {
	case c.Options.Leaving.Err() != nil:
		status, text = http.StatusServiceUnavailable, "it ends\n"
	case err != nil:
		status, text = http.StatusServiceUnavailable, wire.ProblemOf(err).Code+"\n"
	}
	if status != http.StatusOK {
		c.W.Header().Set("Retry-After", "1")
	}
	c.NoStore()
	return c.Write(status, []string{"text/plain; charset=utf-8"}, []byte(text))
}
