package api

import (
	"net/http"
	"time"

	"luvdregan.example/resb/deploy/internal/convert"
	"luvdregan.example/resb/deploy/internal/front"
	"luvdregan.example/resb/deploy/internal/lookup"
	"luvdregan.example/resb/deploy/internal/manifest"
	"luvdregan.example/resb/deploy/internal/names"
	"luvdregan.example/resb/deploy/internal/wire"
)

var fetches = front.Operation{Kind: front.KindFetch}

// readBundle answers GET of a bundle: in a form, as a tree, or its table; or of an item whose path the query has.
func readBundle(c *call) error {
	if locale, form, isForm := wire.FormOf(c.Parts[0]); isForm {
		return fetch(c, locale, form)
	}
	if given := c.Query["path"]; len(given) > 1 {
		return wire.BadQuery.With("?path= is there twice")
	} else if len(given) == 1 {
		c.Path = given[0]
	}
	return lookup.Item(c)
}

// fetch answers with a bundle: as it was submitted, or converted.
func fetch(c *call, locale string, form wire.Form) error {
	c.Operation = &fetches
	now := c.Backend.Now(c.App)
	c.W.Header()["Resb-Revision"] = now.Header()
	name, ok := names.Canonical(locale)
	if !ok {
		return wire.BadLocale
	}
	if b := now.Find(name); b != nil {
		return render(c, *b, form)
	}
	return wire.Absent
}

// render writes a version of a bundle in a form, unless the caller has it.
func render(c *call, b manifest.Bundle, form wire.Form) error {
	c.Privately()
	suffix := form.Suffix
	if form.Kind == b.Kind {
		suffix = ""
	}
	if !wire.ConditionsOf(http.Header{"If-Match": c.R.Header["If-Match"]}).Hold(&b, "") {
		return wire.Unmet
	}
	tag, has := wire.Has(c.R, wire.BundleTag(b.Digest, suffix))
	if len(c.R.Header["If-None-Match"]) == 0 {
		since, err := http.ParseTime(c.R.Header.Get("If-Modified-Since"))
		has = err == nil && !wire.At(&b).Truncate(time.Second).After(since)
	}
	h := c.W.Header()
	h.Set("ETag", tag)
	h.Set("Last-Modified", wire.At(&b).Format(http.TimeFormat))
	if has {
		return c.Write(http.StatusNotModified, nil, nil)
	}
	var body []byte
	err := c.Long(c.Context(), b.Bytes, func() (err error) {
		body, err = converted(c, b, form)
		return err
	})
	if err != nil {
		h.Del("Last-Modified")
		return err
	}
	return c.Write(http.StatusOK, form.Header, body)
}

// load returns what was submitted for a bundle. Its memory counts as that of the request before it is read.
func load(c *call, b manifest.Bundle) ([]byte, error) {
	if err := c.Hold(b.Bytes); err != nil {
		return nil, err
	}
	return c.Backend.Body(c.Context(), c.App, b)
}

// converted returns a bundle in a form.
func converted(c *call, b manifest.Bundle, form wire.Form) (made []byte, err error) {
	body, err := load(c, b)
	if err != nil || form.Kind == b.Kind {
		return body, err
	}
	if made, err = convert.To(form.Kind, b.Locale, b.Kind, body); err == nil {
		err = c.Hold(int64(len(made)))
	}
	return made, err
}
