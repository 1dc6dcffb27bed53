package api

import (
	"context"
	"errors"
	"fmt"
	"mime"
	"net/http"
	"strings"
	"time"

	"luvdregan.example/resb/deploy/internal/auth"
	"luvdregan.example/resb/deploy/internal/convert"
	"luvdregan.example/resb/deploy/internal/engine"
	"luvdregan.example/resb/deploy/internal/front"
	"luvdregan.example/resb/deploy/internal/manifest"
	"luvdregan.example/resb/deploy/internal/names"
	"luvdregan.example/resb/deploy/internal/replica"
	"luvdregan.example/resb/deploy/internal/store"
	"luvdregan.example/resb/deploy/internal/wire"
)

// A payload is a bundle that a request has, in which nothing is refused yet.
type payload struct {
	locale string // as given
	kind   string // or "" if nothing says it
	body   []byte
}

// payloadOf finds the form of the body: the suffix of the name says it, or else the type.
func payloadOf(c *call, name string) payload {
	if locale, form, ok := wire.FormOf(name); ok {
		return payload{locale: locale, kind: form.Kind}
	}
	p := payload{locale: name}
	kind, parameters, err := mime.ParseMediaType(c.R.Header.Get("Content-Type"))
	set, there := parameters["charset"]
	switch {
	case err != nil:
	case kind == wire.Text && (!there || strings.EqualFold(set, "utf-8") || strings.EqualFold(set, "us-ascii")):
		p.kind = engine.Text
	case kind == wire.File:
		p.kind = engine.File
	case kind == wire.JSON:
		p.kind = convert.JSON
	}
	return p
}

// accept refuses a body that says in no way, or in a wrong one, what it is.
func (p *payload) accept(c *call) error {
	switch {
	case p.kind == "" || isEncoded(c):
		return wire.BadType
	case c.R.Header.Get("Content-Range") != "": // a part would replace the whole (RFC 9110, 14.4)
		return wire.BadLength
	}
	return nil
}

func isEncoded(c *call) bool {
	encoding := c.R.Header.Get("Content-Encoding")
	return encoding != "" && !strings.EqualFold(encoding, "identity")
}

// read reads the body.
func (p *payload) read(c *call) (err error) {
	p.body, err = c.Body(mostOf(c, p.kind))
	return err
}

// mostOf returns the most bytes of a body.
func mostOf(c *call, kind string) int64 {
	if kind == engine.File {
		return c.Options.FileBytes
	}
	return c.Options.TextBytes
}

// otherName returns what is doubtful about the name of a text that is put as a locale, or "".
func (p *payload) otherName() string {
	name, ok := names.InText(p.body)
	if p.kind != engine.Text || !ok {
		return ""
	}
	locale, _ := names.Canonical(p.locale)
	if is, _ := names.Canonical(name); is == locale {
		return ""
	}
	return fmt.Sprintf("the text has the name '%.80s', and it is put as '%.80s'", name, locale)
}

// put answers PUT and POST of a bundle.
func put(c *call) error {
	given := payloadOf(c, c.Parts[0])
	c.Asked(given.locale, nil)
	edit := replica.Edit{}
	edit.If, edit.MustBeAbsent = condition(c, &edit), c.R.Method == http.MethodPost
	if err := readPut(c, &given, &edit); err != nil {
		return err
	}
	c.Asked(given.locale, given.body)
	defer func() { edit.Bundle.Discard() }()
	if err := prepare(c, &edit, given); err != nil {
		return explained(c, err, given)
	}
	return makeEdit(c, "put", &edit, given.otherName())
}

// readPut reads the bundle of a PUT or POST. If its condition doesn't hold it is refused before the body is sent, unless that may be what is there,
// or the gateway may be behind another one.
func readPut(c *call, given *payload, edit *replica.Edit) (err error) {
	if err := given.accept(c); err != nil {
		return err
	}
	if edit.Locale, err = localeIn(given.locale); err != nil {
		return err
	}
	now := c.Backend.Now(c.App)
	b := now.Find(edit.Locale)
	if edit.If != nil && c.Options.Alone && !edit.If(b) && (b == nil || given.kind != convert.JSON && b.Bytes != c.R.ContentLength) {
		c.Tell(now.Revision)
		return wire.Unmet
	}
	if err := given.read(c); err != nil {
		return err
	}
	if reason := given.otherName(); reason != "" && c.Asks("strict") {
		p := wire.OtherName
		p.Message = reason
		return p
	}
	return nil
}

// localeIn returns the name under which a bundle of a locale is stored.
func localeIn(given string) (string, error) {
	if name, ok := names.Canonical(given); ok {
		return name, nil
	}
	return "", wire.BadLocale
}

// condition returns the condition of the request for the bundle that an edit changes, or nil.
func condition(c *call, edit *replica.Edit) func(*manifest.Bundle) bool {
	given := wire.ConditionsOf(c.R.Header)
	if !given.Any() {
		return nil
	}
	return func(now *manifest.Bundle) bool { return given.Hold(now, edit.Digest) }
}

// prepare reads and checks the bundle of an edit, once it is the turn of the application. JSON is stored as a text.
func prepare(c *call, edit *replica.Edit, given payload) error {
	return c.Long(c.Context(), int64(len(given.body)), func() (err error) {
		if given.kind == convert.JSON {
			if given.body, err = convert.To(engine.Text, edit.Locale, convert.JSON, given.body); err != nil {
				return err
			}
			if int64(len(given.body)) > c.Options.TextBytes {
				return wire.TooLarge
			}
			if err = c.Hold(int64(len(given.body))); err != nil {
				return err
			}
			given.kind = engine.Text
		}
		return prepareNow(edit, given.kind, given.body)
	})
}

func prepareNow(edit *replica.Edit, kind string, body []byte) (err error) {
	edit.Kind, edit.Body, edit.Digest = kind, body, manifest.DigestOf(body)
	if edit.Bundle, err = engine.Prepare(kind, body); err == nil {
		edit.Compiled = edit.Bundle.Compiled()
	}
	return err
}

// change has a change made. It tells the revision that it made, or against which it was judged.
func change(c *call, q replica.Request) (made *manifest.Manifest, same bool, err error) {
	q.App, q.Who = c.App, c.Who.Name()
	q.IsGone = func() bool { return c.R.Context().Err() != nil }
	maker := c.Tokens.Maker(c.Who)
	q.Mine = func(name string) bool {
		return (c.Who.Somewhere(name, time.Now())|maker.Somewhere(name, time.Now()))&(auth.Edit|auth.Release) != 0
	}
	made, same, err = c.Backend.Change(c.Context(), q)
	if made != nil {
		c.Tell(made.Revision)
	}
	return made, same, err
}

// makeEdit has one edit made.
func makeEdit(c *call, op string, edit *replica.Edit, warning string) error {
	made, same, err := change(c, replica.Request{Op: op, Make: func(context.Context, *replica.View) ([]replica.Edit, error) {
		return []replica.Edit{*edit}, nil
	}})
	if err != nil {
		return err
	}
	return done(c, edit, !same && made.Made[0].Op == manifest.Install, warning)
}

// done answers that a change was made, or that all is as it asks already. If a bundle is there now, the tag is its own.
func done(c *call, edit *replica.Edit, isNew bool, warning string) error {
	c.NoStore()
	status := http.StatusOK
	h := c.W.Header()
	if edit.Digest != "" {
		h.Set("ETag", wire.BundleTag(edit.Digest, ""))
		if isNew {
			status = http.StatusCreated
			h.Set("Location", "/v1/"+c.App+"/"+edit.Locale)
		}
	}
	reply := struct {
		OK      bool   `json:"ok"`
		Warning string `json:"warning,omitempty"`
	}{true, warning}
	return c.Write(status, front.JSONType, append(convert.Marshal(reply), '\n'))
}

// remove answers DELETE of a bundle.
func remove(c *call) (err error) {
	given, _, _ := wire.FormOf(c.Parts[0])
	c.Asked(given, nil)
	edit := replica.Edit{}
	edit.If = condition(c, &edit)
	if edit.Locale, err = localeIn(given); err != nil {
		return err
	}
	_, _, err = change(c, replica.Request{Op: "remove", Make: func(_ context.Context, now *replica.View) ([]replica.Edit, error) {
		if edit.If != nil && now.Find(edit.Locale) == nil && beforeLast(c, edit.Locale, nil, edit.If) != nil {
			return nil, nil // it is removed already
		}
		return []replica.Edit{edit}, nil
	}})
	if err != nil {
		return err
	}
	return done(c, &edit, false, "")
}

// setDefault sets the locale for callers none of whose languages has a bundle. An empty one is root.
func setDefault(c *call) (err error) {
	given := c.Query["locale"]
	if len(given) != 1 {
		return wire.BadQuery.With("?locale= must be there once")
	}
	locale := given[0]
	if c.Asked(locale, nil); locale != "" {
		if locale, err = localeIn(locale); err != nil {
			return err
		}
	}
	if _, _, err := change(c, replica.Request{Op: "default", Default: &locale}); err != nil {
		return err
	}
	return done(c, &replica.Edit{}, false, "")
}

// explanations is how long the reason of a refusal may take.
const explanations = 10 * time.Second

// explained returns why a bundle isn't one: the code and the line of its first error, and what is known of it, if that is found in time.
func explained(c *call, err error, given payload) error {
	var fault *engine.Fault
	if !errors.As(err, &fault) {
		return err
	}
	p := wire.ProblemWith(map[string]string{engine.Text: "BadText", engine.File: "BadFile", convert.JSON: "BadText"}[given.kind])
	p.Fault, p.Line = fault.Code, int(fault.Line)
	ctx, cancel := context.WithTimeout(c.R.Context(), explanations)
	defer cancel()
	_ = c.Work(ctx, func() error { // without a reason the code remains
		p.Message = convert.Explain(fault, given.kind, given.body)
		return nil
	})
	return p
}

// erase removes the bundles of the application and its history, if the query asks for it: for good, or until that is undone.
func erase(c *call) error {
	asked, is := c.Query["erase"]
	if c.Note = strings.Join(asked, " "); !is || c.Note != "" && c.Note != "true" && c.Note != "now" {
		return wire.BadQuery.With("?erase erases until that is undone, ?erase=now for good")
	}
	q := replica.Request{Op: "erase", Erase: true}
	if c.Note != "now" {
		q.Undoable = c.Options.EraseAfter
	}
	if _, _, err := change(c, q); err != nil {
		return err
	}
	return done(c, &replica.Edit{}, false, "")
}

// undoErase makes what the last erasure removed, except bundles that are there again.
func undoErase(c *call) error {
	_, _, err := change(c, replica.Request{Op: "undo", Undo: true})
	if errors.Is(err, store.ErrNoVersion) {
		return wire.ProblemOf(err).With("there is no erasure that can still be undone")
	}
	if err != nil {
		return err
	}
	return done(c, &replica.Edit{}, false, "")
}
