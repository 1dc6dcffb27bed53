package api

import (
	"context"
	"errors"
	"mime"
	"time"

	"luvdregan.example/resb/deploy/internal/convert"
	"luvdregan.example/resb/deploy/internal/engine"
	"luvdregan.example/resb/deploy/internal/manifest"
	"luvdregan.example/resb/deploy/internal/replica"
	"luvdregan.example/resb/deploy/internal/wire"
)

// patch changes items of a bundle by a merge patch of its JSON. The bundle keeps the form in which it was submitted.
func patch(c *call) error {
	given, _, _ := wire.FormOf(c.Parts[0])
	c.Asked(given, nil)
	kind, _, err := mime.ParseMediaType(c.R.Header.Get("Content-Type"))
	if err != nil || kind != wire.Patch || isEncoded(c) {
		c.W.Header().Set("Accept-Patch", wire.Patch)
		return wire.BadType
	}
	locale, err := localeIn(given)
	if err != nil {
		return err
	}
	body, err := c.Body(c.Options.TextBytes)
	if err != nil {
		return err
	}
	c.Asked(given, body)
	err = c.Long(c.Context(), int64(len(body)), func() error { return convert.CheckPatch(body, c.Hold) })
	if err == nil {
		err = makePatch(c, locale, body)
	}
	return placed(c, err)
}

// makePatch merges the patch into the bundle that is there, and does it again if another change came first.
func makePatch(c *call, locale string, patch []byte) error {
	var edit replica.Edit
	defer func() { edit.Bundle.Discard() }()
	holds, before := condition(c, &edit), c.Ticket.Held()
	_, _, err := change(c, replica.Request{Op: "patch", Make: func(ctx context.Context, now *replica.View) ([]replica.Edit, error) {
		edit.Bundle.Discard()
		c.Ticket.Free(before)
		edit = replica.Edit{}
		edit.If, edit.Locale = holds, locale
		b := now.Find(locale)
		from := b
		if holds != nil && !holds(b) {
			from = beforeLast(c, locale, b, holds)
		}
		switch {
		case from == nil && holds != nil:
			return nil, &manifest.Refusal{Code: manifest.Unmet, Locale: locale}
		case from == nil:
			return nil, wire.Absent.With("there is no bundle to change; PUT or POST installs one")
		}
		err := c.Work(ctx, func() error { return merge(c, &edit, *from, patch) })
		return []replica.Edit{edit}, err // which is refused if it doesn't make what is there
	}})
	if err != nil {
		return err
	}
	return done(c, &edit, false, "")
}

// beforeLast returns what a bundle, or nil for none, was before its last change if a condition holds for that: then that change may be this one, whose
// answer was lost.
func beforeLast(c *call, locale string, now *manifest.Bundle, holds func(*manifest.Bundle) bool) *manifest.Bundle {
	some, err := c.Backend.History(c.Context(), c.App, 0, someHistory)
	if err != nil {
		return nil
	}
	is := manifest.Bundle{Locale: locale, At: time.Now().UnixMilli()}
	if now != nil {
		is = *now
	}
	for _, m := range some {
		for i := range m.Made {
			if made := &m.Made[i]; made.Locale == locale {
				return made.Before(is, holds)
			}
		}
	}
	return nil
}

// merge makes the edit of a patch.
func merge(c *call, edit *replica.Edit, b manifest.Bundle, patch []byte) error {
	body, err := load(c, b)
	if err != nil {
		return err
	}
	made, same, err := convert.Patched(b, body, patch, c.Hold)
	switch {
	case err != nil:
		return err
	case same:
		edit.Kind, edit.Body, edit.Digest, edit.Compiled = b.Kind, body, b.Digest, b.Compiled
		return nil
	case int64(len(made)) > mostOf(c, b.Kind):
		return wire.TooLarge
	}
	return prepareNow(edit, b.Kind, made)
}

// placed returns the problem of a patch with its place, if it is an error of that.
func placed(c *call, err error) error {
	var fault *convert.JSONFault
	if !errors.As(err, &fault) {
		return err
	}
	var p wire.Problem
	errors.As(explained(c, &engine.Fault{Code: fault.Code, Line: uint64(fault.Line)}, payload{kind: convert.JSON}), &p)
	p.Code, p.Column, p.Path = "BadPatch", fault.Column, &fault.Path
	return p
}
