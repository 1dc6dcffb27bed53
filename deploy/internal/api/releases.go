package api

import (
	"context"
	"errors"
	"mime"
	"strconv"

	"luvdregan.example/resb/deploy/internal/auth"
	"luvdregan.example/resb/deploy/internal/convert"
	"luvdregan.example/resb/deploy/internal/engine"
	"luvdregan.example/resb/deploy/internal/manifest"
	"luvdregan.example/resb/deploy/internal/release"
	"luvdregan.example/resb/deploy/internal/replica"
	"luvdregan.example/resb/deploy/internal/wire"
)

// makeRelease makes several changes, all or none.
func makeRelease(c *call) error {
	entries, err := readRelease(c)
	if err != nil {
		return err
	}
	edits := make([]replica.Edit, len(entries))
	defer discard(edits)
	byLocale := map[string]string{}
	for i, e := range entries {
		byLocale[e.Locale] = e.Name
		if err := prepareEntry(c, &edits[i], e); err != nil {
			return named(err, e.Name)
		}
	}
	return makeAll(c, "release", edits, func(locale string) string { return byLocale[locale] })
}

func discard(edits []replica.Edit) {
	for _, e := range edits {
		e.Bundle.Discard()
	}
}

// makeAll has edits made, all or none, if the application has the revision that the request names, or if all are made already. A function names
// the edit of a locale for its refusal.
func makeAll(c *call, op string, edits []replica.Edit, nameOf func(locale string) string) error {
	made, same, err := change(c, replica.Request{Op: op, Make: func(_ context.Context, now *replica.View) ([]replica.Edit, error) {
		left := needed(edits, now)
		given := c.R.Header["If-Match"]
		if len(left) > 0 && len(given) > 0 && !wire.IsOneOf(strconv.Quote(now.Header()[0]), given) {
			return nil, &manifest.Refusal{Code: manifest.Unmet}
		}
		return left, nil
	}})
	var refusal *manifest.Refusal
	if errors.As(err, &refusal) {
		return named(err, nameOf(refusal.Locale))
	}
	if err != nil {
		return err
	}
	reply := map[string]any{"changes": len(edits), "ok": true}
	if !same { // a token that releases needn't read the history to take this back
		reply["id"] = idAt(made, 0)
	}
	return c.Reply(reply)
}

// named returns the problem of an entry of a release.
func named(err error, name string) error {
	p := wire.ProblemOf(err)
	if p == wire.Failed {
		return err
	}
	p.Name = name
	return p
}

// readRelease reads the entries of a release.
func readRelease(c *call) (entries []release.Entry, err error) {
	kind, _, _ := mime.ParseMediaType(c.R.Header.Get("Content-Type"))
	if !release.Takes(kind) || c.R.Header.Get("Content-Encoding") != "" {
		return nil, wire.BadType
	}
	body, err := c.Body(c.Options.ReleaseBytes)
	if err != nil {
		return nil, err
	}
	err = c.Work(c.Context(), func() (err error) { // also if it is short: it may be compressed
		entries, err = release.Read(kind, body, release.Limits{All: c.Options.ReleaseBytes, Text: c.Options.TextBytes, File: c.Options.FileBytes, Hold: c.Hold})
		return err
	})
	var bad *release.Bad
	if errors.As(err, &bad) {
		p := wire.ProblemWith("BadRelease")
		p.Name, p.Message = bad.Name, bad.Reason
		return nil, p
	}
	return entries, err
}

// prepareEntry makes the edit of an entry, which without a kind is a removal.
func prepareEntry(c *call, edit *replica.Edit, e release.Entry) (err error) {
	c.Asked(e.Locale, e.Body)
	if err := c.Permit(auth.Release, e.Locale); err != nil {
		return err
	}
	if e.If != nil {
		holds := wire.ConditionsOf(e.If)
		edit.If = func(now *manifest.Bundle) bool { return holds.Hold(now, "") }
	}
	if edit.Locale = e.Locale; e.Kind == "" {
		return nil
	}
	if _, err := localeIn(e.Locale); err != nil {
		return err
	}
	given := payload{e.Locale, e.Kind, e.Body}
	if err := prepare(c, edit, given); err != nil {
		return explained(c, err, given)
	}
	return nil
}

// needed returns the edits that aren't made yet, so that a release may be repeated. Only these have conditions.
func needed(edits []replica.Edit, now *replica.View) []replica.Edit {
	all := make([]replica.Edit, 0, len(edits))
	for _, e := range edits {
		is := manifest.Digest("")
		if b := now.Find(e.Locale); b != nil {
			is = b.Digest
		}
		if is != e.Digest {
			all = append(all, e)
		}
	}
	return all
}

// A found error of a bundle that is checked.
type found struct {
	Code    string `json:"code"`
	Line    int    `json:"line,omitempty"`
	Message string `json:"message,omitempty"`
}

// check answers what is wrong or doubtful in a bundle, and stores nothing.
func check(c *call) error {
	given := payloadOf(c, c.Parts[1])
	if err := given.accept(c); err != nil {
		return err
	}
	if _, err := localeIn(given.locale); err != nil {
		return err
	}
	if err := given.read(c); err != nil {
		return err
	}
	var edit replica.Edit
	defer func() { edit.Bundle.Discard() }()
	faults, warnings := []found{}, []convert.Warning{}
	if err := prepare(c, &edit, given); err != nil {
		var p wire.Problem
		if err := explained(c, err, given); !errors.As(err, &p) {
			return err
		}
		faults = append(faults, found{p.Fault, p.Line, p.Message})
	}
	if given.kind == engine.Text {
		err := c.Work(c.Context(), func() error {
			more, err := convert.Warnings(given.body)
			warnings = append(warnings, more...)
			return err
		})
		if err != nil {
			return err
		}
	}
	if reason := given.otherName(); reason != "" {
		warnings = append(warnings, convert.Warning{Line: 1, Message: reason})
	}
	return c.Reply(map[string]any{"errors": faults, "warnings": warnings})
}
