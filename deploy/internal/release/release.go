// Package release takes the body of a release apart: an archive of tar or zip, or lines of JSON.
package release

import (
	"archive/tar"
	"archive/zip"
	"bufio"
	"bytes"
	"encoding/hex"
	"encoding/json"
	"errors"
	"fmt"
	"io"
	"net/http"
	"path"
	"strings"
	"unicode/utf8"

	"luvdregan.example/resb/deploy/internal/convert"
	"luvdregan.example/resb/deploy/internal/engine"
	"luvdregan.example/resb/deploy/internal/names"
)

// Most is the most changes of a release: as many as an application may have bundles.
const Most = 4096

// An Entry is a change of a release. Without a kind it removes. Name is what callers know it by. If has its condition as the headers of a request
// for the bundle alone, or is nil.
type Entry struct {
	Name, Locale, Kind string
	Body               []byte
	If                 http.Header
}

// A Bad is the error of a release that can't be read.
type Bad struct{ Name, Reason string }

func (b *Bad) Error() string { return b.Name + ": " + b.Reason }

// Limits are the most bytes: of all contents, of a text, of a file. Hold counts memory before it is taken.
type Limits struct {
	All, Text, File int64
	Hold            func(bytes int64) error
}

type reader struct {
	Limits
	entries []Entry
	locales map[string]bool
}

// Types are those of the bodies that Read takes.
var Types = []string{"application/x-tar", "application/zip", "application/x-ndjson"}

// Takes returns true for the type of a body that Read takes.
func Takes(kind string) bool { return kind == Types[0] || kind == Types[1] || kind == Types[2] }

// Read reads a release. The error is a *Bad if it can't be read.
func Read(kind string, body []byte, l Limits) ([]Entry, error) {
	r := &reader{Limits: l, locales: map[string]bool{}}
	err := map[string]func([]byte) error{Types[0]: r.tar, Types[1]: r.zip, Types[2]: r.lines}[kind](body)
	return r.entries, err
}

// add adds a change.
func (r *reader) add(e Entry) error {
	name, ok := names.Canonical(e.Locale)
	switch {
	case r.locales[name]:
		return &Bad{e.Name, "another entry has the locale " + name}
	case len(r.entries) == Most:
		return &Bad{e.Name, fmt.Sprintf("there are more than %d entries", Most)}
	case e.Kind == engine.Text && !utf8.Valid(e.Body):
		return &Bad{e.Name, "the text isn't UTF-8"}
	case e.Kind != engine.File && int64(len(e.Body)) > r.Text, e.Kind == engine.File && int64(len(e.Body)) > r.File:
		return &Bad{e.Name, "it is too long"}
	}
	if ok {
		e.Locale = name
	}
	r.locales[name] = true
	r.entries = append(r.entries, e)
	return nil
}

// file adds a file of an archive: LOCALE.txt or LOCALE.res, in any folder.
func (r *reader) file(name string, size int64, content io.Reader) error {
	base := path.Base(name)
	e := Entry{Name: name, Locale: strings.TrimSuffix(base, ".txt"), Kind: engine.Text}
	if e.Locale == base {
		e.Locale, e.Kind = strings.TrimSuffix(base, ".res"), engine.File
	}
	switch {
	case e.Locale == base:
		return &Bad{name, "the name is neither LOCALE.txt nor LOCALE.res"}
	case size < 0 || size > r.All:
		return &Bad{name, "the release is too long"}
	}
	if err := r.Hold(size); err != nil {
		return err
	}
	r.All -= size
	e.Body = make([]byte, size)
	if _, err := io.ReadFull(content, e.Body); err != nil {
		return &Bad{name, "it can't be read: " + err.Error()}
	}
	switch _, err := io.ReadFull(content, make([]byte, 1)); {
	case err == nil:
		return &Bad{name, "it is longer than the archive says"}
	case !errors.Is(err, io.EOF): // only here a zip says that it is longer, or has another checksum
		return &Bad{name, "it can't be read: " + err.Error()}
	}
	return r.add(e)
}

// tar reads an archive of tar.
func (r *reader) tar(body []byte) error {
	from := tar.NewReader(bytes.NewReader(body))
	for {
		head, err := from.Next()
		switch {
		case errors.Is(err, io.EOF):
			return nil
		case err != nil:
			return &Bad{"", "this is no archive of tar: " + err.Error()}
		case head.Typeflag == tar.TypeDir:
		case head.Typeflag != tar.TypeReg:
			return &Bad{head.Name, "it is no regular file"}
		default:
			if err := r.file(head.Name, head.Size, from); err != nil {
				return err
			}
		}
	}
}

// zip reads an archive of zip.
func (r *reader) zip(body []byte) error {
	from, err := zip.NewReader(bytes.NewReader(body), int64(len(body)))
	if err != nil {
		return &Bad{"", "this is no archive of zip: " + err.Error()}
	}
	for _, f := range from.File {
		if f.FileInfo().IsDir() {
			continue
		}
		if !f.Mode().IsRegular() {
			return &Bad{f.Name, "it is no regular file"}
		}
		content, err := f.Open()
		if err != nil {
			return &Bad{f.Name, "it can't be read: " + err.Error()}
		}
		err = r.file(f.Name, int64(f.UncompressedSize64), content)
		_ = content.Close()
		if err != nil {
			return err
		}
	}
	return nil
}

// lines reads objects with `locale`, and `text`, `file` in hexadecimal, `json`, or `remove`; and perhaps `if`.
func (r *reader) lines(body []byte) error {
	lines := bufio.NewReader(bytes.NewReader(body))
	for n := 1; ; n++ {
		text, err := lines.ReadBytes('\n')
		if len(bytes.TrimSpace(text)) > 0 {
			if err := r.line(fmt.Sprintf("line %d", n), text); err != nil {
				return err
			}
		}
		if err != nil {
			return nil
		}
	}
}

func (r *reader) line(name string, text []byte) error {
	if err := r.Hold(int64(len(text))); err != nil {
		return err
	}
	one, err := lineOf(text)
	if err != nil {
		return &Bad{name, err.Error()}
	}
	given := 0
	e := Entry{Name: name}
	if one.Text != nil {
		given++
		e.Kind, e.Body = engine.Text, []byte(*one.Text)
	}
	if one.JSON != nil {
		given++
		e.Kind, e.Body = convert.JSON, one.JSON
	}
	if one.Remove {
		given++
	}
	if one.File != nil {
		given++
		body, err := hex.DecodeString(*one.File)
		if err != nil {
			return &Bad{name, "the file isn't hexadecimal"}
		}
		e.Kind, e.Body = engine.File, body
	}
	if one.Locale == nil || given != 1 {
		return &Bad{name, "it needs locale, and one of text, file, json and remove"}
	}
	e.Locale = strings.ToValidUTF8(*one.Locale, "\uFFFD")
	if e.If, err = conditionOf(one.If); err != nil {
		return &Bad{name, err.Error()}
	}
	return r.add(e)
}

// A line is one of a release.
type line struct {
	Locale, Text, File *string
	Remove             bool
	JSON, If           json.RawMessage
}

// conditionOf reads the member `if`: the tag that the bundle must have, or null if there must be none.
func conditionOf(value json.RawMessage) (http.Header, error) {
	var tag *string
	switch err := json.Unmarshal(value, &tag); {
	case value == nil:
		return nil, nil
	case err == nil && tag == nil:
		return http.Header{"If-None-Match": {"*"}}, nil
	case err == nil && (*tag == "*" || len(*tag) > 1 && strings.HasPrefix(*tag, `"`) && strings.HasSuffix(*tag, `"`)):
		return http.Header{"If-Match": {*tag}}, nil
	}
	return nil, errors.New("if is null, or a tag with its quotes")
}

// lineOf reads a line. Each member is there at most once, with its own name: encoding/json would take the last one of several, and names in
// other case.
func lineOf(text []byte) (one line, err error) {
	from := json.NewDecoder(bytes.NewReader(text))
	if token, err := from.Token(); err != nil || token != json.Delim('{') {
		return one, errors.New("it is no object of JSON")
	}
	members := map[string]any{"locale": &one.Locale, "text": &one.Text, "file": &one.File, "json": &one.JSON, "remove": &one.Remove, "if": &one.If}
	for from.More() {
		token, err := from.Token()
		name, _ := token.(string)
		if err != nil {
			return one, err
		}
		member, known := members[name]
		if !known {
			return one, fmt.Errorf("the member %.40q is unknown, or there twice", name)
		}
		delete(members, name)
		if err := from.Decode(member); err != nil {
			return one, fmt.Errorf("%s: %w", name, err)
		}
	}
	if _, err := from.Token(); err != nil {
		return one, err
	}
	if _, err := from.Token(); !errors.Is(err, io.EOF) {
		return one, errors.New("more than one value")
	}
	return one, nil
}
