// Package convert writes bundles in other forms, merges patches into them, and finds the items that differ. It says why a bundle is refused and
// what is doubtful in it.
package convert

import (
	"bytes"
	_ "embed" // for the meanings
	"errors"
	"fmt"
	"strings"

	"luvdregan.example/resb/deploy/internal/engine"
	resb "luvdregan.example/resb/library/go"
)

// The errors of a conversion.
var (
	ErrTime   = errors.New("the conversion took too long")
	ErrOutput = errors.New("the result is too long")
)

// JSON is the kind of a text of JSON, beside those of bundles.
const JSON = "json"

// To returns a body of a bundle as one of another kind: a text, named after its locale, a file, or a line of JSON.
func To(as, locale, kind string, body []byte) (made []byte, err error) {
	if as == kind {
		return body, nil
	}
	prepare := func() (*resb.Bundle, error) { return resb.Prepare(body, kind == engine.Text) }
	if kind == JSON {
		prepare = func() (*resb.Bundle, error) { return resb.PrepareJSON(body) }
	}
	b, err := prepare()
	if err != nil {
		return nil, engine.FaultOf(err)
	}
	defer b.Discard()
	switch as {
	case engine.Text:
		var text string
		text, err = b.Text(locale)
		made = []byte(text)
	case engine.File:
		made, err = b.File()
	default:
		made, err = b.JSON()
		made = append(made, '\n')
	}
	return made, engine.FaultOf(err)
}

// rows are the meanings of the codes of files and of JSON, as `resb explain` has them.
//
//go:embed meanings
var rows string

// Explain returns what is known of a fault of a body: what `resb lint` says there, or what its code means; or "".
func Explain(fault *engine.Fault, kind string, body []byte) (message string) {
	if version, is := icuFormat(body); is && kind == engine.File && fault.Code == "FormatVersion" {
		return fmt.Sprintf("the file has ICU's format %d, and format 1 is read: icu2text makes a text of it, or genrb --formatVersion 1 such a file",
			version)
	}
	if kind == engine.Text {
		found, _, _ := resb.Lint(body, "", 0) // without memory the code remains
		for _, one := range found {
			message = strings.TrimPrefix(one.Message, fault.Code+": ")
		}
		return message
	}
	_, rest, _ := strings.Cut("\n"+rows, "\n"+kind+" "+fault.Code+"\t")
	message, _, _ = strings.Cut(rest, "\n")
	return message
}

// icuFormat returns the version of the format of a file that begins as ICU's bundles do.
func icuFormat(body []byte) (version int, is bool) {
	if len(body) < 17 || !bytes.Equal(body[2:4], []byte{0xda, 0x27}) || string(body[12:16]) != "ResB" {
		return 0, false
	}
	return int(body[16]), true
}

// A Warning is what is doubtful in a line of a text. Column counts UTF-16 code units from 1, and Rule is the warning's name.
type Warning struct {
	Line    uint64 `json:"line"`
	Column  uint64 `json:"column,omitempty"`
	Rule    string `json:"rule,omitempty"`
	Message string `json:"message"`
}

// mostWarnings is how many warnings of a text are returned.
const mostWarnings = 1000

// Warnings returns what `resb lint` warns of in a text.
func Warnings(text []byte) (all []Warning, err error) {
	found, _, err := resb.Lint(text, "", mostWarnings)
	for _, one := range found {
		if !one.IsError {
			all = append(all, Warning{one.Line, one.Column, one.Rule, one.Message})
		}
	}
	return all, err
}
