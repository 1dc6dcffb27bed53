package settings

import (
	"bytes"
	"encoding/json"
	"errors"
	"flag"
	"fmt"
	"os"
	"strings"
	"time"
)

// notInFile are the options that only a command line has.
var notInFile = map[string]bool{"config": true, "check-config": true, "version": true}

// readConfig sets the options that a file of JSON has and the command line hasn't.
func (s *Settings) readConfig(f *flag.FlagSet) error {
	content, err := os.ReadFile(s.config)
	if err != nil {
		return s.Wrong("config", ": %w", err)
	}
	s.lines = map[string]int{}
	if line, err := s.setOptions(f, content); err != nil {
		return fmt.Errorf("%s: line %d: %w", s.config, line, err)
	}
	return nil
}

// setOptions sets the options of a file. It returns the line of the error.
func (s *Settings) setOptions(f *flag.FlagSet, content []byte) (line int, err error) {
	lineAt := func(at int64) int { return 1 + bytes.Count(content[:at], []byte("\n")) }
	var whole map[string]json.RawMessage
	var syntax *json.SyntaxError
	err = json.Unmarshal(content, &whole)
	switch {
	case errors.As(err, &syntax) && syntax.Offset > 0:
		return lineAt(syntax.Offset - 1), err // the offset is after the character that is wrong
	case errors.As(err, &syntax):
		return 1, err
	case err != nil || whole == nil:
		return 1, errors.New("the file must be a JSON object")
	}
	d := json.NewDecoder(bytes.NewReader(content))
	d.UseNumber()
	for _, err = d.Token(); err == nil && d.More(); {
		var key json.Token
		var value any
		key, err = d.Token()
		name := fmt.Sprint(key)
		of := f.Lookup(name)
		line = lineAt(d.InputOffset())
		switch {
		case err != nil:
		case s.lines[name] > 0:
			err = fmt.Errorf("%q is there twice", name)
		case of == nil || notInFile[name]:
			err = fmt.Errorf("there is no option %q", name)
		default:
			s.lines[name] = line
			if err = d.Decode(&value); err == nil {
				err = setOption(of, value, !s.given[name])
			}
		}
	}
	return line, err
}

// setOption checks the value of an option, and sets it.
func setOption(of *flag.Flag, value any, sets bool) error {
	texts, wants := textsOf(of.Value, value)
	if wants != "" {
		return fmt.Errorf("%q must be %s", of.Name, wants)
	}
	for i := 0; i < len(texts) && sets; i++ {
		if err := of.Value.Set(texts[i]); err != nil {
			return fmt.Errorf("%q can't be %s: %w", of.Name, texts[i], err)
		}
	}
	return nil
}

// textsOf returns a JSON value as the command line would have it, or what the option wants instead.
func textsOf(of flag.Value, value any) (texts []string, wants string) {
	kinds, wants := "json.Number", "a number"
	switch of := of.(type) {
	case *listValue:
		kinds, wants = "[]interface {}", "a list of texts"
	case *bytesValue:
		kinds, wants = "json.Number string", "a number of bytes, or a text such as \"4G\""
	case flag.Getter:
		switch of.Get().(type) {
		case bool:
			kinds, wants = "bool", "true or false"
		case string:
			kinds, wants = "string", "a text"
		case time.Duration:
			kinds, wants = "string", "a text such as \"30s\""
		}
	}
	list, isList := value.([]any)
	if !isList {
		list = []any{value}
	}
	fits := strings.Contains(kinds, fmt.Sprintf("%T", value))
	for _, one := range list {
		_, isText := one.(string)
		texts, fits = append(texts, fmt.Sprint(one)), fits && (isText || !isList)
	}
	if fits {
		wants = ""
	}
	return texts, wants
}
