// Package overhttp is a client of resb's gateway (deploy/gateway/README.md), with Go's standard library alone.
//
//	bundles := overhttp.New("http://127.0.0.1:6422", "shop", token)
//	text, err := bundles.Text(ctx, "de_AT", "menu/open")
package overhttp

import (
	"bytes"
	"context"
	"encoding/json"
	"errors"
	"fmt"
	"io"
	"net/http"
	"net/url"
	"strconv"
	"strings"
	"time"
)

// A Client asks for one application. It may be used by several goroutines at once.
type Client struct {
	HTTP     *http.Client  // by default it waits for two minutes, like the gateway
	Patience time.Duration // how long a request that can't be answered now is asked again

	base, token string
}

// New returns a client of the application at a gateway's address.
func New(gateway, app, token string) *Client {
	return &Client{HTTP: &http.Client{Timeout: 2 * time.Minute}, Patience: 30 * time.Second, base: strings.TrimSuffix(gateway, "/") + "/v1/" + url.PathEscape(app), token: token}
}

// An Error is a refusal. Code, Line and Message say why a bundle is refused; Name says which one of a release.
type Error struct {
	Status  int    `json:"-"`
	Word    string `json:"error"`
	Code    string `json:"code"`
	Line    int    `json:"line"`
	Message string `json:"message"`
	Name    string `json:"name"`
}

// Error returns the refusal in one line.
func (e *Error) Error() string {
	text := fmt.Sprintf("%d %s", e.Status, e.Word)
	if e.Name != "" {
		text += ": " + e.Name
	}
	if e.Code != "" {
		text += fmt.Sprintf(": line %d: %s", e.Line, e.Code)
	}
	if e.Message != "" {
		text += ": " + e.Message
	}
	return text
}

// Is returns true if an error is a refusal with this error code, such as Missing or PreconditionFailed.
func Is(err error, word string) bool {
	var refusal *Error
	return errors.As(err, &refusal) && refusal.Word == word
}

// An Item is what a lookup finds.
type Item struct {
	Actual string          `json:"actual"`
	Valid  string          `json:"valid"`
	Type   string          `json:"type"`
	Value  json.RawMessage `json:"value"`
	Keys   []string        `json:"keys"`
}

// A Bundle is what is installed, with its tag.
type Bundle struct {
	Body []byte
	Tag  string
}

// An Entry is a change of a release: a text, a file, or neither for a removal.
type Entry struct {
	Locale string
	Text   string
	File   []byte
	Remove bool
}

// Look looks an item up.
func (c *Client) Look(ctx context.Context, locale, path string) (item Item, err error) {
	reply, err := c.ask(ctx, http.MethodGet, address(locale, path), nil, "", "")
	if err != nil {
		return item, err
	}
	return item, json.Unmarshal(reply.Body, &item)
}

// Text returns the value of a String.
func (c *Client) Text(ctx context.Context, locale, path string) (text string, err error) {
	item, err := c.Look(ctx, locale, path)
	if err != nil {
		return "", err
	}
	return text, json.Unmarshal(item.Value, &text)
}

// Tree returns what an item, or with an empty path the bundle, has and inherits, as `resb json --inherit` prints it.
func (c *Client) Tree(ctx context.Context, locale, path string) (Bundle, error) {
	return c.ask(ctx, http.MethodGet, address(locale, path)+"?tree", nil, "", "")
}

// Names returns the locales of the application's bundles.
func (c *Client) Names(ctx context.Context) ([]string, error) {
	var found struct{ Names []string }
	reply, err := c.ask(ctx, http.MethodGet, "", nil, "", "")
	if err == nil {
		err = json.Unmarshal(reply.Body, &found)
	}
	return found.Names, err
}

// Get returns a bundle in a form: txt, res or json.
func (c *Client) Get(ctx context.Context, locale, form string) (Bundle, error) {
	return c.ask(ctx, http.MethodGet, address(locale+"."+form, ""), nil, "", "")
}

// PutText installs or replaces a bundle, and returns its tag. With a tag it changes nothing, and the error is PreconditionFailed, if
// the bundle isn't the one that the tag names.
func (c *Client) PutText(ctx context.Context, locale, text, tag string) (string, error) {
	reply, err := c.ask(ctx, http.MethodPut, address(locale+".txt", ""), []byte(text), "", tag)
	return reply.Tag, err
}

// Patch changes items of a bundle by a JSON merge patch (RFC 7396) in the form of `resb json`, and returns its tag: a nil member is
// removed. With a tag it changes nothing, and the error is PreconditionFailed, if the bundle isn't the one that the tag names.
func (c *Client) Patch(ctx context.Context, locale string, changes any, tag string) (string, error) {
	body, err := json.Marshal(changes)
	if err != nil {
		return "", err
	}
	reply, err := c.ask(ctx, http.MethodPatch, address(locale, ""), body, "application/merge-patch+json", tag)
	return reply.Tag, err
}

// Remove removes a bundle, or only the one that the tag names, if it isn't empty.
func (c *Client) Remove(ctx context.Context, locale, tag string) error {
	_, err := c.ask(ctx, http.MethodDelete, address(locale, ""), nil, "", tag)
	return err
}

// Release makes all changes or none.
func (c *Client) Release(ctx context.Context, entries []Entry) error {
	var lines bytes.Buffer
	to := json.NewEncoder(&lines)
	for _, e := range entries {
		line := map[string]any{"locale": e.Locale}
		switch {
		case e.Remove:
			line["remove"] = true
		case e.File != nil:
			line["file"] = fmt.Sprintf("%x", e.File)
		default:
			line["text"] = e.Text
		}
		if err := to.Encode(line); err != nil {
			return err
		}
	}
	_, err := c.ask(ctx, http.MethodPost, "/_releases", lines.Bytes(), "application/x-ndjson", "")
	return err
}

// address returns the address of an item, whose path has keys with slashes between them.
func address(locale, path string) string {
	text := "/" + url.PathEscape(locale)
	if path != "" {
		text += "/" + strings.ReplaceAll(url.PathEscape(path), "%2F", "/")
	}
	return text
}

// ask asks until the gateway answers, and returns the body with its tag.
func (c *Client) ask(ctx context.Context, method, path string, body []byte, kind, tag string) (Bundle, error) {
	end := time.Now().Add(c.Patience)
	for {
		reply, wait, err := c.once(ctx, method, path, body, kind, tag)
		if wait == 0 || time.Now().Add(wait).After(end) {
			return reply, err
		}
		select {
		case <-ctx.Done():
			return reply, ctx.Err()
		case <-time.After(wait):
		}
	}
}

// once asks once, and returns after how long to ask again, or 0.
func (c *Client) once(ctx context.Context, method, path string, body []byte, kind, tag string) (reply Bundle, wait time.Duration, err error) {
	request, err := http.NewRequestWithContext(ctx, method, c.base+path, bytes.NewReader(body))
	if err != nil {
		return reply, 0, err
	}
	request.Header.Set("Authorization", "Bearer "+c.token)
	for name, value := range map[string]string{"Content-Type": kind, "If-Match": tag} {
		if value != "" {
			request.Header.Set(name, value)
		}
	}
	got, err := c.HTTP.Do(request)
	if err != nil {
		return reply, 0, err
	}
	defer got.Body.Close()
	if reply.Body, err = io.ReadAll(got.Body); err != nil {
		return reply, 0, err
	}
	if reply.Tag = got.Header.Get("ETag"); got.StatusCode < 300 {
		return reply, 0, nil
	}
	if got.StatusCode == http.StatusTooManyRequests || got.StatusCode == http.StatusServiceUnavailable {
		seconds, err := strconv.Atoi(got.Header.Get("Retry-After"))
		if err != nil || seconds < 1 {
			seconds = 1
		}
		wait = time.Duration(seconds) * time.Second
	}
	refusal := &Error{Status: got.StatusCode}
	if json.Unmarshal(reply.Body, refusal) != nil {
		refusal.Message = strings.TrimSpace(string(reply.Body))
	}
	return reply, wait, refusal
}
