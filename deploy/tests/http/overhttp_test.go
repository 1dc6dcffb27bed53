package http

import (
	"context"
	"fmt"
	"io"
	"net/http"
	"net/http/httptest"
	"os"
	"reflect"
	"strings"
	"testing"
	"time"

	"luvdregan.example/resb/deploy/client/overhttp"
)

// TestTheClientInGo makes each call, and asks a server whose answer doesn't end.
func TestTheClientInGo(t *testing.T) {
	s := open(t)
	ctx, cancel := context.WithTimeout(context.Background(), generous)
	defer cancel()
	c := overhttp.New(s.URL+"/", "shop", shopWrites)
	// is fails unless a call ended with an error code, or none, and returned what it should
	is := func(code string, err error, got, want any) {
		t.Helper()
		isWrong := code != "" && !overhttp.Is(err, code) || code == "" && err != nil
		errorIf(t, isWrong || !reflect.DeepEqual(got, want), "%v: %v, and not %v", err, got, want)
	}
	tag, err := c.PutText(ctx, "de", `de{a{"A"}}`, "")
	is("", err, tag != "", true)
	text, err := c.Text(ctx, "de_AT", "a")
	is("", err, text, "A")
	b, err := c.Get(ctx, "de", "txt")
	is("", err, string(b.Body)+b.Tag, `de{a{"A"}}`+tag)
	_, err = c.PutText(ctx, "de", `de{a{"B"}}`, `"other"`)
	is("PreconditionFailed", err, nil, nil)
	_, err = c.PutText(ctx, "de", `de{a{"B"}}`, tag)
	is("", err, nil, nil)
	tree, err := c.Tree(ctx, "de_AT", "a")
	is("", err, string(tree.Body), "\"B\"\n")
	tag, err = c.Patch(ctx, "de", map[string]any{"a": nil, "b": map[string]any{"c": "C"}}, "")
	is("", err, tree.Tag != "" && tag != "", true)
	text, err = c.Text(ctx, "de", "b/c")
	is("", err, text, "C")
	_, err = c.Patch(ctx, "de", map[string]any{"c": "D"}, `"other"`)
	is("PreconditionFailed", err, nil, nil)
	_, err = c.Look(ctx, "de", "none")
	is("Missing", err, nil, nil)
	err = c.Release(ctx, []overhttp.Entry{{Locale: "fr", Text: `fr{a{"F"}}`}, {Locale: "de", Remove: true}})
	is("", err, nil, nil)
	names, err := c.Names(ctx)
	is("", err, names, []string{"fr"})
	err = c.Release(ctx, []overhttp.Entry{{Locale: "it", Text: "it{}"}, {Locale: "es", Text: "es{\n bad\u00e4 {}"}})
	is("BadText", err, strings.Contains(fmt.Sprint(err), "400 BadText: line 2: line 2: BadKey: "), true)
	is("PreconditionFailed", c.Remove(ctx, "fr", `"other"`), nil, nil)
	is("", c.Remove(ctx, "fr", ""), nil, nil)
	s.Restart()
	names, err = c.Names(ctx)
	is("", err, len(names), 0)
	c.Patience = time.Millisecond
	_, err = overhttp.New(s.URL, "bank", shopWrites).Names(ctx)
	is("Forbidden", err, nil, nil)
	stalled := httptest.NewServer(http.HandlerFunc(func(w http.ResponseWriter, r *http.Request) {
		_, _ = io.WriteString(w, "{")
		w.(http.Flusher).Flush()
		<-r.Context().Done()
	}))
	defer stalled.Close()
	c = overhttp.New(stalled.URL, "shop", shopWrites)
	errorIf(t, c.HTTP.Timeout < time.Minute || c.HTTP.Timeout > 5*time.Minute, "it waits for %v", c.HTTP.Timeout)
	c.HTTP.Timeout = 50 * time.Millisecond
	_, err = c.Names(ctx)
	errorIf(t, !os.IsTimeout(err), "%v", err)
}
