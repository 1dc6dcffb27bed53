package front

import (
	"bytes"
	"context"
	"fmt"
	"log"
	"net/http"
	"net/http/httptest"
	"strings"
	"testing"

	"luvdregan.example/resb/deploy/tests/harness"
)

// Lines are those of a journal.
type lines []any

func (l *lines) Write(value any) { *l = append(*l, value) }

// TestAPanic logs a fault with its stack, and the request as failed in both journals; its connection is closed.
func TestAPanic(t *testing.T) {
	var text bytes.Buffer
	defer log.SetOutput(log.Writer())
	log.SetOutput(&text)
	var requests, changes lines
	h := &Handler{Options: Options{Access: &requests, Audit: &changes, Leaving: context.Background()}}
	h.Begin(nil)
	var end any
	func() {
		defer func() { end = recover() }()
		h.serve(httptest.NewRecorder(), httptest.NewRequest("PUT", "/v1/shop/de", nil), func(c *Call) error {
			c.Operation = &Operation{Action: "put"}
			c.Asked("de", nil)
			panic("a planted fault")
		})
	}()
	harness.Equal(t, end, http.ErrAbortHandler)
	if said := text.String(); !strings.Contains(said, "panic: a planted fault\n") || !strings.Contains(said, "front_test.go:") {
		t.Error(said)
	}
	if len(requests) != 1 || requests[0].(access).Status != 500 || len(changes) != 1 {
		t.Fatal(requests, changes)
	}
	one := changes[0].(audited)
	harness.Equal(t, fmt.Sprint(one.Action, " ", one.Locale, " ", one.Result), "put de Failed")
}
