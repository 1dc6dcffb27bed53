package harness

import (
	"encoding/json"
	"io"
	"net"
	"net/http"
	"strconv"
	"strings"
	"time"
)

// An Answer is a response with its body.
type Answer struct {
	Status int
	Header http.Header
	Body   string
	Length int64 // of the body, as the header says
}

// member returns a member of a reply that is a text.
func (a Answer) member(name string) (text string) {
	var reply map[string]json.RawMessage
	if json.Unmarshal([]byte(a.Body), &reply) == nil {
		_ = json.Unmarshal(reply[name], &text)
	}
	return text
}

// Error returns the error code of a reply.
func (a Answer) Error() string { return a.member("error") }

// Value returns the value of an item.
func (a Answer) Value() string { return a.member("value") }

// Tag returns the header ETag.
func (a Answer) Tag() string { return a.Header.Get("ETag") }

// Revision returns the header Resb-Revision, or -1.
func (a Answer) Revision() int64 {
	revision, err := strconv.ParseInt(a.Header.Get("Resb-Revision"), 10, 64)
	if err != nil {
		return -1
	}
	return revision
}

// Client speaks to gateways. Replies are read as they are sent.
var Client = &http.Client{Timeout: 2 * time.Minute,
	CheckRedirect: func(*http.Request, []*http.Request) error { return http.ErrUseLastResponse },
	Transport:     &http.Transport{MaxIdleConnsPerHost: 256, DisableCompression: true}}

// Send sends a request with headers in pairs, and returns the whole response.
func Send(client *http.Client, method, url, token, body string, headers ...string) (Answer, error) {
	var from io.Reader
	if body != "" {
		from = strings.NewReader(body)
	}
	r, err := http.NewRequest(method, url, from)
	if err != nil {
		return Answer{}, err
	}
	if token != "" {
		r.Header.Set("Authorization", "Bearer "+token)
	}
	for i := 0; i < len(headers); i += 2 {
		if headers[i+1] != "" {
			r.Header.Set(headers[i], headers[i+1])
		}
	}
	got, err := client.Do(r)
	if err != nil {
		return Answer{}, err
	}
	defer got.Body.Close()
	text, err := io.ReadAll(got.Body)
	return Answer{got.StatusCode, got.Header, string(text), got.ContentLength}, err
}

// Exchange sends bytes over a separate connection, says that no more come if cut is true, and returns
// all that comes back.
func Exchange(address, bytes string, cut bool) (string, error) {
	c, err := net.Dial("tcp", address)
	if err != nil {
		return "", err
	}
	defer c.Close()
	_ = c.SetDeadline(time.Now().Add(Generous))
	if _, err := io.WriteString(c, bytes); err != nil {
		return "", err
	}
	if cut {
		_ = c.(*net.TCPConn).CloseWrite()
	}
	text, err := io.ReadAll(c)
	return string(text), err
}
