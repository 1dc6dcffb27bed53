package front

import (
	"crypto/sha256"
	"encoding/hex"
	"net/http"
	"strings"
	"time"

	"luvdregan.example/resb/deploy/internal/wire"
)

// A Journal writes values as lines of JSON; nil writes none. Tokens are never among them.
type Journal interface{ Write(value any) }

// An access is a line about a request.
type access struct {
	Time   string  `json:"time"`
	From   string  `json:"from"`
	Method string  `json:"method"`
	Path   string  `json:"path"`
	App    string  `json:"app,omitempty"`
	Token  string  `json:"token,omitempty"`
	Status int     `json:"status"`
	Sent   int     `json:"sent"`
	MS     float64 `json:"ms"`
	Agent  string  `json:"agent,omitempty"`
}

// An audited change. The result is `ok` or the error code.
type audited struct {
	Time   string `json:"time"`
	From   string `json:"from"`
	Token  string `json:"token"`
	App    string `json:"app"`
	Path   string `json:"path,omitempty"` // of a request that is no operation
	Action string `json:"action"`
	Locale string `json:"locale,omitempty"`
	ID     string `json:"id,omitempty"`   // of a token that is made or revoked
	Note   string `json:"note,omitempty"` // what ?erase= asks for; the application, rights and name of a token
	Bytes  int    `json:"bytes,omitempty"`
	SHA256 string `json:"sha256,omitempty"`
	Result string `json:"result"`
}

// mostLogged is the most bytes of a text of a caller in a log.
const mostLogged = 2048

func clip(text string) string {
	if len(text) > mostLogged {
		return text[:mostLogged] + ".."
	}
	return text
}

// logAccess writes the line of a request. The query is left out, since callers may put what they like there.
func (c *Call) logAccess(now time.Time) {
	if c.Options.Access == nil {
		return
	}
	c.Options.Access.Write(access{c.began.UTC().Format(time.RFC3339Nano), wire.Caller(c.R, c.Options.Proxies), c.R.Method,
		clip(c.R.URL.EscapedPath()), clip(c.App), c.name(), c.Status, c.Sent, float64(now.Sub(c.began).Microseconds()) / 1000, clip(c.R.UserAgent())})
}

// name returns the name of the token, or "" if it is unknown.
func (c *Call) name() string {
	if !c.known {
		return ""
	}
	return c.Who.Name()
}

// Asked notes what a change asks for, once for each locale; a later body replaces an earlier one.
func (c *Call) Asked(locale string, body []byte) {
	if c.Options.Audit == nil {
		return
	}
	line := audited{Locale: clip(locale), Bytes: len(body)}
	if body != nil {
		sum := sha256.Sum256(body)
		line.SHA256 = hex.EncodeToString(sum[:])
	}
	if last := len(c.edits) - 1; last >= 0 && c.edits[last].Locale == line.Locale {
		c.edits = c.edits[:last]
	}
	c.edits = append(c.edits, line)
}

// changing has the methods that ask for changes.
var changing = map[string]bool{http.MethodPut: true, http.MethodPost: true, http.MethodPatch: true, http.MethodDelete: true}

// logAudit writes the lines of a change that was made or refused, for whatever reason, also because no operation has its address or its method.
func (c *Call) logAudit(now time.Time) {
	action, path := c.Operation.Action, ""
	if c.Operation == &Other && changing[c.R.Method] && strings.HasPrefix(c.R.URL.Path, "/v1/") {
		action, path = strings.ToLower(c.R.Method), clip(c.R.URL.EscapedPath())
	}
	if c.Options.Audit == nil || action == "" {
		return
	}
	if len(c.edits) == 0 {
		c.edits = []audited{{}}
	}
	for _, line := range c.edits {
		line.Time, line.From, line.Token = now.UTC().Format(time.RFC3339Nano), wire.Caller(c.R, c.Options.Proxies), c.name()
		line.App, line.Path, line.Action, line.Result, line.ID, line.Note = clip(c.App), path, action, c.Code, clip(c.TokenID), clip(c.Note)
		if line.Result == "" {
			line.Result = "ok"
		}
		c.Options.Audit.Write(line)
	}
}
