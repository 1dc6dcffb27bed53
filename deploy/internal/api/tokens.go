package api

import (
	"net/http"
	"strings"
	"time"

	"luvdregan.example/resb/deploy/internal/auth"
	"luvdregan.example/resb/deploy/internal/convert"
	"luvdregan.example/resb/deploy/internal/front"
	"luvdregan.example/resb/deploy/internal/manifest"
	"luvdregan.example/resb/deploy/internal/replica"
	"luvdregan.example/resb/deploy/internal/wire"
)

// mostTokens is how many tokens an application has beside those of the operator's file.
const mostTokens = 100

// idDigits is how many digits of its hash name a token.
const idDigits = 16

// A madeToken describes a token of an application, but not the token itself unless it was made by this request.
type madeToken struct {
	By      string `json:"by,omitempty"` // the owner's token
	Expires string `json:"expires,omitempty"`
	ID      string `json:"id"`
	Locale  string `json:"locale,omitempty"`
	Name    string `json:"name,omitempty"`
	Rights  string `json:"rights"`
	Token   string `json:"token,omitempty"`
}

func madeTokenOf(line string, of *auth.Tokens) madeToken {
	g, err := auth.ParseLine(line)
	if g == nil || err != nil {
		return madeToken{}
	}
	m := madeToken{By: of.MakerOf(g), ID: g.Hash()[:idDigits], Locale: g.Locale, Name: g.Name, Rights: g.Right.String()}
	if !g.Expires.IsZero() {
		m.Expires = g.Expires.UTC().Format(time.RFC3339)
	}
	return m
}

// listTokens answers with the tokens that owners of the application made.
func listTokens(c *call) error {
	now := c.Backend.Now(c.App)
	c.W.Header()["Resb-Revision"] = now.Header()
	all := make([]madeToken, len(now.Tokens))
	for i, line := range now.Tokens {
		all[i] = madeTokenOf(line, c.Tokens)
	}
	return c.Reply(map[string][]madeToken{"tokens": all})
}

// newToken makes the token that the query describes, with its line.
func newToken(c *call) (token, line string, err error) {
	where := c.App
	if locale := c.Query.Get("locale"); locale != "" {
		where += "/" + locale
	}
	c.Note = strings.Join([]string{where, c.Query.Get("rights"), c.Query.Get("name")}, " ")
	expires, err := auth.ParseExpiry(c.Query.Get("expires"), time.Now())
	if err == nil {
		token, line, err = auth.Make(where, c.Query.Get("rights"), c.Query.Get("name"), expires)
	}
	return token, auth.MadeBy(line, c.Who), err
}

// makeToken makes a token as the query says, and answers with it.
func makeToken(c *call) error {
	token, line, err := newToken(c)
	if err != nil {
		return wire.BadQuery.With(err.Error())
	}
	made := madeTokenOf(line, c.Tokens)
	c.TokenID, made.Token = made.ID, token
	c.Asked(made.Locale, nil)
	_, _, err = change(c, replica.Request{Op: "token", Tokens: func(now []string) ([]string, string) {
		switch {
		case len(now) >= mostTokens:
			return nil, manifest.Full
		case made.Name != "" && findToken(c, now, func(m madeToken) bool { return m.Name == made.Name }) >= 0:
			return nil, manifest.Exists
		}
		return append(now[:len(now):len(now)], line), ""
	}})
	if err != nil {
		return err
	}
	c.NoStore()
	return c.Write(http.StatusCreated, front.JSONType, append(convert.Marshal(made), '\n'))
}

// findToken returns which line is the first that a function accepts, or -1.
func findToken(c *call, lines []string, is func(madeToken) bool) int {
	for i, line := range lines {
		if is(madeTokenOf(line, c.Tokens)) {
			return i
		}
	}
	return -1
}

// revokeToken removes a token that an owner made.
func revokeToken(c *call) error {
	c.TokenID = c.Parts[1]
	_, _, err := change(c, replica.Request{Op: "revoke", Tokens: func(now []string) ([]string, string) {
		at := findToken(c, now, func(m madeToken) bool { return m.ID == c.TokenID })
		if at < 0 {
			return nil, manifest.Absent
		}
		return append(now[:at:at], now[at+1:]...), ""
	}})
	if err != nil {
		return err
	}
	return done(c, &replica.Edit{}, false, "")
}
