package http

import (
	"encoding/json"
	"fmt"
	"os"
	"strings"
	"testing"

	"luvdregan.example/resb/deploy/tests/harness"
)

const shopOwner = "shop-owner-0123456789"

// granting starts a gateway whose file of tokens has more lines.
func granting(t *testing.T, lines string, options ...string) *site {
	t.Helper()
	t.Parallel()
	s := prepare(t, options...)
	must(t, os.WriteFile(s.Tokens, []byte(harness.Tokens+harness.TokenLine("shop", "own", shopOwner)+lines), 0o600))
	s.Start()
	s.Await(generous)
	return s
}

// TestEachRight tries what each right allows by itself, for an application and for one locale of it.
func TestEachRight(t *testing.T) {
	token := func(right string) string { return right + "-0123456789-0123456789" }
	lines := ""
	for where, rights := range map[string][]string{"shop": {"read", "edit", "release", "erase", "own"}, "shop/de": {"read", "edit", "release"}} {
		for _, right := range rights {
			lines += harness.TokenLine(where, right, token(where+right))
		}
	}
	s := granting(t, lines)
	for _, value := range []string{"earlier", "A"} {
		s.put("de", `de{a{"`+value+`"}}`)
		s.put("fr", `fr{a{"F `+value+`"}}`)
	}
	all := s.past("")
	released := s.ask("POST", "/v1/shop/_releases", token("shoprelease"), linesOf(t, namedText{"de.txt", `de{a{"R"}}`}, namedText{"fr.txt", "fr{}"}), "Content-Type", asLines)
	both := int64(4096) * released.Revision()
	s.put("de", `de{a{"A"}}`) // a later change: with the right the undo is 412
	for _, c := range []struct{ method, path, body, may string }{
		{"GET", "/de/a", "", "read own /read"}, {"GET", "/de.txt", "", "read own /read"}, {"GET", "/fr/a", "", "read own"}, {"GET", "/-/a", "", "read own"}, {"GET", "", "", "read own"}, {"GET", "/*/a", "", "read own"},
		{"GET", "/_history?locale=*", "", "edit own"}, {"GET", "/_history?locale=/", "", "edit own"},
		{"POST", "/look", "{}", "read own"}, {"POST", "/_check/de.txt", "de{}", "read own /read"}, {"POST", "/_check/fr.txt", "fr{}", "read own"},
		{"PUT", "/DE.txt", `de{a{"A"}}`, "edit own /edit"}, {"PUT", "/fr.txt", `fr{a{"F"}}`, "edit own"}, {"DELETE", "/de_AT", "", "edit own"},
		{"GET", "/_history", "", "edit own"}, {"GET", "/_history?locale=de", "", "edit own /edit"}, {"GET", "/_history?locale=fr", "", "edit own"},
		{"GET", fmt.Sprintf("/_history/%d.txt", all[1].ID), "", "edit own /edit"}, {"GET", fmt.Sprintf("/_history/%d.txt", all[0].ID), "", "edit own"},
		{"GET", fmt.Sprintf("/_history/%d/diff?with=%d", all[1].ID, all[0].ID), "", "edit own"}, {"POST", fmt.Sprintf("/_history/%d/restore", all[1].ID), "", "edit own /edit"},
		{"POST", fmt.Sprintf("/_history/%d/restore", all[0].ID), "", "edit own"}, {"POST", "/_releases", linesOf(t, namedText{"de.txt", `de{a{"A"}}`}), "release own /release"},
		{"POST", "/_releases", linesOf(t, namedText{"de.txt", `de{a{"A"}}`}, namedText{"fr.txt", `fr{a{"F"}}`}), "release own"},
		{"POST", fmt.Sprintf("/_history/%d/undo", all[3].ID), "", "edit release own /edit /release"}, {"POST", fmt.Sprintf("/_history/%d/undo", all[2].ID), "", "edit release own"},
		{"POST", fmt.Sprintf("/_history/%d/undo", both), "", "release own"},
		{"PUT", "/_default?locale=", "", "edit own"}, {"GET", "/_history?by=change", "", "edit own"},
		{"DELETE", "?erase=no", "", "erase own"}, {"POST", "/_erasure/undo", "", "erase own"}, {"GET", "/_tokens", "", "own"}, {"POST", "/_tokens?rights=none", "", "own"},
		{"DELETE", "/_tokens/none", "", "own"},
	} {
		for _, right := range []string{"shopread", "shopedit", "shoprelease", "shoperase", "shopown", "shop/deread", "shop/deedit", "shop/derelease"} {
			got := s.ask(c.method, "/v1/shop"+c.path, token(right), c.body, "Content-Type", asLines)
			name := strings.TrimPrefix(strings.Replace(right, "shop/de", "/", 1), "shop")
			may := strings.Contains(" "+c.may+" ", " "+name+" ")
			if is := got.Status != 403; is != may || got.Status == 401 || got.Status >= 500 {
				t.Errorf("%s: %s %s: %d %s", right, c.method, c.path, got.Status, got.Body)
			}
		}
	}
	s.is("de/a", "A")
}

// A madeToken is a token in the reply to an owner.
type madeToken struct{ By, Expires, ID, Locale, Name, Rights, Token string }

// makeToken has an owner make a token.
func (s *site) makeToken(query string) (m madeToken) {
	s.t.Helper()
	got := s.ask("POST", "/v1/shop/_tokens?"+query, shopOwner, "")
	if err := json.Unmarshal([]byte(got.Body), &m); err != nil || got.Status != 201 || len(m.Token) != 48 || got.Header.Get("Cache-Control") != "no-store" {
		s.t.Fatalf("%v: %d %s", err, got.Status, got.Body)
	}
	return m
}

// TestMadeTokensAtOtherGateways has a token made at one gateway and revoked at another one.
func TestMadeTokensAtOtherGateways(t *testing.T) {
	c := harness.NewCluster(t, t.TempDir(), 1, nil)
	harness.StartAll(c.Members)
	var all []*site
	for i := 0; i < 2; i++ {
		s := &site{harness.New(t, harness.Setup{Etcd: c.From(0)}), t}
		must(t, os.WriteFile(s.Tokens, []byte(harness.Tokens+harness.TokenLine("shop", "own", shopOwner)), 0o600))
		s.Start()
		s.Await(generous)
		all = append(all, s)
	}
	made := all[0].makeToken("rights=read")
	status := func(s *site) int { return s.ask("GET", "/v1/shop", made.Token, "").Status }
	eventually(t, "the token is known", func() bool { return status(all[1]) == 200 })
	equal(t, all[1].ask("DELETE", "/v1/shop/_tokens/"+made.ID, shopOwner, "").Status, 200)
	eventually(t, "the token is revoked", func() bool { return status(all[0]) == 401 })
	all[0].put("de", `de{a{"A"}}`)
	equal(t, all[0].ask("DELETE", "/v1/shop?erase", shopWrites, "").Status, 200)
	equal(t, all[1].ask("POST", "/v1/shop/_erasure/undo", shopWrites, "").Status, 200)
	eventually(t, "the bundle is there", func() bool { return all[0].get("/v1/shop/de/a").Value() == "A" })
}

// TestMadeTokensShareLimits has tokens that an owner made for several applications count with the owner.
func TestMadeTokensShareLimits(t *testing.T) {
	const owner = "apps-owner-0123456789"
	s := granting(t, harness.TokenLine("app.*", "own", owner), "-apps", "64")
	refused := 0
	for i := 0; i < 64; i++ {
		app := fmt.Sprintf("/v1/app.%d", i)
		var made madeToken
		must(t, json.Unmarshal([]byte(s.ask("POST", app+"/_tokens?rights=edit", owner, "").Body), &made))
		if got := s.ask("PUT", app+"/de.txt", made.Token, "de{}"); got.Status == 507 && got.Error() == "TooManyApps" {
			refused++
		} else if got.Status != 201 {
			t.Errorf("%d: %d %s", i, got.Status, got.Body)
		}
	}
	errorIf(t, refused < 16, "%d of 64 applications are refused", refused)
	s.run(step{"b PUT /v1/bank/de.txt", "", "de{}", 201, "", ""})
}
