package auth

import (
	"crypto/sha256"
	"encoding/hex"
	"fmt"
	"os"
	"path/filepath"
	"regexp"
	"runtime"
	"strings"
	"syscall"
	"testing"
	"time"

	"luvdregan.example/resb/deploy/tests/harness"
)

const (
	one = "the-first-token-of-the-test"
	two = "the-second-token-of-the-test"
)

func hashOf(token string) string {
	sum := sha256.Sum256([]byte(token))
	return hex.EncodeToString(sum[:])
}

// file writes a file of tokens.
func file(t *testing.T, lines ...string) string {
	t.Helper()
	path := filepath.Join(t.TempDir(), "tokens")
	write(t, path, lines...)
	return path
}

func write(t *testing.T, path string, lines ...string) {
	t.Helper()
	harness.Must(t, os.WriteFile(path, []byte(strings.Join(lines, "\n")), 0o640))
}

func open(t *testing.T, path string) *Tokens {
	t.Helper()
	tokens, err := Open(path)
	harness.Must(t, err)
	return tokens
}

// may returns what a token may do.
func may(tokens *Tokens, token, app string) Right {
	h, ok := tokens.Find(token)
	if !ok {
		return 0
	}
	return h.May(app, "", time.Now())
}

func TestPrefixesAndNames(t *testing.T) {
	tokens := open(t, file(t, "# all", "shop.* write "+hashOf(one)+" name=ci", "bank read "+hashOf(one), "shop.a read "+hashOf(two)))
	for app, want := range map[string]Right{"shop.a": Write, "shop.": Write, "shop": 0, "shopx": 0, "bank": Read, "bank.a": 0, "shop.a/b": 0, "shop.*": 0, "*": 0, "": 0} {
		harness.Equal(t, may(tokens, one, app), want, app)
	}
	if h, _ := tokens.Find(one); h.Name() != "ci" {
		t.Error(h.Name())
	}
	if h, _ := tokens.Find(two); h.Name() != hashOf(two)[:8] || h.May("shop.a", "", time.Now()) != Read {
		t.Error(h.Name())
	}
}

// TestNamesOfApplications compares with the expression of OPERATIONS.md's names.
func TestNamesOfApplications(t *testing.T) {
	name := regexp.MustCompile(`^[A-Za-z0-9_.-]{1,64}$`)
	for _, long := range []string{"", strings.Repeat("a", 64), strings.Repeat("a", 65), ".", "..", "...", "ICUDATA"} {
		harness.Equal(t, isApp(long), name.MatchString(long) && long != "." && long != ".." && long != "ICUDATA", long)
	}
	for b := 0; b < 256; b++ {
		one := "a" + string([]byte{byte(b)})
		harness.Equal(t, isApp(one), name.MatchString(one), b)
	}
}

// TestManyTokens finds more tokens than are remembered, again and again, and none of them once they are revoked. As long as the file stays as it is,
// a look at it doesn't read it.
func TestManyTokens(t *testing.T) {
	var lines, all []string
	for i := 0; i < 3*mostRecent; i++ {
		all = append(all, fmt.Sprintf("a token of the test, number %d", i))
		lines = append(lines, fmt.Sprintf("shop.%d read %s", i, hashOf(all[i])))
	}
	path := file(t, lines...)
	tokens := open(t, path)
	for i := 0; i < 3*len(all); i++ {
		n := i % len(all)
		if may(tokens, all[n], fmt.Sprint("shop.", n)) != Read || may(tokens, all[n]+"x", fmt.Sprint("shop.", n)) != 0 {
			t.Fatal(i)
		}
	}
	harness.Equal(t, testing.AllocsPerRun(100, func() { tokens.Find(all[0]) }), 0.0)
	write(t, path, lines[1:]...)
	tokens.Reload(true)
	harness.ErrorIf(t, may(tokens, all[0], "shop.0") != 0 || may(tokens, all[1], "shop.1") != Read, "after the revocation")
	old := time.Now().Add(-time.Hour)
	harness.Must(t, os.Chtimes(path, old, old))
	tokens.Reload(false)
	var before, after runtime.MemStats
	runtime.ReadMemStats(&before)
	for i := 0; i < 100; i++ {
		tokens.Reload(false)
	}
	runtime.ReadMemStats(&after)
	harness.ErrorIf(t, after.TotalAlloc-before.TotalAlloc > 1<<20, "100 looks at a file of %d tokens take %d bytes", len(all), after.TotalAlloc-before.TotalAlloc)
}

// TestRights has each right by itself, for an application or one locale of it.
func TestRights(t *testing.T) {
	tokens := open(t, file(t, "shop read,release "+hashOf(one), "shop/de-at edit "+hashOf(one), "shop.* erase "+hashOf(one), "bank own "+hashOf(two), "shop/fr write "+hashOf(two)))
	for _, c := range []struct {
		token, app, locale string
		want               Right
		words              string
	}{
		{one, "shop", "", Read | Release, "read,release"}, {one, "shop", "de_AT", Read | Edit | Release, "read,edit,release"},
		{one, "shop", "DE-at.txt", Read | Edit | Release, "read,edit,release"}, {one, "shop", "de", Read | Release, "read,release"}, {one, "shop", "-", Read | Release, "read,release"},
		{one, "shop", "*", Read | Release, "read,release"}, {one, "shop", "de_AT@x", Read | Edit | Release, "read,edit,release"}, {one, "shop.a", "", Erase, "erase"}, {one, "bank", "", 0, ""},
		{two, "bank", "", Own | Write, "own"}, {two, "shop", "", 0, ""}, {two, "shop", "fr", Write, "write"}, {two, "shop", "fr_CA", 0, ""},
	} {
		h, _ := tokens.Find(c.token)
		got := h.May(c.app, c.locale, time.Now())
		harness.Equal(t, []string{got.String()}, []string{c.words}, c.app, c.locale)
		harness.Equal(t, got, c.want, c.app, c.locale)
		harness.ErrorIf(t, h.Somewhere(c.app, time.Now())&got != got, "%s: somewhere", c.app)
	}
}

func TestExpiry(t *testing.T) {
	past, future := time.Now().Add(-time.Hour).UTC().Format(time.RFC3339), time.Now().Add(time.Hour).UTC().Format(time.RFC3339)
	tokens := open(t, file(t, "shop write "+hashOf(one)+" expires="+past, "shop read "+hashOf(one)+" expires="+future,
		"shop read "+hashOf(two)+" name=old expires="+past, "bank read "+hashOf(two)+" expires=2001-01-31"))
	harness.Equal(t, may(tokens, one, "shop"), Read, "the right to write has expired")
	if _, ok := tokens.Find(two); ok {
		t.Error("all rights have expired")
	}
	if day, err := ParseTime("2027-01-31"); err != nil || day.Format(time.RFC3339) != "2027-02-01T00:00:00Z" {
		t.Error(day, err)
	}
}

func TestWrongLines(t *testing.T) {
	for text, want := range map[string]string{
		"shop write": "line 1: not APP", "shop sing " + hashOf(one): "neither read nor write", "shop read 12": "64 hexadecimal digits",
		"* read " + hashOf(one): "no application", "shop/ read " + hashOf(one): "no application", "shop/d read " + hashOf(one): "no locale",
		"shop/de own " + hashOf(one): "the owner", "shop read,sing " + hashOf(one): "neither read nor write", "shop read, " + hashOf(one): "neither read nor write",
		"shop read " + hashOf(one) + " by=12": "64 hexadecimal digits",
		"sh*p read " + hashOf(one):            "no application", "shop read " + hashOf(one) + " until=x": "neither name=NAME",
		"\nshop read " + hashOf(one) + " expires=soon": "line 2", "shop read " + hashOf(one) + " name=": "no name",
		"shop read " + hashOf(one) + " name=a\nbank read " + hashOf(one) + " name=b": "has the name a",
	} {
		if _, err := Open(file(t, text)); err == nil || !strings.Contains(err.Error(), want) {
			t.Errorf("%s: %v", text, err)
		}
	}
}

// TestATypingErrorKeepsNothingAlive has a token revoked by a file in which another line is wrong.
func TestATypingErrorKeepsNothingAlive(t *testing.T) {
	path := file(t, "shop write "+hashOf(one), "shop write "+hashOf(two))
	tokens := open(t, path)
	write(t, path, "shop wrte "+hashOf(one), "bank read "+hashOf(two))
	tokens.Reload(true)
	if _, ok := tokens.Find(one); ok || may(tokens, two, "shop") != 0 || may(tokens, two, "bank") != Read || tokens.Bad() != 1 {
		t.Error("the earlier tokens stay")
	}
	tokens.Reload(true)
	harness.ErrorIf(t, tokens.Bad() != 1, "the line is still wrong")
	write(t, path, "shop write "+hashOf(one))
	tokens.Reload(true)
	harness.ErrorIf(t, may(tokens, one, "shop") != Write || tokens.Bad() != 0,
		"the file was mended")
	harness.Must(t, os.Remove(path))
	tokens.Reload(true)
	harness.ErrorIf(t, may(tokens, one, "shop") != Write || tokens.Bad() != 1,
		"a file that can't be read changes nothing")
}

// TestAnEmptyFileRevokesAll, also one that was missing for a moment.
func TestAnEmptyFileRevokesAll(t *testing.T) {
	path := file(t, "shop write "+hashOf(one))
	tokens := open(t, path)
	harness.Must(t, os.Remove(path))
	tokens.Reload(false)
	harness.ErrorIf(t, may(tokens, one, "shop") != Write, "a missing file took tokens away")
	write(t, path)
	for i := 0; i < 4; i++ {
		tokens.Reload(i == 3)
	}
	harness.ErrorIf(t, may(tokens, one, "shop") != 0 || tokens.Bad() != 0,
		"the token is still valid %v", tokens.Bad())
}

// TestAFIFODoesntHang, at the start or later; nor does a device without an end.
func TestAFIFODoesntHang(t *testing.T) {
	path := file(t, "shop write "+hashOf(one))
	tokens := open(t, path)
	_ = os.Remove(path)
	harness.Must(t, syscall.Mkfifo(path, 0o600))
	ended := make(chan error, 1)
	go func() {
		tokens.Reload(true)
		_, err := Open(path)
		ended <- err
	}()
	select {
	case err := <-ended:
		harness.ErrorIf(t, err == nil || !strings.Contains(err.Error(), "regular"), "%v", err)
	case <-time.After(5 * time.Minute):
		t.Fatal("it hangs")
	}
	harness.ErrorIf(t, may(tokens, one, "shop") != Write, "the tokens are gone")
	if _, err := Open("/dev/zero"); err == nil {
		t.Error("a device was read")
	}
}

func TestShortTokensAreRefused(t *testing.T) {
	short := strings.Repeat("x", LeastToken-1)
	tokens := open(t, file(t, "shop write "+hashOf(short), "shop write "+hashOf(short+"x")))
	if _, ok := tokens.Find(short); ok {
		t.Error("it is known")
	}
	harness.ErrorIf(t, may(tokens, short+"x", "shop") != Write, "it isn't too short")
	if _, err := lineOf(short, "shop", "read", "", time.Time{}); err == nil {
		t.Error("a line was made")
	}
}

// TestAddedTokens hold in the process at once, and are in the file only once they are kept.
func TestAddedTokens(t *testing.T) {
	path := file(t, "shop read "+hashOf(one)) // without a line feed at its end
	tokens := open(t, path)
	harness.Must(t, tokens.Add(file(t, "shop write "+hashOf(two)+"\n")))
	tokens.Reload(true)
	harness.ErrorIf(t, may(tokens, two, "shop") != Write || may(open(t, path), two, "shop") != 0,
		"before it is kept")
	harness.Must(t, tokens.Keep())
	if may(tokens, two, "shop") != Write || may(open(t, path), two, "shop") != Write || may(open(t, path), one, "shop") != Read {
		t.Error("after it was kept")
	}
	if info, err := os.Stat(path); err != nil || info.Mode().Perm() != 0o640 {
		t.Error(info.Mode(), err)
	}
	if err := tokens.Add(file(t, "shop\n")); err == nil {
		t.Error("a wrong line was added")
	}
}

func TestRevoke(t *testing.T) {
	path := file(t, "# first", "shop read "+hashOf(one)+" name=ci", "bank read "+hashOf(one), "", "wrong", "shop write "+hashOf(two))
	for _, c := range []struct {
		token   string
		removed int
		err     error
	}{{"", 0, ErrUnknown}, {"ci", 2, nil}, {hashOf(two)[:7], 0, ErrUnknown}, {hashOf(two)[:8], 1, nil},
		{"ci", 0, ErrUnknown}} {
		n, err := Revoke(path, c.token)
		harness.ErrorIf(t, n != c.removed || err != c.err, "%q: %d removed, %v", c.token, n, err)
	}
	content, err := os.ReadFile(path)
	harness.ErrorIf(t, err != nil || string(content) != "# first\n\nwrong\n", "%q %v", content, err)
}
