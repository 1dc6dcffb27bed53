package auth

import (
	"bytes"
	"crypto/rand"
	"crypto/sha256"
	"encoding/hex"
	"errors"
	"fmt"
	"io"
	"io/fs"
	"os"
	"path/filepath"
	"strconv"
	"strings"
	"syscall"
	"time"

	"luvdregan.example/resb/deploy/internal/names"
)

// ErrUnknown is the error of a token that isn't in the file.
var ErrUnknown = errors.New("there is no such token")

// mostBytes is the most bytes of a file of tokens.
const mostBytes = 16 << 20

// readFile reads a file that must be a regular one: reading another one may take for ever.
func readFile(path string) ([]byte, error) {
	f, err := os.OpenFile(path, os.O_RDONLY|syscall.O_NONBLOCK, 0)
	if err != nil {
		return nil, err
	}
	defer f.Close()
	if info, err := f.Stat(); err != nil || !info.Mode().IsRegular() {
		return nil, fmt.Errorf("%s: not a regular file", path)
	}
	content, err := io.ReadAll(io.LimitReader(f, mostBytes+1))
	if err == nil && len(content) > mostBytes {
		err = fmt.Errorf("%s: more than %d bytes", path, mostBytes)
	}
	return content, err
}

// join returns the lines of both.
func join(content, more []byte) []byte {
	if len(content) > 0 && content[len(content)-1] != '\n' {
		content = append(content[:len(content):len(content)], '\n')
	}
	return append(content[:len(content):len(content)], more...)
}

// lineOf returns the line of a token. It expires never if the time is zero.
func lineOf(token, where, rights, name string, expires time.Time) (string, error) {
	if len(token) < LeastToken {
		return "", fmt.Errorf("a token has at least %d characters", LeastToken)
	}
	if len(strings.Fields(where)) != 1 || strings.HasPrefix(where, "#") {
		return "", fmt.Errorf("%q is no application's name", where)
	}
	if parseRight(rights) == 0 {
		return "", fmt.Errorf("rights %q: they are read, write, own, or words out of read, edit, release, erase with commas between them", rights)
	}
	if name != "" && !isApp(name) {
		return "", noName(name)
	}
	text := fmt.Sprintf("%s %s %x", where, rights, sha256.Sum256([]byte(token)))
	if name != "" {
		text += " name=" + name
	}
	if !expires.IsZero() {
		text += " expires=" + expires.UTC().Format(time.RFC3339)
	}
	_, err := ParseLine(text)
	return text, err
}

// Make returns a new token of 192 random bits, and its line without a line feed.
func Make(where, rights, name string, expires time.Time) (token, line string, err error) {
	random := make([]byte, 24)
	if _, err := rand.Read(random); err != nil {
		return "", "", err
	}
	token = hex.EncodeToString(random)
	line, err = lineOf(token, where, rights, name, expires)
	return token, line, err
}

// MadeBy returns a line with the account of a holder, who makes its token.
func MadeBy(line string, h Holder) string { return fmt.Sprintf("%s by=%x", line, h.by) }

// Create adds a new token to a file, which is made if it is missing, and returns it.
func Create(path, where, rights, name string, expires time.Time) (token string, err error) {
	token, line, err := Make(where, rights, name, expires)
	if err != nil {
		return "", err
	}
	return token, edit(path, func(content []byte) ([]byte, error) {
		grants, wrong := parse(content)
		if len(grants) == 0 && len(wrong) > 0 { // it isn't a file of tokens
			return nil, fmt.Errorf("%s: %w", path, wrong[0])
		}
		for _, g := range grants {
			if name != "" && g.Name == name {
				return nil, fmt.Errorf("another token has the name %s", name)
			}
		}
		return join(content, []byte(line+"\n")), nil
	})
}

// Add adds the lines of another file to the tokens of this process. Keep adds them to the file of tokens.
func (t *Tokens) Add(path string) error {
	content, err := readFile(path)
	if err != nil {
		return err
	}
	t.mu.Lock()
	defer t.mu.Unlock()
	_, wrong := parse(content) // with the lines of this file
	grants, together := parse(join(t.taken, content))
	if wrong = append(wrong, together...); len(wrong) > 0 {
		return fmt.Errorf("%s: %w", path, wrong[0])
	}
	t.added = content
	t.known.Store(knownOf(grants))
	return nil
}

// Keep adds to the file what Add added.
func (t *Tokens) Keep() error {
	t.mu.Lock()
	defer t.mu.Unlock()
	if len(t.added) == 0 {
		return nil
	}
	err := edit(t.path, func(content []byte) ([]byte, error) { return join(content, t.added), nil })
	t.isBad.Store(err != nil)
	if err == nil {
		t.added = nil
		t.reload(true)
	}
	return err
}

// List returns the lines of a file that aren't wrong, and the errors of the others.
func List(path string) (all []Grant, wrong []error, err error) {
	content, err := readFile(path)
	all, wrong = parse(content)
	return all, wrong, err
}

// Revoke removes all lines of the token with a name, or whose hash begins with these 8 or more digits,
// and returns how many.
func Revoke(path, token string) (removed int, err error) {
	hash := strings.ToLower(token)
	err = edit(path, func(content []byte) ([]byte, error) {
		lines, revoked := bytes.SplitAfter(content, []byte("\n")), map[digest]bool{}
		for _, line := range lines { // also one that has another name in another line
			g, _ := ParseLine(string(line))
			isIts := g != nil && len(hash) >= 8 && strings.HasPrefix(g.Hash(), hash)
			if g != nil && token != "" && (g.Name == token || isIts) {
				revoked[g.digest] = true
			}
		}
		switch {
		case len(revoked) == 0:
			return nil, ErrUnknown
		case len(revoked) > 1:
			return nil, fmt.Errorf("%d tokens have hashes that begin so", len(revoked))
		}
		var left []byte
		for _, line := range lines {
			if g, _ := ParseLine(string(line)); g != nil && revoked[g.digest] {
				removed++
			} else {
				left = append(left, line...)
			}
		}
		return left, nil
	})
	return removed, err
}

// edit replaces the content of a file by what a function makes of it, while no other edit does. A reader finds the old content or
// the new one. The mode and the owner stay.
func edit(path string, change func(content []byte) ([]byte, error)) error {
	if real, err := filepath.EvalSymlinks(path); err == nil {
		path = real
	}
	folder, err := os.Open(filepath.Dir(path))
	if err != nil {
		return err
	}
	defer folder.Close()
	if err := syscall.Flock(int(folder.Fd()), syscall.LOCK_EX); err != nil {
		return err
	}
	content, err := readFile(path)
	if err != nil && !errors.Is(err, fs.ErrNotExist) {
		return err
	}
	made, err := change(content)
	if err != nil {
		return err
	}
	if err = replace(path, made); err == nil {
		err = folder.Sync()
	}
	return err
}

// replace writes a file beside its place, and renames it. A new one belongs to the owner of the folder, whose gateway is to read it.
func replace(path string, content []byte) error {
	f, err := os.CreateTemp(filepath.Dir(path), filepath.Base(path)+".new-*")
	if err != nil {
		return err
	}
	defer os.Remove(f.Name())
	defer f.Close()
	info, err := os.Stat(path)
	if err == nil {
		err = f.Chmod(info.Mode().Perm())
	} else {
		info, err = os.Stat(filepath.Dir(path))
	}
	if err != nil {
		return err
	}
	of := info.Sys().(*syscall.Stat_t)
	_ = f.Chown(int(of.Uid), int(of.Gid))
	if _, err = f.Write(content); err == nil {
		err = f.Sync()
	}
	if err == nil {
		err = os.Rename(f.Name(), path)
	}
	return err
}

// A Grant is a line of the file: `APP RIGHTS HASH`, then perhaps `name=NAME`, `expires=TIME`, and for a token that an owner made `by=HASH` of
// that one's. The hash is the SHA-256 of the token in hexadecimal. RIGHTS are words such as `read,edit`. `shop.*` in the place of APP stands
// for all applications whose names begin with `shop.`, `shop/de` for one locale. One token may have several lines.
type Grant struct {
	App, Locale, Name string
	Right             Right
	Expires           time.Time // or zero
	digest, by        digest
}

func (g *Grant) holds(now time.Time) bool { return g.Expires.IsZero() || now.Before(g.Expires) }

// covers returns true if the line is about an application.
func (g *Grant) covers(app string) bool {
	begin := strings.TrimSuffix(g.App, "*")
	if begin == g.App {
		return app == g.App
	}
	return strings.HasPrefix(app, begin) && isApp(app)
}

// isFor returns true if the locale of the line is the one of an address.
func (g *Grant) isFor(given string) bool {
	given, _, _ = strings.Cut(given, ".") // the form of a bundle
	locale, _ := names.Canonical(given)
	return given != "" && locale == g.Locale
}

// Hash returns the digest in hexadecimal.
func (g *Grant) Hash() string { return hex.EncodeToString(g.digest[:]) }

// mostApp is the most bytes of an application's name.
const mostApp = 64

// isApp returns true if a text is the name of an application. A name of full stops alone can't be used
// in an address.
func isApp(name string) bool {
	for i := 0; i < len(name); i++ {
		c, letter := name[i], name[i]|0x20
		if (letter < 'a' || letter > 'z') && (c < '0' || c > '9') && c != '_' && c != '.' && c != '-' {
			return false
		}
	}
	return name != "" && len(name) <= mostApp && name != "." && name != ".." && name != "ICUDATA"
}

// parse reads the content of a file, without the lines that are wrong.
func parse(content []byte) (grants []Grant, wrong []error) {
	known := map[digest]string{}
	for n, text := range strings.Split(string(content), "\n") {
		g, err := ParseLine(text)
		if g != nil {
			if g.Name != "" && known[g.digest] == "" {
				known[g.digest] = g.Name
			}
			if name := known[g.digest]; g.Name != "" && g.Name != name {
				err = fmt.Errorf("the token has the name %s in another line", name)
			} else {
				grants = append(grants, *g)
			}
		}
		if err != nil {
			wrong = append(wrong, fmt.Errorf("line %d: %w", n+1, err))
		}
	}
	return grants, wrong
}

// ParseLine reads a line. The grant is nil if the line is wrong, empty, or a comment, which begins with #.
func ParseLine(text string) (*Grant, error) {
	words := strings.Fields(text)
	if len(words) == 0 || strings.HasPrefix(words[0], "#") {
		return nil, nil
	}
	if len(words) < 3 {
		return nil, errors.New("not APP RIGHTS HASH")
	}
	app, locale, isOne := strings.Cut(words[0], "/")
	locale, isLocale := names.Canonical(locale)
	g := &Grant{App: app, Right: parseRight(words[1])}
	switch {
	case !isApp(strings.TrimSuffix(g.App, "*")) || strings.HasSuffix(words[0], "/"):
		return nil, fmt.Errorf("%.80q is no application's name", words[0])
	case isOne && !isLocale:
		return nil, fmt.Errorf("%.80q is no locale's name", locale)
	case g.Right == 0:
		return nil, fmt.Errorf("%.80q is neither read nor write, nor words out of read, edit, release, erase, own", words[1])
	case isOne && g.Right&Own != 0:
		return nil, errors.New("the owner of a locale must be the application's")
	case isOne:
		g.Locale = locale
	}
	var err error
	if g.digest, err = parseHash(words[2]); err != nil {
		return nil, err
	}
	g.by = g.digest
	for _, word := range words[3:] {
		if err := g.set(word); err != nil {
			return nil, err
		}
	}
	return g, nil
}

func parseHash(text string) (d digest, err error) {
	hash, err := hex.DecodeString(text)
	if err != nil || len(hash) != sha256.Size {
		err = errors.New("the hash is not 64 hexadecimal digits")
	}
	copy(d[:], hash)
	return d, err
}

func noName(text string) error {
	return fmt.Errorf("%.80q is no name: one has up to %d letters, digits, full stops, hyphens and underscores", text, mostApp)
}

// set reads what may follow the hash.
func (g *Grant) set(word string) (err error) {
	key, value, _ := strings.Cut(word, "=")
	switch {
	case key == "expires":
		g.Expires, err = ParseTime(value)
	case key == "by":
		g.by, err = parseHash(value)
	case key == "name" && !isApp(value):
		err = noName(value)
	case key == "name":
		g.Name = value
	default:
		err = fmt.Errorf("%.80q is neither name=NAME nor expires=TIME", word)
	}
	return err
}

// ParseExpiry reads a time after now, or a number of days such as 90d; an empty text is never.
func ParseExpiry(text string, now time.Time) (end time.Time, err error) {
	if text == "" {
		return end, nil
	}
	if days, err := strconv.ParseUint(strings.TrimSuffix(text, "d"), 10, 16); err == nil && strings.HasSuffix(text, "d") {
		end = now.AddDate(0, 0, int(days)).UTC().Truncate(time.Second)
	} else if end, err = ParseTime(text); err != nil {
		return end, err
	}
	if !end.After(now) {
		err = fmt.Errorf("%s is past", text)
	}
	return end, err
}

// ParseTime reads a time: as in 2027-01-31T12:00:00Z, or a date, which is the end of that day in UTC.
func ParseTime(text string) (time.Time, error) {
	if day, err := time.Parse("2006-01-02", text); err == nil {
		return day.AddDate(0, 0, 1), nil
	}
	at, err := time.Parse(time.RFC3339, text)
	if err != nil {
		err = fmt.Errorf("%.80q is no time as 2027-01-31T12:00:00Z, and no date", text)
	}
	return at, err
}
