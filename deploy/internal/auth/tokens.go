// Package auth knows who may do what: it reads the file of tokens, and changes it.
package auth

import (
	"bytes"
	"crypto/sha256"
	"encoding/hex"
	"errors"
	"fmt"
	"hash/maphash"
	"log"
	"os"
	"strings"
	"sync"
	"sync/atomic"
	"syscall"
	"time"
)

// A Right is what a token allows for an application, or for one locale of it.
type Right int

// The rights. No one includes another one.
const (
	Read    Right = 1 << iota
	Edit          // changes bundles one by one, and reads their history
	Release       // changes several bundles at once
	Erase         // removes all with the history, and takes that back
	Own           // makes, lists and revokes tokens
)

// Write is what the word `write` stands for.
const Write = Read | Edit | Release | Erase

// words are those of a line. The earlier ones stand for several rights.
var words = []struct {
	name  string
	right Right
}{{"own", Own | Write}, {"write", Write}, {"read", Read}, {"edit", Edit}, {"release", Release}, {"erase", Erase}}

// parseRight reads words with commas between them. It returns 0 if one is unknown.
func parseRight(text string) (all Right) {
	for _, given := range strings.Split(text, ",") {
		right := Right(0)
		for _, w := range words {
			if w.name == given {
				right = w.right
			}
		}
		if right == 0 {
			return 0
		}
		all |= right
	}
	return all
}

// String returns the words of a right.
func (r Right) String() string {
	var names []string
	for _, w := range words {
		if r&w.right == w.right {
			names = append(names, w.name)
			r &^= w.right
		}
	}
	return strings.Join(names, ",")
}

// LeastToken is how many characters a token has at least. A token is hashed once and without salt, so a shorter one could be found
// from its hash.
const LeastToken = 20

// A digest is the SHA-256 of a token.
type digest [sha256.Size]byte

// A Holder is who has a token.
type Holder struct {
	digest  digest
	by      digest // of whose limits it is a part
	account string // the bytes of that one
	name    string // in the file, or ""
	grants  []Grant
}

// holdersOf returns who has the tokens of some lines.
func holdersOf(grants []Grant) map[digest]Holder {
	all := map[digest]Holder{}
	for _, g := range grants {
		h := all[g.digest]
		if g.Name != "" {
			h.name = g.Name
		}
		h.digest, h.by, h.account, h.grants = g.digest, g.by, string(g.by[:]), append(h.grants, g)
		all[g.digest] = h
	}
	return all
}

// Name names the holder in logs and in the history: by its name, or by the first digits of the token's digest.
func (h Holder) Name() string {
	if h.name == "" {
		return hex.EncodeToString(h.digest[:4])
	}
	return h.name
}

// Account returns a text that differs for each token of the file, and is that of the owner for a token that an owner made.
func (h *Holder) Account() string { return h.account }

// May returns what the holder may do now in a locale of an application, which may be the name of a file, or with the whole application if the locale is
// ""; 0 is nothing.
func (h Holder) May(app, locale string, now time.Time) (all Right) {
	for i := range h.grants {
		if g := &h.grants[i]; g.covers(app) && g.holds(now) && (g.Locale == "" || g.isFor(locale)) {
			all |= g.Right
		}
	}
	return all
}

// Somewhere returns what the holder may do now in whichever locales of an application.
func (h Holder) Somewhere(app string, now time.Time) (all Right) {
	for i := range h.grants {
		if g := &h.grants[i]; g.covers(app) && g.holds(now) {
			all |= g.Right
		}
	}
	return all
}

// holdsAny returns true if a right of the holder hasn't expired.
func (h Holder) holdsAny(now time.Time) bool {
	for i := range h.grants {
		if h.grants[i].holds(now) {
			return true
		}
	}
	return false
}

// Tokens are read from a file of lines (OPERATIONS.md).
type Tokens struct {
	path  string
	known atomic.Pointer[known]
	isBad atomic.Bool
	short sync.Once // logs that a short token was refused

	mu    sync.Mutex
	taken []byte // the content that the tokens are from, or nil if the file must be taken again
	last  []byte // what was read last
	state string // of the file when its content was taken
	added []byte // lines that aren't in the file yet
}

// Open reads the file for the first time.
func Open(path string) (*Tokens, error) {
	t := &Tokens{path: path}
	content, err := readFile(path)
	if err != nil {
		return nil, err
	}
	grants, wrong := parse(content)
	if len(wrong) > 0 {
		return nil, fmt.Errorf("%s: %w", path, wrong[0])
	}
	if othersMayWrite(path) {
		const why = "all users of the machine may change it, so anybody could make a token; chmod o-w it"
		return nil, fmt.Errorf("%s: %s", path, why)
	}
	t.taken, t.last = content, content
	t.known.Store(knownOf(grants))
	return t, nil
}

// Reload reads the file again, and takes it if it has changed: at once, or when it is the same at two readings, as one may be made
// while it is written. A wrong line is left out, so that it doesn't keep what other lines took away. If the file can't be read the
// tokens stay as they were.
func (t *Tokens) Reload(atOnce bool) {
	t.mu.Lock()
	defer t.mu.Unlock()
	t.reload(atOnce)
}

func (t *Tokens) reload(atOnce bool) {
	state := stateOf(t.path)
	if !atOnce && state != "" && state == t.state {
		return
	}
	content, err := readFile(t.path)
	isWhole := atOnce || bytes.Equal(content, t.last)
	t.last, t.state = content, ""
	switch {
	case err != nil:
		if !t.isBad.Swap(true) {
			log.Printf("tokens: %v; the earlier ones stay", err)
		}
		t.taken = nil
	case t.taken != nil && bytes.Equal(content, t.taken):
		t.state = state
	case isWhole:
		t.state = state
		t.take(content)
	}
}

// take makes the lines of the file the tokens, without those that are wrong.
func (t *Tokens) take(content []byte) {
	grants, wrong := parse(join(content, t.added))
	if othersMayWrite(t.path) {
		wrong = append(wrong, errors.New("all users of the machine may change the file"))
	}
	for i := 0; i < len(wrong) && i < 10; i++ {
		log.Printf("tokens: %s: %v", t.path, wrong[i])
	}
	t.isBad.Store(len(wrong) > 0)
	t.taken = content
	now := knownOf(grants)
	t.known.Store(now)
	log.Printf("tokens: read again: %d", len(now.holders))
}

// stateOf returns a text that differs once a file is changed, or "" if nobody can know. A file that was changed less than some seconds
// ago may be changed again without a difference.
func stateOf(path string) string {
	info, err := os.Stat(path)
	if err != nil || time.Since(info.ModTime()) < 5*time.Second {
		return ""
	}
	of := info.Sys().(*syscall.Stat_t)
	return fmt.Sprint(of.Ino, of.Size, of.Mtim, of.Ctim, of.Mode)
}

// othersMayWrite returns true if all users of the machine may change a file.
func othersMayWrite(path string) bool {
	info, err := os.Stat(path)
	return err == nil && info.Mode().Perm()&0o002 != 0
}

// Find returns who has a token; the second result is false if nobody has it, it has expired, or it is too short.
func (t *Tokens) Find(token string) (h Holder, ok bool) {
	h, ok = t.known.Load().find(token)
	if ok && len(token) < LeastToken {
		t.short.Do(func() {
			log.Printf("tokens: %s is refused: it has fewer than %d characters; make another one", h.Name(), LeastToken)
		})
		return Holder{}, false
	}
	return h, ok && h.holdsAny(time.Now())
}

// FindIn returns who has a token among the lines of an application.
func FindIn(lines []string, token string) (h Holder, ok bool) {
	if len(lines) == 0 {
		return Holder{}, false
	}
	hash := fmt.Sprintf(" %x", sha256.Sum256([]byte(token)))
	for _, line := range lines {
		if strings.Contains(line, hash) {
			if g, _ := ParseLine(line); g != nil {
				return holdersOf([]Grant{*g})[g.digest], g.holds(time.Now())
			}
		}
	}
	return Holder{}, false
}

// Maker returns who has the limits of a holder: the owner who made its token, as long as the file has that one, or itself.
func (t *Tokens) Maker(h Holder) Holder {
	if maker, there := t.known.Load().holders[h.by]; there {
		return maker
	}
	return h
}

// MakerOf returns the name of the owner whose token made the one of a line, or the first digits of its hash if the file doesn't have it; or "".
func (t *Tokens) MakerOf(g *Grant) string {
	if g.by == g.digest {
		return ""
	}
	return t.Maker(Holder{by: g.by, digest: g.by}).Name()
}

// Bad returns 1 if the file could not be read again, or has a wrong line, else 0.
func (t *Tokens) Bad() int32 {
	if t.isBad.Load() {
		return 1
	}
	return 0
}

// Bearer returns the token of an Authorization header.
func Bearer(headers []string) (token string, ok bool) {
	if len(headers) != 1 {
		return "", false
	}
	scheme, token, _ := strings.Cut(headers[0], " ")
	token = strings.TrimSpace(token)
	return token, strings.EqualFold(scheme, "Bearer") && token != ""
}

// mostRecent is how many tokens are found without their digest.
const mostRecent = 256

// A known has all holders. Another file of tokens makes another one, without what was found in this one.
type known struct {
	holders map[digest]Holder
	seed    maphash.Seed
	recent  [mostRecent]atomic.Pointer[found] // by a hash of the token
}

// A found is a token that somebody has.
type found struct {
	hash  uint64
	token string
	Holder
}

func knownOf(grants []Grant) *known {
	return &known{holders: holdersOf(grants), seed: maphash.MakeSeed()}
}

// find returns who has a token. A wrong one isn't compared with others: that would tell by its time how far they are equal.
func (k *known) find(token string) (Holder, bool) {
	hash := maphash.String(k.seed, token)
	place := &k.recent[hash%mostRecent]
	if last := place.Load(); last != nil && last.hash == hash && last.token == token {
		return last.Holder, true
	}
	h, ok := k.holders[sha256.Sum256([]byte(token))]
	if ok {
		place.Store(&found{hash, strings.Clone(token), h})
	}
	return h, ok
}
