// Package limits admits requests: how many are on their way, how many bytes they take, how often they come, and who does long work now. All is
// counted for an application and for the holder of a token, so that neither many callers of one application nor one caller of many can
// take what others need.
package limits

import (
	"context"
	"errors"
	"math"
	"strings"
	"sync"
	"sync/atomic"
	"time"
)

// The errors of an admission.
var (
	ErrTooMany = errors.New("the application or the token has too much on its way")
	ErrFull    = errors.New("too much is on its way")
	ErrGone    = errors.New("the caller has gone, or waited too long")
)

// An OverRate is the error of a request that comes too early.
type OverRate struct{ Wait time.Duration }

func (*OverRate) Error() string { return "the application or the token asks too often" }

// Options are the limits. Rate and DayBytes of 0 are none.
type Options struct {
	Each, All int   // requests at once, of an application or a holder, and of all
	Bytes     int64 // of the requests on their way
	Rate      int   // requests a second of an application or a holder
	DayBytes  int64 // bytes of an application or a holder in a day of UTC
	Works     int   // long works at once
}

// Limits count what is on its way.
type Limits struct {
	options Options
	works   chan struct{}
	waiting atomic.Int64 // for their turn of long work

	mu    sync.Mutex
	all   usage
	apps  map[string]*account
	users map[string]*account // by the holder of the token
}

// A usage is what is on its way.
type usage struct {
	requests int
	bytes    int64
}

// An account is what an application or a holder has on its way, and what it has used.
type account struct {
	usage
	work  chan struct{} // taken during its long work
	begun int64         // requests that were admitted

	used  float64 // requests that still count; they fall by the rate
	at    time.Time
	day   int64
	spent int64 // bytes of the day
}

// A Ticket is a request that was admitted.
type Ticket struct {
	of       *Limits
	accounts [2]*account // of the application, of the holder
	bytes    int64
}

// mostAccounts is how many accounts of a kind are stored before those that used little are removed.
const mostAccounts = 1 << 16

// New returns limits.
func New(o Options) *Limits {
	return &Limits{options: o, works: make(chan struct{}, o.Works), apps: map[string]*account{}, users: map[string]*account{}}
}

// HalfOfFree returns how much of a limit an account may have: half of what others leave, so that there is always some left.
func HalfOfFree(limit, ofAll, own int64) int64 { return (limit - (ofAll - own) + 1) / 2 }

// Begin admits a request, which End must follow if there is no error.
func (l *Limits) Begin(t *Ticket, app, holder string, now time.Time) error {
	l.mu.Lock()
	defer l.mu.Unlock()
	*t = Ticket{of: l, accounts: [2]*account{l.account(l.apps, app), l.account(l.users, holder)}}
	if l.all.requests >= l.options.All {
		return ErrFull
	}
	for _, a := range t.accounts {
		most := HalfOfFree(int64(l.options.All), int64(l.all.requests), int64(a.requests))
		if a.requests >= l.options.Each || int64(a.requests) >= most {
			return ErrTooMany
		}
	}
	if err := t.ask(1, now); err != nil {
		return err
	}
	t.add(1, 0)
	t.accounts[0].begun++
	return nil
}

// Begun returns how many requests of an application were admitted since it has an account.
func (l *Limits) Begun(app string) int64 {
	l.mu.Lock()
	defer l.mu.Unlock()
	if a := l.apps[app]; a != nil {
		return a.begun
	}
	return 0
}

// account returns the account of a name, which stays for its next request.
func (l *Limits) account(all map[string]*account, name string) *account {
	a := all[name]
	if a == nil {
		if len(all) >= mostAccounts {
			l.forget(all)
		}
		a = &account{work: make(chan struct{}, 1)}
		all[strings.Clone(name)] = a // the name may be a part of a long address
	}
	return a
}

// forget removes accounts that used little.
func (l *Limits) forget(all map[string]*account) {
	for name, a := range all {
		if a.requests == 0 && a.spent <= l.options.DayBytes/mostAccounts {
			delete(all, name)
		}
	}
}

// add counts requests and bytes.
func (t *Ticket) add(requests int, bytes int64) {
	for _, u := range []*usage{&t.of.all, &t.accounts[0].usage, &t.accounts[1].usage} {
		u.requests += requests
		u.bytes += bytes
	}
	t.bytes += bytes
}

// End takes back what Begin and Hold counted, and counts the bytes that were sent.
func (t *Ticket) End(sent int64, now time.Time) {
	l := t.of
	l.mu.Lock()
	defer l.mu.Unlock()
	t.add(-1, -t.bytes)
	if l.options.DayBytes > 0 {
		for _, a := range t.accounts {
			a.pass(now, l.options.Rate)
			a.spent += sent
		}
	}
}

// IsBegun returns true if the ticket is that of a request.
func (t *Ticket) IsBegun() bool { return t.of != nil }

// The last part of all bytes is for accounts that have few of them, so that many large requests leave space for small ones.
const (
	last = 64
	few  = 8192
)

// Hold counts bytes of memory.
func (t *Ticket) Hold(bytes int64) error {
	l := t.of
	l.mu.Lock()
	defer l.mu.Unlock()
	most, all := l.options.Bytes, l.all.bytes+bytes
	for _, a := range t.accounts {
		has := a.bytes + bytes
		isMuch := all > most-most/last || has > HalfOfFree(most, l.all.bytes, a.bytes)
		if all > most || isMuch && has > most/few {
			return ErrTooMany
		}
	}
	t.add(0, bytes)
	return nil
}

// Held returns how many bytes Hold counted.
func (t *Ticket) Held() int64 { return t.bytes }

// Free takes back what Hold counted, down to a number of bytes.
func (t *Ticket) Free(to int64) {
	t.of.mu.Lock()
	defer t.of.mu.Unlock()
	t.add(0, to-t.bytes)
}

// Now returns the requests and the bytes that are on their way.
func (l *Limits) Now() (requests int, bytes int64) {
	l.mu.Lock()
	defer l.mu.Unlock()
	return l.all.requests, l.all.bytes
}

// Waiting returns how many requests wait for their turn of long work.
func (l *Limits) Waiting() int64 { return l.waiting.Load() }

// Ask counts more lookups of a request, which are admitted together; later requests wait for longer.
func (t *Ticket) Ask(more int, now time.Time) error {
	t.of.mu.Lock()
	defer t.of.mu.Unlock()
	return t.ask(more, now)
}

func (t *Ticket) ask(requests int, now time.Time) error {
	o := &t.of.options
	if o.Rate == 0 && o.DayBytes == 0 {
		return nil
	}
	rate := float64(o.Rate)
	for _, a := range t.accounts {
		a.pass(now, o.Rate)
		if o.DayBytes > 0 && a.spent >= o.DayBytes {
			return &OverRate{time.Unix((a.day+1)*secondsADay, 0).Sub(now)}
		}
		if rate > 0 && a.used >= rate {
			return &OverRate{time.Duration((a.used - rate + 1) / rate * float64(time.Second))}
		}
	}
	for _, a := range t.accounts {
		a.used += float64(requests)
	}
	return nil
}

const secondsADay = 24 * 60 * 60

// pass brings what an account has used to a time.
func (a *account) pass(now time.Time, rate int) {
	if passed := now.Sub(a.at).Seconds(); passed > 0 {
		a.used = math.Max(0, a.used-passed*float64(rate))
		a.at = now
	}
	if today := now.Unix() / secondsADay; today != a.day {
		a.day, a.spent = today, 0
	}
}

// Work waits for the turn of a long work: one of an application and of a holder at a time, and a fixed number at once. It lasts until the
// function that it returns is called. So nobody waits for more than one work of each other application and holder.
func (t *Ticket) Work(ctx context.Context) (end func(), err error) {
	t.of.waiting.Add(1)
	defer t.of.waiting.Add(-1)
	var taken []chan struct{}
	end = func() {
		for i := len(taken) - 1; i >= 0; i-- {
			<-taken[i]
		}
	}
	for _, place := range []chan struct{}{t.accounts[0].work, t.accounts[1].work, t.of.works} {
		if !take(ctx, place) {
			end()
			return nil, ErrGone
		}
		taken = append(taken, place)
	}
	return end, nil
}

// take waits until a place is free. One that is free is taken also for a caller that has gone, or that only sends no more.
func take(ctx context.Context, place chan struct{}) bool {
	select {
	case place <- struct{}{}:
		return true
	default:
	}
	select {
	case place <- struct{}{}:
		return true
	case <-ctx.Done():
		return false
	}
}
