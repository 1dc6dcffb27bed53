package limits

import (
	"context"
	"errors"
	"fmt"
	"testing"
	"time"

	"luvdregan.example/resb/deploy/tests/harness"
)

func begin(t *testing.T, l *Limits, app, holder string, want error) *Ticket {
	t.Helper()
	ticket := &Ticket{}
	if err := l.Begin(ticket, app, holder, time.Now()); !errors.Is(err, want) {
		t.Fatalf("%s by %s: %v and not %v", app, holder, err, want)
	}
	return ticket
}

// TestAHolderOfManyApplications takes requests and bytes over many applications, and leaves half of the rest to another holder.
func TestAHolderOfManyApplications(t *testing.T) {
	l := New(Options{Each: 1000, All: 100, Bytes: 1 << 20, Works: 2})
	for i := 0; i < 50; i++ {
		begin(t, l, fmt.Sprint("app", i), "prefix", nil)
	}
	begin(t, l, "app50", "prefix", ErrTooMany)
	other := begin(t, l, "bank", "other", nil)
	harness.Equal(t, other.Hold(1<<18), nil)
	held := int64(0)
	for i := 0; ; i++ {
		one := &Ticket{of: l, accounts: [2]*account{l.account(l.apps, fmt.Sprint("app", i)), l.account(l.users, "prefix")}}
		if one.Hold(1<<14) != nil {
			break
		}
		held += 1 << 14
	}
	harness.ErrorIf(t, held != (1<<20-1<<18)/2, "%d bytes are held", held)
	other.End(0, time.Now())
	if requests, bytes := l.Now(); requests != 50 || bytes != held {
		t.Error(requests, bytes)
	}
}

// TestManyHolders has eight holders ask until each is refused: another one is still admitted.
func TestManyHolders(t *testing.T) {
	l := New(Options{Each: 4096, All: 4096, Bytes: 1 << 20, Works: 1})
	for i := 0; i < 8; i++ {
		holder := fmt.Sprint("holder", i)
		for l.Begin(&Ticket{}, holder, holder, time.Now()) == nil {
		}
	}
	begin(t, l, "bank", "other", nil)
}

// TestManyBodies has eight holders send bytes until each is refused: a hundred others may still send small bodies, and no more than all bytes.
func TestManyBodies(t *testing.T) {
	l := New(Options{Each: 9, All: 999, Bytes: 512 << 20, Works: 1})
	for i := 0; i < 8; i++ {
		holder := fmt.Sprint("holder", i)
		one := begin(t, l, holder, holder, nil)
		for bytes := int64(64 << 20); bytes > 0; bytes /= 2 {
			for one.Hold(bytes) == nil {
			}
		}
	}
	for i := 0; i < 100; i++ {
		name := fmt.Sprint("other", i)
		harness.Equal(t, begin(t, l, name, name, nil).Hold(64<<10), nil, name)
	}
	_, bytes := l.Now()
	harness.ErrorIf(t, bytes < 500<<20 || bytes > 512<<20, "%d bytes", bytes)
}

func TestRates(t *testing.T) {
	l := New(Options{Each: 9, All: 9, Bytes: 9, Rate: 2, DayBytes: 100, Works: 1})
	now := time.Unix(secondsADay*20000+10, 0)
	for i := 0; i < 3; i++ {
		ticket := &Ticket{}
		err := l.Begin(ticket, "shop", "ci", now)
		var rate *OverRate
		if isOver := errors.As(err, &rate); isOver != (i == 2) || isOver && rate.Wait != time.Second/2 {
			t.Fatal(i, err)
		}
		if err == nil {
			ticket.End(40, now)
		}
	}
	later := now.Add(time.Minute)
	begin(t, l, "bank", "me", nil).End(1<<30, later) // counts for nobody else
	ticket := &Ticket{}
	harness.Must(t, l.Begin(ticket, "shop", "ci", later))
	ticket.End(60, later)
	err := l.Begin(&Ticket{}, "shop", "ci", later)
	var rate *OverRate
	harness.ErrorIf(t, !errors.As(err, &rate) || rate.Wait != (secondsADay-70)*time.Second,
		"over the bytes of the day: %v", err)
	harness.Equal(t, l.Begin(&Ticket{}, "shop", "ci", now.Add(secondsADay*time.Second)), nil,
		"the next day")
}

// TestManyNames has a holder ask for more names than are stored, and one of them all the time. Further requests of a name allocate nothing.
func TestManyNames(t *testing.T) {
	l := New(Options{Each: 9, All: 99, Bytes: 9, Works: 1})
	stays := begin(t, l, "stays", "me", nil)
	for i := 0; i < mostAccounts+100; i++ {
		begin(t, l, fmt.Sprint("app", i), "me", nil).End(0, time.Now())
	}
	harness.ErrorIf(t, len(l.apps) > mostAccounts || l.apps["stays"] != stays.accounts[0], "%d accounts", len(l.apps))
	ticket, now := &Ticket{}, time.Now()
	harness.Equal(t, testing.AllocsPerRun(100, func() {
		harness.Must(t, l.Begin(ticket, "shop", "ci", now))
		ticket.End(0, now)
	}), 0.0)
}

// TestWork has one long work of an application and of a holder at a time.
func TestWork(t *testing.T) {
	l := New(Options{Each: 9, All: 99, Bytes: 9, Works: 2})
	one, same, other := begin(t, l, "a", "x", nil), begin(t, l, "b", "x", nil), begin(t, l, "c", "y", nil)
	end, err := one.Work(context.Background())
	harness.Must(t, err)
	soon, cancel := context.WithTimeout(context.Background(), time.Millisecond)
	defer cancel()
	if _, err := same.Work(soon); err != ErrGone {
		t.Error("the same holder: ", err)
	}
	if free, err := other.Work(context.Background()); err != nil {
		t.Error(err)
	} else {
		free()
	}
	end()
	if free, err := same.Work(context.Background()); err != nil {
		t.Error(err)
	} else {
		free()
	}
}
