package manifest

import (
	"errors"
	"fmt"
	"reflect"
	"testing"
)

// full makes an application of some bundles by one release, as Judge does.
func full(t testing.TB, n int) *Manifest {
	c := &Change{App: "shop", ID: "first", Op: "release", Who: "ci", At: 1_795_000_000_000}
	for i := 0; i < n; i++ {
		text := fmt.Sprint("text{", i, "}")
		c.Edits = append(c.Edits, Edit{Locale: fmt.Sprintf("l%c%c_%c%c", 'a'+i%26, 'a'+i/26%26, 'A'+i/676%26, 'A'+i%17), Body: []byte(text),
			Kind: "text", Digest: DigestOf([]byte(text)), Compiled: int64(900 + i*53%9000)})
	}
	m, refusal := Judge(&Manifest{App: "shop"}, c, Limits{})
	if refusal != nil {
		t.Fatal(refusal)
	}
	return m
}

// stored is a store of pages.
type stored map[Digest][]byte

func (s stored) read(d Digest) ([]byte, error) {
	if body, there := s[d]; there {
		return body, nil
	}
	return nil, errors.New("no page")
}

// put stores a manifest over the pages of those before, and reads it.
func (s stored) put(t testing.TB, m *Manifest) (again *Manifest, bytes int) {
	head := m.Head()
	bytes = len(head)
	for d, body := range m.Fresh() {
		s[d] = body
		bytes += len(body)
	}
	again, err := ReadHead(head)
	if err != nil {
		t.Fatal(err)
	}
	if err := again.Fill(nil, s.read); err != nil {
		t.Fatal(err)
	}
	if err := again.FillMade(s.read); err != nil {
		t.Fatal(err)
	}
	return again, bytes
}

func sameBundles(a, b *Manifest) bool {
	return reflect.DeepEqual(a.Bundles, b.Bundles) || len(a.Bundles)+len(b.Bundles) == 0
}

func TestPages(t *testing.T) {
	for _, n := range []int{1, 16, 17, 64, 65, 900, 4096} {
		s := stored{}
		m := full(t, n)
		again, whole := s.put(t, m)
		if !sameBundles(m, again) || !reflect.DeepEqual(m.Made, again.Made) || again.ID != "first" || again.Revision != 1 {
			t.Fatalf("%d bundles: another manifest", n)
		}
		most := 0
		for i := 0; i < 50; i++ {
			next, refusal := Judge(again, &Change{App: "shop", ID: fmt.Sprint(i), At: 1_795_000_100_000, Who: "ci",
				Edits: []Edit{put(m.Bundles[i*7%n].Locale, fmt.Sprint("new{", i, "}"))}}, Limits{})
			if refusal != nil {
				t.Fatal(refusal)
			}
			bytes := len(next.Head())
			for d, body := range next.Fresh() {
				s[d] = body
				bytes += len(body)
			}
			near, err := ReadHead(next.Head())
			if err != nil || near.Fill(again, s.read) != nil || !sameBundles(next, near) || len(Diff(again, near)) != 1 || near.Before != again.ID {
				t.Fatalf("%d bundles: another manifest from a near one after change %d", n, i)
			}
			if again = near; bytes > most {
				most = bytes
			}
		}
		if read, _ := s.put(t, again); !sameBundles(again, read) {
			t.Fatalf("%d bundles: another manifest after all changes", n)
		}
		t.Logf("%d bundles: %d bytes; a change of one: at most %d", n, whole, most)
		if most > 16<<10 {
			t.Error("a change of one bundle writes too much")
		}
	}
}

// TestFewerAndMore crosses the number of bundles which the head has.
func TestFewerAndMore(t *testing.T) {
	s, m := stored{}, full(t, 66)
	now, _ := s.put(t, m)
	for _, c := range []Change{
		{Edits: []Edit{{Locale: m.Bundles[3].Locale}, {Locale: m.Bundles[9].Locale}}},
		{Edits: []Edit{put("de", "x{}")}},
		{Edits: []Edit{{Locale: "de"}, put("it", "x{}"), put("fr", "y{}"), put("es", "z{}")}},
		{Erase: true},
		{Edits: []Edit{put("de", "x{}")}},
	} {
		c.App = "shop"
		next, refusal := Judge(now, &c, Limits{})
		if refusal != nil {
			t.Fatal(refusal)
		}
		again, _ := s.put(t, next)
		if !sameBundles(next, again) || again.Erased != c.Erase {
			t.Fatalf("%v", c)
		}
		now = again
	}
	if len(now.Bundles) != 1 || now.Revision != 6 {
		t.Fatal(now)
	}
}

// TestEachByteOfAManifest flips each byte of a head and of a page.
func TestEachByteOfAManifest(t *testing.T) {
	m := full(t, 80)
	head, pages := m.Head(), stored(m.Fresh())
	for i := range head {
		bad := append([]byte(nil), head...)
		bad[i] ^= 1 << (i % 8)
		if _, err := ReadHead(bad); !errors.Is(err, ErrDamaged) {
			t.Fatalf("byte %d of the head: %v", i, err)
		}
		if _, err := ReadHead(head[:i]); !errors.Is(err, ErrDamaged) {
			t.Fatalf("a head of %d bytes: %v", i, err)
		}
	}
	again, err := ReadHead(head)
	if err != nil {
		t.Fatal(err)
	}
	for d, page := range pages {
		page[len(page)/2] ^= 4
		if err := again.Fill(nil, pages.read); d != again.log.digest && !errors.Is(err, ErrDamaged) {
			t.Fatal(err)
		}
		page[len(page)/2] ^= 4
	}
}

func BenchmarkFull(b *testing.B) {
	s := stored{}
	m, _ := s.put(b, full(b, 4096))
	c := &Change{App: "shop", ID: "x", Edits: []Edit{put("lab_AA", "new{}")}}
	next, _ := Judge(m, c, Limits{})
	s.put(b, next)
	b.Run("judge", func(b *testing.B) {
		for i := 0; i < b.N; i++ {
			Judge(m, c, Limits{Bundles: 5000, Bytes: 1 << 40, Compiled: 1 << 40})
		}
	})
	b.Run("read", func(b *testing.B) {
		for i := 0; i < b.N; i++ {
			s.put(b, m)
		}
	})
	b.Run("diff", func(b *testing.B) {
		for i := 0; i < b.N; i++ {
			Diff(m, next)
		}
	})
	b.Run("read near", func(b *testing.B) {
		head := next.Head()
		for i := 0; i < b.N; i++ {
			near, _ := ReadHead(head)
			_ = near.Fill(m, s.read)
		}
	})
}
