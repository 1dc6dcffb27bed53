package resb_test

import (
	"bytes"
	"errors"
	"fmt"
	"reflect"
	"runtime"
	"strings"
	"sync"
	"testing"
	"time"

	resb "luvdregan.example/resb/library/go"
)

const german = `de{greeting{"Grüß"} low:int{-1} v:intvector{1,-2} b:bin{00ff} empty:bin{""} list{"a","bc"} menu{open{"Auf"} close{"Zu"}}}`

func opened(t *testing.T) *resb.Bundles {
	t.Helper()
	b, err := resb.Open()
	if err != nil {
		t.Fatal(err)
	}
	t.Cleanup(b.Close)
	if err := b.Install("shop", "de", []byte(german), true); err != nil {
		t.Fatal(err)
	}
	return b
}

func TestLook(t *testing.T) {
	b := opened(t)
	for path, want := range map[string]any{
		"greeting": "Grüß", "low": int32(-1), "v": []int32{1, -2}, "b": []byte{0, 0xff}, "empty": []byte{},
		"list": resb.Array{Count: 2}, "list/1": "bc", "menu": resb.Table{Count: 2}, "": resb.Table{Count: 7},
	} {
		if got, err := b.Look("shop", "de_AT", path); err != nil || !reflect.DeepEqual(got, want) {
			t.Errorf("%q: %v, %v; want %v", path, got, err, want)
		}
	}
	if got, err := b.Text("shop", "de_AT", "greeting"); got != "Grüß" || err != nil {
		t.Error(got, err)
	}
	if got, err := b.Key("shop", "de", "menu", 0); got != "close" || err != nil {
		t.Error(got, err)
	}
	if got, err := b.Valid("shop", "de_AT"); got != "de" || err != nil {
		t.Error(got, err)
	}
	if _, err := b.Valid("shop", "fr"); !errors.Is(err, resb.ErrNoBundle) {
		t.Error(err)
	}
	if got, err := b.List("shop"); err != nil || !reflect.DeepEqual(got, []string{"de"}) {
		t.Error(got, err)
	}
}

func TestErrors(t *testing.T) {
	b := opened(t)
	_, err := b.Text("bank", "de", "greeting")
	if !errors.Is(err, resb.ErrNoBundle) || errors.Is(err, resb.ErrMissing) {
		t.Error(err)
	}
	_, err = resb.Compile([]byte("de{\na:int{09}}"))
	var fault *resb.Error
	if !errors.As(err, &fault) || err.Error() != "TextBadInt, line 2" || fault.Line != 2 || !errors.Is(err, fault.Code) {
		t.Error(err)
	}
	if fault.Code.Short() != "BadInt" || resb.ErrBadText.Short() != "BadText" {
		t.Error(fault.Code.Short())
	}
	if err := resb.Check(nil); err == nil || err.Error() != "FileHeader" {
		t.Error(err)
	}
	if err := b.Install("shop", "de", []byte(german), true); err == nil || err.Error() != "Exists" {
		t.Error(err)
	}
	b.Close()
	if _, err := b.Text("shop", "de", "greeting"); !errors.Is(err, resb.ErrNotOpen) {
		t.Error(err)
	}
}

func TestCompileAndChange(t *testing.T) {
	b := opened(t)
	long := bytes.Repeat([]byte("ä"), 1000)
	file, err := resb.Compile([]byte(fmt.Sprintf(`de{long{"%s"}}`, long)))
	if err != nil || resb.Check(file) != nil {
		t.Fatal(err)
	}
	if err := b.Replace("shop", "de", file, false); err != nil {
		t.Fatal(err)
	}
	if got, err := b.Text("shop", "de", "long"); got != string(long) || err != nil {
		t.Error(len(got), err)
	}
	if err := b.Remove("shop", "de"); err != nil {
		t.Error(err)
	}
}

func text(locale, bundle string) resb.Entry {
	return resb.Entry{Locale: locale, Bundle: []byte(bundle), IsText: true}
}

func TestOpenWith(t *testing.T) {
	b, err := resb.OpenWith(resb.Options{
		ICUData: []resb.Entry{text("de", `de{months{"Januar","Februar"}}`), text("root", "root{}")},
		Parents: []byte(`x{parentLocales{root{"zh_Hant"}}}`),
	})
	if err != nil {
		t.Fatal(err)
	}
	defer b.Close()
	for locale, bundle := range map[string]string{"root": `root{x{"root"} month:alias{"/ICUDATA/de/months/1"}}`, "zh": `zh{x{"Z"}}`} {
		if err := b.Install("shop", locale, []byte(bundle), true); err != nil {
			t.Fatal(err)
		}
	}
	for _, it := range []struct{ locale, path, want string }{{"zh_TW", "x", "Z"}, {"zh_Hant_TW", "x", "root"}, {"fr", "month", "Februar"}} {
		if got, err := b.Text("shop", it.locale, it.path); got != it.want || err != nil {
			t.Errorf("%s: %q, %v", it.locale, got, err)
		}
	}
	if bytes, bundles, err := b.Usage("shop"); bytes == 0 || bundles != 2 || err != nil {
		t.Error(bytes, bundles, err)
	}
	if apps, err := b.Apps(); apps != 1 || err != nil {
		t.Error(apps, err)
	}
	// zh and root, each a step, and one more for the segment
	if got, err := b.LookWithin("shop", "zh", "x", 4); got != "Z" || err != nil {
		t.Error(got, err)
	}
	if _, err := b.LookWithin("shop", "zh", "x", 3); err == nil || err.Error() != "TooManySteps" {
		t.Error(err)
	}
}

func TestErrorsOfTheStart(t *testing.T) {
	for _, it := range []struct {
		options resb.Options
		want    string
	}{
		{resb.Options{ICUData: []resb.Entry{text("root", "root{}"), {Locale: "de", Bundle: []byte("x")}}}, "BadFile, bundle de of ICUDATA"},
		{resb.Options{ICUData: []resb.Entry{text("de", "")}}, "BadText, bundle de of ICUDATA"},
		{resb.Options{ICUData: []resb.Entry{text("root", "root{}"), text("-", "")}}, "BadLocale, bundle - of ICUDATA"},
		{resb.Options{Parents: []byte("x{\nparentLocales{")}, "TextUnexpected, line 2"},
		{resb.Options{Parents: []byte("x{}")}, "ParentsShape"},
	} {
		if _, err := resb.OpenWith(it.options); err == nil || err.Error() != it.want {
			t.Errorf("%v; want %s", err, it.want)
		}
	}
}

func TestShare(t *testing.T) {
	b := opened(t)
	var group sync.WaitGroup
	for i := 0; i < 4; i++ {
		mine, err := b.Share()
		if err != nil {
			t.Fatal(err)
		}
		group.Add(1)
		go func() {
			defer group.Done()
			defer mine.Close()
			for k := 0; k < 1000; k++ {
				if got, err := mine.Text("shop", "de_AT", "menu/open"); got != "Auf" || err != nil {
					t.Error(got, err)
					return
				}
			}
		}()
	}
	if err := b.Remove("shop", "fr"); !errors.Is(err, resb.ErrShared) && !errors.Is(err, resb.ErrAbsent) {
		t.Error(err)
	}
	group.Wait()
	if err := b.Remove("shop", "de"); err != nil {
		t.Error(err)
	}
}

// TestSnapshot changes a snapshot beside a share of the engine, and then the engine.
func TestSnapshot(t *testing.T) {
	b := opened(t)
	other, err := b.Share()
	if err != nil {
		t.Fatal(err)
	}
	next, err := b.Snapshot()
	if err != nil {
		t.Fatal(err)
	}
	defer next.Close()
	if err := next.Replace("shop", "de", []byte(`de{greeting{"Hallo"}}`), true); err != nil {
		t.Error(err)
	}
	other.Close()
	if err := b.Remove("shop", "de"); err != nil {
		t.Error(err)
	}
	if got, err := next.Text("shop", "de_AT", "greeting"); got != "Hallo" || err != nil {
		t.Error(got, err)
	}
	b.Close()
	if _, err := b.Snapshot(); err == nil {
		t.Error("a snapshot of closed Bundles")
	}
}

// TestConcurrentUse looks up, changes and shares one Bundles on several goroutines.
func TestConcurrentUse(t *testing.T) {
	b := opened(t)
	var group sync.WaitGroup
	for i := 0; i < 4; i++ {
		app := fmt.Sprint("app", i)
		group.Add(1)
		go func() {
			defer group.Done()
			for k := 0; k < 100; k++ {
				err := b.Install(app, "de", []byte(german), true)
				if err == nil {
					err = b.Remove(app, "de")
				}
				if err != nil {
					t.Error(err)
				}
				if got, err := b.Look("shop", "de_AT", "v"); !reflect.DeepEqual(got, []int32{1, -2}) {
					t.Error(got, err)
				}
			}
		}()
	}
	group.Wait()
}

// TestForgottenShares waits until the collector has closed shares that nobody refers to, so that a change is possible again.
func TestForgottenShares(t *testing.T) {
	b := opened(t)
	for i := 0; i < 10; i++ {
		if _, err := b.Share(); err != nil {
			t.Fatal(err)
		}
	}
	err := b.Remove("shop", "de")
	for ends := time.Now().Add(time.Minute); errors.Is(err, resb.ErrShared) && time.Now().Before(ends); err = b.Remove("shop", "de") {
		runtime.GC()
		time.Sleep(time.Millisecond)
	}
	if err != nil {
		t.Error(err)
	}
}

// TestPool looks up on several goroutines while bundles change: each lookup finds a whole state.
func TestPool(t *testing.T) {
	pool, err := resb.OpenPool(resb.Options{}, 3)
	if err != nil {
		t.Fatal(err)
	}
	put := func(number int) {
		edits := []resb.Edit{{"de", prepared(t, fmt.Sprintf(`x{n{"%d"}}`, number))}, {"fr", prepared(t, fmt.Sprintf(`x{n{"%d"}}`, number))}}
		if err := pool.Change(func(b *resb.Bundles) error { return b.Release("shop", edits) }); err != nil {
			t.Error(err)
		}
	}
	put(0)
	var group sync.WaitGroup
	for i := 0; i < 8; i++ {
		i := i
		group.Add(1)
		go func() {
			defer group.Done()
			for k := 0; k < 200; k++ {
				if i == 0 && k%10 == 0 {
					put(k)
				}
				pool.Look(func(b *resb.Bundles) {
					one, err := b.Text("shop", "de", "n")
					other, errToo := b.Text("shop", "fr", "n")
					if err != nil || errToo != nil || one != other {
						t.Error(one, err, other, errToo)
					}
				})
			}
		}()
	}
	group.Wait()
	if err := pool.Change(func(*resb.Bundles) error { return resb.ErrFull }); err != resb.ErrFull {
		t.Error(err)
	}
	if _, err := resb.OpenPool(resb.Options{Parents: []byte("x{}")}, 2); fmt.Sprint(err) != "ParentsShape" {
		t.Error(err)
	}
}

// TestAppendItemJSON appends replies, and none that is too long.
func TestAppendItemJSON(t *testing.T) {
	b := opened(t)
	const low = `{"actual":"de","signed":-1,"type":"int","unsigned":268435455,"valid":"de"}`
	to := []byte("[")
	for _, capacity := range []int{0, 1000} {
		item, needs, err := b.AppendItemJSON(append(make([]byte, 0, capacity), to...), "shop", "de", "low", 1000, 1000)
		if string(item) != "["+low || needs != 0 || err != nil {
			t.Errorf("%s, %d, %v", item, needs, err)
		}
	}
	if item, needs, err := b.AppendItemJSON(to, "shop", "de", "low", 1000, len(low)-1); string(item) != "[" || needs != len(low) || err != nil {
		t.Errorf("%s, %d, %v", item, needs, err)
	}
	if err := b.Install("shop", "fr", []byte(fmt.Sprintf(`fr{long{"%s"}}`, bytes.Repeat([]byte("a"), 5000))), true); err != nil {
		t.Fatal(err)
	}
	if item, needs, err := b.AppendItemJSON(to, "shop", "fr", "long", 1000, 4999); string(item) != "[" || needs != 5000 || err != nil {
		t.Errorf("%s, %d, %v", item, needs, err)
	}
	const keys = `{"actual":"fr","keys":["long"],"type":"table","valid":"fr"}`
	for _, c := range []struct {
		path               string
		most, limit, needs int
	}{{"long", 60, 100, 5000}, {"long", 9999, 4999, 5000}, {"", 9, 1000, len(keys)}, {"", 9, len(keys), len(keys)}, {"", 9, len(keys) - 1, len(keys)}, {"", 9, 20, 21}} {
		if item, needs, err := b.AppendItemWithin(to, "shop", "fr", c.path, 1000, c.most, c.limit); string(item) != "[" || needs != c.needs || err != nil {
			t.Errorf("%v: %s, %d, %v", c, item, needs, err)
		}
	}
	if item, _, err := b.AppendItemJSON(to, "shop", "de", "none", 1000, 1000); string(item) != "[" || !errors.Is(err, resb.ErrMissing) {
		t.Errorf("%s, %v", item, err)
	}
}

func Example() {
	bundles, err := resb.Open()
	if err != nil {
		panic(err)
	}
	defer bundles.Close()
	if err := bundles.Install("shop", "de", []byte(`de{menu{open{"Öffnen"}}}`), true); err != nil {
		panic(err)
	}
	text, err := bundles.Text("shop", "de_AT", "menu/open")
	fmt.Println(text, err)
	// Output: Öffnen <nil>
}

func BenchmarkText(b *testing.B) {
	bundles, err := resb.Open()
	if err != nil {
		b.Fatal(err)
	}
	defer bundles.Close()
	if err := bundles.Install("shop", "de", []byte(german), true); err != nil {
		b.Fatal(err)
	}
	b.ResetTimer()
	for i := 0; i < b.N; i++ {
		if _, err := bundles.Text("shop", "de_AT", "menu/open"); err != nil {
			b.Fatal(err)
		}
	}
}

func prepared(t *testing.T, text string) *resb.Bundle {
	t.Helper()
	bundle, err := resb.Prepare([]byte(text), true)
	if err != nil {
		t.Fatal(err)
	}
	return bundle
}

func TestBundle(t *testing.T) {
	bundle := prepared(t, `x{a{"b"} n:int{-1}}`)
	text, err := bundle.Text("de-at")
	if err != nil || text != "de_AT {\n    a { \"b\" }\n    n:int { 268435455 }\n}\n" {
		t.Errorf("%q, %v", text, err)
	}
	json, err := bundle.JSON()
	if err != nil || string(json) != `{"a":"b","n":-1}` {
		t.Errorf("%s, %v", json, err)
	}
	again, err := resb.PrepareJSON(json)
	if err != nil {
		t.Fatal(err)
	}
	one, err := bundle.File()
	two, errToo := again.File()
	if err != nil || errToo != nil || !bytes.Equal(one, two) || resb.CheckForICU(one) != nil {
		t.Error(err, errToo, one, two)
	}
	if length, err := bundle.FileLen(); length != len(one) || err != nil {
		t.Error(length, err)
	}
	again.Discard()
	again, err = bundle.Copy()
	if err != nil {
		t.Fatal(err)
	}
	bundle.Discard()
	if two, err = again.File(); err != nil || !bytes.Equal(one, two) {
		t.Error(err, one, two)
	}
	again.Discard()
	if _, err := again.Copy(); !errors.Is(err, resb.ErrNotOpen) {
		t.Error(err)
	}
	if _, err := bundle.JSON(); !errors.Is(err, resb.ErrNotOpen) {
		t.Error(err)
	}
	if _, err := bundle.FileLen(); !errors.Is(err, resb.ErrNotOpen) {
		t.Error(err)
	}
	var fault *resb.Error
	if _, err := resb.PrepareJSON([]byte("{\n\"a\": 1.5}")); !errors.As(err, &fault) || err.Error() != "JsonBadNumber, line 2" {
		t.Error(err)
	}
	if _, err := resb.Prepare([]byte("de{\na:int{09}}"), true); !errors.As(err, &fault) || err.Error() != "TextBadInt, line 2" {
		t.Error(err)
	}
	alias := prepared(t, `de{"%%ALIAS"{"de"}}`)
	file, err := alias.File()
	if err != nil || resb.Check(file) != nil || fmt.Sprint(resb.CheckForICU(file)) != "IcuAlias" {
		t.Error(err)
	}
}

func TestLint(t *testing.T) {
	text := []byte("de{\na{\"b\" \"c\", \"d\"}\nb:int{09}\n}")
	found, more, err := resb.Lint(text, "de", 10)
	if err != nil || more != 0 || len(found) != 2 || found[0].Message == "" || found[1].Message == "" {
		t.Fatal(found, more, err)
	}
	found[0].Message, found[1].Message = "", ""
	want := []resb.Finding{{Line: 2, Column: 6, Rule: "joined-strings"}, {Line: 3, Column: 7, IsError: true, Rule: "BadInt"}}
	if !reflect.DeepEqual(found, want) {
		t.Error(found)
	}
	if found, more, err = resb.Lint(text, "", 0); err != nil || more != 1 || len(found) != 1 || !found[0].IsError {
		t.Error(found, more, err)
	}
	if found, _, err = resb.Lint([]byte(`de{a{"b"}}`), "fr", 10); err != nil || len(found) != 1 || found[0].Rule != "bundle-name" {
		t.Error(found, err)
	}
}

func TestAliasTargets(t *testing.T) {
	for text, want := range map[string][]string{
		`de{a{"b"}}`: {},
		`de{a:alias{"fr/x"} b:alias{"/ICUDATA/de/y"} c:alias{"fr/z"} d:alias{"/LOCALE/a"}}`: {"/ICUDATA/de", "fr"},
		`de{a:alias{"` + strings.Repeat("x", 1000) + `"}}`:                                  {strings.Repeat("x", 1000)},
	} {
		file, err := resb.Compile([]byte(text))
		if err != nil {
			t.Fatal(err)
		}
		if names, err := resb.AliasTargets(file); err != nil || !reflect.DeepEqual(names, want) {
			t.Error(err, names)
		}
	}
	if _, err := resb.AliasTargets(nil); fmt.Sprint(err) != "FileHeader" {
		t.Error(err)
	}
}

func TestChildren(t *testing.T) {
	b := opened(t)
	if err := b.Install("shop", "xx", []byte(`xx{a:alias{"/LOCALE/b"} b{"ü"} l{"c",:int{-1}} t:table{} v:intvector{1,-2}}`), true); err != nil {
		t.Fatal(err)
	}
	want := []resb.Child{{"a", resb.Alias("/LOCALE/b")}, {"b", "ü"}, {"l", resb.Array{Count: 2}}, {"t", resb.Table{}}, {"v", []int32{1, -2}}}
	if children, err := b.Children("shop", "xx_YY", ""); err != nil || !reflect.DeepEqual(children, want) {
		t.Error(err, children)
	}
	if children, err := b.Children("shop", "xx", "l"); err != nil || !reflect.DeepEqual(children, []resb.Child{{"", "c"}, {"", int32(-1)}}) {
		t.Error(err, children)
	}
	if children, err := b.Children("shop", "xx", "t"); err != nil || len(children) != 0 {
		t.Error(err, children)
	}
	if _, err := b.Children("shop", "xx", "b"); !errors.Is(err, resb.ErrOtherKind) {
		t.Error(err)
	}
}

func TestRelease(t *testing.T) {
	b := opened(t)
	if err := b.Release("shop", []resb.Edit{{"root", prepared(t, `x{open{"Open"} menu{quit{"Quit"}}}`)}, {"de", prepared(t, german)}}); err != nil {
		t.Fatal(err)
	}
	item, err := b.ItemJSON("shop", "de_AT", "open", 1000)
	if err != nil || string(item) != `{"actual":"root","type":"string","valid":"de","value":"Open"}` {
		t.Errorf("%s, %v", item, err)
	}
	tree, err := b.TreeJSON("shop", "de_AT", "menu", 1000)
	if err != nil || string(tree) != `{"close":"Zu","open":"Auf","quit":"Quit"}` {
		t.Errorf("%s, %v", tree, err)
	}
	if _, err := b.TreeJSON("shop", "de_AT", "menu", 1); !errors.Is(err, resb.ErrTooManySteps) {
		t.Error(err)
	}
	var fault *resb.EditError
	err = b.Release("shop", []resb.Edit{{"root", nil}, {"fr", nil}})
	if !errors.As(err, &fault) || fault.Index != 1 || !errors.Is(err, resb.ErrAbsent) || err.Error() != "edit 1: Absent" {
		t.Error(err)
	}
	used := prepared(t, "x{}")
	used.Discard()
	if err := b.Release("shop", []resb.Edit{{"root", used}}); !errors.As(err, &fault) || fault.Index != 0 || !errors.Is(err, resb.ErrNotOpen) {
		t.Error(err)
	}
	if got, err := b.List("shop"); err != nil || !reflect.DeepEqual(got, []string{"de", "root"}) {
		t.Error(got, err)
	}
	if err := b.Release("shop", []resb.Edit{{"root", nil}}); err != nil {
		t.Error(err)
	}
	if got, err := b.List("shop"); err != nil || !reflect.DeepEqual(got, []string{"de"}) {
		t.Error(got, err)
	}
}
