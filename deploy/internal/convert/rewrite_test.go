package convert

import (
	"strings"
	"testing"
	"time"

	"luvdregan.example/resb/deploy/internal/engine"
	"luvdregan.example/resb/deploy/internal/manifest"
)

// patched returns a text with a patch.
func patched(t *testing.T, text, patch string) string {
	t.Helper()
	made, _, err := Patched(manifest.Bundle{Locale: "de", Kind: engine.Text}, []byte(text), []byte(patch), holdAll)
	if err != nil {
		t.Errorf("%.80q with %.80s: %v", text, patch, err)
	}
	return string(made)
}

// TestPatchedTexts keep comments, layout and order where values change and items are new, and are written anew otherwise (docs/LANGUAGE.md).
func TestPatchedTexts(t *testing.T) {
	const commented = "// texts of a shop\nde {\n  // a greeting {\"}\n  hello { \"Hallo\" } // short\n  menu {\n\t open { \"\xc3\x96ffnen\" /* at most 10 */ }\n  }\n}\n// end"
	for _, c := range [][3]string{
		{commented, `{"hello":"Guten \"Tag\"\n","menu":{"open":"Auf","close":"Zu"}}`, "// texts of a shop\nde {\n  // a greeting {\"}\n  hello { \"Guten \\\"Tag\\\"\\n\" } // short\n  menu {\n" +
			"\t open { \"Auf\" /* at most 10 */ }\n\t close { \"Zu\" }\n  }\n}\n// end"},
		{commented, `{"a":{"b":["c"]},"n":5,"icon":{":bin":"00ff"}}`, strings.Replace(commented, "\n}", "\n  a {\n      b {\n          \"c\",\n      }\n  }\n  icon:bin { \"00ff\" }\n  n:int { 5 }\n}", 1)},
		{commented, `{"hello":null}`, "de {\n    menu {\n        open { \"\xc3\x96ffnen\" }\n    }\n}\n"},
		{commented, `{"hello":{"x":"y"}}`, "de {\n    hello {\n        x { \"y\" }\n    }\n    menu {\n        open { \"\xc3\x96ffnen\" }\n    }\n}\n"},
		{"\ufeffde{\r\n\ta{\"A\"} // a\r\n}\r\n", `{"b":"B"}`, "\ufeffde{\r\n\ta{\"A\"} // a\r\n\tb { \"B\" }\r\n}\r\n"},
		{`de{/*c*/a{"A"}}`, `{"b":{"x":"1","y":"2"}}`, `de{/*c*/a{"A"} b { x { "1" } y { "2" } } }`},
		{"de{\n}", `{"b":"B"}`, "de{\n    b { \"B\" }\n}"},
		{`de{/*c*/}`, `{"b":"B"}`, `de{/*c*/ b { "B" } }`},
		{`de{/*c*/a{"x" /*d*/ "y"}b{un quoted}c:string{}}`, `{"a":"1","b":"2","c":"3"}`, `de{/*c*/a{"1"}b{"2"}c:string{"3"}}`},
		{`de{/*c*/l{"a", "b" /*d*/} m{"p",} e:array{}}`, `{"l":["a","B","c","d"],"m":["p","q"],"e":["r"]}`, `de{/*c*/l{"a", "B", "c", "d" /*d*/} m{"p", "q",} e:array{ "r",}}`},
		{`de{/*c*/l{{"p"}, {a{"q"}}, {"r", "s"} :int{6}}}`, `{"l":["P",{"a":"Q"},["r","S"],7,"t"]}`, `de{/*c*/l{{"P"}, {a{"Q"}}, {"r", "S"} :int{7} "t",}}`},
		{`de{/*c*/":q"{"1"}, n:int{0x10}, v:intvector{1,2} "a/b"{"x\"{"}}`, `{"::q":"2","n":-5,"a/b":"y"}`, `de{/*c*/":q"{"2"}, n:int{-5}, v:intvector{1,2} "a/b"{"y"}}`},
		{"de{\n" + strings.Repeat(" ", 99) + "a{\"A\"}\n}", `{"b":"B"}`, "de{\n" + strings.Repeat(" ", 99) + "a{\"A\"}\n b { \"B\" } }"},
		{`de{/*c*/v:intvector{1,2}}`, `{"v":{":intvector":[1,3]}}`, "de {\n    v:intvector { 1, 3 }\n}\n"},
		{`de{/*c*/\u0061{"1"}}`, `{"a":"2"}`, "de {\n    a { \"2\" }\n}\n"},
	} {
		if got := patched(t, c[0], c[1]); got != c[2] {
			t.Errorf("%q with %s: %q, and not %q", c[0], c[1], got, c[2])
		}
	}
}

// TestLongTexts are patched in linear time: long lines, long arrays, and many changes.
func TestLongTexts(t *testing.T) {
	const many = 20_000
	for before, patch := range map[string]string{
		"de{/*c*/" + strings.Repeat(" ", 1<<20) + "l{" + strings.Repeat(`"a",`, many) + "}}":      `{"l":[` + strings.Repeat(`"b",`, many) + `"c"]}`,
		"de{//" + strings.Repeat("{", 1<<20) + "\nl{" + strings.Repeat("{a{\"x\"}}", many) + "}}": `{"l":[` + strings.Repeat(`{"a":"x","b":"y"},`, many-1) + `{"a":"x","b":"y"}]}`,
	} {
		began := time.Now()
		if made := patched(t, before, patch); made[:5] != before[:5] || time.Since(began) > 20*time.Second {
			t.Errorf("%.20q: %.20q in %v", before, made, time.Since(began))
		}
	}
}
