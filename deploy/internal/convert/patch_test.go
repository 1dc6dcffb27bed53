package convert

import (
	"context"
	"encoding/json"
	"errors"
	"fmt"
	"os"
	"reflect"
	"runtime"
	"strings"
	"testing"

	"luvdregan.example/resb/deploy/internal/engine"
)

func holdAll(int64) error { return nil }

// TestMerge has the examples of RFC 7396, appendix A.
func TestMerge(t *testing.T) {
	for _, c := range [][3]string{
		{`{"a":"b"}`, `{"a":"c"}`, `{"a":"c"}`}, {`{"a":"b"}`, `{"b":"c"}`, `{"a":"b","b":"c"}`}, {`{"a":"b"}`, `{"a":null}`, `{}`},
		{`{"a":"b","b":"c"}`, `{"a":null}`, `{"b":"c"}`}, {`{"a":["b"]}`, `{"a":"c"}`, `{"a":"c"}`}, {`{"a":"c"}`, `{"a":["b"]}`, `{"a":["b"]}`},
		{`{"a":{"b":"c"}}`, `{"a":{"b":"d","c":null}}`, `{"a":{"b":"d"}}`}, {`{"a":[{"b":"c"}]}`, `{"a":[1]}`, `{"a":[1]}`}, {`["a","b"]`, `["c","d"]`, `["c","d"]`},
		{`{"a":"b"}`, `["c"]`, `["c"]`}, {`{"a":"foo"}`, `null`, `null`}, {`{"a":"foo"}`, `"bar"`, `"bar"`}, {`{"e":null}`, `{"a":1}`, `{"e":null,"a":1}`},
		{`[1,2]`, `{"a":"b","c":null}`, `{"a":"b"}`}, {`{}`, `{"a":{"bb":{"ccc":null}}}`, `{"a":{"bb":{}}}`},
	} {
		if got := merge(nil, []byte(c[0]), []byte(c[1])); string(got) != c[2] {
			t.Errorf("%s with %s: %s", c[0], c[1], got)
		}
	}
}

// TestLongPatch has patches of 200,000 keys, whose memory is counted before it is taken, however deep they are.
func TestLongPatch(t *testing.T) {
	var keys strings.Builder
	for i := 0; i < 200_000; i++ {
		fmt.Fprintf(&keys, `"k%06d":"a",`, i*7919%200_000)
	}
	for _, depth := range []int{1, 60} {
		patch := []byte(strings.Repeat(`{"a":`, depth-1) + "{" + keys.String() + `"z":1}` + strings.Repeat("}", depth-1))
		held, err := int64(0), error(nil)
		hold := func(bytes int64) error {
			held += bytes
			return nil
		}
		took := allocated(func() { err = CheckPatch(patch, hold) })
		if err != nil || took > held {
			t.Errorf("depth %d: %v, %d bytes, and %d were counted", depth, err, took, held)
		}
		var made []byte
		if took = allocated(func() { made = merge(nil, []byte("{}"), patch) }); len(made) != len(patch) || took > 3*held {
			t.Errorf("depth %d: %d of %d bytes, in %d, and %d were counted", depth, len(made), len(patch), took, held)
		}
	}
}

// allocated returns how many bytes a function allocates.
func allocated(do func()) int64 {
	var before, after runtime.MemStats
	runtime.ReadMemStats(&before)
	do()
	runtime.ReadMemStats(&after)
	return int64(after.TotalAlloc - before.TotalAlloc)
}

// TestPlacesOfFaults names the code, the line, the column and the path of each.
func TestPlacesOfFaults(t *testing.T) {
	deep := strings.Repeat(`{"a":`, 65) + "1" + strings.Repeat("}", 65)
	for text, want := range map[string]string{
		"{\n \"a\": ]}": "2:7: NotJson /a", "": "1:1: NotJson ", `{"a":1`: "1:7: NotJson /a", `{"a":"B","a":"C"}`: "1:14: DuplicateKey /a", "{}\n x": "2:2: TrailingText ",
		"{\"\u00e4\":{\"b~/\":x}}": "1:13: NotJson /\u00e4/b~0~1", "{\"a\":\"\xff\"}": "1:7: NotUtf8 ", `{1:2}`: "1:2: NotJson ", `{"a":1,}`: "1:8: NotJson /a", `[1,]`: "1:4: NotJson /1",
		`[,1]`: "1:3: NotJson /0", `{"a" 1}`: "1:6: NotJson /a", `{"a":1 "b":2}`: "1:8: NotJson /a", `{"a":1]`: "1:7: NotJson /a", `[1}`: "1:3: NotJson /0", `[1:2]`: "1:4: NotJson /1",
		`[1,,2]`: "1:5: NotJson /1", `{"a":1,:"b":2}`: "1:9: NotJson /a", `{"a":""x}`: "1:8: NotJson /a", `{},`: "1:4: TrailingText ",
		`{"a":01}`: "1:6: NotJson /a", "{\"a\":\"\t\"}": "1:6: NotJson /a", `{"a":[{"b":1,"b":2}]}`: "1:18: DuplicateKey /a/0/b",
		deep: "1:321: TooDeep " + strings.Repeat("/a", 64), ` {"a":[1,{"b":null}]} `: "<nil>", `"text"`: "<nil>",
	} {
		if got := fmt.Sprint(CheckPatch([]byte(text), holdAll)); got != want {
			t.Errorf("%.30s: %s, and not %s", text, got, want)
		}
	}
	full := errors.New("full")
	if err := CheckPatch([]byte(`{"a":1}`), func(int64) error { return full }); !errors.Is(err, full) {
		t.Error(err)
	}
}

// TestPlacesOfItems finds the item of a line, and the place in a patch on the way to it.
func TestPlacesOfItems(t *testing.T) {
	const text = "{\n\"a\": [\n1,\n{\n\"b\": true\n}\n],\n\"c\": {\n\":bin\": \"0\"\n},\n\"d\": {}\n}"
	for line, want := range map[int][]string{1: nil, 2: {"a"}, 3: {"a", "0"}, 4: {"a", "1"}, 5: {"a", "1", "b"}, 8: {"c"}, 9: {"c"}, 11: {"d"}} {
		if got := pathAt([]byte(text), line, "BadNumber"); strings.Join(got, "/") != strings.Join(want, "/") {
			t.Errorf("line %d: %q, and not %q", line, got, want)
		}
	}
	if got := pathAt([]byte(text), 5, "BadKey"); !reflect.DeepEqual(got, []string{"a", "1"}) {
		t.Errorf("%q", got)
	}
	const patch = `{"x":1,"a":{"b":[2,{"c":3}]}}`
	for path, want := range map[string]string{"": patch[:1], "a": `{"b"`, "a/b/1/c": "3", "a/none": `{"b"`, "b": patch[:5], "x": "1,"} {
		at := placeOf([]byte(patch), strings.Split(path, "/"))
		if !strings.HasPrefix(patch[at:], want) {
			t.Errorf("%q: at %q", path, patch[at:])
		}
	}
}

// TestDifferencesOfTrees compares tables by keys and arrays by indexes.
func TestDifferencesOfTrees(t *testing.T) {
	for _, c := range [][3]string{
		{`{"a":"A","b":{"c":1}}`, `{"a":"B","b":{"c":1}}`, `[{"new":"B","old":"A","path":"a"}]`},
		{`{"a":{"b":1,"c":[]}}`, `{"a":"A"}`, `[{"old":1,"path":"a/b"},{"old":[],"path":"a/c"},{"new":"A","path":"a"}]`},
		{`{"a":[1,2,3,4,5,6,7,8,9,10,11]}`, `{"a":[1,3]}`, `[{"new":3,"old":2,"path":"a/1"},{"old":3,"path":"a/2"},{"old":4,"path":"a/3"},{"old":5,"path":"a/4"},` +
			`{"old":6,"path":"a/5"},{"old":7,"path":"a/6"},{"old":8,"path":"a/7"},{"old":9,"path":"a/8"},{"old":10,"path":"a/9"},{"old":11,"path":"a/10"}]`},
		{`{"::a":{":bin":"00"}}`, `{"::a":{":bin":"01"}}`, `[{"new":{":bin":"01"},"old":{":bin":"00"},"path":":a"}]`},
		{`{"a":{}}`, ``, `[{"old":{},"path":"a"}]`}, {``, `{"a":{"b":1}}`, `[{"new":1,"path":"a/b"}]`}, {`{"a":{}}`, `{"a":[]}`, `[{"old":{},"path":"a"},{"new":[],"path":"a"}]`},
		{`{"a":{":alias":"/x"}}`, `{"a":{"b":"B"}}`, `[{"old":{":alias":"/x"},"path":"a"},{"new":"B","path":"a/b"}]`}, {``, ``, `[]`}, {"{}\n", "{}", `[]`},
	} {
		got, err := Differences(context.Background(), json.RawMessage(c[0]), json.RawMessage(c[1]), 1<<20)
		if err != nil || string(Marshal(got)) != c[2] {
			t.Errorf("%s with %s: %s, %v", c[0], c[1], Marshal(got), err)
		}
	}
	if _, err := Differences(context.Background(), json.RawMessage(`{"a":"0123456789"}`), nil, 20); !errors.Is(err, ErrOutput) {
		t.Error(err)
	}
}

// TestMeanings are those of rb_explain, all of files and of JSON.
func TestMeanings(t *testing.T) {
	words, err := os.ReadFile("../../../crates/rb_explain/src/words.rt")
	if err != nil {
		t.Fatal(err)
	}
	for kind, name := range map[string]string{engine.File: "OF_FILE", JSON: "OF_JSON"} {
		_, explained, _ := strings.Cut(string(words), name+": &str = \"\\\n")
		explained, _, _ = strings.Cut(explained, "\";\n")
		for _, row := range strings.Split(strings.ReplaceAll(explained, "\\t\\\n", "\t"), "\n") {
			code, meaning, _ := strings.Cut(row, "\t")
			meaning, _, _ = strings.Cut(meaning, "\t")
			if got := Explain(&engine.Fault{Code: code}, kind, nil); got != meaning || meaning == "" {
				t.Errorf("%s %s: %q, and not %q", kind, code, got, meaning)
			}
		}
	}
}
