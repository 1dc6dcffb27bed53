package engine

import (
	"bytes"
	"fmt"
	"os"
	"strings"
	"testing"
	"time"

	"luvdregan.example/resb/deploy/tests/harness"
)

// TestShards has a tree that takes long: most other applications change meanwhile, and the rest once it ends. All see ICUDATA.
func TestShards(t *testing.T) {
	const apps = 64
	e, err := Open(Options{Steps: 1000, ReplyBytes: 1 << 20, ICUData: []Source{{"root", []byte(`root{common{"C"}}`), true}}})
	harness.Must(t, err)
	its, changed := e.of("tree"), make(chan bool, apps)
	its.long.RLock()
	for i := 0; i < apps; i++ {
		bundle, err := Prepare(Text, []byte(fmt.Sprintf(`de{a{"%d"} b:alias{"/ICUDATA/root/common"}}`, i)))
		harness.Must(t, err)
		go func(app string) {
			e.Release(app, []Edit{{"de", bundle}}, func() {})
			changed <- true
		}(fmt.Sprint("app", i))
	}
	for i := 0; i < apps; i++ {
		select {
		case <-changed:
		case <-time.After(harness.Generous):
			t.Fatalf("%d of %d applications change", i, apps)
		}
		if i == apps*3/4 {
			its.long.RUnlock()
		}
	}
	for i := 0; i < apps; i++ {
		for path, value := range map[string]string{"a": fmt.Sprint(i), "b": "C"} {
			reply, _, code := e.Item(nil, fmt.Sprint("app", i), "de", path, 1000)
			harness.ErrorIf(t, code != "" || !strings.Contains(string(reply), `"value":"`+value+`"`), "%d: %s %s", i, reply, code)
		}
	}
}

// TestFewShards has fewer shards over a long ICUDATA, as each has all of it.
func TestFewShards(t *testing.T) {
	for bytes, want := range map[int]int{0: 32, 1 << 20: 32, 20 << 20: 6, 100 << 20: 2} {
		harness.Equal(t, shardsOf([]Source{{Body: make([]byte, bytes)}}), want, bytes)
	}
}

// peak returns the most memory that the process has had, in MB.
func peak() (kilobytes int) {
	text, _ := os.ReadFile("/proc/self/status")
	_, text, _ = bytes.Cut(text, []byte("VmHWM:"))
	_, _ = fmt.Sscan(string(text), &kilobytes)
	return kilobytes >> 10
}

// TestKeysThatShareBytes looks up tables whose keys are 250 times and 7,500 times as long as their files: none is written to find that out.
func TestKeysThatShareBytes(t *testing.T) {
	e, err := Open(Options{Steps: 1000, ReplyBytes: 1 << 20})
	harness.Must(t, err)
	put := func(locale string, count int) {
		bundle, err := Prepare(File, harness.SharedKeys(count))
		harness.Must(t, err)
		e.Release("shop", []Edit{{locale, bundle}}, func() {})
	}
	put("fr", 500) // 125 KB
	before := peak()
	reply, needs, code := e.Item(nil, "shop", "fr", "", 8<<10)
	harness.ErrorIf(t, len(reply) > 0 || needs <= 8<<10 || code != "", "%d %d %s", len(reply), needs, code)
	reply, _, code = e.Item(nil, "shop", "fr", "", 1<<30)
	harness.ErrorIf(t, len(reply) < 125000 || code != "", "%d %s", len(reply), code)
	put("de", 60000) // 1.8 GB
	for _, most := range []int{8 << 10, 1 << 30} {
		_, needs, code = e.Item(nil, "shop", "de", "", most)
		harness.ErrorIf(t, (needs > 0) == (code == "ReplyTooLong"), "%d: %d %s", most, needs, code)
	}
	harness.ErrorIf(t, peak() > before+200, "%d MB are %d MB", before, peak())
}
