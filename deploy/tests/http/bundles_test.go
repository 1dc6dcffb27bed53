package http

import (
	"compress/gzip"
	"fmt"
	"io"
	"math/rand"
	"strings"
	"testing"

	"luvdregan.example/resb/deploy/tests/harness"
)

// TestABundleComesBack in the form in which it was submitted, byte for byte, and in the others.
func TestABundleComesBack(t *testing.T) {
	s := beside(t)
	const text = "// mine\nde{ a{\"\u00c4\"} }\n"
	s.put("de", text)
	file := s.get("/v1/shop/de.res")
	if file.Status != 200 || !strings.Contains(file.Body, "\xda\x27") || file.Header.Get("Content-Type") != "application/octet-stream" {
		t.Fatalf("%d %q %v", file.Status, file.Body, file.Header)
	}
	shorter := file.Body[:len(file.Body)-1]
	s.script("ABundleComesBack", "file", file.Body, "shorter", shorter, "text", text)
}

// TestListsAndRepliesStay makes changes at random, under all names that a locale has: what is listed and found is the same after starts.
func TestListsAndRepliesStay(t *testing.T) {
	s := beside(t)
	random := rand.New(rand.NewSource(1))
	names := []string{"de", "DE", "de-at", "de_AT", "fr", "zh-hant", "zh_Hant_TW", "root", "en@x=y", "en"}
	seen := func() string {
		text := s.get("/v1/shop").Body
		for _, name := range names {
			got := s.get("/v1/shop/" + name + "/a")
			text += got.Body + got.Header.Get("Resb-Revision")
		}
		return text
	}
	for round := 0; round < 4; round++ {
		for i := 0; i < 100; i++ {
			name, method := names[random.Intn(len(names))], []string{"PUT", "PUT", "POST", "DELETE"}[random.Intn(4)]
			text := fmt.Sprintf(`x{a{"%d"} b{"%s"}}`, i, strings.Repeat("y", random.Intn(2000)))
			if got := s.ask(method, "/v1/shop/"+name, shopWrites, text, "Content-Type", "text/plain"); got.Status >= 500 {
				t.Fatalf("%s %s: %d %s", method, name, got.Status, got.Body)
			}
		}
		before := seen()
		if s.Restart(); seen() != before {
			t.Errorf("after a start:\n%s\nand before:\n%s", seen(), before)
		}
	}
}

// TestCompression has replies compressed where that is worth it, each form with another tag.
func TestCompression(t *testing.T) {
	s := beside(t)
	text := `de{a{"` + strings.Repeat("long ", 2000) + `"}}`
	s.put("de", text)
	unpacked := func(a harness.Answer) string {
		from, err := gzip.NewReader(strings.NewReader(a.Body))
		must(t, err)
		content, err := io.ReadAll(from)
		must(t, err)
		return string(content)
	}
	for _, path := range []string{"/v1/shop/de.txt", "/v1/shop/de/a", "/openapi.json"} {
		plain, packed := s.get(path), s.get(path, "Accept-Encoding", "gzip")
		if packed.Header.Get("Content-Encoding") != "gzip" || unpacked(packed) != plain.Body || len(packed.Body) > len(plain.Body)/2 || plain.Header.Get("Content-Encoding") != "" {
			t.Errorf("%s: %v, %v", path, packed.Header, plain.Header)
		}
		errorIf(t, packed.Tag() == plain.Tag() || !headed("Vary~Accept-Encoding", plain.Header),
			"%s: one tag for both, or no Vary: %v", path, plain.Header)
		for _, tag := range []string{packed.Tag(), plain.Tag()} {
			s.run(step{"r GET " + path, "Accept-Encoding: gzip | If-None-Match: " + tag, "", 304, "", "ETag: " + tag})
		}
		if head := s.ask("HEAD", path, shopReads, "", "Accept-Encoding", "gzip"); head.Length != packed.Length {
			t.Errorf("%s: %d", path, head.Length)
		}
	}
	packed := s.get("/v1/shop/de.txt", "Accept-Encoding", "gzip")
	s.run([]step{{"w PUT /v1/shop/de.txt", "If-Match: " + packed.Tag(), text, 200, "", ""}, {"r GET /v1/shop", "Accept-Encoding: gzip", "", 200, "", "-Content-Encoding"}}...)
	lines := strings.Repeat(`{"locale":"de","path":"a"}`+"\n", 50)
	want := s.ask("POST", "/v1/shop/look", shopReads, lines)
	got := s.ask("POST", "/v1/shop/look", shopReads, lines, "Accept-Encoding", "gzip")
	if unpacked(got) != want.Body || len(want.Body) < 100000 || want.Header.Get("Content-Encoding") != "" {
		t.Errorf("%d and %d bytes, %v", len(got.Body), len(want.Body), got.Header)
	}
}
