package http

import (
	"archive/tar"
	"archive/zip"
	"bytes"
	"encoding/binary"
	"encoding/json"
	"fmt"
	"io"
	"regexp"
	"strconv"
	"strings"
	"sync/atomic"
	"testing"
	"time"

	"luvdregan.example/resb/deploy/tests/harness"
)

// A named text is a file of an archive.
type namedText struct{ name, text string }

func tarOf(t *testing.T, files ...namedText) string {
	t.Helper()
	var out bytes.Buffer
	to := tar.NewWriter(&out)
	_ = to.WriteHeader(&tar.Header{Name: "texts/", Typeflag: tar.TypeDir, Mode: 0o755})
	for _, f := range files {
		must(t, to.WriteHeader(&tar.Header{Name: f.name, Size: int64(len(f.text)), Mode: 0o644}))
		_, _ = io.WriteString(to, f.text)
	}
	_ = to.Close()
	return out.String()
}

func zipOf(t *testing.T, files ...namedText) string {
	t.Helper()
	var out bytes.Buffer
	to := zip.NewWriter(&out)
	_, _ = to.Create("texts/")
	for _, f := range files {
		w, err := to.Create(f.name)
		must(t, err)
		_, _ = io.WriteString(w, f.text)
	}
	_ = to.Close()
	return out.String()
}

func linesOf(_ *testing.T, files ...namedText) string {
	var out strings.Builder
	for _, f := range files {
		locale, _, _ := strings.Cut(f.name[strings.LastIndexByte(f.name, '/')+1:], ".")
		text, _ := json.Marshal(map[string]string{"locale": locale, "text": f.text})
		out.Write(append(text, '\n'))
	}
	return out.String()
}

// release sends a release.
func (s *site) release(kind, body string) harness.Answer {
	s.t.Helper()
	return s.ask("POST", "/v1/shop/_releases", shopWrites, body, "Content-Type", kind)
}

// TestReleases are made whole or not at all, in each form.
func TestReleases(t *testing.T) {
	t.Parallel()
	for kind, pack := range map[string]func(*testing.T, ...namedText) string{asTar: tarOf, asZip: zipOf, asLines: linesOf} {
		s := open(t)
		s.put("de", `de{a{"A"}}`)
		got := s.release(kind, pack(t, namedText{"texts/de.txt", `de{a{"B"}}`}, namedText{"fr.txt", `fr{a{"F"}}`}))
		if got.Status != 200 || got.Body != "{\"changes\":2,\"id\":8192,\"ok\":true}\n" || got.Revision() != 2 {
			t.Fatalf("%s: %d %s %v", kind, got.Status, got.Body, got.Header)
		}
		s.is("de/a", "B")
		s.is("fr/a", "F")
		bad := s.release(kind, pack(t, namedText{"en.txt", `en{a{"E"}}`}, namedText{"de.txt", `de{a{"C"}}`}, namedText{"es.txt", "es{\n bad\xc3\xa4{}"}))
		var reply struct {
			Error, Name string
			Line        int
		}
		if err := json.Unmarshal([]byte(bad.Body), &reply); err != nil || bad.Status != 400 || reply.Error != "BadText" || reply.Line != 2 ||
			reply.Name != map[string]string{asLines: "line 3"}[kind] && !strings.HasSuffix(reply.Name, "es.txt") {
			t.Errorf("%s: %v: %d %s", kind, err, bad.Status, bad.Body)
		}
		s.names("de", "fr")
		s.is("de/a", "B")
		s.run(step{"r POST /v1/shop/_releases", "Content-Type: " + kind, pack(t), 403, "", ""})
	}
}

// TestReleasesThatCantBeRead change nothing, and name the entry.
func TestReleasesThatCantBeRead(t *testing.T) {
	s := beside(t, "-release-bytes", "100000")
	var link bytes.Buffer
	w := tar.NewWriter(&link)
	_ = w.WriteHeader(&tar.Header{Name: "de.txt", Linkname: "/etc/passwd", Typeflag: tar.TypeSymlink})
	_ = w.Close()
	good := namedText{"de.txt", "de{}"}
	text := `de{a{"Alpha"} b{"` + strings.Repeat("x", 10000) + `"}}`
	zipped := func(method uint16) []byte {
		var out bytes.Buffer
		to := zip.NewWriter(&out)
		w, _ := to.CreateHeader(&zip.FileHeader{Name: "de.txt", Method: method})
		_, _ = io.WriteString(w, text)
		_ = to.Close()
		return out.Bytes()
	}
	shorter := func(archive []byte) string { // than the file is, in the directory
		binary.LittleEndian.PutUint32(archive[bytes.LastIndex(archive, []byte("PK\x01\x02"))+24:], uint32(len(text)-3))
		return string(archive)
	}
	for _, c := range []struct{ kind, body, want string }{
		{asTar, tarOf(t, good)[:900], "BadRelease"}, {asZip, zipOf(t, good)[:40], "BadRelease"},
		{asTar, link.String(), "no regular file"}, {asTar, tarOf(t, namedText{"d!e.txt", "de{}"}), ""},
		{asTar, tarOf(t, good, namedText{"README.md", "x"}), "README.md"},
		{asTar, tarOf(t, good, namedText{"x/DE.txt", "de{}"}), "another entry"},
		{asZip, zipOf(t, namedText{"de.txt", strings.Repeat("x", 200000)}), "too long"},
		{asZip, zipOf(t, good, namedText{"de.json", "{}"}), "de.json"},
		{asZip, strings.Replace(string(zipped(zip.Store)), "Alpha", "Alphb", 1), "BadRelease"},
		{asZip, shorter(zipped(zip.Deflate)), "BadRelease"}, {asZip, shorter(zipped(zip.Store)), "BadRelease"},
	} {
		s.script("ReleasesThatCantBeRead", "kind", c.kind, "body", c.body, "want", c.want)
	}
	s.script("ReleasesOfLines", "long", strings.Repeat("x", 100001))
	s.names()
	s.rest()
}

// TestAReleaseIsSeenWhole releases 900 bundles, and then few of them many times, while readers look: each
// tree is of one release, and no reader sees an earlier release than before.
func TestAReleaseIsSeenWhole(t *testing.T) {
	s := beside(t)
	release := func(round, step int) {
		files := []namedText{{"root.txt", fmt.Sprintf(`root{a{"%d"}}`, round)}, {"de.txt", fmt.Sprintf(`de{b{"%d"}}`, round)}}
		for i := 0; i < 900; i += step {
			files = append(files, namedText{fmt.Sprintf("l%c%c_%cA.txt", 'a'+i/26/26, 'a'+i/26%26, 'A'+i%26), fmt.Sprintf(`x{a{"%d"}}`, round)})
		}
		files, began := append(files, namedText{"de_AT.txt", fmt.Sprintf(`de_AT{c{"%d"}}`, round)}), time.Now()
		if got := s.release(asTar, tarOf(t, files...)); got.Status != 200 {
			t.Fatalf("%d %s", got.Status, got.Body)
		}
		if step == 1 {
			t.Logf("900 bundles in %v", time.Since(began))
		}
	}
	release(0, 1)
	var stop atomic.Bool
	number := regexp.MustCompile(`"(\d+)"`)
	read := func(i int) {
		method, path, body := "GET", "/v1/shop/de_AT?tree", ""
		if i > 1 {
			method, path, body = "POST", "/v1/shop/look", looks("root", "a", 1)+looks("laa_AA", "a", 1)+looks("lbi_PA", "a", 1)+looks("de_AT", "c", 1)
		}
		for last := 0; !stop.Load(); {
			got, err := harness.Send(harness.Client, method, s.URL+path, shopReads, body)
			seen := number.FindAllStringSubmatch(got.Body, -1)
			if got.Status == 503 && body == "" {
				continue
			}
			for n, one := range seen {
				now, _ := strconv.Atoi(one[1])
				errorIf(t, now < last || body == "" && one[1] != seen[0][1],
					"item %d after release %d: %s", n, last, got.Body)
				last = now
			}
			if err != nil || len(seen) < 3 || t.Failed() {
				t.Errorf("%v %d %s", err, got.Status, got.Body)
				return
			}
		}
	}
	ended := make(chan struct{})
	go func() {
		defer close(ended)
		harness.Together(8, read)
	}()
	for round := 1; round <= 33; round++ {
		release(round, map[bool]int{true: 1, false: 899}[round <= 3])
	}
	stop.Store(true)
	<-ended
}
