package http

import (
	"fmt"
	"net/url"
	"os"
	"os/exec"
	"path/filepath"
	"regexp"
	"strconv"
	"strings"
	"testing"
	"time"

	"luvdregan.example/resb/deploy/tests/harness"
)

// A scene is what a script is played on: a gateway beside a folder, with texts for names in braces.
type scene struct {
	*site
	dir   string
	given []string // in pairs
	token string   // of clients
	said  string   // by the last command
}

// TestScenes plays each section of testdata/scenes.
func TestScenes(t *testing.T) {
	t.Parallel()
	content, err := os.ReadFile("testdata/scenes")
	must(t, err)
	heads := regexp.MustCompile(`(?m)^-- (\w+)(.*) --$`).FindAllStringSubmatch(string(content), -1)
	for _, head := range heads {
		head := head
		t.Run(head[1], func(t *testing.T) {
			c := &scene{dir: t.TempDir(), token: shopWrites}
			c.site = granting(t, "", wordsOf(strings.ReplaceAll(head[2], "{dir}", c.dir))...)
			c.given = []string{"{dir}", c.dir, "{state}", c.State, "{tokens}", c.Tokens, "{url}", c.URL, "{noise}", harness.Noise(20000)}
			c.play("scenes", head[1]+head[2])
		})
	}
}

// wordsOf returns the words of a text, which | separates if there is one in front of each.
func wordsOf(text string) []string {
	if strings.Contains(text, "|") {
		return strings.Split(text, "|")[1:]
	}
	return strings.Fields(text)
}

// store gives a name a text, and in quotes its quotation.
func (c *scene) store(name, text string) {
	c.given = append([]string{"{" + name + "}", text, `{"` + name + `"}`, strconv.Quote(text)}, c.given...)
}

var repeated = regexp.MustCompile(`\{(\d+)\*([^}]+)\}`)

// fill returns a text with what stands for its names, and with {N*TEXT} repeated.
func (c *scene) fill(text string) string {
	return repeated.ReplaceAllStringFunc(strings.NewReplacer(c.given...).Replace(text), func(one string) string {
		parts := repeated.FindStringSubmatch(one)
		n, _ := strconv.Atoi(parts[1])
		return strings.Repeat(parts[2], n)
	})
}

// play makes the steps of a section of a file in testdata, and does its verbs.
func (c *scene) play(file, section string) {
	c.t.Helper()
	var lines []string
	for _, line := range sectionOf(c.t, file, section) {
		if word, _, _ := strings.Cut(line, " "); verbs[word] == nil && strings.Contains(line, " ⇒ ") { // a whole step
			line = strings.NewReplacer(" > ", "\n> ", " + ", "\n+ ", " ⇒ ", "\n", " < ", "\n< ").Replace(line)
		}
		lines = append(lines, strings.Split(line, "\n")...)
	}
	var steps []step
	begun, isOver := 0, false // those from begun on share the next lines, up to a status and headers
	for _, line := range lines {
		kind, rest, _ := strings.Cut(line, " ")
		status, _ := strconv.Atoi(kind)
		switch do := verbs[kind]; {
		case do != nil:
			c.perform(steps)
			steps, begun, isOver = nil, 0, false
			parts := strings.Split(rest, "⇒")
			for i, part := range parts {
				if i < len(parts)-1 {
					part = strings.TrimSuffix(part, " ")
				}
				if i > 0 {
					part = unescaped(strings.TrimPrefix(part, " "))
				}
				parts[i] = c.fill(part)
			}
			do(c, parts[0], append(parts[1:], "")...)
		case status == 0 && !strings.Contains(">+<", kind):
			if isOver {
				begun, isOver = len(steps), false
			}
			steps = append(steps, step{do: line})
		default:
			isOver = isOver || status > 0
			for i := begun; i < len(steps); i++ {
				steps[i].add(kind, status, rest)
			}
		}
	}
	c.perform(steps)
}

// verbs are what a line of a script does beside requests. The texts are those behind ⇒, and an empty one.
var verbs = map[string]func(c *scene, words string, texts ...string){
	"put":     func(c *scene, locale string, texts ...string) { c.put(locale, texts[0]) },
	"names":   func(c *scene, words string, _ ...string) { c.names(strings.Fields(words)...) },
	"restart": func(c *scene, _ string, _ ...string) { c.Restart() },
	"leave":   func(c *scene, _ string, _ ...string) { c.leave() },
	"as":      func(c *scene, token string, _ ...string) { c.token = token },
	"write": func(c *scene, name string, texts ...string) {
		must(c.t, os.WriteFile(c.path(name), []byte(texts[0]), 0o600))
	},
	"remove": func(c *scene, name string, _ ...string) { must(c.t, os.Remove(c.path(name))) },
	"puts": func(c *scene, words string, texts ...string) { // many, one after the other
		number, locale, _ := strings.Cut(words, " ")
		n, _ := strconv.Atoi(number)
		for i := 0; i < n; i++ {
			c.put(locale, fmt.Sprintf(texts[0], i))
		}
	},
	"past": func(c *scene, words string, _ ...string) { // how many versions the history has
		number, query, _ := strings.Cut(words, " ")
		equal(c.t, fmt.Sprint(len(c.past(query))), number, "versions")
	},
	"over": func(c *scene, folder string, _ ...string) { // another gateway
		of := harness.Setup{Folder: folder}
		if members, is := harness.Cut(folder, "etcd "); is {
			of = harness.Setup{Etcd: members}
		}
		c.Gateway = harness.Open(c.t, of)
	},
	"etcd": func(c *scene, name string, _ ...string) {
		of := harness.NewCluster(c.t, c.t.TempDir(), 1, nil)
		harness.StartAll(of.Members)
		c.store(name, of.From(0))
	},
	"sleep": func(_ *scene, length string, _ ...string) {
		d, _ := time.ParseDuration(length)
		time.Sleep(d)
	},
	"nowhere": func(c *scene, text string, _ ...string) {
		equal(c.t, len(c.filesWith(text)), 0, "files with "+text)
	},
	"file": func(c *scene, name string, texts ...string) { // has a text, or isn't there
		content, _ := os.ReadFile(c.path(name))
		equal(c.t, string(content), texts[0], name)
	},
	"gone": func(c *scene, name string, _ ...string) {
		_, err := os.Stat(c.path(name))
		errorIf(c.t, !os.IsNotExist(err), "%s is there: %v", name, err)
	},
	"within": func(c *scene, name string, texts ...string) { // a file
		content, _ := os.ReadFile(c.path(name))
		c.ended(name, "0", 0, string(content), texts)
	},
	"again": func(c *scene, words string, _ ...string) { // a request, some times
		is := strings.Fields(words)
		for n, _ := strconv.Atoi(is[0]); n > 0; n-- {
			equal(c.t, c.ask(is[2], is[3], tokens[is[1]], "").Status/100, 2, words)
		}
	},
	"soon": func(c *scene, _ string, _ ...string) {
		c.store("soon", url.QueryEscape(time.Now().Add(10*time.Second).UTC().Format(time.RFC3339Nano)))
	},
	"metric": func(c *scene, words string, _ ...string) {
		value, name, _ := strings.Cut(words, " ")
		c.awaitMetric(name, func(n float64) bool { return fmt.Sprint(n) == value })
	},
	"until": func(c *scene, words string, _ ...string) {
		is := strings.Fields(words)
		eventually(c.t, words, func() bool { return fmt.Sprint(c.ask(is[2], is[3], is[1], "").Status) == is[0] })
	},
	"token": func(c *scene, name string, _ ...string) { // that the last command made
		equal(c.t, len(c.said), 49, c.said)
		c.store(name, strings.TrimSpace(c.said))
	},
	"command": func(c *scene, words string, texts ...string) { // of the gateway; | separates words that have blanks
		status, rest, _ := strings.Cut(words, " ")
		got, text := harness.Run(c.t, wordsOf(rest)...)
		c.ended(words, status, got, text, texts)
	},
	"client": func(c *scene, words string, texts ...string) { // of examples/clients, over the folder
		status, rest, _ := strings.Cut(words, " ")
		text, err := clientOf(c.t, c.token, "python3", append(strings.Fields(clients+rest), c.dir, c.URL+"/v1/shop")...)
		got := 0
		if err != nil {
			got = err.(*exec.ExitError).ExitCode()
		}
		c.ended(words, status, got, text, texts)
		errorIf(c.t, len(texts) == 1 && text != "", "%s prints %s", words, text)
	},
}

// ended fails unless a program had a status and printed texts, without those behind !.
func (c *scene) ended(words, status string, got int, text string, texts []string) {
	c.t.Helper()
	c.said = text
	for _, want := range texts {
		not := strings.TrimPrefix(want, "!")
		errorIf(c.t, strings.Contains(text, not) != (not == want), "%s prints %s, and %q isn't right", words, text, want)
	}
	equal(c.t, fmt.Sprint(got), status, words+": "+text)
}

// path returns the path of a file of the folder.
func (c *scene) path(name string) string {
	if filepath.IsAbs(name) {
		return name
	}
	return filepath.Join(c.dir, name)
}
