package http

import (
	"bufio"
	"encoding/base64"
	"encoding/json"
	"fmt"
	"os"
	"os/exec"
	"strings"
	"testing"
	"time"
)

// A browser is a headless chromium, spoken to by its pipe.
type browser struct {
	t          *testing.T
	to         *os.File
	from       *bufio.Reader
	id         int
	session    string
	complaints []string          // errors of scripts and of the policy
	names      map[string]string // of expressions of the page
}

// openBrowser starts chromium, if it is installed.
func openBrowser(t *testing.T) *browser {
	t.Helper()
	path, err := exec.LookPath("chromium")
	if err != nil {
		t.Skip("skipped: chromium is not there")
	}
	command := exec.Command(path, "--headless", "--no-sandbox", "--disable-gpu", "--disable-dev-shm-usage", "--no-first-run",
		"--user-data-dir="+t.TempDir(), "--remote-debugging-pipe", "--window-size=1100,1300", "about:blank")
	theirs, to, err := os.Pipe()
	must(t, err)
	from, ours, err := os.Pipe()
	must(t, err)
	command.ExtraFiles = []*os.File{theirs, ours}
	must(t, command.Start())
	_, _ = theirs.Close(), ours.Close()
	late := time.AfterFunc(5*generous, func() { _ = command.Process.Kill() })
	b := &browser{t: t, to: to, from: bufio.NewReader(from), names: map[string]string{}}
	for _, line := range sectionOf(t, "browser", "names") {
		name, script, _ := strings.Cut(line, " ")
		b.names[name] = script
	}
	t.Cleanup(func() {
		b.session = ""
		b.call("Browser.close", nil)
		_ = command.Wait()
		late.Stop()
	})
	var made struct{ TargetID string }
	b.ask("Target.createTarget", map[string]any{"url": "about:blank"}, &made)
	var attached struct{ SessionID string }
	b.ask("Target.attachToTarget", map[string]any{"targetId": made.TargetID, "flatten": true}, &attached)
	b.session = attached.SessionID
	for _, part := range []string{"Page", "Runtime", "Log"} {
		b.call(part+".enable", nil)
	}
	return b
}

func (b *browser) call(method string, parameters any) json.RawMessage {
	b.id++
	members := map[string]any{"id": b.id, "method": method, "params": parameters}
	if b.session != "" {
		members["sessionId"] = b.session
	}
	message, _ := json.Marshal(members)
	if _, err := b.to.Write(append(message, 0)); err != nil {
		return nil
	}
	for {
		text, err := b.from.ReadBytes(0)
		if err != nil {
			return nil
		}
		var got struct {
			ID     int
			Method string
			Params struct {
				Entry struct{ Level, Source string }
			}
			Result json.RawMessage
			Error  json.RawMessage
		}
		if json.Unmarshal(text[:len(text)-1], &got) != nil {
			continue
		}
		entry := got.Params.Entry
		if got.Method == "Runtime.exceptionThrown" || entry.Level == "error" && entry.Source != "network" {
			b.complaints = append(b.complaints, string(text))
		}
		if got.ID == b.id {
			errorIf(b.t, got.Error != nil, "%s: %s", method, got.Error)
			return got.Result
		}
	}
}

func (b *browser) ask(method string, parameters, result any) {
	b.t.Helper()
	if err := json.Unmarshal(b.call(method, parameters), result); err != nil {
		b.t.Fatalf("%s: %v", method, err)
	}
}

// run returns the value of an expression of the page, or of the one that has a name, as a text.
func (b *browser) run(script string) string {
	b.t.Helper()
	if named, isName := b.names[script]; isName {
		script = named
	}
	var got struct {
		Result           struct{ Value any }
		ExceptionDetails json.RawMessage
	}
	b.ask("Runtime.evaluate", map[string]any{"expression": script, "awaitPromise": true, "returnByValue": true}, &got)
	errorIf(b.t, got.ExceptionDetails != nil, "%s: %s", script, got.ExceptionDetails)
	return fmt.Sprint(got.Result.Value)
}

// is fails unless an expression has a value.
func (b *browser) is(script, want string) {
	b.t.Helper()
	equal(b.t, b.run(script), want, script)
}

// until waits until the value of an expression has a part.
func (b *browser) until(script, part string) {
	b.t.Helper()
	got, end := b.run(script), time.Now().Add(generous)
	for ; !strings.Contains(got, part); got = b.run(script) {
		if time.Now().After(end) {
			b.picture("failed")
			b.t.Fatalf("%s: %.500q, and no %q in it", script, got, part)
		}
		time.Sleep(20 * time.Millisecond)
	}
}

// keys has the keys that the tests press beside letters, with their codes and what they type.
var keys = map[string]struct {
	code int
	text string
}{"Tab": {9, ""}, "Enter": {13, "\r"}, "Escape": {27, ""}, "a": {65, ""}, "ArrowUp": {38, ""}, "ArrowDown": {40, ""}}

// The modifiers of a key.
const (
	withAlt     = 1
	withControl = 2
	withShift   = 8
)

// press presses a key.
func (b *browser) press(key string, modifiers int) {
	b.t.Helper()
	for _, kind := range []string{"keyDown", "keyUp"} {
		event := map[string]any{"type": kind, "key": key, "code": key, "windowsVirtualKeyCode": keys[key].code, "modifiers": modifiers}
		if kind == "keyDown" && keys[key].text != "" && modifiers == 0 {
			event["text"] = keys[key].text
		}
		if key == "a" && modifiers == withControl {
			event["commands"] = []string{"selectAll"}
		}
		b.call("Input.dispatchKeyEvent", event)
	}
}

// write types a text into what has the focus, in the place of what is there.
func (b *browser) write(text string) {
	b.t.Helper()
	b.press("a", withControl)
	b.call("Input.insertText", map[string]any{"text": text})
}

// tab presses Tab until something has the focus, as somebody does who has no mouse.
func (b *browser) tab(to string) {
	b.t.Helper()
	var passed []string
	for i := 0; i < 80; i++ {
		now := b.run("focused")
		if now == to {
			return
		}
		passed = append(passed, now)
		b.press("Tab", 0)
	}
	b.t.Fatalf("Tab doesn't reach %s: %q", to, passed)
}

// fill types into a field that it reaches by Tab.
func (b *browser) fill(id, text string) {
	b.t.Helper()
	b.tab(id)
	b.write(text)
}

// enter types into a field, and presses Enter.
func (b *browser) enter(id, text string) {
	b.t.Helper()
	b.fill(id, text)
	b.press("Enter", 0)
}

// activate presses a key on something that it reaches by Tab.
func (b *browser) activate(id string) {
	b.t.Helper()
	b.tab(id)
	b.press("Enter", 0)
}

// click clicks with a script.
func (b *browser) click(selector string) {
	b.t.Helper()
	b.run(fmt.Sprintf("document.querySelector(%q).click(); ''", selector))
}

// play does a script of testdata/browser, where {w} and {r} are the tokens of shop.
func (b *browser) play(s *site, section string) {
	b.t.Helper()
	only := func(do func(string)) func(string, string) { return func(to, _ string) { do(to) } }
	verbs := map[string]func(to, text string){"sign": b.sign, "fill": b.fill, "enter": b.enter,
		"is": b.is, "until": b.until, "has": s.has, "found": s.is,
		"put":      func(locale, text string) { s.put(locale, text) },
		"activate": only(b.activate), "click": only(b.click), "picture": only(b.picture),
		"run":   only(func(script string) { b.run(script) }),
		"open":  only(func(view string) { b.open(s.URL + "/" + view) }),
		"write": only(func(text string) { b.write(unescaped(text)) }),
		"press": func(key, with string) {
			b.press(key, map[string]int{"alt": withAlt, "control": withControl, "shift": withShift}[with])
		},
		"tab": only(func(to string) {
			if b.names[to] != "" {
				to = b.run(to)
			}
			b.tab(to)
		}),
		"load": only(func(file string) {
			script, _ := os.ReadFile("testdata/" + file)
			b.run(string(script))
		}),
	}
	given := strings.NewReplacer("{w}", shopWrites, "{r}", shopReads)
	for _, line := range sectionOf(b.t, "browser", section) {
		verb, rest, _ := strings.Cut(given.Replace(line), " ")
		to, text, _ := strings.Cut(rest, "⇒")
		if verbs[verb] == nil {
			b.t.Fatalf("no verb: %s", line)
		}
		verbs[verb](strings.TrimSpace(to), unescaped(strings.TrimPrefix(text, " ")))
	}
	b.fine()
}

// open leaves what is open, opens a page, and waits until it is ready.
func (b *browser) open(address string) {
	b.t.Helper()
	for _, one := range []string{"about:blank", address} {
		b.call("Page.navigate", map[string]any{"url": one})
	}
	b.until("document.documentElement?.dataset.ready", "yes")
}

// visit opens the page of a gateway that has bundles, each with its locale.
func visit(t *testing.T, bundles ...string) (*browser, *site) {
	t.Helper()
	b, s := openBrowser(t), open(t)
	for i := 0; i < len(bundles); i += 2 {
		s.put(bundles[i], bundles[i+1])
	}
	b.open(s.URL + "/")
	return b, s
}

// picture writes what is seen to a file if the variable GATEWAY_PICTURES names a folder.
func (b *browser) picture(name string) {
	folder := os.Getenv("GATEWAY_PICTURES")
	if folder == "" {
		return
	}
	var got struct{ Data string }
	b.ask("Page.captureScreenshot", map[string]any{"format": "png"}, &got)
	image, err := base64.StdEncoding.DecodeString(got.Data)
	if err == nil {
		err = os.WriteFile(folder+"/"+name+".png", image, 0o600)
	}
	errorIf(b.t, err != nil, "%v", err)
}

// fine fails if a script failed or the policy was broken.
func (b *browser) fine() {
	b.t.Helper()
	for _, complaint := range b.complaints {
		b.t.Error(complaint)
	}
}
