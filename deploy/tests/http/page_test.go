package http

import (
	"encoding/json"
	"fmt"
	"os"
	"strings"
	"testing"

	"luvdregan.example/resb/deploy/internal/page"
)

// sign signs in and opens a locale, with the keyboard.
func (b *browser) sign(token, locale string) {
	b.t.Helper()
	b.fill("app", "shop")
	b.fill("token", token)
	b.fill("locale", locale)
	b.press("Enter", 0)
}

// TestThePageByItsRequests makes the requests that the page makes. TestTagsAndHeads reads its parts.
func TestThePageByItsRequests(t *testing.T) {
	s := open(t)
	s.put("de", `de{a{"<b>Grüße</b>"} m{"M"}}`)
	s.put("de_AT", `de_AT{m{"Z"}}`)
	errorIf(t, strings.Contains(page.Policy, "unsafe"), "%v", page.Policy)
	s.script("ThePageByItsRequests", "policy", page.Policy, "url", s.URL)
}

// TestBrowser plays scenes of testdata/browser.
func TestBrowser(t *testing.T) {
	for _, section := range []string{"Edit", "Causes", "Drafts", "Search", "LateAnswers", "Translate", "Save"} {
		t.Run(section, func(t *testing.T) {
			b, s := visit(t)
			b.play(s, section)
		})
	}
}

// TestBrowserLongSearch searches 4,096 bundles: the page can be used meanwhile, and the search ends after 200 hits. How long a frame takes at most is
// only judged with JUDGE_TIMES: other work on the machine spoils it.
func TestBrowserLongSearch(t *testing.T) {
	b, s := visit(t)
	var all []namedText
	for i := 0; i < 4096; i++ {
		locale := fmt.Sprintf("de_X%d", i)
		all = append(all, namedText{locale + ".txt", fmt.Sprintf("%s{key%d{%q}}", locale, i, strings.Repeat("many ", i%20))})
	}
	s.release(asLines, linesOf(t, all...))
	b.sign(shopWrites, "")
	b.until("message", "4096 bundles")
	b.run(`location.hash = 'look'; words.value = 'many'; everywhere.requestSubmit(); ''`)
	b.until("found", "200 hits in 211 of 4096 bundles. There may be more")
	b.run(`words.value = 'key4095'; everywhere.requestSubmit(); ''`)
	isUsable := "frames > 20"
	if os.Getenv("JUDGE_TIMES") != "" {
		isUsable += " && longest < 250"
	}
	b.is(`(async () => {
		let frames = 0, longest = 0, last = performance.now();
		for (; !searched.hidden; frames++) {
			await new Promise(requestAnimationFrame);
			longest = Math.max(longest, performance.now() - last);
			last = performance.now();
		}
		return `+isUsable+`;
	})()`, "true")
	b.until("found", "1 hit in 4096 of 4096 bundles.")
	b.fine()
}

// TestBrowserFocus goes through each view by Tab and back: all that can be used is reached, has a name, and nothing holds the focus.
func TestBrowserFocus(t *testing.T) {
	b, _ := visit(t, "de", `de{a{"A"}}`)
	b.sign(shopWrites, "de")
	b.until("message", "1 bundle.")
	const usable = `[...document.querySelectorAll('a,button,input,textarea,select')]
		.filter(e => e.checkVisibility() && !e.closest('dialog'))`
	const isNamed = `(e.textContent.trim() || e.ariaLabel || [...e.labels ?? []].some(l => l.textContent.trim()))`
	const missed = usable + `.filter(e => !window.reached.has(e)).map(e => e.outerHTML).join()`
	b.run(`window.reached = new Set(); addEventListener('focusin', e => window.reached.add(e.target)); ''`)
	for _, view := range []string{"edit", "translate", "history", "look"} {
		b.run(fmt.Sprintf("location.hash = '#%s'; ''", view))
		b.until("focused", view+"-title")
		b.is(usable+`.filter(e => !`+isNamed+`).map(e => e.outerHTML).join()`, "")
		for _, way := range []int{0, withShift} {
			b.run(`window.reached.clear(); ''`)
			for i := 0; i < 80 && b.run(missed) != ""; i++ {
				b.press("Tab", way)
			}
			b.is(missed, "")
		}
	}
	b.fine()
}

// TestBrowserSizes shows each view on a narrow, dark screen: targets are large enough and end where their column does, placeholders can
// be read, and tables have names.
func TestBrowserSizes(t *testing.T) {
	b, s := visit(t, "en", `en{a{"A"}}`, "de", `de{a{"A"}}`)
	b.call("Emulation.setDeviceMetricsOverride", map[string]any{"width": 390, "height": 844, "deviceScaleFactor": 1, "mobile": false})
	b.call("Emulation.setEmulatedMedia", map[string]any{"features": []map[string]string{{"name": "prefers-color-scheme", "value": "dark"}}})
	b.play(s, "Sizes")
}

// TestBrowserRules shows each view in both colours, wide and at 390 pixels: texts have enough contrast, nothing is wider than the window, and
// cells of a table name their columns.
func TestBrowserRules(t *testing.T) {
	b, s := visit(t, "en", `en{a{"A"} b{"{n, plural, one {#} other {#}}"}}`, "de", `de{a{"A"}}`)
	s.put("de", `de{a{"B"}}`)
	b.sign(shopWrites, "de")
	b.until("message", "2 bundles.")
	rules, err := os.ReadFile("testdata/rules.js")
	must(t, err)
	b.run(string(rules))
	b.fill("text", "de{a{\"C\"} a{\"D\"}}")
	b.until("findings", "DuplicateKey")
	b.activate("compare")
	b.until("edit-diff", "C")
	b.run(`location.hash = 'translate'; source.value = 'en'; target.value = 'de'; pair.requestSubmit(); ''`)
	b.until("counted", "Missing in de: 1")
	b.run(`location.hash = 'history'; past.requestSubmit(); ''`)
	b.until("rows", "2")
	b.click("button[aria-label='Compare version 2 of de']")
	b.until("history-diff", "A")
	b.run(`location.hash = 'look'; words.value = 'a'; everywhere.requestSubmit(); ''`)
	b.until("found", "3 hits in 2 of 2 bundles.")
	for _, colours := range []string{"light", "dark"} {
		b.call("Emulation.setEmulatedMedia", map[string]any{"features": []any{map[string]any{"name": "prefers-color-scheme", "value": colours}}})
		for _, width := range []int{1280, 390} {
			b.call("Emulation.setDeviceMetricsOverride", map[string]any{"width": width, "height": 900, "deviceScaleFactor": 1, "mobile": false})
			for _, view := range []string{"edit", "translate", "history", "look"} {
				b.run(fmt.Sprintf("location.hash = '#%s'; ''", view))
				b.until("focused", view+"-title")
				b.is("contrasts()", "")
				b.is(map[bool]string{true: "narrow()", false: "''"}[width == 390], "")
				b.picture(fmt.Sprint("rules-", view, "-", colours, "-", width))
			}
		}
	}
}

// TestBrowserTakesBack takes a release back, which has one button for all of its bundles, unless one was changed since.
func TestBrowserTakesBack(t *testing.T) {
	b, s := visit(t, "de", `de{a{"A"}}`)
	s.release(asLines, linesOf(t, namedText{"de.txt", `de{a{"B"}}`}, namedText{"fr.txt", `fr{a{"F"}}`}))
	b.play(s, "TakesBack")
}

// hostile are values that try to become a part of the page, to hide or reorder what is beside them, or to be too long.
var hostile = map[string]string{
	"script": `<script>window.hacked = 1</script>`, "image": `<img src=x onerror="window.hacked = 1">`, "closing": `"'></td></textarea><b>bold</b>`,
	"override": "abc\u202edef\u2066ghi", "nul": "a\x00b\x1b[31m", "template": "${window.hacked = 1}", "long": strings.Repeat("long ", 20480),
	"quotes": "\"\\'`", "link": "javascript:window.hacked=1", "astral": strings.Repeat("\U0001F600", 1500),
}

// quoted writes a value as a string of a bundle text.
func quoted(value string) string {
	return `"` + strings.NewReplacer(`\`, `\\`, `"`, `\"`, "\x00", `\u0000`, "\x1b", `\u001b`).Replace(value) + `"`
}

// TestBrowserHostile shows hostile values in each view: they stay texts.
func TestBrowserHostile(t *testing.T) {
	text := "\"<img src=x onerror=window.hacked=1>\"{\n"
	for key, value := range hostile {
		text += "  " + key + "{" + quoted(value) + "}\n"
	}
	text += "}\n"
	b, s := visit(t, "de", text, "en", strings.Replace(text, "long{", "short{", 1))
	b.play(s, "Hostile")
	for key, value := range hostile {
		b.run(fmt.Sprintf("document.getElementById('path').value = %q; document.getElementById('item').requestSubmit(); ''", key))
		b.until("status", "/v1/shop/de/"+key+" → 200")
		shown := strings.NewReplacer("\u202e", "U+202E", "\u2066", "U+2066", "\x00", "U+0000", "\x1b", "U+001B").Replace(value)
		want, _ := json.Marshal(strings.ToValidUTF8(fmt.Sprintf("%.40s", shown), ""))
		b.until(fmt.Sprintf("String(document.getElementById('value').textContent.startsWith(%s))", want), "true")
	}
	b.picture("hostile-look")
	b.run("document.getElementById('path').value = '<script>'; document.getElementById('locale').value = '<b>'; document.getElementById('item').requestSubmit(); ''")
	b.until("status", "400")
	b.is("`${window.hacked} ${document.querySelectorAll('img, b, script:not([src])').length - document.querySelectorAll('.lines b').length}`", "undefined 0")
	b.fine()
	// the policy of the page refuses what its scripts don't do
	for _, try := range []string{
		"{ const s = document.createElement('script'); s.textContent = 'window.made = 1'; document.body.append(s); }",
		"document.body.innerHTML = '<p>x'", "document.body.setAttribute('style', 'color: red'); window.made = getComputedStyle(document.body).color === 'rgb(255, 0, 0)' || undefined",
	} {
		b.is("try { "+try+" } catch {} String(window.made) + document.querySelectorAll('main').length", "undefined1")
	}
}

// TestBrowserManyRows translates one of 10,000 strings: a hundred rows are drawn, a key is answered at once, and search and filters find rows of
// other pages.
func TestBrowserManyRows(t *testing.T) {
	text := "en{a{\"Hello {name}\"}\n"
	for i := 0; i < 10000; i++ {
		text += fmt.Sprintf("k%d{\"Text %[1]d of many\"}\n", i)
	}
	b, s := visit(t, "en", text+"}", "de", `de{a{"Hallo"}}`)
	helpers, err := os.ReadFile("testdata/helpers.js")
	must(t, err)
	b.run(string(helpers))
	b.sign(shopWrites, "") // all bundles, without knowing one
	b.until("message", "2 bundles: en, de.")
	b.run(`location.hash = 'translate'; source.value = 'en'; target.value = 'de'; pair.requestSubmit(); ''`)
	b.until("counted", "Missing in de: 10000 of 10001")
	b.is("pairs", "100")
	b.run("choose('warned'); ''")
	b.until("pairs", "1")
	b.until("both", "{name} is missing")
	b.run("choose('all'); search.value = '9876 of'; search.dispatchEvent(new Event('input')); ''")
	b.until("pairs", "1")
	b.tab("Translation of k9876")
	b.is(`(async () => {
		const field = document.activeElement, took = [];
		for (let i = 0; i < 9; i++) {
			const began = performance.now();
			field.value += 'x';
			field.dispatchEvent(new Event('input', { bubbles: true }));
			await new Promise(requestAnimationFrame);
			took.push(performance.now() - began);
		}
		return took.sort((a, b) => a - b)[4] < 250;
	})()`, "true")
	b.write("neu")
	b.press("Enter", withControl)
	eventually(t, "the row is saved", func() bool { return s.get("/v1/shop/de/k9876").Value() == "neu" })
	b.run("search.value = ''; search.dispatchEvent(new Event('input')); choose('changed'); ''")
	b.until("pairs", "1")
	b.until("both", "k9876")
	b.fine()
}

// TestBrowserFiles drops files: a text keeps its line ends, and one that isn't UTF-8 is refused.
func TestBrowserFiles(t *testing.T) {
	b, s := visit(t)
	b.play(s, "Files")
	if got := s.get("/v1/shop/de.txt"); !strings.HasPrefix(got.Body, "\ufeffde{\n//") || !strings.HasSuffix(got.Body, "}\n// more") {
		t.Errorf("%.20q %d", got.Body, len(got.Body))
	}
}
