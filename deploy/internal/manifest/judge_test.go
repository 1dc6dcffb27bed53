package manifest

import (
	"testing"
)

func put(locale, text string) Edit {
	return Edit{Locale: locale, Body: []byte(text), Kind: "text", Digest: DigestOf([]byte(text)), Compiled: int64(2 * len(text))}
}

func absent(e Edit) Edit { e.MustBeAbsent = true; return e }

// matches adds the condition that a bundle has one of some digests.
func matches(e Edit, any ...Digest) Edit {
	e.If = func(now *Bundle) bool {
		for _, d := range any {
			if now != nil && (d == "*" || d == now.Digest) {
				return true
			}
		}
		return false
	}
	return e
}

func locales(m *Manifest) (all string) {
	for _, b := range m.Bundles {
		all += b.Locale + " "
	}
	return all
}

func TestJudge(t *testing.T) {
	base, refusal := Judge(&Manifest{App: "a"}, &Change{App: "a", Edits: []Edit{put("de", "d{1}"), put("en", "e{2}"), put("fr", "f{3}")}}, Limits{})
	if refusal != nil || base.Revision != 1 || locales(base) != "de en fr " {
		t.Fatal(base, refusal)
	}
	de := base.Bundles[0].Digest
	for name, c := range map[string]struct {
		change Change
		limits Limits
		want   string // the locales, or a refusal
	}{
		"replace keeps the order":             {Change{Edits: []Edit{put("de", "x{}")}}, Limits{}, "de en fr "},
		"remove and install again goes last":  {Change{Edits: []Edit{{Locale: "de"}, put("de", "x{}")}}, Limits{}, "en fr de "},
		"remove":                              {Change{Edits: []Edit{{Locale: "en"}}}, Limits{}, "de fr "},
		"remove what isn't there":             {Change{Edits: []Edit{put("it", "i{}"), {Locale: "xx"}}}, Limits{}, "Absent xx"},
		"remove twice":                        {Change{Edits: []Edit{{Locale: "de"}, {Locale: "de"}}}, Limits{}, "Absent de"},
		"install only":                        {Change{Edits: []Edit{absent(put("de", "x{}"))}}, Limits{}, "Exists de"},
		"install only, absent":                {Change{Edits: []Edit{absent(put("it", "x{}"))}}, Limits{}, "de en fr it "},
		"match":                               {Change{Edits: []Edit{matches(put("de", "x{}"), "no", de)}}, Limits{}, "de en fr "},
		"no match":                            {Change{Edits: []Edit{matches(put("de", "x{}"), "no")}}, Limits{}, "PreconditionFailed de"},
		"any":                                 {Change{Edits: []Edit{matches(put("it", "x{}"), "*")}}, Limits{}, "PreconditionFailed it"},
		"match before absence":                {Change{Edits: []Edit{matches(Edit{Locale: "xx"}, de)}}, Limits{}, "PreconditionFailed xx"},
		"full":                                {Change{Edits: []Edit{put("it", "x{}")}}, Limits{Bundles: 3}, "Full it"},
		"full, but replaced":                  {Change{Edits: []Edit{put("de", "x{}")}}, Limits{Bundles: 3}, "de en fr "},
		"room is made first":                  {Change{Edits: []Edit{{Locale: "de"}, put("it", "x{}")}}, Limits{Bundles: 3}, "en fr it "},
		"room is made too late":               {Change{Edits: []Edit{put("it", "x{}"), {Locale: "de"}}}, Limits{Bundles: 3}, "Full it"},
		"over the bytes":                      {Change{Edits: []Edit{put("it", "x{}")}}, Limits{Bytes: 14}, "OverQuota "},
		"at the bytes":                        {Change{Edits: []Edit{put("it", "x{}")}}, Limits{Bytes: 15}, "de en fr it "},
		"over the compiled bytes":             {Change{Edits: []Edit{put("it", "x{}")}}, Limits{Compiled: 29}, "OverQuota "},
		"over on the way":                     {Change{Edits: []Edit{put("it", "x{}"), {Locale: "de"}}}, Limits{Bytes: 12}, "en fr it "},
		"shrinks under a narrowed quota":      {Change{Edits: []Edit{{Locale: "de"}}}, Limits{Bytes: 1, Compiled: 1}, "en fr "},
		"nothing changes":                     {Change{Edits: []Edit{put("de", "d{1}")}}, Limits{}, "same"},
		"erase":                               {Change{Erase: true}, Limits{}, ""},
		"undo":                                {Change{IsUndo: true, Erased: []Bundle{{Locale: "de"}, {Locale: "it", Bytes: 3}}}, Limits{Bundles: 4}, "de en fr it "},
		"undo, full":                          {Change{IsUndo: true, Erased: []Bundle{{Locale: "it"}}}, Limits{Bundles: 3}, "Full "},
		"undo, over the bytes":                {Change{IsUndo: true, Erased: []Bundle{{Locale: "it", Bytes: 3}}}, Limits{Bytes: 14}, "OverQuota "},
		"tokens":                              {Change{Tokens: func([]string) ([]string, string) { return []string{"x"}, "" }}, Limits{}, "de en fr "},
		"tokens, refused":                     {Change{Tokens: func([]string) ([]string, string) { return nil, Absent }}, Limits{}, "Absent "},
		"all or none":                         {Change{Edits: []Edit{put("de", "x{}"), absent(put("en", "y{}"))}}, Limits{}, "Exists en"},
		"the last of two counts":              {Change{Edits: []Edit{put("it", "x{}"), put("it", "y{}")}}, Limits{}, "de en fr it "},
		"a condition sees the edit before it": {Change{Edits: []Edit{{Locale: "de"}, absent(put("de", "x{}"))}}, Limits{}, "en fr de "},
	} {
		before := locales(base)
		next, refusal := Judge(base, &c.change, c.limits)
		got := ""
		switch {
		case refusal != nil:
			got = refusal.Error()
		case next == base:
			got = "same"
		default:
			got = locales(next)
			if next.Revision != 2 {
				t.Errorf("%s: revision %d", name, next.Revision)
			}
		}
		if got != c.want || locales(base) != before || base.Bundles[0].Digest != de {
			t.Errorf("%s: %q and not %q; before: %q", name, got, c.want, locales(base))
		}
	}
}
