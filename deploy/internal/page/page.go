// Package page has the page on which bundles are edited, and its parts.
package page

import (
	"embed"
	"path"
)

// Policy lets the page run the scripts and use the styles that this gateway serves, and ask this gateway. No text becomes markup.
const Policy = "default-src 'none'; connect-src 'self'; script-src 'self'; style-src 'self'; base-uri 'none'; form-action 'none'; " +
	"frame-ancestors 'none'; require-trusted-types-for 'script'; trusted-types 'none'"

//go:embed index.html *.css *.mjs
var files embed.FS

var kinds = map[string]string{".html": "text/html; charset=utf-8", ".css": "text/css; charset=utf-8", ".mjs": "text/javascript; charset=utf-8"}

// Find returns a part of the page with its type; the last result is false if there is none of this name.
func Find(name string) (content []byte, kind string, there bool) {
	content, err := files.ReadFile(name)
	return content, kinds[path.Ext(name)], err == nil
}
