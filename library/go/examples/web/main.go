// Command web serves the text at the path of a URL in the language of the visitor.
//
//	go run ./examples/web -texts ../examples/texts
//	curl -H 'Accept-Language: de-AT' http://127.0.0.1:8080/menu/open
//
// The folder has the bundles: texts as LOCALE.txt, files as LOCALE.res.
package main

import (
	"errors"
	"flag"
	"fmt"
	"log"
	"net"
	"net/http"
	"os"
	"path/filepath"
	"regexp"
	"strings"

	resb "luvdregan.example/resb/library/go"
)

var language = regexp.MustCompile("^[A-Za-z0-9-]+")

// bundlesOf returns the bundles of a folder, as those of one application.
func bundlesOf(folder string) (*resb.Bundles, error) {
	bundles, err := resb.Open()
	if err != nil {
		return nil, err
	}
	files, err := os.ReadDir(folder)
	if err != nil {
		return nil, err
	}
	for _, file := range files {
		kind := filepath.Ext(file.Name())
		if kind != ".txt" && kind != ".res" {
			continue
		}
		content, err := os.ReadFile(filepath.Join(folder, file.Name()))
		if err != nil {
			return nil, err
		}
		if err := bundles.Install("site", strings.TrimSuffix(file.Name(), kind), content, kind == ".txt"); err != nil {
			return nil, fmt.Errorf("%s: %w", file.Name(), err)
		}
	}
	return bundles, nil
}

// A site answers requests with the texts of its bundles.
type site struct{ bundles *resb.Bundles }

func (s site) ServeHTTP(w http.ResponseWriter, r *http.Request) {
	locale := language.FindString(r.Header.Get("Accept-Language"))
	w.Header().Set("Vary", "Accept-Language")
	text, err := s.bundles.Text("site", locale, strings.Trim(r.URL.Path, "/"))
	switch {
	case errors.Is(err, resb.ErrMissing), errors.Is(err, resb.ErrBadPath), errors.Is(err, resb.ErrOtherKind):
		http.NotFound(w, r)
	case err != nil:
		http.Error(w, err.Error(), http.StatusBadRequest)
	default:
		fmt.Fprintln(w, text)
	}
}

func main() {
	folder := flag.String("texts", ".", "the folder of the bundles")
	address := flag.String("listen", "127.0.0.1:8080", "the address to listen on")
	flag.Parse()
	bundles, err := bundlesOf(*folder)
	if err != nil {
		log.Fatal(err)
	}
	listener, err := net.Listen("tcp", *address)
	if err != nil {
		log.Fatal(err)
	}
	fmt.Printf("http://%s/greeting\n", listener.Addr())
	log.Fatal(http.Serve(listener, site{bundles}))
}
