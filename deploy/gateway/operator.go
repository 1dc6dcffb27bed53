package main

import (
	"context"
	"crypto/tls"
	"flag"
	"fmt"
	"io"
	"net/http"
	"os"
	"path/filepath"
	"sort"
	"strings"
	"time"

	"luvdregan.example/resb/deploy/internal/auth"
	"luvdregan.example/resb/deploy/internal/convert"
	"luvdregan.example/resb/deploy/internal/engine"
	"luvdregan.example/resb/deploy/internal/manifest"
	"luvdregan.example/resb/deploy/internal/settings"
	"luvdregan.example/resb/deploy/internal/store"
	"luvdregan.example/resb/deploy/internal/store/sqlite"
)

const operatorUsage = `usage: resb-gateway init -state FOLDER
       resb-gateway backup -state FOLDER FILE
       resb-gateway restore -state FOLDER FILE
       resb-gateway copy -state FOLDER -etcd ADDRESSES [-etcd-login FILE ..] to|from
       resb-gateway list -state FOLDER | -etcd ADDRESSES [-etcd-login FILE ..]
       resb-gateway export -state FOLDER | -etcd ADDRESSES [-etcd-login FILE ..] TO
`

// operatorCommand does a command over a store and returns the status: backup also while a gateway runs, the others before one does.
func operatorCommand(name string, arguments []string, out, said io.Writer) int {
	s := settings.Settings{}
	all := s.Flags()
	f := flag.NewFlagSet("resb-gateway "+name, flag.ContinueOnError)
	f.SetOutput(said)
	f.Usage = func() { fmt.Fprint(said, operatorUsage) }
	for _, option := range []string{"state", "etcd", "etcd-login", "etcd-ca", "etcd-cert", "etcd-key"} {
		one := all.Lookup(option)
		f.Var(one.Value, option, one.Usage)
	}
	if f.Parse(arguments) != nil {
		return 2
	}
	if missing := missingFor(s, name, f.NArg()); missing != "" {
		fmt.Fprintf(said, "resb-gateway %s: %s\n", name, missing)
		f.Usage()
		return 2
	}
	var err error
	switch file := f.Arg(0); name {
	case "init":
		var made *sqlite.Store
		if made, err = sqlite.Open(sqlite.Options{Folder: s.State, Create: true}); err == nil {
			err = made.Close()
		}
	case "backup":
		err = report(out, file)(sqlite.Backup(s.State, file))
	case "restore":
		err = report(out, s.State)(sqlite.Restore(s.State, file))
	case "copy":
		err = copyStore(s, file, out)
	case "export":
		err = exportStore(s, file, out)
	default:
		err = listStore(s, out)
	}
	if err != nil {
		fmt.Fprintln(said, "resb-gateway:", err)
		return 1
	}
	return 0
}

// missingFor returns what a command with a number of arguments lacks, or "".
func missingFor(s settings.Settings, name string, arguments int) string {
	isEither := name == "list" || name == "export"
	switch wants := map[string]int{"backup": 1, "restore": 1, "copy": 1, "export": 1}[name]; {
	case arguments != wants:
		return fmt.Sprintf("there are %d arguments in place of %d", arguments, wants)
	case s.State == "" && (s.Etcd == "" || !isEither):
		return "-state is missing"
	case name == "copy" && s.Etcd == "":
		return "-etcd is missing"
	}
	return ""
}

// report returns a function that writes what was copied, unless it failed.
func report(out io.Writer, to string) func(sqlite.Summary, error) error {
	return func(sum sqlite.Summary, err error) error {
		if err == nil {
			fmt.Fprintf(out, "%s: %d applications, %d changes, %d bytes\n", to, sum.Apps, sum.Changes, sum.Bytes)
		}
		return err
	}
}

// copyStore copies the applications of a folder to etcd, or from there into a folder, which it makes.
func copyStore(s settings.Settings, direction string, out io.Writer) error {
	here := s
	here.Etcd, here.Create = "", direction == "from"
	if direction != "from" && direction != "to" {
		return fmt.Errorf("%q is neither to nor from", direction)
	}
	local, err := here.OpenStore()
	if err != nil {
		return err
	}
	defer local.Close()
	shared, err := s.OpenStore()
	if err != nil {
		return err
	}
	defer shared.Close()
	from, to := local, shared
	if direction == "from" {
		from, to = shared, local
	}
	apps, err := store.Copy(context.Background(), from, to)
	if err == nil {
		fmt.Fprintf(out, "%d applications\n", apps)
	}
	return err
}

// eachBundle opens the store, and calls a function for each bundle, by application.
func eachBundle(s settings.Settings, do func(of store.Store, app string, b manifest.Bundle) error) error {
	of, err := s.OpenStore()
	if err != nil {
		return err
	}
	defer of.Close()
	var names []string
	if err := of.Newest(context.Background(), func(app string, _ int64) { names = append(names, app) }); err != nil {
		return err
	}
	sort.Strings(names)
	for _, app := range names {
		m, err := of.Manifest(context.Background(), app, 0, nil)
		for i := 0; err == nil && i < len(m.Bundles); i++ {
			err = do(of, app, m.Bundles[i])
		}
		if err != nil {
			return err
		}
	}
	return nil
}

// listStore writes a line for each bundle: what it is, and who changed it when.
func listStore(s settings.Settings, out io.Writer) error {
	return eachBundle(s, func(_ store.Store, app string, b manifest.Bundle) error {
		at := time.UnixMilli(b.At).UTC().Format(time.RFC3339)
		_, err := fmt.Fprintf(out, "%s\t%s\t%d bytes\t%s\t%s\n", app, b.Locale, b.Bytes, at, b.Who)
		return err
	})
}

// exportStore writes the bundles as files APP/LOCALE.txt below a folder, and replaces none. One that has no text is written as LOCALE.res.
func exportStore(s settings.Settings, to string, out io.Writer) error {
	bundles := 0
	err := eachBundle(s, func(of store.Store, app string, b manifest.Bundle) error {
		body, err := of.Body(context.Background(), app, b)
		if err != nil {
			return err
		}
		end := ".txt"
		if text, err := convert.To(engine.Text, b.Locale, b.Kind, body); err == nil {
			body = text
		} else {
			end = ".res"
		}
		bundles++
		return writeNew(filepath.Join(to, app, b.Locale+end), body)
	})
	fmt.Fprintf(out, "%s: %d bundles\n", to, bundles)
	return err
}

// writeNew writes a file, which must be missing, and makes the folders around it.
func writeNew(path string, content []byte) error {
	if err := os.MkdirAll(filepath.Dir(path), 0o777); err != nil {
		return err
	}
	f, err := os.OpenFile(path, os.O_WRONLY|os.O_CREATE|os.O_EXCL, 0o666)
	if err != nil {
		return err
	}
	_, err = f.Write(content)
	if closed := f.Close(); err == nil {
		err = closed
	}
	return err
}

const tokenUsage = `usage: resb-gateway token add -tokens FILE [-name NAME] [-expires TIME] APP RIGHTS
       resb-gateway token list -tokens FILE
       resb-gateway token revoke -tokens FILE NAME
APP may be as shop.* or shop/de; RIGHTS are read, write, own, or words as read,edit,release,erase; TIME is as 90d, 2027-01-31 or 2027-01-31T12:00:00Z; NAME may be 8 or more digits of the token's hash
`

// tokenCommand changes or lists a file of tokens, and returns the status. A gateway that runs reads the file again.
func tokenCommand(arguments []string, out, errors io.Writer) int {
	f := flag.NewFlagSet("resb-gateway token", flag.ContinueOnError)
	f.SetOutput(errors)
	f.Usage = func() { fmt.Fprint(errors, tokenUsage) }
	file := f.String("tokens", "", "the `file` of tokens")
	name, expires := f.String("name", "", "the token's `name` in logs"), f.String("expires", "", "until `when` it is valid")
	command := append(arguments, "")[0]
	if command == "" || f.Parse(arguments[1:]) != nil || *file == "" {
		f.Usage()
		return 2
	}
	var err error
	given := f.Args()
	switch fmt.Sprint(command, len(given)) {
	case "add2":
		err = addToken(*file, *name, *expires, given[0], given[1], out)
	case "list0":
		err = listTokens(*file, out)
	case "revoke1":
		var removed int
		if removed, err = auth.Revoke(*file, given[0]); err == nil {
			fmt.Fprintf(out, "%d removed\n", removed)
		}
	default:
		f.Usage()
		return 2
	}
	if err != nil {
		fmt.Fprintln(errors, "resb-gateway:", err)
		return 1
	}
	return 0
}

// addToken makes a token and prints it.
func addToken(file, name, expires, app, right string, out io.Writer) error {
	end, err := auth.ParseExpiry(expires, time.Now())
	if err != nil {
		return err
	}
	token, err := auth.Create(file, app, right, name, end)
	if err == nil {
		fmt.Fprintln(out, token)
	}
	return err
}

// listTokens prints a line for each line of the file: the name, the digits of the hash that stand for it, and what it may do.
func listTokens(file string, out io.Writer) error {
	all, wrong, err := auth.List(file)
	if err != nil {
		return err
	}
	for _, one := range all {
		until, name, where := "never expires", one.Name, one.App
		switch at := one.Expires.UTC().Format(time.RFC3339); {
		case one.Expires.After(time.Now()):
			until = "expires " + at
		case !one.Expires.IsZero():
			until = "expired " + at
		}
		if name == "" {
			name = "-"
		}
		if one.Locale != "" {
			where += "/" + one.Locale
		}
		fmt.Fprintf(out, "%s\t%s\t%s\t%s\t%s\n", name, one.Hash()[:8], where, one.Right, until)
	}
	if len(wrong) > 0 {
		return fmt.Errorf("%s: %w", file, wrong[0])
	}
	return nil
}

// healthTime is how long a health check waits for the answer.
const healthTime = 5 * time.Second

const healthUsage = "usage: resb-gateway -healthcheck ADDRESS, such as 127.0.0.1:6422 or https://127.0.0.1:6422/healthz\n"

// healthCommand asks a running gateway whether it is ready, and returns the status: `gateway -healthcheck ADDRESS`. An address without
// a path is asked for /readyz. It may begin with https://, and without a scheme it is asked over TLS if the gateway there needs that; the
// certificate isn't checked, since the gateway's name needn't be that of the address.
func healthCommand(arguments []string, said io.Writer) int {
	if len(arguments) != 1 || arguments[0] == "" {
		fmt.Fprint(said, healthUsage)
		return 2
	}
	address := strings.TrimSuffix(arguments[0], "/")
	scheme, rest, hasScheme := strings.Cut(address, "://")
	if !hasScheme {
		scheme, rest = "http", address
	}
	if !strings.Contains(rest, "/") {
		rest += "/readyz"
	}
	err := checkHealth(scheme + "://" + rest)
	if !hasScheme && err != nil && strings.Contains(err.Error(), "NeedsTLS") {
		err = checkHealth("https://" + rest)
	}
	if err != nil {
		fmt.Fprintln(said, "resb-gateway:", err)
		return 1
	}
	return 0
}

// checkHealth returns an error unless the address answers with status 200 in time.
func checkHealth(address string) error {
	ctx, cancel := context.WithTimeout(context.Background(), healthTime)
	defer cancel()
	request, err := http.NewRequestWithContext(ctx, http.MethodGet, address, nil)
	if err != nil {
		return err
	}
	// neither a proxy of the environment nor a page elsewhere says how this gateway does
	response, err := (&http.Transport{TLSClientConfig: &tls.Config{InsecureSkipVerify: true}}).RoundTrip(request)
	if err != nil {
		return err
	}
	defer response.Body.Close()
	if response.StatusCode != http.StatusOK {
		text, _ := io.ReadAll(io.LimitReader(response.Body, 200)) // what came explains the status
		return fmt.Errorf("%s answers %s: %s", address, response.Status, strings.TrimSpace(string(text)))
	}
	return nil
}
