// Package settings reads the options of a gateway from its command line and its file, and checks what they name.
package settings

import (
	"encoding/json"
	"errors"
	"flag"
	"fmt"
	"io"
	"math"
	"net"
	"net/url"
	"os"
	"strconv"
	"strings"
	"time"

	"luvdregan.example/resb/deploy/internal/engine"
	"luvdregan.example/resb/deploy/internal/front"
	"luvdregan.example/resb/deploy/internal/release"
	"luvdregan.example/resb/deploy/internal/replica"
)

// Settings are what the command line and the file of the configuration say.
type Settings struct {
	Version, CheckOnly                            bool
	Log, AccessLog, AuditLog                      string
	Listen, Inside, AddTokens                     string
	State, Etcd                                   string
	Create                                        bool
	Replica                                       replica.Options
	Front                                         front.Options
	Connections                                   int64
	HeaderTime, WriteTime, IdleTime, Leave, Drain time.Duration

	config, tokenFile, cert, key, origins, proxies, parents string
	etcdLogin, etcdCA, etcdCert, etcdKey                    string
	icuData                                                 listValue
	engine                                                  engine.Options
	lines                                                   map[string]int  // of the file, by option
	given                                                   map[string]bool // on the command line
}

// An option is a flag of the command line, and a member of the file.
type option struct {
	name string
	to   any // where its value is stored
	is   any // the value if nobody gives one
	has  any // the span of a number, the use of a file, or nil
	help string
}

// A span has the least and the greatest value of a number, of bytes, or of a duration in nanoseconds.
type span struct{ least, most int64 }

// atLeast is a span without an end.
func atLeast(n int64) span { return span{n, math.MaxInt64} }

// A use says what the gateway does with a file.
type use int

const (
	reads use = iota + 1
	appends
	removes
)

// table returns all options. The command line, the file of the configuration and the page follow from it.
func (s *Settings) table() []option {
	o, l := &s.Front, &s.Front.Limits
	aSecond := atLeast(int64(time.Second))
	return []option{
		{"version", &s.Version, false, nil, "print the version and the commit, and end"},
		{"config", &s.config, "", reads, "a `file` of JSON with further options; those of the command line win"},
		{"check-config", &s.CheckOnly, false, nil, "check the options and the files that they name, and end with status 0 or 2"},
		{"listen", &s.Listen, "127.0.0.1:6422", nil, "the `address` to answer at"},
		{"inside", &s.Inside, "", nil, "an `address` for the metrics and the health, which callers must not reach"},
		{"tokens", &s.tokenFile, "", reads, "the `file` of tokens: lines of APP, rights such as read or write, and the token's SHA-256"},
		{"add-tokens", &s.AddTokens, "", removes, "a `file` whose tokens are added to the file of tokens once lookups are answered; it is removed then"},
		{"cert", &s.cert, "", reads, "a `file` with the certificates, for TLS"},
		{"key", &s.key, "", reads, "a `file` with their key"},
		{"origins", &s.origins, "", nil, "the `origins` whose scripts may ask, such as https://shop.example, with commas between them; * is all"},
		{"proxies", &s.proxies, "", nil, "the `networks` of proxies whose X-Forwarded-For logs believe, such as 10.0.0.0/8, with commas between them"},
		{"log", &s.Log, "text", nil, "the `form` of the log: text, or json for a JSON object in each line"},
		{"access-log", &s.AccessLog, "", appends, "a `file` to append a line of JSON to for each request, or - for standard error"},
		{"audit-log", &s.AuditLog, "", appends, "a `file` to append a line of JSON to for each change that is asked for, or -"},

		{"state", &s.State, "", nil, "the `folder` of the store on this machine"},
		{"init", &s.Create, false, nil, "make the store if the folder has none"},
		{"etcd", &s.Etcd, "", nil, "the `addresses` of the members of etcd, with commas between them, whose store several gateways share"},
		{"etcd-login", &s.etcdLogin, "", reads, "a `file` with a user of etcd and a password, with a blank between them"},
		{"etcd-ca", &s.etcdCA, "", reads, "a `file` with the certificates of etcd's authority, for TLS"},
		{"etcd-cert", &s.etcdCert, "", reads, "a `file` with a certificate for etcd"},
		{"etcd-key", &s.etcdKey, "", reads, "a `file` with its key"},
		{"history", &s.Replica.Keep.Manifests, 1000, atLeast(0), "how many earlier changes of an application stay"},
		{"history-age", &s.Replica.Keep.Age, time.Duration(0), atLeast(0), "how long earlier changes stay; 0 is no limit"},
		{"history-bytes", (*bytesValue)(&s.Replica.Keep.Bytes), int64(64 << 20), atLeast(0), "the most `bytes` of earlier versions of an application's bundles"},
		{"history-each", &s.Replica.Keep.Each, 3, atLeast(0), "how many of the last versions of each bundle stay, whatever -history and -history-bytes say"},
		{"erase-after", &o.EraseAfter, 7 * 24 * time.Hour, atLeast(0), "how long the erasure of an application can be undone; then what it removed is deleted"},

		{"icudata", &s.icuData, nil, reads, "a `bundle` of ICUDATA, which all applications see, as LOCALE=FILE; may be there several times"},
		{"parents", &s.parents, "", reads, "a `file` with the explicit parents of locales"},

		{"apps", &s.Replica.Apps, 1024, atLeast(1), "the most applications with bundles; one token may have half of what others leave"},
		{"app-bytes", (*bytesValue)(&s.Replica.Limits.Compiled), int64(128 << 20), atLeast(1000), "the most `bytes` of an application's compiled bundles"},
		{"app-stored-bytes", (*bytesValue)(&s.Replica.Limits.Bytes), int64(128 << 20), atLeast(1000), "the most `bytes` of what was submitted for an application's bundles"},
		{"bundles-bytes", (*bytesValue)(&s.Replica.Bytes), int64(0), atLeast(0), "the most `bytes` of all compiled bundles; one token may have half of what others leave. 0 is half of the machine's memory, or of the control group's"},
		{"text-bytes", (*bytesValue)(&o.TextBytes), int64(mostText), span{100, mostText}, "the most `bytes` of a bundle text"},
		{"file-bytes", (*bytesValue)(&o.FileBytes), int64(mostFile), span{100, mostFile}, "the most `bytes` of a bundle's file"},
		{"look-bytes", (*bytesValue)(&o.LookBytes), int64(8 << 20), atLeast(100), "the most `bytes` of the lookups in one request"},
		{"release-bytes", (*bytesValue)(&o.ReleaseBytes), int64(64 << 20), atLeast(1000), "the most `bytes` of a release, and of what is in it"},
		{"reply-bytes", (*bytesValue)(&s.engine.ReplyBytes), int64(8 << 20), atLeast(100), "the most `bytes` of a found item"},
		{"steps", &s.engine.Steps, uint64(10_000), atLeast(1), "the most `steps` of a lookup"},
		{"body-bytes", (*bytesValue)(&l.Bytes), int64(512 << 20), atLeast(10_000), "the most `bytes` of all requests at once; an application or a token may have half of what others leave"},
		{"each", &l.Each, 512, atLeast(1), "the most requests of an application, or with a token, at once"},
		{"all", &l.All, 4096, atLeast(1), "the most requests at once; an application or a token may have half of what others leave"},
		{"rate", &l.Rate, 0, atLeast(0), "the most requests and lookups of an application, or with a token, a second; 0 is no limit"},
		{"day-bytes", (*bytesValue)(&l.DayBytes), int64(0), atLeast(0), "the most `bytes` of requests and replies of an application, or with a token, in a day of UTC; 0 is no limit"},
		{"connections", &s.Connections, int64(16384), atLeast(1), "the most connections"},
		{"header-time", &s.HeaderTime, 10 * time.Second, aSecond, "how long a header may take to come"},
		{"read-time", &o.ReadTime, 2 * time.Minute, aSecond, "how long a request may take to come"},
		{"write-time", &s.WriteTime, 5 * time.Minute, aSecond, "how long a request may take altogether"},
		{"idle-time", &s.IdleTime, 2 * time.Minute, aSecond, "how long a connection may wait for its next request"},
		{"patience", &o.Patience, 30 * time.Second, aSecond, "how long a change, a conversion or ?after= may take"},
		{"drain", &s.Drain, time.Duration(0), atLeast(0), "how long the gateway still answers after a signal to end, while /readyz says that it ends"},
		{"leave", &s.Leave, 30 * time.Second, atLeast(0), "how long requests on their way may take when the gateway ends"},
	}
}

// What the library takes, and what a tree may cost.
const (
	mostText  = 8 << 20
	mostFile  = 64 << 20
	treeSteps = 1_000_000
)

// Flags returns the options as flags, which set the settings.
func (s *Settings) Flags() *flag.FlagSet {
	f := flag.NewFlagSet("gateway", flag.ContinueOnError)
	for _, one := range s.table() {
		switch to := one.to.(type) {
		case *bool:
			f.BoolVar(to, one.name, one.is.(bool), one.help)
		case *string:
			f.StringVar(to, one.name, one.is.(string), one.help)
		case *int:
			f.IntVar(to, one.name, one.is.(int), one.help)
		case *int64:
			f.Int64Var(to, one.name, one.is.(int64), one.help)
		case *uint64:
			f.Uint64Var(to, one.name, one.is.(uint64), one.help)
		case *time.Duration:
			f.DurationVar(to, one.name, one.is.(time.Duration), one.help)
		case *bytesValue:
			*to = bytesValue(one.is.(int64))
			f.Var(to, one.name, one.help)
		case flag.Value:
			f.Var(to, one.name, one.help)
		}
	}
	return f
}

// Usage is that of Describe.
const Usage = "usage: resb-gateway options [-json]\n"

// Describe writes all options as a table in Markdown, or with -json as a file for -config, and returns the status.
func Describe(arguments []string, out io.Writer) int {
	s, rows := Settings{}, []string{}
	f, asFile := s.Flags(), len(arguments) == 1 && arguments[0] == "-json"
	for _, one := range s.table() {
		of := f.Lookup(one.name)
		value := of.DefValue
		if strings.HasSuffix(value, "m0s") {
			value = strings.TrimSuffix(value, "0s")
		}
		switch {
		case !asFile:
			rows = append(rows, fmt.Sprintf("| `-%s` | %s | %s |", one.name, strings.ReplaceAll(one.help, "`", ""), value))
		case notInFile[one.name]:
		case json.Valid([]byte(value)):
			rows = append(rows, fmt.Sprintf("  %q: %s", one.name, value))
		default:
			rows = append(rows, fmt.Sprintf("  %q: %q", one.name, value))
		}
	}
	if asFile {
		fmt.Fprintf(out, "{\n%s\n}\n", strings.Join(rows, ",\n"))
	} else {
		fmt.Fprintf(out, "| Option | Meaning | Default |\n|---|---|---|\n%s\n", strings.Join(rows, "\n"))
	}
	return 0
}

// Read reads the command line, and the file that it names for what it doesn't say. Errors of the command line and the usage, which begins with
// a text, are also printed to `said`.
func Read(arguments []string, usage string, said io.Writer) (Settings, error) {
	s := Settings{given: map[string]bool{}}
	f := s.Flags()
	f.SetOutput(said)
	f.Usage = func() {
		fmt.Fprint(said, usage)
		f.PrintDefaults()
	}
	if err := f.Parse(arguments); err != nil {
		return s, err
	}
	f.Visit(func(one *flag.Flag) { s.given[one.Name] = true })
	switch {
	case s.Version:
		return s, nil
	case f.NArg() > 0:
		return s, fmt.Errorf("%q is no option", f.Arg(0))
	case s.config != "":
		if err := s.readConfig(f); err != nil {
			return s, err
		}
	}
	return s, s.complete()
}

// Wrong returns an error about an option, which begins with where it was given.
func (s *Settings) Wrong(name, format string, about ...any) error {
	place := "-" + name
	if line := s.lines[name]; line > 0 && !s.given[name] {
		place = fmt.Sprintf("%s: line %d: %q", s.config, line, name)
	} else if s.config != "" && !s.given[name] {
		place = fmt.Sprintf("%s: %q", s.config, name)
	}
	return fmt.Errorf("%s"+format, append([]any{place}, about...)...)
}

// complete finds what doesn't go together, and sets what follows from other options.
func (s *Settings) complete() error {
	o := &s.Front
	if err := s.inSpans(); err != nil {
		return err
	}
	switch {
	case s.Log != "text" && s.Log != "json":
		return s.Wrong("log", " is text or json")
	case s.tokenFile == "":
		return s.Wrong("tokens", " is missing")
	case s.State == "" && s.Etcd == "":
		return s.Wrong("state", " is missing: one of -state and -etcd is needed")
	case s.State != "" && s.Etcd != "":
		return s.Wrong("etcd", " is too much: one of -state and -etcd is needed")
	}
	for _, pair := range [][4]string{{"cert", s.cert, "key", s.key}, {"etcd-cert", s.etcdCert, "etcd-key", s.etcdKey}} {
		if pair[1] != "" && pair[3] == "" {
			return s.Wrong(pair[2], " is missing: a certificate and its key go together")
		} else if pair[1] == "" && pair[3] != "" {
			return s.Wrong(pair[0], " is missing: a certificate and its key go together")
		}
	}
	if err := s.readLists(); err != nil {
		return err
	}
	o.IsTLS, o.Alone = s.cert != "", s.Etcd == ""
	o.Limits.Works = engine.Works()
	s.engine.TreeSteps = treeSteps
	s.Replica.Limits.Bundles = release.Most
	s.Replica.Keep.EachBytes = int64(s.Replica.Keep.Each) * s.Replica.Limits.Bytes
	if s.Replica.Bytes == 0 {
		s.Replica.Bytes = machineMemory() / 2
	}
	s.Replica.Every = time.Minute // a change over SQLite stores its bodies itself, so they need no grace
	if s.Etcd != "" {
		// the grace is longer than a gateway that stands still has its connection; the second collection of a process removes bodies
		s.Replica.Keep.Grace, s.Replica.Every = 15*time.Minute, 20*time.Minute
	}
	return nil
}

// inSpans returns an error unless each number is in its span.
func (s *Settings) inSpans() error {
	for _, one := range s.table() {
		in, is := one.has.(span)
		if !is {
			continue
		}
		switch value, text := numberIn(one.to); {
		case value < in.least:
			return s.Wrong(one.name, " can't be %s: it is at least %s", text(value), text(in.least))
		case value > in.most:
			return s.Wrong(one.name, " can't be %s: it is at most %s", text(value), text(in.most))
		}
	}
	return nil
}

// numberIn returns the number that an option has, and how one is written.
func numberIn(to any) (value int64, text func(int64) string) {
	text = func(n int64) string { return fmt.Sprint(n) }
	switch to := to.(type) {
	case *int:
		value = int64(*to)
	case *int64:
		value = *to
	case *uint64:
		if value = int64(*to); value < 0 {
			value = math.MaxInt64
		}
	case *bytesValue:
		value, text = int64(*to), func(n int64) string { return (*bytesValue)(&n).String() }
	case *time.Duration:
		value, text = int64(*to), func(n int64) string { return time.Duration(n).String() }
	}
	return value, text
}

// readLists reads the options that are lists of texts.
func (s *Settings) readLists() error {
	for _, one := range split(s.origins) {
		if u, err := url.Parse(one); one != "*" && (err != nil || u.Host == "" || u.Scheme+"://"+u.Host != one) {
			return s.Wrong("origins", ": %q is no origin as https://shop.example", one)
		}
	}
	s.Front.Origins = split(s.origins)
	for _, one := range split(s.proxies) {
		network, err := networkOf(one)
		if err != nil {
			return s.Wrong("proxies", ": %q is neither an address nor a network as 10.0.0.0/8", one)
		}
		s.Front.Proxies = append(s.Front.Proxies, network)
	}
	for _, one := range split(s.Etcd) {
		u, err := url.Parse(one)
		if !strings.Contains(one, "://") {
			u, err = url.Parse("http://" + one)
		}
		if err != nil || u.Port() == "" || u.Hostname() == "" || u.Path != "" || u.Scheme != "http" && u.Scheme != "https" {
			return s.Wrong("etcd", ": %q is no address as 10.0.0.1:2379 or https://10.0.0.1:2379", one)
		}
	}
	for _, one := range s.icuData {
		if locale, file, _ := strings.Cut(one, "="); locale == "" || file == "" {
			return s.Wrong("icudata", ": %q isn't LOCALE=FILE", one)
		}
	}
	return nil
}

func split(list string) []string {
	return strings.FieldsFunc(list, func(r rune) bool { return r == ',' || r == ' ' })
}

// networkOf reads a network, or an address as the network of itself.
func networkOf(text string) (*net.IPNet, error) {
	if ip := net.ParseIP(text); ip.To4() != nil {
		text += "/32"
	} else if ip != nil {
		text += "/128"
	}
	_, network, err := net.ParseCIDR(text)
	return network, err
}

// sources reads the bundles of ICUDATA and the parents.
func (s *Settings) sources() (err error) {
	s.engine.ICUData = nil
	for _, one := range s.icuData {
		locale, file, _ := strings.Cut(one, "=")
		body, err := os.ReadFile(file)
		if err != nil {
			return s.Wrong("icudata", ": %w", err)
		}
		s.engine.ICUData = append(s.engine.ICUData, engine.Source{Locale: locale, Body: body, IsText: strings.HasSuffix(strings.ToLower(file), ".txt")})
	}
	if s.parents != "" {
		if s.engine.Parents, err = os.ReadFile(s.parents); err != nil {
			return s.Wrong("parents", ": %w", err)
		}
	}
	return nil
}

// bytesValue is a flag of a number of bytes, perhaps with K, M or G.
type bytesValue int64

// String returns the number.
func (b *bytesValue) String() string {
	if *b >= 1<<20 && *b%(1<<20) == 0 {
		return fmt.Sprintf("%dM", *b>>20)
	}
	return fmt.Sprint(int64(*b))
}

// Set reads a number.
func (b *bytesValue) Set(text string) error {
	digits := strings.TrimRight(text, "KMG")
	shift, known := map[string]int{"": 0, "K": 10, "M": 20, "G": 30}[text[len(digits):]]
	n, err := strconv.ParseInt(digits, 10, 64)
	if err != nil || !known || n < 0 || n > 1<<62>>shift {
		return errors.New("not a number of bytes")
	}
	*b = bytesValue(n << shift)
	return nil
}

// A listValue is a flag that may be there several times.
type listValue []string

// String returns the list.
func (l *listValue) String() string { return fmt.Sprintf("%q", []string(*l)) }

// Set adds to the list.
func (l *listValue) Set(text string) error {
	*l = append(*l, text)
	return nil
}
