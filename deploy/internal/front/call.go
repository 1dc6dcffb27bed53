// Package front takes requests: it knows who asks, admits what is within the limits, and writes replies, logs, metrics and pages. What an address
// of an application does is for another package.
package front

import (
	"context"
	"errors"
	"log"
	"net"
	"net/http"
	"net/url"
	"runtime/debug"
	"strconv"
	"strings"
	"time"

	"luvdregan.example/resb/deploy/internal/auth"
	"luvdregan.example/resb/deploy/internal/convert"
	"luvdregan.example/resb/deploy/internal/engine"
	"luvdregan.example/resb/deploy/internal/limits"
	"luvdregan.example/resb/deploy/internal/replica"
	"luvdregan.example/resb/deploy/internal/wire"
)

// Options are the settings of a handler.
type Options struct {
	TextBytes, FileBytes, LookBytes, ReleaseBytes int64
	Limits                                        limits.Options
	ReadTime, Patience, EraseAfter                time.Duration
	Version, Commit                               string          // of the gateway
	Leaving                                       context.Context // is done when the gateway ends
	Access, Audit                                 Journal         // or nil
	Origins                                       []string        // whose scripts may ask; `*` is all
	Proxies                                       []*net.IPNet    // whose X-Forwarded-For is believed
	IsTLS                                         bool
	Alone                                         bool // no other gateway changes the store
}

// A Handler answers requests.
type Handler struct {
	Backend *replica.Replica
	Engine  *engine.Engine
	Tokens  *auth.Tokens
	Options Options
	OpenAPI []byte
	Metrics *Metrics
	routes  []route // in the order in which they are tried
	limits  *limits.Limits
}

// Begin completes a handler, whose exported fields except Metrics are set.
func (h *Handler) Begin(addresses []Address) {
	h.routes = routesOf(addresses)
	h.limits = limits.New(h.Options.Limits)
	h.Metrics = newMetrics(h.Backend, h.limits, h.Tokens, h.Options.Alone)
}

// A Call is one request on its way.
type Call struct {
	*Handler
	W         http.ResponseWriter
	R         *http.Request
	App       string
	Parts     []string // of the address after the application
	Path      string   // of an item
	Query     url.Values
	Who       auth.Holder
	Operation *Operation
	Ticket    limits.Ticket
	Code      string // of a refusal
	TokenID   string // of the token that a change makes or revokes
	Note      string // what else a change asks for
	Status    int
	Sent      int // bytes of the reply

	began  time.Time
	ctx    context.Context // or nil until it is needed
	cancel context.CancelFunc
	known  bool
	edits  []audited // what a change asked for
	whole  bool      // its body was read
	got    int       // bytes of the body
	cut    bool      // it was refused before the body was read
}

// Values of headers, which nobody changes.
var (
	noSniff   = []string{"nosniff"}
	privately = []string{"private, no-cache"}
	noStore   = []string{"no-store"}
	byToken   = []string{"Authorization"}
	strictly  = []string{"max-age=31536000"}
	JSONType  = []string{wire.JSON}
)

// ServeHTTP answers each request.
func (h *Handler) ServeHTTP(w http.ResponseWriter, r *http.Request) { h.serve(w, r, (*Call).route) }

// Inside answers the requests for metrics and health at an address that callers don't reach.
func (h *Handler) Inside() http.Handler {
	return http.HandlerFunc(func(w http.ResponseWriter, r *http.Request) { h.serve(w, r, (*Call).inside) })
}

func (h *Handler) serve(w http.ResponseWriter, r *http.Request, answer func(*Call) error) {
	c := &Call{Handler: h, W: w, R: r, Operation: &Other, began: time.Now()}
	defer c.linger()
	defer c.end()
	head := w.Header()
	head["X-Content-Type-Options"] = noSniff
	if h.Options.IsTLS {
		head["Strict-Transport-Security"] = strictly
	}
	if len(r.TransferEncoding) > 0 {
		head.Set("Connection", "close") // a proxy may have seen another end of the body (RFC 9112, 6.1)
	}
	if wire.HasTwoLengths(r) {
		c.refuse(wire.BadLength)
	} else if err := answer(c); err != nil {
		c.refuse(err)
	}
}

// end counts a request, and writes its lines. After a fault of the gateway the caller's connection is closed.
func (c *Call) end() {
	failure, now := recover(), time.Now()
	if failure != nil {
		log.Printf("panic: %v\n%s", failure, debug.Stack())
		c.Status, c.Code = http.StatusInternalServerError, wire.Failed.Code
		c.Metrics.panics.Inc()
	}
	if c.cancel != nil {
		c.cancel()
	}
	if c.Ticket.IsBegun() {
		c.Ticket.End(int64(c.Sent+c.got), now)
	}
	c.logAccess(now)
	c.logAudit(now)
	if !c.known {
		c.Operation = &Other // whatever it asked for
	}
	c.Metrics.count(c.Operation.Kind, c.Status, now.Sub(c.began))
	if failure != nil {
		panic(http.ErrAbortHandler)
	}
}

// route answers what the address names.
func (c *Call) route() error {
	escaped := c.R.URL.EscapedPath()
	parts, ok := wire.Segments(escaped)
	switch {
	case !ok:
		return wire.BadPath
	case parts[0] != "v1" || len(parts) == 1:
		return c.page(parts)
	case wire.CORS(c.W.Header(), c.R, c.Options.Origins):
		return c.Write(http.StatusNoContent, nil, nil)
	}
	c.App, c.Parts = parts[1], parts[2:]
	if len(c.Parts) > 1 {
		c.Path = pathIn(escaped, parts)
	}
	return c.application()
}

// pathIn returns the path of an item in an address: what follows the application and the locale.
func pathIn(escaped string, parts []string) string {
	if strings.IndexByte(escaped, '%') >= 0 {
		return strings.Join(parts[3:], "/")
	}
	return escaped[len("/v1//")+len(parts[1])+len(parts[2])+1:]
}

// application does what an application's address names, if the token allows it.
func (c *Call) application() error {
	do, locale, allow := c.find(c.Parts, c.R.Method)
	if err := c.identify(); err != nil {
		return err
	}
	may := auth.Right(0)
	if c.known && do.AnyLocale {
		may = c.Who.Somewhere(c.App, c.began)
	} else if c.known {
		may = c.Who.May(c.App, locale, c.began)
	}
	c.Operation = do
	if do.Action != "" && locale != "" {
		locale, _, _ := wire.FormOf(locale)
		c.Asked(locale, nil)
	}
	switch {
	case !c.known:
		c.W.Header().Set("WWW-Authenticate", `Bearer realm="resb"`)
		return wire.Unauthorized
	case may == 0 || do.Do != nil && may&do.Right == 0:
		return wire.Forbidden
	case hasEmpty(c.Parts):
		return wire.BadPath
	case allow == "":
		return wire.NoPage
	case do.Do != nil:
		return c.limited(do)
	}
	c.W.Header().Set("Allow", allow)
	if c.R.Method == http.MethodOptions {
		return c.Write(http.StatusNoContent, nil, nil)
	}
	return wire.NotAllowed
}

// identify finds who asks: in the file of tokens, or among the tokens that owners of the application made. Before these are read it returns an error.
func (c *Call) identify() error {
	token, ok := auth.Bearer(c.R.Header["Authorization"])
	if !ok {
		return nil
	}
	if c.Who, c.known = c.Tokens.Find(token); c.known {
		return nil
	}
	if c.Who, c.known = auth.FindIn(c.Backend.Now(c.App).Tokens, token); c.known {
		return nil
	}
	return c.Backend.Ready()
}

// Permit returns an error unless the token has a right for a locale, or for the whole application if that is "".
func (c *Call) Permit(right auth.Right, locale string) error {
	if c.Who.May(c.App, locale, c.began)&right == 0 {
		return wire.Forbidden
	}
	return nil
}

// hasEmpty returns true if a part is empty: joined again, a path of one empty part would be none.
func hasEmpty(parts []string) bool {
	for _, part := range parts {
		if part == "" {
			return true
		}
	}
	return false
}

// limited does a request within the limits, once the gateway has the revision that the query names.
func (c *Call) limited(do *Operation) error {
	err := c.limits.Begin(&c.Ticket, c.App, c.Who.Account(), c.began)
	if err != nil {
		c.Ticket = limits.Ticket{} // none to end
		return err
	}
	if err = c.readQuery(); err == nil {
		err = do.admits(c.Query)
	}
	if err == nil {
		err = c.Backend.Ready()
	}
	if err == nil {
		err = do.Do(c)
	}
	return err
}

// readQuery reads the query, and waits for the revision that it names.
func (c *Call) readQuery() (err error) {
	if c.R.URL.RawQuery == "" {
		return nil
	}
	if c.Query, err = url.ParseQuery(c.R.URL.RawQuery); err != nil {
		return wire.BadQuery.With(err.Error()) // Query would leave out what is malformed, such as ?after=%zz
	}
	given, asks := c.Query["after"]
	if !asks {
		return nil
	}
	revision, err := strconv.ParseInt(given[0], 10, 64)
	if err != nil || revision < 0 || len(given) > 1 {
		return wire.BadRevision
	}
	ctx, cancel := context.WithTimeout(c.R.Context(), c.Options.Patience)
	defer cancel()
	return c.Backend.Await(ctx, c.App, revision)
}

// Asks returns true if the query has a name.
func (c *Call) Asks(name string) bool {
	_, asks := c.Query[name]
	return asks
}

// Context ends when the caller has gone, or has waited for too long.
func (c *Call) Context() context.Context {
	if c.ctx == nil {
		c.ctx, c.cancel = context.WithTimeout(c.R.Context(), c.Options.Patience)
	}
	return c.ctx
}

// Hold counts memory of the request, if its application and its token may have it.
func (c *Call) Hold(bytes int64) error { return c.Ticket.Hold(bytes) }

// Work does long work once it is the turn of the application and the token.
func (c *Call) Work(ctx context.Context, do func() error) error {
	end, err := c.Ticket.Work(ctx)
	if err != nil {
		return err
	}
	defer end()
	return do()
}

// Short is the most bytes that any number of requests load, compress or parse at once.
const Short = 8 << 10

// Long does work over this many bytes, after waiting for its turn if they aren't few.
func (c *Call) Long(ctx context.Context, bytes int64, do func() error) error {
	if bytes > Short && c.Ticket.IsBegun() { // pages have no ticket
		return c.Work(ctx, do)
	}
	return do()
}

// Body reads the body of a request, up to a limit.
func (c *Call) Body(limit int64) ([]byte, error) {
	body, err := wire.ReadBody(c.W, c.R, limit, c.Options.ReadTime, c.Hold)
	c.got, c.whole = len(body), err == nil
	return body, err
}

// Tell writes the header with a revision.
func (c *Call) Tell(revision int64) {
	c.W.Header()["Resb-Revision"] = []string{strconv.FormatInt(revision, 10)}
}

// Privately says that the reply may be stored for its tag, and depends on the token.
func (c *Call) Privately() {
	h := c.W.Header()
	h["Cache-Control"] = privately
	if vary := h["Vary"]; vary == nil {
		h["Vary"] = byToken
	} else {
		h["Vary"] = append(vary, byToken...)
	}
}

// NoStore says that the reply is true for the moment.
func (c *Call) NoStore() { c.W.Header()["Cache-Control"] = noStore }

// refuse writes the problem of an error. A fault of the gateway is logged.
func (c *Call) refuse(err error) {
	h := c.W.Header()
	var rate *limits.OverRate
	if errors.As(err, &rate) {
		h.Set("Retry-After", strconv.FormatInt(int64(rate.Wait/time.Second)+1, 10))
	}
	p := wire.ProblemOf(err)
	if p == wire.Failed {
		log.Printf("request: %v", err)
	}
	c.Code = p.Code
	c.NoStore()
	delete(h, "Etag")
	if c.R.ContentLength != 0 && !c.whole {
		h.Set("Connection", "close") // so that the caller gets the error at once, and not after the rest of its body
		c.cut = p != wire.Slow && p != wire.CutOff
	}
	if h.Get("Retry-After") == "" && (p.Status == http.StatusServiceUnavailable || p.Status == http.StatusTooManyRequests) {
		h.Set("Retry-After", "1")
	}
	body := append(convert.Marshal(p), '\n')
	if c.cut {
		h["Content-Length"] = []string{strconv.Itoa(len(body))} // which net/http doesn't find once it is flushed
	}
	_ = c.Write(p.Status, JSONType, body)
	if flusher, can := c.W.(http.Flusher); c.cut && can {
		flusher.Flush()
	}
}

// linger reads on what the caller still sends of a body that was refused.
func (c *Call) linger() {
	if c.cut {
		wire.Linger(c.R)
	}
}

// Reply answers with a value as JSON that is true for the moment.
func (c *Call) Reply(value any) error {
	c.NoStore()
	return c.Write(http.StatusOK, JSONType, append(convert.Marshal(value), '\n'))
}

// fromHere is the longest body whose length net/http finds itself.
const fromHere = 1024

// Write writes a whole response. The answer to HEAD has the length and not the body. There is no error, as a caller that has gone gets none.
func (c *Call) Write(status int, kind []string, body []byte) error {
	c.Status = status
	h := c.W.Header()
	if kind != nil {
		h["Content-Type"] = kind
	}
	isLong := status == http.StatusOK && len(body) >= wire.LeastGzip
	if isLong || status == http.StatusNotModified { // as the reply that it stands for (RFC 9110, 15.4.5)
		h.Add("Vary", "Accept-Encoding")
	}
	if isLong && wire.TakesGzip(c.R) {
		_ = c.Long(c.R.Context(), int64(len(body)), func() error { // nothing is compressed for a caller that has gone
			body = wire.Zipped(h, body)
			return nil
		})
	}
	isHead := c.R.Method == http.MethodHead
	if (len(body) > fromHere || isHead || len(body) == 0) && status != http.StatusNotModified && status != http.StatusNoContent {
		h["Content-Length"] = []string{strconv.Itoa(len(body))}
	}
	c.W.WriteHeader(status)
	if !isHead && len(body) > 0 {
		c.Sent, _ = c.W.Write(body)
	}
	return nil
}
