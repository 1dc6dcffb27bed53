package wire

import (
	"errors"
	"net/http"

	"luvdregan.example/resb/deploy/internal/convert"
	"luvdregan.example/resb/deploy/internal/engine"
	"luvdregan.example/resb/deploy/internal/limits"
	"luvdregan.example/resb/deploy/internal/manifest"
	"luvdregan.example/resb/deploy/internal/replica"
	"luvdregan.example/resb/deploy/internal/store"
)

// A Problem is a refusal: a status, and a reply {"error":"CODE"} with what else is known: the code and the place of the fault of a bundle, a message,
// the name of an entry of a release, the path of an item.
type Problem struct {
	Status  int     `json:"-"`
	Fault   string  `json:"code,omitempty"`
	Column  int     `json:"column,omitempty"`
	Code    string  `json:"error"`
	Line    int     `json:"line,omitempty"`
	Message string  `json:"message,omitempty"`
	Name    string  `json:"name,omitempty"`
	Path    *string `json:"path,omitempty"`
}

func (p Problem) Error() string { return p.Code }

// With returns the problem with a message.
func (p Problem) With(message string) Problem {
	p.Message = message
	return p
}

// Codes are those of each status. Lookups and changes have others too, which are 400.
var Codes = map[int][]string{
	http.StatusBadRequest: {"AliasPackage", "AliasText", "BadFile", "BadLength", "BadLocale", "BadParent", "BadPatch", "BadPath", "BadQuery", "BadRelease",
		"BadRevision", "BadText", "Chain", "CutOff", "NeedsTLS", "PathTooLong", "TooManyAliases", "TooManySteps"},
	http.StatusUnauthorized:          {"Unauthorized"},
	http.StatusForbidden:             {"Forbidden"},
	http.StatusNotFound:              {manifest.Absent, "Missing", "NoBundle", "NoVersion", "NotFound"},
	http.StatusMethodNotAllowed:      {"NotAllowed"},
	http.StatusRequestTimeout:        {"Slow"},
	http.StatusConflict:              {manifest.Exists, manifest.Full, "OtherName"},
	http.StatusPreconditionFailed:    {manifest.Unmet},
	http.StatusRequestEntityTooLarge: {"ReplyTooLong", "TooLarge", "TreeTooLarge"},
	http.StatusUnsupportedMediaType:  {"BadType"},
	http.StatusTooManyRequests:       {"OverRate", "TooMany"},
	http.StatusInternalServerError:   {"Failed"},
	http.StatusServiceUnavailable:    {"Behind", "Busy", "Memory", "NotKept", "Replaying", "Unreached"},
	http.StatusGatewayTimeout:        {"Timeout"},
	http.StatusInsufficientStorage:   {"NoRoom", manifest.OverQuota, "TooManyApps"},
}

var statuses = func() map[string]int {
	all := map[string]int{}
	for status, codes := range Codes {
		for _, code := range codes {
			all[code] = status
		}
	}
	return all
}()

// ProblemWith returns the problem of a code.
func ProblemWith(code string) Problem {
	status := statuses[code]
	if status == 0 {
		status = http.StatusBadRequest
	}
	return Problem{Status: status, Code: code}
}

// The problems of requests.
var (
	BadLength    = ProblemWith("BadLength")
	BadPath      = ProblemWith("BadPath")
	BadQuery     = ProblemWith("BadQuery")
	BadRevision  = ProblemWith("BadRevision")
	BadLocale    = ProblemWith("BadLocale")
	CutOff       = ProblemWith("CutOff")
	Unauthorized = ProblemWith("Unauthorized")
	Forbidden    = ProblemWith("Forbidden")
	NoPage       = ProblemWith("NotFound")
	Absent       = ProblemWith(manifest.Absent)
	NotAllowed   = ProblemWith("NotAllowed")
	Slow         = ProblemWith("Slow")
	OtherName    = ProblemWith("OtherName")
	Unmet        = ProblemWith(manifest.Unmet)
	TooLarge     = ProblemWith("TooLarge")
	BadType      = ProblemWith("BadType")
	Failed       = ProblemWith("Failed")
)

// problems maps each error to the code that a caller gets.
var problems = []struct {
	err  error
	code string
}{
	{limits.ErrTooMany, "TooMany"}, {limits.ErrFull, "Busy"}, {limits.ErrGone, "Timeout"},
	{replica.ErrGone, "Timeout"}, {replica.ErrReplaying, "Replaying"}, {replica.ErrBehind, "Behind"}, {replica.ErrTooManyApps, "TooManyApps"},
	{store.ErrNoVersion, "NoVersion"}, {store.ErrNoBody, "NoVersion"}, {store.ErrTooLong, "TooLarge"}, {store.ErrUnreached, "Unreached"},
	{store.ErrUnsettled, "Timeout"}, {store.ErrBroken, "NotKept"}, {store.ErrConflict, "Busy"}, {store.ErrNoRoom, "NoRoom"},
	{convert.ErrTime, "Timeout"}, {convert.ErrOutput, "ReplyTooLong"},
}

// ProblemOf returns the problem of an error.
func ProblemOf(err error) Problem {
	var p Problem
	var refusal *manifest.Refusal
	var rate *limits.OverRate
	var fault *engine.Fault
	switch {
	case errors.As(err, &p):
		return p
	case errors.As(err, &refusal):
		return ProblemWith(refusal.Code)
	case errors.As(err, &rate):
		return ProblemWith("OverRate")
	case errors.As(err, &fault) && statuses[fault.Code] == TooLarge.Status: // a bundle that is too long in another form
		return ProblemWith(fault.Code)
	}
	for _, one := range problems {
		if errors.Is(err, one.err) {
			return ProblemWith(one.code)
		}
	}
	return Failed
}
