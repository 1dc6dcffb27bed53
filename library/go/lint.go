package resb

/*
#include "resb.h"
*/
import "C"

// A Finding is an error or a warning at its place in a text.
type Finding struct {
	Line    uint64 // from 1
	Column  uint64 // in UTF-16 units, from 1
	IsError bool   // the text doesn't compile
	Rule    string // the code of the error, such as "BadInt", or the name of the warning (docs/LINT.md)
	Message string
}

// Lint returns what `resb lint` reports of a text without settings: its error and the first warnings up to a limit, in the order of the text,
// and how many warnings are left out. The name is that of the file, such as "de", or empty.
func Lint(text []byte, name string, limit int) (found []Finding, more uint64, err error) {
	t, tn := bytes(text)
	n, nn := textOf(name)
	all := make([]C.resb_finding, limit+1)
	var count C.size_t
	var left C.uint64_t
	if err := errorOf(C.resb_lint(t, tn, n, nn, &all[0], C.size_t(len(all)), &count, &left)); err != nil {
		return nil, 0, err
	}
	for i := range all[:count] {
		f := &all[i]
		found = append(found, Finding{Line: uint64(f.line), Column: uint64(f.column), IsError: f.error != C.RESB_OK,
			Rule: C.GoString(&f.rule[0]), Message: C.GoString(&f.message[0])})
	}
	return found, uint64(left), nil
}
