package resb

/*
#include <stdlib.h>
#include "resb.h"

static resb_bundle *new_bundle(void) { return calloc(1, sizeof(resb_bundle)); }

// Ends the process without memory, as C.CBytes does.
static resb_edit *new_edits(size_t count) {
	resb_edit *edits = calloc(count + 1, sizeof(resb_edit));
	if (!edits)
		abort();
	return edits;
}
*/
import "C"

import (
	"errors"
	"fmt"
	"math"
	"runtime"
	"strings"
	"sync"
	"unsafe"
)

// A Bundle was read and checked, and belongs to no application yet. Goroutines may share it. The collector discards one that was
// forgotten.
type Bundle struct {
	lock   sync.Mutex
	handle *C.resb_bundle
}

// Prepare reads and checks a text, or else a .res file. The first error of a text has its line.
func Prepare(bundle []byte, isText bool) (*Bundle, error) {
	p, n := bytes(bundle)
	return prepared(func(b *C.resb_bundle, line *C.uint64_t) C.uint32_t {
		return C.resb_prepare(unsafe.Pointer(p), n, C.bool(isText), b, line)
	})
}

// PrepareJSON reads and checks JSON in the form of docs/JSON.md. The error has its line.
func PrepareJSON(json []byte) (*Bundle, error) {
	p, n := bytes(json)
	return prepared(func(b *C.resb_bundle, line *C.uint64_t) C.uint32_t {
		return C.resb_prepare_json(unsafe.Pointer(p), n, b, line)
	})
}

// Copy returns the bundle once more, as for the release of a second engine. It copies no bytes.
func (b *Bundle) Copy() (*Bundle, error) {
	return prepared(func(copied *C.resb_bundle, _ *C.uint64_t) C.uint32_t {
		b.lock.Lock()
		defer b.lock.Unlock()
		if b.handle == nil {
			return C.RESB_NOT_OPEN
		}
		return C.resb_copy_bundle(b.handle, copied)
	})
}

func prepared(call func(handle *C.resb_bundle, line *C.uint64_t) C.uint32_t) (*Bundle, error) {
	handle := C.new_bundle()
	if handle == nil {
		return nil, errorOf(C.RESB_MEMORY)
	}
	var line C.uint64_t
	if number := call(handle, &line); number != C.RESB_OK {
		C.free(unsafe.Pointer(handle))
		return nil, &Error{Code: Code(number), Line: uint64(line)}
	}
	bundle := &Bundle{handle: handle}
	runtime.SetFinalizer(bundle, (*Bundle).Discard)
	return bundle, nil
}

// Discard frees the bundle. Later calls return the error NotOpen.
func (b *Bundle) Discard() {
	b.lock.Lock()
	defer b.lock.Unlock()
	if b.handle != nil {
		runtime.SetFinalizer(b, nil)
		C.resb_discard(b.handle)
		C.free(unsafe.Pointer(b.handle))
		b.handle = nil
	}
}

// with runs a call on the handle.
func (b *Bundle) with(call func(handle *C.resb_bundle) C.uint32_t) error {
	b.lock.Lock()
	defer b.lock.Unlock()
	if b.handle == nil {
		return errorOf(C.RESB_NOT_OPEN)
	}
	return errorOf(call(b.handle))
}

// writing returns what a call on the handle writes.
func (b *Bundle) writing(call func(handle *C.resb_bundle, out *C.char, room C.size_t, length *C.size_t) C.uint32_t) ([]byte, error) {
	return written(4096, func(out *C.char, room C.size_t, length *C.size_t) error {
		return b.with(func(h *C.resb_bundle) C.uint32_t { return call(h, out, room, length) })
	})
}

// written returns what a call writes to a buffer, which grows as the call asks.
func written(capacity int, call func(out *C.char, room C.size_t, length *C.size_t) error) ([]byte, error) {
	out := make([]byte, capacity)
	for {
		var length C.size_t
		err := call((*C.char)(unsafe.Pointer(&out[0])), C.size_t(len(out)), &length)
		if errors.Is(err, Code(C.RESB_NO_ROOM)) {
			out = make([]byte, length)
			continue
		}
		if err != nil {
			return nil, err
		}
		return out[:length], nil
	}
}

// FileLen returns the length of the .res file of the bundle, without writing it.
func (b *Bundle) FileLen() (int, error) {
	var length C.size_t
	err := b.with(func(h *C.resb_bundle) C.uint32_t {
		return C.resb_bundle_file(h, unsafe.Pointer(&nothing[0]), 0, &length)
	})
	if errors.Is(err, Code(C.RESB_NO_ROOM)) { // no file is empty
		err = nil
	}
	return int(length), err
}

// File returns the .res file of the bundle.
func (b *Bundle) File() ([]byte, error) {
	return b.writing(func(h *C.resb_bundle, out *C.char, room C.size_t, length *C.size_t) C.uint32_t {
		return C.resb_bundle_file(h, unsafe.Pointer(out), room, length)
	})
}

// Text returns the bundle as a text under the name of a locale.
func (b *Bundle) Text(locale string) (string, error) {
	l, ln := textOf(locale)
	text, err := b.writing(func(h *C.resb_bundle, out *C.char, room C.size_t, length *C.size_t) C.uint32_t {
		return C.resb_bundle_text(h, l, ln, out, room, length)
	})
	return string(text), err
}

// JSON returns the bundle as JSON in the form of docs/JSON.md.
func (b *Bundle) JSON() ([]byte, error) {
	return b.writing(func(h *C.resb_bundle, out *C.char, room C.size_t, length *C.size_t) C.uint32_t {
		return C.resb_bundle_json(h, out, room, length)
	})
}

// An Edit is a change of an application: the bundle that is to have a locale; or nil, to remove the one that has it.
type Edit struct {
	Locale string
	Bundle *Bundle
}

// An EditError is the error of one of the edits of a release.
type EditError struct {
	Index int
	Err   error
}

func (e *EditError) Error() string { return fmt.Sprintf("edit %d: %s", e.Index, e.Err) }

// Unwrap returns the error.
func (e *EditError) Unwrap() error { return e.Err }

// Release makes changes of an application in their order: all, or none if it returns an error. It discards the bundles, also then. No
// bundle may be in two edits.
func (b *Bundles) Release(app string, edits []Edit) error {
	a, an := textOf(app)
	copies, free, err := editsOf(edits)
	defer free()
	if err != nil {
		return err
	}
	var place C.size_t
	err = b.with(func(h *C.resb) C.uint32_t { return C.resb_release(h, a, an, copies, C.size_t(len(edits)), &place) })
	switch {
	case errors.Is(err, Code(C.RESB_BAD_LOCALE)), errors.Is(err, ErrFull), errors.Is(err, ErrAbsent):
		return &EditError{Index: int(place), Err: err}
	default:
		return err
	}
}

// editsOf moves edits to C's memory, which free frees.
func editsOf(edits []Edit) (first *C.resb_edit, free func(), err error) {
	first = C.new_edits(C.size_t(len(edits)))
	copies := unsafe.Slice(first, len(edits))
	for i, edit := range edits {
		copies[i].locale = (*C.char)(C.CBytes([]byte(edit.Locale)))
		copies[i].locale_len = C.size_t(len(edit.Locale))
		if edit.Bundle != nil && !edit.Bundle.moveTo(&copies[i].bundle) {
			err = &EditError{Index: i, Err: errorOf(C.RESB_NOT_OPEN)}
		}
	}
	return first, func() {
		for i := range copies {
			C.free(unsafe.Pointer(copies[i].locale))
			C.resb_discard(&copies[i].bundle)
		}
		C.free(unsafe.Pointer(first))
	}, err
}

// moveTo moves the bundle to another handle, if there is one.
func (b *Bundle) moveTo(other *C.resb_bundle) bool {
	b.lock.Lock()
	defer b.lock.Unlock()
	if b.handle == nil {
		return false
	}
	runtime.SetFinalizer(b, nil)
	*other = *b.handle
	C.free(unsafe.Pointer(b.handle))
	b.handle = nil
	return true
}

// ItemJSON looks up an item within a number of steps, and returns it as the reply of `resb serve` (docs/SERVER.md).
func (b *Bundles) ItemJSON(app, locale, path string, steps uint64) ([]byte, error) {
	item, _, err := b.AppendItemJSON(nil, app, locale, path, steps, math.MaxInt)
	return item, err
}

// AppendItemJSON appends to a slice what ItemJSON returns. If that has more than most bytes, it appends nothing, and returns about how many
// there are: a long item isn't written to measure it.
func (b *Bundles) AppendItemJSON(to []byte, app, locale, path string, steps uint64, most int) (reply []byte, needs int, err error) {
	return b.AppendItemWithin(to, app, locale, path, steps, most, math.MaxInt)
}

// AppendItemWithin appends like AppendItemJSON, but counts no more than some bytes to say how many there are: there may be more than it returns
// if that is above the limit.
func (b *Bundles) AppendItemWithin(to []byte, app, locale, path string, steps uint64, most, limit int) (reply []byte, needs int, err error) {
	a, an := textOf(app)
	l, ln := textOf(locale)
	p, pn := textOf(path)
	var length C.size_t
	write := func(h *C.resb, most int, out *C.char, room C.size_t) C.uint32_t {
		return C.resb_item_json_within(h, a, an, l, ln, p, pn, C.uint64_t(steps), C.uint64_t(most), out, room, &length)
	}
	if most > limit {
		most = limit
	}
	for {
		out, room := bytes(to[len(to):cap(to)])
		err = b.with(func(h *C.resb) C.uint32_t {
			number := write(h, most, out, room)
			if number != C.RESB_REPLY_TOO_LONG {
				return number
			}
			if length = C.size_t(limit) + 1; most == limit {
				return C.RESB_NO_ROOM
			}
			var found C.resb_found
			if number = C.resb_look_within(h, a, an, l, ln, p, pn, C.uint64_t(steps), &found); number != C.RESB_OK {
				return number
			}
			if found.count > C.size_t(most) {
				length = found.count
			} else if number = write(h, limit, out, 0); number != C.RESB_REPLY_TOO_LONG {
				return number
			}
			return C.RESB_NO_ROOM
		})
		switch {
		case err == nil:
			return to[:len(to)+int(length)], 0, nil
		case !errors.Is(err, Code(C.RESB_NO_ROOM)):
			return to, 0, err
		case length > C.size_t(most):
			return to, int(length), nil
		}
		to = append(make([]byte, 0, len(to)+int(length)+1), to...) // one more for a line feed
	}
}

// TreeJSON looks up an item, and returns it with everything that it inherits as one JSON value, within a number of steps.
func (b *Bundles) TreeJSON(app, locale, path string, steps uint64) ([]byte, error) {
	a, an := textOf(app)
	l, ln := textOf(locale)
	p, pn := textOf(path)
	return b.writing(16<<10, func(h *C.resb, out *C.char, room C.size_t, length *C.size_t) C.uint32_t {
		return C.resb_tree_json(h, a, an, l, ln, p, pn, C.uint64_t(steps), out, room, length)
	})
}

// CheckForICU checks a file like Check, and for what makes libicu crash on a bundle.
func CheckForICU(file []byte) error {
	p, n := bytes(file)
	return errorOf(C.resb_check_for_icu(unsafe.Pointer(p), n))
}

// AliasTargets checks a file like CheckForICU, and returns the bundles that its aliases name, which libicu opens too: NAME for one beside the
// file, and /PACKAGE/NAME.
func AliasTargets(file []byte) ([]string, error) {
	p, n := bytes(file)
	out := make([]byte, 256)
	for {
		var written C.size_t
		to, room := bytes(out)
		switch number := C.resb_alias_targets(unsafe.Pointer(p), n, to, room, &written); number {
		case C.RESB_OK:
			names := strings.Split(string(out[:written]), "\x00")
			return names[:len(names)-1], nil
		case C.RESB_NO_ROOM:
			out = make([]byte, written)
		default:
			return nil, errorOf(number)
		}
	}
}
