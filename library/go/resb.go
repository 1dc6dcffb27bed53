// Package resb checks, compiles and looks up ICU resource bundles in process, over the C library libresb.
//
// pkg-config finds the library. If PKG_CONFIG_PATH names the folder that tools/library wrote, it is linked statically; the
// package libresb-dev gives the shared one, which the loader finds by itself.
package resb

/*
#cgo pkg-config: resb
#include <stdlib.h>
#include "resb.h"

static resb *new_handle(void) { return calloc(1, sizeof(resb)); }

static resb_child *new_children(size_t count) { return calloc(count, sizeof(resb_child)); }

// Ends the process without memory, as C.CBytes does.
static resb_entry *new_entries(size_t count) {
	resb_entry *entries = calloc(count + 1, sizeof(resb_entry));
	if (!entries)
		abort();
	return entries;
}
*/
import "C"

import (
	"crypto/rand"
	"errors"
	"fmt"
	"runtime"
	"strings"
	"sync"
	"unicode/utf16"
	"unsafe"
)

// A Code is the number of an error in resb.h. It is an error, for errors.Is(err, resb.ErrMissing).
type Code uint32

// The errors of handles, changes and lookups. Those of texts, files and explicit parents have other numbers.
const (
	ErrMemory         Code = C.RESB_MEMORY
	ErrNotOpen        Code = C.RESB_NOT_OPEN
	ErrShared         Code = C.RESB_SHARED
	ErrOtherKind      Code = C.RESB_OTHER_KIND
	ErrNoEntry        Code = C.RESB_NO_ENTRY
	ErrBadApp         Code = C.RESB_BAD_APP
	ErrReserved       Code = C.RESB_RESERVED
	ErrBadLocale      Code = C.RESB_BAD_LOCALE
	ErrBadText        Code = C.RESB_BAD_TEXT
	ErrBadFile        Code = C.RESB_BAD_FILE
	ErrExists         Code = C.RESB_EXISTS
	ErrAbsent         Code = C.RESB_ABSENT
	ErrFull           Code = C.RESB_FULL
	ErrTwice          Code = C.RESB_TWICE
	ErrBadPath        Code = C.RESB_BAD_PATH
	ErrPathTooLong    Code = C.RESB_PATH_TOO_LONG
	ErrChain          Code = C.RESB_CHAIN
	ErrBadParent      Code = C.RESB_BAD_PARENT
	ErrNoBundle       Code = C.RESB_NO_BUNDLE
	ErrMissing        Code = C.RESB_MISSING
	ErrAliasText      Code = C.RESB_ALIAS_TEXT
	ErrAliasPackage   Code = C.RESB_ALIAS_PACKAGE
	ErrTooManyAliases Code = C.RESB_TOO_MANY_ALIASES
	ErrTooManySteps   Code = C.RESB_TOO_MANY_STEPS
	ErrReplyTooLong   Code = C.RESB_REPLY_TOO_LONG
)

// Error returns the name of the error, such as "BadPath".
func (c Code) Error() string {
	return C.GoString(C.resb_error_name(C.uint32_t(c)))
}

// Short returns the name without the kind of the form in front, such as "BadInt" for "TextBadInt": `resb explain` explains it.
func (c Code) Short() string {
	name := c.Error()
	for _, form := range []string{"Text", "File", "Parents", "Json"} {
		if short := strings.TrimPrefix(name, form); short != name {
			return short
		}
	}
	return name
}

// An Error is what each function returns: a Code, and the line of an error in a text, or the locale of a bundle of ICUDATA.
type Error struct {
	Code   Code
	Line   uint64
	Locale string
}

func (e *Error) Error() string {
	switch {
	case e.Line > 0:
		return fmt.Sprintf("%s, line %d", e.Code.Error(), e.Line)
	case e.Locale != "":
		return fmt.Sprintf("%s, bundle %s of ICUDATA", e.Code.Error(), e.Locale)
	default:
		return e.Code.Error()
	}
}

// Unwrap returns the Code.
func (e *Error) Unwrap() error { return e.Code }

func errorOf(number C.uint32_t) error {
	if number == C.RESB_OK {
		return nil
	}
	return &Error{Code: Code(number)}
}

var nothing [1]byte

// bytes returns where bytes begin, which is never nil, and how many there are.
func bytes(b []byte) (*C.char, C.size_t) {
	if len(b) == 0 {
		return (*C.char)(unsafe.Pointer(&nothing[0])), 0
	}
	return (*C.char)(unsafe.Pointer(&b[0])), C.size_t(len(b))
}

// textOf returns where a text begins, which is never nil, and how many bytes it has.
func textOf(s string) (*C.char, C.size_t) {
	if s == "" {
		return bytes(nil)
	}
	return *(**C.char)(unsafe.Pointer(&s)), C.size_t(len(s)) // the first word of a string
}

// Version returns the version of the library.
func Version() string { return C.GoString(C.resb_version()) }

// Check returns nil for a valid .res file, and else its first error.
func Check(file []byte) error {
	p, n := bytes(file)
	return errorOf(C.resb_check(unsafe.Pointer(p), n))
}

// Compile compiles a bundle text to a .res file. An error of the text has its line.
func Compile(text []byte) ([]byte, error) {
	p, n := bytes(text)
	out := make([]byte, 4*len(text)+256)
	for {
		var written C.size_t
		var line C.uint64_t
		switch number := C.resb_compile(p, n, unsafe.Pointer(&out[0]), C.size_t(len(out)), &written, &line); number {
		case C.RESB_OK:
			return out[:written], nil
		case C.RESB_NO_ROOM:
			out = make([]byte, written)
		default:
			return nil, &Error{Code: Code(number), Line: uint64(line)}
		}
	}
}

// Bundles has the bundles of many applications. Goroutines may share it. The collector closes one that was forgotten.
type Bundles struct {
	lock   sync.Mutex
	handle *C.resb
}

// bundlesOf returns Bundles for an open handle.
func bundlesOf(handle *C.resb) *Bundles {
	b := &Bundles{handle: handle}
	runtime.SetFinalizer(b, (*Bundles).Close)
	return b
}

// An Entry is a bundle of ICUDATA: its locale, and a text or else a .res file.
type Entry struct {
	Locale string
	Bundle []byte
	IsText bool
}

// Options are what Bundles start with: bundles of ICUDATA, which all applications see, and a bundle text with explicit parents.
type Options struct {
	ICUData []Entry
	Parents []byte
}

// Open returns Bundles without bundles. Close frees it.
func Open() (*Bundles, error) {
	return OpenWith(Options{})
}

// OpenWith returns Bundles with the bundles of ICUDATA and the explicit parents. Close frees it.
func OpenWith(options Options) (*Bundles, error) {
	var seed [16]byte
	if _, err := rand.Read(seed[:]); err != nil {
		return nil, err
	}
	handle := C.new_handle()
	if handle == nil {
		return nil, errorOf(C.RESB_MEMORY)
	}
	entries, free := entriesOf(options.ICUData)
	defer free()
	s, sn := bytes(seed[:])
	p, pn := bytes(options.Parents)
	var place C.uint64_t
	number := C.resb_open_with(handle, unsafe.Pointer(s), sn, entries, C.size_t(len(options.ICUData)), p, pn, &place)
	if number == C.RESB_OK {
		return bundlesOf(handle), nil
	}
	C.free(unsafe.Pointer(handle))
	switch number {
	case C.RESB_BAD_LOCALE, C.RESB_BAD_TEXT, C.RESB_BAD_FILE, C.RESB_TWICE:
		if len(options.ICUData) > 0 {
			return nil, &Error{Code: Code(number), Locale: options.ICUData[place].Locale}
		}
		return nil, errorOf(number)
	default:
		return nil, &Error{Code: Code(number), Line: uint64(place)}
	}
}

// entriesOf copies entries to C's memory, which free frees.
func entriesOf(entries []Entry) (first *C.resb_entry, free func()) {
	first = C.new_entries(C.size_t(len(entries)))
	copies := unsafe.Slice(first, len(entries))
	for i, entry := range entries {
		copies[i] = C.resb_entry{
			locale:     (*C.char)(C.CBytes([]byte(entry.Locale))),
			locale_len: C.size_t(len(entry.Locale)),
			bytes:      C.CBytes(entry.Bundle),
			len:        C.size_t(len(entry.Bundle)),
			is_text:    C.bool(entry.IsText),
		}
	}
	return first, func() {
		for _, entry := range copies {
			C.free(unsafe.Pointer(entry.locale))
			C.free(entry.bytes)
		}
		C.free(unsafe.Pointer(first))
	}
}

// Share returns Bundles of the same engine, for lookups beside this one. While both are open neither can change.
func (b *Bundles) Share() (*Bundles, error) {
	return b.other(func(other *C.resb) C.uint32_t { return C.resb_share(b.handle, other) })
}

// Snapshot returns Bundles of a new engine with the same bundles, which it shares: either changes alone, also while others of b's engine are
// open. It takes time for each bundle, whatever its length.
func (b *Bundles) Snapshot() (*Bundles, error) {
	var seed [16]byte
	if _, err := rand.Read(seed[:]); err != nil {
		return nil, err
	}
	s, n := bytes(seed[:])
	return b.other(func(other *C.resb) C.uint32_t { return C.resb_snapshot(b.handle, unsafe.Pointer(s), n, other) })
}

// other returns Bundles of the handle that a call makes.
func (b *Bundles) other(call func(other *C.resb) C.uint32_t) (*Bundles, error) {
	b.lock.Lock()
	defer b.lock.Unlock()
	if b.handle == nil {
		return nil, errorOf(C.RESB_NOT_OPEN)
	}
	other := C.new_handle()
	if other == nil {
		return nil, errorOf(C.RESB_MEMORY)
	}
	if err := errorOf(call(other)); err != nil {
		C.free(unsafe.Pointer(other))
		return nil, err
	}
	return bundlesOf(other), nil
}

// Close frees the bundles. Later calls return errorOf(C.RESB_NOT_OPEN).
func (b *Bundles) Close() {
	b.lock.Lock()
	defer b.lock.Unlock()
	if b.handle != nil {
		runtime.SetFinalizer(b, nil)
		C.resb_close(b.handle)
		C.free(unsafe.Pointer(b.handle))
		b.handle = nil
	}
}

// with runs a call on the handle.
func (b *Bundles) with(call func(handle *C.resb) C.uint32_t) error {
	b.lock.Lock()
	defer b.lock.Unlock()
	if b.handle == nil {
		return errorOf(C.RESB_NOT_OPEN)
	}
	return errorOf(call(b.handle))
}

// writing returns what a call on the handle writes, at first to a buffer of some capacity.
func (b *Bundles) writing(capacity int, call func(handle *C.resb, out *C.char, room C.size_t, length *C.size_t) C.uint32_t) ([]byte, error) {
	return written(capacity, func(out *C.char, room C.size_t, length *C.size_t) error {
		return b.with(func(h *C.resb) C.uint32_t { return call(h, out, room, length) })
	})
}

// Install installs a bundle of an application: a text, or else a .res file.
func (b *Bundles) Install(app, locale string, bundle []byte, isText bool) error {
	a, an := textOf(app)
	l, ln := textOf(locale)
	p, n := bytes(bundle)
	return b.with(func(h *C.resb) C.uint32_t {
		return C.resb_install(h, a, an, l, ln, unsafe.Pointer(p), n, C.bool(isText))
	})
}

// Replace replaces a bundle of an application.
func (b *Bundles) Replace(app, locale string, bundle []byte, isText bool) error {
	a, an := textOf(app)
	l, ln := textOf(locale)
	p, n := bytes(bundle)
	return b.with(func(h *C.resb) C.uint32_t {
		return C.resb_replace(h, a, an, l, ln, unsafe.Pointer(p), n, C.bool(isText))
	})
}

// Remove removes a bundle of an application.
func (b *Bundles) Remove(app, locale string) error {
	a, an := textOf(app)
	l, ln := textOf(locale)
	return b.with(func(h *C.resb) C.uint32_t { return C.resb_remove(h, a, an, l, ln) })
}

// List returns the locales of an application's bundles in the order of their installation.
func (b *Bundles) List(app string) ([]string, error) {
	a, an := textOf(app)
	names, err := b.writing(256, func(h *C.resb, out *C.char, room C.size_t, length *C.size_t) C.uint32_t {
		return C.resb_list(h, a, an, out, room, length)
	})
	if len(names) == 0 {
		return nil, err
	}
	return strings.Split(string(names[:len(names)-1]), "\x00"), nil
}

// Usage returns the total length of the files that an application stores, and the number of its bundles.
func (b *Bundles) Usage(app string) (length, bundles uint64, err error) {
	a, an := textOf(app)
	err = b.with(func(h *C.resb) C.uint32_t {
		return C.resb_usage(h, a, an, (*C.uint64_t)(&length), (*C.uint64_t)(&bundles))
	})
	return length, bundles, err
}

// Apps returns the number of applications that have bundles.
func (b *Bundles) Apps() (count uint64, err error) {
	err = b.with(func(h *C.resb) C.uint32_t { return C.resb_apps(h, (*C.uint64_t)(&count)) })
	return count, err
}

// Text looks up a string.
func (b *Bundles) Text(app, locale, path string) (string, error) {
	a, an := textOf(app)
	l, ln := textOf(locale)
	p, pn := textOf(path)
	units := make([]uint16, 128)
	for {
		var length C.size_t
		err := b.with(func(h *C.resb) C.uint32_t {
			return C.resb_text(h, a, an, l, ln, p, pn, (*C.uint16_t)(&units[0]), C.size_t(len(units)), &length)
		})
		if errors.Is(err, Code(C.RESB_NO_ROOM)) {
			units = make([]uint16, length)
			continue
		}
		if err != nil {
			return "", err
		}
		return string(utf16.Decode(units[:length])), nil
	}
}

// Look looks up an item: a string, []byte, int32, []int32, Table or Array.
func (b *Bundles) Look(app, locale, path string) (any, error) {
	a, an := textOf(app)
	l, ln := textOf(locale)
	p, pn := textOf(path)
	return b.value(func(h *C.resb, found *C.resb_found) C.uint32_t {
		return C.resb_look(h, a, an, l, ln, p, pn, found)
	})
}

// LookWithin looks up like Look, or returns the error TooManySteps if the lookup takes more than this many steps.
func (b *Bundles) LookWithin(app, locale, path string, steps uint64) (any, error) {
	a, an := textOf(app)
	l, ln := textOf(locale)
	p, pn := textOf(path)
	return b.value(func(h *C.resb, found *C.resb_found) C.uint32_t {
		return C.resb_look_within(h, a, an, l, ln, p, pn, C.uint64_t(steps), found)
	})
}

// Valid returns the first bundle on the trail of a locale, which is ICU's valid locale of all that is found there.
func (b *Bundles) Valid(app, locale string) (string, error) {
	a, an := textOf(app)
	l, ln := textOf(locale)
	p, pn := textOf("")
	var origin C.resb_origin
	_, err := b.value(func(h *C.resb, found *C.resb_found) C.uint32_t {
		return C.resb_look_origin(h, a, an, l, ln, p, pn, found, &origin)
	})
	if err != nil {
		return "", err
	}
	return C.GoString(&origin.valid[0]), nil
}

// value returns what a lookup finds.
func (b *Bundles) value(look func(handle *C.resb, found *C.resb_found) C.uint32_t) (value any, err error) {
	err = b.with(func(h *C.resb) C.uint32_t {
		var found C.resb_found
		number := look(h, &found)
		if number == C.RESB_OK {
			value = valueOf(&found)
		}
		return number
	})
	return value, err
}

// A Table is a table of Count entries. Key names them, and Look finds them by a longer path.
type Table struct{ Count int }

// An Array is an array of Count items, whose paths end with 0, 1 and so on.
type Array struct{ Count int }

// An Alias is the text of an alias. A lookup of its path follows it.
type Alias string

// A Child is an item of a table, with its key, or of an array: what Look returns, or an Alias.
type Child struct {
	Key   string
	Value any
}

// Children looks up a table or an array, and returns its items in their order, without what it inherits.
func (b *Bundles) Children(app, locale, path string) (children []Child, err error) {
	a, an := textOf(app)
	l, ln := textOf(locale)
	p, pn := textOf(path)
	err = b.with(func(h *C.resb) C.uint32_t {
		var none C.resb_child
		var count C.size_t
		number := C.resb_children(h, a, an, l, ln, p, pn, &none, 0, &count)
		if number != C.RESB_NO_ROOM {
			return number
		}
		found := C.new_children(count)
		if found == nil {
			return C.RESB_MEMORY
		}
		defer C.free(unsafe.Pointer(found))
		number = C.resb_children(h, a, an, l, ln, p, pn, found, count, &count)
		for _, child := range unsafe.Slice(found, count) {
			children = append(children, Child{C.GoStringN(child.key, C.int(child.key_len)), valueOf(&child.item)})
		}
		return number
	})
	return children, err
}

// valueOf copies what was found, since it is good only until the next change.
func valueOf(found *C.resb_found) any {
	count := int(found.count)
	switch found.kind {
	case C.RESB_STRING:
		if count == 0 {
			return ""
		}
		return string(utf16.Decode(unsafe.Slice((*uint16)(found.at), count)))
	case C.RESB_ALIAS:
		return Alias(utf16.Decode(unsafe.Slice((*uint16)(found.at), count)))
	case C.RESB_BINARY:
		return append([]byte{}, unsafe.Slice((*byte)(found.at), count)...)
	case C.RESB_INT:
		return int32(found.number<<4) >> 4
	case C.RESB_INT_VECTOR:
		return append([]int32{}, unsafe.Slice((*int32)(found.at), count)...)
	case C.RESB_TABLE:
		return Table{Count: count}
	default:
		return Array{Count: count}
	}
}

// Key returns the key of an entry of a table, in the order of the keys.
func (b *Bundles) Key(app, locale, path string, index int) (string, error) {
	a, an := textOf(app)
	l, ln := textOf(locale)
	p, pn := textOf(path)
	key, err := b.writing(64, func(h *C.resb, out *C.char, room C.size_t, length *C.size_t) C.uint32_t {
		return C.resb_key(h, a, an, l, ln, p, pn, C.size_t(index), out, room, length)
	})
	return string(key), err
}
