package serve

import (
	"bytes"
	"encoding/json"
	"errors"
	"fmt"
	"io"
	"io/fs"
	"log"
	"os"
	"path/filepath"
	"strings"
	"sync"
	"sync/atomic"
	"syscall"
	"time"

	"luvdregan.example/resb/deploy/internal/front"
)

// mostQueued is how many lines wait for a file that takes none.
const mostQueued = 8192

// dropped counts the lines that were left out.
var dropped atomic.Uint64

// Dropped returns how many lines were left out.
func Dropped() float64 { return float64(dropped.Load()) }

// queued counts the lines that wait.
var queued atomic.Int64

// Queued returns how many lines wait to be written.
func Queued() float64 { return float64(queued.Load()) }

// A Journal is a file of lines of JSON. It writes them in its own time, and drops lines rather than let a file that takes none, such as a
// pipe that nobody reads, stop the gateway. The file is opened again at SIGHUP, after which logrotate(8) may have renamed it.
type Journal struct {
	path    string
	lines   chan []byte
	written chan struct{} // closed when all is written
	mu      sync.Mutex
	to      io.Writer
}

// OpenJournal opens a file to append to, or `-` for standard error; without a name there is no journal.
func OpenJournal(path string) (*Journal, error) {
	j := &Journal{path: path, to: os.Stderr, lines: make(chan []byte, mostQueued), written: make(chan struct{})}
	if path == "" {
		return nil, nil
	}
	if err := j.Again(); err != nil {
		return nil, err
	}
	go j.write()
	return j, nil
}

// write writes the lines as they come. After a part of one, which a full disk leaves, the next one begins a line.
func (j *Journal) write() {
	defer close(j.written)
	isTorn := false
	for line := <-j.lines; line != nil; line = <-j.lines {
		j.mu.Lock()
		to := j.to
		j.mu.Unlock()
		if isTorn {
			line = append([]byte{'\n'}, line...)
		}
		n, err := to.Write(line)
		if err != nil {
			dropped.Add(1)
		}
		isTorn = err != nil && (isTorn || n > 0)
		queued.Add(-1)
	}
}

// CanAppend returns an error if OpenJournal couldn't open a file. It makes none.
func CanAppend(path string) error {
	info, err := os.Stat(path)
	switch {
	case errors.Is(err, fs.ErrNotExist):
		return CanMake(path)
	case err == nil && !info.Mode().IsRegular():
		return fmt.Errorf("%s: not a regular file", path)
	}
	return access(path, mayWrite)
}

// CanMake returns an error if no file can be made or removed in the folder of a path.
func CanMake(path string) error { return access(filepath.Dir(path), mayWrite|mayEnter) }

// The rights that access(2) knows.
const (
	mayEnter = 1
	mayWrite = 2
)

func access(path string, how uint32) error {
	if err := syscall.Access(path, how); err != nil {
		return &fs.PathError{Op: "write to", Path: path, Err: err}
	}
	return nil
}

// Again opens the file again, which must be a regular one: a FIFO would need a reader. The earlier one is closed by the collector, once no
// line is written to it.
func (j *Journal) Again() error {
	if j == nil || j.path == "-" {
		return nil
	}
	j.mu.Lock()
	defer j.mu.Unlock()
	f, err := os.OpenFile(j.path, os.O_WRONLY|os.O_APPEND|os.O_CREATE|syscall.O_NONBLOCK, 0o640)
	if err != nil {
		return fmt.Errorf("%w; an earlier file is written to", err)
	}
	if info, err := f.Stat(); err != nil || !info.Mode().IsRegular() {
		_ = f.Close()
		return fmt.Errorf("%s: not a regular file", j.path)
	}
	j.to = f
	return nil
}

// queue takes one line.
func (j *Journal) queue(line []byte) {
	select {
	case j.lines <- line:
		queued.Add(1)
	default:
		dropped.Add(1)
	}
}

// Flush waits for what is still to be written, but not for ever. Later lines are lost.
func (j *Journal) Flush() {
	if j == nil {
		return
	}
	late := time.After(time.Second)
	select {
	case j.lines <- nil:
	case <-late:
		return
	}
	select {
	case <-j.written:
	case <-late:
	}
}

// Write writes a value as one line.
func (j *Journal) Write(value any) {
	var line bytes.Buffer
	encoder := json.NewEncoder(&line)
	encoder.SetEscapeHTML(false)
	if encoder.Encode(value) == nil {
		j.queue(line.Bytes())
	}
}

// JournalOf returns a journal as the handler takes it, where none is nil.
func JournalOf(j *Journal) front.Journal {
	if j == nil {
		return nil
	}
	return j
}

// errorLog is where the log is written.
var errorLog *Journal

// StartLog has the log written without waiting, as text or as lines of JSON.
func StartLog(form string) {
	errorLog, _ = OpenJournal("-") // it opens no file
	log.SetFlags(log.LstdFlags | log.Lmicroseconds)
	if form == "json" {
		log.SetFlags(0)
	}
	log.SetOutput(logWriter{errorLog, form == "json"})
}

// Print writes a line to the log's place as it is.
func Print(line string) { errorLog.queue([]byte(line + "\n")) }

// FlushLog waits for what is still to be written.
func FlushLog() { errorLog.Flush() }

// A logWriter writes messages of the log as they are, or each as an object. Those of the gateway begin
// with the part that they are about and a colon.
type logWriter struct {
	to     *Journal
	asJSON bool
}

func (l logWriter) Write(message []byte) (int, error) {
	if !l.asJSON {
		l.to.queue(append([]byte{}, message...))
		return len(message), nil
	}
	text := strings.ToValidUTF8(string(bytes.TrimRight(message, "\n")), "\uFFFD")
	part, rest, found := strings.Cut(text, ": ")
	if !found || strings.ContainsAny(part, " /\"") {
		part, rest = "gateway", text
	}
	l.to.Write(struct {
		Time    string `json:"time"`
		Part    string `json:"part"`
		Message string `json:"message"`
	}{time.Now().UTC().Format("2006-01-02T15:04:05.000000Z07:00"), part, rest})
	return len(message), nil
}
