// Package harness starts gateways and etcd members as processes, disturbs them, and speaks HTTP with
// them. Everything that it starts ends with the test.
package harness

import (
	"errors"
	"fmt"
	"io"
	"math/rand"
	"net"
	"net/http"
	"os"
	"os/exec"
	"path/filepath"
	"reflect"
	"runtime"
	"sort"
	"strconv"
	"strings"
	"sync"
	"syscall"
	"testing"
	"time"
)

// Generous is how long tests wait for what must happen. It is no limit on anything: on a busy machine
// all may take long.
const Generous = time.Minute

// A Process is a program that can be killed, stopped and started again.
type Process struct {
	T      testing.TB
	Name   string
	Args   []string
	Env    []string
	Health string    // an address that answers 200 once the process is ready
	Output io.Writer // in place of Log
	Log    Record

	mu      sync.Mutex
	command *exec.Cmd
	ended   chan struct{}
}

// Start starts the process, which must not run.
func (p *Process) Start() {
	p.mu.Lock()
	defer p.mu.Unlock()
	c := exec.Command(p.Args[0], p.Args[1:]...)
	c.Env = append(append(os.Environ(), "GOTRACEBACK=all"), p.Env...)
	if c.Stdout, c.Stderr = &p.Log, &p.Log; p.Output != nil {
		c.Stderr = p.Output
	}
	c.SysProcAttr = &syscall.SysProcAttr{Pdeathsig: syscall.SIGKILL}
	started, ended := make(chan error), make(chan struct{})
	go func() {
		runtime.LockOSThread() // the child is killed when this thread ends, and not just the process
		err := c.Start()
		if started <- err; err == nil {
			_ = c.Wait()
			fmt.Fprintf(&p.Log, "ended: %v\n", c.ProcessState)
			close(ended)
		}
	}()
	if err := <-started; err != nil {
		p.T.Errorf("%s: %v", p.Name, err)
		return
	}
	p.command, p.ended = c, ended
}

// PID returns the ID of the process.
func (p *Process) PID() int {
	p.mu.Lock()
	defer p.mu.Unlock()
	return p.command.Process.Pid
}

// Signal sends a signal. It returns from SIGSTOP once all threads stand still: on a busy machine the others
// run until the one that takes the signal has its turn.
func (p *Process) Signal(s syscall.Signal) {
	p.mu.Lock()
	defer p.mu.Unlock()
	if p.command == nil || p.command.Process.Signal(s) != nil || s != syscall.SIGSTOP {
		return
	}
	for end := time.Now().Add(Generous); time.Now().Before(end) && !isStopped(p.command.Process.Pid); {
		time.Sleep(time.Millisecond)
	}
}

// isStopped returns true if no thread of a process runs or waits.
func isStopped(pid int) bool {
	threads, _ := filepath.Glob(fmt.Sprintf("/proc/%d/task/*/stat", pid))
	for _, name := range threads {
		stat, _ := os.ReadFile(name)
		if _, state, _ := strings.Cut(string(stat), ") "); state != "" && !strings.ContainsAny(state[:1], "TtZX") {
			return false
		}
	}
	return true
}

// Kill kills the process, and waits for its end.
func (p *Process) Kill() {
	p.Signal(syscall.SIGKILL)
	p.Wait()
}

// Wait waits for the end, and returns the exit status, or -1 after a signal.
func (p *Process) Wait() int {
	p.mu.Lock()
	c, ended := p.command, p.ended
	p.mu.Unlock()
	if c == nil {
		return 0
	}
	select {
	case <-ended:
		return c.ProcessState.ExitCode()
	case <-time.After(Generous):
		p.T.Errorf("%s doesn't end", p.Name)
		return -2
	}
}

// Runs returns true until the process has ended.
func (p *Process) Runs() bool {
	p.mu.Lock()
	defer p.mu.Unlock()
	select {
	case <-p.ended:
		return false
	default:
		return p.command != nil
	}
}

// Restart kills the process, starts it, and waits until it is ready.
func (p *Process) Restart() {
	p.T.Helper()
	p.Kill()
	p.Start()
	for i := 0; i < 100 && !p.Healthy(); i++ { // a child that it forked may have its address for a moment
		if !p.Runs() && strings.Contains(p.Log.Tail(500), "address already in use") {
			p.Start()
		}
		time.Sleep(10 * time.Millisecond)
	}
	p.Await(Generous)
	Client.CloseIdleConnections()
}

var healthClient = &http.Client{Timeout: 3 * time.Second, Transport: &http.Transport{DisableKeepAlives: true}}

// Healthy returns true if the process says that it is ready, or accepts connections if it speaks TLS.
func (p *Process) Healthy() bool {
	if address, secure := Cut(p.Health, "https://"); secure {
		c, err := net.Dial("tcp", strings.TrimSuffix(address, "/health"))
		return err == nil && c.Close() == nil
	}
	got, err := healthClient.Get(p.Health)
	if err != nil {
		return false
	}
	_ = got.Body.Close()
	return got.StatusCode == http.StatusOK
}

// Await waits until the process is ready.
func (p *Process) Await(most time.Duration) {
	p.T.Helper()
	for end := time.Now().Add(most); !p.Healthy(); time.Sleep(10 * time.Millisecond) {
		if !p.Runs() || time.Now().After(end) {
			p.T.Fatalf("%s has ended or isn't ready after %v: %s", p.Name, most, p.Log.Tail(2000))
		}
	}
}

// A Record stores the last megabyte that a process printed.
type Record struct {
	mu   sync.Mutex
	text []byte
}

// Write stores more.
func (r *Record) Write(b []byte) (int, error) {
	r.mu.Lock()
	defer r.mu.Unlock()
	r.text = append(r.text, b...)
	if len(r.text) > 2<<20 {
		r.text = append([]byte{}, r.text[len(r.text)-1<<20:]...)
	}
	return len(b), nil
}

// Tail returns the end of what was stored.
func (r *Record) Tail(most int) string {
	r.mu.Lock()
	defer r.mu.Unlock()
	if len(r.text) > most {
		return string(r.text[len(r.text)-most:])
	}
	return string(r.text)
}

// Ports returns ports of loopback for the processes of a test. They are below those that the system gives to callers, and no other test gets
// them until this one ends, also while their processes are down.
func Ports(t testing.TB, n int) (all []int) {
	t.Helper()
	for random := rand.New(rand.NewSource(time.Now().UnixNano() + int64(os.Getpid()))); len(all) < n; {
		port := 11000 + random.Intn(20000)
		socket, err := reserve(port)
		if err == nil {
			t.Cleanup(func() { _ = syscall.Close(socket) })
			all = append(all, port)
		} else if !errors.Is(err, syscall.EADDRINUSE) {
			t.Fatal(err)
		}
	}
	return all
}

// reserve binds a socket to a port that no other socket has. It doesn't listen, so a process that reuses addresses, as Go does, may.
func reserve(port int) (socket int, err error) {
	socket, err = syscall.Socket(syscall.AF_INET, syscall.SOCK_STREAM|syscall.SOCK_CLOEXEC, 0)
	if err != nil {
		return -1, err
	}
	err = syscall.Bind(socket, &syscall.SockaddrInet4{Port: port, Addr: [4]byte{127, 0, 0, 1}})
	if err == nil {
		err = syscall.SetsockoptInt(socket, syscall.SOL_SOCKET, syscall.SO_REUSEADDR, 1) // not before, or two could bind
	}
	if err != nil {
		_ = syscall.Close(socket)
	}
	return socket, err
}

// A Use is what a process uses: bytes of memory, threads, open files, time of the processor, and bytes
// that it wrote to files and connections.
type Use struct {
	Memory, Written int64
	Threads, Files  int
	Processor       time.Duration
}

// Usage returns what the process uses.
func (p *Process) Usage() (u Use) {
	at := fmt.Sprintf("/proc/%d/", p.PID())
	number := func(file, name string) (n int64) {
		text, _ := os.ReadFile(at + file)
		_, value, _ := strings.Cut("\n"+string(text), "\n"+name+":")
		_, _ = fmt.Sscan(value, &n)
		return n
	}
	u.Memory, u.Threads, u.Written = number("status", "VmRSS")<<10, int(number("status", "Threads")), number("io", "wchar")
	files, _ := os.ReadDir(at + "fd")
	u.Files = len(files)
	stat, _ := os.ReadFile(at + "stat")
	if fields := strings.Fields(string(stat[strings.LastIndexByte(string(stat), ')')+1:])); len(fields) > 12 {
		user, _ := strconv.Atoi(fields[11])
		system, _ := strconv.Atoi(fields[12])
		u.Processor = time.Duration(user+system) * 10 * time.Millisecond
	}
	return u
}

// Load returns the machine's load of the last minute, for reports of times.
func Load() string {
	text, _ := os.ReadFile("/proc/loadavg")
	load, _, _ := strings.Cut(string(text), " ")
	return load
}

// Cut returns a text without its beginning, if it has that.
func Cut(text, begin string) (rest string, has bool) {
	return strings.TrimPrefix(text, begin), strings.HasPrefix(text, begin)
}

// Together calls a function n times at once, and waits for all calls.
func Together(n int, do func(i int)) {
	var all sync.WaitGroup
	for i := 0; i < n; i++ {
		i := i
		all.Add(1)
		go func() {
			defer all.Done()
			do(i)
		}()
	}
	all.Wait()
}

// Eventually waits until a condition is true, and fails if it doesn't become so.
func Eventually(t testing.TB, what string, is func() bool) {
	t.Helper()
	for end := time.Now().Add(Generous); !is(); time.Sleep(2 * time.Millisecond) {
		if time.Now().After(end) {
			t.Fatalf("after %v this isn't so: %s", Generous, what)
		}
	}
}

// Must ends the test if there is an error.
func Must(t testing.TB, err error) {
	t.Helper()
	if err != nil {
		t.Fatal(err)
	}
}

// ErrorIf fails the test with a message if something is so.
func ErrorIf(t testing.TB, is bool, format string, about ...any) {
	t.Helper()
	if is {
		t.Errorf(format, about...)
	}
}

// Equal fails the test if a value isn't as it should be.
func Equal(t testing.TB, got, want any, about ...any) {
	t.Helper()
	ErrorIf(t, !reflect.DeepEqual(got, want), "%.300v, and not %.300v %.300v", got, want, about)
}

// Times are how long things took.
type Times []time.Duration

// At returns the time under which a share of them, in hundredths, is.
func (t Times) At(share int) time.Duration {
	if len(t) == 0 {
		return 0
	}
	sort.Slice(t, func(i, j int) bool { return t[i] < t[j] })
	return t[(len(t)-1)*share/100].Round(10 * time.Microsecond)
}

// Noise returns digits that compress badly.
func Noise(length int) string {
	text := make([]byte, length)
	for i := range text {
		text[i] = byte('0' + rand.Intn(10))
	}
	return string(text)
}
