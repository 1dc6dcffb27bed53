package trial

import (
	"flag"
	"fmt"
	"math/rand"
	"os"
	"path/filepath"
	"strings"
	"sync"
	"syscall"
	"testing"
	"time"

	"luvdregan.example/resb/deploy/tests/harness"
)

var (
	mode    = flag.String("mode", "", "kills, cluster, quota, snapshot or backup")
	kills   = flag.Int("kills", 30, "how often a process is killed")
	stops   = flag.Int("stops", 0, "how often a process is stopped (SIGSTOP) and continued")
	cuts    = flag.Int("cuts", 0, "how often a machine is cut off")
	longest = flag.Duration("longest", 6*time.Second, "the longest stop or cut")
	pause   = flag.Duration("pause", 500*time.Millisecond, "about the time between two faults")
	rough   = flag.Bool("rough", false, "faults of several etcd members at once")
	clients = flag.Int("clients", 8, "clients")
	apps    = flag.Int("apps", 2, "applications")
	seed    = flag.Int64("seed", time.Now().UnixNano(), "of the faults")
)

// TestTrial disturbs gateways while clients change and read, and checks that what the clients saw is
// linearizable. The flag -mode says how; without it the test is skipped.
func TestTrial(t *testing.T) {
	do := map[string]func(*testing.T){"kills": killOne, "cluster": disturbCluster, "quota": fillQuota,
		"snapshot": restoreSnapshot, "backup": restoreBackup}[*mode]
	if do == nil {
		t.Skip("skipped: -mode isn't given")
	}
	t.Logf("the seed is %d", *seed)
	do(t)
}

// options are those of each gateway in a trial.
func options() []string { return []string{"-patience", patience.String()} }

// at starts clients at gateways.
func at(t *testing.T, urls ...string) *trial {
	all := newTrial(*seed)
	all.urls = urls
	for i := 0; i < *apps; i++ {
		all.apps = append(all.apps, fmt.Sprintf("app.%d", i))
	}
	all.begin(t, *clients)
	return all
}

// judged finishes a trial, and fails if a promise was broken.
func (t *trial) judged(to *testing.T, what string) {
	t.end()
	harness.Must(to, t.finish())
	fmt.Printf("trial: %s: ", what)
	t.report(os.Stdout)
	if kinds := t.judge(os.Stdout); len(kinds) > 0 {
		to.Fatalf("faults: %s", counts(kinds))
	}
}

// killOne kills one gateway over SQLite.
func killOne(t *testing.T) {
	g, r := harness.Open(t, harness.Setup{Options: options()}), rand.New(rand.NewSource(*seed))
	all := at(t, g.URL)
	var took harness.Times
	for i := 0; i < *kills; i++ {
		time.Sleep(time.Duration(20+r.Intn(180)) * time.Millisecond)
		began := time.Now()
		g.Restart()
		took = append(took, time.Since(began))
		// a process that lives shortly must move what earlier ones left in the WAL
		if wal, err := os.Stat(filepath.Join(g.State, "manifests.db-wal")); err == nil && wal.Size() > 64<<20 {
			t.Fatalf("after %d kills the WAL has %d MB", i+1, wal.Size()>>20)
		}
	}
	all.judged(t, fmt.Sprintf("%d kills of a gateway over SQLite, ready again after at most %v", *kills, took.At(100)))
}

// disturbCluster kills, stops and cuts off machines.
func disturbCluster(t *testing.T) {
	m := harness.NewMachines(t, *cuts > 0, options())
	all := at(t, m.URLs()...)
	faults := disturb(t, m)
	recovering := time.Now()
	harness.AwaitAll(m.Both, 2*time.Minute)
	all.judged(t, fmt.Sprintf("%s; all ready after %v", counts(faults), time.Since(recovering).Round(time.Millisecond)))
	equal(t, m)
}

// A disturbance is a fault to make: `kill`, `stop` or `cut`, of a gateway, a member of etcd or a machine.
type disturbance struct {
	what, kind string
	i          int
}

// disturbances returns the faults that are asked for, in an order of chance.
func disturbances(r *rand.Rand) (all []disturbance) {
	for what, n := range map[string]int{"kill": *kills, "stop": *stops, "cut": *cuts} {
		for ; n > 0; n-- {
			kinds := []string{"gateways", "gateways", "etcd members"} // members have faults one by one
			one := disturbance{what, kinds[r.Intn(3)], r.Intn(3)}
			if what == "cut" {
				one.kind = "machines"
			}
			all = append(all, one)
		}
	}
	r.Shuffle(len(all), func(i, j int) { all[i], all[j] = all[j], all[i] })
	return all
}

// disturb makes faults, several at a time, and returns how many of each kind. It waits as long as the
// next one would be of a process that another one disturbs, or, unless -rough is given, would leave no
// majority of members; the trial fails if that takes minutes.
func disturb(t *testing.T, m *harness.Machines) map[string]int {
	r, faults, busy := rand.New(rand.NewSource(*seed)), map[string]int{}, sync.Map{}
	var ends sync.WaitGroup
	for n, one := range disturbances(r) {
		one := one
		time.Sleep(*pause/2 + time.Duration(r.Int63n(int64(*pause))))
		of, isMember := fmt.Sprint("gateway ", one.i), one.kind != "gateways"
		if isMember && *rough {
			of = fmt.Sprint("member ", one.i)
		} else if isMember {
			of = "members"
		}
		for end := time.Now().Add(*longest + 5*time.Minute); ; time.Sleep(20 * time.Millisecond) {
			_, there := busy.Load(of)
			if !there && (!isMember || *rough || healthy(m)) {
				break
			}
			if time.Now().After(end) {
				t.Fatalf("after %d faults the members don't become healthy", n)
			}
		}
		busy.Store(of, true)
		faults[one.what+"s of "+one.kind]++
		length := time.Duration(float64(*longest) * r.Float64() * r.Float64())
		ends.Add(1)
		go func() {
			defer ends.Done()
			defer busy.Delete(of)
			one.make(m, length)
		}()
	}
	ends.Wait()
	return faults
}

func healthy(m *harness.Machines) bool {
	for _, p := range m.Members {
		if !p.Healthy() {
			return false
		}
	}
	return true
}

// make makes the fault for a time.
func (d disturbance) make(m *harness.Machines, length time.Duration) {
	p := m.Gateways[d.i].Process
	if d.kind == "etcd members" {
		p = m.Members[d.i]
	}
	switch d.what {
	case "kill":
		p.Kill()
		time.Sleep(length / 4)
		p.Start()
	case "stop":
		p.Signal(syscall.SIGSTOP)
		time.Sleep(length)
		p.Signal(syscall.SIGCONT)
	case "cut":
		m.Net.Cut(d.i, true)
		time.Sleep(length)
		m.Net.Cut(d.i, false)
	}
}

// equal fails if the contents of the members differ.
func equal(t *testing.T, m *harness.Machines) {
	harness.Eventually(t, "the members are equal", func() bool {
		text, err := m.Ctl("endpoint", "hashkv")
		hashes := map[string]bool{}
		for _, line := range strings.Split(strings.TrimSpace(text), "\n") {
			_, hash, _ := strings.Cut(line, ", ")
			hashes[hash] = true
		}
		return err == nil && len(hashes) == 1
	})
}

// fillQuota fills etcd's quota: changes are 507 then, lookups are answered, and nothing acknowledged is
// lost, also once there is space again.
func fillQuota(t *testing.T) {
	m := harness.NewMachines(t, false, options(), "--quota-backend-bytes", "8000000")
	all := at(t, m.URLs()...)
	full := 0
	for n := 0; n < 200 && full < 3; n++ {
		path := fmt.Sprintf("/v1/app.filler/l%c%c.txt", 'a'+n/26, 'a'+n%26)
		got := m.Gateways[n%3].Ask("PUT", path, harness.AppsWrite, fmt.Sprintf("x{a{\"%d %s\"}}", n, harness.Noise(100<<10)))
		switch got.Status {
		case 507:
			full++
		case 201, 503, 504: // on a busy machine a change may take too long
		default:
			t.Fatalf("the filler's change %d: %d %s", n, got.Status, got.Body)
		}
	}
	if full == 0 {
		t.Fatal("the quota isn't full")
	}
	time.Sleep(3 * time.Second)
	m.Gateways[0].Make("GET", "/v1/app.filler/laa/a", "")
	if got := m.Gateways[1].Ask("GET", "/writez", "", ""); got.Status != 503 || got.Body != "NoRoom\n" {
		t.Errorf("/writez: %d %s", got.Status, got.Body)
	}
	for _, p := range m.Members { // a wider quota, as the page for operators says, one after the other
		for i, argument := range p.Args {
			if argument == "--quota-backend-bytes" {
				p.Args[i+1] = "100000000"
			}
		}
		p.Kill() // its health is bad until the alarm is disarmed
		p.Start()
		time.Sleep(2 * time.Second)
	}
	if _, err := m.Ctl("alarm", "disarm"); err != nil {
		t.Fatal(err)
	}
	harness.AwaitAll(m.Members, harness.Generous)
	time.Sleep(2 * time.Second)
	all.judged(t, "a full quota of etcd")
	m.Gateways[1].Make("PUT", "/v1/app.0/de.txt", "de{}")
	equal(t, m)
}

// restoreSnapshot restores a snapshot that was taken beside changes, at all members.
func restoreSnapshot(t *testing.T) {
	m := harness.NewMachines(t, false, options())
	all := at(t, m.URLs()...)
	time.Sleep(*longest)
	file, least := filepath.Join(t.TempDir(), "snapshot"), all.acknowledged(m.Gateways[0])
	snapshot := harness.Cluster{Outside: m.Outside[:1]}
	if _, err := snapshot.Ctl("snapshot", "save", file); err != nil {
		t.Fatal(err)
	}
	time.Sleep(*longest / 2)
	all.end()
	all.collect(10 * time.Second)
	for _, p := range m.Both {
		p.Kill()
	}
	m.Restore(file)
	harness.StartAll(m.Members)
	harness.StartAll(m.Both[:3])
	all.continued(t, "a restored snapshot", least, m.URLs())
}

// restoreBackup restores a backup of a gateway over SQLite that was taken beside changes.
func restoreBackup(t *testing.T) {
	g, again := harness.Open(t, harness.Setup{Options: options()}), t.TempDir()
	all := at(t, g.URL)
	time.Sleep(*longest / 2)
	least, file := all.acknowledged(g), filepath.Join(t.TempDir(), "copy")
	if status, text := harness.Run(t, "backup", "-state", g.State, "--", file); status != 0 {
		t.Fatalf("backup: %d %s", status, text)
	}
	time.Sleep(*longest / 2)
	all.end()
	all.collect(10 * time.Second)
	g.Kill()
	if status, text := harness.Run(t, "restore", "-state", filepath.Join(again, "state"), "--", file); status != 0 {
		t.Fatalf("restore: %d %s", status, text)
	}
	other := harness.Open(t, harness.Setup{Folder: again, Options: options()})
	all.continued(t, "a restored backup", least, []string{other.URL})
}

// acknowledged returns the revision of each application.
func (t *trial) acknowledged(g *harness.Gateway) map[string]int64 {
	all := map[string]int64{}
	for _, app := range t.apps {
		all[app] = g.Make("GET", "/v1/"+app, "").Revision()
	}
	return all
}

// continued checks that what is there is the beginning of what was, up to the revisions of a time at
// least, and has clients continue.
func (t *trial) continued(to *testing.T, what string, least map[string]int64, urls []string) {
	next := newTrial(*seed + 1)
	next.book, next.urls, next.apps = t.book, urls, t.apps
	t.book.ids = map[string]version{} // the numbers of what isn't there any more are given again
	next.collect(10 * time.Second)
	for _, app := range t.apps {
		now, was := next.changes(app), t.changes(app)
		next.base[app] = int64(len(now))
		if int64(len(now)) < least[app] || len(now) > len(was) || fmt.Sprint(now) != fmt.Sprint(was[:len(now)]) {
			to.Fatalf("%s has %d revisions, had %d at the copy and %d in the end, or others", app, len(now), least[app], len(was))
		}
		what += fmt.Sprintf(", %d of %d revisions of %s", len(now), len(was), app)
	}
	next.begin(to, *clients)
	time.Sleep(*longest / 2)
	next.judged(to, what)
}
