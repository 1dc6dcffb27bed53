package http

import (
	"fmt"
	"os"
	"os/exec"
	"path/filepath"
	"strings"
	"sync/atomic"
	"syscall"
	"testing"
	"time"

	"luvdregan.example/resb/deploy/tests/harness"
)

// TestReadyOnceAllIsRead starts a gateway whose store can't be reached: it isn't ready, however long it
// waits, until the store is there, and then it has all bundles at once.
func TestReadyOnceAllIsRead(t *testing.T) {
	c := harness.NewCluster(t, t.TempDir(), 1, nil)
	start := func() *site {
		g := harness.New(t, harness.Setup{Etcd: c.From(0)})
		g.Start()
		return &site{g, t}
	}
	first := start()
	time.Sleep(12 * time.Second)
	errorIf(t, first.Healthy(), "ready without its store")
	equal(t, first.ask("GET", "/v1/shop", "perhaps-an-owner-made-it", "").Error(), "Replaying")
	equal(t, first.ask("GET", "/v1/shop", "", "").Status, 401)
	harness.StartAll(c.Members)
	first.Await(generous)
	for i := 0; i < 80; i++ {
		first.put(fmt.Sprintf("l%c%c", 'a'+i/26, 'a'+i%26), fmt.Sprintf(`x{a{"%d"}}`, i))
	}
	c.Members[0].Signal(syscall.SIGSTOP) // it takes connections, and answers nothing
	sent := make(chan int)
	for i := 0; i < 3; i++ {
		go func(app string) { sent <- first.Ask("PUT", "/v1/app."+app+"/de.txt", appsWrite, "de{}").Status }(fmt.Sprint(i))
	}
	first.awaitMetric("resb_changes_waiting", func(n float64) bool { return n == 3 })
	second := start()
	eventually(t, "it answers", func() bool {
		got, err := harness.Send(harness.Client, "GET", second.URL+"/readyz", "", "")
		return err == nil && got.Status == 503
	})
	time.Sleep(3 * time.Second)
	errorIf(t, second.Healthy(), "ready while its store stands still")
	c.Members[0].Signal(syscall.SIGCONT)
	equal(t, []int{<-sent, <-sent, <-sent}, []int{201, 201, 201})
	first.awaitMetric("resb_changes_waiting", func(n float64) bool { return n == 0 })
	for end := time.Now().Add(generous); !second.Healthy() && time.Now().Before(end); {
		got, err := harness.Send(harness.Client, "GET", second.URL+"/v1/shop", shopReads, "")
		if err == nil && got.Status == 200 && strings.Count(got.Body, "\"l") != 80 {
			t.Fatalf("%d %s", got.Status, got.Body)
		}
	}
	second.is("lcb/a", "53")
	equal(t, second.get("/v1/shop/lcb.txt").Header.Get("Last-Modified"), first.get("/v1/shop/lcb.txt").Header.Get("Last-Modified"))
	c.Members[0].Kill()
	first.is("lcb/a", "53") // lookups are still answered
	if got := first.ask("PUT", "/v1/shop/de.txt", shopWrites, "de{}"); got.Status != 503 && got.Status != 504 {
		t.Errorf("%d %s", got.Status, got.Body)
	}
	first.awaitMetric("resb_behind_seconds", func(n float64) bool { return n > 5 })
	errorIf(t, first.measured()["resb_writes"] != 0, "the metrics don't say that nothing is stored")
	first.writez(503)
	errorIf(t, !first.Healthy(), "lookups are answered, and /readyz doesn't say so")
	harness.StartAll(c.Members)
	first.writez(200)
	first.awaitMetric("resb_behind_seconds", func(n float64) bool { return n < 5 })
}

// TestARestoredStore restores a snapshot of etcd under a gateway, which has changes that are no longer there: it ends by itself, and the next
// start has what the snapshot has.
func TestARestoredStore(t *testing.T) {
	t.Parallel()
	c := harness.NewCluster(t, t.TempDir(), 1, nil)
	harness.StartAll(c.Members)
	s := &site{harness.Open(t, harness.Setup{Etcd: c.From(0)}), t}
	s.put("de", `de{a{"A"}}`)
	file := filepath.Join(t.TempDir(), "snapshot")
	_, err := c.Ctl("snapshot", "save", file)
	must(t, err)
	s.put("de", `de{a{"B"}}`)
	s.put("fr", "fr{}")
	c.Restore(file)
	s.is("de/a", "B") // as of the change before
	harness.StartAll(c.Members)
	equal(t, s.Wait(), 1)
	errorIf(t, !strings.Contains(s.Log.Tail(1000), "resb-gateway: the store is an earlier one again: "), "%s", s.Log.Tail(1000))
	s.Restart()
	s.is("de/a", "A")
	s.names("de")
}

// TestQuotas bound what is stored of an application: what was submitted, also in comments and in
// releases, and what is compiled.
func TestQuotas(t *testing.T) {
	s := beside(t, "-app-bytes", "30000", "-app-stored-bytes", "100000")
	comment := func(n int) string { return fmt.Sprintf("x{/* %d %s */}", n, strings.Repeat("c", 20000)) }
	for i := 0; i < 10; i++ {
		want := map[bool]int{true: 201, false: 507}[i < 4]
		if got := s.ask("PUT", fmt.Sprintf("/v1/shop/l%c.txt", 'a'+i), shopWrites, comment(i)); got.Status != want || want == 507 && got.Error() != "OverQuota" {
			t.Errorf("%d: %d %s", i, got.Status, got.Body)
		}
	}
	zip := zipOf(t, namedText{"ma.txt", comment(20)}, namedText{"mb.txt", comment(21)})
	errorIf(t, len(zip) > 5000, "a zip of %d bytes", len(zip))
	s.run([]step{{"w POST /v1/shop/_releases", "Content-Type: " + asZip, zip, 507, "!OverQuota", ""},
		{"w DELETE /v1/shop/la", "", "", 200, "", ""}, {"w PUT /v1/shop/na.txt", "", comment(30), 201, "", ""},
		{"w PUT /v1/shop/de.txt", "", `de{a{"` + harness.Noise(19000) + `"}}`, 507, "!OverQuota", ""}, // 2 bytes each once it is compiled
		{"w PUT /v1/shop/de.txt", "", `de{a{"` + harness.Noise(9000) + `"}}`, 201, "", ""}, {"b PUT /v1/bank/de.txt", "", comment(1), 201, "", ""}}...)
}

// TestLimitsOfAToken has one token use many applications: all together have the limits of one, which are
// half of what others leave: of requests, of their bytes, of applications and of compiled bytes.
func TestLimitsOfAToken(t *testing.T) {
	s := beside(t, "-each", "20", "-all", "4096", "-apps", "64", "-body-bytes", "4000000")
	var waiters, halves int32
	client := *harness.Client
	client.Timeout = 3 * time.Second
	harness.Together(60, func(i int) {
		if got, _ := harness.Send(&client, "GET", fmt.Sprintf("%s/v1/app.%d?after=99999", s.URL, i), appsWrite, ""); got.Status == 429 {
			atomic.AddInt32(&waiters, 1)
		}
	})
	s.rest()
	harness.Together(18, func(i int) {
		c := s.half(fmt.Sprintf("a PUT /v1/app.%d/de.txt", i), 300000, 250000)
		_ = c.SetDeadline(time.Now().Add(3 * time.Second))
		if begun(c) == "429" {
			atomic.AddInt32(&halves, 1)
		}
		_ = c.Close()
	})
	s.rest()
	refused := 0
	for i := 0; i < 64; i++ {
		switch got := s.ask("PUT", fmt.Sprintf("/v1/app.%d/de.txt", i), appsWrite, "de{}"); {
		case got.Status == 507 && got.Error() == "TooManyApps":
			refused++
		case got.Status != 201:
			t.Errorf("%d: %d %s", i, got.Status, got.Body)
		}
	}
	if waiters < 40 || halves < 8 || refused < 16 {
		t.Errorf("of one token are refused: %d of 60 requests, %d of 18 bodies, %d of 64 applications", waiters, halves, refused)
	}
	s.put("de", `de{}`)
	s.run(step{"b PUT /v1/bank/de.txt", "", "de{}", 201, "", ""})
	s = open(t, "-bundles-bytes", "1000000")
	last := 201
	for i := 0; i < 20 && last == 201; i++ {
		last = s.ask("PUT", fmt.Sprintf("/v1/app.%d/de.txt", i), appsWrite, `de{a{"`+harness.Noise(30000)+`"}}`).Status
	}
	s.run(step{"b PUT /v1/bank/de.txt", "", `de{a{"` + harness.Noise(30000) + `"}}`, 201, "", ""})
	errorIf(t, last != 507, "one token has the memory of all")
}

// TestLongWork has two applications ask for differences of long versions all the time: another one's
// conversions and history don't wait for theirs to end.
func TestLongWork(t *testing.T) {
	s := beside(t)
	long := harness.Noise(1 << 20)
	work := func(app string) attack {
		for _, text := range []string{"A", "B"} {
			s.Make("PUT", "/v1/"+app+"/de.txt", `de{a{"`+text+long+`"}}`)
		}
		return attack{32, "a GET /v1/" + app + "/_history/1/diff?with=2", "", "", toTheEnd}
	}
	s.run(step{"b PUT /v1/bank/de.txt", "", `de{a{"` + long[:20<<10] + `"}}`, 201, "", ""})
	end := s.attack(work("app.one"), work("app.two"))
	var took harness.Times
	for i := 0; i < 20; i++ {
		began := time.Now()
		s.run([]step{{"b GET /v1/bank/de.json", "", "", 200, long[:100], ""}, {"b GET /v1/bank/_history", "", "", 200, "install", ""}}...)
		took = append(took, time.Since(began))
	}
	end()
	if t.Logf("median %v, most %v", took.At(50), took.At(100)); took.At(50) > 5*time.Second {
		t.Errorf("median %v", took.At(50))
	}
}

// TestALogThatNobodyReads blocks the pipe of standard error: requests are answered, and lines that are
// lost are counted.
func TestALogThatNobodyReads(t *testing.T) {
	t.Parallel()
	s := prepare(t, "-access-log", "-", "-audit-log", "-")
	read, write, err := os.Pipe()
	must(t, err)
	defer read.Close()
	s.Output = write
	s.Start()
	_ = write.Close()
	s.Await(generous)
	s.put("de", `de{a{"A"}}`)
	for i := 0; i < 12000; i++ {
		s.is("de/a", "A")
	}
	s.put("de", `de{a{"B"}}`)
	s.is("de/a", "B")
	values := s.measured()
	errorIf(t, values["resb_log_lines_dropped_total"] == 0 || values["resb_log_lines_waiting"] < 8000, "no line was lost: %v", values)
	s.leave()
	full := exec.Command(harness.Program(t), "-listen", "nowhere", "-tokens", s.Tokens, "-state", s.State)
	again, into, err := os.Pipe()
	must(t, err)
	defer again.Close()
	_ = into.SetWriteDeadline(time.Now().Add(time.Second))
	_, _ = into.Write(make([]byte, 1<<20)) // more than the pipe takes
	full.Stderr = into
	ended := make(chan error, 1)
	go func() { ended <- full.Run() }()
	select {
	case err := <-ended:
		errorIf(t, full.ProcessState.ExitCode() != 1, "%v", err)
	case <-time.After(generous):
		_ = full.Process.Kill()
		t.Error("a start that fails doesn't end")
	}
}

// TestSmallFindings has what fits in a request: If-Match of a GET, `erase=false`, tokens that all may
// write, and a second gateway over a store.
func TestSmallFindings(t *testing.T) {
	s := beside(t)
	tag := s.put("de", `de{a{"A"}}`).Tag()
	s.run([]step{{"r GET /v1/shop/de.txt", `If-Match: "x"`, "", 412, "!PreconditionFailed", ""}, {"r GET /v1/shop/de.txt", "If-Match: " + tag, "", 200, "", ""},
		{"r GET /v1/shop/de/a", `If-Match: "x"`, "", 412, "", ""}, {"w DELETE /v1/shop?erase=false", "", "", 400, "!BadQuery", ""}, {"r GET /v1/shop/de/a", "", "", 200, `"A"`, ""}}...)
	readable := prepare(t)
	must(t, os.Chmod(readable.Tokens, 0o666))
	command(t, 1, "", readable.Args[1:]...)
	command(t, 1, "", harness.New(t, harness.Setup{Folder: filepath.Dir(s.State)}).Args[1:]...)
	s.is("de/a", "A")
}

// TestCommandsOfRoot does the commands of an operator as root, over a folder that belongs to the user of the service, with a copy that is
// restored into a new folder: what they make belongs to that user too, and the service starts.
func TestCommandsOfRoot(t *testing.T) {
	s := beside(t)
	s.put("de", `de{a{"A"}}`)
	s.leave()
	const user = 12345
	home := t.TempDir()
	if os.Chown(home, user, user) != nil {
		t.Skip("skipped: only root changes owners")
	}
	must(t, os.Chmod(filepath.Dir(home), 0o755))
	state, copied := filepath.Join(home, "new", "state"), filepath.Join(home, "copy")
	command(t, 0, "", "backup", "-state", s.State, "--", copied)
	command(t, 0, "", "restore", "-state", state, "--", copied)
	command(t, 0, "shop\tde\t", "list", "-state", state)
	command(t, 0, "1 bundles", "export", "-state", state, "--", filepath.Join(t.TempDir(), "out"))
	command(t, 0, "", "backup", "-state", state, "--", copied+".again")
	tokens := filepath.Join(home, "new", "tokens")
	command(t, 0, "", "token", "add", "-tokens", tokens, "shop", "read")
	must(t, filepath.WalkDir(home, func(path string, entry os.DirEntry, err error) error {
		info, failed := entry.Info()
		errorIf(t, failed != nil || info.Sys().(*syscall.Stat_t).Uid != user, "%s doesn't belong to the user", path)
		return err
	}))
	// a folder of root, as /etc/resb is
	theirs := t.TempDir()
	must(t, os.Chmod(theirs, 0o755))
	must(t, os.WriteFile(filepath.Join(theirs, "tokens"), nil, 0o644))
	asUser := exec.Command("setpriv", "--reuid=12345", "--regid=12345", "--clear-groups", harness.Program(t), "-check-config", "-tokens",
		filepath.Join(theirs, "tokens"), "-add-tokens", tokens, "-state", state)
	said, _ := asUser.CombinedOutput()
	equal(t, string(said), "resb-gateway: -add-tokens: write to "+theirs+": permission denied\n")
	g := harness.New(t, harness.Setup{Folder: filepath.Dir(state)}) // writes into the file of tokens
	g.Args = append([]string{"setpriv", "--reuid=12345", "--regid=12345", "--clear-groups"}, g.Args...)
	g.Start()
	g.Await(generous)
	(&site{g, t}).is("de/a", "A")
}

// writez waits until /writez has a status.
func (s *site) writez(status int) {
	s.t.Helper()
	eventually(s.t, fmt.Sprintf("/writez is %d", status), func() bool { return s.ask("GET", "/writez", "", "").Status == status })
}

// smallDisk mounts a disk of 12 MB.
func smallDisk(t *testing.T) string {
	t.Helper()
	disk := t.TempDir()
	if err := syscall.Mount("tmpfs", disk, "tmpfs", 0, "size=12m"); err != nil {
		t.Skipf("skipped: no disk can be mounted: %v", err)
	}
	t.Cleanup(func() { _ = syscall.Unmount(disk, syscall.MNT_DETACH) })
	return disk
}

// TestADiskThatAnotherFills has /writez and the metrics say so, although nobody asks for a change.
func TestADiskThatAnotherFills(t *testing.T) {
	disk := smallDisk(t)
	s := &site{harness.Open(t, harness.Setup{Folder: disk}), t}
	s.writez(200)
	free := s.measured()["resb_free_bytes"]
	errorIf(t, free < 1<<20 || free > 12<<20, "%v bytes are free", free)
	filler := filepath.Join(disk, "of another process")
	if err := os.WriteFile(filler, make([]byte, 13<<20), 0o600); err == nil {
		t.Fatal("the disk isn't full")
	}
	s.writez(503)
	s.awaitMetric("resb_writes", func(n float64) bool { return n == 0 })
	s.awaitMetric("resb_free_bytes", func(n float64) bool { return n < 1<<20 })
	must(t, os.Remove(filler))
	s.writez(200)
	s.awaitMetric("resb_writes", func(n float64) bool { return n == 1 })
}

// TestAFullDisk refuses what has no space with 507, and /writez with 503. Lookups are still answered,
// removals and erasures made; what was acknowledged is there after a kill; and changes are made once
// there is space again. No earlier version that is to stay makes space for a change.
func TestAFullDisk(t *testing.T) {
	disk := smallDisk(t)
	s := &site{harness.Open(t, harness.Setup{Folder: disk}), t}
	s.run(step{"b PUT /v1/bank/de.txt", "", `de{a{"B"}}`, 201, "", ""})
	locale := func(i int) string { return fmt.Sprintf("/v1/shop/l%c%c", 'a'+i/26, 'a'+i%26) }
	bundles := 0
	for last := 201; last == 201 && bundles < 100; bundles++ {
		got := s.ask("PUT", locale(bundles)+".txt", shopWrites, fmt.Sprintf(`x{a{"%d"} b{"%s"}}`, bundles, harness.Noise(300<<10)))
		if last = got.Status; last != 201 && (last != 507 || got.Error() != "NoRoom") {
			t.Fatalf("%d %s", got.Status, got.Body)
		}
	}
	if bundles--; bundles < 3 {
		t.Fatalf("%d bundles", bundles)
	}
	filler := filepath.Join(disk, "of another process")
	if err := os.WriteFile(filler, make([]byte, 13<<20), 0o600); err == nil {
		t.Fatal("the disk isn't full")
	}
	s.writez(503)
	for i := 0; i < 3; i++ {
		s.run([]step{{"w DELETE " + locale(i), "", "", 200, "", ""}, {"w DELETE " + locale(i), "", "", 404, "", ""},
			{"b GET /v1/bank/de/a", "", "", 200, `"B"`, ""}, {"b GET /v1/bank/de.txt", "", "", 200, "", ""}, {"- GET /readyz", "", "", 200, "", ""}}...)
	}
	s.Restart()
	for i := 0; i < bundles; i++ {
		if got := s.get(locale(i) + "/a"); got.Value() != map[bool]string{true: "", false: fmt.Sprint(i)}[i < 3] {
			t.Errorf("%d: %d %s", i, got.Status, got.Body)
		}
	}
	s.run(step{"w DELETE /v1/shop?erase", "", "", 200, "", ""})
	s.run(step{"w DELETE /v1/shop?erase=now", "", "", 200, "", ""})
	_ = os.Remove(filler)
	s.writez(200)
	s.put("fr", `fr{a{"F"}}`)
	last := 200
	for i := 0; last == 200 || last == 201; i++ { // earlier versions stay, so there is no space at last
		last = s.ask("PUT", "/v1/shop/de.txt", shopWrites, fmt.Sprintf(`de{a{"%d"} b{"%s"}}`, i, harness.Noise(300<<10))).Status
	}
	if all := s.past("?locale=de"); last != 507 || len(all) < 3 || !all[len(all)-1].Kept {
		t.Errorf("%d %+v", last, all)
	}
	s.run([]step{{"b GET /v1/bank/_history", "", "", 200, `"op":"install"`, ""}, {"w DELETE /v1/shop?erase=now", "", "", 200, "", ""}}...)
	eventually(t, "there is space again", func() bool { return s.ask("PUT", "/v1/shop/de.txt", shopWrites, `de{a{"D"}}`).Status < 300 })
}

// TestAReadOnlyDisk makes an ext4 disk fail under a gateway: lookups are answered, changes aren't made and
// say so, and a gateway over the mended disk has all acknowledged changes.
func TestAReadOnlyDisk(t *testing.T) {
	image, folder := filepath.Join(t.TempDir(), "image"), t.TempDir()
	run := func(name string, arguments ...string) bool { return exec.Command(name, arguments...).Run() == nil }
	must(t, os.WriteFile(image, make([]byte, 48<<20), 0o600))
	if os.Getuid() != 0 || !run("mkfs.ext4", "-q", image) || !run("mount", "-o", "loop", image, folder) {
		t.Skip("skipped: no ext4 disk can be made and mounted")
	}
	t.Cleanup(func() { run("umount", "-l", folder) })
	s := &site{harness.Open(t, harness.Setup{Folder: folder}), t}
	s.run(step{"b PUT /v1/bank/de.txt", "", `de{a{"B"}}`, 201, "", ""})
	for _, locale := range []string{"aa", "ab", "ac"} {
		s.put(locale, `x{v{"1"}}`)
	}
	syscall.Sync() // the file of tokens, which no gateway wrote
	if !run("mount", "-o", "remount,abort", folder) {
		t.Skip("skipped: the disk can't be made to fail")
	}
	for i := 0; i < 5; i++ {
		s.run([]step{{"w PUT /v1/shop/aa.txt", "", `x{v{"2"}}`, 503, "!NotKept", ""}, {"w DELETE /v1/shop/ab", "", "", 503, "!NotKept", ""},
			{"b GET /v1/bank/de/a", "", "", 200, `"B"`, ""}, {"b GET /v1/bank", "", "", 200, "", ""}, {"- GET /readyz", "", "", 200, "", ""}}...)
	}
	s.writez(503)
	errorIf(t, s.measured()["resb_writes"] != 0, "the metrics don't say that nothing is stored")
	s.Kill()
	eventually(t, "the disk is free", func() bool { return run("umount", folder) })
	_ = exec.Command("e2fsck", "-fy", image).Run()
	eventually(t, "the disk is mounted", func() bool { return run("mount", "-o", "loop", image, folder) })
	s.Restart()
	for _, locale := range []string{"aa", "ab", "ac"} {
		s.is(locale+"/v", "1")
	}
	s.put("aa", `x{v{"2"}}`)
}
