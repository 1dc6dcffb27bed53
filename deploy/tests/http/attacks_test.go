package http

import (
	"bytes"
	"encoding/gob"
	"fmt"
	"io"
	"math/rand"
	"net"
	"net/http"
	"os"
	"path/filepath"
	"strings"
	"sync"
	"testing"
	"time"

	"luvdregan.example/resb/deploy/tests/harness"
)

// most is what another tenant's lookup may take in 99 of 100 cases. It is judged with the variable
// JUDGE_TIMES: other work on the machine spoils it.
const most = 20 * time.Millisecond

// An attack is a request that callers send over separate connections, again and again.
type attack struct {
	Callers int
	Do      string // as in a step; %d is a number under 1,000. Without it the body is all that is sent
	Headers string // of lines
	Body    string
	Read    reader
}

// A reader says how a response is read.
type reader int

const (
	toTheEnd reader = iota
	nobody          // nobody reads, and the connection stays open
	slowly
)

const zipped = "Accept-Encoding: gzip\r\n"

// TestOthers has tenants do what could harm others, and meanwhile bank look up: none of its lookups is
// refused, and the gateway's memory, threads, files and disk stay within bounds. ATTACK_TIME is how long
// each attack takes.
func TestOthers(t *testing.T) {
	s := open(t, "-read-time", "30s", "-apps", "4096")
	long, eight := harness.Noise(7<<20), harness.Noise(8<<20-100)
	s.run(step{"b PUT /v1/bank/de.txt", "", `de{a{"B"}}`, 201, "", ""})
	for _, one := range []string{`de{long{"` + long + `"}}`, `de{a{"A"} long{"` + long + `"}}`, expensive()} {
		s.put(one[:2], one)
	}
	s.Make("PUT", "/v1/app.keys/de.res", string(harness.SharedKeys(8000)))
	id := fmt.Sprint(s.past("")[2].ID)
	for i := 0; i < 1000; i++ { // a deep history
		s.Make("PUT", "/v1/app.deep/de.txt", fmt.Sprintf(`de{a{"%d"}}`, i))
	}
	length := 3 * time.Second
	if given, err := time.ParseDuration(os.Getenv("ATTACK_TIME")); err == nil {
		length = given
	}
	t.Logf("alone: p99 %v, load %s", s.victim(length), harness.Load())
	blanks := strings.Repeat(" ", 7<<20)
	unread := zipOf(t, namedText{"it.txt", long}, namedText{"nl.txt", long}, namedText{"x", ""})
	blank := zipOf(t, namedText{"it.txt", "it{/*" + blanks + "*/}"}, namedText{"nl.txt", "nl{/*" + blanks + "*/}"})
	patch := "{" + strings.Repeat(`"a":1,`, 1<<20) + `"b":1}`
	languages := "Accept-Language: " + strings.Repeat("aa-", 5000) + "aa\r\n"
	text := attack{2, "w PUT /v1/shop/nl.txt", "", `nl{costly{"` + long + `"}}`, toTheEnd}
	reply := attack{4, "w GET /v1/shop/de/long", "", "", toTheEnd}
	for _, c := range []struct {
		name    string
		attacks []attack
	}{
		{"long replies that nobody reads", []attack{{32, "w POST /v1/shop/look", "", looks("de", "long", 190), nobody}}},
		{"long replies", []attack{reply}},
		{"expensive lookups", []attack{{32, "w POST /v1/shop/look", "", looks("fr_FR_A_B_C_D_E_F_G", "costly", 2000), toTheEnd}}},
		{"cheap lookups", []attack{{16, "w POST /v1/shop/look", "", looks("de", "a", 20000), toTheEnd}}},
		{"texts", []attack{text, text}},
		{"texts and long replies", []attack{text, reply}},
		{"removals", []attack{{16, "w DELETE /v1/shop/it", "", "", toTheEnd}}},
		{"texts that are refused", []attack{{4, "w PUT /v1/shop/it.txt", "", "it{bad", toTheEnd}}},
		{"bodies that never come", []attack{{16, "w PUT /v1/shop/it.res", "Content-Length: 60000000\r\n", long[:5<<20], nobody}}},
		{"one lookup after the other", []attack{{64, "w GET /v1/shop/de/a", "", "", toTheEnd}}},
		{"connections that ask for nothing", []attack{{200, "", "", "GET /", nobody}}},
		{"empty lines", []attack{{32, "w POST /v1/shop/look", "", strings.Repeat("\n", 4<<20), toTheEnd}}},
		{"lines of an empty object", []attack{{32, "w POST /v1/shop/look", "", strings.Repeat("{}\n", 1<<20), toTheEnd}}},
		{"a long list of languages", []attack{{32, "w GET /v1/shop/-/a", languages, "", toTheEnd}}},
		{"compressed replies", []attack{{4, "w GET /v1/shop/de/long", zipped, "", toTheEnd}}},
		{"long bundles", []attack{{32, "w GET /v1/shop/de.txt", "", "", toTheEnd}}},
		{"compressed bundles", []attack{{32, "w GET /v1/shop/de.txt", zipped, "", toTheEnd}}},
		{"lengths of compressed bundles", []attack{{32, "w HEAD /v1/shop/de.txt", zipped, "", toTheEnd}}},
		{"long versions of the history", []attack{{256, "w GET /v1/shop/_history/" + id + ".txt", "", "", toTheEnd}}},
		{"long patches", []attack{{4, "w PATCH /v1/shop/it", "Content-Type: " + asPatch + "\r\n", patch, toTheEnd}}},
		{"releases that can't be read", []attack{{4, "w POST /v1/shop/_releases", "Content-Type: " + asZip + "\r\n", unread, toTheEnd}}},
		// further ones
		{"512 readers of a deep history", []attack{{512, "a GET /v1/app.deep/_history?last=1000", "", "", toTheEnd}}},
		{"overlapping readers beside changes", []attack{{6, "a GET /v1/app.deep/_history?last=1000", "", "", toTheEnd},
			{2, "w PUT /v1/shop/nl.txt", "", `nl{a{"` + long[:1<<20] + `"}}`, toTheEnd}}},
		{"waiters under many names of a prefix", []attack{{1000, "a GET /v1/app.%d?after=99999999", "", "", toTheEnd}}},
		{"applications under many names of a prefix", []attack{{16, "a PUT /v1/app.%d/de.txt", "", `de{a{"A"}}`, toTheEnd}}},
		{"bodies under many names of a prefix", []attack{{80, "a PUT /v1/app.%d/it.txt", "Content-Length: 8000000\r\n", long, nobody}}},
		{"comments of 8 MB", []attack{{4, "w PUT /v1/shop/it.txt", "", "it{/*" + eight + "*/ a{\"\"}}", toTheEnd}}},
		{"empty releases", []attack{{64, "w POST /v1/shop/_releases", "Content-Type: " + asLines + "\r\n", "", toTheEnd}}},
		{"zips of comments", []attack{{4, "w POST /v1/shop/_releases", "Content-Type: " + asZip + "\r\n", blank, toTheEnd}}},
		{"slow readers of long bundles", []attack{{64, "w GET /v1/shop/de.txt", "", "", slowly}}},
		{"trees with their tag", []attack{{256, "w GET /v1/shop/fr?tree", "If-None-Match: *\r\n", "", toTheEnd}}},
		{"differences of long versions", []attack{{8, "w GET /v1/shop/_history/" + id + "/diff?with=" + id, "", "", toTheEnd}}},
		{"checks", []attack{{16, "w POST /v1/shop/_check/it.txt", "", "it{ days{\n \"lundi\", \"mardi\" \"jeudi\" } }", toTheEnd}}},
		{"unauthorized requests", []attack{{256, "- GET /v1/bank/de/a", "", "", toTheEnd}}},
		{"tables whose keys share bytes", []attack{{64, "a GET /v1/app.keys/de", "", "", toTheEnd}}},
	} {
		t.Run(c.name, func(t *testing.T) {
			its := &site{s.Gateway, t}
			p99 := its.victim(length, c.attacks...)
			u, disk := s.Usage(), s.filesBytes()>>20
			uses := fmt.Sprintf("p99 %v, %d MB, %d threads, %d open files, %d MB of files", p99, u.Memory>>20, u.Threads, u.Files, disk)
			if t.Logf("%s: %s", uses, c.name); p99 > most && os.Getenv("JUDGE_TIMES") != "" {
				t.Errorf("p99 %v, more than %v", p99, most)
			}
			errorIf(t, u.Memory > 2<<30 || u.Threads > 300 || disk > 1<<10, "%v", uses)
			its.rest() // a change is made although its caller has gone
			eventually(t, "connections and files are closed", func() bool { return s.Usage().Files < 400 })
		})
	}
}

// filesBytes returns the bytes of the files in the state.
func (s *site) filesBytes() (sum int64) {
	_ = filepath.Walk(s.State, func(_ string, info os.FileInfo, err error) error {
		if err == nil && info.Mode().IsRegular() {
			sum += info.Size()
		}
		return nil
	})
	return sum
}

// expensive returns a bundle in which a lookup takes many steps.
func expensive() string {
	text := `fr{costly:alias{"/fr/a0"}`
	for i := 0; i < 30; i++ {
		text += fmt.Sprintf(`a%d:alias{"/LOCALE/a%d"}`, i, i+1)
	}
	return text + `a30{"D"}}`
}

// looks returns the lines of many equal lookups.
func looks(locale, path string, lines int) string {
	return strings.Repeat(fmt.Sprintf("{\"locale\":%q,\"path\":%q}\n", locale, path), lines)
}

// victim looks up for a time beside attacks, and returns the 99th percentile.
func (s *site) victim(length time.Duration, attacks ...attack) time.Duration {
	s.t.Helper()
	end := s.attack(attacks...)
	defer end()
	client := &http.Client{Transport: &http.Transport{}, Timeout: generous}
	defer client.CloseIdleConnections()
	var took harness.Times
	refused := 0
	for end := time.Now().Add(length); time.Now().Before(end); time.Sleep(2 * time.Millisecond) {
		began := time.Now()
		got, err := harness.Send(client, "GET", s.URL+"/v1/bank/de/a", bankWrites, "")
		took = append(took, time.Since(began))
		if err != nil || got.Status != 200 || got.Value() != "B" {
			if refused++; refused <= 3 {
				s.t.Errorf("after %v: %v %d %s", time.Since(began), err, got.Status, got.Body)
			}
		}
	}
	return took.At(99)
}

// attackFile is the variable that names the file of attacks of a process of attackers.
const attackFile = "ATTACKS"

// attacking is what a process of attackers prints once one of them is connected.
const attacking = "attacking"

func TestMain(m *testing.M) {
	if file := os.Getenv(attackFile); file != "" {
		panic(attackFrom(file))
	}
	os.Exit(m.Run())
}

// A campaign has the attacks of a process and the address of the gateway.
type campaign struct {
	Address string
	Attacks []attack
}

// attack starts a process of attackers, so that the measured caller shares no Go runtime with them.
// The function that it returns ends them.
func (s *site) attack(attacks ...attack) (end func()) {
	s.t.Helper()
	if len(attacks) == 0 {
		return func() {}
	}
	var content bytes.Buffer
	must(s.t, gob.NewEncoder(&content).Encode(campaign{s.Address, attacks}))
	p := &harness.Process{T: s.t, Name: "attackers", Args: os.Args[:1],
		Env: []string{attackFile + "=" + fileOf(s.t, content.String())}}
	s.t.Cleanup(p.Kill)
	p.Start()
	eventually(s.t, "attackers are connected", func() bool {
		return strings.Contains(p.Log.Tail(1000), attacking)
	})
	time.Sleep(200 * time.Millisecond)
	return p.Kill
}

// attackFrom makes the attacks of a file until the process is killed.
func attackFrom(file string) error {
	var c campaign
	content, err := os.Open(file)
	if err != nil {
		return err
	}
	if err := gob.NewDecoder(content).Decode(&c); err != nil {
		return err
	}
	harness.Together(len(c.Attacks), func(i int) {
		a := c.Attacks[i]
		harness.Together(a.Callers, func(int) {
			for {
				a.send(c.Address)
			}
		})
	})
	return nil
}

var firstConnection sync.Once

// send sends the request once over a connection, and reads the response.
func (a *attack) send(address string) {
	c, err := net.Dial("tcp", address)
	if err != nil {
		time.Sleep(10 * time.Millisecond)
		return
	}
	defer c.Close()
	firstConnection.Do(func() { fmt.Println(attacking) })
	if _, err := io.WriteString(c, a.text()); err != nil {
		return
	}
	switch a.Read {
	case toTheEnd:
		_, _ = io.Copy(io.Discard, c)
	case slowly:
		for buffer := make([]byte, 1024); err == nil; time.Sleep(50 * time.Millisecond) {
			_, err = c.Read(buffer)
		}
	case nobody:
		select {}
	}
}

// text returns the bytes of the request.
func (a *attack) text() string {
	if a.Do == "" {
		return a.Body
	}
	do, headers := strings.Replace(a.Do, "%d", fmt.Sprint(rand.Intn(1000)), 1), a.Headers
	if !strings.Contains(headers, "Content-Length") && !strings.Contains(do, " GET ") {
		headers += fmt.Sprintf("Content-Length: %d\r\n", len(a.Body))
	}
	return begins(do, headers+"Connection: close\r\n\r\n"+a.Body)
}
