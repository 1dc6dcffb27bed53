package http

import (
	"encoding/json"
	"fmt"
	"os"
	"os/exec"
	"path/filepath"
	"regexp"
	"strings"
	"testing"
	"time"

	"luvdregan.example/resb/deploy/tests/harness"
)

// TestAReadOnlyRoot runs a gateway in a mount namespace in which only the folder of its state can be written, and no folder for temporary files.
func TestAReadOnlyRoot(t *testing.T) {
	t.Parallel()
	if exec.Command("unshare", "--mount", "true").Run() != nil {
		t.Skip("skipped: no mount namespace can be made")
	}
	s := prepare(t)
	must(t, os.Mkdir(s.State, 0o700))
	const script = `mount --bind "$1" "$1" && mount -o remount,bind,ro / && ! touch "$1.x" 2>/dev/null && shift && exec "$@"`
	s.Args = append([]string{"unshare", "--mount", "sh", "-c", script, "sh", s.State}, s.Args...)
	s.Start()
	s.Await(generous)
	s.put("de", `de{a{"A"} b{"`+harness.Noise(100000)+`"}}`)
	s.put("de", `de{a{"A"}}`)
	s.is("de_AT/a", "A")
	s.run([]step{{"r GET /v1/shop/de?tree", "", "", 200, `"a":"A"`, ""}, {"w GET /v1/shop/_history/4096/diff?with=8192", "", "", 200, `"path":"b"`, ""},
		{"w DELETE /v1/shop?erase", "", "", 200, "", ""}, {"w POST /v1/shop/_erasure/undo", "", "", 200, "", ""}}...)
	if got := s.ask("POST", "/v1/shop/_releases", shopWrites, zipOf(t, namedText{"fr.txt", `fr{a{"F"}}`}), "Content-Type", asZip); got.Status != 200 {
		t.Errorf("%d %s", got.Status, got.Body)
	}
	if got := s.ask("POST", "/v1/shop/_check/de.txt", shopWrites, "de{"); got.Status != 200 {
		t.Errorf("%d %s", got.Status, got.Body)
	}
}

// A probe is one of a container.
type probe struct {
	HTTPGet struct{ Path, Port string }
}

// A workload is what the test reads of deploy/kubernetes.yaml.
type workload struct {
	Kind string
	Spec struct {
		Selector json.RawMessage
		Ports    []struct{ TargetPort string }
		Template struct {
			Metadata struct{ Labels map[string]string }
			Spec     struct {
				Containers []struct {
					Args  []string
					Ports []struct {
						Name          string
						ContainerPort int
					}
					StartupProbe, LivenessProbe, ReadinessProbe probe
					SecurityContext                             struct{ ReadOnlyRootFilesystem bool }
					VolumeMounts                                []struct{ Name, MountPath string }
				}
				Volumes []struct{ Name string }
			}
		}
		VolumeClaimTemplates []struct{ Metadata struct{ Name string } }
	}
}

// TestKubernetes reads deploy/kubernetes.yaml with Python's parser: its names fit each other, the gateway starts by its arguments after those of the
// container file, and each probe is answered.
func TestKubernetes(t *testing.T) {
	t.Parallel()
	const toJSON = "import json, sys, yaml; json.dump(list(yaml.safe_load_all(open(sys.argv[1]))), sys.stdout)"
	if exec.Command("/usr/bin/python3", "-c", "import yaml").Run() != nil {
		t.Skip("skipped: python3-yaml is not there")
	}
	text, err := exec.Command("/usr/bin/python3", "-c", toJSON, harness.Top("deploy/kubernetes.yaml")).Output()
	must(t, err)
	var all []workload
	must(t, json.Unmarshal(text, &all))
	service, pod := all[0].Spec, all[1].Spec.Template.Spec
	label := all[1].Spec.Template.Metadata.Labels["app"]
	equal(t, []string{all[0].Kind, all[1].Kind, string(service.Selector), string(all[1].Spec.Selector)},
		[]string{"Service", "StatefulSet", `{"app": "` + label + `"}`, `{"matchLabels": {"app": "` + label + `"}}`})
	container, volumes := pod.Containers[0], map[string]bool{}
	for _, v := range pod.Volumes {
		volumes[v.Name] = true
	}
	volumes[all[1].Spec.VolumeClaimTemplates[0].Metadata.Name] = true
	for _, mounted := range container.VolumeMounts {
		errorIf(t, !volumes[mounted.Name], "there is no volume %s", mounted.Name)
	}
	errorIf(t, !container.SecurityContext.ReadOnlyRootFilesystem, "the root can be written")
	s := prepare(t)
	at := map[string]string{}
	for _, p := range container.Ports {
		at[p.Name] = map[int]string{6422: "http://" + s.Address, 6423: s.Inside}[p.ContainerPort]
	}
	errorIf(t, at[service.Ports[0].TargetPort] != s.URL, "the service leads to %v", service.Ports)
	given := strings.NewReplacer("0.0.0.0:6422", s.Address, "0.0.0.0:6423", strings.TrimPrefix(s.Inside, "http://"), "/etc/resb/tokens", s.Tokens,
		"/var/lib/resb-gateway", s.State).Replace(strings.Join(append(entrypoint(t), container.Args...), "\n"))
	s.Args = append([]string{s.Args[0]}, strings.Split(given, "\n")[1:]...)
	s.Start()
	s.Await(generous)
	s.put("de", `de{a{"A"}}`)
	for name, p := range map[string]probe{"startup": container.StartupProbe, "liveness": container.LivenessProbe, "readiness": container.ReadinessProbe} {
		got, err := harness.Send(harness.Client, "GET", at[p.HTTPGet.Port]+p.HTTPGet.Path, "", "")
		errorIf(t, err != nil || got.Status != 200, "%s: %v %+v", name, err, got)
	}
}

// entrypoint returns the words of the container file's ENTRYPOINT.
func entrypoint(t *testing.T) (words []string) {
	t.Helper()
	file, err := os.ReadFile(harness.Top("deploy/Containerfile"))
	must(t, err)
	found := regexp.MustCompile(`(?m)^ENTRYPOINT (.*)$`).FindSubmatch(file)
	must(t, json.Unmarshal(found[1], &words))
	return words
}

// TestTheHealthCheckOfTheContainer is answered by a gateway with a certificate too.
func TestTheHealthCheckOfTheContainer(t *testing.T) {
	t.Parallel()
	file, err := os.ReadFile(harness.Top("deploy/Containerfile"))
	must(t, err)
	found := regexp.MustCompile(`(?m)^HEALTHCHECK .* CMD (.*)$`).FindSubmatch(file)
	folder := t.TempDir()
	writePair(t, folder, 1, time.Now())
	for _, options := range [][]string{nil, {"-cert", filepath.Join(folder, "cert"), "-key", filepath.Join(folder, "key")}} {
		s := prepare(t, options...)
		s.Health = s.Inside + "/readyz"
		s.Start()
		s.Await(generous)
		var words []string
		must(t, json.Unmarshal(found[1], &words))
		words[len(words)-1] = strings.Replace(words[len(words)-1], "127.0.0.1:6422", s.Address, 1)
		command(t, 0, "", words[1:]...)
	}
}

// TestEtcdSettings starts three members by deploy/etcd.default, and two gateways over them. A gateway without a certificate is refused.
func TestEtcdSettings(t *testing.T) {
	if _, err := exec.LookPath("etcd"); err != nil {
		t.Skip("skipped: there is no etcd")
	}
	t.Parallel()
	text, err := os.ReadFile(harness.Top("deploy/etcd.default"))
	must(t, err)
	folder, ports, names := t.TempDir(), harness.Ports(t, 9), []string{"first", "second", "third"}
	writePair(t, folder, 1, time.Now())
	cert, key := filepath.Join(folder, "cert"), filepath.Join(folder, "key")
	local := func(n int) string { return fmt.Sprint("127.0.0.1:", ports[n]) }
	peers := []string{"10.0.0.1:2380", local(3), "10.0.0.2:2380", local(4), "10.0.0.3:2380", local(5)}
	var members []*harness.Process
	var endpoints []string
	for i, name := range names {
		own := strings.NewReplacer(append([]string{"_URLS=https://10.0.0.1:2379", "_URLS=https://" + local(i), "PEER_URLS=https://10.0.0.1:2380", "PEER_URLS=https://" + local(3+i),
			"127.0.0.1:2381", local(6 + i), "_NAME=first", "_NAME=" + name, "/var/lib/etcd", filepath.Join(folder, name), "/etc/etcd/member.pem", cert,
			"/etc/etcd/member.key", key, "/etc/etcd/ca.pem", cert}, peers...)...)
		p := &harness.Process{T: t, Name: name, Args: []string{"etcd"}, Health: "http://" + local(6+i) + "/health"}
		for _, line := range strings.Split(own.Replace(string(text)), "\n") {
			if strings.HasPrefix(line, "ETCD_") {
				p.Env = append(p.Env, line)
			}
		}
		must(t, os.Mkdir(filepath.Join(folder, name), 0o700))
		t.Cleanup(p.Kill)
		members, endpoints = append(members, p), append(endpoints, "https://"+local(i))
	}
	harness.StartAll(members)
	start := func(options ...string) *site {
		s := &site{harness.New(t, harness.Setup{Etcd: strings.Join(endpoints, ","), Options: options}), t}
		s.Start()
		return s
	}
	first, second := start("-etcd-ca", cert, "-etcd-cert", cert, "-etcd-key", key), start("-etcd-ca", cert, "-etcd-cert", cert, "-etcd-key", key)
	refused := start("-etcd-ca", cert)
	first.Await(generous)
	second.Await(generous)
	first.put("de", `de{a{"A"}}`)
	equal(t, second.get("/v1/shop/de/a?after=1").Value(), "A")
	errorIf(t, refused.Healthy(), "a gateway without a certificate is answered")
}
