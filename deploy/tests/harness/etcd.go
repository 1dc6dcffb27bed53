package harness

import (
	"fmt"
	"os"
	"os/exec"
	"path/filepath"
	"strings"
	"testing"
	"time"
)

// A Cluster is a number of etcd members.
type Cluster struct {
	Members   []*Process
	Endpoints []string // the members' addresses for gateways
	Outside   []string // and for etcdctl
	Folders   []string
}

// NewCluster returns members that aren't started yet, and skips the test without etcd. With a network
// each is on its own machine.
func NewCluster(t testing.TB, folder string, n int, net *Network, more ...string) *Cluster {
	t.Helper()
	for _, command := range []string{"etcd", "etcdctl"} {
		if _, err := exec.LookPath(command); err != nil {
			t.Skipf("skipped: %s isn't there", command)
		}
	}
	c, scheme := &Cluster{}, "http://"
	if strings.Contains(strings.Join(more, " "), "--cert-file") {
		scheme = "https://"
	}
	ports, peers, initial := Ports(t, 2*n), make([]string, n), make([]string, n)
	for i := range peers {
		host := net.Inner(i)
		peers[i] = fmt.Sprintf("http://%s:%d", host, ports[2*i+1])
		initial[i] = fmt.Sprintf("etcd%d=%s", i, peers[i])
		c.Endpoints = append(c.Endpoints, fmt.Sprintf("%s%s:%d", scheme, host, ports[2*i]))
		c.Folders = append(c.Folders, filepath.Join(folder, fmt.Sprintf("etcd%d", i)))
	}
	for i, endpoint := range c.Endpoints {
		// the machine's outer address answers for its health while the inner network is cut
		c.Outside = append(c.Outside, fmt.Sprintf("%s%s:%d", scheme, net.Outer(i), ports[2*i]))
		client := endpoint
		p := &Process{T: t, Name: fmt.Sprintf("etcd%d", i), Health: c.Outside[i] + "/health"}
		if net != nil {
			p.Args = []string{"ip", "netns", "exec", net.Namespace(i)}
			client += "," + c.Outside[i]
		}
		p.Args = append(append(p.Args, "etcd", "--name", p.Name, "--data-dir", c.Folders[i], "--listen-client-urls", client,
			"--advertise-client-urls", endpoint, "--listen-peer-urls", peers[i], "--initial-advertise-peer-urls", peers[i],
			"--initial-cluster", strings.Join(initial, ","), "--log-level", "error", "--logger", "zap", "--pre-vote"), more...)
		t.Cleanup(p.Kill)
		c.Members = append(c.Members, p)
	}
	return c
}

// StartAll starts processes, and waits until all are ready.
func StartAll(all []*Process) {
	for _, p := range all {
		p.Start()
	}
	AwaitAll(all, Generous)
}

// AwaitAll waits until processes are ready.
func AwaitAll(all []*Process, most time.Duration) {
	for _, p := range all {
		p.Await(most)
	}
}

// From returns the addresses of the members, those of machine i first.
func (c *Cluster) From(i int) string {
	return strings.Join(append(append([]string{}, c.Endpoints[i:]...), c.Endpoints[:i]...), ",")
}

// Ctl runs etcdctl.
func (c *Cluster) Ctl(arguments ...string) (string, error) {
	command := exec.Command("etcdctl", append([]string{"--endpoints", strings.Join(c.Outside, ",")}, arguments...)...)
	command.Env = append(os.Environ(), "ETCDCTL_API=3")
	text, err := command.CombinedOutput()
	if err != nil {
		err = fmt.Errorf("etcdctl %s: %w: %s", strings.Join(arguments, " "), err, text)
	}
	return string(text), err
}

// Restore ends the members, and restores a snapshot at each. They must be started then.
func (c *Cluster) Restore(file string) {
	for i, p := range c.Members {
		p.Kill()
		Must(p.T, os.RemoveAll(c.Folders[i]))
		arguments := []string{"snapshot", "restore", file, "--data-dir", c.Folders[i]}
		for n, argument := range p.Args {
			if strings.Contains(" --name --initial-cluster --initial-advertise-peer-urls ", " "+argument+" ") {
				arguments = append(arguments, argument, p.Args[n+1])
			}
		}
		_, err := c.Ctl(arguments...)
		Must(p.T, err)
	}
}

// Machines are three gateways over three members.
type Machines struct {
	*Cluster
	Gateways []*Gateway
	Net      *Network
	Both     []*Process // gateways and members
}

// NewMachines starts three machines, in namespaces of a network if they shall be cut off.
func NewMachines(t testing.TB, cut bool, options []string, more ...string) *Machines {
	t.Helper()
	m, folder := &Machines{}, t.TempDir()
	if cut {
		m.Net = NewNetwork(t, 3)
	}
	m.Cluster = NewCluster(t, folder, 3, m.Net, more...)
	StartAll(m.Members)
	for i := range m.Members {
		s := Setup{Etcd: m.From(i), Host: m.Net.Outer(i), Options: options}
		if m.Net != nil {
			s.Network = m.Net.Namespace(i)
		}
		g := New(t, s)
		m.Gateways, m.Both = append(m.Gateways, g), append(m.Both, g.Process)
	}
	StartAll(m.Both)
	m.Both = append(m.Both, m.Members...)
	return m
}

// URLs returns the addresses of the gateways.
func (m *Machines) URLs() (all []string) {
	for _, g := range m.Gateways {
		all = append(all, g.URL)
	}
	return all
}
