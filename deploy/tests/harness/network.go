package harness

import (
	"fmt"
	"os"
	"os/exec"
	"strings"
	"testing"
)

// A Network has machines in network namespaces. Each has an inner address, which the other machines
// reach, and an outer one, which only this machine reaches: a machine that is cut off from the others
// is still asked by callers. Without a network all machines are on loopback.
type Network struct {
	t      testing.TB
	prefix string
}

// NewNetwork makes the namespaces, and skips the test where that isn't allowed.
func NewNetwork(t testing.TB, machines int) *Network {
	t.Helper()
	n := &Network{t, fmt.Sprintf("g%d-", os.Getpid()%100000)}
	commands := []string{"ip link add Pb type bridge", "ip link set Pb up", "ip link add Pc type bridge",
		"ip addr add " + n.Outer(253) + "/24 dev Pc", "ip link set Pc up"}
	remove := []string{"ip link del Pb", "ip link del Pc"}
	for i := 0; i < machines; i++ {
		of := strings.NewReplacer("N", n.Namespace(i), "INNER", n.Inner(i)+"/24", "OUTER", n.Outer(i)+"/24")
		commands = append(commands, strings.Split(of.Replace("ip netns add N,ip -n N link set lo up,"+
			"ip link add Ni type veth peer name in netns N,ip link set Ni master Pb,ip link set Ni up,"+
			"ip -n N addr add INNER dev in,ip -n N link set in up,ip link add No type veth peer name out netns N,"+
			"ip link set No master Pc,ip link set No up,ip -n N addr add OUTER dev out,ip -n N link set out up"), ",")...)
		remove = append(remove, strings.Split(of.Replace("ip link del Ni,ip link del No,ip netns del N"), ",")...)
	}
	removeAll := func() {
		for _, command := range remove {
			_ = n.run(command)
		}
	}
	t.Cleanup(removeAll)
	removeAll()
	for _, command := range commands {
		if err := n.run(command); err != nil {
			t.Skipf("skipped: %v", err)
		}
	}
	return n
}

func (n *Network) run(command string) error {
	words := strings.Fields(strings.ReplaceAll(command, " P", " "+n.prefix))
	if text, err := exec.Command(words[0], words[1:]...).CombinedOutput(); err != nil {
		return fmt.Errorf("%s: %w: %s", strings.Join(words, " "), err, text)
	}
	return nil
}

// Namespace returns the name of a machine's namespace.
func (n *Network) Namespace(i int) string { return fmt.Sprint(n.prefix, i) }

// Inner returns a machine's address for the other machines.
func (n *Network) Inner(i int) string { return n.address(128, i) }

// Outer returns a machine's address for callers.
func (n *Network) Outer(i int) string { return n.address(190, i) }

func (n *Network) address(first, i int) string {
	if n == nil {
		return "127.0.0.1"
	}
	return fmt.Sprintf("10.%d.%d.%d", first+os.Getpid()/250%60, os.Getpid()%250, i+1)
}

// Cut cuts a machine off from the others, or joins it again.
func (n *Network) Cut(i int, cut bool) {
	state := map[bool]string{true: "down", false: "up"}[cut]
	if err := n.run("ip link set " + n.Namespace(i) + "i " + state); err != nil {
		n.t.Error(err)
	}
}
