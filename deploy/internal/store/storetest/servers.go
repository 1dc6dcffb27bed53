package storetest

import (
	"os"
	"testing"

	"luvdregan.example/resb/deploy/tests/harness"
)

// Memory returns a folder in memory, where syncs take no time, if there is one.
func Memory(t testing.TB) string {
	folder, err := os.MkdirTemp("/dev/shm", "resb")
	if err != nil {
		return t.TempDir()
	}
	t.Cleanup(func() { _ = os.RemoveAll(folder) })
	return folder
}

// Etcd starts a cluster with more arguments, which ends with the test, and returns it with the addresses
// of its members. If etcd isn't installed it skips the test.
func Etcd(t testing.TB, folder string, n int, more ...string) (c *harness.Cluster, endpoints string) {
	t.Helper()
	c = harness.NewCluster(t, folder, n, nil, more...)
	harness.StartAll(c.Members)
	return c, c.From(0)
}
