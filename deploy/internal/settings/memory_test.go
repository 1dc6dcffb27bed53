package settings

import (
	"os"
	"path/filepath"
	"testing"

	"luvdregan.example/resb/deploy/tests/harness"
)

// TestGroupMemory finds the least limit around a process: in control groups of both versions, and in a container, which sees its group as the
// outermost one.
func TestGroupMemory(t *testing.T) {
	for name, c := range map[string]struct {
		groups string
		files  map[string]string
		want   int64
	}{
		"version 2":                {"0::/a.slice/b.service\n", map[string]string{"a.slice/memory.max": "3000\n", "a.slice/b.service/memory.max": "max\n"}, 3000},
		"version 2, the inner one": {"0::/a/b\n", map[string]string{"a/memory.max": "3000\n", "a/b/memory.max": "2000\n"}, 2000},
		"version 2, a container":   {"0::/\n", map[string]string{"memory.max": "4000\n"}, 4000},
		"version 1": {"9:name=systemd:/x\n4:cpu,memory:/a/b\n0::/\n", map[string]string{"memory/memory.limit_in_bytes": "9223372036854771712\n",
			"memory/a/memory.limit_in_bytes": "3000\n", "memory/a/b/memory.limit_in_bytes": "5000\n"}, 3000},
		"version 1, a container": {"4:memory:/docker/0123\n", map[string]string{"memory/memory.limit_in_bytes": "4000\n"}, 4000},
		"no limit":               {"0::/a\n", map[string]string{"a/memory.max": "max\n"}, 0},
		"no groups":              {"", nil, 0},
	} {
		mount := t.TempDir()
		for file, text := range c.files {
			harness.Must(t, os.MkdirAll(filepath.Dir(filepath.Join(mount, file)), 0o700))
			harness.Must(t, os.WriteFile(filepath.Join(mount, file), []byte(text), 0o600))
		}
		harness.Equal(t, groupMemory(mount, c.groups), c.want, name)
	}
}
