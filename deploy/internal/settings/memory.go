package settings

import (
	"fmt"
	"os"
	"path/filepath"
	"strings"
)

// machineMemory returns the memory of the machine, or of the control group if that has less.
func machineMemory() int64 {
	memory := int64(2 << 20)
	if content, err := os.ReadFile("/proc/meminfo"); err == nil {
		_, _ = fmt.Sscanf(string(content), "MemTotal: %d kB", &memory)
	}
	memory <<= 10
	groups, _ := os.ReadFile("/proc/self/cgroup") // without one there is no limit
	if most := groupMemory("/sys/fs/cgroup", string(groups)); most > 0 && most < memory {
		memory = most
	}
	return memory
}

// groupMemory returns the least limit on the memory of a process's control groups and of those around them, or 0 if there is none. The text is that
// of /proc/self/cgroup.
func groupMemory(mount, groups string) (limit int64) {
	for _, line := range strings.Split(groups, "\n") {
		number, rest, _ := strings.Cut(line, ":")
		controllers, group, _ := strings.Cut(rest, ":")
		most := int64(0)
		if strings.Contains(","+controllers+",", ",memory,") { // version 1
			most = leastLimit(filepath.Join(mount, "memory"), group, "memory.limit_in_bytes")
		} else if number == "0" && controllers == "" {
			most = leastLimit(mount, group, "memory.max")
		}
		if most > 0 && (limit == 0 || most < limit) {
			limit = most
		}
	}
	return limit
}

// leastLimit returns the least number in the files of a group and of those around it, or 0. Inside a container the outermost one has the limit, and a
// group that is named as the host does may be missing.
func leastLimit(mount, group, file string) (limit int64) {
	for at := filepath.Join("/", group); ; at = filepath.Dir(at) {
		most := int64(0)
		content, _ := os.ReadFile(filepath.Join(mount, at, file))
		if _, err := fmt.Sscan(string(content), &most); err == nil && (limit == 0 || most < limit) {
			limit = most
		}
		if at == "/" {
			return limit
		}
	}
}
