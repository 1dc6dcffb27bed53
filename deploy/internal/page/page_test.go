package page

import (
	"os/exec"
	"regexp"
	"testing"
)

// TestTheSources have nothing that the policy forbids or that makes a text a part of the page.
func TestTheSources(t *testing.T) {
	bad := regexp.MustCompile(`innerHTML|outerHTML|insertAdjacentHTML|document\.write|\beval\(|new Function|<script>|<style|\sstyle="|\son[a-z]+="|https?://`)
	entries, err := files.ReadDir(".")
	if err != nil || len(entries) < 10 {
		t.Fatal(err, len(entries))
	}
	for _, entry := range entries {
		content, kind, there := Find(entry.Name())
		if found := bad.Find(content); found != nil || !there || kind == "" {
			t.Errorf("%s has %q", entry.Name(), found)
		}
	}
	if _, _, there := Find("page.go"); there {
		t.Error("a source of the gateway is served")
	}
}

// TestTheModules runs modules_test.mjs.
func TestTheModules(t *testing.T) {
	path, err := exec.LookPath("node")
	if err != nil {
		t.Skip("skipped: node is not there")
	}
	if said, err := exec.Command(path, "testdata/modules_test.mjs").CombinedOutput(); err != nil {
		t.Errorf("%v\n%s", err, said)
	}
}
