package local

import (
	"os"
	"path/filepath"
	"testing"
)

// What a process has in memory is its own, or pages of files, also of those in memory.
func TestMemory(t *testing.T) {
	status := filepath.Join(t.TempDir(), "status")
	write := func(text string) {
		t.Helper()
		if err := os.WriteFile(status, []byte(text), 0o600); err != nil {
			t.Fatal(err)
		}
	}
	write("Name:\tqlock-voter\nVmRSS:\t  111 kB\nRssAnon:\t   100 kB\nRssFile:\t     8 kB\nRssShmem:\t     3 kB\nThreads:\t9\n")
	if m, err := memoryIn(status); err != nil || m != (Memory{Own: 100 << 10, OfFiles: 11 << 10}) {
		t.Errorf("%+v, %v", m, err)
	}
	write("Name:\tnobody\nVmRSS:\t  111 kB\n")
	if m, err := memoryIn(status); err == nil {
		t.Errorf("%+v", m)
	}
	if m, err := memoryIn("/proc/self/status"); err != nil || m.Own < 1<<20 {
		t.Errorf("%+v, %v", m, err)
	}
}
