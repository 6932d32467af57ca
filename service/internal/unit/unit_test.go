package unit

import (
	"net"
	"path/filepath"
	"sync/atomic"
	"testing"
	"time"
)

// A unit hears that the program has started, and that its loop goes round as long as it does.
func TestNotify(t *testing.T) {
	path := filepath.Join(t.TempDir(), "notify")
	listener, err := net.ListenUnixgram("unixgram", &net.UnixAddr{Name: path, Net: "unixgram"})
	if err != nil {
		t.Fatal(err)
	}
	defer listener.Close()
	t.Setenv("NOTIFY_SOCKET", path)
	t.Setenv("WATCHDOG_USEC", "90000")
	hears := func(most time.Duration) string {
		word := make([]byte, 100)
		_ = listener.SetReadDeadline(time.Now().Add(most))
		n, _ := listener.Read(word)
		return string(word[:n])
	}
	var lively atomic.Bool
	lively.Store(true)
	ended := make(chan struct{})
	defer close(ended)
	if err := Notify(func(time.Duration) bool { return lively.Load() }, ended); err != nil {
		t.Fatal(err)
	}
	if word := hears(5 * time.Second); word != "READY=1" {
		t.Error(word)
	}
	if word := hears(5 * time.Second); word != "WATCHDOG=1" {
		t.Error(word)
	}
	lively.Store(false)
	for hears(200*time.Millisecond) != "" { // what was said before
	}
	if word := hears(300 * time.Millisecond); word != "" {
		t.Errorf("a loop that stands still says %s", word)
	}
	t.Setenv("NOTIFY_SOCKET", "")
	if err := Notify(nil, ended); err != nil {
		t.Error(err)
	}
}
