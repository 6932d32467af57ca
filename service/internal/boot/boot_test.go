package boot

import (
	"testing"

	"golang.org/x/sys/unix"
)

// A clock that can't be read ends the process.
func TestClockThatCanNotBeRead(t *testing.T) {
	before := Uptime()
	if before <= 0 || Uptime() < before {
		t.Error(before)
	}
	read = func(int32, *unix.Timespec) error { return unix.EPERM }
	defer func() {
		if read = unix.ClockGettime; recover() == nil {
			t.Error("a lease would never end")
		}
	}()
	Uptime()
}
