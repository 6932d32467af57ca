// Package boot has the clock of a machine since its start.
package boot

import (
	"fmt"
	"time"

	"golang.org/x/sys/unix"
)

// read reads a clock of the system.
var read = unix.ClockGettime

// Uptime is a clock that also goes on while the machine sleeps. That of package time does not. All processes of a host read the same, but
// for those in another time namespace. If it can't be read it panics: a lease by a clock that stands still would never end.
func Uptime() time.Duration {
	var t unix.Timespec
	if err := read(unix.CLOCK_BOOTTIME, &t); err != nil {
		panic(fmt.Sprintf("CLOCK_BOOTTIME can't be read: %v", err))
	}
	return time.Duration(t.Nano())
}
