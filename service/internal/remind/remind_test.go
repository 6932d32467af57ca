package remind

import (
	"testing"
	"time"
)

// The times between reminders double up to the greatest, and messages that come all the time put none off.
func TestBackOff(t *testing.T) {
	begin := time.Unix(1000, 0)
	timer := Timer{First: 100 * time.Millisecond, Most: time.Second}
	timer.Of(7, begin)
	var at []int
	for ms := 0; ms <= 4000; ms++ {
		now := begin.Add(time.Duration(ms) * time.Millisecond)
		timer.Of(7, now) // a message that changes nothing
		if timer.IsDue(now) {
			at = append(at, ms)
		}
	}
	want := []int{100, 300, 700, 1500, 2500, 3500}
	if len(at) != len(want) {
		t.Fatal(at)
	}
	for i := range want {
		if at[i] != want[i] {
			t.Fatal(at)
		}
	}
}

func TestSoonerNeverPutsOff(t *testing.T) {
	begin := time.Unix(1000, 0)
	timer := Timer{First: 100 * time.Millisecond, Most: time.Second}
	timer.Of(1, begin)
	reminders := 0
	for ms := 0; ms < 1000; ms++ {
		now := begin.Add(time.Duration(ms) * time.Millisecond)
		timer.Sooner(now)
		if timer.IsDue(now) {
			reminders++
		}
	}
	if reminders < 4 {
		t.Fatalf("%d reminders in a second", reminders)
	}
	if timer.Of(0, begin); timer.IsDue(begin.Add(time.Hour)) {
		t.Fatal("a reminder of nothing")
	}
}
