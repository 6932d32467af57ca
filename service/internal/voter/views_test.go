package voter

import (
	"testing"
	"time"
)

// A session that was heard after the last marker is shown as silent for no time, and not for less.
func TestShownSilence(t *testing.T) {
	d, _ := alone(t, 100)
	d.repliesTo("jobs", 1, ". claim 1 1 1000\n")
	for ahead, want := range map[time.Duration]float64{time.Second: 0, 0: 0, -2 * time.Second: 2} {
		reading, _ := d.leases.clock.Shows()
		d.shard(0).seat(1).heard = reading + ahead
		if views := allOf(t, d).Sessions; len(views) != 2 || views[1].Silent != want {
			t.Errorf("heard %v after the reading: %+v", ahead, views)
		}
	}
}
