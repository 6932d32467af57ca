package moment

import (
	"testing"
	"time"
)

// A time is the same after it was kept, whether it is of this machine's clock or of a simulated one, and Never is before all of them.
func TestMoments(t *testing.T) {
	now := time.Now()
	for _, one := range []time.Time{now, now.Add(time.Hour), time.Unix(1000, 17), time.Unix(1<<32, 0)} {
		kept := Of(one)
		if !kept.Time().Equal(one) || one.Sub(kept.Time()) != 0 {
			t.Errorf("%v is kept as %v", one, kept.Time())
		}
		if kept <= Never || one.Sub(Never.Time()) < time.Hour || Of(one.Add(time.Second)) != kept+Moment(time.Second) {
			t.Errorf("%v: %d", one, kept)
		}
	}
}
