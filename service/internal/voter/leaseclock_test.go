package voter

import (
	"testing"
	"time"
)

// tide is a lease clock whose markers a test sends and returns.
type tide struct {
	*testing.T
	now time.Time
	*table
}

func newTide(t *testing.T, ttl time.Duration) *tide {
	now := time.Unix(1000, 0)
	l := leases{ttl: ttl}
	l.begin(now)
	rows := newTable(&l, 0, Floor{})
	one := &tide{t, now, &rows}
	one.claim(3, "a", 1, 0, now)
	return one
}

// turn is a turn of a loop that takes some time. A marker that is due leaves, and comes back at its
// end, if it does.
func (c *tide) turn(takes time.Duration, comesBack bool) {
	number := c.clock.Send(c.now.Sub(c.began))
	if c.now = c.now.Add(takes); number > 0 && comesBack {
		c.clock.Returns(number)
		c.returned(c.now)
	}
}

// A session that is silent is dead after a TTL and a little more, and one that is heard is not,
// also where each turn takes long.
func TestLeasesEndWithSlowTurns(t *testing.T) {
	for _, takes := range []time.Duration{time.Millisecond, 50 * time.Millisecond, 300 * time.Millisecond,
		900 * time.Millisecond} {
		c := newTide(t, 2*time.Second)
		c.claim(4, "b", 1, 0, c.now)
		begin := c.now
		for !c.isDead(3) && c.now.Sub(begin) < time.Minute {
			c.turn(takes, true)
			if c.hear(4, c.now); c.isDead(4) {
				t.Fatalf("turns of %v: a session is dead that was heard", takes)
			}
		}
		if gone := c.now.Sub(begin); gone < c.ttl || gone > 2*c.ttl+2*takes {
			t.Errorf("turns of %v: a silent session is dead after %v", takes, gone)
		}
	}
}

// While the link is away no lease ends, and a link that flaps only delays the end.
func TestLeasesAndTheLink(t *testing.T) {
	c := newTide(t, 2*time.Second)
	for i := 0; i < 1000; i++ {
		c.turn(50*time.Millisecond, false)
	}
	if c.isDead(3) {
		t.Error("a lease ends while nobody can be heard")
	}
	c.turn(50*time.Millisecond, true)
	if c.turn(300*time.Millisecond, true); c.isDead(3) {
		t.Error("time counts in which nobody could be heard")
	}
	c = newTide(t, 2*time.Second)
	begin := c.now
	for i := 0; !c.isDead(3) && i < 2000; i++ { // half a second away, two there
		c.turn(50*time.Millisecond, i%50 >= 10)
	}
	if gone := c.now.Sub(begin); gone > 3*c.ttl {
		t.Errorf("where the link flaps a silent session is dead after %v", gone)
	}
}

// Time in which the process stood still counts for nobody.
func TestLeasesAndStandstill(t *testing.T) {
	c := newTide(t, 2*time.Second)
	c.turn(50*time.Millisecond, true)
	c.turn(30*time.Second, true)
	if c.turn(50*time.Millisecond, true); c.isDead(3) {
		t.Error("a client is let go for a standstill of the voter")
	}
	if reading, left := c.clock.Shows(); c.began.Add(reading).After(c.now) || left-reading > 31*time.Second {
		t.Error("the clock is ahead")
	}
	c.hear(3, c.now)
	for begin := c.now; !c.isDead(3); c.turn(50*time.Millisecond, true) {
		if c.now.Sub(begin) > 2*c.ttl {
			t.Fatal("a session that is silent after a standstill keeps its votes")
		}
	}
}

// A session that was heard as the voter went on after a standstill, before a marker was back, lives for no longer than others: for
// a TTL, and not for the standstill besides.
func TestHeardAfterAStandstill(t *testing.T) {
	c := newTide(t, 2*time.Second)
	for i := 0; i < 20; i++ {
		c.turn(50*time.Millisecond, true)
	}
	c.now = c.now.Add(time.Minute)
	c.hear(3, c.now)
	begin := c.now
	for ; !c.isDead(3) && c.now.Sub(begin) < time.Hour; c.turn(50*time.Millisecond, true) {
	}
	if gone := c.now.Sub(begin); gone < c.ttl || gone > 2*c.ttl {
		t.Errorf("it is dead after %v", gone)
	}
}

// A marker that comes again, late, or from nowhere says nothing.
func TestWhichMarkersCount(t *testing.T) {
	c := newTide(t, 2*time.Second)
	first := c.clock.Send(0)
	second := c.clock.Send(time.Second)
	c.clock.Returns(second)
	before := c.clock
	for _, number := range []uint64{first, second, 77, 0} {
		if c.clock.Returns(number); c.clock != before {
			t.Errorf("marker %d counts", number)
		}
	}
}
