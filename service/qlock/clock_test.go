package qlock

import (
	"math/rand"
	"testing"
	"time"
)

// slowMarker is a marker of a slowClock.
type slowMarker struct {
	number uint64
	left   time.Duration
}

// slowClock is a lease clock by the rules of the service, as its voters had it before the proved one.
type slowClock struct {
	period, skipped time.Duration
	away            []slowMarker
	last, back      slowMarker
}

func (c *slowClock) send(now time.Duration) uint64 {
	if c.last.number > 0 && now-c.last.left < c.period {
		return 0
	}
	c.last = slowMarker{c.last.number + 1, now}
	if c.away = append(c.away, c.last); len(c.away) > 16 {
		c.away = c.away[1:]
	}
	return c.last.number
}

func (c *slowClock) returns(number uint64) {
	for i, one := range c.away {
		if one.number != number {
			continue
		}
		gone := one.left - c.back.left
		if number != c.back.number+1 {
			c.skipped += gone
		} else if gone > 2*c.period {
			c.skipped += gone - 2*c.period
		}
		c.back, c.away = one, append([]slowMarker(nil), c.away[i+1:]...)
		return
	}
}

// A clock does what the rules say, on random calls: markers leave, are lost, come back late, and again.
func TestClock(t *testing.T) {
	random := rand.New(rand.NewSource(76))
	lost, full := 0, 0
	for run := 0; run < 200; run++ {
		begin, now := time.Duration(random.Intn(1000)), time.Duration(0)
		now = begin
		period := time.Duration(1 + random.Intn(20))
		begun := slowMarker{0, begin}
		model, clock := slowClock{period: period, last: begun, back: begun}, NewClock(period, begin)
		for step := 0; step < 300; step++ {
			switch random.Intn(6) {
			case 0, 1, 2:
				if now += time.Duration(random.Intn(3 * int(period))); random.Intn(20) == 0 {
					now += 50 * period
				}
				want := model.send(now)
				if number := clock.Send(now); number != want {
					t.Fatalf("marker %d leaves, not %d", number, want)
				}
				if len(model.away) == 16 {
					full++
				}
			case 3, 4:
				number := uint64(random.Intn(5))
				if n := len(model.away); n > 0 && random.Intn(4) > 0 {
					number = model.away[random.Intn(n)].number
				}
				if number > model.back.number+1 {
					lost++
				}
				model.returns(number)
				clock.Returns(number)
			}
			heard, ttl := now-time.Duration(random.Intn(100)), time.Duration(random.Intn(50))
			if heard < 0 {
				heard = 0
			}
			reading, left := clock.Shows()
			if want := model.back.left - model.skipped; reading != want || left != model.back.left ||
				clock.At(now) != now-model.skipped || clock.IsSilent(heard, ttl) != (heard+ttl <= want) {
				t.Fatalf("run %d, step %d: %v, %v, and by the rules %+v", run, step, reading, left, model)
			}
		}
	}
	if lost == 0 || full == 0 {
		t.Errorf("%d markers came back after others were lost, %d times as many as can were under way", lost, full)
	}
}

// A time before the last marker left counts as when that left, and one before the beginning as the beginning.
func TestTimesThatFall(t *testing.T) {
	c := NewClock(time.Second, time.Minute)
	if c.Send(2*time.Minute) != 1 || c.Send(time.Minute) != 0 || c.At(time.Minute) != 2*time.Minute || c.At(-time.Minute) != 2*time.Minute {
		t.Error("a time may fall")
	}
	if reading, left := new(Clock).Shows(); reading != 0 || left != 0 {
		t.Error("the zero clock does not begin at 0")
	}
}
