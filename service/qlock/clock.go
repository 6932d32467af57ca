package qlock

// #include "qlock.h"
import "C"

import "time"

// Clock is the lease clock of a voter: it says for how long a session was silent. Times are those of one clock of the
// caller that never falls, since it began. The caller sends itself markers through the way by which clients' messages
// come. The clock goes on up to the newest marker that came back, less the time in which nobody could be heard. It is not
// saved: a voter that starts makes a new one. No call can be refused, as only these calls write its bytes.
type Clock struct{ state [ClockBytes]byte }

// NewClock makes a lease clock that begins now. A marker leaves each period.
func NewClock(period, now time.Duration) *Clock {
	c := new(Clock)
	mustBeDone(C.qlock_clock_new(nanoseconds(period), nanoseconds(now), at(c.state[:]), ClockBytes))
	return c
}

// Send returns the number of a marker that leaves now, if it is time for one, and 0 if not. The caller sends it.
func (c *Clock) Send(now time.Duration) (marker uint64) {
	var number C.uint64_t
	mustBeDone(C.qlock_clock_send(at(c.state[:]), ClockBytes, nanoseconds(now), &number))
	return uint64(number)
}

// Returns notes that a marker came back. One that is not under way changes nothing.
func (c *Clock) Returns(marker uint64) {
	mustBeDone(C.qlock_clock_returns(at(c.state[:]), ClockBytes, C.uint64_t(marker)))
}

// At returns the reading at which a session is heard that is heard now. Read the time after its message was taken.
func (c *Clock) At(now time.Duration) (reading time.Duration) {
	var shown C.uint64_t
	mustBeDone(C.qlock_clock_at(at(c.state[:]), ClockBytes, nanoseconds(now), &shown))
	return time.Duration(shown)
}

// Shows returns the reading up to which all that was sent was heard, and when the newest marker left that came back.
func (c *Clock) Shows() (reading, left time.Duration) {
	var shown, when C.uint64_t
	mustBeDone(C.qlock_clock_shows(at(c.state[:]), ClockBytes, &shown, &when))
	return time.Duration(shown), time.Duration(when)
}

// IsSilent returns whether a session that was heard at this reading is silent for a TTL.
func (c *Clock) IsSilent(heard, ttl time.Duration) bool {
	var yes C.uint32_t
	mustBeDone(C.qlock_clock_is_silent(at(c.state[:]), ClockBytes, nanoseconds(heard), nanoseconds(ttl), &yes))
	return yes != 0
}

// nanoseconds returns a time as the clock reads it. None is before the beginning.
func nanoseconds(time time.Duration) C.uint64_t {
	if time < 0 {
		return 0
	}
	return C.uint64_t(time)
}

// mustBeDone panics if a call was refused that can't be.
func mustBeDone(code C.int32_t) { must(refusal(code)) }

func must(err error) {
	if err != nil {
		panic(err)
	}
}
