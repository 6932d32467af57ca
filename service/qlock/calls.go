package qlock

// #include "qlock.h"
import "C"

// CallAnswer is whether a call is taken, and why not.
type CallAnswer uint32

// The answers to a call.
const (
	CallTaken  CallAnswer = C.QLOCK_CALL_TAKEN
	CallClosed CallAnswer = C.QLOCK_CALL_CLOSED // the session is closed
	CallHeld   CallAnswer = C.QLOCK_CALL_HELD   // it only tries, and the lock is asked for, had, or waited for
	TooMany    CallAnswer = C.QLOCK_CALL_TOO_MANY
)

// Next is what a session has to do for its calls.
type Next uint32

// What may be next.
const (
	Nothing Next = C.QLOCK_NEXT_NOTHING
	Ask     Next = C.QLOCK_NEXT_ASK     // it asks for the lock with a new request
	GiveUp  Next = C.QLOCK_NEXT_GIVE_UP // it gives up the request by which it asks
	Leave   Next = C.QLOCK_NEXT_LEAVE   // it ends the request by which it is inside
	Hand    Next = C.QLOCK_NEXT_HAND    // it hands the lock to the first call that waits
	Lose    Next = C.QLOCK_NEXT_LOSE    // it tells the call that has the lock that it may be lost
)

// calls are the calls of a process for one lock (LockClient): how many wait, and which one has the lock. The host keeps them in their order.
type calls struct{ state [CallsBytes]byte }

// newCalls makes the calls for a lock that nobody wants yet, whose requests have stamps above this one.
func newCalls(used uint64) (c calls) {
	mustBeDone(C.qlock_calls_new(C.uint64_t(used), at(c.state[:]), CallsBytes))
	return c
}

func (c *calls) unwants(tries bool) {
	mustBeDone(C.qlock_calls_unwants(at(c.state[:]), CallsBytes, truth(tries)))
}

func (c *calls) unlocks(stamp uint64) (had, wasLost bool) {
	var how C.uint32_t
	mustBeDone(C.qlock_calls_unlocks(at(c.state[:]), CallsBytes, C.uint64_t(stamp), &how))
	return how != C.QLOCK_UNLOCK_NONE, how == C.QLOCK_UNLOCK_LOST
}

func (c *calls) loses() bool {
	var yes C.uint32_t
	mustBeDone(C.qlock_calls_loses(at(c.state[:]), CallsBytes, &yes))
	return yes != 0
}

func (c *calls) ends(closes bool) {
	mustBeDone(C.qlock_calls_end(at(c.state[:]), CallsBytes, truth(closes)))
}

func (c *calls) mayEnd(stamp uint64) bool {
	var yes C.uint32_t
	mustBeDone(C.qlock_calls_may_end(at(c.state[:]), CallsBytes, C.uint64_t(stamp), &yes))
	return yes != 0
}
