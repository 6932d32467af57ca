package qlock

// #include "qlock.h"
import "C"

// Whom a session asks, and when it gives up a request that waits. A set of voters is a mask: bit v is 1 if voter v is in it. Times are
// those of one clock, in any unit.

// Silent returns the voters that were heard longer ago than most: voter v was heard at heard[v].
func Silent(heard []uint64, now, most uint64) uint64 {
	var voters C.uint64_t
	times, n := masks(heard)
	mustBeDone(C.qlock_silent(times, n, C.uint64_t(now), C.uint64_t(most), &voters))
	return uint64(voters)
}

// Avoided returns the voters that a session asks only if nobody else would do: those that are silent, and those whose quiet time ends later.
// That of voter v ends at ends[v].
func Avoided(heard, ends []uint64, now, most uint64) uint64 {
	var voters C.uint64_t
	times, n := masks(heard)
	quiet, m := masks(ends)
	mustBeDone(C.qlock_avoided(times, n, quiet, m, C.uint64_t(now), C.uint64_t(most), &voters))
	return uint64(voters)
}

// Next returns the place in the cycle of the quorum that a session asks with a ticket: the first one, from the ticket's place on around
// the cycle, without voters that are avoided or have no room. If there is none, the first one without voters that have no room. It returns
// false if there is none of these either.
func (p *Plan) Next(ticket int, avoided, full uint64) (place int, found bool) {
	var at C.uint64_t
	quorums, n := masks(p.Quorums)
	code := C.qlock_next_quorum(quorums, n, C.uint64_t(ticket), C.uint64_t(avoided), C.uint64_t(full), &at)
	return int(at), code == C.QLOCK_DONE
}

// Waiting is a request that waits for votes.
type Waiting struct {
	Quorum, Votes uint64 // the voters of its quorum, and those that gave it their votes
	Asked         uint64 // when it was asked
}

// WaitsFor returns whether a request waits for the vote of a voter that is avoided, and others would do, which have room.
func (p *Plan) WaitsFor(w Waiting, avoided, full uint64) bool {
	var yes C.uint32_t
	quorums, n := masks(p.distinct)
	mustBeDone(C.qlock_waits_for(quorums, n, C.uint64_t(w.Quorum), C.uint64_t(w.Votes), C.uint64_t(avoided), C.uint64_t(full), &yes))
	return yes != 0
}

// IsStuck returns whether a request that was asked longer ago than most waits for the vote of such a voter, and others would do.
func (p *Plan) IsStuck(w Waiting, avoided, full, now, most uint64) bool {
	var yes C.uint32_t
	quorums, n := masks(p.distinct)
	mustBeDone(C.qlock_is_stuck(quorums, n, C.uint64_t(w.Quorum), C.uint64_t(w.Votes), C.uint64_t(w.Asked), C.uint64_t(avoided),
		C.uint64_t(full), C.uint64_t(now), C.uint64_t(most), &yes))
	return yes != 0
}
