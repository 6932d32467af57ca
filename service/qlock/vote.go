package qlock

// #include "qlock.h"
import "C"

import "time"

// Incarnation says which life of a voter its words are of. It grows whenever the voter may have let a vote of the session go.
type Incarnation struct {
	Run    uint64 // how often the voter lost its state
	Start  uint64 // how often its process started in this run
	Lapses uint64 // how often it let a vote of the session go
}

// Lease is what a session knows of a voter. Only these calls write its bytes, so none is refused. It is not saved.
type Lease struct{ state [LeaseBytes]byte }

// NewLease makes the lease of a voter of which nothing was heard.
func NewLease() (l Lease) {
	mustBeDone(C.qlock_lease_new(at(l.state[:]), LeaseBytes))
	return l
}

// Hears hears the incarnation that a message of the voter says, and returns whether it is the latest one. A later one has
// acknowledged nothing yet: before that, each vote of this voter keeps what counts for it.
func (l *Lease) Hears(i Incarnation) bool {
	var latest C.uint32_t
	mustBeDone(C.qlock_lease_hears(at(l.state[:]), LeaseBytes, C.uint64_t(i.Run), C.uint64_t(i.Start), C.uint64_t(i.Lapses), &latest))
	return latest != 0
}

// Renews takes an acknowledgement of a heartbeat that left at this time. One of an earlier incarnation changes nothing.
func (l *Lease) Renews(i Incarnation, left time.Duration) {
	mustBeDone(C.qlock_lease_renews(at(l.state[:]), LeaseBytes, C.uint64_t(i.Run), C.uint64_t(i.Start), C.uint64_t(i.Lapses), nanoseconds(left)))
}

// vote is what a session has of one voter for one lock (LockClient).
type vote struct{ state [VoteBytes]byte }

// newVote makes the vote of a lock that the session did not ask for yet. Its requests have stamps above this one.
func newVote(used uint64) (v vote) {
	mustBeDone(C.qlock_vote_new(C.uint64_t(used), at(v.state[:]), VoteBytes))
	return v
}

// keeps keeps what counts for the vote by the voter's lease.
func (v *vote) keeps(l *Lease) {
	mustBeDone(C.qlock_vote_keeps(at(v.state[:]), VoteBytes, at(l.state[:]), LeaseBytes))
}

// until returns up to when the vote counts, where a heartbeat counts for this span after it left, and 0 if it does not count
// at all.
func (v *vote) until(l *Lease, span time.Duration) time.Duration {
	var end C.uint64_t
	mustBeDone(C.qlock_vote_until(at(v.state[:]), VoteBytes, at(l.state[:]), LeaseBytes, nanoseconds(span), &end))
	return time.Duration(end)
}
