package qlock

// #include "qlock.h"
import "C"

// Stamps is under which stamps a session may ask a voter. Only these calls write its bytes, so none is refused. It is not saved.
type Stamps struct{ state [StampsBytes]byte }

// NewStamps makes the stamps at a voter that told nothing.
func NewStamps() (s Stamps) {
	mustBeDone(C.qlock_stamps_new(at(s.state[:]), StampsBytes))
	return s
}

// Renew takes how often the voter was made again, after it lost its state, as any voter says. What it told before that counts no more.
func (s *Stamps) Renew(run uint64) {
	mustBeDone(C.qlock_stamps_renew(at(s.state[:]), StampsBytes, C.uint64_t(run)))
}

// Forget forgets what the voter told, and not how often it was made again: for another number, or another epoch.
func (s *Stamps) Forget() { mustBeDone(C.qlock_stamps_forget(at(s.state[:]), StampsBytes)) }

// Hear takes what the voter tells in this run: the base of the session's stamps, and up to which they are reserved. If it was made again
// since, nothing changes.
func (s *Stamps) Hear(run, base, reserved uint64) {
	mustBeDone(C.qlock_stamps_hear(at(s.state[:]), StampsBytes, C.uint64_t(run), C.uint64_t(base), C.uint64_t(reserved)))
}

// AllStamps is what a session keeps of its stamps at its voters, by their places. At a voter that there is not they are as new.
type AllStamps [MaxVoters]Stamps

// NewAllStamps makes the stamps of a session to which no voter told anything.
func NewAllStamps() (all AllStamps) {
	for v := range all {
		all[v] = NewStamps()
	}
	return all
}

// Owners returns the voters at which a stamp is the session's own. It may ask a quorum under the stamp if that has no voter but these.
func (all *AllStamps) Owners(stamp uint64) uint64 {
	var voters C.uint64_t
	mustBeDone(C.qlock_stamps_owners(at(all[0].state[:]), C.QLOCK_ALL_STAMPS_BYTES, C.uint64_t(stamp), &voters))
	return uint64(voters)
}
