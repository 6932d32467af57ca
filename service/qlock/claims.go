package qlock

// #include "qlock.h"
import "C"

// Claims is what a session keeps of its claims of one number. Only these calls write its bytes, so none is refused. It is not saved, and
// is kept as long as the session's name is used.
type Claims struct{ state [ClaimBytes]byte }

// NewClaims makes what is kept of a number of which nothing was heard.
func NewClaims() (c Claims) {
	mustBeDone(C.qlock_claim_new(at(c.state[:]), ClaimBytes))
	return c
}

// Sees hears of an epoch of the number: late, in any order, or again.
func (c *Claims) Sees(epoch uint64) {
	mustBeDone(C.qlock_claim_sees(at(c.state[:]), ClaimBytes, C.uint64_t(epoch)))
}

// Next claims the number under the next epoch, and returns that, and 0 if there is none: then nothing changes.
func (c *Claims) Next() uint64 {
	var epoch C.uint64_t
	mustBeDone(C.qlock_claim_next(at(c.state[:]), ClaimBytes, &epoch))
	return uint64(epoch)
}

// Accepts takes a voter's word that it accepted the claim of an epoch, and the base of the session's stamps there. It returns whether
// that is of the claim that goes on.
func (c *Claims) Accepts(voter uint8, epoch, base uint64) bool {
	var yes C.uint32_t
	mustBeDone(C.qlock_claim_accepts(at(c.state[:]), ClaimBytes, C.uint8_t(voter), C.uint64_t(epoch), C.uint64_t(base), &yes))
	return yes != 0
}

// GivesUp takes the claim back. Its epoch is never claimed again.
func (c *Claims) GivesUp() { mustBeDone(C.qlock_claim_gives_up(at(c.state[:]), ClaimBytes)) }

// ClaimShown is what is kept of a number.
type ClaimShown struct {
	Newest   uint64 // the newest epoch that was heard of or claimed
	Epoch    uint64 // the one that is claimed, 0 if none is
	Accepted uint64 // the voters that accepted that
	Base     uint64 // the greatest base that these told
}

// Shows returns what is kept.
func (c *Claims) Shows() ClaimShown {
	var newest, epoch, accepted, base C.uint64_t
	mustBeDone(C.qlock_claim_shows(at(c.state[:]), ClaimBytes, &newest, &epoch, &accepted, &base))
	return ClaimShown{Newest: uint64(newest), Epoch: uint64(epoch), Accepted: uint64(accepted), Base: uint64(base)}
}
