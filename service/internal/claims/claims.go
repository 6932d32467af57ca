// Package claims keeps what a session claims: of each number the epochs, which voters accepted the claim, and above which stamp the session
// begins. Which epoch is claimed, and whose the number is then, the proved calls say.
package claims

import "calvundek.example/service/qlock"

// Numbers is what is kept of each number under one name. A name that is used again keeps it: a word that took a claim back may come late.
type Numbers [qlock.MaxClients]qlock.Claims

// New returns what is kept under a new name.
func New() *Numbers {
	all := new(Numbers)
	for number := range all {
		all[number] = qlock.NewClaims()
	}
	return all
}

// Claimed returns the epoch under which a number is claimed, 0 if it is not, or is none.
func (n *Numbers) Claimed(number int) uint64 {
	if number < 0 {
		return 0
	}
	return n[number].Shows().Epoch
}
