package voter

import "calvundek.example/service/qlock"

// How many numbers of a shard one lock may have, and how many one user while others wait. So a hot lock does not stop its neighbours.
//
// A lock has at most 56: who wants a 57th for it sees none, also if numbers are free and nobody else waits. A user with 48 numbers or more
// gets no other one while a session of another user waits that may have one. A number is for the lock that its session asked for last, or
// else for the one that it named as it wanted the number. A session that names no lock, or another one, is bounded by what it named, and
// its number counts for a lock once it asks for that. Nobody loses a number by this, and no claim is refused: it is for clients that ask
// which numbers are free before they claim one. Each voter goes by what it heard, so where many come at once one lock may have more.

// The shares of one shard.
const (
	mostOfUser = 48 // while another one waits
	mostOfLock = 56
)

// shares says how many numbers users and locks have.
type shares struct {
	users, locks bound
	claims       map[string]bool // the sessions that have a number of these which they have not used yet
}

// bound counts the numbers of users, or of locks. It is more than half of all numbers, so at most one name is at it.
type bound struct {
	most   int
	counts map[string]int
	full   string // the name that is at the bound, "" if none is
}

// newShares returns the shares of a shard of which no number is taken.
func newShares() shares {
	return shares{bound{most: mostOfUser, counts: map[string]int{}}, bound{most: mostOfLock, counts: map[string]int{}}, map[string]bool{}}
}

// add counts a number of a user, for a lock.
func (s *shares) add(user, lock string) {
	s.users.add(user)
	s.locks.add(lock)
}

// over returns over how many bounds somebody would be with another number.
func (s *shares) over(one *queued) (bounds int) {
	if s.users.isFull(one.user) {
		bounds++
	}
	if s.locks.isFull(one.lock) {
		bounds++
	}
	return bounds
}

// add counts a number of a name.
func (b *bound) add(name string) {
	if b.counts[name]++; b.counts[name] >= b.most {
		b.full = name
	}
}

// isFull returns whether a name is at the bound. No bound holds of "", a lock that is not known.
func (b *bound) isFull(name string) bool { return name != "" && name == b.full }

// room returns how many more numbers a name may have.
func (b *bound) room(name string) int {
	if has := b.counts[name]; name != "" && has < b.most {
		return b.most - has
	} else if name != "" {
		return 0
	}
	return qlock.MaxClients
}

// variety has two different names, "" where there is none.
type variety struct{ one, two string }

// add adds a name.
func (v *variety) add(name string) {
	switch {
	case v.one == "":
		v.one = name
	case v.one != name && v.two == "":
		v.two = name
	}
}

// hasOther returns whether a name was added that is another one than this.
func (v variety) hasOther(name string) bool { return v.one != "" && v.one != name || v.two != "" }

// shares returns the shares of the numbers that are taken, by the states of all. A number that was claimed, and is not used yet, counts for
// the session that claimed it, unless that asks again: then it did not get the number.
func (s *shard) shares(states []int, asks string) shares {
	taken, asking := newShares(), s.called(asks)
	s.seats.each(func(number int, seat *seat) {
		isClaimed := !seat.marks.has(isUsed)
		if !seat.marks.has(isOpen) || states[number] != 0 || isClaimed && s.isOf(number, asking) {
			return
		}
		taken.add(s.user(number), seat.lock)
		if isClaimed {
			taken.claims[s.name(number)] = true
		}
	})
	return taken
}
