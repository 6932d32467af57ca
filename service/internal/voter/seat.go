package voter

import (
	"math"
	"math/bits"
	"time"
)

// What a voter keeps of the numbers of a shard that were used, or learned of. There may be a million, so it is small: names and hashes are
// bytes (names.go), what sessions of a process have in common is on its roll (roll.go), and what few numbers need is kept apart.

// seat is what is kept of a number.
type seat struct {
	roll     *roll  // of the process of the session; nil if no session has the number, nor had it
	hash     digits // of the session's name, if hashInDigits
	nonce    digits // in the session's name, if nameInDigits or nameInShard
	entry    uint64 // the number of the entry on that roll (beats.go), 0 if there is none
	epoch    uint64 // this, and the next two, are the row's
	base     uint64
	reserved uint64
	heard    time.Duration // on the lease clock
	lock     string        // for which the number is: "" if that is not known
	requests int32         // of the session, that have a vote here, or wait for one
	asksBy   uint32        // the oldest plan of which the session has a request, as it said; 0 before
	grown    growth        // how far the epochs of the number grew in this run
	place    uint16        // of the entry
	level    uint8         // the newest one that the session knows, 0 until it was heard
	marks    marks
}

// marks are what is so of a seat, or not.
type marks uint8

// The first three marks are those of the row. A hash or a name that is in no digits is among the rarities, if there is one, and so is what a
// session says that is not on its roll.
const (
	isOpen marks = 1 << iota
	isUsed
	isDropped
	hashInDigits // the row's hash is the user and 32 digits
	nameInDigits // the session was heard in this run, and its name is the user and 32 digits
	nameInShard  // the same, and its name is the user, the number of the shard, and 26 digits
	isBundled    // the session said that it is of the process of its roll
	isNoted      // the session said the note of its roll of itself
)

// has returns whether one of these marks is set.
func (m marks) has(some marks) bool { return m&some != 0 }

// set sets a mark, or takes it away.
func (m *marks) set(one marks, is bool) {
	if *m &^= one; is {
		*m |= one
	}
}

// rarities are what few numbers need.
type rarities struct {
	name, hash string // that are in no digits
	process    string // of which the session said that it is, where that is not the process of its roll
	note       string // what the session said of itself, where that is not the note of its roll
	lapses     uint64 // the row's
	brought    uint64 // a want brought the number to its session in this run, in which of its messages, and none came under it yet (wants.go)
	passed     passed // when another voter said that another session has the number
	byWord     bool   // the session was ended, by another voter or an operator, and may not know so: its votes go by the lease
	isRefused  bool   // the row is none: the proved calls read it as nobody's
}

// passed is when this voter learned that another session has a number: the session before may not know so, and its votes go by the lease.
type passed struct {
	is bool
	at time.Duration // on the lease clock
}

// seats are those of a shard.
type seats struct {
	which uint64  // the numbers that have one, as bits
	all   []*seat // in the order of the numbers
}

// at returns the seat of a number, nil if there is none.
func (s *seats) at(number int) *seat {
	if s.which>>number&1 == 0 {
		return nil
	}
	return s.all[s.place(number)]
}

// place returns at which place the seat of a number is, or would be.
func (s *seats) place(number int) int { return bits.OnesCount64(s.which & (1<<number - 1)) }

// add adds the seat of a number that has none.
func (s *seats) add(number int, one *seat) {
	place := s.place(number)
	s.all = append(s.all, nil)
	copy(s.all[place+1:], s.all[place:])
	s.all[place], s.which = one, s.which|1<<number
}

// each hands all of them to a function, with their numbers.
func (s *seats) each(use func(number int, one *seat)) {
	for place, rest := 0, s.which; rest != 0; place, rest = place+1, rest&(rest-1) {
		use(bits.TrailingZeros64(rest), s.all[place])
	}
}

// rare returns what few numbers need of a number.
func (t *table) rare(number int) rarities {
	if one := t.rarities[number]; one != nil {
		return *one
	}
	return rarities{}
}

// keep keeps what few numbers need of a number. Nothing is kept of one that needs nothing.
func (t *table) keep(number int, one rarities) {
	if one == t.rare(number) {
		return
	}
	if one == (rarities{}) {
		if delete(t.rarities, number); len(t.rarities) == 0 {
			t.rarities = nil
		}
		return
	}
	if t.rarities == nil {
		t.rarities = map[int]*rarities{}
	}
	kept := one // a copy that stays
	t.rarities[number] = &kept
}

// short returns a number in four bytes: the greatest one that these have in place of one above that.
func short(number uint64) uint32 { return uint32(smallest(number, math.MaxUint32)) }
