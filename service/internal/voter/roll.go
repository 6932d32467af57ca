package voter

import (
	"calvundek.example/service/internal/moment"
	"calvundek.example/service/internal/wire"
)

// roll is of a process of a user: what its sessions have in common is here once. Those that did not say of which process they are have one
// without a name.
type roll struct {
	user, name string
	mask       digits            // of the user (names.go)
	note       string            // what the first one of its sessions said of itself
	seats      int               // how many numbers have a session of it
	parts      map[int]*rollPart // its sessions that said their places, by shares of these (beats.go)
	since      moment.Moment     // when the span began in which its beats are counted
	said       int               // how many places they said in it
}

// roll returns the roll of a process. A new one is there as long as some session joins it.
func (l *leases) roll(user, name string) *roll {
	if r := l.rolls[user+"."+name]; r != nil {
		return r
	}
	if l.rolls == nil {
		l.rolls = map[string]*roll{}
	}
	key := wire.SessionName(user, name)
	r := &roll{user: key[:len(user)], name: key[len(user)+1:], mask: maskOf(user), since: moment.Never}
	l.rolls[key] = r
	return r
}

// join lets the session of a number, which has no entry, be on a roll, nil for none.
func (t *table) join(seat *seat, r *roll) {
	before := seat.roll
	if before == r {
		return
	}
	if seat.roll = r; r != nil {
		r.seats++
	}
	if before == nil {
		return
	}
	if before.seats--; before.seats == 0 {
		delete(t.rolls, wire.SessionName(before.user, before.name))
	}
}

// moves lets the session of a number be on the roll of another process. What it said of itself stays.
func (t *table) moves(number int, r *roll) {
	said, note := t.saidProcess(number), t.noteOf(number)
	t.join(t.seat(number), r)
	t.setProcess(number, said)
	t.setNote(number, note)
}

// saidProcess returns of which process the session of a number said that it is, "" if it did not.
func (t *table) saidProcess(number int) string {
	if seat := t.seats.at(number); seat != nil && seat.marks.has(isBundled) {
		return seat.roll.name
	}
	return t.rare(number).process
}

// saysProcess notes that the session of a number says of which process it is.
func (t *table) saysProcess(number int, name string) {
	if seat := t.seat(number); seat.entry == 0 {
		t.moves(number, t.roll(seat.roll.user, name))
	}
	t.setProcess(number, name)
}

// setProcess notes of which process the session of a number said that it is. It may have an entry on the roll of another one.
func (t *table) setProcess(number int, name string) {
	seat, rare := t.seat(number), t.rare(number)
	seat.marks.set(isBundled, name != "" && name == seat.roll.name)
	if rare.process = ""; !seat.marks.has(isBundled) {
		rare.process = name
	}
	t.keep(number, rare)
}

// noteOf returns what the session of a number says of itself, "" if that is nothing.
func (t *table) noteOf(number int) string {
	if seat := t.seats.at(number); seat != nil && seat.marks.has(isNoted) {
		return seat.roll.note
	}
	return t.rare(number).note
}

// setNote notes what the session of a number says of itself.
func (t *table) setNote(number int, note string) {
	seat, rare := t.seat(number), t.rare(number)
	if seat.roll.note == "" {
		seat.roll.note = note
	}
	seat.marks.set(isNoted, note != "" && note == seat.roll.note)
	if rare.note = ""; !seat.marks.has(isNoted) {
		rare.note = note
	}
	t.keep(number, rare)
}
