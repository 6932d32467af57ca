package voter

import (
	"math"
	"math/bits"

	"calvundek.example/service/qlock"
)

// The proved rows of a shard's numbers, which the calls of locks read.
//
// They are 3 KB, and follow from the seats and the floor of the shard. So they are there for the shards alone of which a lock was used last.
// Who only beats needs none.

// mostProved is of how many shards the proved rows are there at most.
const mostProved = 256

// provedRows are the proved rows of a table.
type provedRows struct {
	of   *table
	rows qlock.Table
}

// rows returns the proved rows of all numbers. They count until those of another shard are asked for.
func (t *table) rows() *qlock.Table {
	place := &t.proved[t.number%mostProved]
	if *place == nil {
		*place = new(provedRows)
	}
	kept := *place
	if kept.of != t {
		*kept = provedRows{of: t}
		rest := t.seats.which
		if !t.vacant.isZero() {
			rest = math.MaxUint64
		}
		for ; rest != 0; rest &= rest - 1 {
			number := bits.TrailingZeros64(rest)
			kept.rows.Put(number, t.shown(number))
		}
	}
	return &kept.rows
}

// prove takes another row of a number into the proved rows, if they are there.
func (t *table) prove(number int) {
	if kept := t.proved[t.number%mostProved]; kept != nil && kept.of == t {
		kept.rows.Put(number, t.shown(number))
	}
}

// unprove lets the proved rows of a shard go that is dropped.
func (t *table) unprove() {
	if kept := t.proved[t.number%mostProved]; kept != nil && kept.of == t {
		kept.of = nil
	}
}

// one returns the proved row of a number. It counts until another one is asked for.
func (t *table) one(number int) *qlock.Row {
	t.single.Put(t.shown(number))
	return &t.single
}

// shown returns what the proved row of a number has. One that was refused reads as nobody's.
func (t *table) shown(number int) qlock.RowShown {
	row := t.bare(number)
	switch {
	case t.rare(number).isRefused:
		return qlock.RowShown{}
	case row.Open:
		return row.shown(t.owner(number))
	}
	return row.shown(qlock.Session{})
}

// shown returns what the proved row has of a row whose session has this name there.
func (s Session) shown(session qlock.Session) qlock.RowShown {
	return qlock.RowShown{Epoch: s.Epoch, Base: s.Base, Reserved: s.Reserved, IsHeld: s.Open, Session: session,
		IsAgain: s.Dropped && !s.Open}
}

// proved returns the proved row of what is kept of a number: which session has it, and under which stamps it may ask.
func (s Session) proved() (*qlock.Row, error) { return s.shown(sessionOf(s.Hash)).Row() }

// after returns what is kept of a number after a call of its proved row. A call that is refused changes nothing.
func (t *table) after(number int, call func(*qlock.Row) error) (Session, error) {
	before := t.row(number)
	if t.rare(number).isRefused {
		return before, qlock.BadState
	}
	row := t.one(number)
	if err := call(row); err != nil {
		return before, err
	}
	shown, err := row.Shows()
	after := before
	after.Epoch, after.Base, after.Reserved, after.Open, after.Dropped = shown.Epoch, shown.Base, shown.Reserved, shown.IsHeld, shown.IsAgain
	return after, err
}
