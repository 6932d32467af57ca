// Package outbox lets messages of a voter leave only once all is saved on which they may depend. A voter has no other way to send: its
// transport is a Sender's, a Sender takes what is Saved, and only Commit makes a Saved that is not empty.
package outbox

import (
	"strconv"
	"time"

	"calvundek.example/service/internal/wire"
	"calvundek.example/service/transport"
)

// longest is for how long what nothing depends on waits for the next save.
const longest = 10 * time.Second

// State is what a voter saves beside the rows of a draft.
type State[R comparable] interface {
	// MustSave returns whether something changed since the last save on which what leaves may depend.
	MustSave() bool
	// MaySave returns whether something else did. A TTL makes up for its loss.
	MaySave() bool
	// Save saves all that changed, and these rows, in one transaction.
	Save(rows map[R]struct{}) error
}

// letter is a message that waits.
type letter struct {
	box     string
	message []byte
}

// Draft has the messages of all steps since the last commit, and the rows that changed since the last save. The zero value has none.
type Draft[R comparable] struct {
	must, may map[R]struct{} // no row is in both
	letters   []letter
	savedAll  time.Time // when nothing was left to save
}

// May notes that a row changed. It is saved with the next save, in longest at the latest.
func (d *Draft[R]) May(row R) {
	if _, must := d.must[row]; must {
		return
	}
	if d.may == nil {
		d.may = map[R]struct{}{}
	}
	d.may[row] = struct{}{}
}

// Must notes that a row changed, and that something leaves which depends on it.
func (d *Draft[R]) Must(row R) {
	if delete(d.may, row); d.must == nil {
		d.must = map[R]struct{}{}
	}
	d.must[row] = struct{}{}
}

// Tells notes that something leaves which depends on how a row is now.
func (d *Draft[R]) Tells(row R) {
	if _, may := d.Has(row); may {
		d.Must(row)
	}
}

// Has returns whether a row has to be saved before something leaves, or may wait.
func (d *Draft[R]) Has(row R) (must, may bool) {
	_, must = d.must[row]
	_, may = d.may[row]
	return must, may
}

// Forget forgets a row that there is no more.
func (d *Draft[R]) Forget(row R) {
	delete(d.must, row)
	delete(d.may, row)
}

// rows returns all rows, and forgets them.
func (d *Draft[R]) rows() map[R]struct{} {
	rows, may := d.must, d.may
	if len(rows) < len(may) {
		rows, may = may, rows
	}
	for row := range may {
		rows[row] = struct{}{}
	}
	d.must, d.may = nil, nil
	return rows
}

// Say lets a message leave after the next commit.
func (d *Draft[R]) Say(box string, message []byte) {
	d.letters = append(d.letters, letter{box, message})
}

// Hasten lets the next commit save all that changed, also if nothing leaves.
func (d *Draft[R]) Hasten() { d.savedAll = time.Time{} }

// Saved are messages that may leave: all is saved on which they depend. Nobody else makes one that has some.
type Saved struct{ letters []letter }

// Commit saves what has to be saved before the messages leave, and hands these out. If the save fails it hands out none, and drops them.
func (d *Draft[R]) Commit(now time.Time, s State[R]) (Saved, error) {
	letters := d.letters
	d.letters = nil
	switch must := len(d.must) > 0 || s.MustSave(); {
	case !must && len(d.may) == 0 && !s.MaySave():
		d.savedAll = now
	case must && len(letters) > 0 || now.Sub(d.savedAll) > longest:
		if err := s.Save(d.rows()); err != nil {
			return Saved{}, err
		}
		d.savedAll = now
	}
	return Saved{letters}, nil
}

// Sender sends. Nobody else has its transport.
type Sender struct{ carrier transport.Transport }

// NewSender returns the sender of a voter. Who calls it keeps the transport to himself.
func NewSender(carrier transport.Transport) Sender { return Sender{carrier} }

// Deliver sends what is saved, and returns how many messages could not leave. They are lost: a reminder repeats each.
func (s Sender) Deliver(saved Saved) (lost int) {
	for _, one := range saved.letters {
		if s.carrier.Send(one.box, one.message) != nil {
			lost++
		}
	}
	return lost
}

// Move leaves a server that reaches nobody, unless the connection to it is younger than this age.
func (s Sender) Move(age time.Duration) { transport.Move(s.carrier, age) }

// Marker sends a line to the voter itself. It is the one thing that leaves unsaved, as it says nothing of the state.
func (s Sender) Marker(h wire.Header, line string) error {
	return s.carrier.Send(wire.VoterBox(h.Cluster, h.Number, strconv.Itoa(h.Number)), append(h.Append(nil), line...))
}
