package qlock

// #include "qlock.h"
import "C"

import "encoding/binary"

// Row is the row of a client's number at a voter: which session has the number, and under which stamps it may ask. Save
// it before anything leaves that tells of it, and never put an older copy back.
type Row struct{ state [RowBytes]byte }

// Session names a session: a hash of its name.
type Session [16]byte

// Claim is a claim of a number, and what it may change.
type Claim struct {
	Session  Session
	Epoch    uint64 // above the row's
	Stamps   uint64 // which the session may use at once, at most 4096
	IsSilent bool   // the session that has the number was silent for long enough
	Epochs   uint64 // how far the epoch may be above the row's, at most 2^20
	Most     uint64 // the highest stamp that it may reserve, at most MaxStamp
}

// RowShown is what a row has. A session has the number if it is held.
type RowShown struct {
	Epoch    uint64  // the newest one
	Base     uint64  // all stamps of the session are above it
	Reserved uint64  // the highest stamp that is reserved
	IsHeld   bool    // some session has the number
	Session  Session // which
	IsAgain  bool    // nobody has it, and another session may claim the epoch: the one that did took its claim back
}

// Row returns the row that has these numbers, or BadState if there is none.
func (s RowShown) Row() (*Row, error) {
	r := new(Row)
	if s.IsHeld && s.IsAgain {
		return nil, BadState
	}
	r.Put(s)
	_, err := r.Shows()
	return r, err
}

// write writes the bytes of the row that has these numbers.
func (s RowShown) write(state []byte) {
	held, upper, lower := uint64(0), uint64(0), uint64(0)
	if s.IsHeld {
		held, upper, lower = 1, binary.BigEndian.Uint64(s.Session[:8]), binary.BigEndian.Uint64(s.Session[8:])
	} else if s.IsAgain {
		held = 2
	}
	for i, word := range [...]uint64{s.Epoch, s.Base, s.Reserved, held, upper, lower} {
		binary.LittleEndian.PutUint64(state[8*i:], word)
	}
}

// Put makes the row the one that has these numbers. It does not look whether there is such a row, as RowShown.Row does: a row that is none
// is refused by the calls.
func (r *Row) Put(s RowShown) { s.write(r.state[:]) }

// NewRow makes the row of a number that nobody has. Its epochs and its stamps are above this floor.
func NewRow(epoch, stamp uint64) (*Row, error) {
	r := new(Row)
	return r, refusal(C.qlock_row_new(C.uint64_t(epoch), C.uint64_t(stamp), at(r.state[:]), RowBytes))
}

// RestoreRow returns the row that was saved as these bytes.
func RestoreRow(state []byte) (*Row, error) {
	if len(state) != RowBytes {
		return nil, BadState
	}
	r := new(Row)
	copy(r.state[:], state)
	_, err := r.Shows()
	return r, err
}

// State returns the bytes to save. They change with the next call.
func (r *Row) State() []byte { return r.state[:] }

// Claim gives the number to a session that claims it. It returns OldEpoch, FarEpoch, or InUse if another session has the
// number and is not silent. The claim of the session that has the number changes nothing.
func (r *Row) Claim(c Claim) error {
	upper, lower := c.Session.halves()
	return refusal(C.qlock_row_claim(at(r.state[:]), RowBytes, upper, lower, C.uint64_t(c.Epoch), C.uint64_t(c.Stamps), truth(c.IsSilent),
		C.uint64_t(c.Epochs), C.uint64_t(c.Most)))
}

// Reserve reserves stamps up to this one, none above `most`. It returns NotOwner if the number is not the session's.
func (r *Row) Reserve(session Session, epoch, stamp, most uint64) error {
	upper, lower := session.halves()
	return refusal(C.qlock_row_reserve(at(r.state[:]), RowBytes, upper, lower, C.uint64_t(epoch), C.uint64_t(stamp), C.uint64_t(most)))
}

// Close frees the number, which its session gives back. It returns NotOwner if the number is not the session's.
func (r *Row) Close(session Session, epoch uint64) error {
	upper, lower := session.halves()
	return refusal(C.qlock_row_close(at(r.state[:]), RowBytes, upper, lower, C.uint64_t(epoch)))
}

// TakeBack frees the number, as the session takes its claim back: no quorum granted it. Another session may claim the epoch. It
// returns NotOwner if the number is not the session's.
func (r *Row) TakeBack(session Session, epoch uint64) error {
	upper, lower := session.halves()
	return refusal(C.qlock_row_take_back(at(r.state[:]), RowBytes, upper, lower, C.uint64_t(epoch)))
}

// Evict ends the session that has the number: the number is nobody's, under the next epoch.
func (r *Row) Evict() error { return refusal(C.qlock_row_evict(at(r.state[:]), RowBytes)) }

// Drop drops the row: the number is nobody's. Its epochs and its stamps are above this floor, and above what the row had.
func (r *Row) Drop(epoch, stamp uint64) error {
	return refusal(C.qlock_row_drop(at(r.state[:]), RowBytes, C.uint64_t(epoch), C.uint64_t(stamp)))
}

// Learn learns another voter's row, and whether a message of the session of each row was ever heard.
func (r *Row) Learn(other *Row, heardHere, heardThere bool) error {
	there := other.state // the blocks of one call may not overlap
	return refusal(C.qlock_row_learn(at(r.state[:]), RowBytes, at(there[:]), RowBytes, truth(heardHere), truth(heardThere)))
}

// Relearn is Learn for the row of a voter whose state was lost, before it serves again: stamps that may be used by the other row stay used.
func (r *Row) Relearn(other *Row, heardHere, heardThere bool) error {
	there := other.state
	return refusal(C.qlock_row_relearn(at(r.state[:]), RowBytes, at(there[:]), RowBytes, truth(heardHere), truth(heardThere)))
}

// Takes returns whether the voter takes a REQUEST of this session, under this epoch and stamp.
func (r *Row) Takes(session Session, epoch, stamp uint64) (bool, error) {
	var yes C.uint32_t
	upper, lower := session.halves()
	err := refusal(C.qlock_row_takes(at(r.state[:]), RowBytes, upper, lower, C.uint64_t(epoch), C.uint64_t(stamp), &yes))
	return yes != 0, err
}

// Judge returns how a session stands, by the row of its number.
func (r *Row) Judge(from Speaker) (Standing, error) {
	var standing C.uint32_t
	upper, lower := from.Session.halves()
	err := refusal(C.qlock_table_judge(at(r.state[:]), RowBytes, 0, upper, lower, C.uint64_t(from.Epoch), &standing))
	return Standing(standing), err
}

// LetsGo returns whether the grant of a request of this stamp may be let go, by the row of its number: its session is silent, gone, or
// followed by another one. Of a session that another voter ended, which may not know so, silence alone counts.
func (r *Row) LetsGo(stamp uint64, isSilent, endedElsewhere bool) (bool, error) {
	var yes C.uint32_t
	err := refusal(C.qlock_table_lets_go(at(r.state[:]), RowBytes, 0, C.uint64_t(stamp), truth(isSilent), truth(endedElsewhere), &yes))
	return yes != 0, err
}

// Shows returns what the row has.
func (r *Row) Shows() (shown RowShown, err error) {
	var epoch, base, reserved, held, upper, lower C.uint64_t
	err = refusal(C.qlock_row_shows(at(r.state[:]), RowBytes, &epoch, &base, &reserved, &held, &upper, &lower))
	shown = RowShown{Epoch: uint64(epoch), Base: uint64(base), Reserved: uint64(reserved), IsHeld: held == 1,
		IsAgain: held == 2}
	binary.BigEndian.PutUint64(shown.Session[:8], uint64(upper))
	binary.BigEndian.PutUint64(shown.Session[8:], uint64(lower))
	return shown, err
}

// halves returns the two halves of the name.
func (s Session) halves() (upper, lower C.uint64_t) {
	return C.uint64_t(binary.BigEndian.Uint64(s[:8])), C.uint64_t(binary.BigEndian.Uint64(s[8:]))
}

// truth returns what C reads as this answer.
func truth(yes bool) C.uint32_t {
	if yes {
		return 1
	}
	return 0
}
