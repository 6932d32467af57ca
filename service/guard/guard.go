// Package guard keeps late writes out of what a lock protects. It needs no C library, and is tested to do what the proved
// guard of libqlock does (qlock_fence_admit).
//
// A client can lose a lock without noticing it: it stood still for longer than the TTL. Then it goes on writing. The place
// that the lock protects keeps a guard, and admits each write by the pass that the client shows (locks.Held.Token). Any two
// passes of one plan, or of a plan and the next one, share a voter, and a voter numbers its grants. So of two such passes
// one shows a newer grant of some voter, and once this one was admitted the other is refused.
//
// What a user of a guard has to do:
//
//  1. One guard for each protected thing, made with it.
//  2. Every write shows its pass, also the second one under one lock.
//  3. To admit and to write is one transaction, durable together. A check before the write guards nothing.
//  4. A refusal ends the work: undo it, unlock, and ask again.
//  5. Who restores the data from a backup restores the guard of that time, or a later one, never an earlier one.
//  6. What is read to decide a write is read under the same pass, or checked at the write.
//  7. Passes come from clients that may write the data. A made-up pass with great numbers blocks the guard for good.
package guard

import (
	"encoding/binary"
	"errors"
)

// The sizes of a guard's state and of a pass.
const (
	Bytes     = 520
	PassBytes = 512
	voters    = 64
)

// The errors of Admit.
var (
	ErrOlder      = errors.New("guard: a newer grant was admitted before: somebody entered since")
	ErrNoPass     = errors.New("guard: this is no pass")
	ErrState      = errors.New("guard: these bytes are no guard")
	ErrTurnsSpent = errors.New("guard: no turn is left")
)

// New returns the state of a guard that admitted nothing: its turn, and the newest grant of each voter, as numbers of
// eight bytes, the lowest byte first.
func New() []byte { return make([]byte, Bytes) }

// Admit admits a pass, and returns the new state of the guard and the turn of the pass: a fencing token, the same for all
// shows of one pass, and greater for each pass that is admitted later, as long as only passes are shown that clients had.
// Keep the new state in the transaction that writes.
func Admit(state, pass []byte) (next []byte, turn uint64, err error) {
	if len(state) != Bytes {
		return nil, 0, ErrState
	}
	if len(pass) != PassBytes {
		return nil, 0, ErrNoPass
	}
	next = append([]byte(nil), state...)
	empty, newer := true, false
	for voter := 0; voter < voters; voter++ {
		shown, seen := word(pass, voter), word(state, voter+1)
		if shown == 0 {
			continue
		}
		empty = false
		if shown < seen {
			return nil, 0, ErrOlder
		}
		if shown > seen {
			newer = true
			binary.LittleEndian.PutUint64(next[8*(voter+1):], shown)
		}
	}
	turn = word(state, 0)
	switch {
	case empty:
		return nil, 0, ErrNoPass
	case newer && turn == 1<<64-1:
		return nil, 0, ErrTurnsSpent
	case newer:
		turn++
		binary.LittleEndian.PutUint64(next, turn)
	}
	return next, turn, nil
}

// Turn returns the turn of the pass that was admitted last, 0 if there was none.
func Turn(state []byte) (uint64, error) {
	if len(state) != Bytes {
		return 0, ErrState
	}
	return word(state, 0), nil
}

func word(bytes []byte, i int) uint64 { return binary.LittleEndian.Uint64(bytes[8*i:]) }
