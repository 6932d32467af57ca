// Package qlock binds the proved voter, client, guard, row, lock, lease clock, token bucket and start of libqlock, and the plans of libqlock_plan.
//
// It has no goroutine, socket, clock or file: a call takes a line and returns lines. Whoever calls it saves
// a voter's new state before any of its lines leaves (docs/embedding.md). One call at a time uses a state.
package qlock

/*
#cgo pkg-config: qlock_plan qlock
#include "qlock_plan.h"
*/
import "C"

import "fmt"

// The sizes of states, and the limits of numbers.
const (
	VoterBytes  = C.QLOCK_VOTER_BYTES
	ClientBytes = C.QLOCK_CLIENT_BYTES
	FenceBytes  = C.QLOCK_FENCE_BYTES
	RowBytes    = C.QLOCK_ROW_BYTES
	TableBytes  = C.QLOCK_TABLE_BYTES
	ClockBytes  = C.QLOCK_CLOCK_BYTES
	BucketBytes = C.QLOCK_BUCKET_BYTES
	PeerBytes   = C.QLOCK_PEER_BYTES
	StartBytes  = C.QLOCK_START_BYTES
	LeaseBytes  = C.QLOCK_LEASE_BYTES
	VoteBytes   = C.QLOCK_VOTE_BYTES
	StampsBytes = C.QLOCK_STAMPS_BYTES
	ClaimBytes  = C.QLOCK_CLAIM_BYTES
	CallsBytes  = C.QLOCK_CALLS_BYTES
	VotesBytes  = C.QLOCK_VOTES_BYTES
	LeasesBytes = C.QLOCK_LEASES_BYTES
	PassBytes   = C.QLOCK_PASS_BYTES
	MaxVoters   = C.QLOCK_MAX_VOTERS
	MaxClients  = C.QLOCK_MAX_CLIENTS
	MaxStamp    = C.QLOCK_MAX_STAMP
)

// Version returns the version of libqlock, as in "0.2.0".
func Version() string {
	number := uint32(C.qlock_version())
	return fmt.Sprintf("%d.%d.%d", number/10000, number/100%100, number%100)
}

// Refusal is why a call was refused. A call that was refused changed nothing. errors.Is finds each one by its name.
type Refusal int32

// The refusals.
const (
	BadArgument Refusal = C.QLOCK_BAD_ARGUMENT
	BadState    Refusal = C.QLOCK_BAD_STATE
	BadMessage  Refusal = C.QLOCK_BAD_MESSAGE
	NoRoom      Refusal = C.QLOCK_NO_ROOM
	Busy        Refusal = C.QLOCK_BUSY
	NotInside   Refusal = C.QLOCK_NOT_INSIDE
	NotAsking   Refusal = C.QLOCK_NOT_ASKING
	StampsSpent Refusal = C.QLOCK_STAMPS_SPENT
	GrantsSpent Refusal = C.QLOCK_GRANTS_SPENT
	OlderGrant  Refusal = C.QLOCK_OLDER_GRANT
	Refused     Refusal = C.QLOCK_REFUSED
	NoMemory    Refusal = C.QLOCK_NO_MEMORY
	NoPass      Refusal = C.QLOCK_NO_PASS
	TurnsSpent  Refusal = C.QLOCK_TURNS_SPENT
	OldEpoch    Refusal = C.QLOCK_OLD_EPOCH
	FarEpoch    Refusal = C.QLOCK_FAR_EPOCH
	InUse       Refusal = C.QLOCK_IN_USE
	NotOwner    Refusal = C.QLOCK_NOT_OWNER
	EpochsSpent Refusal = C.QLOCK_EPOCHS_SPENT
	TokensSpent Refusal = C.QLOCK_TOKENS_SPENT
	Place       Refusal = C.QLOCK_PLACE
	Older       Refusal = C.QLOCK_OLDER
)

var meanings = map[Refusal]string{
	BadArgument: "a number or a length is out of range",
	BadState:    "the bytes are no saved state",
	BadMessage:  "the line is no message to this voter or client",
	NoRoom:      "there is no room for the lines",
	Busy:        "the client is asking already, or is inside",
	NotInside:   "the client is not inside",
	NotAsking:   "the client is not asking",
	StampsSpent: "no stamp is left for a request",
	GrantsSpent: "the voter has no grant left",
	OlderGrant:  "the guard saw a newer grant before",
	Refused:     "a text has a fault, or no plan was found",
	NoMemory:    "there is no memory",
	NoPass:      "there is no grant in the pass",
	TurnsSpent:  "the guard has no turn left",
	OldEpoch:    "the epoch is not above the row's",
	FarEpoch:    "the epoch is too far above the row's",
	InUse:       "another session has the number, and is not silent",
	NotOwner:    "the number is not this session's under this epoch",
	EpochsSpent: "the row has no epoch left",
	TokensSpent: "the bucket has fewer tokens",
	Place:       "another voter has the place",
	Older:       "another process of the voter started as often, or more often",
}

// Error returns what the refusal means.
func (r Refusal) Error() string {
	if meaning, known := meanings[r]; known {
		return "qlock: " + meaning
	}
	return fmt.Sprintf("qlock: unknown refusal %d", int32(r))
}

// Fault is the fault of a coterie or of a plan: a line that `qlock-show explain` explains. It is a Refused.
type Fault string

// Error returns the line of the fault.
func (f Fault) Error() string { return "qlock: " + string(f) }

// Is returns whether the target is Refused.
func (f Fault) Is(target error) bool { return target == Refused }

func refusal(code C.int32_t) error {
	if code == C.QLOCK_DONE {
		return nil
	}
	return Refusal(code)
}

// at returns the address of bytes, which is never null.
func at(b []byte) *C.uint8_t {
	if len(b) == 0 {
		b = []byte{0}
	}
	return (*C.uint8_t)(&b[0])
}

// grown returns the bytes with room for so many more.
func grown(b []byte, room int) []byte {
	if cap(b)-len(b) >= room {
		return b
	}
	return append(make([]byte, 0, 2*cap(b)+room), b...)
}

// appended returns the bytes and those that a call wrote behind them, or its refusal, a number below 0.
func appended(out []byte, written C.int64_t) ([]byte, error) {
	if written < 0 {
		return out, Refusal(-written)
	}
	return out[:len(out)+int(written)], nil
}
