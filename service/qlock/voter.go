package qlock

/*
#include "qlock.h"

static int64_t voter_take(uint8_t *state, const uint8_t *line, size_t len, uint8_t *out) {
    size_t n = 0;
    int32_t refusal = qlock_voter_take(state, QLOCK_VOTER_BYTES, line, len, out, QLOCK_VOTER_OUT, &n);
    return refusal ? -(int64_t)refusal : (int64_t)n;
}

static int64_t voter_remind(const uint8_t *state, uint8_t *out) {
    size_t n = 0;
    int32_t refusal = qlock_voter_remind(state, QLOCK_VOTER_BYTES, out, QLOCK_VOTER_OUT, &n);
    return refusal ? -(int64_t)refusal : (int64_t)n;
}

static int64_t voter_evict(uint8_t *state, uint64_t grant, uint8_t *out) {
    size_t n = 0;
    int32_t refusal = qlock_voter_evict(state, QLOCK_VOTER_BYTES, grant, out, QLOCK_VOTER_OUT, &n);
    return refusal ? -(int64_t)refusal : (int64_t)n;
}

// 1 for yes and for what is refused, 0 for no.
static int32_t voter_must_save(const uint8_t *saved, const uint8_t *live) {
    int32_t yes = 1;
    return qlock_voter_must_save(saved, QLOCK_VOTER_BYTES, live, QLOCK_VOTER_BYTES, &yes) ? 1 : yes;
}
*/
import "C"

// Voter is the vote of one voter for one lock: to whom it is granted, and who waits for it.
type Voter struct{ state [VoterBytes]byte }

// Grant says who has a vote: the client, the stamp of its request, and the number of the grant. The number is 0 if
// nobody has it.
type Grant struct{ Client, Stamp, Number uint64 }

// Known is what a voter knows of a client: the stamp of its request that has the vote or waits, 0 if there is none;
// the highest stamp of its requests that are finished; and the highest stamp that the voter saw of anybody.
type Known struct{ Stamp, Finished, Seen uint64 }

// NewVoter makes a voter that may give so many grants. A voter is made once.
func NewVoter(id uint8, limit uint64) (*Voter, error) {
	v := new(Voter)
	return v, refusal(C.qlock_voter_new(C.uint8_t(id), C.uint64_t(limit), at(v.state[:]), VoterBytes))
}

// RebornVoter makes a voter in place of one that lost its state. That one gave at most `above` grants.
func RebornVoter(id uint8, above, limit uint64) (*Voter, error) {
	v := new(Voter)
	return v, refusal(C.qlock_voter_reborn(C.uint8_t(id), C.uint64_t(above), C.uint64_t(limit), at(v.state[:]), VoterBytes))
}

// RestoreVoter returns the voter that was saved as these bytes. It does not see whether they are this voter's: keep
// the owner beside them.
func RestoreVoter(state []byte) (*Voter, error) {
	if len(state) != VoterBytes {
		return nil, BadState
	}
	v := new(Voter)
	copy(v.state[:], state)
	_, err := v.Held()
	return v, err
}

// State returns the bytes to save. They change with the next call.
func (v *Voter) State() []byte { return v.state[:] }

// Extend raises the number of grants that the voter may give.
func (v *Voter) Extend(limit uint64) error {
	return refusal(C.qlock_voter_extend(at(v.state[:]), VoterBytes, C.uint64_t(limit)))
}

// Raise skips the numbers up to `above`: each later grant has a greater one. A grant that is held stays.
func (v *Voter) Raise(above uint64) error {
	return refusal(C.qlock_voter_raise(at(v.state[:]), VoterBytes, C.uint64_t(above)))
}

// Forget forgets all but the grant that holds the vote and the number of grants. A daemon that calls it at each start saves
// less (MustSave).
func (v *Voter) Forget() error {
	return refusal(C.qlock_voter_forget(at(v.state[:]), VoterBytes))
}

// MustSave returns whether a voter that was as `saved` has to be saved before the lines of the calls since then leave: its
// grant, its number of grants or its limit changed. It is for daemons that call Forget at each start.
func (v *Voter) MustSave(saved *Voter) bool {
	return C.voter_must_save(at(saved.state[:]), at(v.state[:])) != 0
}

// Take takes a message, and appends the lines of the replies to out.
func (v *Voter) Take(line, out []byte) ([]byte, error) {
	out = grown(out, C.QLOCK_VOTER_OUT)
	room := out[len(out) : len(out)+C.QLOCK_VOTER_OUT]
	return appended(out, C.voter_take(at(v.state[:]), at(line), C.size_t(len(line)), at(room)))
}

// Remind appends the lines that remind whoever has the vote.
func (v *Voter) Remind(out []byte) ([]byte, error) {
	out = grown(out, C.QLOCK_VOTER_OUT)
	room := out[len(out) : len(out)+C.QLOCK_VOTER_OUT]
	return appended(out, C.voter_remind(at(v.state[:]), at(room)))
}

// Evict lets the current grant go if it has this number, and appends the lines of the replies to out.
func (v *Voter) Evict(grant uint64, out []byte) ([]byte, error) {
	out = grown(out, C.QLOCK_VOTER_OUT)
	room := out[len(out) : len(out)+C.QLOCK_VOTER_OUT]
	return appended(out, C.voter_evict(at(v.state[:]), C.uint64_t(grant), at(room)))
}

// Held returns who has the vote.
func (v *Voter) Held() (g Grant, err error) {
	var client, stamp, number C.uint64_t
	err = refusal(C.qlock_voter_held(at(v.state[:]), VoterBytes, &client, &stamp, &number))
	return Grant{uint64(client), uint64(stamp), uint64(number)}, err
}

// Knows returns what the voter knows of a client.
func (v *Voter) Knows(client uint8) (k Known, err error) {
	var stamp, finished, seen C.uint64_t
	err = refusal(C.qlock_voter_knows(at(v.state[:]), VoterBytes, C.uint8_t(client), &stamp, &finished, &seen))
	return Known{uint64(stamp), uint64(finished), uint64(seen)}, err
}
