package qlock

/*
#include "qlock.h"

static int64_t lock_take(const uint8_t *table, uint8_t *vote, struct qlock_since_start *since, uint32_t quiet, uint32_t inside,
                         uint64_t upper, uint64_t lower, uint64_t epoch, const uint8_t *line, size_t len, uint8_t *out,
                         struct qlock_lock_shown *shown) {
    size_t n = 0;
    int32_t refusal = qlock_lock_take(table, QLOCK_TABLE_BYTES, vote, QLOCK_VOTER_BYTES, since, quiet, inside, upper, lower, epoch, line,
                                      len, out, QLOCK_VOTER_OUT, &n, shown);
    return refusal ? -(int64_t)refusal : (int64_t)n;
}

static int64_t lock_end_quiet(const uint8_t *table, uint8_t *vote, const struct qlock_since_start *since, uint8_t client, uint8_t *out,
                              struct qlock_lock_shown *shown) {
    size_t n = 0;
    int32_t refusal = qlock_lock_end_quiet(table, QLOCK_TABLE_BYTES, vote, QLOCK_VOTER_BYTES, since, client, out, QLOCK_VOTER_OUT, &n,
                                           shown);
    return refusal ? -(int64_t)refusal : (int64_t)n;
}

static int64_t lock_let_go(const uint8_t *table, uint8_t *vote, uint64_t grant, uint8_t client, uint8_t *out,
                           struct qlock_lock_shown *shown) {
    size_t n = 0;
    int32_t refusal = qlock_lock_let_go(table, QLOCK_TABLE_BYTES, vote, QLOCK_VOTER_BYTES, grant, client, out, QLOCK_VOTER_OUT, &n, shown);
    return refusal ? -(int64_t)refusal : (int64_t)n;
}

static int64_t lock_remind(const uint8_t *table, const uint8_t *vote, uint8_t *out) {
    size_t n = 0;
    int32_t refusal = qlock_lock_remind(table, QLOCK_TABLE_BYTES, vote, QLOCK_VOTER_BYTES, out, QLOCK_VOTER_OUT, &n);
    return refusal ? -(int64_t)refusal : (int64_t)n;
}
*/
import "C"

import "unsafe"

// Table has the row of each client's number at a voter. The zero Table has rows that nobody has.
type Table struct{ rows [TableBytes]byte }

// Put makes the row of a number the one that has these numbers, as Row.Put does.
func (t *Table) Put(number int, s RowShown) { s.write(t.rows[RowBytes*number:]) }

// Standing is how a session stands at a voter.
type Standing uint32

// How a session stands.
const (
	SessionKnown   Standing = C.QLOCK_SESSION_KNOWN   // the number is the session's, under its epoch
	SessionUnknown Standing = C.QLOCK_SESSION_UNKNOWN // it may claim the number under its epoch
	SessionOver    Standing = C.QLOCK_SESSION_OVER    // the number has another session, or had one under a later epoch
)

// Speaker is a session that speaks, the epoch under which it does, and whether it says that it is inside by its request.
type Speaker struct {
	Session Session
	Epoch   uint64
	Inside  bool
}

// SinceStart is what was said of a lock since the start of its voter: in the quiet time of a voter only who says that he is inside gets a
// vote, and grants from before the start of which nobody says so are let go. The zero SinceStart says that no grant is from before, and
// nothing was said.
type SinceStart struct{ c C.struct_qlock_since_start }

// NewSinceStart returns that nothing was said since a start, before which so many grants were given.
func NewSinceStart(begun uint64) *SinceStart {
	s := new(SinceStart)
	C.qlock_since_start(C.uint64_t(begun), &s.c)
	return s
}

// State returns the bytes of what was said, for this run of the program alone. They change with the next call.
func (s *SinceStart) State() []byte {
	return unsafe.Slice((*byte)(unsafe.Pointer(&s.c)), unsafe.Sizeof(s.c))
}

// Forget forgets what a client said, 0 to 63: its session is over.
func (s *SinceStart) Forget(client uint8) error {
	return refusal(C.qlock_since_forget(&s.c, C.uint8_t(client)))
}

// Stands returns whether the vote has a grant from before the start by which nobody said that he is inside, and whether somebody waits who
// said so.
func (v *Voter) Stands(s *SinceStart) (isOld, isAwaited bool, err error) {
	var old, awaited C.uint32_t
	err = refusal(C.qlock_lock_stands(at(v.state[:]), VoterBytes, &s.c, &old, &awaited))
	return old != 0, awaited != 0, err
}

// LockShown is what is shown of a lock after a call.
type LockShown struct {
	IsTaken  bool   // it was the session's to say, and was not put off
	IsPutOff bool   // only who is inside gets the vote now
	MustSave bool   // what has to survive a crash changed
	Stamp    uint64 // of the client's request that has the vote or waits, 0 for none
	Finished uint64 // the highest stamp of the client's requests that are finished
	Held     Grant  // who has the vote
}

func shownOf(s *C.struct_qlock_lock_shown) LockShown {
	held := Grant{uint64(s.holder), uint64(s.held), uint64(s.grant)}
	return LockShown{IsTaken: s.changed == 1 || s.changed == 2, IsPutOff: s.changed == 3, MustSave: s.changed == 2,
		Stamp: uint64(s.stamp), Finished: uint64(s.finished), Held: held}
}

// TakeFrom takes the line of a message from a session, if the row of its number says that it may say this, and if it is not put off: in the
// quiet time, and while somebody waits who said in it that he is inside, the REQUEST of whoever does not say so. It appends the lines of
// the replies that a session hears to out, and shows the lock to the client that the line is from.
func (v *Voter) TakeFrom(t *Table, since *SinceStart, isQuiet bool, from Speaker, line, out []byte) ([]byte, LockShown, error) {
	var shown C.struct_qlock_lock_shown
	out = grown(out, C.QLOCK_VOTER_OUT)
	room := out[len(out) : len(out)+C.QLOCK_VOTER_OUT]
	upper, lower := from.Session.halves()
	out, err := appended(out, C.lock_take(at(t.rows[:]), at(v.state[:]), &since.c, truth(isQuiet), truth(from.Inside), upper, lower,
		C.uint64_t(from.Epoch), at(line), C.size_t(len(line)), at(room), &shown))
	return out, shownOf(&shown), err
}

// EndQuiet ends the quiet time of a lock: it lets the grant go if it is from before the start and nobody said that he is inside by it. It
// appends the lines of the replies that a session hears to out, and shows the lock to a client.
func (v *Voter) EndQuiet(t *Table, since *SinceStart, client uint8, out []byte) ([]byte, LockShown, error) {
	var shown C.struct_qlock_lock_shown
	out = grown(out, C.QLOCK_VOTER_OUT)
	room := out[len(out) : len(out)+C.QLOCK_VOTER_OUT]
	out, err := appended(out, C.lock_end_quiet(at(t.rows[:]), at(v.state[:]), &since.c, C.uint8_t(client), at(room), &shown))
	return out, shownOf(&shown), err
}

// LetGo lets the current grant go if it has this number. It appends the lines of the replies that a session hears to out, and shows
// the lock to a client.
func (v *Voter) LetGo(t *Table, grant uint64, client uint8, out []byte) ([]byte, LockShown, error) {
	var shown C.struct_qlock_lock_shown
	out = grown(out, C.QLOCK_VOTER_OUT)
	room := out[len(out) : len(out)+C.QLOCK_VOTER_OUT]
	out, err := appended(out, C.lock_let_go(at(t.rows[:]), at(v.state[:]), C.uint64_t(grant), C.uint8_t(client), at(room), &shown))
	return out, shownOf(&shown), err
}

// RemindHolder appends the lines that remind whoever has the vote, if his session hears them.
func (v *Voter) RemindHolder(t *Table, out []byte) ([]byte, error) {
	out = grown(out, C.QLOCK_VOTER_OUT)
	room := out[len(out) : len(out)+C.QLOCK_VOTER_OUT]
	return appended(out, C.lock_remind(at(t.rows[:]), at(v.state[:]), at(room)))
}
