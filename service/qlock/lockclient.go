package qlock

/*
#include "qlock.h"

static int64_t held_ask(uint8_t *client, uint8_t *votes, const uint8_t *calls, uint64_t quorum, uint8_t *out) {
    size_t n = 0;
    int32_t refusal = qlock_held_ask(client, QLOCK_CLIENT_BYTES, votes, QLOCK_VOTES_BYTES, calls, QLOCK_CALLS_BYTES, quorum, out,
                                     QLOCK_CLIENT_OUT, &n);
    return refusal ? -(int64_t)refusal : (int64_t)n;
}

// The lines are far shorter than 2^32; the bit 2^32 says that the client got the lock.
static int64_t held_take(uint8_t *client, uint8_t *votes, const uint8_t *calls, const uint8_t *leases, uint64_t span, uint64_t now,
                         uint64_t run, uint64_t start, uint64_t lapses, const uint8_t *line, size_t len, uint8_t *out) {
    size_t n = 0;
    int32_t entered = 0;
    int32_t refusal = qlock_held_take(client, QLOCK_CLIENT_BYTES, votes, QLOCK_VOTES_BYTES, calls, QLOCK_CALLS_BYTES, leases,
                                      QLOCK_LEASES_BYTES, span, now, run, start, lapses, line, len, out, QLOCK_CLIENT_OUT, &n, &entered);
    return refusal ? -(int64_t)refusal : (int64_t)n | (entered ? (int64_t)1 << 32 : 0);
}

static int64_t held_leave(uint8_t *client, uint8_t *votes, const uint8_t *calls, uint8_t *out) {
    size_t n = 0;
    int32_t refusal = qlock_held_leave(client, QLOCK_CLIENT_BYTES, votes, QLOCK_VOTES_BYTES, calls, QLOCK_CALLS_BYTES, out,
                                       QLOCK_CLIENT_OUT, &n);
    return refusal ? -(int64_t)refusal : (int64_t)n;
}

static int64_t held_give_up(uint8_t *client, uint8_t *votes, const uint8_t *calls, uint8_t *out) {
    size_t n = 0;
    int32_t refusal = qlock_held_give_up(client, QLOCK_CLIENT_BYTES, votes, QLOCK_VOTES_BYTES, calls, QLOCK_CALLS_BYTES, out,
                                         QLOCK_CLIENT_OUT, &n);
    return refusal ? -(int64_t)refusal : (int64_t)n;
}
*/
import "C"

import (
	"math/bits"
	"time"
	"unsafe"
)

// Leases are what a session knows of its voters, by their places. A voter that there is not has a lease as it is new.
type Leases struct {
	Of    [MaxVoters]Lease
	Since [MaxVoters]time.Duration // since when the incarnation of each voter is known
	Span  time.Duration            // for how long a vote counts after a heartbeat left
}

// NewLeases returns the leases of a session that heard of no voter yet.
func NewLeases(span time.Duration) Leases {
	ls := Leases{Span: span}
	for v := range ls.Of {
		ls.Of[v] = NewLease()
	}
	return ls
}

func (ls *Leases) all() *C.uint8_t    { return at(ls.Of[0].state[:]) }
func (ls *Leases) since() *C.uint64_t { return (*C.uint64_t)(unsafe.Pointer(&ls.Since[0])) }
func (ls *Leases) span() C.uint64_t   { return nanoseconds(ls.Span) }

// LockClient is one lock of a session, whole: its client, the votes of all voters, and the calls for it. So nobody else says which votes
// count, or what the client is doing. It lives in memory alone. Only its methods write its bytes, so none refuses them. One that refuses
// changes nothing. A copy of it is the lock as it was.
type LockClient struct {
	client Client
	votes  [MaxVoters]vote
	calls  calls
}

// NewLockClient makes a lock that nobody wants yet, for the client of this number. Its requests have stamps above this one.
func NewLockClient(number uint8, used uint64) (*LockClient, error) {
	client, err := ClientAnew(number, MaxStamp, used)
	if err != nil {
		return nil, err
	}
	l := &LockClient{client: *client, calls: newCalls(used)}
	for v := range l.votes {
		l.votes[v] = newVote(used)
	}
	return l, nil
}

func (l *LockClient) ofClient() *C.uint8_t { return at(l.client.state[:]) }
func (l *LockClient) ofVotes() *C.uint8_t  { return at(l.votes[0].state[:]) }
func (l *LockClient) ofCalls() *C.uint8_t  { return at(l.calls.state[:]) }

// Shows returns what the client is doing.
func (l *LockClient) Shows() Shown {
	shown, err := l.client.Shows()
	must(err)
	return shown
}

// Grant returns the number of the grant by which the client has the vote of a voter, 0 if it does not have it.
func (l *LockClient) Grant(voter int) uint64 {
	grant, err := l.client.Grant(uint8(voter))
	must(err)
	return grant
}

// Votes returns the voters whose votes the client has, of those that its request asks.
func (l *LockClient) Votes() (mask uint64) {
	for rest := l.Shows().Quorum; rest != 0; rest &= rest - 1 {
		if voter := bits.TrailingZeros64(rest); l.Grant(voter) > 0 {
			mask |= 1 << voter
		}
	}
	return mask
}

// Pass returns the pass that a client which is inside shows to the guard.
func (l *LockClient) Pass() ([]byte, error) { return l.client.Pass() }

// Remind appends what a client that asks sends again to out, Renew what one that is inside sends as a sign of life, and Disclaim what ends
// all requests of one that is idle at these voters.
func (l *LockClient) Remind(out []byte) ([]byte, error) { return l.client.Remind(out) }
func (l *LockClient) Renew(out []byte) ([]byte, error)  { return l.client.Renew(out) }
func (l *LockClient) Disclaim(voters uint64, out []byte) ([]byte, error) {
	return l.client.Disclaim(voters, out)
}

// Raise raises the client's clock to this stamp, if it is behind. The stamp of the next request is above it.
func (l *LockClient) Raise(clock uint64) error { return l.client.Raise(clock) }

// Until returns up to when all votes of the quorum count for the request that runs, and 0 if they do not, or none runs. The call that has the
// lock has it up to then.
func (l *LockClient) Until(ls *Leases) time.Duration {
	var end C.uint64_t
	mustBeDone(C.qlock_held_until(l.ofClient(), ClientBytes, l.ofVotes(), VotesBytes, l.ofCalls(), CallsBytes, ls.all(), LeasesBytes,
		ls.span(), &end))
	return time.Duration(end)
}

// VoteUntil returns up to when the vote of a voter counts, and 0 if it does not count at all.
func (l *LockClient) VoteUntil(voter int, ls *Leases) time.Duration {
	return l.votes[voter].until(&ls.Of[voter], ls.Span)
}

// Keeps keeps what counts for the vote of a voter. This comes before its lease hears of a later incarnation.
func (l *LockClient) Keeps(voter int, ls *Leases) { l.votes[voter].keeps(&ls.Of[voter]) }

// Next returns what the session has to do next for the calls, at this time.
func (l *LockClient) Next(ls *Leases, now time.Duration) Next {
	var next C.uint32_t
	mustBeDone(C.qlock_held_next(l.ofClient(), ClientBytes, l.ofVotes(), VotesBytes, l.ofCalls(), CallsBytes, ls.all(), LeasesBytes,
		ls.since(), MaxVoters, ls.span(), nanoseconds(now), &next))
	return Next(next)
}

// IsDoubtful returns whether a vote of the quorum may be somebody else's at this time. If so, do what Spoiled says.
func (l *LockClient) IsDoubtful(ls *Leases, now time.Duration) bool {
	var yes C.uint32_t
	mustBeDone(C.qlock_held_is_doubtful(l.ofClient(), ClientBytes, l.ofVotes(), VotesBytes, l.ofCalls(), CallsBytes, ls.all(),
		LeasesBytes, ls.since(), MaxVoters, ls.span(), nanoseconds(now), &yes))
	return yes != 0
}

// Spoiled returns what the session has to do if a vote that it has may be somebody else's.
func (l *LockClient) Spoiled() Next {
	var next C.uint32_t
	mustBeDone(C.qlock_held_spoiled(l.ofClient(), ClientBytes, l.ofVotes(), VotesBytes, l.ofCalls(), CallsBytes, &next))
	return Next(next)
}

// Hand hands the lock to the first call that waits, if all votes of the quorum count at this time, and the request is none under which a call
// had it before. It returns up to when the call has it, and 0 if none got it.
func (l *LockClient) Hand(ls *Leases, now time.Duration) time.Duration {
	var end C.uint64_t
	mustBeDone(C.qlock_held_hand(l.ofClient(), ClientBytes, l.ofVotes(), VotesBytes, l.ofCalls(), CallsBytes, ls.all(), LeasesBytes,
		ls.span(), nanoseconds(now), &end))
	return time.Duration(end)
}

// Wants takes a call that comes, which only tries or waits.
func (l *LockClient) Wants(tries bool) CallAnswer {
	var answer C.uint32_t
	mustBeDone(C.qlock_held_wants(l.ofClient(), ClientBytes, l.ofVotes(), VotesBytes, l.ofCalls(), CallsBytes, truth(tries), &answer))
	return CallAnswer(answer)
}

// RefusesTries notes that somebody else has the lock. It returns whether that ends a call that only tries: it is the first that waits.
func (l *LockClient) RefusesTries() bool {
	var yes C.uint32_t
	mustBeDone(C.qlock_held_refuses_tries(l.ofClient(), ClientBytes, l.ofVotes(), VotesBytes, l.ofCalls(), CallsBytes, &yes))
	return yes != 0
}

// Unwants notes that a call does not wait any more, which only tried or did not.
func (l *LockClient) Unwants(tries bool) { l.calls.unwants(tries) }

// Unlocks takes the lock back from the call that has it under the request of this stamp. It returns whether a call had it, and whether that
// was told before that the lock may be lost.
func (l *LockClient) Unlocks(stamp uint64) (had, wasLost bool) { return l.calls.unlocks(stamp) }

// Loses notes that the lock may be lost. It returns whether the call that has it has to be told: it was not told before.
func (l *LockClient) Loses() bool { return l.calls.loses() }

// Empties notes that all calls that waited failed, and Closes that none is taken any more besides.
func (l *LockClient) Empties() { l.calls.ends(false) }
func (l *LockClient) Closes()  { l.calls.ends(true) }

// MayEnd returns whether the request of this stamp may end: no call has the lock under it.
func (l *LockClient) MayEnd(stamp uint64) bool { return l.calls.mayEnd(stamp) }

// Ask starts a request for the votes of a quorum, and appends its lines to out.
func (l *LockClient) Ask(quorum uint64, out []byte) ([]byte, error) {
	out, place := room(out)
	return appended(out, C.held_ask(l.ofClient(), l.ofVotes(), l.ofCalls(), C.uint64_t(quorum), place))
}

// Take takes a line of a voter, whose message says this incarnation, at this time. It appends what to send to out, and returns whether the
// client got the lock.
func (l *LockClient) Take(ls *Leases, said Incarnation, now time.Duration, line, out []byte) ([]byte, bool, error) {
	out, place := room(out)
	written := C.held_take(l.ofClient(), l.ofVotes(), l.ofCalls(), ls.all(), ls.span(), nanoseconds(now), C.uint64_t(said.Run),
		C.uint64_t(said.Start), C.uint64_t(said.Lapses), at(line), C.size_t(len(line)), place)
	if written < 0 {
		return out, false, Refusal(-written)
	}
	return out[:len(out)+int(written&(1<<32-1))], written>>32 != 0, nil
}

// Leave ends the request by which the client is inside, and appends the lines that give the votes back to out.
func (l *LockClient) Leave(out []byte) ([]byte, error) {
	out, place := room(out)
	return appended(out, C.held_leave(l.ofClient(), l.ofVotes(), l.ofCalls(), place))
}

// GiveUp gives up the request by which the client asks, and appends its lines to out.
func (l *LockClient) GiveUp(out []byte) ([]byte, error) {
	out, place := room(out)
	return appended(out, C.held_give_up(l.ofClient(), l.ofVotes(), l.ofCalls(), place))
}
