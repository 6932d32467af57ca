package qlock

import (
	"fmt"
	"testing"
	"time"
)

const (
	span = 8 * time.Second
	me   = 3 // the number of the client
)

// scene is a lock of a session, and the leases of its voters. Each voter acknowledged a heartbeat that left at one of these times, if it is
// not 0. Its incarnation is known since the second second.
type scene struct {
	*testing.T
	*LockClient
	leases Leases
	grant  uint64 // the number of the newest grant of a voter
}

func newScene(t *testing.T, left ...time.Duration) *scene {
	t.Helper()
	l, err := NewLockClient(me, 5)
	if err != nil {
		t.Fatal(err)
	}
	s := &scene{T: t, LockClient: l, leases: NewLeases(span)}
	for v, at := range left {
		if s.leases.Since[v] = 2 * time.Second; at > 0 {
			s.leases.Of[v].Renews(Incarnation{}, at)
		}
	}
	return s
}

// asks begins a request for the votes of a quorum.
func (s *scene) asks(quorum uint64) {
	s.Helper()
	if _, err := s.Ask(quorum, nil); err != nil {
		s.Fatal(err)
	}
}

// says lets voters give their votes at this time.
func (s *scene) says(now time.Duration, voters ...int) {
	s.Helper()
	for _, v := range voters {
		s.grant++
		s.hears(now, fmt.Sprintf("locked %d %d %d %d 0", v, me, s.Shows().Stamp, s.grant))
	}
}

// hears takes a line, and returns what leaves.
func (s *scene) hears(now time.Duration, line string) string {
	s.Helper()
	out, _, err := s.Take(&s.leases, Incarnation{}, now, []byte(line), nil)
	if err != nil {
		s.Fatalf("%s: %v", line, err)
	}
	return string(out)
}

// is compares what a call returned.
func (s *scene) is(what string, got, want any) {
	s.Helper()
	if got != want {
		s.Errorf("%s: %v, and not %v", what, got, want)
	}
}

// A lock lasts up to the first end of its votes, while all of them count.
func TestLockUntil(t *testing.T) {
	s := newScene(t, 3*time.Second, time.Second, 2*time.Second)
	s.is("no request", s.Until(&s.leases), time.Duration(0))
	s.asks(0b111)
	s.says(0, 0, 2)
	s.is("two of three votes", s.Until(&s.leases), time.Duration(0))
	s.says(0, 1)
	s.is("three votes", s.Until(&s.leases), 9*time.Second)
	s.is("the first one", s.VoteUntil(0, &s.leases), 11*time.Second)
	s.leases.Of[1].Renews(Incarnation{}, 4*time.Second)
	s.is("once a later heartbeat is acknowledged", s.Until(&s.leases), 10*time.Second)
	if _, err := s.Leave(nil); err != nil {
		t.Fatal(err)
	}
	s.is("a request that is over", s.Until(&s.leases), time.Duration(0))
	s.is("its first vote", s.VoteUntil(0, &s.leases), time.Duration(0))
}

// A vote is in doubt once it does not count any more, or did not begin to count for long.
func TestLockIsDoubtful(t *testing.T) {
	for _, row := range []struct {
		left []time.Duration
		now  time.Duration
		want bool
	}{
		{[]time.Duration{time.Second}, 8 * time.Second, false}, {[]time.Duration{time.Second}, 9 * time.Second, true},
		{[]time.Duration{0}, 10 * time.Second, false}, {[]time.Duration{0}, 11 * time.Second, true},
		{[]time.Duration{time.Second, 0}, 8 * time.Second, false}, {[]time.Duration{time.Second, 9 * time.Second}, 9 * time.Second, true},
	} {
		s := newScene(t, row.left...)
		s.asks(1<<len(row.left) - 1)
		for v := range row.left {
			s.says(0, v)
		}
		if got := s.IsDoubtful(&s.leases, row.now); got != row.want {
			t.Errorf("%+v: %v", row, got)
		}
	}
	s := newScene(t, time.Second, time.Second)
	s.is("no request", s.IsDoubtful(&s.leases, time.Hour), false)
	s.asks(0b11)
	s.is("no vote", s.IsDoubtful(&s.leases, time.Hour), false)
	s.says(0, 0)
	s.is("one vote", s.IsDoubtful(&s.leases, time.Hour), true)
	s.hears(0, fmt.Sprintf("fail 1 %d %d 0", me, s.Shows().Stamp))
	s.hears(0, fmt.Sprintf("inquire 0 %d %d 0", me, s.grant))
	s.is("a vote that was given back", s.IsDoubtful(&s.leases, time.Hour), false)
}

// A later incarnation of a voter acknowledged nothing yet. What counted for a vote before is kept.
func TestLockKeeps(t *testing.T) {
	s := newScene(t, time.Second)
	s.asks(1)
	s.says(0, 0)
	later := Incarnation{Start: 1}
	s.Keeps(0, &s.leases)
	s.is("a later incarnation", s.leases.Of[0].Hears(later), true)
	s.leases.Of[0].Renews(later, 5*time.Second)
	s.is("what counted", s.Until(&s.leases), 9*time.Second)
	lost := newScene(t, time.Second)
	lost.asks(1)
	lost.says(0, 0)
	lost.leases.Of[0].Hears(later)
	lost.is("what is not kept", lost.Until(&lost.leases), time.Duration(0))
}

// A vote counts by what the incarnation acknowledged that gave it: the one of the message.
func TestLockTakesAnIncarnation(t *testing.T) {
	for _, said := range []Incarnation{{Run: 1}, {Start: 1}, {Lapses: 1}, {Run: 1, Start: 2, Lapses: 3}} {
		s := newScene(t)
		s.leases.Of[0].Hears(said)
		s.leases.Of[0].Renews(said, time.Second)
		s.asks(1)
		_, entered, err := s.Take(&s.leases, said, 0, []byte(fmt.Sprintf("locked 0 %d %d 1 0", me, s.Shows().Stamp)), nil)
		s.is(fmt.Sprintf("%+v: it got the lock", said), entered && err == nil, true)
		s.is(fmt.Sprintf("%+v: the end", said), s.Until(&s.leases), 9*time.Second)
	}
}

// A LOCKED of a later incarnation renews a vote while that counts, and not once it does not.
func TestLockRenewsAVote(t *testing.T) {
	for now, want := range map[time.Duration]time.Duration{8 * time.Second: 13 * time.Second, 9 * time.Second: 9 * time.Second} {
		s, later := newScene(t, time.Second), Incarnation{Start: 1}
		s.asks(1)
		s.says(0, 0)
		s.Keeps(0, &s.leases)
		s.leases.Of[0].Hears(later)
		s.leases.Of[0].Renews(later, 5*time.Second)
		if _, _, err := s.Take(&s.leases, later, now, []byte(fmt.Sprintf("locked 0 %d %d 2 0", me, s.Shows().Stamp)), nil); err != nil {
			t.Fatal(err)
		}
		s.is(fmt.Sprintf("the end after a LOCKED at %v", now), s.Until(&s.leases), want)
	}
}

// One FAIL may give several votes back. Each counts no more then.
func TestLockGivesVotesBack(t *testing.T) {
	s := newScene(t, time.Second, time.Second, time.Second)
	s.asks(0b111)
	s.says(0, 0, 1)
	for v := 0; v < 2; v++ {
		if out := s.hears(0, fmt.Sprintf("inquire %d %d %d 0", v, me, v+1)); out != "" {
			t.Fatalf("%q", out)
		}
	}
	out := s.hears(0, fmt.Sprintf("fail 2 %d %d 0", me, s.Shows().Stamp))
	s.is("what leaves", out, fmt.Sprintf("relinquish %d 0 1\nrelinquish %d 1 2\n", me, me))
	s.is("the first one", s.VoteUntil(0, &s.leases), time.Duration(0))
	s.is("the second one", s.VoteUntil(1, &s.leases), time.Duration(0))
	s.is("the votes", s.Votes(), uint64(0))
}

// What the calls do, in one story: of two that want the lock the first one gets it, hears that it may be lost, and gives it back. Then the
// client leaves, and asks anew.
func TestLockCalls(t *testing.T) {
	s := newScene(t, time.Second, time.Second)
	next := func(what string, now time.Duration, want Next) {
		t.Helper()
		s.is(what, s.Next(&s.leases, now), want)
	}
	next("of nobody", 0, Nothing)
	s.is("a try", s.Wants(true), CallTaken)
	s.is("a try behind a try", s.Wants(true), CallHeld)
	s.is("a call", s.Wants(false), CallTaken)
	next("of two calls", 0, Ask)
	s.asks(0b11)
	first := s.Shows().Stamp
	s.is("a try while votes are asked for", s.Wants(true), CallHeld)
	next("of who asks", 0, Nothing)
	s.is("of a vote that is somebody else's", s.Spoiled(), GiveUp)
	s.is("tries end", s.RefusesTries(), true)
	s.is("tries end once", s.RefusesTries(), false)
	s.says(0, 0)
	s.is("the lock by one vote", s.Hand(&s.leases, 0), time.Duration(0))
	s.says(0, 1)
	next("votes that count", 8*time.Second, Hand)
	next("votes in doubt", 9*time.Second, Leave)
	s.is("the lock by votes in doubt", s.Hand(&s.leases, 9*time.Second), time.Duration(0))
	s.is("the lock", s.Hand(&s.leases, 8*time.Second), 9*time.Second)
	s.is("the lock again", s.Hand(&s.leases, 8*time.Second), time.Duration(0))
	next("of who has it", 9*time.Second, Nothing)
	s.is("its request", s.MayEnd(first), false)
	s.is("another request", s.MayEnd(first+1), true)
	if _, err := s.Leave(nil); err != Busy {
		t.Errorf("it leaves while a call has the lock: %v", err)
	}
	s.is("a vote of who has it", s.Spoiled(), Lose)
	s.is("a loss", s.Loses(), true)
	s.is("the loss again", s.Loses(), false)
	s.is("a vote of who lost it", s.Spoiled(), Nothing)
	s.is("the next call", s.Wants(false), CallTaken)
	had, _ := s.Unlocks(first + 1)
	s.is("another one unlocks", had, false)
	had, wasLost := s.Unlocks(first)
	s.is("it unlocks", had && wasLost, true)
	had, _ = s.Unlocks(first)
	s.is("it unlocks again", had, false)
	s.is("the next one by the same request", s.Hand(&s.leases, 8*time.Second), time.Duration(0))
	next("of the next one", 8*time.Second, Leave)
	s.is("a vote of nobody", s.Spoiled(), Leave)
	if _, err := s.Leave(nil); err != nil {
		t.Fatal(err)
	}
	next("of who is outside", 8*time.Second, Ask)
	s.asks(0b11)
	s.Unwants(false)
	next("of a call that ended", 0, GiveUp)
	if _, err := s.GiveUp(nil); err != nil {
		t.Fatal(err)
	}
	s.is("a call after these", s.Wants(false), CallTaken)
	s.Empties()
	next("of calls that failed", 0, Nothing)
	s.Closes()
	s.is("a call of a session that closed", s.Wants(false), CallClosed)
}

// A copy of a lock is the lock as it was: a request that no voter was asked by is taken back so.
func TestLockIsCopied(t *testing.T) {
	s := newScene(t, time.Second)
	s.Wants(false)
	before := *s.LockClient
	s.asks(1)
	*s.LockClient = before
	s.is("the phase", s.Shows().Phase, Idle)
	if err := s.Raise(20); err != nil {
		t.Fatal(err)
	}
	s.asks(1)
	s.is("the stamp", s.Shows().Stamp, uint64(21))
	if _, err := s.Ask(1, nil); err != Busy {
		t.Errorf("it asks twice: %v", err)
	}
	if _, err := s.Ask(0, nil); err != BadArgument {
		t.Errorf("it asks nobody: %v", err)
	}
	for _, line := range []string{"", "locked 0 4 21 1 0", "request 3 0 21"} {
		if _, _, err := s.Take(&s.leases, Incarnation{}, 0, []byte(line), nil); err != BadMessage {
			t.Errorf("%q: %v", line, err)
		}
	}
}

// What a pass costs by quorums of three voters: a call comes, three LOCKEDs, the lock is handed out, given back, and left.
func BenchmarkLockPass(b *testing.B) {
	l, err := NewLockClient(me, 0)
	if err != nil {
		b.Fatal(err)
	}
	leases, out := NewLeases(span), make([]byte, 0, 1<<13)
	for v := range leases.Of {
		leases.Of[v].Renews(Incarnation{}, time.Second)
	}
	for n := 0; n < b.N; n++ {
		l.Wants(false)
		if l.Next(&leases, time.Second) != Ask {
			b.Fatal("it does not ask")
		}
		_, _ = l.Ask(0b111, out)
		stamp := l.Shows().Stamp
		for v := 0; v < 3; v++ {
			line := fmt.Sprintf("locked %d %d %d %d 0", v, me, stamp, n+1)
			if _, _, err := l.Take(&leases, Incarnation{}, time.Second, []byte(line), out); err != nil {
				b.Fatal(err)
			}
		}
		if l.Next(&leases, time.Second) != Hand || l.Hand(&leases, time.Second) == 0 {
			b.Fatal("it is not handed out")
		}
		l.Unlocks(stamp)
		if l.Next(&leases, time.Second) != Leave {
			b.Fatal("it does not leave")
		}
		_, _ = l.Leave(out)
	}
}

// What is next for a lock that somebody has.
func BenchmarkLockNext(b *testing.B) {
	l, err := NewLockClient(me, 0)
	if err != nil {
		b.Fatal(err)
	}
	leases := NewLeases(span)
	for n := 0; n < b.N; n++ {
		l.Next(&leases, time.Second)
	}
}
