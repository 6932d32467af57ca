package locks

import (
	"bytes"
	"errors"
	"fmt"
	"math/bits"
	"testing"
	"time"

	"calvundek.example/service/internal/wire"
	"calvundek.example/service/internal/worlds"
	"calvundek.example/service/qlock"
)

// Lost closes in time also while the client's loop stands still, as one does that writes to a
// socket which takes nothing.
func TestLostClosesWithoutTheLoop(t *testing.T) {
	w := worlds.New(t, worlds.Majority, 2*time.Second)
	c, port := start(t, w)
	held := take(t, c, "x")
	port.Cut(true)
	goOn := make(chan struct{})
	stopped := make(chan struct{})
	go func() { _ = c.call(func() error { close(stopped); <-goOn; return nil }) }()
	<-stopped
	began := time.Now()
	select {
	case <-held.Lost():
	case <-time.After(5 * time.Second):
		t.Error("Lost waits for the loop")
	}
	if took := time.Since(began); took > 1700*time.Millisecond {
		t.Errorf("Lost closes after %v", took)
	}
	close(goOn)
	port.Cut(false)
	if err := held.Unlock(); !errors.Is(err, ErrLapsed) {
		t.Error(err)
	}
	if lost := c.Stats().Lost; lost != 1 {
		t.Errorf("%d are lost", lost)
	}
	if err := take(t, c, "x").Unlock(); err != nil {
		t.Error(err)
	}
}

// lapsed lets a client take lines of a voter that let grants of it go so often.
func lapsed(c *Client, voter int, lapses uint64, lines string) {
	started(c, voter, c.peers[voter].start, lapses, lines)
}

// started lets a client take lines of a voter that started so often.
func started(c *Client, voter int, start, lapses uint64, lines string) {
	p := c.peers[voter]
	h := wire.Header{Cluster: c.cluster.ID, Coterie: c.plan.mark, Kind: wire.FromVoter, Number: voter,
		Name: p.identity, Run: p.run, Start: start, Lapses: lapses}
	hear(c, h, lines)
}

// A voter that let a vote go and then acknowledges a heartbeat ends what had the vote. Its words
// from before revive nothing.
func TestAcknowledgementRevivesNothing(t *testing.T) {
	c, h := held(t)
	voter := 0
	for ; h.quorum>>voter&1 == 0; voter++ {
	}
	grant := h.lock.Grant(voter)
	stamp, seq := h.stamp, c.header.Seq
	lapsed(c, voter, 1, fmt.Sprintf(". opened %d %d 0 4096 %d 1\n", c.header.Number, c.header.Epoch, seq))
	if !h.over.Load() {
		t.Fatal("an acknowledgement hides that a vote was let go")
	}
	if err := c.unlock(h); !errors.Is(err, ErrLapsed) {
		t.Error(err)
	}
	call := &waiter{got: make(chan *Held, 1), since: time.Now()}
	if err := c.enqueue("x", call); err != nil {
		t.Fatal(err)
	}
	asked := c.locks["x"].shown
	lease := c.leases.Of[voter]
	c.peers[voter].sent[seq+1] = uptime()
	line := fmt.Sprintf("x locked %d %d %d %d %d\n", voter, c.header.Number, asked.Stamp, grant+1, stamp)
	lapsed(c, voter, 0, line+fmt.Sprintf(". opened %d %d 0 4096 %d 1\n", c.header.Number, c.header.Epoch, seq+1))
	if c.locks["x"].Votes()>>voter&1 == 1 || c.leases.Of[voter] != lease {
		t.Error("a word from before revives a vote")
	}
	if c.locks["x"].Votes() != 0 {
		t.Error("there are votes already")
	}
	if asked.Quorum>>voter&1 == 1 {
		if lapsed(c, voter, 1, line); c.locks["x"].Votes()>>voter&1 == 0 {
			t.Error("a new word gives no vote")
		}
	}
}

// Also a message of a plan that the client does not know says how often grants were let go.
func TestLapsesOfAnotherPlan(t *testing.T) {
	c, h := held(t)
	voter := bits.TrailingZeros64(h.quorum)
	p := c.peers[voter]
	hear(c, wire.Header{Cluster: c.cluster.ID, Coterie: "another", Kind: wire.FromVoter, Number: voter, Name: p.identity,
		Run: p.run, Start: p.start, Lapses: 1}, ". greeted\n")
	if !h.over.Load() {
		t.Error("a lapse is not noticed")
	}
}

// A voter that started again may have given its vote to somebody else. What it acknowledges says nothing of a vote from before, until it
// says again that this session has it.
func TestVoteOfTheStartBefore(t *testing.T) {
	c, h := held(t)
	voter := bits.TrailingZeros64(h.quorum)
	start, until := c.peers[voter].start, h.lock.VoteUntil(voter, &c.leases)
	acknowledged := func() string {
		c.header.Seq++
		c.peers[voter].sent[c.header.Seq] = uptime()
		return fmt.Sprintf(". opened %d %d 0 4096 %d 1\n", c.header.Number, c.header.Epoch, c.header.Seq)
	}
	if started(c, voter, start+1, 0, acknowledged()); h.lock.VoteUntil(voter, &c.leases) != until {
		t.Error("a voter that started again renews a vote that it may have given to somebody else")
	}
	if h.over.Load() {
		t.Error("a lock is lost before its votes end")
	}
	grant := h.lock.Grant(voter)
	line := locked(c, h.lock, voter, grant+1)
	if started(c, voter, start+1, 0, line+acknowledged()); h.lock.VoteUntil(voter, &c.leases) <= until {
		t.Error("a vote that the voter gave again is not renewed")
	}
}

// A LOCKED counts by the number of the grant in it, also if the client has the vote by another one: a number that was given back may be
// that of a grant which is over.
func TestNumberInTheLineCounts(t *testing.T) {
	c, l, call := asks(t)
	voter := bits.TrailingZeros64(l.shown.Quorum)
	other := bits.TrailingZeros64(l.shown.Quorum &^ (1 << voter))
	lapsed(c, voter, 0, locked(c, l, voter, 1))
	givesBack(c, l, voter, other, 1)
	lapsed(c, voter, 0, locked(c, l, voter, 2))
	if lapsed(c, other, 0, locked(c, l, other, 1)); len(call.got) == 0 {
		t.Fatal("the lock is not held")
	}
	start, until := c.peers[voter].start, l.VoteUntil(voter, &c.leases)
	again := func(grant uint64) time.Duration {
		c.header.Seq++
		c.peers[voter].sent[c.header.Seq] = uptime()
		started(c, voter, start+1, 0, locked(c, l, voter, grant)+
			fmt.Sprintf(". opened %d %d 0 4096 %d 1\n", c.header.Number, c.header.Epoch, c.header.Seq))
		return l.VoteUntil(voter, &c.leases)
	}
	if again(1) > until {
		t.Error("a vote is renewed by a number that was given back")
	}
	if again(3) <= until {
		t.Error("a vote is not renewed by a later number")
	}
}

// A claim that is said again acknowledges nothing: its reply may be to the first one, which is as old as the session.
func TestLaterClaimAcknowledgesNothing(t *testing.T) {
	c, h := held(t)
	voter := bits.TrailingZeros64(h.quorum)
	c.forgetLease(voter)
	line := fmt.Sprintf(". claimed %d %d 0 4096\n", c.header.Number, c.header.Epoch)
	lapsed(c, voter, 0, fmt.Sprintf(". unknown %d %d\n", c.header.Number, c.header.Epoch))
	lease := c.leases.Of[voter]
	if lapsed(c, voter, 0, line); c.leases.Of[voter] != lease {
		t.Error("a claim that was said again acknowledges a heartbeat")
	}
}

// A vote that does not count any more is not renewed: the voter may have given it to somebody since.
func TestLostVoteIsNotRenewed(t *testing.T) {
	c, h := held(t)
	voter := bits.TrailingZeros64(h.quorum)
	start, grant := c.peers[voter].start, h.lock.Grant(voter)
	age(t, c, voter)
	c.header.Seq++
	c.peers[voter].sent[c.header.Seq] = uptime()
	line := locked(c, h.lock, voter, grant+1)
	started(c, voter, start+1, 0, line+fmt.Sprintf(". opened %d %d 0 4096 %d 1\n", c.header.Number, c.header.Epoch, c.header.Seq))
	if until := h.lock.VoteUntil(voter, &c.leases); until > uptime() {
		t.Errorf("a vote that was lost counts for %v", until-uptime())
	}
}

// asks returns a client that asks for the lock x, of which no voter hears, and the call that waits for it.
func asks(t *testing.T) (*Client, *lock, *waiter) {
	t.Helper()
	c := still(t, worlds.New(t, worlds.Majority, 20*time.Second))
	turns(c, 200*time.Millisecond, func() bool { return false }) // the replies to what was said before
	call := &waiter{got: make(chan *Held, 1), since: time.Now()}
	if err := c.enqueue("x", call); err != nil {
		t.Fatal(err)
	}
	return c, c.locks["x"], call
}

// locked returns the line by which a voter gives its vote to a lock's request.
func locked(c *Client, l *lock, voter int, grant uint64) string {
	return fmt.Sprintf("x locked %d %d %d %d 0\n", voter, c.header.Number, l.shown.Stamp, grant)
}

// givesBack lets a client give the vote of a voter back that it has by this grant: another voter says that it may have to wait.
func givesBack(c *Client, l *lock, voter, other int, grant uint64) {
	lapsed(c, other, 0, fmt.Sprintf("x fail %d %d %d 0\n", other, c.header.Number, l.shown.Stamp))
	lapsed(c, voter, 0, fmt.Sprintf("x inquire %d %d %d 0\n", voter, c.header.Number, grant))
}

// inside returns a client that has all votes for the lock x, and the call that waits for it. The last voter just started, and acknowledged
// nothing yet: the lock is not handed out.
func inside(t *testing.T) (c *Client, l *lock, call *waiter, last int) {
	t.Helper()
	c, l, call = asks(t)
	last = 63 - bits.LeadingZeros64(l.shown.Quorum)
	for v := range c.peers {
		if v != last && l.shown.Quorum>>v&1 == 1 {
			lapsed(c, v, 0, locked(c, l, v, 1))
		}
	}
	seq := c.header.Seq
	started(c, last, c.peers[last].start+1, 0, locked(c, l, last, 1))
	if l.shown.Phase != qlock.Inside || len(call.got) > 0 {
		t.Fatalf("phase %v, handed out: %d", l.shown.Phase, len(call.got))
	}
	if c.header.Seq == seq {
		t.Error("no heartbeat leaves")
	}
	return c, l, call, last
}

// acknowledges lets a voter acknowledge the newest heartbeat.
func acknowledges(c *Client, voter int) {
	started(c, voter, c.peers[voter].start, 0, fmt.Sprintf(". opened %d %d 0 4096 %d 1\n", c.header.Number, c.header.Epoch, c.header.Seq))
}

// A lock is handed out once all its votes count. A voter that just started acknowledged nothing yet: a heartbeat leaves at once, and its
// reply does.
func TestVoteWaitsForItsLease(t *testing.T) {
	c, _, call, last := inside(t)
	if acknowledges(c, last); len(call.got) == 0 {
		t.Error("a lock whose votes count is not handed out")
	}
}

// A vote from before its voter started again counts for a lock that is not handed out yet, as long as it did before.
func TestVoteOfTheStartBeforeIsEnough(t *testing.T) {
	c, l, call, last := inside(t)
	first := bits.TrailingZeros64(l.shown.Quorum)
	until := l.VoteUntil(first, &c.leases)
	started(c, first, c.peers[first].start+1, 0, "")
	if acknowledges(c, last); len(call.got) == 0 || (<-call.got).until.Load() != int64(until) {
		t.Error("a lock whose votes count is not handed out up to their first end")
	}
}

// A request by which a client is inside is made anew at once if a vote is in doubt, and not only in the next round.
func TestDoubtfulRequestIsMadeAnew(t *testing.T) {
	c, l, _, last := inside(t)
	stamp := l.shown.Stamp
	c.leases.Since[last] -= c.leases.Span + time.Second
	if c.lapse(); l.shown.Phase != qlock.Asking || l.shown.Stamp <= stamp {
		t.Errorf("%v after the request %d", l.shown, stamp)
	}
}

// A vote of a voter that just started, which acknowledged nothing yet, is in doubt once it did so for no lease. Then the request is made anew.
func TestVoteOfANewStartIsNotInDoubt(t *testing.T) {
	c, l, _ := asks(t)
	voter, stamp := bits.TrailingZeros64(l.shown.Quorum), l.shown.Stamp
	started(c, voter, c.peers[voter].start+1, 0, locked(c, l, voter, 1))
	if c.lapse(); l.shown.Stamp != stamp || l.Votes() == 0 {
		t.Fatal("a request is over whose vote may begin to count")
	}
	c.leases.Since[voter] -= c.leases.Span + time.Second
	if c.lapse(); l.shown.Stamp == stamp && l.shown.Phase != qlock.Idle {
		t.Error("a request waits by a vote that does not begin to count")
	}
}

// Who has a lock says so to its voters once in a TTL, and soon after one of them started again.
func TestHolderSaysThatItIsInside(t *testing.T) {
	c, h := held(t)
	began, quarter := time.Now(), c.cluster.TTL.Duration/4
	before := c.stats.Reminders
	i := time.Duration(1)
	for ; i <= 16; i++ {
		c.round(began.Add(i * quarter))
	}
	if said := c.stats.Reminders - before; said < 4 || said > 6 {
		t.Errorf("it says so %d times in four TTLs", said)
	}
	for before = c.stats.Reminders; i*quarter <= time.Hour; i++ {
		c.round(began.Add(i * quarter))
	}
	if said := c.stats.Reminders - before; said < 5 || said > 9 {
		t.Errorf("it says so %d times in an hour", said)
	}
	voter := bits.TrailingZeros64(h.quorum)
	started(c, voter, c.peers[voter].start+1, 0, "")
	before = c.stats.Reminders
	if c.round(time.Now().Add(quarter + time.Second)); c.stats.Reminders == before {
		t.Error("a voter that started again does not hear it soon")
	}
}

// Who has a lock has it for longer once all voters of its quorum acknowledged a later heartbeat.
func TestAcknowledgementsAreTold(t *testing.T) {
	c, h := held(t)
	until := h.until.Load()
	for v := range c.peers {
		c.header.Seq++
		c.peers[v].sent[c.header.Seq] = uptime()
		lapsed(c, v, 0, fmt.Sprintf(". opened %d %d 0 4096 %d 1\n", c.header.Number, c.header.Epoch, c.header.Seq))
	}
	if c.round(time.Now()); h.until.Load() <= until {
		t.Error("who has the lock hears of no later end")
	}
}

// So it is told as a voter that started again says again that it gave its vote: what that acknowledged before counts from then on.
func TestVoteThatIsGivenAgainIsTold(t *testing.T) {
	c, h := held(t)
	for v := range c.peers {
		c.header.Seq++
		c.peers[v].sent[c.header.Seq] = uptime()
		started(c, v, c.peers[v].start+1, 0, fmt.Sprintf(". opened %d %d 0 4096 %d 1\n", c.header.Number, c.header.Epoch, c.header.Seq))
	}
	until := h.until.Load()
	for v := range c.peers {
		if h.quorum>>v&1 == 1 {
			started(c, v, c.peers[v].start, 0, locked(c, h.lock, v, h.lock.Grant(v)+1))
		}
	}
	if h.until.Load() <= until {
		t.Error("who has the lock hears of no later end")
	}
}

// A voter that accepts a claim heard the session.
func TestClaimIsAcknowledged(t *testing.T) {
	c := still(t, worlds.New(t, worlds.Majority, 20*time.Second))
	c.forgetLease(0)
	if isLeased(c, 0) {
		t.Fatal("a voter acknowledged nothing")
	}
	if c.noteClaim(0, true, c.header.Epoch, 0, 4096); !isLeased(c, 0) {
		t.Error("a claim that is accepted is not acknowledged")
	}
}

// A voter that acknowledged nothing yet is asked only if nobody else would do: its vote would not count, and hold others up.
func TestAsksWhoAcknowledged(t *testing.T) {
	c := still(t, worlds.New(t, worlds.Majority, 20*time.Second))
	turns(c, 200*time.Millisecond, func() bool { return false })
	quorum, _ := c.nextQuorum(0, 0)
	voter := bits.TrailingZeros64(quorum)
	c.forgetLease(voter)
	if c.owners(c.used+1)>>voter&1 == 1 {
		t.Error("it may be asked")
	}
	call := &waiter{got: make(chan *Held, 1), since: time.Now()}
	if err := c.enqueue("x", call); err != nil {
		t.Fatal(err)
	}
	if quorum := c.locks["x"].shown.Quorum; quorum == 0 || quorum>>voter&1 == 1 {
		t.Errorf("the voters %b are asked, and not %d", quorum, voter)
	}
}

// A lock for which no voter may be asked yet is asked for once enough of them acknowledged something, and not only in the next round.
func TestAsksOnceVotersAcknowledge(t *testing.T) {
	c := still(t, worlds.New(t, worlds.Majority, 20*time.Second))
	turns(c, 200*time.Millisecond, func() bool { return false })
	for v := range c.peers {
		c.forgetLease(v)
	}
	call := &waiter{got: make(chan *Held, 1), since: time.Now()}
	if err := c.enqueue("x", call); err != nil {
		t.Fatal(err)
	}
	l := c.locks["x"]
	for v := range c.peers {
		if l.shown.Phase != qlock.Idle && v < 2 {
			t.Fatalf("%v, and %d voters acknowledged something", l.shown, v)
		}
		c.acknowledge(v, uptime())
	}
	if l.shown.Phase != qlock.Asking {
		t.Error("the next round asks for it")
	}
}

// A voter that let a vote go acknowledged nothing since. The request that is made anew asks others, if they would do.
func TestAsksOthersAfterALapse(t *testing.T) {
	c, l, _ := asks(t)
	voter, stamp := bits.TrailingZeros64(l.shown.Quorum), l.shown.Stamp
	lapsed(c, voter, 0, locked(c, l, voter, 1))
	for c.ticket = 0; c.plan.Quorums[c.ticket]>>voter&1 == 0; c.ticket++ { // the next quorum has this voter
	}
	if lapsed(c, voter, 1, ""); l.shown.Phase != qlock.Asking || l.shown.Stamp <= stamp || l.shown.Quorum>>voter&1 == 1 {
		t.Errorf("%v after the request %d, of which voter %d let its vote go", l.shown, stamp, voter)
	}
}

// A vote counts neither for a request that is over, nor once it is given back.
func TestVotesEndWithTheirRequest(t *testing.T) {
	c, l, _ := asks(t)
	until := func(v int) time.Duration { return l.VoteUntil(v, &c.leases) }
	voter := bits.TrailingZeros64(l.shown.Quorum)
	if lapsed(c, voter, 0, locked(c, l, voter, 1)); until(voter) == 0 {
		t.Fatal("a vote does not count")
	}
	if c.giveUp(l); until(voter) != 0 {
		t.Error("a vote counts for a request that is over")
	}
	c.pump(l)
	voter = bits.TrailingZeros64(l.shown.Quorum)
	if lapsed(c, voter, 0, locked(c, l, voter, 2)); until(voter) == 0 {
		t.Fatal("the next vote does not count")
	}
	givesBack(c, l, voter, bits.TrailingZeros64(l.shown.Quorum&^(1<<voter)), 2)
	if l.Votes() != 0 || until(voter) != 0 {
		t.Errorf("votes of %b, up to %v", l.Votes(), until(voter))
	}
}

// A vote that its voter asked for goes back once another voter says that the request has to wait: it counts no more then.
func TestVoteGoesBackOnFail(t *testing.T) {
	c, l, _ := asks(t)
	voter := bits.TrailingZeros64(l.shown.Quorum)
	other := bits.TrailingZeros64(l.shown.Quorum &^ (1 << voter))
	lapsed(c, voter, 0, locked(c, l, voter, 1))
	lapsed(c, voter, 0, fmt.Sprintf("x inquire %d %d 1 0\n", voter, c.header.Number))
	if l.Votes() == 0 || l.VoteUntil(voter, &c.leases) == 0 {
		t.Fatal("the vote went back at once")
	}
	lapsed(c, other, 0, fmt.Sprintf("x fail %d %d %d 0\n", other, c.header.Number, l.shown.Stamp))
	if until := l.VoteUntil(voter, &c.leases); l.Votes() != 0 || until != 0 {
		t.Errorf("votes of %b, up to %v", l.Votes(), until)
	}
}

// A voter that started again hears which requests are over: else what it did not save of that looks like a grant that nobody renews.
func TestRestartedVoterHearsWhatIsOver(t *testing.T) {
	c, h := held(t)
	voter := bits.TrailingZeros64(h.quorum)
	l := c.locks["x"]
	c.out[voter] = nil
	if c.restarted(voter); bytes.Contains(c.out[voter], []byte("x release")) {
		t.Errorf("a lock that is held is over: %q", c.out[voter])
	}
	if c.leave(l); l.shown.Phase != qlock.Inside {
		t.Fatal("a request is over under which a call has the lock")
	}
	if err := c.unlock(h); err != nil {
		t.Fatal(err)
	}
	c.out[voter] = nil
	if c.restarted(voter); !bytes.Contains(c.out[voter], []byte("x release")) {
		t.Errorf("it does not hear that a request is over: %q", c.out[voter])
	}
}

// A heartbeat leaves at once if the time of day went on and the clock did not, as after a pause of
// the machine, or the connection came back.
func TestGapsAreNoticed(t *testing.T) {
	c := alone(t)
	now := time.Now()
	c.round(now)
	if c.round(now.Add(10 * time.Millisecond)); c.hasGap(now.Add(20 * time.Millisecond)) {
		t.Error("there is no gap")
	}
	c.last = c.last.Add(-20 * time.Millisecond).Round(0) // a time of day
	if c.hasGap(now.Add(30 * time.Millisecond)) {
		t.Error("there is no gap")
	}
	c.back++
	if !c.hasGap(now.Add(40 * time.Millisecond)) {
		t.Error("a connection that came back is not noticed")
	}
}

// A LOCKED for a request that was not made gives the session nothing, and takes nothing from it: who has the lock has it on, and gets it again.
func TestVoteForNoRequest(t *testing.T) {
	c, h := held(t)
	until := h.until.Load()
	for v := range c.peers {
		lapsed(c, v, 0, fmt.Sprintf("x locked %d %d %d 9 0\n", v, c.header.Number, h.stamp+1000))
	}
	if h.until.Load() < until {
		t.Error("a word of another request ends the votes of a lock that somebody has")
	}
	if err := c.unlock(h); err != nil {
		t.Error(err)
	}
	gets(t, c, comes(t, c, "x"))
}
