package locks

import (
	"errors"
	"fmt"
	"math/bits"
	"testing"
	"time"

	"calvundek.example/service/internal/wire"
	"calvundek.example/service/internal/worlds"
	"calvundek.example/service/qlock"
)

// still returns a client whose loop stands still: a test takes its turns.
func still(t *testing.T, w *worlds.World) *Client {
	t.Helper()
	c, err := newClient(w.Cluster, Config{Transport: w.Bus.Port()})
	if err != nil {
		t.Fatal(err)
	}
	if c.messages, err = c.carrier.Listen(c.boxes()); err != nil {
		t.Fatal(err)
	}
	if err := c.begin(within(t, 20*time.Second)); err != nil {
		t.Fatal(err)
	}
	c.firstTicket()
	return c
}

// turns takes messages until something holds, and returns whether it does.
func turns(c *Client, most time.Duration, holds func() bool) bool {
	for end := time.After(most); !holds(); c.flush() {
		select {
		case m := <-c.messages:
			c.message(m)
		case <-end:
			return false
		}
	}
	return true
}

// age lets the newest heartbeat that a voter acknowledged have left a TTL ago. So do the votes that are taken of it: one whose LOCKED
// came twice keeps what counted when the second one came.
func age(t *testing.T, c *Client, voter int) {
	t.Helper()
	then, said := uptime()-c.cluster.TTL.Duration, c.peers[voter].said
	c.leases.Of[voter] = qlock.NewLease()
	c.leases.Of[voter].Hears(said)
	c.leases.Of[voter].Renews(said, then)
	for l := range c.busy {
		if l.Grant(voter) > 0 {
			takeAgain(t, c, l, then)
		}
	}
}

// takeAgain lets a lock be one whose LOCKEDs came at this time, by the leases as they are. If somebody has it, it was handed out then.
func takeAgain(t *testing.T, c *Client, l *lock, then time.Duration) {
	t.Helper()
	stamp, number := l.shown.Stamp, c.header.Number
	again, err := qlock.NewLockClient(uint8(number), stamp-1)
	if err != nil {
		t.Fatal(err)
	}
	if l.held != nil {
		again.Wants(false)
	}
	for _, w := range l.queue {
		again.Wants(w.tries)
	}
	if _, err := again.Ask(l.shown.Quorum, nil); err != nil {
		t.Fatal(err)
	}
	for voter := range c.peers {
		grant := l.Grant(voter)
		if grant == 0 {
			continue
		}
		line := fmt.Sprintf("locked %d %d %d %d 0", voter, number, stamp, grant)
		if _, _, err := again.Take(&c.leases, c.peers[voter].said, then, []byte(line), nil); err != nil {
			t.Fatal(err)
		}
	}
	if l.held != nil && again.Hand(&c.leases, then) == 0 {
		t.Fatal("the lock is not handed out")
	}
	l.LockClient = again
}

// A client that stood still takes the last vote after another one is in doubt. It hands nothing out, and asks anew.
func TestDoubtfulVoteIsNotHandedOut(t *testing.T) {
	w := worlds.New(t, worlds.Majority, 20*time.Second)
	c := still(t, w)
	turns(c, 200*time.Millisecond, func() bool { return false }) // the replies to what was said before
	call := &waiter{got: make(chan *Held, 1), since: time.Now()}
	if err := c.enqueue("x", call); err != nil {
		t.Fatal(err)
	}
	c.flush()
	l := c.locks["x"]
	if !turns(c, 5*time.Second, func() bool { return l.Votes() != 0 }) || bits.OnesCount64(l.Votes()) != 1 {
		t.Fatalf("votes of %b", l.Votes())
	}
	voter := bits.TrailingZeros64(l.Votes())
	before := c.leases.Of[voter]
	age(t, c, voter)
	stamp := l.shown.Stamp
	turns(c, 300*time.Millisecond, func() bool { return len(call.got) > 0 })
	if len(call.got) > 0 || l.held != nil {
		t.Fatal("a lock is handed out by a vote that may be somebody else's")
	}
	c.leases.Of[voter] = before
	c.round(time.Now())
	c.flush()
	if !turns(c, 5*time.Second, func() bool { return len(call.got) > 0 }) || l.shown.Stamp <= stamp {
		t.Error("the client does not ask anew")
	}
}

// A voter that got to know this session anew takes no stamp up to its base there. A request that waits for it is made anew, above
// that: else it would wait for ever, and hold others up by the votes that it has.
func TestRequestBelowTheBase(t *testing.T) {
	w := worlds.New(t, worlds.Majority, 20*time.Second)
	c := still(t, w)
	turns(c, 200*time.Millisecond, func() bool { return false }) // the replies to what was said before
	call := &waiter{got: make(chan *Held, 1), since: time.Now()}
	if err := c.enqueue("x", call); err != nil {
		t.Fatal(err)
	}
	l := c.locks["x"]
	stamp, voter := l.shown.Stamp, bits.TrailingZeros64(l.shown.Quorum)
	c.noteStamps(voter, stamp+100, stamp+1000)
	if l.shown.Phase == qlock.Asking && l.shown.Stamp <= stamp+100 {
		t.Fatal("it waits under a stamp that the voter does not take")
	}
	c.flush()
	if !turns(c, 5*time.Second, func() bool { c.round(time.Now()); return len(call.got) > 0 }) || l.shown.Stamp <= stamp+100 {
		t.Errorf("stamp %d, above %d", l.shown.Stamp, stamp+100)
	}
}

// A holder that lost the lock hears it from Unlock, also if the loop did not notice it before.
func TestUnlockSaysThatItIsLost(t *testing.T) {
	w := worlds.New(t, worlds.Majority, 20*time.Second)
	c, _ := start(t, w)
	held := take(t, c, "x")
	err := c.call(func() error {
		for v := range c.peers {
			age(t, c, v)
		}
		return c.unlock(held)
	})
	if !errors.Is(err, ErrLapsed) {
		t.Error(err)
	}
	if err := held.Unlock(); !errors.Is(err, ErrNotHeld) {
		t.Error(err)
	}
	if lost := c.Stats().Lost; lost != 1 {
		t.Errorf("%d are lost", lost)
	}
	if err := take(t, c, "x").Unlock(); err != nil {
		t.Error(err)
	}
}

// A number that is given back leaves no lock behind that speaks for it.
func TestAbandonedNumberSpeaksNoMore(t *testing.T) {
	w := worlds.New(t, worlds.Majority, time.Second)
	c, err := newClient(w.Cluster, Config{Transport: w.Bus.Port()})
	if err != nil {
		t.Fatal(err)
	}
	c.header.Number, c.header.Epoch = 3, 5
	claiming(c, 3, 5)
	if _, err := c.find("x"); err != nil {
		t.Fatal(err)
	}
	c.abandon()
	c.header.Number, c.header.Epoch = 4, 1
	l, err := c.find("x")
	if err != nil {
		t.Fatal(err)
	}
	lines, err := l.Ask(c.plan.Quorums[0], nil)
	if err != nil {
		t.Fatal(err)
	}
	if from := wire.ReadLine(lines).From; from != 4 {
		t.Errorf("number %d asks", from)
	}
}

// A voter speaks in its own mailbox only.
func TestVoterSpeaksAsItself(t *testing.T) {
	c := alone(t)
	h := wire.Header{Cluster: c.cluster.ID, Coterie: c.plan.mark, Kind: wire.FromVoter, Number: 1, Name: "identity-1"}
	for _, from := range []int{0, 2, 11} {
		c.message(came(c.Client, from, append(h.Append(nil), ". taken 3 5\n"...)))
	}
	if c.takers() != 0 || c.stats.Refused != 3 || c.peers[1].identity != "" {
		t.Errorf("taken by %b, %d messages are refused", c.takers(), c.stats.Refused)
	}
	if hear(c.Client, h, ". taken 3 5\n"); c.takers() != 1<<1 {
		t.Errorf("taken by %b", c.takers())
	}
}

// What a message has behind the line that ends the session is not taken.
func TestNothingIsTakenAfterTheEnd(t *testing.T) {
	w := worlds.New(t, worlds.Majority, time.Second)
	c, err := newClient(w.Cluster, Config{Transport: w.Bus.Port()})
	if err != nil {
		t.Fatal(err)
	}
	c.header.Number, c.header.Epoch = 3, 5
	h := wire.Header{Cluster: w.Cluster.ID, Coterie: c.plan.mark, Kind: wire.FromVoter, Number: 1, Name: "identity"}
	hear(c, h, ". taken 3 5\n")
	if c.why != nil {
		t.Fatalf("one voter's word ends a session: %v", c.why)
	}
	h.Number, h.Name = 2, "another"
	hear(c, h, ". taken 3 5\nx nonsense\n")
	if !errors.Is(c.why, ErrLost) || c.stats.Refused != 0 {
		t.Errorf("%v, %d lines are refused", c.why, c.stats.Refused)
	}
}
