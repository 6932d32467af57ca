package locks

import (
	"errors"
	"fmt"
	"testing"
	"time"

	"calvundek.example/service/internal/worlds"
	"calvundek.example/service/qlock"
)

// comes has a call of Lock come, which waits.
func comes(t *testing.T, c *Client, name string) *waiter {
	t.Helper()
	call := &waiter{got: make(chan *Held, 1), since: time.Now()}
	if err := c.enqueue(name, call); err != nil {
		t.Fatal(err)
	}
	c.flush()
	return call
}

// gets returns what a call got.
func gets(t *testing.T, c *Client, call *waiter) *Held {
	t.Helper()
	if !turns(c, 5*time.Second, func() bool { return len(call.got) > 0 }) {
		t.Fatal("a call does not get the lock")
	}
	return <-call.got
}

// Calls are served in the order in which they came, one after the other, each under a request of its own.
func TestCallsAreServedInOrder(t *testing.T) {
	c := still(t, worlds.New(t, worlds.Majority, 20*time.Second))
	first, second, third := comes(t, c, "x"), comes(t, c, "x"), comes(t, c, "x")
	var stamp uint64
	for _, call := range []*waiter{first, second, third} {
		h := gets(t, c, call)
		if h.stamp <= stamp {
			t.Errorf("a lock is had under the request %d, and before under %d", h.stamp, stamp)
		}
		stamp = h.stamp
		if turns(c, 100*time.Millisecond, func() bool { return len(second.got)+len(third.got) > 0 }) {
			t.Fatal("two calls have the lock")
		}
		if err := c.unlock(h); err != nil {
			t.Error(err)
		}
		c.flush()
	}
	if l := c.locks["x"]; l.shown.Phase != qlock.Idle || c.stats.Passes != 3 {
		t.Errorf("%v, and %d passes", l.shown, c.stats.Passes)
	}
}

// Who waits after an Unlock is asked for at once, and not only in the next round.
func TestNextCallIsAskedForAtOnce(t *testing.T) {
	c := still(t, worlds.New(t, worlds.Majority, 20*time.Second))
	h := gets(t, c, comes(t, c, "x"))
	comes(t, c, "x")
	if err := c.unlock(h); err != nil {
		t.Error(err)
	}
	if shown := c.locks["x"].shown; shown.Phase != qlock.Asking || shown.Stamp <= h.stamp {
		t.Errorf("%v after the request %d", shown, h.stamp)
	}
}

// A request for which nobody waits any more is given up: the call ended, or failed, whether it waited or only tried.
func TestNobodyIsAskedFor(t *testing.T) {
	for name, ends := range map[string]func(*Client, *waiter){
		"ends":  func(c *Client, call *waiter) { c.dequeue("x", call) },
		"fails": func(c *Client, call *waiter) { c.refuse(c.locks["x"], ErrFull); c.pump(c.locks["x"]) },
	} {
		for _, tries := range []bool{false, true} {
			t.Run(fmt.Sprint(name, tries), func(t *testing.T) {
				c := still(t, worlds.New(t, worlds.Majority, 20*time.Second))
				call := &waiter{got: make(chan *Held, 1), since: time.Now(), tries: tries}
				if err := c.enqueue("x", call); err != nil {
					t.Fatal(err)
				}
				if ends(c, call); c.locks["x"].shown.Phase != qlock.Idle || c.stats.GivenUp != 1 {
					t.Errorf("%v, and %d given up", c.locks["x"].shown, c.stats.GivenUp)
				}
			})
		}
	}
}

// A session that closes takes no call any more, of locks that it knows and of others. Who has a lock has it on.
func TestClosingTakesNoCall(t *testing.T) {
	c := still(t, worlds.New(t, worlds.Majority, 20*time.Second))
	h := gets(t, c, comes(t, c, "x"))
	c.drain()
	for _, name := range []string{"x", "y"} {
		if err := c.enqueue(name, &waiter{got: make(chan *Held, 1)}); !errors.Is(err, ErrClosed) {
			t.Errorf("%s: %v", name, err)
		}
	}
	if h.over.Load() {
		t.Error("a lock is lost as its session closes")
	}
	if err := c.unlock(h); err != nil {
		t.Error(err)
	}
}

// A loss is said and counted once. The request goes on until Unlock, which says it again.
func TestLossIsSaidOnce(t *testing.T) {
	c := still(t, worlds.New(t, worlds.Majority, 20*time.Second))
	h := gets(t, c, comes(t, c, "x"))
	l := c.locks["x"]
	for range [2]int{} {
		c.spoil(l)
	}
	if l.shown.Phase != qlock.Inside || !h.over.Load() || c.stats.Lost != 1 {
		t.Errorf("%v, and %d were lost", l.shown, c.stats.Lost)
	}
	if err := c.unlock(h); !errors.Is(err, ErrLapsed) || l.shown.Phase != qlock.Idle || c.stats.Lost != 1 {
		t.Errorf("%v, and %d were lost: %v", l.shown, c.stats.Lost, err)
	}
	if err := c.unlock(h); !errors.Is(err, ErrNotHeld) {
		t.Error(err)
	}
}

// Who has a lock hears that it may be lost as the session ends.
func TestSessionThatEndsLosesItsLocks(t *testing.T) {
	c := still(t, worlds.New(t, worlds.Majority, 20*time.Second))
	h := gets(t, c, comes(t, c, "x"))
	if c.end(ErrLost); !h.over.Load() || c.stats.Lost != 1 {
		t.Errorf("%d were lost", c.stats.Lost)
	}
}

// A lock that came just as its call ended is given back, and another call gets it.
func TestLockComesAsItsCallEnds(t *testing.T) {
	c := still(t, worlds.New(t, worlds.Majority, 20*time.Second))
	call := comes(t, c, "x")
	if !turns(c, 5*time.Second, func() bool { return len(call.got) > 0 }) {
		t.Fatal("a call does not get the lock")
	}
	c.dequeue("x", call)
	if l := c.locks["x"]; l.held != nil || l.shown.Phase != qlock.Idle {
		t.Fatalf("%v, held %v", l.shown, l.held != nil)
	}
	gets(t, c, comes(t, c, "x"))
}
