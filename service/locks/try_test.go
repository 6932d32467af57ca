package locks

import (
	"bytes"
	"context"
	"errors"
	"fmt"
	"log"
	"strings"
	"sync"
	"testing"
	"time"

	"calvundek.example/service/internal/wire"
	"calvundek.example/service/internal/worlds"
)

// Who tries to take a lock that somebody has hears so soon, also from its own process. Once it is free he gets it.
func TestTryLock(t *testing.T) {
	w := worlds.New(t, worlds.Majority, 20*time.Second)
	one, _ := start(t, w)
	other, _ := start(t, w)
	held := take(t, one, "x")
	for name, c := range map[string]*Client{"the same client": one, "another one": other} {
		began := time.Now()
		if _, err := c.TryLock(within(t, 20*time.Second), "x"); !errors.Is(err, ErrHeld) {
			t.Fatalf("%s: %v", name, err)
		}
		if took := time.Since(began); took > 5*time.Second {
			t.Errorf("%s: it takes %v", name, took)
		}
	}
	if _, err := other.TryLock(within(t, time.Second), "no name"); !errors.Is(err, ErrName) {
		t.Error(err)
	}
	waits := make(chan error)
	go func() { // who waits goes on, though another call of its process tries
		held, err := other.Lock(within(t, 20*time.Second), "x")
		if err == nil {
			err = held.Unlock()
		}
		waits <- err
	}()
	soon(t, "nobody waits", func() bool {
		_, err := other.TryLock(within(t, 20*time.Second), "x")
		return errors.Is(err, ErrHeld)
	})
	if err := held.Unlock(); err != nil {
		t.Fatal(err)
	}
	if err := <-waits; err != nil {
		t.Fatal(err)
	}
	soon(t, "a lock that nobody has is not to be had", func() bool {
		held, err := other.TryLock(within(t, 20*time.Second), "x")
		return err == nil && held.Unlock() == nil
	})
}

// Of those that try a free lock at once one gets it.
func TestOneOfThoseThatTry(t *testing.T) {
	w := worlds.New(t, worlds.Majority, 20*time.Second)
	var clients []*Client
	for i := 0; i < 4; i++ {
		c, _ := start(t, w)
		clients = append(clients, c)
	}
	for round := 0; round < 5; round++ {
		var group sync.WaitGroup
		got := make(chan *Held, len(clients))
		for _, c := range clients {
			group.Add(1)
			go func(c *Client) {
				defer group.Done()
				held, err := c.TryLock(within(t, 20*time.Second), fmt.Sprint("x", round))
				if err == nil {
					got <- held
				} else if !errors.Is(err, ErrHeld) {
					t.Error(err)
				}
			}(c)
		}
		group.Wait()
		if len(got) != 1 {
			t.Errorf("%d of %d have the lock", len(got), len(clients))
		}
	}
}

// A voter says that somebody else has its vote only to who tries, and not to who has it.
func TestWhoTriesHearsOfWhoHas(t *testing.T) {
	w := worlds.New(t, worlds.Majority, 20*time.Second)
	held := take(t, func() *Client { c, _ := start(t, w); return c }(), "x")
	c := still(t, w)
	stamp, _, err := c.tries(&lock{LockClient: mustFind(t, c, "x").LockClient}, held.quorum)
	if err != nil {
		t.Fatal(err)
	}
	said := map[string]int{}
	for _, word := range []string{"", " try"} {
		for v := range c.peers {
			c.out[v] = append(c.out[v], fmt.Sprintf("x request %d %d %d%s\n", c.header.Number, v, stamp, word)...)
		}
		c.flush()
		for end := time.After(300 * time.Millisecond); end != nil; {
			select {
			case m := <-c.messages:
				_, lines, err := wire.Read(m.Data)
				if err != nil {
					t.Fatal(err)
				}
				said[word] += strings.Count(string(lines), fmt.Sprintf(". held x %d ", stamp))
			case <-end:
				end = nil
			}
		}
	}
	if said[""] != 0 || said[" try"] != 2 {
		t.Errorf("held is said %d times to who waits, and %d times to who tries", said[""], said[" try"])
	}
}

func mustFind(t *testing.T, c *Client, name string) *lock {
	t.Helper()
	l, err := c.find(name)
	if err != nil {
		t.Fatal(err)
	}
	return l
}

// Who has a vote for a moment only may be one who asks at the same time.
func TestWhoHasAVoteForLong(t *testing.T) {
	c := still(t, worlds.New(t, worlds.Majority, 20*time.Second))
	var calls [2]*waiter
	for i := range calls { // the first one tries
		calls[i] = &waiter{got: make(chan *Held, 1), since: time.Now(), tries: i == 0}
		if err := c.enqueue("x", calls[i]); err != nil {
			t.Fatal(err)
		}
	}
	isOver := func(w *waiter) bool {
		select {
		case <-w.got:
			return true
		default:
			return false
		}
	}
	stamp := c.locks["x"].shown.Stamp
	for i, one := range []struct {
		stamp, milliseconds uint64
		isOver              bool
	}{{stamp, 100, false}, {stamp + 1, 900, false}, {stamp, 300, true}} {
		c.control(0, []byte(fmt.Sprintf("held x %d %d", one.stamp, one.milliseconds)))
		if isOver(calls[0]) != one.isOver {
			t.Fatalf("line %d", i)
		}
	}
	if !errors.Is(calls[0].why, ErrHeld) || isOver(calls[1]) || len(c.locks["x"].queue) != 1 {
		t.Errorf("%v; of the other call %v", calls[0].why, calls[1].why)
	}
}

// What is left of a lock falls while no voter is heard, and is over when Lost closes.
func TestLeft(t *testing.T) {
	w := worlds.New(t, worlds.Majority, 2*time.Second)
	c, port := start(t, w)
	held := take(t, c, "x")
	if left := held.Left(); left <= 0 || left > leaseOf(2*time.Second) {
		t.Errorf("%v are left", left)
	}
	port.Cut(true)
	time.Sleep(300 * time.Millisecond)
	left, began := held.Left(), time.Now()
	if !isLost(held) {
		t.Fatal("the lock lasts without any voter")
	}
	if took := time.Since(began); took < left-10*time.Millisecond || took > left+time.Second {
		t.Errorf("%v were left, and it took %v", left, took)
	}
	if left := held.Left(); left != 0 {
		t.Errorf("of a lost lock %v are left", left)
	}
}

// journal is a log that is read while others write to it.
type journal struct {
	sync.Mutex
	text bytes.Buffer
}

func (j *journal) Write(line []byte) (int, error) {
	j.Lock()
	defer j.Unlock()
	return j.text.Write(line)
}

func (j *journal) String() string {
	j.Lock()
	defer j.Unlock()
	return j.text.String()
}

// Done closes when the session is over, and Err says why. Each event has its line in the log.
func TestDoneAndLog(t *testing.T) {
	w := worlds.New(t, worlds.Majority, 2*time.Second)
	var text journal
	c, err := open(within(t, 20*time.Second), w.Cluster, Config{Transport: w.Bus.Port(), Log: log.New(&text, "", 0)})
	if err != nil {
		t.Fatal(err)
	}
	if c.Err() != nil {
		t.Error(c.Err())
	}
	w.Kill(2)
	soon(t, "a voter is not silent", func() bool { return len(c.Silent()) > 0 })
	soon(t, "the log does not say so", func() bool { return strings.Contains(text.String(), "event=voter-silent ") })
	if err := c.Close(context.Background()); err != nil {
		t.Error(err)
	}
	select {
	case <-c.Done():
	default:
		t.Error("a session that is over is not done")
	}
	if !errors.Is(c.Err(), ErrClosed) {
		t.Error(c.Err())
	}
	for _, event := range []string{fmt.Sprintf("event=session number=%d epoch=1\n", c.Number()), "event=voter-silent voter=c\n",
		"event=session-over number="} {
		if !strings.Contains(text.String(), event) {
			t.Errorf("no %q in %q", event, text.String())
		}
	}
}
