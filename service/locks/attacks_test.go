package locks

import (
	"bytes"
	"errors"
	"fmt"
	"strings"
	"testing"
	"time"

	"calvundek.example/service/internal/wire"
	"calvundek.example/service/internal/worlds"
	"calvundek.example/service/qlock"
	"calvundek.example/service/transport"
)

// stranger sends what it likes to voters.
type stranger struct {
	w *worlds.World
	wire.Header
	replies <-chan transport.Message
}

func newStranger(t *testing.T, w *worlds.World, name string) *stranger {
	t.Helper()
	s := &stranger{w, wire.Header{Cluster: w.Cluster.ID, Coterie: w.Cluster.Marks()[0], Kind: wire.FromClient,
		Name: name}, nil}
	var err error
	if s.replies, err = w.Bus.Port().Listen(wire.SessionBoxes(w.Cluster.ID, wire.SessionName(wire.NoUser, name))); err != nil {
		t.Fatal(err)
	}
	return s
}

// send sends lines to a voter.
func (s *stranger) send(voter int, lines string) {
	_ = s.w.Bus.Port().Send(wire.VoterBox(s.Cluster, voter, wire.NoUser), append(s.Append(nil), lines...))
}

// hears waits until a text comes, and returns whether it did.
func (s *stranger) hears(text string, most time.Duration) bool {
	for end := time.After(most); ; {
		select {
		case m := <-s.replies:
			if bytes.Contains(m.Data, []byte(text)) {
				return true
			}
		case <-end:
			return false
		}
	}
}

// works opens sessions that have to get locks.
func works(t *testing.T, w *worlds.World, names ...string) {
	t.Helper()
	for i := 0; i < 4; i++ {
		c, _ := start(t, w)
		for _, name := range names {
			held, err := c.Lock(within(t, 5*time.Second), name)
			if err != nil {
				t.Fatalf("session %d, number %d, %s: %v", i, c.Number(), name, err)
			}
			if err := held.Unlock(); err != nil {
				t.Error(err)
			}
		}
		if err := c.Close(within(t, 5*time.Second)); err != nil {
			t.Error(err)
		}
	}
}

// Headers that name sessions with great epochs and stamps spend no number.
func TestMadeUpSessionsSpendNoNumber(t *testing.T) {
	w := worlds.New(t, worlds.Majority, time.Second)
	for number := 0; number < qlock.MaxClients; number++ {
		s := newStranger(t, w, fmt.Sprint("x-", number))
		s.Number, s.Epoch, s.Reserved, s.Seq = number, 1<<32, 1<<41, 1
		for voter := range w.Owns {
			s.send(voter, ". close\n")
		}
	}
	works(t, w, "x")
}

// Claims of great epochs, at one voter and at all, spend no number, however often they come.
func TestGreatClaimsSpendNoNumber(t *testing.T) {
	w := worlds.New(t, worlds.Majority, time.Second)
	for number := 0; number < qlock.MaxClients; number++ {
		s := newStranger(t, w, fmt.Sprint("x-", number))
		s.Number, s.Seq = number, 1
		for i := uint64(1); i < 50; i++ {
			for _, step := range []uint64{1 << 20, 1 << 18} {
				s.Epoch, s.Reserved = i*step, i<<32
				s.send(0, fmt.Sprintf(". claim %d %d\n", number, s.Epoch))
				s.send(0, ". close\n")
			}
		}
	}
	works(t, w, "x")
}

// One REQUEST or RELEASE with a great stamp spends neither the lock nor the numbers of those who
// ask for it.
func TestOneGreatStamp(t *testing.T) {
	w := worlds.New(t, worlds.Majority, time.Second)
	a, _ := start(t, w)
	for i := 0; i < 3; i++ {
		if err := take(t, a, "x").Unlock(); err != nil {
			t.Fatal(err)
		}
	}
	great := uint64(qlock.MaxStamp - 1)
	for claims := 0; claims < 2; claims++ {
		s := newStranger(t, w, fmt.Sprint("evil-", claims))
		s.Number, s.Epoch, s.Reserved, s.Seq = 62+claims, 1000, great, 1
		for voter := range w.Owns {
			if claims > 0 {
				s.send(voter, fmt.Sprintf(". claim %d 1000\n", s.Number))
			}
			s.send(voter, fmt.Sprintf("x request %d %d %d\n", s.Number, voter, great))
			s.send(voter, fmt.Sprintf("x release %d %d %d\n", s.Number, voter, great))
		}
	}
	for i := 0; i < 6; i++ {
		held, err := a.Lock(within(t, 5*time.Second), "x")
		if err != nil {
			t.Fatal(err)
		}
		if held.stamp > great/2 {
			t.Fatalf("the stamp is %d", held.stamp)
		}
		if err := held.Unlock(); err != nil {
			t.Error(err)
		}
	}
	works(t, w, "x", "y")
}

// What one sends that is long, and no use, holds no other one's heartbeats up.
func TestLongMessages(t *testing.T) {
	for _, line := range []string{". hello\n", "x y\n", ". plan\n", "x request 0 0 1\n"} {
		t.Run(strings.TrimSpace(line), func(t *testing.T) {
			w := worlds.New(t, worlds.Majority, 2*time.Second)
			c, _ := start(t, w)
			held := take(t, c, "x")
			s := newStranger(t, w, "junk")
			for i := 0; i < 20; i++ {
				for voter := range w.Owns {
					s.send(voter, strings.Repeat(line, wire.MostBytes/len(line)))
				}
			}
			began := time.Now()
			if err := held.Unlock(); err != nil {
				t.Error(err)
			}
			if err := take(t, c, "y").Unlock(); err != nil {
				t.Error(err)
			}
			if took := time.Since(began); took > 1500*time.Millisecond {
				t.Errorf("a lock was to be had after %v", took)
			}
		})
	}
}

// A session with a number that asks for many locks in long messages holds no other one's heartbeats
// up.
func TestLongMessagesOfASession(t *testing.T) {
	w := worlds.New(t, worlds.Majority, 2*time.Second)
	c, _ := start(t, w)
	s := newStranger(t, w, "busy")
	s.Number, s.Epoch, s.Reserved, s.Seq = (c.Number()+1)%qlock.MaxClients, 1, 1000, 1 // the client's own is by chance
	for voter := range w.Owns {
		s.send(voter, fmt.Sprintf(". claim %d 1\n", s.Number))
	}
	if !s.hears(fmt.Sprintf(". claimed %d 1 ", s.Number), 5*time.Second) {
		t.Fatal("there is no session")
	}
	for voter := range w.Owns {
		line := fmt.Sprintf("taken request %d %d 1\n", s.Number, voter)
		for i := 0; i < 4; i++ {
			s.send(voter, strings.Repeat(line, wire.MostBytes/len(line)))
		}
	}
	began := time.Now()
	if err := take(t, c, "y").Unlock(); err != nil {
		t.Error(err)
	}
	if took := time.Since(began); took > time.Second {
		t.Errorf("a lock was to be had after %v", took)
	}
}

// An error of one lock ends the calls that wait for it, and no other lock.
func TestSpentStampsEndOneLock(t *testing.T) {
	w := worlds.New(t, worlds.Majority, 2*time.Second)
	c, _ := start(t, w)
	other := take(t, c, "y")
	if err := take(t, c, "x").Unlock(); err != nil {
		t.Fatal(err)
	}
	if err := c.call(func() error { return c.locks["x"].Raise(qlock.MaxStamp) }); err != nil {
		t.Fatal(err)
	}
	if _, err := c.Lock(within(t, 5*time.Second), "x"); !errors.Is(err, qlock.StampsSpent) {
		t.Error(err)
	}
	if err := other.Unlock(); err != nil {
		t.Error("another lock:", err)
	}
	if err := take(t, c, "z").Unlock(); err != nil {
		t.Error(err)
	}
}
