package voter_test

import (
	"context"
	"encoding/json"
	"errors"
	"fmt"
	"os"
	"path/filepath"
	"regexp"
	"strings"
	"testing"
	"time"

	"calvundek.example/service/internal/voter"
	"calvundek.example/service/internal/wire"
	"calvundek.example/service/internal/worlds"
	"calvundek.example/service/transport"
)

// caller speaks as a session to voter 0.
type caller struct {
	*testing.T
	send  func(lines string)
	heard <-chan transport.Message
}

// newCaller returns the first session of a number.
func newCaller(t *testing.T, w *worlds.World, number int, name string) caller {
	t.Helper()
	return newCallerOf(t, w, number, name, 1)
}

// newCallerOf returns a session of a number.
func newCallerOf(t *testing.T, w *worlds.World, number int, name string, epoch uint64) caller {
	t.Helper()
	port := w.Bus.Port()
	heard, err := port.Listen(wire.SessionBoxes("test", wire.SessionName(wire.NoUser, name)))
	if err != nil {
		t.Fatal(err)
	}
	header := wire.Header{Cluster: "test", Coterie: w.Cluster.Marks()[0], Kind: wire.FromClient, Number: number, Epoch: epoch,
		Reserved: 100 * epoch, Name: name}
	v := caller{t, func(lines string) {
		_ = port.Send(wire.VoterBox("test", 0, wire.NoUser), append(header.Append(nil), lines...))
	}, heard}
	return v
}

// says says lines again and again until a reply has some words, and returns whether one came.
func (v caller) says(lines, want string) bool {
	v.Helper()
	for end := time.Now().Add(5 * time.Second); time.Now().Before(end); {
		v.send(lines)
		select {
		case m := <-v.heard:
			if strings.Contains(string(m.Data), want) {
				return true
			}
		case <-time.After(100 * time.Millisecond):
		}
	}
	return false
}

// grantOf returns the number of the grant that a voter has given for a lock.
func grantOf(t *testing.T, w *worlds.World, lock string) uint64 {
	t.Helper()
	ctx, cancel := context.WithTimeout(context.Background(), 5*time.Second)
	defer cancel()
	replies, err := w.Console().Ask(ctx, "lock "+lock, 0)
	if err != nil || replies[0].Err != nil {
		t.Fatal(err, replies)
	}
	var one voter.VoteView
	if err := json.Unmarshal(replies[0].Body, &one); err != nil {
		t.Fatal(err)
	}
	return one.Grant
}

// An older copy of a state, from before a start that others know, never gives a vote.
func TestOlderCopyOfAnEarlierRun(t *testing.T) {
	w := worlds.New(t, worlds.Majority, time.Second)
	one := newCaller(t, w, 0, "one")
	if !one.says(". claim 0 1 50\norders request 0 0 1\n", "orders locked") {
		t.Fatal("no vote")
	}
	w.Stop(0)
	older := w.Copy(0)
	w.Start(0)
	if !one.says("stock request 0 0 2\n", "stock locked") {
		t.Fatal("no vote after a start")
	}
	w.Stop(0)
	newest := w.Copy(0)
	w.Put(0, older)
	w.Start(0)
	err := w.Ends(0)
	if !errors.Is(err, voter.ErrOlder) {
		t.Errorf("an older copy: %v", err)
	}
	_, why, _ := strings.Cut(fmt.Sprint(err), voter.ErrOlder.Error())
	if !regexp.MustCompile(`^: voter [bc] says: start=2 run=0 identity=[0-9a-f]{8} is known$`).MatchString(why) {
		t.Errorf("why it is refused:%s", why)
	}
	for i := 0; i < 3; i++ { // each start counts
		if err := w.Second(0); !errors.Is(err, voter.ErrOlder) {
			t.Errorf("start %d of a copy that was refused: %v", i, err)
		}
	}
	w.Put(0, newest)
	w.Start(0)
	if !one.says("lists request 0 0 3\n", "lists locked") {
		t.Error("the newest state does not serve")
	}
}

// An older copy of the last run goes on above all grants that it gave, and gives no vote for a TTL
// but to who says that he is inside.
func TestOlderCopyOfTheLastRun(t *testing.T) {
	const ttl = 2 * time.Second
	w := worlds.New(t, worlds.Majority, ttl)
	one, other := newCaller(t, w, 0, "one"), newCaller(t, w, 1, "other")
	if !one.says(". claim 0 1 50\nstock request 0 0 1\n", "stock locked") ||
		!other.says(". claim 1 1 50\n. open 0\n", "opened") {
		t.Fatal("no session")
	}
	older := w.Copy(0)
	if !one.says("orders request 0 0 2\n", "orders locked") {
		t.Fatal("no vote")
	}
	before := grantOf(t, w, "orders")
	w.Kill(0)
	w.Put(0, older)
	w.Start(0)
	began := time.Now()
	if !other.says("orders request 1 0 1\n", ". quiet ") {
		t.Error("it is not quiet")
	}
	if !one.says("orders request 0 0 2 inside\n", "orders locked") {
		t.Error("who is inside does not get the vote again")
	}
	if after := grantOf(t, w, "orders"); after <= before || after <= 1<<16 {
		t.Errorf("grant %d after %d", after, before)
	}
	if !one.says("orders release 0 0 2\n", "") || !other.says("orders request 1 0 1\n", "orders locked") {
		t.Error("it stays quiet")
	}
	if took := time.Since(began); took < ttl-200*time.Millisecond {
		t.Errorf("quiet for %v", took)
	}
}

// A grant from before a crash that nobody renews is let go after a TTL.
func TestUnrenewedGrant(t *testing.T) {
	w := worlds.New(t, worlds.Majority, time.Second)
	one, other := newCaller(t, w, 0, "one"), newCaller(t, w, 1, "other")
	if !one.says(". claim 0 1 50\norders request 0 0 1\n", "orders locked") {
		t.Fatal("no vote")
	}
	w.Kill(0)
	w.Start(0)
	beats := make(chan struct{})
	go func() { // it is there, and does not say that it is inside
		for {
			select {
			case <-beats:
				return
			case <-time.After(100 * time.Millisecond):
				one.send(". open 0\n")
			}
		}
	}()
	defer close(beats)
	if !other.says(". claim 1 1 50\norders request 1 0 1\n", "orders locked") {
		t.Error("the vote stays with who did not renew it")
	}
}

// lives sends heartbeats of a session until the test or the session ends.
func (v caller) lives() (end func()) {
	ctx, cancel := context.WithCancel(context.Background())
	v.Cleanup(cancel)
	go func() {
		for ctx.Err() == nil {
			v.send(". open 0\n")
			time.Sleep(100 * time.Millisecond)
		}
	}()
	return cancel
}

// After the quiet time a vote stays quiet while one waits who said that he is inside: until he gets it, gives up, ends, or
// is silent for a TTL. Requests with smaller stamps are not taken either.
func TestVoteStaysQuiet(t *testing.T) {
	w := worlds.New(t, worlds.Majority, time.Second)
	locks := []struct {
		name   string
		waiter int
	}{{"gets", 1}, {"leaves", 1}, {"closes", 2}, {"dies", 3}}
	var callers [5]caller
	var ends [5]func()
	for number := range callers {
		callers[number] = newCaller(t, w, number, fmt.Sprint("s", number))
		if !callers[number].says(fmt.Sprintf(". claim %d 1 50\n", number), "claimed") {
			t.Fatal("no session")
		}
		ends[number] = callers[number].lives()
	}
	one, two, other := callers[0], callers[1], callers[4]
	w.Kill(0)
	w.Start(0)
	for i, lock := range locks {
		if !one.says(fmt.Sprintf("%s request 0 0 %d inside\n", lock.name, 1+i), lock.name+" locked") {
			t.Fatal(lock.name)
		}
		waits := fmt.Sprintf("%s request %d 0 %d inside\n", lock.name, lock.waiter, 11+i)
		if !callers[lock.waiter].says(waits, lock.name+" fail ") {
			t.Fatal(lock.name)
		}
	}
	if !other.says("free request 4 0 9\n", "free locked") {
		t.Fatal("it stays quiet for all")
	}
	for i, lock := range locks {
		if !other.says(fmt.Sprintf("%s request 4 0 %d\n", lock.name, 1+i), ". quiet ") {
			t.Errorf("%s: it is not quiet", lock.name)
		}
	}
	one.send("gets release 0 0 1\n")
	two.send("leaves release 1 0 12\n")
	callers[2].send(". close\n")
	ends[3]()
	if !two.says("gets request 1 0 11 inside\n", "gets locked") {
		t.Error("another one gets the vote of who is inside")
	}
	for i, lock := range locks[1:] {
		if !other.says(fmt.Sprintf("%s request 4 0 %d\n", lock.name, 2+i), lock.name+" fail ") {
			t.Errorf("%s: it stays quiet", lock.name)
		}
	}
	two.send("gets release 1 0 11\n")
	for i, lock := range locks {
		one.send(fmt.Sprintf("%s release 0 0 %d\n", lock.name, 1+i))
		if !other.says(fmt.Sprintf("%s request 4 0 %d\n", lock.name, 1+i), lock.name+" locked") {
			t.Errorf("%s: the vote is not to be had", lock.name)
		}
	}
}

// A voter that ended cleanly serves at once.
func TestCleanEnd(t *testing.T) {
	w := worlds.New(t, worlds.Majority, 30*time.Second)
	one := newCaller(t, w, 0, "one")
	if !one.says(". claim 0 1 50\norders request 0 0 1\n", "orders locked") {
		t.Fatal("no vote")
	}
	w.Stop(0)
	w.Start(0)
	if !one.says("stock request 0 0 2\n", "stock locked") {
		t.Error("it is quiet")
	}
}

// A second process with a copy of a state is refused, and the first one goes on.
func TestTwoProcesses(t *testing.T) {
	w := worlds.New(t, worlds.Majority, time.Second)
	w.Stop(0)
	state, first := w.Copy(0), w.Owns[0].Data
	w.Start(0)
	one := newCaller(t, w, 0, "one")
	if !one.says(". claim 0 1 50\norders request 0 0 1\n", "orders locked") {
		t.Fatal("no vote")
	}
	w.Owns[0].Data = filepath.Join(t.TempDir(), "copy")
	if err := os.MkdirAll(w.Owns[0].Data, 0o700); err != nil {
		t.Fatal(err)
	}
	w.Put(0, state)
	err := w.Second(0)
	if w.Owns[0].Data = first; !errors.Is(err, voter.ErrOlder) {
		t.Errorf("a second process: %v", err)
	}
}

// A process goes on until a copy of its running state is started elsewhere: the voters take the later one, and the first
// ends.
func TestCopyOfARunningState(t *testing.T) {
	w := worlds.New(t, worlds.Majority, time.Second)
	one := newCaller(t, w, 0, "one")
	if !one.says(". claim 0 1 50\norders request 0 0 1\n", "orders locked") {
		t.Fatal("no vote")
	}
	state, first := w.Copy(0), w.Owns[0].Data
	w.Owns[0].Data = filepath.Join(t.TempDir(), "copy")
	if err := os.MkdirAll(w.Owns[0].Data, 0o700); err != nil {
		t.Fatal(err)
	}
	w.Put(0, state)
	ended := make(chan error, 1)
	go func() { ended <- w.Second(0) }()
	if err := w.Ends(0); !errors.Is(err, voter.ErrOlder) {
		t.Errorf("the first process: %v", err)
	}
	if err := <-ended; err != nil {
		t.Errorf("the second one: %v", err)
	}
	w.Owns[0].Data = first
	if err := w.Second(0); !errors.Is(err, voter.ErrOlder) {
		t.Errorf("the first one starts again: %v", err)
	}
}

// A REQUEST that the automaton refuses makes no lock that is never forgotten: with room for 100, others get theirs.
func TestRefusedRequestsFillNothing(t *testing.T) {
	w := worlds.New(t, worlds.Majority, time.Second)
	one := newCaller(t, w, 0, "one")
	if !one.says(". claim 0 1 50\norders request 0 0 1\n", "orders locked") {
		t.Fatal("no vote")
	}
	for i := 0; i < 200; i++ {
		one.send(fmt.Sprintf("junk-%d request 0 0 2 9\n", i))
	}
	if !one.says("stock request 0 0 3\n", "stock locked") {
		t.Error("a voter is full of locks that nobody has")
	}
}

// A state that is made anew where a voter was is refused, and made again as a lost one it serves,
// with grants above all that the lost one gave.
func TestForgottenLoss(t *testing.T) {
	w := worlds.New(t, worlds.Majority, time.Second)
	one := newCaller(t, w, 0, "one")
	if !one.says(". claim 0 1 50\norders request 0 0 1\n", "orders locked") {
		t.Fatal("no vote")
	}
	before := grantOf(t, w, "orders")
	w.Stop(0)
	if err := os.RemoveAll(w.Owns[0].Data); err != nil {
		t.Fatal(err)
	}
	if _, err := voter.Init(w.Owns[0], w.Cluster); err != nil {
		t.Fatal(err)
	}
	w.Start(0)
	if err := w.Ends(0); !errors.Is(err, voter.ErrPlace) {
		t.Errorf("a loss that was forgotten: %v", err)
	}
	w.Lose(0)
	w.Start(0)
	if !one.says(". claim 0 1 50\norders request 0 0 2\n", "orders locked") {
		t.Fatal("no vote after a loss")
	}
	if after := grantOf(t, w, "orders"); after <= before || after <= 1<<16 {
		t.Errorf("grant %d after %d", after, before)
	}
}

// A new voter gives no vote before so many answered that the silent ones and it contain no quorum.
func TestNewVoterWaits(t *testing.T) {
	w := worlds.New(t, worlds.Majority, time.Second)
	w.Kill(1)
	w.Kill(2)
	w.Stop(0)
	if err := os.RemoveAll(w.Owns[0].Data); err != nil {
		t.Fatal(err)
	}
	if _, err := voter.Init(w.Owns[0], w.Cluster); err != nil {
		t.Fatal(err)
	}
	w.Start(0)
	one := newCaller(t, w, 0, "one")
	for i := 0; i < 5; i++ {
		one.send(". claim 0 1 50\norders request 0 0 1\n")
		select {
		case m := <-one.heard:
			t.Fatalf("it speaks: %s", m)
		case <-time.After(100 * time.Millisecond):
		}
	}
}
