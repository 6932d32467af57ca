package locks

import (
	"context"
	"encoding/json"
	"errors"
	"fmt"
	"math/bits"
	"strings"
	"sync"
	"testing"
	"time"

	"calvundek.example/service/guard"
	"calvundek.example/service/internal/bus"
	"calvundek.example/service/internal/claims"
	"calvundek.example/service/internal/config"
	"calvundek.example/service/internal/voter"
	"calvundek.example/service/internal/worlds"
	"calvundek.example/service/qlock"
)

// start opens a client on a port of its own.
func start(t *testing.T, w *worlds.World) (*Client, *bus.Port) {
	t.Helper()
	port := w.Bus.Port()
	c, err := open(within(t, 20*time.Second), w.Cluster, Config{Transport: port})
	if err != nil {
		t.Fatal(err)
	}
	t.Cleanup(func() { _ = c.call(func() error { c.end(ErrClosed); return nil }) })
	return c, port
}

func within(t *testing.T, d time.Duration) context.Context {
	ctx, cancel := context.WithTimeout(context.Background(), d)
	t.Cleanup(cancel)
	return ctx
}

// take takes a lock, which has to succeed.
func take(t *testing.T, c *Client, name string) *Held {
	t.Helper()
	held, err := c.Lock(within(t, 20*time.Second), name)
	if err != nil {
		t.Fatal(err)
	}
	return held
}

func isLost(h *Held) bool {
	select {
	case <-h.Lost():
		return true
	case <-time.After(5 * time.Second):
		return false
	}
}

// counter counts who is inside.
type counter struct {
	mutex         sync.Mutex
	inside, total int
	met           bool
}

func (c *counter) pass() {
	c.mutex.Lock()
	c.inside++
	c.met = c.met || c.inside > 1
	c.mutex.Unlock()
	time.Sleep(200 * time.Microsecond)
	c.mutex.Lock()
	c.inside--
	c.total++
	c.mutex.Unlock()
}

// Goroutines of several clients pass through a few locks while messages are lost, late and repeated, and one is inside.
func TestManyGoroutines(t *testing.T) {
	w := worlds.New(t, worlds.Majority, 2*time.Second)
	w.Bus.Noise(2, 2, 5)
	counters := map[string]*counter{"one": {}, "two": {}}
	var clients []*Client
	for i := 0; i < 3; i++ {
		c, _ := start(t, w)
		clients = append(clients, c)
	}
	var group sync.WaitGroup
	for i := 0; i < 12; i++ {
		name, client := []string{"one", "two"}[i%2], clients[i%3]
		group.Add(1)
		go func() {
			defer group.Done()
			for n := 0; n < 15; n++ {
				held, err := client.Lock(within(t, 60*time.Second), name)
				if err != nil {
					t.Error(err)
					return
				}
				counters[name].pass()
				if err := held.Unlock(); err != nil {
					t.Error(err)
				}
			}
		}()
	}
	group.Wait()
	for name, c := range counters {
		if c.met || c.total != 90 {
			t.Errorf("%s: %d passes, two inside: %v", name, c.total, c.met)
		}
	}
	for _, c := range clients {
		if err := c.Close(within(t, 20*time.Second)); err != nil {
			t.Error(err)
		}
	}
}

// Each wrong use has an error with a name.
func TestWrongUse(t *testing.T) {
	w := worlds.New(t, worlds.Majority, 2*time.Second)
	c, _ := start(t, w)
	if _, err := c.Lock(context.Background(), "a b"); !errors.Is(err, ErrName) {
		t.Error(err)
	}
	if _, err := open(context.Background(), w.Cluster, Config{Transport: w.Bus.Port(), User: "*"}); !errors.Is(err, config.ErrUser) {
		t.Error(err)
	}
	held := take(t, c, "x")
	ctx, cancel := held.Context(context.Background())
	defer cancel()
	if _, err := c.Lock(ctx, "x"); !errors.Is(err, ErrNested) {
		t.Error(err)
	}
	inner, err := c.Lock(ctx, "y")
	if err != nil {
		t.Fatal(err)
	}
	if err := inner.Unlock(); err != nil {
		t.Error(err)
	}
	if err := held.Unlock(); err != nil {
		t.Error(err)
	}
	if err := held.Unlock(); !errors.Is(err, ErrNotHeld) {
		t.Error(err)
	}
	if <-ctx.Done(); !isLost(held) {
		t.Error("a context of a lock that was given back goes on")
	}
	if err := c.Close(within(t, 10*time.Second)); err != nil {
		t.Error(err)
	}
	if _, err := c.Lock(context.Background(), "x"); !errors.Is(err, ErrClosed) {
		t.Error(err)
	}
}

// Close waits for those inside, and refuses those that wait.
func TestCloseDrains(t *testing.T) {
	w := worlds.New(t, worlds.Majority, 2*time.Second)
	c, _ := start(t, w)
	other, _ := start(t, w)
	held := take(t, c, "x")
	waits := make(chan error, 1)
	go func() { _, err := c.Lock(context.Background(), "x"); waits <- err }()
	time.Sleep(100 * time.Millisecond)
	closed := make(chan error, 1)
	go func() { closed <- c.Close(within(t, 20*time.Second)) }()
	if err := <-waits; !errors.Is(err, ErrClosed) {
		t.Error(err)
	}
	select {
	case err := <-closed:
		t.Errorf("closed while a lock is held: %v", err)
	case <-time.After(300 * time.Millisecond):
	}
	if err := held.Unlock(); err != nil {
		t.Error(err)
	}
	if err := <-closed; err != nil {
		t.Error(err)
	}
	began := time.Now()
	_ = take(t, other, "x")
	if took := time.Since(began); took > time.Second {
		t.Errorf("the next one waited %v for what was given back", took)
	}
}

// Who waits too long gives up, and a voter that is silent is passed over.
func TestGivesUpAndFailsOver(t *testing.T) {
	w := worlds.New(t, worlds.Majority, 2*time.Second)
	a, _ := start(t, w)
	b, _ := start(t, w)
	held := take(t, a, "x")
	if _, err := b.Lock(within(t, 300*time.Millisecond), "x"); !errors.Is(err, context.DeadlineExceeded) {
		t.Error(err)
	}
	if err := held.Unlock(); err != nil {
		t.Error(err)
	}
	w.Kill(0)
	for i := 0; i < 6; i++ {
		if err := take(t, b, fmt.Sprint("x", i)).Unlock(); err != nil {
			t.Error(err)
		}
	}
	w.Start(0)
	if err := b.Close(within(t, 20*time.Second)); err != nil {
		t.Error(err)
	}
}

// A voter that is ended by a signal says so, and requests that wait for it ask others at once.
func TestVoterLeaves(t *testing.T) {
	w := worlds.New(t, worlds.Majority, 20*time.Second)
	c, _ := start(t, w)
	other, _ := start(t, w)
	held := take(t, other, "x")
	waits := make(chan error, 1)
	go func() {
		next, err := c.Lock(within(t, 20*time.Second), "x")
		if err == nil {
			err = next.Unlock()
		}
		waits <- err
	}()
	var asked uint64
	soon(t, "the lock is not asked for", func() bool {
		_ = c.call(func() error {
			if l := c.locks["x"]; l != nil {
				asked = l.shown.Quorum
			}
			return nil
		})
		return asked != 0
	})
	time.Sleep(100 * time.Millisecond)
	voter := bits.TrailingZeros64(asked & held.quorum) // the request waits for its vote
	w.Stop(voter)
	began := time.Now()
	soon(t, "a voter that left is not silent", func() bool { return len(c.Silent()) == 1 && len(other.Silent()) == 1 })
	if err := held.Unlock(); err != nil {
		t.Error(err)
	}
	if err := <-waits; err != nil {
		t.Error(err)
	}
	for i := 0; i < 6; i++ {
		if err := take(t, c, fmt.Sprint("y", i)).Unlock(); err != nil {
			t.Error(err)
		}
	}
	if took := time.Since(began); took > 1500*time.Millisecond { // a fail-over takes two seconds
		t.Errorf("it took %v", took)
	}
	w.Start(voter)
	soon(t, "a voter that is back stays silent", func() bool { return len(c.Silent()) == 0 })
}

// A client that is cut off is let go after the TTL. It knows before another one enters, and the guard refuses it.
func TestCutOffClientIsLetGo(t *testing.T) {
	w := worlds.New(t, worlds.Majority, 2*time.Second)
	dead, port := start(t, w)
	other, _ := start(t, w)
	held := take(t, dead, "x")
	port.Cut(true)
	next := take(t, other, "x")
	select {
	case <-held.Lost():
	default:
		t.Error("another one entered before this one knew")
	}
	state, _, err := guard.Admit(guard.New(), next.Token())
	if err != nil {
		t.Fatal(err)
	}
	if _, _, err := guard.Admit(state, held.Token()); !errors.Is(err, guard.ErrOlder) {
		t.Errorf("a late write: %v", err)
	}
	port.Cut(false)
	_ = held.Unlock()
	_ = next.Unlock()
	if err := take(t, dead, "x").Unlock(); err != nil { // its session goes on
		t.Error(err)
	}
}

// A client that is cut off while it only asks does not stop the others, and asks anew once it is back.
func TestCutOffWhileAsking(t *testing.T) {
	w := worlds.New(t, worlds.Majority, 2*time.Second)
	a, _ := start(t, w)
	b, port := start(t, w)
	held := take(t, a, "x")
	entered := make(chan *Held, 1)
	go func() {
		if h, err := b.Lock(within(t, 30*time.Second), "x"); err == nil {
			entered <- h
		} else {
			t.Error(err)
		}
	}()
	time.Sleep(100 * time.Millisecond)
	port.Cut(true)
	if err := held.Unlock(); err != nil { // the votes go to b, which does not hear it
		t.Error(err)
	}
	again := take(t, a, "x")
	port.Cut(false)
	select {
	case <-entered:
		t.Error("two are inside")
	case <-time.After(1500 * time.Millisecond):
	}
	if err := again.Unlock(); err != nil {
		t.Error(err)
	}
	_ = (<-entered).Unlock()
}

// An operator ends a session, and lets a lock go.
func TestOperators(t *testing.T) {
	w := worlds.New(t, worlds.Majority, 5*time.Second)
	a, _ := start(t, w)
	b, _ := start(t, w)
	console := w.Console()
	ask := func(words string) {
		t.Helper()
		replies, err := console.Ask(within(t, 5*time.Second), words, console.All()...)
		if err != nil {
			t.Fatal(err)
		}
		for _, r := range replies {
			if r.Err != nil {
				t.Errorf("%s: %v", words, r.Err)
			}
		}
	}
	held := take(t, a, "x")
	ask("unlock x 1") // each voter of the quorum gave its first grant
	if !isLost(held) {
		t.Error("a client whose lock was let go does not know")
	}
	next := take(t, b, "x")
	_ = held.Unlock()
	ask(fmt.Sprint("evict ", b.Number()))
	if !isLost(next) {
		t.Error("a client that was evicted does not know")
	}
	if _, err := b.Lock(within(t, time.Second), "x"); !errors.Is(err, ErrLost) {
		t.Error(err)
	}
	if err := next.Unlock(); !errors.Is(err, ErrLapsed) || !errors.Is(err, ErrLost) {
		t.Errorf("who was evicted gives his lock back: %v", err)
	}
	if err := next.Unlock(); err != ErrNotHeld {
		t.Error(err)
	}
	if _, err := a.Lock(within(t, time.Second), "x"); err == nil {
		t.Error("somebody has the lock while who was evicted may work")
	}
	held = take(t, a, "x") // once that client was silent for a TTL
	c, _ := start(t, w)
	ask(fmt.Sprint("evict ", a.Number(), " now"))
	if !isLost(held) {
		t.Error("a client that was evicted at once does not know")
	}
	began := time.Now()
	if err := take(t, c, "x").Unlock(); err != nil || time.Since(began) > 2*time.Second {
		t.Errorf("the next one waited for %v: %v", time.Since(began), err)
	}
	replies, err := console.Ask(within(t, time.Second), "nonsense", 0)
	if err != nil || replies[0].Err == nil || !strings.Contains(replies[0].Err.Error(), "unknown command") {
		t.Error(replies, err)
	}
}

// Nothing of a client is left on a transport that it did not make, however it ends.
func TestMailboxesAreLeft(t *testing.T) {
	w := worlds.New(t, worlds.Majority, 5*time.Second)
	before, port := w.Bus.Boxes(), w.Bus.Port()
	for name, opens := range map[string]func() (*Client, error){
		"a session":                func() (*Client, error) { return open(within(t, 10*time.Second), w.Cluster, Config{Transport: port}) },
		"a client that only looks": func() (*Client, error) { return look(w.Cluster, Config{Transport: port}) },
	} {
		c, err := opens()
		if err != nil {
			t.Fatal(err)
		}
		if boxes := w.Bus.Boxes() - before; boxes != 1 {
			t.Errorf("%s has %d mailboxes", name, boxes)
		}
		if err := c.Close(within(t, 10*time.Second)); err != nil {
			t.Error(err)
		}
		if boxes := w.Bus.Boxes() - before; boxes != 0 {
			t.Errorf("%d mailboxes of %s stay", boxes, name)
		}
	}
	ended, cancel := context.WithCancel(context.Background())
	cancel()
	if _, err := open(ended, w.Cluster, Config{Transport: port}); err == nil || w.Bus.Boxes() != before {
		t.Errorf("%d mailboxes stay of a client that was not opened: %v", w.Bus.Boxes()-before, err)
	}
}

// A voter whose state is lost comes back by what the others know. Who has its vote loses the lock, and the guard admits
// nobody late.
func TestLostVoter(t *testing.T) {
	w := worlds.New(t, worlds.Majority, time.Second)
	a, _ := start(t, w)
	b, _ := start(t, w)
	state := guard.New()
	admit := func(h *Held) (err error) {
		next, _, err := guard.Admit(state, h.Token())
		if err == nil {
			state = next
		}
		return err
	}
	for round := 0; round < 3; round++ {
		held := take(t, a, "x")
		if err := admit(held); err != nil {
			t.Fatal(err)
		}
		for i := range w.Owns { // each voter loses its state
			w.Stop(i)
			w.Lose(i)
			w.Start(i)
			w.Ready()
		}
		if !isLost(held) {
			t.Error("a client whose votes were forgotten does not know")
		}
		if err := held.Unlock(); !errors.Is(err, ErrLapsed) {
			t.Error(err)
		}
		next := take(t, b, "x")
		if err := admit(next); err != nil {
			t.Errorf("the next one is refused: %v", err)
		}
		if err := admit(held); err == nil {
			t.Error("a late write was admitted")
		}
		if err := next.Unlock(); err != nil {
			t.Error(err)
		}
	}
	if err := a.Close(within(t, 10*time.Second)); err != nil {
		t.Error(err)
	}
}

// An older copy of a voter's state that is put back ends at the first message of a session that heard of a later save.
func TestOlderCopy(t *testing.T) {
	w := worlds.New(t, worlds.Majority, 2*time.Second)
	a, _ := start(t, w)
	pass := func() {
		t.Helper()
		for i := 0; i < 3; i++ { // each voter is asked
			if err := take(t, a, "x").Unlock(); err != nil {
				t.Error(err)
			}
		}
	}
	pass()
	w.Stop(0)
	older := w.Copy(0)
	w.Start(0)
	soon(t, "the voter is not heard", func() bool { return len(a.Silent()) == 0 })
	pass()
	time.Sleep(1200 * time.Millisecond) // heartbeats have the last counts
	w.Stop(0)
	newest := w.Copy(0)
	w.Put(0, older)
	w.Start(0)
	if err := w.Ends(0); !errors.Is(err, voter.ErrOlder) {
		t.Errorf("an older copy: %v", err)
	}
	w.Put(0, newest)
	w.Start(0)
	pass()
	if err := a.Close(within(t, 20*time.Second)); err != nil {
		t.Error(err)
	}
}

// Clients that start at once get numbers of their own, though they claim the same ones.
func TestManyStartAtOnce(t *testing.T) {
	w := worlds.New(t, worlds.Majority, 4*time.Second)
	w.Bus.Noise(2, 0, 10)
	var group sync.WaitGroup
	clients := make([]*Client, 40)
	for i := range clients {
		group.Add(1)
		go func(i int) {
			defer group.Done()
			c, err := open(within(t, 40*time.Second), w.Cluster, Config{Transport: w.Bus.Port()})
			if err != nil {
				t.Error(err)
				return
			}
			clients[i] = c
		}(i)
	}
	group.Wait()
	numbers := map[int]bool{}
	for _, c := range clients {
		if c == nil {
			continue
		}
		if numbers[c.Number()] {
			t.Errorf("two have the number %d", c.Number())
		}
		numbers[c.Number()] = true
		if err := take(t, c, "x").Unlock(); err != nil {
			t.Error(err)
		}
		if err := c.Close(within(t, 20*time.Second)); err != nil {
			t.Error(err)
		}
	}
}

// Where voters have no room for another lock, as all are in use, calls for new ones fail with ErrFull.
// Once one is given back there is room.
func TestFullIsSaid(t *testing.T) {
	w := worlds.New(t, worlds.Majority, 2*time.Second)
	c, _ := start(t, w)
	var holds []*Held
	full := 0
	for i := 0; i < 200; i++ { // each voter has room for 100
		held, err := c.Lock(within(t, 5*time.Second), fmt.Sprint("lock-", i))
		switch {
		case err == nil:
			holds = append(holds, held)
		case errors.Is(err, ErrFull):
			full++
		default:
			t.Fatal(i, err)
		}
	}
	if len(holds) < 100 || full == 0 {
		t.Fatalf("%d are held, %d are refused", len(holds), full)
	}
	for _, held := range holds {
		if err := held.Unlock(); err != nil {
			t.Error(err)
		}
	}
	time.Sleep(2 * time.Second) // for a TTL other quorums were asked
	for i := 0; i < 200; i++ {
		held, err := c.Lock(within(t, 5*time.Second), fmt.Sprint("lock-", i))
		if err != nil {
			t.Fatalf("lock %d: %v", i, err)
		}
		if err := held.Unlock(); err != nil {
			t.Error(err)
		}
	}
}

// Where a user has as many locks as voters let it have, calls for other ones fail with ErrFull. Once it gives one back there
// is room.
func TestUserIsFull(t *testing.T) {
	w := worlds.New(t, worlds.Majority, time.Second)
	for i, own := range w.Owns {
		w.Stop(i)
		own.MaxLocksUser = 2
		w.Start(i)
	}
	w.Ready()
	c, _ := start(t, w)
	var holds []*Held
	for i := 0; i < 3; i++ { // two votes of each of three voters are three quorums at most
		held, err := c.Lock(within(t, 5*time.Second), fmt.Sprint("lock-", i))
		if errors.Is(err, ErrFull) {
			break
		} else if err != nil {
			t.Fatal(err)
		}
		holds = append(holds, held)
	}
	if _, err := c.Lock(within(t, 5*time.Second), "another"); !errors.Is(err, ErrFull) || len(holds) < 2 {
		t.Fatalf("%d are held, and another one: %v", len(holds), err)
	}
	for _, held := range holds {
		if err := held.Unlock(); err != nil {
			t.Error(err)
		}
	}
	time.Sleep(time.Second) // for a TTL other quorums were asked
	if _, err := c.Lock(within(t, 5*time.Second), "another"); err != nil {
		t.Error(err)
	}
}

// A lock waits for a quiet voter, if the quorums without it have no room. It asks a few times, and not for as long as nobody
// has room.
func TestQuietWhereOthersAreFull(t *testing.T) {
	w := worlds.New(t, worlds.Majority, 2*time.Second)
	w.Stop(0)
	w.Owns[0].MaxLocksUser = 1
	w.Start(0)
	w.Ready()
	c, _ := start(t, w)
	for i, found := 0, false; !found; i++ { // voters 0 and 2 have a lock, so voter 0 has no room
		held := take(t, c, fmt.Sprint("lock-", i))
		if found = held.quorum == 0b101; !found {
			if err := held.Unlock(); err != nil {
				t.Fatal(err)
			}
		}
	}
	w.Kill(1)
	w.Start(1)
	before := c.Stats().Requests
	take(t, c, "another")
	if asked := c.Stats().Requests - before; asked > 20 {
		t.Errorf("%d requests", asked)
	}
}

// Who does not wait hears at once that all numbers are in use, and who waits hears why his time is
// over.
func TestNumbersInUse(t *testing.T) {
	w := worlds.New(t, worlds.Majority, 20*time.Second)
	for number := 0; number < qlock.MaxClients; number++ {
		s := newStranger(t, w, fmt.Sprint("s-", number))
		for voter := range w.Owns {
			s.send(voter, fmt.Sprintf(". claim %d 1\n", number))
		}
		if !s.hears("claimed", 5*time.Second) {
			t.Fatal("no session")
		}
	}
	began := time.Now()
	_, err := open(within(t, 20*time.Second), w.Cluster, Config{Transport: w.Bus.Port(), DontWait: true})
	if !errors.Is(err, ErrNumbers) || time.Since(began) > time.Second {
		t.Errorf("%v, after %v", err, time.Since(began))
	}
	if !strings.Contains(fmt.Sprint(err), "64 sessions are open, one of them was silent for ") {
		t.Errorf("it does not say how many there are: %v", err)
	}
	if none := (&NoNumber{}); !errors.As(err, &none) || none.Open != qlock.MaxClients || none.Ahead != 0 {
		t.Errorf("%+v", none)
	}
	for _, way := range []string{"wait longer", "an agent on each host", "init --shards"} {
		if !strings.Contains(fmt.Sprint(err), way) {
			t.Errorf("it does not say %q: %v", way, err)
		}
	}
	if h := who(t, looker(t, w), "x"); !h.IsNobody() {
		t.Errorf("without a number: %+v", h)
	}
	_, err = open(within(t, 300*time.Millisecond), w.Cluster, Config{Transport: w.Bus.Port()})
	if !errors.Is(err, ErrNumbers) || !errors.Is(err, context.DeadlineExceeded) {
		t.Error(err)
	}
}

// claiming lets a client claim a number under this epoch.
func claiming(c *Client, number int, epoch uint64) {
	c.asked = number
	c.claims[number].Sees(epoch - 1)
	c.claims[number].Next()
}

// Only a reply to a claim counts for it: a late one to another question, or to another claim, is none.
func TestWhatIsNoReplyToAClaim(t *testing.T) {
	w := worlds.New(t, worlds.Majority, time.Second)
	c, err := newClient(w.Cluster, Config{Transport: w.Bus.Port()})
	if err != nil {
		t.Fatal(err)
	}
	for line, want := range map[string]uint64{"number 3 0 1": 0, "claimed 3 4 0 0": 0, "claimed 2 5 0 0": 0,
		"opened 3 5 0 9 1 0": 0,
		"taken 3 5":          0, "claimed": 0, "claimed x 5 0 0": 0, "claimed 3 5 70 77": 1 << 1} {
		*c.claims, c.replied = *claims.New(), 0
		claiming(c, 3, 5)
		c.control(1, []byte(line))
		if claim := c.claims[3].Shows(); claim.Accepted != want || c.replied != 0 || c.refused || want > 0 && claim.Base != 70 {
			t.Errorf("%s: %+v", line, claim)
		}
	}
}

// A process that takes one lock and ends costs a save at each voter, and one more where it asked:
// stamps are reserved with the claim, and what ends is saved with what comes next.
func TestSavesOfOneLock(t *testing.T) {
	w := worlds.New(t, worlds.Majority, 10*time.Second)
	saves := func() (sum uint64) {
		console := w.Console()
		replies, err := console.Ask(within(t, 5*time.Second), "status", console.All()...)
		if err != nil {
			t.Fatal(err)
		}
		for _, r := range replies {
			var status voter.Status
			if r.Err != nil || json.Unmarshal(r.Body, &status) != nil {
				t.Fatal(r.Err)
			}
			sum += status.Saves
		}
		return sum
	}
	before := saves()
	c, _ := start(t, w)
	if err := take(t, c, "x").Unlock(); err != nil {
		t.Fatal(err)
	}
	if err := c.Close(within(t, 5*time.Second)); err != nil {
		t.Fatal(err)
	}
	if count := saves() - before; count != 5 {
		t.Errorf("%d saves of three voters, of which two were asked", count)
	}
	// the number is free again, and what it used is known
	again, _ := start(t, w)
	if err := take(t, again, "x").Unlock(); err != nil {
		t.Error(err)
	}
}

// Sessions come and go, and no stamp of a number is used twice: the guard sees a new pass each time.
func TestSessionsComeAndGo(t *testing.T) {
	w := worlds.New(t, worlds.Majority, time.Second)
	state, last := guard.New(), uint64(0)
	for i := 0; i < 80; i++ { // more than there are numbers
		c, port := start(t, w)
		held := take(t, c, "x")
		next, turn, err := guard.Admit(state, held.Token())
		if err != nil || turn != last+1 {
			t.Fatalf("session %d: turn %d after %d, %v", i, turn, last, err)
		}
		state, last = next, turn
		if i%8 == 0 { // it is gone without a word
			port.Cut(true)
			continue
		}
		_ = held.Unlock()
		if err := c.Close(within(t, 20*time.Second)); err != nil {
			t.Fatal(err)
		}
	}
}

// A session is closed once each voter that is there closed it: one of which the RELEASE was lost may have a vote of it. Nobody waits for one
// that is silent.
func TestCloseWaitsForVotersThatAreThere(t *testing.T) {
	c := still(t, worlds.New(t, worlds.Majority, 20*time.Second))
	turns(c, 200*time.Millisecond, func() bool { return false })
	c.drained = make(chan struct{})
	for v := range c.peers {
		c.peers[v].closed, c.peers[v].accepts = v < 2, true
	}
	if c.finish(); c.done {
		t.Error("it is closed, and a voter that is there did not close it")
	}
	c.peers[2].heard = time.Now().Add(-time.Minute)
	if c.finish(); !c.done {
		t.Error("it waits for a voter that is silent")
	}
}
