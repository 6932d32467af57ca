package locks

import (
	"bytes"
	"context"
	"encoding/base64"
	"encoding/json"
	"errors"
	"fmt"
	"strings"
	"sync"
	"testing"
	"time"

	"calvundek.example/service/guard"
	"calvundek.example/service/internal/config"
	"calvundek.example/service/internal/exchange"
	"calvundek.example/service/internal/voter"
	"calvundek.example/service/internal/worlds"
	"calvundek.example/service/qlock"
)

// grown has two voters more. Each of its quorums has two of the old ones, so it is bridged with Majority.
const grown = `voters = ["a", "b", "c", "d", "e"]
quorums = [["a", "b", "d"], ["a", "c", "e"], ["b", "c", "d"], ["b", "c", "e"]]
`

// soon waits until something holds.
func soon(t *testing.T, what string, holds func() bool) {
	t.Helper()
	for end := time.Now().Add(30 * time.Second); !holds(); time.Sleep(20 * time.Millisecond) {
		if time.Now().After(end) {
			t.Fatal(what)
		}
	}
}

func planOf(c *Client) (number uint64, alone bool) {
	_ = c.call(func() error { number, alone = c.generation, c.older == nil; return nil })
	return number, alone
}

// walkers pass through two locks, show each pass to a guard, and count who is inside.
type walkers struct {
	counters map[string]*counter
	group    sync.WaitGroup
	stop     chan struct{}

	mutex  sync.Mutex
	guards map[string][]byte
	turns  map[string]uint64
}

func walk(t *testing.T, clients ...*Client) *walkers {
	w := &walkers{counters: map[string]*counter{"one": {}, "two": {}}, stop: make(chan struct{}),
		guards: map[string][]byte{"one": guard.New(), "two": guard.New()}, turns: map[string]uint64{}}
	for i := range clients {
		for name := range w.counters {
			w.group.Add(1)
			go w.walk(t, clients[i], name)
		}
	}
	return w
}

func (w *walkers) walk(t *testing.T, c *Client, name string) {
	defer w.group.Done()
	for {
		select {
		case <-w.stop:
			return
		default:
		}
		ctx, cancel := context.WithTimeout(context.Background(), 30*time.Second)
		held, err := c.Lock(ctx, name)
		cancel()
		if err != nil {
			t.Error(name, err)
			return
		}
		w.counters[name].pass()
		w.show(t, name, held.Token())
		if err := held.Unlock(); err != nil {
			t.Error(err)
		}
	}
}

// show shows a pass, which has to have the next turn.
func (w *walkers) show(t *testing.T, name string, pass []byte) {
	w.mutex.Lock()
	defer w.mutex.Unlock()
	next, turn, err := guard.Admit(w.guards[name], pass)
	if err != nil || turn != w.turns[name]+1 {
		t.Errorf("%s: turn %d after %d: %v", name, turn, w.turns[name], err)
		return
	}
	w.guards[name], w.turns[name] = next, turn
}

func (w *walkers) end(t *testing.T) {
	close(w.stop)
	w.group.Wait()
	for name, c := range w.counters {
		if c.met || c.total == 0 {
			t.Errorf("%s: %d passes, two inside: %v", name, c.total, c.met)
		}
	}
}

// What a voter of the old plan alone may have given is known to the voters of the new one once the old plan is retired.
func TestCeilingsAfterAnExchange(t *testing.T) {
	w := worlds.New(t, worlds.Majority, time.Second)
	before := w.Cluster
	w.Kill(2)
	w.Exchange(grown)
	soon(t, "the plan is not taken", func() bool { return w.Install() == nil })
	next, console := w.Cluster, w.Console()
	ceiling := func(at int) uint64 {
		t.Helper()
		replies, err := console.Ask(within(t, 5*time.Second), "knows", at)
		if err != nil || replies[0].Err != nil {
			t.Fatal(err, replies)
		}
		var known voter.Knows
		if err := json.Unmarshal(replies[0].Body, &known); err != nil {
			t.Fatal(err)
		}
		return known.Peers[2].Ceiling
	}
	w.Cluster = before // c did not hear of the exchange
	w.Start(2)
	soon(t, "c starts, and nobody keeps its ceiling", func() bool { return ceiling(0) > ceiling(3) })
	w.Kill(2)
	w.Cluster = next
	soon(t, "the old plan is not retired", func() bool { return w.Retire() == nil })
	for _, at := range []int{1, 3, 4} {
		if kept := ceiling(at); kept != ceiling(0) {
			t.Errorf("voter %d keeps %d, and voter 0 %d", at, kept, ceiling(0))
		}
	}
}

// Clients pass all the time while a cluster grows from three voters to five, voters restart in the middle, and goes back.
// One is inside, the guard admits each pass once, and old settings are refused at the end.
func TestExchangeWhileClientsPass(t *testing.T) {
	w := worlds.New(t, worlds.Majority, 4*time.Second)
	w.Bus.Noise(1, 1, 3)
	before := w.Cluster
	first, _ := start(t, w)
	held := take(t, first, "long")
	second, _ := start(t, w)
	walkers := walk(t, first, second)

	w.Exchange(grown)
	third, _ := start(t, w) // it has the new settings before any old voter has them
	if number, _ := planOf(third); number != 0 {
		t.Error("a client asks by a plan that no quorum has")
	}
	soon(t, "the voters do not take the plan", func() bool { return w.Install() == nil })
	w.Stop(0)
	w.Start(0)
	w.Ready()
	for _, c := range []*Client{first, second, third} {
		soon(t, "a client stays with the old plan", func() bool { number, alone := planOf(c); return number == 1 && !alone })
	}
	if err := w.Retire(); !errors.Is(err, exchange.ErrFew) || !strings.Contains(err.Error(), voter.ErrLag.Error()) {
		t.Error("retired while a client holds a lock by the old plan:", err)
	}
	if _, err := exchange.Next(w.Cluster, worlds.Majority); !errors.Is(err, exchange.ErrUnderWay) {
		t.Error("a second exchange:", err)
	}
	if isNow(held.Lost()) {
		t.Error("an exchange lost a lock")
	}
	if err := held.Unlock(); err != nil {
		t.Error(err)
	}
	soon(t, "the old plan is not retired", func() bool { return w.Retire() == nil })
	w.Stop(1)
	w.Start(1)
	w.Ready()
	for _, c := range []*Client{first, second, third} {
		soon(t, "a client keeps the old plan", func() bool { number, alone := planOf(c); return number == 1 && alone })
	}
	if _, err := open(within(t, 20*time.Second), before, Config{Transport: w.Bus.Port()}); !errors.Is(err, ErrRetired) {
		t.Error("old settings:", err)
	}

	w.Exchange(worlds.Majority)
	soon(t, "the voters do not take the second plan", func() bool { return w.Install() == nil })
	for _, c := range []*Client{first, second, third} {
		soon(t, "a client stays with the second plan", func() bool { number, _ := planOf(c); return number == 2 })
	}
	soon(t, "the second plan is not retired", func() bool { return w.Retire() == nil })
	w.Stop(3)
	w.Stop(4)
	if _, err := open(within(t, 20*time.Second), before, Config{Transport: w.Bus.Port()}); !errors.Is(err, ErrRetired) {
		t.Error("settings of the same coterie, from before:", err)
	}
	fourth, _ := start(t, w)
	_ = take(t, fourth, "long").Unlock()
	walkers.end(t)
	for _, c := range []*Client{first, second, third, fourth} {
		if err := c.Close(within(t, 20*time.Second)); err != nil {
			t.Error(err)
		}
	}
}

func isNow(lost <-chan struct{}) bool {
	select {
	case <-lost:
		return true
	default:
		return false
	}
}

// A client that is silent for the TTL keeps nobody from retiring a plan, and its session is over when it comes back.
func TestRetireEndsSilentSessions(t *testing.T) {
	w := worlds.New(t, worlds.Majority, time.Second)
	c, port := start(t, w)
	held := take(t, c, "x")
	port.Cut(true)
	w.Exchange(grown)
	soon(t, "the voters do not take the plan", func() bool { return w.Install() == nil })
	soon(t, "the old plan is not retired", func() bool { return w.Retire() == nil })
	if !isLost(held) {
		t.Error("a client that was cut off believes in its lock")
	}
	port.Cut(false)
	soon(t, "the session goes on", func() bool {
		_, err := c.Lock(within(t, time.Second), "y")
		return errors.Is(err, ErrLost) || errors.Is(err, ErrRetired)
	})
	next, _ := start(t, w)
	held = take(t, next, "x")
	if number, alone := planOf(next); number != 1 || !alone {
		t.Error("a new client asks by", number)
	}
	_ = held.Unlock()
}

// A client takes no plan that is not bridged, has other places, or is not the next one.
func TestPlansThatAreNotTaken(t *testing.T) {
	w := worlds.New(t, worlds.Majority, time.Second)
	for coterie, number := range map[string]uint64{
		"voters = [\"a\", \"b\", \"c\"]\nquorums = [[\"a\"]]\n":                        1,
		"voters = [\"b\", \"a\", \"c\"]\nquorums = [[\"a\", \"b\", \"c\"]]\n":          1,
		"voters = [\"a\", \"b\", \"c\"]\nquorums = [[\"a\", \"b\", \"c\"]]\n":          2,
		"voters = [\"a\", \"b\", \"c\", \"d\"]\nquorums = [[\"a\", \"b\"], [\"d\"]]\n": 1,
	} {
		c, err := newClient(w.Cluster, Config{Transport: w.Bus.Port()})
		if err != nil {
			t.Fatal(err)
		}
		text := "quorum-plan 1\n"
		if plan, err := qlock.FindPlan(coterie); err == nil {
			text = plan.Text
		}
		encode := base64.StdEncoding.EncodeToString
		c.peers[0].awaited = true
		c.fetched(0, number, encode([]byte(coterie)), encode([]byte(text)))
		if finishReading(c); c.next != nil {
			t.Errorf("plan %d of %s", number, coterie)
		}
	}
}

// finishReading waits until the plan is read that a client reads, if it reads one.
func finishReading(c *Client) {
	if c.isReading {
		(<-c.read)()
	}
}

// A plan is read only of a voter that was asked for it, and only once in a minute if it is of no use. One that is longer than
// what is sent is not read.
func TestPlansCostLittle(t *testing.T) {
	w := worlds.New(t, worlds.Majority, time.Second)
	plan, err := qlock.FindPlan("voters = [\"a\", \"b\", \"c\"]\nquorums = [[\"a\", \"b\", \"c\"]]\n")
	if err != nil {
		t.Fatal(err)
	}
	long := strings.Repeat("# no voter\n", config.MostPlan/10) + plan.Coterie
	if _, err := qlock.ReadPlan(long, plan.Text); err != nil {
		t.Fatal(err)
	}
	encode := base64.StdEncoding.EncodeToString
	c, err := newClient(w.Cluster, Config{Transport: w.Bus.Port()})
	if err != nil {
		t.Fatal(err)
	}
	says := func(coterie string) {
		words := fmt.Sprintf("plan 1 %s %s", encode([]byte(coterie)), encode([]byte(plan.Text)))
		c.controlPlans(2, bytes.Fields([]byte(words)))
		c.controlPlans(2, bytes.Fields([]byte(words))) // twice
		if c.next != nil {
			t.Error("the loop waited until the plan was read")
		}
		finishReading(c)
	}
	isAsked := func() bool {
		c.out[2] = nil
		c.controlPlans(2, bytes.Fields([]byte("generation 1 abcdefabcdef 0")))
		return strings.Contains(string(c.out[2]), ". plan\n")
	}
	if says(plan.Coterie); c.next != nil {
		t.Error("a plan is taken for which nobody asked")
	}
	if !isAsked() {
		t.Fatal("the voter is not asked")
	}
	if says(long); c.next != nil {
		t.Error("a plan is taken that is too long")
	}
	if says(plan.Coterie); c.next != nil || isAsked() {
		t.Error("a voter that sent junk is heard again at once")
	}
	c.peers[2].asked = time.Now().Add(-time.Second)
	if !isAsked() {
		t.Error("the voter is not asked again")
	}
	if says(plan.Coterie); c.next == nil {
		t.Error("the next plan is not taken")
	}
}

// A request that asks, or has the lock, is of the plan by which it asked: voters may not retire that.
func TestOldestPlanOfARequest(t *testing.T) {
	c := still(t, worlds.New(t, worlds.Majority, 20*time.Second))
	call := comes(t, c, "x")
	c.generation = 1
	if phase, oldest := c.locks["x"].shown.Phase, c.oldest(); phase != qlock.Asking || oldest != 0 {
		t.Errorf("while it asks (%v) the oldest plan is %d", phase, oldest)
	}
	h := gets(t, c, call)
	if oldest := c.oldest(); oldest != 0 {
		t.Errorf("while it has the lock the oldest plan is %d", oldest)
	}
	if err := c.unlock(h); err != nil || c.oldest() != 1 {
		t.Errorf("%v, and then the oldest plan is %d", err, c.oldest())
	}
}
