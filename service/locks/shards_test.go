package locks

import (
	"bytes"
	"context"
	"encoding/json"
	"errors"
	"fmt"
	"log"
	"math/bits"
	"os"
	"path/filepath"
	"strings"
	"sync"
	"testing"
	"time"

	"calvundek.example/service/internal/voter"
	"calvundek.example/service/internal/wire"
	"calvundek.example/service/internal/worlds"
	"calvundek.example/service/qlock"
)

// newShards starts a cluster of three voters with so many shards.
func newShards(t *testing.T, shards int, ttl time.Duration) *worlds.World {
	t.Helper()
	cluster := worlds.NewCluster(t, worlds.Majority, ttl)
	if cluster.Shards = shards; cluster.Check() != nil {
		t.Fatal(cluster.Check())
	}
	return worlds.NewOf(t, cluster)
}

// nameIn returns the name of a lock of a shard.
func nameIn(w *worlds.World, shard int) string {
	for i := 0; ; i++ {
		if name := fmt.Sprint("lock-", i); w.Cluster.ShardOfLock(name) == shard {
			return name
		}
	}
}

// A client waits for no voter that is down as it opens, only for a quorum of the others.
func TestOpenWithAVoterDown(t *testing.T) {
	w := newShards(t, 2, 2*time.Second)
	w.Stop(0)
	c, err := open(within(t, 10*time.Second), w.Cluster, Config{Transport: w.Bus.Port(), FailOver: time.Minute})
	if err != nil {
		t.Fatal(err)
	}
	if err := take(t, c, nameIn(w, 0)).Unlock(); err != nil {
		t.Error(err)
	}
	brief, cancel := context.WithCancel(context.Background())
	cancel()
	_ = c.Close(brief) // the voter that is down is not silent yet
	w.Stop(1)
	if _, err = open(within(t, time.Second), w.Cluster, Config{Transport: w.Bus.Port()}); !errors.Is(err, ErrNoQuorum) {
		t.Errorf("without a quorum: %v", err)
	}
}

// A client has locks of all shards, one holder each, and gives all back at the end.
func TestLocksOfAllShards(t *testing.T) {
	w := newShards(t, 4, 5*time.Second)
	one, other := startWith(t, w, Config{Note: "one"}), startWith(t, w, Config{})
	for shard := 0; shard < 4; shard++ {
		name := nameIn(w, shard)
		held := take(t, one, name)
		if _, err := other.TryLock(within(t, 5*time.Second), name); !errors.Is(err, ErrHeld) {
			t.Errorf("%s is taken twice: %v", name, err)
		}
		if h := who(t, other, name); h.IsNobody() || h.Asked {
			t.Errorf("%s is had by %v", name, h)
		}
		if _, err := one.Lock(held.nested(), name); !errors.Is(err, ErrNested) {
			t.Errorf("%s waits for itself: %v", name, err)
		}
		if err := held.Unlock(); err != nil {
			t.Error(err)
		}
		if err := take(t, other, name).Unlock(); err != nil {
			t.Error(err)
		}
	}
	if stats := one.Stats(); stats.Passes != 4 || one.Number() != -1 {
		t.Errorf("%+v, number %d", stats, one.Number())
	}
	for _, c := range []*Client{one, other} {
		if err := c.Close(within(t, 10*time.Second)); err != nil {
			t.Error(err)
		}
		if _, err := c.Lock(within(t, time.Second), "late"); !errors.Is(err, ErrClosed) {
			t.Errorf("a closed client has a lock: %v", err)
		}
	}
}

// Close of a client with shards refuses calls of Lock at once, also those that wait, while a lock is still held.
func TestCloseRefusesCallsInAllShards(t *testing.T) {
	w := newShards(t, 4, 5*time.Second)
	c := startWith(t, w, Config{})
	held := take(t, c, nameIn(w, 0))
	waits, closed := make(chan error, 1), make(chan error, 1)
	go func() {
		_, err := c.Lock(context.Background(), nameIn(w, 0))
		waits <- err
	}()
	time.Sleep(100 * time.Millisecond)
	go func() { closed <- c.Close(within(t, 10*time.Second)) }()
	select {
	case err := <-waits:
		if !errors.Is(err, ErrClosed) {
			t.Errorf("a call that waited: %v", err)
		}
	case <-time.After(2 * time.Second):
		t.Error("a call that waits goes on")
	}
	for shard := 0; shard < 4; shard++ {
		if _, err := c.Lock(within(t, time.Second), nameIn(w, shard)); !errors.Is(err, ErrClosed) {
			t.Errorf("shard %d: %v", shard, err)
		}
	}
	if err := held.Unlock(); err != nil {
		t.Error(err)
	}
	if err := <-closed; err != nil {
		t.Error(err)
	}
}

// What a client counted never falls, also while a session that nobody takes locks by any more gives its number back. Close ends that one, too.
func TestCountsOfASessionThatIsReplaced(t *testing.T) {
	w := newShards(t, 2, 5*time.Second)
	before := w.Bus.Boxes()
	c := startWith(t, w, Config{})
	for passes := uint64(1); passes <= 4; passes++ {
		if err := take(t, c, nameIn(w, 0)).Unlock(); err != nil {
			t.Fatal(err)
		}
		c.forgetSession(0, c.current(c.shards.part(0)))
		if count := c.Stats().Passes; count != passes {
			t.Errorf("%d passes after %d", count, passes)
		}
	}
	if err := c.Close(within(t, 5*time.Second)); err != nil {
		t.Error(err)
	}
	if boxes := w.Bus.Boxes() - before; boxes != 0 || c.Stats().Passes != 4 {
		t.Errorf("%d mailboxes stay, %d passes", boxes, c.Stats().Passes)
	}
}

// The log says the numbers of sessions as operators see them, and none where there is none.
func TestLogOfShards(t *testing.T) {
	w := newShards(t, 4, 5*time.Second)
	var text journal
	c := startWith(t, w, Config{Log: log.New(&text, "", 0)})
	if err := take(t, c, nameIn(w, 3)).Unlock(); err != nil {
		t.Fatal(err)
	}
	number := fmt.Sprintf("number=3/%d epoch=1", c.current(c.shards.part(3)).header.Number)
	if err := c.Close(within(t, 20*time.Second)); err != nil {
		t.Error(err)
	}
	over := fmt.Sprintf("event=session-over %s why=%q\nevent=session-over why=%q\n", number, ErrClosed, ErrClosed)
	if want := "event=session " + number + "\n" + over; text.String() != want {
		t.Errorf("%s", text.String())
	}
}

// Close ends the opening of sessions that find no quorum, and leaves nothing behind.
func TestCloseEndsWhatIsOpened(t *testing.T) {
	w := newShards(t, 4, 5*time.Second)
	c := startWith(t, w, Config{})
	for v := 0; v < 3; v++ {
		w.Kill(v)
	}
	waits := make(chan error, 1)
	go func() {
		_, err := c.Lock(context.Background(), nameIn(w, 1))
		waits <- err
	}()
	time.Sleep(100 * time.Millisecond)
	if err := c.Close(within(t, time.Second)); err != nil && !errors.Is(err, context.DeadlineExceeded) {
		t.Error(err)
	}
	select {
	case err := <-waits:
		if !errors.Is(err, ErrClosed) {
			t.Error(err)
		}
	case <-time.After(2 * time.Second):
		t.Fatal("the call waits for ever")
	}
	select {
	case <-c.shards.over:
	case <-time.After(2 * time.Second):
		t.Error("the mailbox of the process stays")
	}
}

// nested returns a context of a holder.
func (h *Held) nested() context.Context {
	ctx, _ := h.Context(context.Background())
	return ctx
}

// More clients than a shard has numbers use locks of different shards at once: 64 of each may.
func TestMoreThanSixtyFourClients(t *testing.T) {
	w := newShards(t, 4, 5*time.Second)
	var group sync.WaitGroup
	holds := make([]*Held, 2*qlock.MaxClients)
	for i := range holds {
		c, i := startWith(t, w, Config{NoNote: true}), i
		group.Add(1)
		go func() {
			defer group.Done()
			var err error
			if holds[i], err = c.Lock(within(t, 20*time.Second), fmt.Sprint("job-", i)); err != nil {
				t.Error(i, err)
			}
		}()
	}
	group.Wait()
	for _, h := range holds {
		if h != nil {
			if err := h.Unlock(); err != nil {
				t.Error(err)
			}
		}
	}
}

// Where all numbers of a shard are taken the others wait, in order, for those that want nothing any more. Each gets the lock.
func TestMoreClientsThanNumbers(t *testing.T) {
	const processes = 100
	w := newShards(t, 2, 20*time.Second)
	name, count := nameIn(w, 1), &counter{}
	var group sync.WaitGroup
	for i := 0; i < processes; i++ {
		c := startWith(t, w, Config{NoNote: true})
		group.Add(1)
		go func() {
			defer group.Done()
			for n := 0; n < 2; n++ {
				held, err := c.Lock(within(t, 35*time.Second), name) // a number is kept for longer than that
				if err != nil {
					t.Error(err)
					return
				}
				count.pass()
				if err := held.Unlock(); err != nil {
					t.Error(err)
				}
			}
		}()
	}
	group.Wait()
	if count.met || count.total != 2*processes {
		t.Errorf("%d passes, two inside: %v", count.total, count.met)
	}
}

// Who gets no number hears how many wait before him.
func TestNoNumberOfShard(t *testing.T) {
	w := newShards(t, 2, 5*time.Second)
	name := nameIn(w, 0)
	for i := 0; i < qlock.MaxClients; i++ {
		take(t, startWith(t, w, Config{NoNote: true}), fmt.Sprint(nameOf(w, 0, i)))
	}
	late, began := startWith(t, w, Config{NoNote: true}), time.Now()
	if _, err := late.TryLock(within(t, 20*time.Second), name); !errors.Is(err, ErrNumbers) || time.Since(began) > 15*time.Second {
		t.Errorf("who only tries waits for a number: %v", err)
	}
	if seen := late.shards.part(0).claims; seen == nil || seen[0].Shows().Newest == 0 {
		t.Error("a name forgets its claims between two tries")
	}
	waits := make(chan error, 1)
	go func() {
		_, err := late.Lock(within(t, 9*time.Second), name)
		waits <- err
	}()
	time.Sleep(2 * time.Second)
	tried, other := time.Now(), nameOf(w, 0, 71)
	if _, err := late.TryLock(within(t, 5*time.Second), other); !errors.Is(err, ErrNumbers) || errors.Is(err, context.DeadlineExceeded) {
		t.Errorf("who only tries waits behind a call that waits for the number: %v", err)
	} else if none := (&NoNumber{}); !errors.As(err, &none) || none.Open != qlock.MaxClients {
		t.Errorf("who only tries does not hear which sessions there are: %v", err)
	}
	if took := time.Since(tried); took > 2*time.Second {
		t.Errorf("who only tries waits for %v", took)
	}
	if _, err := late.Lock(within(t, time.Second), nameOf(w, 0, 70)); !errors.Is(err, ErrNumbers) || !errors.Is(err, context.DeadlineExceeded) {
		t.Errorf("who waits behind another call that waits for the number: %v", err)
	}
	if _, err := startWith(t, w, Config{NoNote: true}).Lock(within(t, 6*time.Second), name); !errors.Is(err, ErrNumbers) ||
		!strings.Contains(err.Error(), "wait for a number before this one") {
		t.Errorf("who waits is told: %v", err)
	}
	if err := <-waits; !errors.Is(err, ErrNumbers) {
		t.Error(err)
	}
	if err := take(t, late, nameIn(w, 1)).Unlock(); err != nil {
		t.Errorf("another shard is full, too: %v", err)
	}
}

// A session says for which lock it wants a number also to voters of older programs, which know no want.
func TestOlderVotersHearForWhichLock(t *testing.T) {
	c := still(t, worlds.New(t, worlds.Majority, 20*time.Second))
	c.wants = "orders"
	c.askForNumbers()
	line := wire.Ask{Kind: wire.WantsFor, Lock: "orders"}.Append(nil)
	for v := range c.peers {
		if !bytes.Contains(c.out[v], line) {
			t.Errorf("voter %d hears %q", v, c.out[v])
		}
	}
}

// A client that wants nothing asks one voter a minute which plans there are, each in its turn. One that follows a plan asks all of them.
func TestRestingClientAsksOneVoterAMinute(t *testing.T) {
	w := newShards(t, 2, 2*time.Second)
	c, err := newLook(w.Cluster, Config{Transport: w.Bus.Port()})
	if err != nil {
		t.Fatal(err)
	}
	asked, now := uint64(0), time.Now()
	for c.followed = now; asked != 0b111; {
		now = now.Add(59 * time.Second)
		c.followPlans(now)
		for v := range c.peers {
			if len(c.out[v]) > 0 {
				t.Fatalf("voter %d is asked within a minute: %q", v, c.out[v])
			}
		}
		now = now.Add(time.Second)
		c.followPlans(now)
		before := asked
		for v := range c.peers {
			if len(c.out[v]) > 0 {
				asked |= 1 << v
				c.out[v] = nil
			}
		}
		if bits.OnesCount64(asked^before) != 1 {
			t.Fatalf("the voters %b are asked after %b", asked, before)
		}
	}
	c.isReading = true
	for i := 0; i < 3; i++ { // also while no quorum replies
		now = now.Add(time.Second)
		if c.followPlans(now); len(c.questions) != 1 || c.questions[c.newest] == nil {
			t.Errorf("%d questions of one that follows", len(c.questions))
		}
	}
}

// Many clients that want nothing ask all voters alike, as each begins with another one.
func TestRestingClientsAskAllVoters(t *testing.T) {
	w := newShards(t, 2, 2*time.Second)
	asked := map[int]int{}
	for i := 0; i < 64; i++ {
		c := startWith(t, w, Config{})
		_ = c.call(func() error { asked[c.looked]++; return nil })
	}
	for v := 0; v < 3; v++ {
		if asked[v] < 6 { // of some 21
			t.Errorf("%v of 64 clients begin behind each voter", asked)
		}
	}
}

// nameOf returns one of many names of locks of a shard.
func nameOf(w *worlds.World, shard, place int) string {
	for i := 0; ; i++ {
		name := fmt.Sprint("lock-", i)
		if w.Cluster.ShardOfLock(name) != shard {
			continue
		}
		if place == 0 {
			return name
		}
		place--
	}
}

// A session that an operator ends costs the locks of its shard, and the client goes on. Who waits for a lock there goes on waiting.
func TestSessionOfShardIsOver(t *testing.T) {
	w := newShards(t, 2, 2*time.Second)
	c, other := startWith(t, w, Config{}), startWith(t, w, Config{})
	first, second := take(t, c, nameIn(w, 0)), take(t, c, nameIn(w, 1))
	theirs, waits := take(t, other, nameOf(w, 0, 1)), make(chan error, 1)
	go func() {
		held, err := c.Lock(within(t, 20*time.Second), nameOf(w, 0, 1))
		if err == nil {
			err = held.Unlock()
		}
		waits <- err
	}()
	soon(t, "nobody waits", func() bool { return who(t, other, nameOf(w, 0, 1)).Waiting == 1 })
	number := c.shards.all[0].client.header.Number
	if _, err := w.Console().Ask(within(t, 5*time.Second), fmt.Sprintf("evict 0/%d", number), 0, 1, 2); err != nil {
		t.Fatal(err)
	}
	if !isLost(first) || isNow(second.Lost()) {
		t.Error("an end of one session ends the locks of another shard, or not its own")
	}
	if err := first.Unlock(); !errors.Is(err, ErrLapsed) {
		t.Error(err)
	}
	if err := take(t, c, nameIn(w, 0)).Unlock(); err != nil {
		t.Error(err)
	}
	if err := theirs.Unlock(); err != nil {
		t.Error(err)
	}
	if err := <-waits; err != nil {
		t.Errorf("who waited: %v", err)
	}
	if err := second.Unlock(); err != nil {
		t.Error(err)
	}
}

// A voter that lost its state, and one that starts from an older copy, learn the sessions of all shards, by more messages than one.
func TestSessionsOfAllShardsAreLearned(t *testing.T) {
	w := newShards(t, 32, 5*time.Second)
	older := w.Copy(1)
	for shard := 0; shard < 32; shard++ {
		s := newStranger(t, w, fmt.Sprintf("%d-%d", shard, shard))
		for number := 0; number < qlock.MaxClients; number += 8 {
			for voter := 0; voter < 3; voter++ {
				var lines strings.Builder
				for i := number; i < number+8; i++ {
					fmt.Fprintf(&lines, ". claim %d 1 64\n", i)
				}
				s.send(voter, lines.String())
			}
		}
	}
	sessions := func() (counts []int) {
		replies, err := w.Console().Ask(within(t, 5*time.Second), "status", 0, 1, 2)
		if err != nil {
			t.Fatal(err)
		}
		for _, r := range replies {
			var status voter.Status
			if err := json.Unmarshal(r.Body, &status); err != nil {
				t.Fatal(err)
			}
			counts = append(counts, status.Open)
		}
		return counts
	}
	soon(t, "not all numbers are claimed", func() bool { return fmt.Sprint(sessions()) == "[2048 2048 2048]" })
	w.Stop(2)
	replies, err := voter.AskKnown(within(t, 5*time.Second), w.Console(), 0, 1)
	if err != nil {
		t.Fatal(err)
	}
	if known, _, err := voter.Merge(replies); err != nil || len(known.Sessions) != 2048 {
		t.Errorf("the others know %d sessions, %v", len(known.Sessions), err)
	}
	w.Lose(2)
	w.Start(2)
	w.Ready()
	w.Kill(1)
	w.Put(1, older)
	w.Start(1)
	w.Ready()
	if counts := sessions(); fmt.Sprint(counts) != "[2048 2048 2048]" {
		t.Error(counts)
	}
}

// A client that has no session follows exchanged plans by its questions. One that missed two exchanges reads the cluster's file again.
func TestShardsFollowPlans(t *testing.T) {
	w := newShards(t, 2, time.Second)
	file := filepath.Join(t.TempDir(), "cluster.toml")
	follower, sleeper := startWith(t, w, Config{}), startWith(t, w, Config{Cluster: file})
	for i, coterie := range []string{all, worlds.Majority} {
		w.Exchange(coterie)
		soon(t, "the voters do not take the plan", func() bool { return w.Install() == nil })
		soon(t, "the client stays with the old plan", func() bool {
			_ = who(t, follower, "x")
			number, _ := planOf(follower)
			return number == uint64(i+1)
		})
		soon(t, "the plan is not retired", func() bool { return w.Retire() == nil })
	}
	if err := take(t, follower, "x").Unlock(); err != nil {
		t.Error(err)
	}
	if _, err := sleeper.Lock(within(t, 20*time.Second), "x"); !errors.Is(err, ErrRetired) {
		t.Errorf("there is no newer file: %v", err)
	}
	text, err := w.Cluster.Text()
	if err != nil {
		t.Fatal(err)
	}
	if err := os.WriteFile(file, text, 0o600); err != nil {
		t.Fatal(err)
	}
	again := startWith(t, w, Config{Cluster: file})
	_ = again.call(func() error { again.plans = newPlans(worlds.NewCluster(t, worlds.Majority, time.Second)); return nil })
	if err := take(t, again, "x").Unlock(); err != nil {
		t.Errorf("a client that missed two exchanges: %v", err)
	}
}

// A lock is held, and 79 more clients want it. It has 56 numbers of its shard, and stays at that while it is held. So another lock of the
// shard is had at once, and one of another client after it. Then all that wait get the lock.
func TestHotLockStopsNoNeighbour(t *testing.T) {
	const crowd, most = 80, 56
	w := newShards(t, 2, 10*time.Second)
	hot, cold, count := nameOf(w, 1, 0), nameOf(w, 1, 1), &counter{}
	holder, one, other, both := startWith(t, w, Config{NoNote: true}), startWith(t, w, Config{NoNote: true}),
		startWith(t, w, Config{NoNote: true}), startWith(t, w, Config{NoNote: true})
	held := take(t, holder, hot)
	var group sync.WaitGroup
	for i := 1; i < crowd; i++ {
		c := startWith(t, w, Config{NoNote: true})
		group.Add(1)
		go func() {
			defer group.Done()
			held, err := c.Lock(within(t, 100*time.Second), hot)
			if err != nil {
				t.Error(err)
				return
			}
			count.pass()
			if err := held.Unlock(); err != nil {
				t.Error(err)
			}
		}()
	}
	soon(t, "not as many wait as may", func() bool { return who(t, holder, hot).Waiting >= most-1 })
	for began := time.Now(); time.Since(began) < 5*time.Second; time.Sleep(100 * time.Millisecond) {
		if n := who(t, holder, hot).Waiting; n > most-1 {
			t.Fatalf("one has the lock, and %d have numbers to wait for it", n)
		}
	}
	for _, c := range []*Client{one, other} {
		began := time.Now()
		h, err := c.Lock(within(t, 4*time.Second), cold)
		if err != nil {
			t.Fatal(err)
		}
		if took := time.Since(began); took > 500*time.Millisecond {
			t.Errorf("the neighbour had its lock after %v", took)
		} else {
			t.Logf("the neighbour had its lock after %v", took)
		}
		if isNow(held.Lost()) {
			t.Fatal("the hot lock is lost")
		}
		if err := h.Unlock(); err != nil {
			t.Error(err)
		}
	}
	if _, err := other.TryLock(within(t, 5*time.Second), hot); !errors.Is(err, ErrNumbers) && !errors.Is(err, ErrHeld) {
		t.Errorf("who tries: %v", err)
	}
	waits := make(chan error, 1) // a process that wants both locks
	go func() {
		_, err := both.Lock(within(t, 3*time.Second), hot)
		waits <- err
	}()
	time.Sleep(300 * time.Millisecond) // it waits for a number
	began := time.Now()
	if err := take(t, both, cold).Unlock(); err != nil || time.Since(began) > 400*time.Millisecond {
		t.Errorf("a process that waits for the hot lock had another one after %v: %v", time.Since(began), err)
	} else {
		t.Logf("the process that waits had its lock after %v", time.Since(began))
	}
	if err := <-waits; !errors.Is(err, context.DeadlineExceeded) {
		t.Errorf("it waits for the hot lock: %v", err)
	}
	triesBeside(t, w, hot, cold)
	if err := held.Unlock(); err != nil {
		t.Error(err)
	}
	group.Wait()
	if count.met || count.total != crowd-1 {
		t.Errorf("%d passes, two inside: %v", count.total, count.met)
	}
}

// Who only tries hears that there is no number once it was asked for on behalf of its lock, or after a moment.
func TestWhoTriesHearsOfItsOwnLock(t *testing.T) {
	now := time.Now()
	short := &shortage{lock: "a", at: now}
	for i, one := range []struct {
		short *shortage
		lock  string
		began time.Time
		ends  bool
	}{
		{short, "a", now.Add(-time.Millisecond), true},
		{short, "a", now.Add(time.Minute), false},
		{short, "b", now.Add(time.Minute), false},
		{short, "b", now.Add(-2 * aMoment), true},
		{nil, "a", now.Add(-time.Hour), false},
	} {
		if ends := one.short.endsTry(one.lock, one.began); ends != one.ends {
			t.Errorf("%d: %v", i, ends)
		}
	}
}

// triesBeside tries to take a lock in a process that waits for a number for a hot one: there is a number for the other lock.
func triesBeside(t *testing.T, w *worlds.World, hot, cold string) {
	t.Helper()
	c := startWith(t, w, Config{NoNote: true})
	ctx, cancel := context.WithCancel(context.Background())
	defer cancel()
	go func() { _, _ = c.Lock(ctx, hot) }()
	soon(t, "it does not wait", func() bool { return c.shards.part(c.cluster.ShardOfLock(hot)).short.Load() != nil })
	held, err := c.TryLock(within(t, 5*time.Second), cold)
	if err != nil {
		t.Fatalf("who tries gets no number that there is: %v", err)
	}
	if err := held.Unlock(); err != nil {
		t.Error(err)
	}
}

// The locks for which calls wait are named in turn, each again and again, and the one that was named goes on if there is no other one.
func TestWishes(t *testing.T) {
	w := wishes{grown: make(chan struct{}, 1)}
	order := func(lock string, n int) (named string) {
		for i := 0; i < n; i++ {
			lock = w.next(lock)
			named += lock
		}
		return named
	}
	if named := order("a", 2); named != "aa" {
		t.Error(named)
	}
	removeA := w.add("a")
	if named := order("a", 2); named != "aa" || len(w.grown) != 0 {
		t.Error(named)
	}
	removeB := w.add("b")
	if w.add("c"); len(w.grown) != 1 {
		t.Error("who waits does not hear that a number is wanted for another lock")
	}
	if named := order("a", 5); named != "bcabc" {
		t.Error(named)
	}
	if removeB(); order("b", 3) != "aca" {
		t.Error(order("b", 3))
	}
	if removeA(); order("a", 2) != "cc" {
		t.Error(order("a", 2))
	}
}
