package locks

import (
	"math/bits"
	"os"
	"os/exec"
	"path/filepath"
	"runtime"
	"strings"
	"sync/atomic"
	"syscall"
	"testing"
	"time"

	"calvundek.example/service/internal/config"
	"calvundek.example/service/internal/wire"
	"calvundek.example/service/internal/worlds"
	"calvundek.example/service/qlock"
)

// processOf is the variable by which a test tells a process which cluster's file it reads.
const processOf = "LOCKS_TEST_PROCESS_OF"

// A process with many sessions that each hold a lock has few goroutines, little memory for each, and little to do. It runs apart from the
// voters.
func TestManySessionsOfAProcess(t *testing.T) {
	if file := os.Getenv(processOf); file != "" {
		holdsMany(t, file)
		return
	}
	cluster, folder := secured(t)
	cluster.TTL.Duration = 8 * time.Second
	if cluster.Shards = 256; cluster.Check() != nil {
		t.Fatal(cluster.Check())
	}
	serve(t, cluster, folder)
	text, err := cluster.Text()
	if err != nil {
		t.Fatal(err)
	}
	file := filepath.Join(folder, "cluster.toml")
	write(t, file, string(text))
	process := exec.Command(os.Args[0], "-test.run", "^TestManySessionsOfAProcess$", "-test.v")
	process.Env = append(os.Environ(), processOf+"="+file)
	said, err := process.CombinedOutput()
	if t.Logf("%s", said); err != nil {
		t.Error(err)
	}
}

// holdsMany takes locks of many shards, and measures what each session takes.
func holdsMany(t *testing.T, file string) {
	const first, all = 10, 90
	cluster, err := config.ReadCluster(file)
	if err != nil {
		t.Fatal(err)
	}
	own, limit := access(filepath.Dir(file), "shop"), within(t, time.Minute)
	c, err := Open(limit, Config{Cluster: file, User: own.User, Secret: own.Secret, Cert: own.Cert, Key: own.Key})
	if err != nil {
		t.Fatal(err)
	}
	w := &worlds.World{Cluster: cluster}
	holds := func(from, to int) (bytes uint64, goroutines int) {
		for shard := from; shard < to; shard++ {
			if _, err := c.Lock(limit, nameIn(w, shard)); err != nil {
				t.Fatal(err)
			}
		}
		time.Sleep(3 * time.Second) // until heartbeats were acknowledged that are those of a session which rests
		runtime.GC()
		var memory runtime.MemStats
		runtime.ReadMemStats(&memory)
		return memory.HeapAlloc, runtime.NumGoroutine()
	}
	few, before := holds(0, first)
	many, after := holds(first, all)
	each, began := int64(many-few)/(all-first), processorTime(t)
	time.Sleep(5 * time.Second)
	used := (processorTime(t) - began) / 5
	t.Logf("a session that holds a lock takes %d bytes; %d sessions have %d goroutines, and %d have %d; they take %v of a processor in a second",
		each, first, before, all, after, used)
	if each > 30<<10 || after > before+mostLoops || used > 50*time.Millisecond {
		t.Error("that is too much")
	}
	if stats := c.Stats(); stats.Lost > 0 {
		t.Errorf("%+v", stats)
	}
	if err := c.Close(within(t, 100*time.Millisecond)); err == nil {
		t.Error("nothing was held")
	}
	sleeps := func(what string) int {
		all := make([]byte, 1<<20)
		return strings.Count(string(all[:runtime.Stack(all, true)]), what)
	}
	soon(t, "a loop or the watch goes on", func() bool { return sleeps("locks.(*loop).run")+sleeps("locks.(*watch).run") == 0 })

}

// processorTime returns what the process took of processors so far.
func processorTime(t *testing.T) time.Duration {
	t.Helper()
	var used syscall.Rusage
	if err := syscall.Getrusage(syscall.RUSAGE_SELF, &used); err != nil {
		t.Fatal(err)
	}
	return time.Duration(used.Utime.Nano() + used.Stime.Nano())
}

// resting returns a session of a shard that wants nothing, was used, and just sent a heartbeat.
func resting(t *testing.T, now time.Time) *table {
	t.Helper()
	c, _ := inBundles(t)
	c.flush()
	c.bundles.began, c.beat, c.unused, c.wasUsed, c.renewed = now, now, now, true, 0
	for v := range c.peers {
		c.peers[v].heard = now
	}
	return c
}

// holdsFor lets a session hold a lock, whose votes count for so long.
func (c *table) holdsFor(t *testing.T, left time.Duration) *lock {
	t.Helper()
	l, err := c.find("orders")
	if err != nil {
		t.Fatal(err)
	}
	l.held, l.shown.Phase = &Held{client: c.Client, lock: l, lost: make(chan struct{})}, qlock.Inside
	l.held.until.Store(int64(uptime() + left))
	c.busy[l] = struct{}{}
	c.noteHolds(l)
	c.hastens = c.isLate()
	return l
}

// A session is looked at when time asks something of it: always while it wants something, and else seldom.
func TestWhenASessionIsLookedAt(t *testing.T) {
	const fresh = 16 * time.Second
	now := time.Now()
	for _, one := range []struct {
		what string
		make func(c *table)
		want time.Duration
	}{
		{"it wants nothing: its next heartbeat", func(c *table) {}, 5 * time.Second},
		{"its heartbeat is late", func(c *table) { c.beat = now.Add(-5 * time.Second) }, 0},
		{"it was not used", func(c *table) { c.wasUsed = false }, 500 * time.Millisecond},
		{"it sends no bundles", func(c *table) { c.bundles, c.beat = nil, now.Add(-2*time.Second) }, 3 * time.Second},
		{"a voter gets silent", func(c *table) { c.peers[1].heard = now.Add(-6 * time.Second) }, time.Second},
		{"a voter is silent", func(c *table) { c.peers[1].heard = now.Add(-8 * time.Second) }, 0},
		{"a voter stays silent", func(c *table) { c.peers[1].heard, c.missed = now.Add(-8*time.Second), 1<<1 }, 5 * time.Second},
		{"a voter is back", func(c *table) { c.missed = 1 << 1 }, 0},
		{"its number is given back", func(c *table) { c.unused = now.Add(-39 * time.Second) }, time.Second},
		{"others want a number", func(c *table) { c.wanted = now }, 0},
		{"others want a number that was not used", func(c *table) {
			c.wasUsed, c.wanted, c.unused = false, now, now.Add(100*time.Millisecond-takesUse)
		}, 100 * time.Millisecond},
		{"it is closed", func(c *table) { c.draining = true }, 0},
		{"a voter acknowledged something", func(c *table) { c.renewed = 1 }, 0},
		{"a turn is asked for", func(c *table) { c.turns[&Held{}] = true }, 0},
		{"a lock is asked for", func(c *table) { comes(t, c.Client, "orders") }, 0},
		{"it has a lock", func(c *table) { c.holdsFor(t, fresh) }, 5 * time.Second},
		{"somebody waits for a lock that it has", func(c *table) { c.holdsFor(t, fresh); comes(t, c.Client, "orders") }, 0},
		{"it has a lock, and asks for another one", func(c *table) { c.holdsFor(t, fresh); comes(t, c.Client, "other") }, 0},
		{"it says that it is inside", func(c *table) {
			l := c.holdsFor(t, fresh)
			l.timer.First = time.Second
			l.timer.Of(1, now)
		}, time.Second},
		{"no voter acknowledged its last heartbeat", func(c *table) { c.holdsFor(t, 12*time.Second) }, 2 * time.Second},
		{"no voter did for long", func(c *table) { c.holdsFor(t, 9*time.Second) }, 500 * time.Millisecond},
		{"a lock may be lost", func(c *table) { c.holdsFor(t, 300*time.Millisecond) }, 300 * time.Millisecond},
		{"a lock may have been lost", func(c *table) {
			c.lose(c.holdsFor(t, -time.Second).held)
			c.hastens = c.isLate()
		}, 5 * time.Second},
	} {
		c := resting(t, now)
		one.make(c)
		if got := c.nextRound(now).Sub(now); got > one.want+100*time.Millisecond || one.want > 0 && got < one.want-100*time.Millisecond {
			t.Errorf("%s: after %v, not %v", one.what, got, one.want)
		}
	}
}

// opens returns a function that says how many heartbeats a world's sessions sent since it was called last, also in beats.
func opens(w *worlds.World) func() int64 {
	var count atomic.Int64
	w.Bus.Watch(func(_ string, message []byte) {
		for _, line := range strings.Split(string(message), "\n") {
			if ask, err := wire.ReadAsk([]byte(strings.TrimPrefix(line, ". "))); err == nil && ask.Kind == wire.Beats {
				count.Add(int64(bits.OnesCount64(ask.Mask)))
			} else if strings.HasPrefix(line, ". open ") {
				count.Add(1)
			}
		}
	})
	return func() int64 { return count.Swap(0) }
}

// A session that only holds locks sends heartbeats as seldom as one that wants nothing, and often again once one is not acknowledged. After
// a gap each session of a process sends one at once. A cut that is shorter than votes count costs no lock.
func TestHolderBeatsSeldom(t *testing.T) {
	const sessions = 8
	w := newShards(t, sessions, 12*time.Second)
	port := w.Bus.Port()
	c, err := open(within(t, 20*time.Second), w.Cluster, Config{Transport: port, NoNote: true})
	if err != nil {
		t.Fatal(err)
	}
	var holds []*Held
	for shard := 0; shard < sessions; shard++ {
		holds = append(holds, take(t, c, nameIn(w, shard)))
	}
	time.Sleep(3500 * time.Millisecond) // a pause, so that all hold by heartbeats of it
	beats := opens(w)
	time.Sleep(6 * time.Second) // two pauses
	if n := beats(); n < 3*sessions || n > 3*3*sessions {
		t.Errorf("%d heartbeats of %d holders in two pauses", n, sessions)
	}
	port.Cut(true)
	time.Sleep(6 * time.Second) // up to a pause and a second, until none was acknowledged, and then each half second
	if n := beats(); n < 3*4*sessions {
		t.Errorf("%d heartbeats of %d holders that are cut off", n, sessions)
	}
	port.Cut(false)
	time.Sleep(3500 * time.Millisecond)
	beats()
	port.Cut(true)
	port.Cut(false)
	time.Sleep(time.Second)
	if n := beats(); n < 3*sessions {
		t.Errorf("%d heartbeats of %d holders after a gap", n, sessions)
	}
	for _, held := range holds {
		if err := held.Unlock(); err != nil {
			t.Error(err)
		}
	}
	if err := c.Close(within(t, 10*time.Second)); err != nil {
		t.Error(err)
	}
}

// A session that only holds locks, and asks for another one, sends a heartbeat first, and waits for replies to that of the voters that
// replied to the last one.
func TestHolderWakes(t *testing.T) {
	now := time.Now()
	for what, wakes := range map[string]func(c *table){
		"another lock":       func(c *table) { comes(t, c.Client, "other") },
		"a lock that it has": func(c *table) { comes(t, c.Client, "orders") },
	} {
		c := resting(t, now)
		c.holdsFor(t, 16*time.Second)
		c.beat = now.Add(-4 * time.Second)
		for v := range c.peers {
			c.peers[v].heard = now.Add(-4 * time.Second)
		}
		c.peers[2].heard = now.Add(-4 * time.Second).Add(-time.Millisecond) // it did not reply to the last heartbeat
		before := c.header.Seq
		if wakes(c); c.header.Seq != before+1 || c.silent(time.Now()) != 1<<2 {
			t.Errorf("%s: heartbeat %d after %d, the voters %b are silent", what, c.header.Seq, before, c.silent(time.Now()))
		}
	}
}

// A session wants nothing from when its last lock was given back, however long it had that.
func TestUnusedSinceTheLastLock(t *testing.T) {
	c := resting(t, time.Now())
	l := c.holdsFor(t, 16*time.Second)
	c.unused = time.Now().Add(-time.Hour)
	if c.giveNumberBack(time.Now()); c.givesBack {
		t.Fatal("the number of a lock is given back")
	}
	l.held, l.shown.Phase = nil, qlock.Idle
	c.pump(l)
	if c.giveNumberBack(time.Now()); c.givesBack || len(c.busy)+c.holds > 0 {
		t.Errorf("it gives its number back at once, %d locks are busy, and %d held", len(c.busy), c.holds)
	}
}

// What waits for a session is taken in its turn by the loop, calls also if the session ends meanwhile. One that ended takes no turn.
func TestLoopTakesTurns(t *testing.T) {
	c, _ := inBundles(t)
	ended := 0
	c.atEnd = func() { ended++ }
	l := newLoop()
	l.goes = true // the test takes its turns
	c.box.put(c.word(0, ". taken 3 5\n"))
	if l.adds(c.Client); len(l.grown) != 1 {
		t.Error("what came while it was opened waits")
	}
	takes := func(want int) {
		t.Helper()
		sessions := l.listed()
		if len(sessions) != want {
			t.Errorf("something waits for %d sessions, not %d", len(sessions), want)
		}
		for _, one := range sessions {
			l.turn(one, one.takesWaiting)
		}
	}
	if takes(1); c.takers() != 1 {
		t.Errorf("taken by %b", c.takers())
	}
	first, _ := c.box.asks(func() error { return errLong })
	second, _ := c.box.asks(func() error { c.end(ErrLost); return nil })
	third, _ := c.box.asks(func() error { return nil })
	l.list(c.Client) // as if it were noted again by then
	takes(2)
	for i, one := range []struct {
		done <-chan error
		want error
	}{{first, errLong}, {second, nil}, {third, ErrLost}} {
		if got := <-one.done; got != one.want {
			t.Errorf("call %d: %v", i, got)
		}
	}
	if err := c.call(func() error { return nil }); err != ErrLost || ended != 1 || !isNow(c.stopped) || c.box.put(c.word(0, "")) {
		t.Errorf("a call of a session that is over: %v, ended %d times", err, ended)
	}
	if _, goesOn := l.look(time.Now(), &gaps{}); goesOn {
		t.Error("a loop without sessions goes on")
	}
}

// A call that comes while a session ends is answered.
func TestCallWhileASessionEnds(t *testing.T) {
	c, _ := inBundles(t)
	c.atEnd = func() {}
	l := newLoop()
	l.goes = true
	l.adds(c.Client)
	var late <-chan error
	l.turn(c.Client, func() {
		c.takesWaiting()
		c.end(ErrRetired)
		late, _ = c.box.asks(func() error { return nil })
	})
	select {
	case err := <-late:
		if err != ErrRetired {
			t.Error(err)
		}
	case <-time.After(time.Second):
		t.Error("it waits for ever")
	}
}

// A loop takes only the sessions of which time asks something, and all of them after a gap.
func TestLoopLooksAtWhatIsDue(t *testing.T) {
	l, now, clock := newLoop(), time.Now(), gaps{}
	l.goes = true
	for i := 0; i < 3; i++ {
		c, _ := inBundles(t)
		l.adds(c.Client)
		l.members[i].due = now.Add(time.Duration(i) * time.Second)
	}
	for _, one := range []struct {
		back uint64
		want int
	}{{0, 1}, {0, 1}, {1, 3}, {0, 1}} {
		clock.back += one.back
		if sessions, _ := l.look(now, &clock); len(sessions) != one.want || l.hasGap != (one.back > 0) {
			t.Errorf("it looks at %d sessions, not %d; a gap: %v", len(sessions), one.want, l.hasGap)
		}
	}
	for _, one := range []struct{ due, want time.Duration }{
		{0, pause}, {pause / 2, pause}, {3 * pause, 3 * pause}, {time.Hour, restsFor * pause},
	} {
		l.next = now.Add(one.due)
		if got := l.nextLook(now).Sub(now); got != one.want {
			t.Errorf("something is due in %v: it looks in %v, not %v", one.due, got, one.want)
		}
	}
	if l.look(now, &clock); l.next != now.Add(time.Second) {
		t.Errorf("next after %v", l.next.Sub(now))
	}
	l.members[2].session.draining = true
	if l.turn(l.members[2].session, func() {}); l.next.After(time.Now()) {
		t.Error("what a session wants waits")
	}
}
