package voter

import (
	"fmt"
	"io"
	"math"
	"math/rand"
	"os"
	"path/filepath"
	"runtime"
	"sort"
	"strconv"
	"syscall"
	"testing"
	"time"

	"calvundek.example/service/internal/config"
	"calvundek.example/service/internal/event"
	"calvundek.example/service/internal/level"
	"calvundek.example/service/internal/wire"
	"calvundek.example/service/qlock"
	"calvundek.example/service/transport"
)

// throng are very many sessions, each with a number in the shard of its lock, at a voter without others.
type throng struct {
	own      *config.Voter
	cluster  *config.Cluster
	d        *Daemon
	used     map[int]int // numbers of each shard
	sessions int
	locks    int // the first ones of so many in seven sessions ask this voter for its vote
	now      time.Time
}

// member is a session of a throng.
type member struct {
	shard, number int
	lock          string
}

// newThrong makes a voter of a cluster with so many shards, whose state is a file.
func newThrong(tb testing.TB, shards, locks int) *throng {
	tb.Helper()
	plan := texts(tb, "voters = [\"a\"]\nquorums = [[\"a\"]]\n")
	cluster := &config.Cluster{ID: "test", Servers: []string{"none"}, TTL: config.Duration{Duration: 10 * time.Second},
		Coterie: plan.Coterie, Plan: plan.Plan, Shards: shards}
	if err := cluster.Check(); err != nil {
		tb.Fatal(err)
	}
	second := config.Duration{Duration: time.Second}
	c := &throng{cluster: cluster, used: map[int]int{}, locks: locks, now: time.Unix(1000, 0)}
	c.own = &config.Voter{Voter: "a", Data: filepath.Join(folderOf(tb), "a"), MaxLocks: 1 << 21, First: second, Most: second}
	if _, err := Init(c.own, cluster); err != nil {
		tb.Fatal(err)
	}
	c.open(tb)
	return c
}

// folderOf returns a new folder, in memory where there is such a file system.
func folderOf(tb testing.TB) string {
	folder, err := os.MkdirTemp("/dev/shm", "qlock-large-")
	if err != nil {
		return tb.TempDir()
	}
	tb.Cleanup(func() { os.RemoveAll(folder) })
	return folder
}

// open opens the state.
func (c *throng) open(tb testing.TB) {
	tb.Helper()
	d, err := Open(c.own, c.cluster, &nowhere{}, event.To(io.Discard))
	if err != nil {
		tb.Fatal(err)
	}
	if d.start(time.Now()); !d.join.done {
		tb.Fatal("it waits for nobody")
	}
	c.d = d
}

// joins lets more sessions take a number, and some of them a lock, so many at once.
func (c *throng) joins(tb testing.TB, sessions, atOnce int) {
	tb.Helper()
	for end := c.sessions + sessions; c.sessions < end; {
		var some []member
		for ; len(some) < atOnce && c.sessions < end; c.sessions++ {
			lock := fmt.Sprintf("held-%d-%d", c.sessions/100, c.sessions%100)
			shard := c.cluster.ShardOfLock(lock)
			if number := c.used[shard]; number < qlock.MaxClients {
				c.used[shard]++
				if c.sessions%7 >= c.locks {
					lock = ""
				}
				some = append(some, member{shard, number, lock})
			}
		}
		c.say(tb, some, func(one member) (uint64, string) { return 0, fmt.Sprintf(". claim %d 1 64\n", one.number) })
		c.say(tb, some, func(one member) (uint64, string) {
			if one.lock == "" {
				return 1, ". open 0\n"
			}
			return 1, fmt.Sprintf(". open 0\n%s request %d 0 1\n", one.lock, one.number)
		})
	}
}

// say lets sessions say something in one batch, and saves what comes of it.
func (c *throng) say(tb testing.TB, some []member, says func(member) (epoch uint64, lines string)) {
	tb.Helper()
	d := c.d
	for _, one := range some {
		epoch, lines := says(one)
		name := c.cluster.SessionName(one.shard, fmt.Sprintf("%016x%016x", one.shard, one.number))
		h := wire.Header{Cluster: "test", Coterie: d.mark, Kind: wire.FromClient, Level: level.Newest, Name: name}
		if epoch > 0 {
			h.Number, h.Epoch, h.Reserved = one.number, epoch, 64
		}
		d.sort(transport.Message{Mailbox: wire.VoterBox("test", 0, "jobs"), Data: append(h.Append(nil), lines...)})
	}
	for d.inbox.count > 0 {
		d.work()
	}
	if _, err := d.Turn(); err != nil {
		tb.Fatal(err)
	}
}

// processor returns how long this process used processors.
func processor() time.Duration {
	var usage syscall.Rusage
	if syscall.Getrusage(syscall.RUSAGE_SELF, &usage) != nil {
		return 0
	}
	return time.Duration(usage.Utime.Nano() + usage.Stime.Nano())
}

// measureStep reports what a step takes of processors, the least of all runs, and of memory.
func measureStep(b *testing.B, name string, rows int, step func(b *testing.B)) {
	b.Run(name, func(b *testing.B) {
		var before, after runtime.MemStats
		least := time.Duration(math.MaxInt64)
		for i := 0; i < b.N; i++ {
			b.StopTimer()
			runtime.GC()
			runtime.ReadMemStats(&before)
			began := processor()
			b.StartTimer()
			step(b)
			b.StopTimer()
			if took := processor() - began; took < least {
				least = took
			}
			runtime.ReadMemStats(&after)
			b.StartTimer()
		}
		b.ReportMetric(least.Seconds()*1e3, "cpu-ms")
		b.ReportMetric(float64(least.Nanoseconds())/float64(rows), "cpu-ns/row")
		b.ReportMetric(float64(after.TotalAlloc-before.TotalAlloc)/float64(rows), "B/row")
		b.ReportMetric(float64(after.Mallocs-before.Mallocs)/float64(rows), "allocs/row")
	})
}

// many returns how many sessions a benchmark has: 200,000, or what QLOCK_SESSIONS says.
func many(b *testing.B) int {
	if text := os.Getenv("QLOCK_SESSIONS"); text != "" {
		sessions, err := strconv.Atoi(text)
		if err != nil {
			b.Fatal(err)
		}
		return sessions
	}
	return 200_000
}

// What a start takes with very many sessions, of which four in seven have a vote.
func BenchmarkLargeStart(b *testing.B) {
	c := newThrong(b, 1<<15, 4)
	sessions := many(b)
	c.joins(b, sessions, 4096)
	rows := sessions + sessions*4/7
	b.Logf("%d votes, %d shards, %d bytes of state", len(c.d.votes), len(c.d.shards), Size(c.own.Data))
	if err := c.d.store.disk.Close(); err != nil {
		b.Fatal(err)
	}
	c.d = nil
	meta := Owner(c.own, c.cluster)
	must := func(b *testing.B, err error) {
		if err != nil {
			b.Fatal(err)
		}
	}
	measureStep(b, "check", rows, func(b *testing.B) { must(b, Check(c.own.Data)) })
	measureStep(b, "verify", rows, func(b *testing.B) { must(b, verify(file(c.own.Data))) })
	measureStep(b, "store", rows, func(b *testing.B) {
		s, err := openStore(c.own.Data, meta)
		must(b, err)
		must(b, s.disk.Close())
	})
	measureStep(b, "rows", rows, func(b *testing.B) {
		s, err := openStore(c.own.Data, meta)
		must(b, err)
		must(b, s.load(func(int, Floor) {}, func(savedSession) error { return nil }, func(savedVote) error { return nil }, func(int, Peer) {}))
		must(b, s.disk.Close())
	})
	measureStep(b, "open", rows, func(b *testing.B) {
		d, err := Open(c.own, c.cluster, &nowhere{}, event.To(io.Discard))
		must(b, err)
		must(b, d.store.disk.Close())
	})
	measureStep(b, "serve", rows, func(b *testing.B) {
		c.open(b)
		must(b, c.d.store.disk.Close())
	})
	sums := map[bool]string{false: "sums", true: "sums again"}
	c.open(b)
	for _, again := range []bool{false, true} {
		measureStep(b, sums[again], c.cluster.Shards, func(b *testing.B) {
			for _, s := range c.d.inTurn {
				if !again {
					s.isSummed = false
				}
			}
			for from := 0; from < c.cluster.Numbers(); from += mostSummed * qlock.MaxClients {
				c.d.sums(from)
			}
		})
	}
	must(b, c.d.store.disk.Close())
}

// What a save of 4,096 sessions and as many votes takes, with very many of both.
func BenchmarkLargeSave(b *testing.B) {
	const atOnce = 1 << 12
	c := newThrong(b, 1<<15, 4)
	c.joins(b, many(b), atOnce)
	d := c.d
	var all []*vote
	for _, v := range d.votes {
		all = append(all, v)
	}
	var keys []int
	for shard, used := range c.used {
		for number := 0; number < used; number++ {
			keys = append(keys, shard*qlock.MaxClients+number)
		}
	}
	sort.Ints(keys)
	random := rand.New(rand.NewSource(1))
	one := changes{votes: map[*vote]struct{}{}, sessions: map[int]Session{}}
	for i := 0; i < atOnce; i++ {
		one.votes[all[random.Intn(len(all))]] = struct{}{}
		s, number := d.shardOfKey(keys[random.Intn(len(keys))])
		one.sessions[s.key(number)] = s.row(number)
	}
	for name, some := range map[string]changes{"sessions": {sessions: one.sessions}, "votes": {votes: one.votes}} {
		measureStep(b, name, atOnce, func(b *testing.B) {
			if err := d.store.save(some); err != nil {
				b.Fatal(err)
			}
		})
	}
	if err := d.store.disk.Close(); err != nil {
		b.Fatal(err)
	}
}

// What it takes to take very many sessions, of which four in seven get a vote.
func BenchmarkLargeJoin(b *testing.B) {
	sessions := many(b)
	for _, locks := range []int{0, 4} {
		measureStep(b, fmt.Sprint(locks, " in 7 have a lock"), sessions, func(b *testing.B) {
			c := newThrong(b, 1<<15, locks)
			c.joins(b, sessions, 4096)
			b.Logf("%d bytes of state", Size(c.own.Data))
			if err := c.d.store.disk.Close(); err != nil {
				b.Fatal(err)
			}
		})
	}
}
