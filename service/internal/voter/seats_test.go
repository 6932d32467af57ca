package voter

import (
	"errors"
	"fmt"
	"io"
	"math/bits"
	"math/rand"
	"reflect"
	"runtime"
	"strings"
	"testing"
	"time"
	"unsafe"

	"calvundek.example/service/internal/config"
	"calvundek.example/service/internal/event"
	"calvundek.example/service/internal/level"
	"calvundek.example/service/internal/voter/outbox"
	"calvundek.example/service/internal/wire"
	"calvundek.example/service/qlock"
	"calvundek.example/service/transport"
	"github.com/prometheus/client_golang/prometheus/testutil"
)

// What is kept takes so many bytes at most: of a shard without a session, and of a session that rests, with its part of the shard and of the
// roll of its process.
const (
	mostOfShard   = 300
	mostOfSession = 145
)

// settles takes out what is to leave, and what is to be saved.
func (d *Daemon) settles() {
	d.leases.saved()
	d.out, d.outBytes, d.draft = map[string][]byte{}, 0, outbox.Draft[*vote]{}
}

// ofShard says something in the place of a session of a shard with names as long as real ones.
func (d *Daemon) ofShard(shard, number int, epoch uint64, lines string) {
	nonce := fmt.Sprintf("%016x%016x", shard, number)
	h := wire.Header{Cluster: "test", Coterie: d.mark, Kind: wire.FromClient, Number: number, Epoch: epoch, Reserved: 1000, Level: level.Newest,
		Name: d.cluster.SessionName(shard, nonce)}
	d.sort(transport.Message{Mailbox: wire.VoterBox("test", 0, "jobs"), Data: append(h.Append(nil), lines...)})
	d.takeAll()
}

// ofProcess is how many sessions a process has in these tests.
const ofProcess = 100

// rests lets sessions have numbers of all shards but the first one, say all of themselves that real ones say, and rest.
func (d *Daemon) rests(shards, numbers int) (processes []string) {
	for i, count := 0, (shards-1)*numbers; i < count; i++ {
		shard, number, process := 1+i%(shards-1), i/(shards-1), fmt.Sprintf("%032x", 1<<60+i/ofProcess)
		d.ofShard(shard, number, 0, fmt.Sprintf(". hello\n. claim %d 1 64\n", number))
		d.ofShard(shard, number, 1, ". open 0\n. note a-machine 12345 a-user "+process[:8]+"\n. process "+process+"\n")
		d.ofShard(shard, number, 1, fmt.Sprintf(". open 0\n. roll %s %d\n", process, i%ofProcess))
		if i%ofProcess == 0 {
			processes = append(processes, process)
		}
		if i%ofProcess == ofProcess-1 {
			d.settles()
		}
	}
	d.settles()
	return processes
}

// beatOfAll returns the lines of a beat for all sessions on the roll of a process.
func (d *Daemon) beatOfAll(process string) (lines string) {
	r := d.leases.rolls[wire.SessionName("jobs", process)]
	for first := 0; first < ofProcess; first += wire.RollShare {
		entries := map[int]uint64{}
		for place := 0; place < wire.RollShare; place++ {
			if key := r.at(first + place); key >= 0 {
				s, number := d.shardOfKey(key)
				entries[place] = s.seat(number).entry
			}
		}
		ask := beatFor(entries)
		ask.Place = first
		lines += string(ask.Append(nil))
	}
	return lines
}

// A shard takes little memory, and so does a session of it that has a number and beats: what few need is there once it is used, and who
// waited, and does so no more, takes none.
func TestMemoryOfShards(t *testing.T) {
	const shards, numbers = 101, 30
	d, _ := sharded(t, shards)
	d.settles()
	before := int(heap())
	for shard := 1; shard < shards; shard++ {
		d.shard(shard)
	}
	if each := (int(heap()) - before) / (shards - 1); each > mostOfShard {
		t.Errorf("a shard takes %d bytes", each)
	} else {
		t.Logf("a shard takes %d bytes", each)
	}
	for _, process := range d.rests(shards, numbers) {
		if reply := d.beats("jobs", process, d.beatOfAll(process)); strings.Count(reply, ". beaten ") != 2 {
			t.Fatalf("a process hears %q", reply)
		}
	}
	d.settles()
	if each := (int(heap()) - before) / (shards - 1) / numbers; each > mostOfSession {
		t.Errorf("a session takes %d bytes", each)
	} else {
		t.Logf("a session takes %d bytes", each)
	}
	runtime.KeepAlive(d)
}

// Who only asks makes no seat of a number, and whoever looks makes none.
func TestNobodyMakesASeatByAQuestion(t *testing.T) {
	d, says := floored(t)
	d.floors[1] = Floor{Stamp: 50, Epochs: []uint64{3}}
	s := d.shard(1)
	says(1, 5, 0, ". hello\n. for "+lockOf(d, 1)+"\n. who 1 x\n")
	says(1, 5, 4, ". open 0\n"+lockOf(d, 1)+" request 5 0 70\n")
	says(1, 5, 3, ". claim 5 0 10\n. drop 5 1\n. close\n")
	for number := 0; number < qlock.MaxClients; number++ {
		s.isOver(number, 7)
		s.noteOf(number)
		if row := s.row(number); row != d.floors[1].row(number) || s.name(number) != "" || s.isBrought(number) {
			t.Errorf("number %d has %+v", number, row)
		}
	}
	s.states()
	s.census()
	s.isUnused()
	s.highest()
	s.lapses("jobs.x")
	d.knows(0, nil)
	d.status(time.Now())
	d.learnFloor(1, d.floors[1], time.Now())
	d.leases.hearAll(time.Now())
	s.silent(3)
	if s.seats.which != 0 || s.rarities != nil {
		t.Errorf("%v", s.seats)
	}
	if says(1, 5, 4, ". claim 5 4 10\n"); s.seats.at(5) == nil || s.row(5).Epoch != 4 || s.row(5).Base < 50 {
		t.Errorf("who claims the number has %+v", s.row(5))
	}
}

// The name of a session is in memory once, however often it speaks, and what sessions of one process say is there once for all of them.
func TestNameIsKeptOnce(t *testing.T) {
	d := claimed(t, 2)
	at := func(text string) uintptr { return (*reflect.StringHeader)(unsafe.Pointer(&text)).Data }
	s := d.shard(0)
	name := s.name(1)
	for number := 1; number <= 2; number++ {
		for _, lines := range []string{". open 0\n", ". note m 1 r a\n. process p\n", fmt.Sprintf(". roll p %d\n", number), ". open 0\n"} {
			d.repliesTo("jobs", number, lines)
		}
		if s.rare(number) != (rarities{name: s.name(number)}) || s.noteOf(number) != "m 1 r a" || s.saidProcess(number) != "p" {
			t.Errorf("%+v, %+v", s.seat(number), s.rare(number))
		}
	}
	if name != "jobs.session-1" || at(s.name(1)) != at(name) || s.seat(1).roll != s.seat(2).roll || len(d.leases.rolls) != 2 {
		t.Errorf("%q, and %+v", s.name(1), d.leases.rolls)
	}
}

// The queue of a shard goes once nobody waits, and nobody did a moment ago. One that knows something else than a new one stays.
func TestQueueGoes(t *testing.T) {
	now, ttl := time.Unix(1000, 0), time.Second
	for what, one := range map[string]struct {
		queue  numberQueue
		isIdle bool
	}{
		"a new one":                     {numberQueue{}, true},
		"turns":                         {numberQueue{turn: 7, hot: "x"}, true},
		"somebody waits":                {numberQueue{all: []queued{{session: "a"}}}, false},
		"numbers are short":             {numberQueue{short: now.Add(-ttl / 2)}, false},
		"they were":                     {numberQueue{short: now.Add(-ttl/2 - 1)}, true},
		"all were told":                 {numberQueue{told: now.Add(-ttl/64 + 1)}, false},
		"they were told a while ago":    {numberQueue{told: now.Add(-ttl / 64)}, true},
		"the first ones may claim some": {numberQueue{unclaimed: now.Add(-time.Hour)}, false},
	} {
		s := &shard{table: *tableAt(now)}
		queue := one.queue
		if s.waiting = &queue; s.ttl != ttl {
			t.Fatal(s.ttl)
		}
		if s.tidy(now); (s.waiting == nil) != one.isIdle {
			t.Errorf("%s: the queue is there: %v", what, s.waiting != nil)
		}
	}
	d := sessions(t, 1)
	d.repliesTo("jobs", 2, ". hello\n. claim 2 1 64\n")
	isThere := d.shard(0).waiting != nil
	if d.repliesTo("jobs", 2, ". open 0\n"); !isThere || d.shard(0).waiting != nil {
		t.Errorf("who has a number waits: %v, %+v", isThere, d.shard(0).waiting)
	}
	d.repliesTo("jobs", 3, ". hello\n. claim 3 1 64\n")
	d.shard(0).waiting.all = nil
	if d.measure(time.Now()); d.shard(0).waiting != nil {
		t.Error("a queue stays that nobody asks for")
	}
}

// What is shown of all shards is as they were counted last, also after some were dropped.
func TestCensus(t *testing.T) {
	d, says := floored(t)
	shows := func(sessions, free int) {
		t.Helper()
		for i := 0; i <= len(d.inTurn); i++ {
			d.measure(time.Now())
		}
		if got := [2]float64{testutil.ToFloat64(d.m.sessions), testutil.ToFloat64(d.m.numbers)}; got != [2]float64{float64(sessions), float64(free)} {
			t.Errorf("%v are shown, and not %d and %d", got, sessions, free)
		}
	}
	shows(1, 63)
	for number := 0; number < 5; number++ {
		says(1, number, 1, fmt.Sprintf(". claim %d 1 10\n", number))
	}
	says(2, 7, 1, ". claim 7 1 10\n")
	shows(7, 59)
	says(1, 0, 1, ". close\n")
	shows(6, 60)
	d.goesBy(time.Now().Add(2 * longestSilent))
	if d.shards[1] != nil || len(d.inTurn) > 1 {
		t.Fatal("a shard is not dropped")
	}
	shows(0, 64)
}

// Which sessions may have requests of an older plan is known without a look at each: it is as if each were looked at, whatever they say, and
// however numbers change hands.
func TestWhoIsBehind(t *testing.T) {
	random, now, seen := rand.New(rand.NewSource(1)), time.Unix(1000, 0), 0
	for world := 0; world < 100; world++ {
		table, newest := tableAt(now), uint64(random.Intn(2))
		for step := 0; step < 200; step++ {
			number := random.Intn(6)
			epoch, name := table.row(number).Epoch+1, fmt.Sprint("jobs.", random.Intn(3))
			switch random.Intn(8) {
			case 0:
				table.claim(number, name, epoch, 1, now)
			case 1:
				table.end(number, table.name(number), epoch-1)
			case 2:
				table.drop(number, table.name(number), epoch-1)
			case 3:
				table.expel(number, false)
			case 4:
				table.learn(number, Session{Epoch: epoch, Base: 10, Reserved: 20, Open: random.Intn(3) > 0, Used: true, Hash: hashed(name)}, now)
			case 5:
				if random.Intn(10) == 0 {
					newest++
				}
			default:
				table.asks(number, uint64(random.Intn(int(newest)+1)), newest)
			}
			want := uint64(0)
			table.seats.each(func(number int, seat *seat) {
				if (seat.marks.has(isOpen) || table.rare(number).byWord) && uint64(seat.asksBy) < newest {
					want |= 1 << number
				}
			})
			if got := table.behindOf(newest); got != want {
				t.Fatalf("%b are behind plan %d, and not %b", got, newest, want)
			}
			seen += bits.OnesCount64(want)
		}
	}
	if seen < 1000 {
		t.Errorf("%d sessions were behind: these runs show little", seen)
	}
}

// Where very many sessions have requests of the old plan, some are named.
func TestManyAreBehind(t *testing.T) {
	d, _ := sharded(t, 16)
	before := d.plans.Now
	d.plans.Number, d.plans.Old = 1, &before
	d.join.done = false // else others have to keep its ceiling
	for shard := 1; shard < 16; shard++ {
		for number := 0; number < 60; number++ {
			d.shard(shard).set(number, Session{Epoch: 1, Base: 1, Reserved: 2, Open: true, Used: true, Hash: "jobs.x"})
		}
	}
	d.leases.hearAll(time.Now())
	_, err := d.isReady(1, d.plans.mark())
	if named := strings.Count(fmt.Sprint(err), "/"); !errors.Is(err, ErrLag) || named < mostNamed || named > 2*mostNamed {
		t.Errorf("%d are named: %v", named, err)
	}
	for shard := 0; shard < 16; shard++ {
		for number := 0; number < 60; number++ {
			d.shard(shard).asks(number, 1, 1)
		}
	}
	if _, err := d.isReady(1, d.plans.mark()); err != nil {
		t.Errorf("all know the new plan: %v", err)
	}
}

// nowhere is where messages go that nobody wants.
type nowhere struct{ post }

func (*nowhere) Send(string, []byte) error { return nil }

// measured returns a voter that serves, and saves nothing.
func measured(now time.Time, shards int) *Daemon {
	d := &Daemon{cluster: &config.Cluster{ID: "test", Shards: shards}, own: &config.Voter{MaxLocks: 10}, store: &store{}, ceiling: qlock.MaxStamp,
		m: newMetrics(), votes: map[string]*vote{}, users: map[string]*usage{},
		out: map[string][]byte{}, leases: leasesAt(now), sender: outbox.NewSender(&nowhere{}), log: event.To(io.Discard), mark: "m", join: joining{done: true}, gone: map[string]struct{}{}}
	d.store.meta.Cluster, d.store.meta.Identity, d.store.own.Start = "test", identity("a"), 1
	return d
}

// A turn of the loop without a save: a session asks for one lock, and gives it back, one session after the other.
func BenchmarkTurn(b *testing.B) {
	for _, sessions := range []int{1, 60} {
		b.Run(fmt.Sprint(sessions), func(b *testing.B) {
			d := measured(time.Unix(1000, 0), 1)
			for number := 0; number < sessions; number++ {
				d.shard(0).set(number, of(fmt.Sprintf("jobs.%032x", number), 1, 0, qlock.MaxStamp))
			}
			for i := 0; i < b.N; i++ {
				number, word := i/2%sessions, "request"
				if i%2 == 1 {
					word = "release"
				}
				h := wire.Header{Cluster: "test", Coterie: "m", Kind: wire.FromClient, Number: number, Epoch: 1, Name: fmt.Sprintf("%032x", number)}
				message := fmt.Appendf(h.Append(nil), "an-ordinary-lock %s %d 0 %d\n", word, number, i/2+1)
				if d.Take(Clients, transport.Message{Mailbox: wire.VoterBox("test", 0, "jobs"), Data: message}); len(d.out) != (i+1)%2 {
					b.Fatalf("%d: %q", i, d.out)
				}
				d.deliver()
				d.draft = outbox.Draft[*vote]{}
			}
		})
	}
}

// What a voter does from time to time, with 65,536 shards and 983,040 sessions.
func BenchmarkManyShards(b *testing.B) {
	now := time.Unix(1000, 0)
	d := measured(now, 1<<16)
	d.around.Now = func() time.Time { return now }
	row := Session{Epoch: 3, Base: 10, Reserved: 20, Open: true, Used: true, Hash: hashed("jobs.x")}
	for shard := 0; shard < d.cluster.Shards; shard++ {
		for number := 0; number < 15; number++ {
			d.shard(shard).put(number, row)
		}
		d.leases.saved()
	}
	d.plans.Now, d.plans.Old, d.join.done = Texts{}, &Texts{}, false
	runtime.GC()
	for _, one := range []struct {
		name string
		does func()
	}{
		{"marker", func() { d.isMarker(d.markerLine(d.leases.clock.Send(now.Sub(d.leases.began)))) }},
		{"measure", func() { d.measure(now) }},
		{"unused", func() { d.dropUnused(now) }},
		{"knows", func() { d.knows(1<<20, nil) }},
		{"ready", func() { _, _ = d.isReady(0, d.plans.mark()) }},
	} {
		b.Run(one.name, func(b *testing.B) {
			for i := 0; i < b.N; i++ {
				now = now.Add(200 * time.Millisecond)
				one.does()
			}
		})
	}
}
