package voter

import (
	"bytes"
	"fmt"
	"math/rand"
	"runtime"
	"testing"
	"time"

	"calvundek.example/service/internal/moment"
	"calvundek.example/service/internal/voter/outbox"
	"calvundek.example/service/qlock"
	"github.com/prometheus/client_golang/prometheus/testutil"
)

// holds lets the session of a number have so many more votes, of locks with this name.
func holds(t testing.TB, d *Daemon, number int, name string, many int, now time.Time) {
	t.Helper()
	d.shard(0).put(number, of(fmt.Sprint("jobs.session-", number), 1, 0, qlock.MaxStamp))
	for i := 0; i < many; i++ {
		voter, err := d.newVoter()
		if err != nil {
			t.Fatal(err)
		}
		v := d.add(fmt.Sprintf("%s-%06d", name, i), voter)
		if says(d, v, number, fmt.Sprintf("request %d 0 %d", number, i+1), now); !v.isHolder(number) {
			t.Fatalf("%s: %+v", v.name, v.held())
		}
	}
}

// saves notes that all votes are saved, and that nothing leaves.
func (d *Daemon) saves() {
	d.draft, d.out, d.outBytes = outbox.Draft[*vote]{}, map[string][]byte{}, 0
}

// packsAll lets rounds pass until votes that are not used are packed, and returns the time then.
func (d *Daemon) packsAll(now time.Time) time.Time {
	for end := now.Add(3*packsAfter + time.Duration(len(d.unpacked)/mostLooked*3)*tick); now.Before(end); now = now.Add(tick) {
		d.packSome(now)
	}
	return now
}

// heap returns how many bytes are in use.
func heap() uint64 {
	var stats runtime.MemStats
	for i := 0; i < 3; i++ { // what is spare goes by the second one
		runtime.GC()
	}
	runtime.ReadMemStats(&stats)
	return stats.HeapAlloc
}

// A vote that somebody has, and nobody waits for, takes little memory.
func TestMemoryOfHeldVotes(t *testing.T) {
	d, _ := alone(t, 1<<20)
	now, many, before := time.Now(), 100_000, heap()
	holds(t, d, 1, "lock", many, now)
	d.saves()
	now = d.packsAll(now)
	bytes := int(heap()-before) / many
	t.Logf("%d bytes for each", bytes)
	if len(d.unpacked) > 0 || bytes > 245 {
		t.Errorf("%d votes are not packed, and one takes %d bytes", len(d.unpacked), bytes)
	}
	d.beQuiet(now)
	for _, v := range d.votes {
		says(d, v, 1, fmt.Sprintf("request 1 0 %d inside", v.stamp), now)
	}
	d.saves()
	d.packsAll(now)
	bytes = int(heap()-before) / many
	t.Logf("%d bytes for each in the quiet time", bytes)
	if len(d.unpacked) > 0 || bytes > 265 {
		t.Errorf("in the quiet time %d votes are not packed, and one takes %d bytes", len(d.unpacked), bytes)
	}
	runtime.KeepAlive(d)
}

// What was said since the start is packed with a vote: who said that he is inside keeps it. It is forgotten once the quiet time ended.
func TestWhatWasSaidIsPacked(t *testing.T) {
	d, _ := alone(t, 10)
	now := time.Now()
	holds(t, d, 1, "lock", 2, now)
	d.shard(0).put(2, of("jobs.session-2", 1, 0, qlock.MaxStamp))
	quietIsOver(d)
	d.shard(0).hearAll(now)
	for i := 0; i < 2; i++ {
		says(d, d.votes[fmt.Sprintf("lock-%06d", i)], 1, fmt.Sprintf("request 1 0 %d inside", i+1), now)
	}
	d.saves()
	now = d.packsAll(now)
	wanted, alone := d.votes["lock-000000"], d.votes["lock-000001"]
	if !wanted.isSaid || !alone.isSaid || len(d.unpacked) > 0 || len(d.old.all) > 0 {
		t.Fatalf("%v, %v, %d not packed, %d old", wanted.isSaid, alone.isSaid, len(d.unpacked), len(d.old.all))
	}
	says(d, wanted, 2, "request 2 0 5 inside", now)
	if wanted.extras.since == nil || wanted.isSaid || wanted.isOld || wanted.ask(2).stamp != 5 {
		t.Errorf("%+v", wanted)
	}
	saved, long := alone.saved(), len(alone.packed)
	if d.round(now); d.isQuiet() || !wanted.isHolder(1) || !alone.isHolder(1) {
		t.Errorf("quiet: %v, %+v, %+v", d.isQuiet(), wanted.held(), alone.held())
	}
	if alone.isSaid || alone.extras != nil || len(alone.packed) >= long || !bytes.Equal(alone.saved(), saved) {
		t.Errorf("%x, of %x", alone.packed, saved)
	}
}

// A voter that started has all votes packed.
func TestRestoredVotesArePacked(t *testing.T) {
	d, _ := alone(t, 100)
	holds(t, d, 1, "lock", 20, time.Now())
	if err := d.save(); err != nil {
		t.Fatal(err)
	}
	again := reopened(t, d)
	for name, v := range again.votes {
		if v.extras != nil || v.held() != d.votes[name].held() {
			t.Errorf("%s is packed: %v, %+v", name, v.extras == nil, v.held())
		}
	}
	if again.start(time.Now()); len(again.votes) != 20 || len(again.unpacked) > 0 || !again.join.done {
		t.Errorf("%d votes, %d of them not packed", len(again.votes), len(again.unpacked))
	}
	v := again.votes["lock-000003"]
	if before, err := again.proved(v).Held(); err != nil || before != v.held() {
		t.Errorf("%+v, %v", before, err)
	}
	again.shard(0).set(2, of("jobs.session-2", 1, 0, 1000))
	says(again, v, 2, "request 2 0 900", time.Now())
	if says(again, v, 1, "release 1 0 4", time.Now()); v.held().Client != 2 || v.held().Number <= again.floor {
		t.Errorf("%+v, above the floor %d", v.held(), again.floor)
	}
}

// A vote is packed once it was not used for a while, it is saved, and nobody waits for it. What it says next is as if it had not been.
func TestWhichVotesArePacked(t *testing.T) {
	d, _ := alone(t, 100)
	now := time.Now()
	holds(t, d, 1, "lock", 5, now)
	d.shard(0).set(2, of("jobs.session-2", 1, 0, qlock.MaxStamp))
	named := func(i int) *vote { return d.votes[fmt.Sprintf("lock-%06d", i)] }
	says(d, named(1), 2, "request 2 0 7", now)
	d.saves()
	d.draft.Must(named(2))
	d.draft.May(named(3))
	state := append([]byte(nil), named(0).saved()...)
	for end := now.Add(10 * packsAfter); now.Before(end); now = now.Add(tick) {
		d.proved(named(4))
		if d.packSome(now); named(4).extra().voter == nil {
			t.Fatal("a vote is packed that is used all the time")
		}
	}
	for i, isPacked := range []bool{true, false, false, false, false} {
		if v := named(i); (v.extras == nil) != isPacked || (v.packed != "") != isPacked {
			t.Errorf("%s is packed: %v", v.name, v.extras == nil)
		}
	}
	if v := named(0); !bytes.Equal(v.saved(), state) || !v.isHolder(1) || v.ask(1).stamp != 1 {
		t.Errorf("%x was %x, %+v", v.saved(), state, v.ask(1))
	}
	d.saves()
	says(d, named(1), 1, "release 1 0 2", now) // nobody waits for it any more
	d.saves()
	if now = d.packsAll(now); len(d.unpacked) > 0 {
		t.Errorf("%d votes are not packed", len(d.unpacked))
	}
	for i := 0; i < 5; i++ {
		v, held := named(i), named(i).held()
		says(d, v, int(held.Client), fmt.Sprintf("release %d 0 %d", held.Client, held.Stamp), now)
		if shown, err := v.extras.voter.Held(); err != nil || shown.Number > 0 || v.held().Number > 0 || v.isBusy() {
			t.Errorf("%s: %+v, %v, %v", v.name, shown, v.held(), err)
		}
	}
	if len(d.unpacked) != 5 {
		t.Errorf("%d votes are used", len(d.unpacked))
	}
}

// A pass hands out all votes that stay, whatever comes and goes between its shares, and each share so many at most.
func TestPassesMissNothing(t *testing.T) {
	random := rand.New(rand.NewSource(1))
	for n := 0; n < 500; n++ {
		var list voteList
		var all []*vote
		for i := random.Intn(60); i > 0; i-- {
			v := &vote{}
			list.add(v, inBusy)
			all = append(all, v)
		}
		var p pass
		seen, most := map[*vote]bool{}, 1+random.Intn(9)
		for isEnd, shares := false, 0; !isEnd; shares++ {
			if shares > 100 {
				t.Fatal("it does not end")
			}
			count := 0
			isEnd = p.share(&list, most, func(v *vote) {
				count++
				if seen[v] = true; random.Intn(3) == 0 {
					list.remove(v, inBusy)
				}
			})
			if count > most {
				t.Fatalf("%d in a share of %d", count, most)
			}
			for i := random.Intn(4); i > 0 && len(list.all) > 0; i-- {
				list.remove(list.all[random.Intn(len(list.all))], inBusy)
			}
			if random.Intn(3) == 0 {
				list.add(&vote{}, inBusy)
			}
		}
		for _, v := range all {
			if v.places[inBusy] > 0 && (!seen[v] || list.all[v.places[inBusy]-1] != v) {
				t.Fatalf("run %d: a vote is missed, or its place is wrong", n)
			}
		}
	}
}

// With many votes each round looks at all that somebody waits for, and at a share of the others. The grant that lasts longest is shown
// once all were looked at.
func TestRoundsLookAtShares(t *testing.T) {
	d, _ := alone(t, 1<<20)
	now, many := time.Now(), 2*mostLooked+100
	holds(t, d, 1, "lock", many, now.Add(-time.Hour))
	oldest := d.votes["lock-000000"]
	oldest.granted -= 3600e9
	d.shard(0).set(2, of("jobs.session-2", 1, 0, qlock.MaxStamp))
	wanted := d.votes["lock-000007"]
	for round := 1; round <= 6; round++ {
		if d.lookAround(now); d.m.lasting.age(now) > 7000 != (round >= 3) {
			t.Errorf("after %d rounds one is held for %v seconds", round, d.m.lasting.age(now))
		}
	}
	says(d, wanted, 2, "request 2 0 90000", now)
	d.saves()
	d.shard(0).set(1, Session{Reserved: qlock.MaxStamp}) // it has left
	for round := 1; round <= 3; round++ {
		d.lookAround(now)
		left := 0
		for _, v := range d.votes {
			if v.isHolder(1) {
				left++
			}
		}
		if want := many - 1 - round*mostLooked; want > 0 && left != want || want <= 0 && left > 0 || !wanted.isHolder(2) {
			t.Errorf("after %d rounds: %d votes are left, and %+v", round, left, wanted.held())
		}
	}
	if d.measure(now); testutil.ToFloat64(d.m.held) != 1 || d.m.lasting.age(now) > 1 {
		t.Errorf("%v are held, one for %v seconds", testutil.ToFloat64(d.m.held), d.m.lasting.age(now))
	}
}

// The quiet time ends once all grants of before the start went, a share of them in each round. Who says meanwhile that he is inside keeps
// his.
func TestQuietTimeEndsInShares(t *testing.T) {
	d, _ := alone(t, 1<<20)
	holds(t, d, 1, "lock", mostLooked+100, time.Now())
	d.saves()
	now := d.packsAll(time.Now())
	quietIsOver(d)
	if len(d.old.all) != mostLooked+100 || len(d.unpacked) > 0 {
		t.Fatalf("%d are old, %d are not packed", len(d.old.all), len(d.unpacked))
	}
	if d.round(now); len(d.old.all) != 100 || !d.isQuiet() {
		t.Errorf("%d are left, quiet: %v", len(d.old.all), d.isQuiet())
	}
	kept := d.old.all[17]
	d.repliesTo("jobs", 1, fmt.Sprintf("%s request 1 0 %d inside\n", kept.name, kept.held().Stamp))
	if d.round(now); len(d.busy.all) != 1 || !kept.isHolder(1) || d.isQuiet() || kept.extras.since != nil {
		t.Errorf("%d are busy, %+v, quiet: %v", len(d.busy.all), kept.held(), d.isQuiet())
	}
}

// What few votes have stays while they are packed, as long as something depends on it. Then it takes no memory any more.
func TestWhatFewVotesHave(t *testing.T) {
	passesOn := func(d *Daemon, _ *vote, _ time.Time) {
		d.repliesTo("jobs", 2, "orders request 2 0 6\n")
		d.repliesTo("jobs", 1, "orders release 1 0 5\n")
	}
	for name, one := range map[string]struct {
		gets func(d *Daemon, v *vote, now time.Time)
		has  func(d *Daemon, v *vote, now time.Time) bool
		ends func(d *Daemon, v *vote, now time.Time)
	}{
		"a note": {
			func(d *Daemon, v *vote, now time.Time) { d.repliesTo("jobs", 1, ". about orders 5 mine\n") },
			func(d *Daemon, v *vote, now time.Time) bool { return v.noteOfAsk(1) == "mine" },
			passesOn,
		},
		"a turn": {
			func(d *Daemon, v *vote, now time.Time) {
				d.turned(t, 1, fmt.Sprintf(". turn orders 5 %d %d\n", v.number, v.number))
			},
			func(d *Daemon, v *vote, now time.Time) bool {
				return bytes.Contains(d.appendHolder(nil, 7, "orders", now), []byte("skipped"))
			},
			passesOn,
		},
		"numbers that were skipped": {
			func(d *Daemon, v *vote, now time.Time) { v.extras.skipped = v.number + 40 },
			func(d *Daemon, v *vote, now time.Time) bool { return d.highestOf(v) == v.number+40 },
			func(d *Daemon, v *vote, now time.Time) { v.number += 40; d.tidy(v, now) },
		},
		"no grant left": {
			func(d *Daemon, v *vote, now time.Time) { v.extras.isSpent = true },
			func(d *Daemon, v *vote, now time.Time) bool { return v.extra().isSpent },
			func(d *Daemon, v *vote, now time.Time) { v.extras.isSpent = false; d.tidy(v, now) },
		},
		"a line that came while it rested": {
			func(d *Daemon, v *vote, now time.Time) { d.rest(v, now) },
			func(d *Daemon, v *vote, now time.Time) bool { return v.extra().heard != moment.Never },
			func(d *Daemon, v *vote, now time.Time) { d.forget(now.Add(d.restsFor)) },
		},
		"a grant that was let go": {
			func(d *Daemon, v *vote, now time.Time) { v.extras.letGo = moment.Of(now.Add(time.Minute)) },
			func(d *Daemon, v *vote, now time.Time) bool { return v.extra().letGo != moment.Never },
			func(d *Daemon, v *vote, now time.Time) { d.tidy(v, now.Add(time.Minute+d.leases.ttl)) },
		},
	} {
		d, now := sessions(t, 1, 2), time.Now()
		d.repliesTo("jobs", 1, "orders request 1 0 5\n")
		v := d.votes["orders"]
		d.saves()
		if one.gets(d, v, now); !one.has(d, v, now) {
			t.Fatalf("there never is %s", name)
		}
		d.saves()
		now = d.packsAll(now)
		if v.packed == "" || v.extras == nil || !one.has(d, v, now) {
			t.Errorf("packed: %v, and %s is lost", v.packed != "", name)
		}
		one.ends(d, v, now)
		d.saves()
		if d.packsAll(now); v.packed == "" || v.extras != nil {
			t.Errorf("packed: %v, and %s stays: %+v", v.packed != "", name, v.extras)
		}
	}
}

// A round of a voter with many votes that are held, and nobody waits for.
func BenchmarkRound(b *testing.B) {
	d, _ := alone(b, 1<<20)
	d.own.First.Duration = longestReminder
	now := time.Now()
	holds(b, d, 1, "lock", 600_000, now)
	d.saves()
	now = d.packsAll(now)
	b.ResetTimer()
	for i := 0; i < b.N; i++ {
		d.round(now)
		d.saves()
		now = now.Add(tick)
	}
}

// A start of a voter with many votes that are held.
func BenchmarkStart(b *testing.B) {
	d, _ := alone(b, 1<<20)
	for i := 0; i < 100; i++ {
		holds(b, d, 1, fmt.Sprint("lock-", i), 1000, time.Now())
		if err := d.save(); err != nil {
			b.Fatal(err)
		}
	}
	b.ResetTimer()
	for i := 0; i < b.N; i++ {
		b.StopTimer()
		d.votes, d.busy, d.shards, d.inTurn = map[string]*vote{}, voteList{}, nil, nil
		runtime.GC()
		b.StartTimer()
		if err := d.load(time.Now()); err != nil {
			b.Fatal(err)
		}
		d.raiseAll()
	}
}
