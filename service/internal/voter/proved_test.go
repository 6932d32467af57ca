package voter

import (
	"fmt"
	"math/rand"
	"testing"
	"time"

	"calvundek.example/service/qlock"
)

// provedOf returns the proved rows of a table, made anew from what it shows.
func provedOf(t *table) (rows qlock.Table) {
	for number, row := range t.all() {
		if _, err := row.proved(); err == nil {
			rows.Put(number, row.shown(sessionOf(row.Hash)))
		}
	}
	return rows
}

// The proved rows of a shard are those that it shows, however its rows changed, and of whichever shards a call asked for before.
func TestProvedRows(t *testing.T) {
	random, now := rand.New(rand.NewSource(1)), time.Unix(1000, 0)
	l := leasesAt(now)
	var tables []*table
	for i := 0; i < 6; i++ {
		one := newTable(&l, []int{3, 3 + mostProved, 4}[i%3], []Floor{{}, {Stamp: 7, Epochs: []uint64{0, 5, 9}}}[i%2])
		tables = append(tables, &one)
	}
	asked, refused := 0, 0
	for step := 0; step < 4000; step++ {
		table, number := tables[random.Intn(len(tables))], random.Intn(5)
		row, name := table.row(number), fmt.Sprintf("%s.%032x", []string{"jobs", "web"}[random.Intn(2)], random.Intn(3))
		switch random.Intn(8) {
		case 0:
			table.claim(number, name, row.Epoch+1, 5, now)
		case 1:
			table.end(number, table.name(number), row.Epoch)
		case 2:
			table.drop(number, table.name(number), row.Epoch)
		case 3:
			table.expel(number, false)
		case 4:
			table.learn(number, Session{Epoch: row.Epoch + 1, Base: 10, Reserved: 20, Open: true, Used: true, Hash: hashed(name)}, now)
		case 5:
			table.set(number, Session{Epoch: row.Epoch, Base: row.Base, Reserved: row.Base + uint64(random.Intn(3)) - 1, Open: true, Hash: "x"})
		default:
			if asked++; *table.rows() != provedOf(table) {
				t.Fatalf("step %d: these are not the proved rows of %+v", step, table.all())
			}
		}
		if table.rare(number).isRefused {
			refused++
		}
	}
	if asked < 500 || refused < 100 {
		t.Errorf("asked %d times, and %d rows were refused: this shows little", asked, refused)
	}
}

// Of a shard that is dropped nothing is kept beside its floor.
func TestDroppedShardIsNotProved(t *testing.T) {
	d, says := floored(t)
	says(1, 5, 1, ". claim 5 1 1000\n")
	says(1, 5, 1, ". process p\n. roll p 7\n"+lockOf(d, 1)+" request 5 0 1\n")
	says(1, 5, 1, lockOf(d, 1)+" release 5 0 1\n. close\n")
	if d.leases.proved[1] == nil || d.leases.proved[1].of != &d.shard(1).table || len(d.leases.rolls) != 2 {
		t.Fatalf("the proved rows were not asked for: %+v", d.leases.rolls)
	}
	if d.goesBy(time.Now().Add(time.Hour)); d.shards[1] != nil || d.leases.proved[1].of != nil || len(d.leases.rolls) != 1 {
		t.Errorf("%v, and %+v", d.leases.proved[1].of, d.leases.rolls)
	}
}

// A row that the proved calls refuse reads as nobody's, and no call changes it.
func TestRefusedRow(t *testing.T) {
	now := time.Unix(1000, 0)
	table := tableAt(now)
	row := Session{Epoch: 3, Base: 9, Reserved: 8, Open: true, Used: true, Hash: hashed("jobs.me")}
	table.set(5, row)
	if standing := table.judge(5, "jobs.me", 3); standing != qlock.SessionUnknown {
		t.Errorf("its session stands as %v", standing)
	}
	if table.learn(5, Session{Epoch: 4, Base: 10, Reserved: 20, Open: true, Used: true, Hash: hashed("jobs.x")}, now) || table.row(5) != row {
		t.Errorf("%+v", table.row(5))
	}
	row.Reserved = 9
	if table.set(5, row); table.judge(5, "jobs.me", 3) != qlock.SessionKnown || table.rarities != nil {
		t.Errorf("a right row stands as %v", table.judge(5, "jobs.me", 3))
	}
}

// The proved rows of a shard with 30 sessions are made.
func BenchmarkProvedRows(b *testing.B) {
	l := leasesAt(time.Unix(1000, 0))
	var tables [2]table
	for i := range tables {
		tables[i] = newTable(&l, 7, Floor{})
		for number := 0; number < 30; number++ {
			tables[i].set(number, of(fmt.Sprintf("jobs.%032x", number), 1, 0, 9))
		}
	}
	b.ResetTimer()
	for i := 0; i < b.N; i++ {
		tables[i%2].rows()
	}
}
