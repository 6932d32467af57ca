package voter

import (
	"encoding/json"
	"errors"
	"fmt"
	"math/rand"
	"reflect"
	"strings"
	"testing"
	"time"

	"calvundek.example/service/internal/config"
	"calvundek.example/service/internal/level"
	"calvundek.example/service/internal/moment"
	"calvundek.example/service/internal/operator"
	"calvundek.example/service/internal/wire"
	"calvundek.example/service/qlock"
	"calvundek.example/service/transport"
)

// floored returns a daemon of a cluster with four shards at the level of floors, and a function with which a session says something in a
// shard.
func floored(t *testing.T) (d *Daemon, says func(shard, number int, epoch uint64, lines string) (replies string)) {
	t.Helper()
	d, _ = sharded(t, 4)
	d.setLevel(level.Floors)
	return d, func(shard, number int, epoch uint64, lines string) string {
		return saysIn(d, shard, number, epoch, lines)
	}
}

func saysIn(d *Daemon, shard, number int, epoch uint64, lines string) string {
	h := wire.Header{Cluster: "test", Coterie: d.mark, Kind: wire.FromClient, Number: number, Epoch: epoch, Reserved: 1000, Level: level.Floors,
		Name: fmt.Sprintf("%d-session-%d-%d", shard, number, epoch)}
	d.sort(transport.Message{Mailbox: wire.VoterBox("test", 0, "jobs"), Data: append(h.Append(nil), lines...)})
	d.takeAll()
	session := wire.SessionName("jobs", h.Name)
	reply := string(d.out[session])
	delete(d.out, session)
	return reply
}

// goesBy lets time pass by a daemon's clocks, and lets it look at each of its shards.
func (d *Daemon) goesBy(later time.Time) {
	d.leases.clock = *qlock.NewClock(periodOf(d.leases.ttl), later.Sub(d.leases.began))
	d.forget(later)
	for range append([]*shard(nil), d.inTurn...) {
		d.dropUnused(later)
	}
}

// A shard that nobody uses takes no memory, and its rows are gone from the file. Who uses it later begins above all that was used, also
// after a restart.
func TestUnusedShardIsDropped(t *testing.T) {
	d, says := floored(t)
	lock := lockOf(d, 1)
	for epoch := uint64(1); epoch < 3; epoch++ {
		says(1, 5, epoch, fmt.Sprintf(". claim 5 %d 1000\n", epoch))
		says(1, 5, epoch, fmt.Sprintf("%s request 5 0 %d\n", lock, 1000*epoch))
		says(1, 5, epoch, fmt.Sprintf("%s release 5 0 %d\n. close\n", lock, 1000*epoch))
	}
	if reply := says(1, 6, 0, ". claim 6 1 10\n"); !strings.Contains(reply, ". claimed 6 1 ") {
		t.Fatal(reply)
	}
	says(1, 6, 0, ". drop 6 1\n")
	says(2, 7, 1, ". claim 7 1 10\n")
	says(2, 7, 1, ". open 0\n")
	before := d.shard(1).all()
	if err := d.save(); err != nil {
		t.Fatal(err)
	}
	later := time.Now().Add(48 * time.Hour)
	d.shard(2).hear(7, later) // its session is still there
	d.goesBy(later)
	if d.shards[1] != nil || d.shards[2] == nil || len(d.inTurn) != len(d.shards) {
		t.Fatalf("%d shards are there, %d in turn", len(d.shards), len(d.inTurn))
	}
	if err := d.save(); err != nil {
		t.Fatal(err)
	}
	c, err := contentOf(d.store)
	if err != nil {
		t.Fatal(err)
	}
	for key := range c.rows {
		if key/qlock.MaxClients == 1 {
			t.Errorf("row %d is still in the file", key)
		}
	}
	if floor := c.floors[1]; floor.Stamp != before[5].Reserved || len(floor.Epochs) != 7 || floor.Epochs[5] != 2 || floor.Epochs[6] != 2 {
		t.Errorf("%+v, and the rows were %+v, %+v", floor, before[5], before[6])
	}
	d = reopened(t, d)
	d.cluster.Shards = 4
	if err := d.markPlans(); err != nil {
		t.Fatal(err)
	}
	if d.shards[1] != nil {
		t.Error("the shard takes memory after a restart")
	}
	for _, one := range []struct {
		number int
		epoch  uint64
		may    bool
	}{{5, 2, false}, {6, 1, false}, {5, 3, true}, {6, 3, true}, {9, 1, true}} {
		reply := saysIn(d, 1, one.number, one.epoch, fmt.Sprintf(". claim %d %d 10\n", one.number, one.epoch))
		if isClaimed := strings.Contains(reply, ". claimed "); isClaimed != one.may {
			t.Errorf("%+v: %q", one, reply)
		}
		if row := d.shard(1).row(one.number); one.may && row.Base < before[5].Reserved {
			t.Errorf("%+v begins above %d, and %d was reserved", one, row.Base, before[5].Reserved)
		}
	}
}

// A shard stays as it is while somebody may use it.
func TestUsedShardStays(t *testing.T) {
	for what, uses := range map[string]func(d *Daemon, s *shard, later *time.Time){
		"nothing": func(d *Daemon, s *shard, later *time.Time) {},
		"a session is open, which was silent for less than a day": func(d *Daemon, s *shard, later *time.Time) {
			claimAt(&s.table, 8, "jobs.1-x", 9, *later)
			*later = later.Add(longestSilent / 2)
		},
		"an epoch may be claimed again": func(d *Daemon, s *shard, later *time.Time) {
			claimAt(&s.table, 8, "jobs.1-x", 9, *later)
			s.drop(8, "jobs.1-x", 9)
		},
		"an operator ended a session that may work": func(d *Daemon, s *shard, later *time.Time) {
			claimAt(&s.table, 8, "jobs.1-x", 9, *later)
			s.expel(8, false)
		},
		"a lock is known":        func(d *Daemon, s *shard, later *time.Time) { d.keep(d.newVote(lockOf(d, 1))) },
		"a message came":         func(d *Daemon, s *shard, later *time.Time) { s.used = moment.Of(later.Add(-d.restsFor)) },
		"a message waits":        func(d *Daemon, s *shard, later *time.Time) { d.inbox.put(3, &letter{shard: s}) },
		"the voter is quiet":     func(d *Daemon, s *shard, later *time.Time) { d.leases.quiet = quiet{is: true} },
		"the level is too low":   func(d *Daemon, s *shard, later *time.Time) { d.store.own.Level = level.Floors - 1 },
		"no later epoch is left": func(d *Daemon, s *shard, later *time.Time) { s.set(8, Session{Epoch: 1<<64 - 1, Dropped: true}) },
	} {
		d, says := floored(t)
		says(1, 5, 1, ". claim 5 1 1000\n")
		says(1, 5, 1, ". close\n")
		s, later := d.shard(1), time.Now().Add(time.Hour)
		passes(&s.table, later)
		uses(d, s, &later)
		if d.goesBy(later); (d.shards[1] == nil) != (what == "nothing") {
			t.Errorf("%s: the shard is there: %v", what, d.shards[1] != nil)
		}
	}
}

// A session that was silent for a day ends with its shard, and its stamps are below the floor.
func TestSilentSessionEndsWithItsShard(t *testing.T) {
	d, says := floored(t)
	says(1, 5, 4, ". claim 5 4 1000\n")
	says(1, 5, 4, ". open 0\n")
	reserved := d.shard(1).row(5).Reserved
	d.goesBy(time.Now().Add(longestSilent + time.Minute))
	if floor := d.floors[1]; d.shards[1] != nil || floor.Stamp != reserved || floor.row(5).Epoch != 4 {
		t.Fatalf("the shard is there: %v, %+v", d.shards[1] != nil, floor)
	}
	if reply := says(1, 5, 4, ". open 0\n"); !strings.Contains(reply, ". taken 5 4") {
		t.Errorf("it comes back: %q", reply)
	}
}

// What is dropped and used again before it is saved is saved as it is then.
func TestShardComesBackBeforeTheSave(t *testing.T) {
	d, says := floored(t)
	says(1, 5, 1, ". claim 5 1 1000\n")
	says(1, 5, 1, ". close\n")
	if err := d.save(); err != nil {
		t.Fatal(err)
	}
	d.goesBy(time.Now().Add(time.Hour))
	if says(1, 5, 2, ". claim 5 2 10\n"); d.shards[1] == nil {
		t.Fatal("it does not come back")
	}
	want := d.shard(1).all()
	if err := d.save(); err != nil {
		t.Fatal(err)
	}
	d = reopened(t, d)
	d.cluster.Shards = 4
	if got := d.shard(1).all(); got != want {
		t.Errorf("number 5 has %+v, and had %+v", got[5], want[5])
	}
}

// Floors are told to other voters as rows are: whatever a voter tells, and whatever the other one knows, its rows are as if all rows of the
// shard had been told.
func TestFloorsAreTold(t *testing.T) {
	random, now := rand.New(rand.NewSource(1)), time.Now()
	for try := 0; try < 50; try++ {
		rows := func() *table {
			table := tableAt(now)
			for number := 0; number < qlock.MaxClients; number += 1 + random.Intn(8) {
				base := uint64(random.Intn(50))
				table.set(number, Session{Epoch: uint64(1 + random.Intn(5)), Base: base, Reserved: base + uint64(random.Intn(50)),
					Used: true, Open: random.Intn(2) == 0, Hash: "jobs.x"})
			}
			return table
		}
		there, here := rows(), rows()
		plain := here.copied()
		for number, row := range there.all() {
			row.Open = false
			there.set(number, row)
		}
		floor, ok := there.floor()
		if !ok {
			t.Fatal("a table of free rows has no floor")
		}
		for number, row := range there.all() {
			if row.Epoch > 0 {
				row.Hash, row.Base, row.Reserved = "", floor.Stamp, floor.Stamp
				plain.learn(number, row, now)
			}
		}
		d, _ := floored(t)
		s := d.shard(1)
		s.table = *here
		s.table.number = 1
		s.table.leases = &d.leases
		text, err := json.Marshal(Knows{Sessions: map[int]Session{}, Floors: map[int]Floor{1: floor, 77: floor}})
		if err != nil {
			t.Fatal(err)
		}
		if _, err := d.learn(string(text), now); err != nil {
			t.Fatal(err)
		}
		for number, row := range s.all() {
			if want := plain.row(number); row != want {
				t.Fatalf("number %d has %+v, and has %+v if rows are told", number, row, want)
			}
		}
		if d.learn(string(text), now); len(d.floors) != 0 { // the shard is in use here, and there is no shard 77
			t.Fatalf("%+v", d.floors)
		}
	}
}

// A voter that dropped a shard itself learns the floor of another one, and tells the higher one of both.
func TestFloorsAreLearned(t *testing.T) {
	d, _ := floored(t)
	d.floors[1] = Floor{Stamp: 5, Epochs: []uint64{3, 0, 7}}
	for _, one := range []struct{ told, want Floor }{
		{Floor{4, []uint64{2}}, Floor{5, []uint64{3, 0, 7}}},
		{Floor{4, []uint64{2, 1}}, Floor{5, []uint64{3, 1, 7}}},
		{Floor{9, nil}, Floor{9, []uint64{3, 1, 7}}},
		{Floor{9, []uint64{4, 1, 6, 8}}, Floor{9, []uint64{4, 1, 7, 8}}},
	} {
		if d.learnFloor(1, one.told, time.Now()); !reflect.DeepEqual(d.floors[1], one.want) {
			t.Errorf("%+v is told: %+v", one.told, d.floors[1])
		}
	}
	if told := d.knows(qlock.MaxClients, nil); !reflect.DeepEqual(told.Floors, d.floors) || len(told.Sessions) != 0 {
		t.Errorf("%+v is told", told)
	}
	if d.newFloors[1].Stamp != 9 {
		t.Error("it is not saved")
	}
}

// As many floors as there are shards are told by several messages, each of which a voter takes.
func TestManyFloors(t *testing.T) {
	d, _ := floored(t)
	d.cluster.Shards = 4096
	floor := Floor{Stamp: qlock.MaxStamp, Epochs: make([]uint64, qlock.MaxClients)}
	for number := range floor.Epochs {
		floor.Epochs[number] = 1 << 40
	}
	all := Knows{Floors: map[int]Floor{}}
	for shard := 1; shard < 4096; shard++ { // a session has a number in the first one
		d.floors[shard] = floor
		all.Floors[shard] = floor
	}
	told := map[int]bool{}
	for from, pages := 0, 0; ; pages++ {
		page := d.knows(from, nil)
		if text, err := json.Marshal(page); err != nil || len(text) > mostMessage {
			t.Fatalf("%d bytes: %v", len(text), err)
		}
		for shard := range page.Floors {
			if told[shard] {
				t.Fatalf("shard %d is told twice", shard)
			}
			told[shard] = true
		}
		if from = page.Next; from == 0 {
			break
		}
	}
	if len(told) != 4095 {
		t.Errorf("%d floors are told", len(told))
	}
	texts, err := all.Texts()
	if err != nil {
		t.Fatal(err)
	}
	other, _ := floored(t)
	other.cluster.Shards = 4096
	for _, text := range texts {
		if len(text) > mostMessage {
			t.Errorf("%d bytes", len(text))
		}
		if _, err := other.learn(text, time.Now()); err != nil {
			t.Error(err)
		}
	}
	if len(other.floors) != 4095 || len(other.shards) != 1 {
		t.Errorf("%d floors are learned, and %d shards take memory", len(other.floors), len(other.shards))
	}
}

// A voter that is made again has the floors of shards that all dropped, and the rows of the others, above the floors of those that dropped
// them.
func TestMergedFloors(t *testing.T) {
	reply := func(voter int, known Knows) operator.Reply {
		body, err := json.Marshal(known)
		if err != nil {
			t.Fatal(err)
		}
		return operator.Reply{Voter: voter, Body: body}
	}
	used := Session{Hash: "jobs.x", Epoch: 9, Base: 30, Reserved: 40, Open: true, Used: true}
	replies := []operator.Reply{
		reply(0, Knows{Sessions: map[int]Session{64 + 3: used}, Floors: map[int]Floor{2: {5, []uint64{1}}}, Level: level.Floors}),
		reply(1, Knows{Sessions: map[int]Session{}, Floors: map[int]Floor{1: {99, []uint64{0, 7, 0, 8}}, 2: {4, []uint64{0, 2}}, -1: {}, config.MostShards: {}}}),
	}
	all, heard, err := Merge(replies)
	if err != nil || heard != 3 || all.Level != level.Floors {
		t.Fatalf("%+v, %b, %v", all, heard, err)
	}
	if !reflect.DeepEqual(all.Floors, map[int]Floor{2: {5, []uint64{1, 2}}}) {
		t.Errorf("%+v", all.Floors)
	}
	if row := all.Sessions[64+3]; row.Epoch != 9 || !row.Open || row.Base < 99 {
		t.Errorf("who has a number: %+v", row)
	}
	if row := all.Sessions[64+1]; row.Epoch != 7 || row.Open || row.Base != 99 || row.Reserved != 99 {
		t.Errorf("a number that nobody has: %+v", row)
	}
	if _, _, err := Merge([]operator.Reply{reply(0, Knows{Sessions: map[int]Session{}, Level: level.Newest + 1})}); !errors.Is(err, ErrLevel) {
		t.Errorf("a level of newer programs: %v", err)
	}
}

// A made-up floor is none.
func TestFloorsThatAreNone(t *testing.T) {
	for text, isRight := range map[string]bool{
		`{"stamp":1,"epochs":[1,2]}`: true, `{"stamp":1}`: true, `{"stamp":4611686018427387905}`: false, `{"stamp":-1}`: false, `[]`: false,
		`{"epochs":[` + strings.Repeat("1,", qlock.MaxClients) + `1]}`: false,
	} {
		var floor Floor
		if err := json.Unmarshal([]byte(text), &floor); (err == nil) != isRight {
			t.Errorf("%s: %v", text, err)
		}
	}
}

// A shard that is dropped after a page that ends within it is told with the next one.
func TestShardIsDroppedBetweenPages(t *testing.T) {
	d, _ := sharded(t, 64)
	d.setLevel(level.Floors)
	for shard := 1; shard < 20; shard++ {
		for number := 0; number < 60; number++ {
			d.shard(shard).put(number, Session{Epoch: 7, Base: 10, Reserved: 20, Used: true})
		}
	}
	told := map[int]bool{}
	for from, pages := 0, 0; from > 0 || pages == 0; pages++ {
		page := d.knows(from, nil)
		for key := range page.Sessions {
			told[key] = true
		}
		for shard, floor := range page.Floors {
			for number := range floor.Epochs {
				told[shard*qlock.MaxClients+number] = true
			}
		}
		if from = page.Next; pages == 0 && from%qlock.MaxClients == 0 {
			t.Fatal("the page ends with a shard")
		}
		d.goesBy(time.Now().Add(time.Hour))
	}
	for shard := 1; shard < 20; shard++ {
		for number := 0; number < 60; number++ {
			if !told[shard*qlock.MaxClients+number] {
				t.Fatalf("number %d of shard %d is not told", number, shard)
			}
		}
	}
}

// What depends on a floor leaves once that is saved: a session that was ended stays so, and what was learned is known, also after a crash.
func TestFloorsAreSavedFirst(t *testing.T) {
	replies := func(d *Daemon, now time.Time) *Daemon {
		t.Helper()
		_, _ = d.draft.Commit(now, nothing{}) // no save is due
		if d.replies["x"] = (answer{mark: d.mark, body: []byte("done")}); d.commit(now) != nil || len(d.replies) > 0 {
			t.Fatal("no reply")
		}
		d = reopened(t, d)
		d.cluster.Shards = 4
		if err := d.markPlans(); err != nil {
			t.Fatal(err)
		}
		return d
	}
	d, says := floored(t)
	says(1, 5, 1, ". claim 5 1 1000\n")
	says(1, 5, 1, ". open 0\n")
	if err := d.save(); err != nil {
		t.Fatal(err)
	}
	later := time.Now().Add(time.Hour)
	passes(&d.shard(1).table, later)
	d.obey([]string{"evict", "1/5", "now"}, "alice", later)
	if d.goesBy(later); d.shards[1] != nil {
		t.Fatal("the shard is there")
	}
	if d = replies(d, later); d.shard(1).row(5).Open || d.shard(1).row(5).Epoch < 2 {
		t.Errorf("a session that was ended: %+v", d.shard(1).row(5))
	}
	text := `{"sessions":{},"level":2,"floors":{"2":{"stamp":5,"epochs":[3]}}}`
	if err := d.inform(d.plans.Number, d.plans.mark(), text, later); err != nil {
		t.Fatal(err)
	}
	if d = replies(d, later); d.floors[2].Stamp != 5 {
		t.Errorf("what was learned: %+v", d.floors)
	}
}

// A row of a number whose epoch was given back goes with its shard, too: it would count in place of a later floor.
func TestRowsOfNoEpochAreDropped(t *testing.T) {
	d, _ := floored(t)
	taken := Session{Epoch: 1, Base: 3, Reserved: 40, Dropped: true, Hash: "jobs.x"}
	d.learnAll(Knows{Sessions: map[int]Session{qlock.MaxClients + 5: taken}}, time.Now())
	saves := func() {
		t.Helper()
		if err := d.save(); err != nil {
			t.Fatal(err)
		}
	}
	saves()
	if d.goesBy(time.Now().Add(time.Hour)); d.shards[1] != nil {
		t.Fatal("the shard is there")
	}
	saves()
	d.learnFloor(1, Floor{Stamp: 500, Epochs: []uint64{0, 0, 0, 0, 0, 9}}, time.Now())
	saves()
	d = reopened(t, d)
	d.cluster.Shards = 4
	if row := d.shard(1).row(5); row.Epoch != 9 || row.Base != 500 {
		t.Errorf("%+v", row)
	}
}

// Who learns a floor is at the level of those that tell it: a state of an older format has none.
func TestFloorsBringTheirLevel(t *testing.T) {
	d, _ := sharded(t, 4)
	if _, err := d.learn(`{"sessions":{},"level":2,"floors":{"1":{"stamp":5,"epochs":[3]}}}`, time.Now()); err != nil {
		t.Fatal(err)
	}
	if err := d.save(); err != nil {
		t.Fatal(err)
	}
	if d.store.own.level() != level.Floors || d.store.meta.Format != floorFormat {
		t.Errorf("level %d, format %d", d.store.own.level(), d.store.meta.Format)
	}
	if _, err := d.learn(fmt.Sprintf(`{"sessions":{},"level":%d}`, level.Newest+1), time.Now()); !errors.Is(err, ErrLevel) {
		t.Errorf("a level of newer programs: %v", err)
	}
}
