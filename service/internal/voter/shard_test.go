package voter

import (
	"fmt"
	"strings"
	"testing"
	"time"

	"calvundek.example/service/internal/wire"
	"calvundek.example/service/qlock"
	"calvundek.example/service/transport"
)

// sharded returns a daemon of a cluster with so many shards, and a function with which a session of a shard says something.
func sharded(t *testing.T, shards int) (*Daemon, func(shard, number int, lines string) (replies string)) {
	t.Helper()
	d, _ := alone(t, 100)
	d.cluster.Shards = shards
	if err := d.markPlans(); err != nil {
		t.Fatal(err)
	}
	return d, func(shard, number int, lines string) string {
		h := wire.Header{Cluster: "test", Coterie: d.mark, Kind: wire.FromClient, Number: number, Epoch: 1, Reserved: 1000,
			Name: fmt.Sprintf("%d-session-%d", shard, number)}
		d.sort(transport.Message{Mailbox: wire.VoterBox("test", 0, "jobs"), Data: append(h.Append(nil), lines...)})
		d.takeAll()
		session := wire.SessionName("jobs", h.Name)
		reply := string(d.out[session])
		delete(d.out, session)
		return reply
	}
}

// lockOf returns the name of a lock of a shard.
func lockOf(d *Daemon, shard int) string {
	for i := 0; ; i++ {
		if name := fmt.Sprint("lock-", i); d.cluster.ShardOfLock(name) == shard {
			return name
		}
	}
}

// Each shard has its own 64 numbers, and a session says nothing of a lock of another shard.
func TestSessionsOfShards(t *testing.T) {
	d, says := sharded(t, 4)
	for shard := 0; shard < 4; shard++ {
		if reply := says(shard, 5, ". claim 5 1 1000\n"); !strings.Contains(reply, ". claimed 5 1 ") {
			t.Errorf("shard %d: %q", shard, reply)
		}
	}
	for shard := 0; shard < 4; shard++ {
		for of := 0; of < 4; of++ {
			lock := lockOf(d, of)
			reply := says(shard, 5, fmt.Sprintf("%s request 5 0 %d\n", lock, 10+shard))
			if is := strings.Contains(reply, lock+" locked "); is != (of == shard) {
				t.Errorf("a session of shard %d asks for a lock of shard %d: %q", shard, of, reply)
			}
			if v := d.votes[lock]; v != nil && v.shard != d.shard(of) {
				t.Errorf("%s is of shard %d", lock, v.shard.number)
			}
		}
	}
	for shard := 0; shard < 4; shard++ {
		lock := lockOf(d, shard)
		if says((shard+1)&3, 5, fmt.Sprintf("%s release 5 0 %d\n", lock, 10+shard)); d.votes[lock].held().Number == 0 {
			t.Errorf("a session of another shard gives %s back", lock)
		}
		says((shard+1)&3, 5, fmt.Sprintf(". about %s %d mine\n", lock, 10+shard))
		says((shard+1)&3, 5, fmt.Sprintf(". turn %s %d 1 9\n", lock, 10+shard))
		if one := d.votes[lock].ask(5); one.note != "" || len(d.skips) > 0 {
			t.Errorf("a session of another shard says something of %s: %+v", lock, one)
		}
	}
	if gone := d.evict(2*qlock.MaxClients+5, true, "alice", time.Now()); gone.LetGo != 1 || d.shard(1).row(5).Open != true || d.shard(2).row(5).Open {
		t.Errorf("an operator ends a session: %+v", gone)
	}
	if reply := d.obey([]string{"evict", "5"}, "alice", time.Now()); reply != (Refused{"client numbers are 0/0 to 3/63"}) {
		t.Errorf("a number without its shard: %v", reply)
	}
	for _, name := range []string{"session", "4-session", "-session"} {
		h := wire.Header{Cluster: "test", Coterie: d.mark, Kind: wire.FromClient, Name: name}
		if d.sort(transport.Message{Mailbox: wire.VoterBox("test", 0, "jobs"), Data: append(h.Append(nil), ". hello\n"...)}); d.inbox.count > 0 {
			t.Errorf("%q is a session of a shard", name)
		}
	}
}

// Rows of all shards are there after a start, each in its shard.
func TestRowsOfShardsAreSaved(t *testing.T) {
	d, says := sharded(t, 4096)
	for _, shard := range []int{0, 1, 255, 256, 4095} {
		says(shard, 60+shard%4, fmt.Sprintf(". claim %d 1 %d\n", 60+shard%4, 100+shard%7))
	}
	if err := d.save(); err != nil {
		t.Fatal(err)
	}
	again := reopened(t, d)
	for _, shard := range []int{0, 1, 255, 256, 4095} {
		number := 60 + shard%4
		if row := again.shard(shard).row(number); !row.Open || row != d.shard(shard).row(number) {
			t.Errorf("shard %d: %+v, and it was %+v", shard, row, d.shard(shard).row(number))
		}
	}
	for _, key := range []int{0, 63, 64, 4096*64 - 1} {
		if read, ok := numberOfRow(rowKey(key)); !ok || read != key {
			t.Errorf("%d is saved under %x, which is %d", key, rowKey(key), read)
		}
	}
	for _, saved := range [][]byte{nil, {64}, {0, 0}, {0, 0, 5}, {0, 1, 64}, {0, 0, 1, 5}} {
		if key, ok := numberOfRow(saved); ok {
			t.Errorf("%x is the key %d", saved, key)
		}
	}
}

// All rows are told, by one page after the other, each once.
func TestPagesOfRows(t *testing.T) {
	d, _ := sharded(t, 64)
	for key := 0; key < 2*mostRows+10; key++ {
		s, number := d.shardOfKey(key)
		s.set(number, of("jobs.s", 1, 0, uint64(key+1)))
	}
	all, pages := map[int]Session{}, 0
	for from := 0; ; pages++ {
		page := d.knows(from, nil)
		for key, row := range page.Sessions {
			if _, twice := all[key]; twice || key < from || page.From != from {
				t.Fatalf("page %d has %d", from, key)
			}
			all[key] = row
		}
		if from = page.Next; from == 0 {
			break
		}
	}
	if pages != 2 || len(all) != 2*mostRows+10 || all[2*mostRows+9].Reserved != 2*mostRows+10 {
		t.Errorf("%d rows on %d pages", len(all), pages+1)
	}
	texts, err := Knows{Sessions: all}.Texts()
	if err != nil || len(texts) != 3 {
		t.Fatal(len(texts), err)
	}
	for _, text := range texts {
		if len(text) > mostMessage {
			t.Errorf("%d bytes", len(text))
		}
		if _, err := d.learn(text, time.Now()); err != nil {
			t.Error(err)
		}
	}
	if texts, err := (Knows{}).Texts(); err != nil || len(texts) != 1 || texts[0] != `{"peers":null,"sessions":{},"level":0}` {
		t.Errorf("%q, %v", texts, err)
	}
}

// hotShard returns a daemon whose shard 1 has the hot lock: 56 sessions have numbers for it, and so many have numbers for another one. As many
// more wait for one for the hot lock. It returns that, another lock of the shard, and a function with which a session of a user says
// something in the shard.
func hotShard(t *testing.T, others, more int) (d *Daemon, hot, cold string, says func(user, name string, number int, epoch uint64, lines string) string) {
	t.Helper()
	d, _ = sharded(t, 4)
	d.leases.ttl = time.Hour // who waits is not gone before the test ends
	hot = lockOf(d, 1)
	for i := 0; cold == ""; i++ {
		if name := fmt.Sprint("cold-", i); d.cluster.ShardOfLock(name) == 1 {
			cold = name
		}
	}
	says = func(user, name string, number int, epoch uint64, lines string) string {
		h := wire.Header{Cluster: "test", Coterie: d.mark, Kind: wire.FromClient, Number: number, Epoch: epoch, Reserved: 1000, Name: "1-" + name}
		d.sort(transport.Message{Mailbox: wire.VoterBox("test", 0, user), Data: append(h.Append(nil), lines...)})
		d.takeAll()
		session := wire.SessionName(user, h.Name)
		reply := string(d.out[session])
		delete(d.out, session)
		return reply
	}
	for i := 0; i < 56+others; i++ {
		name, lock := fmt.Sprint("has-", i), hot
		if i >= 56 {
			lock = cold
		}
		if reply := says("jobs", name, 0, 0, ". for "+lock+"\n. hello\n"); !strings.Contains(reply, fmt.Sprintf(". number %d 0 1\n", i)) {
			t.Fatalf("session %d: %q", i, reply)
		}
		says("jobs", name, 0, 0, fmt.Sprintf(". claim %d 1 64\n", i))
		says("jobs", name, i, 1, ". open 0\n")
	}
	for i := 0; i < more; i++ {
		if reply := says("jobs", fmt.Sprint("waits-", i), 0, 0, ". for "+hot+"\n. hello\n"); isFree(reply) {
			t.Fatalf("session %d more: %q", i, reply)
		}
	}
	return d, hot, cold, says
}

// isFree returns whether a reply to hello shows a number that is free.
func isFree(reply string) bool {
	for _, line := range strings.Split(reply, "\n") {
		if words := strings.Fields(line); len(words) == 5 && words[1] == "number" && words[4] != "0" {
			return true
		}
	}
	return false
}

// All numbers of a shard are taken, 56 of them for one lock, and sixty more sessions wait for that. One that wants another lock, and comes
// late, gets the number that is free next. One of another user gets the next one of the same lock. Once it has it, those that yielded hear
// that others are free.
func TestHotLockLeavesNumbers(t *testing.T) {
	for _, late := range []struct {
		user, lock string
		given      [2]int
	}{{"jobs", "cold", [2]int{58, 59}}, {"web", "hot", [2]int{5, 6}}} {
		d, hot, cold, says := hotShard(t, 8, 60)
		if late.lock = hot; late.user == "jobs" {
			late.lock = cold
		}
		closes := func(number int) { says("jobs", fmt.Sprint("has-", number), number, 1, ". close\n") }
		hello := ". for " + late.lock + "\n. hello\n"
		if isFree(says(late.user, "late", 0, 0, hello)) {
			t.Fatal("a number is free")
		}
		closes(late.given[0])
		if told := string(d.out[late.user+".1-late"]); !strings.Contains(told, ". free\n") || strings.Contains(string(d.out["jobs.1-waits-0"]), ". free\n") {
			t.Errorf("%v: who waits hears %q, and the first of the others %q", late, told, d.out["jobs.1-waits-0"])
		}
		closes(late.given[1])
		if isFree(says("jobs", "waits-0", 0, 0, ". for "+hot+"\n. hello\n")) {
			t.Errorf("%v: another one of the hot lock comes first", late)
		}
		if reply := says(late.user, "late", 0, 0, hello); !isFree(reply) {
			t.Errorf("%v: the late one sees no number: %q", late, reply)
		}
		says(late.user, "late", 0, 0, fmt.Sprintf(". claim %d 2 64\n", late.given[0]))
		d.out = map[string][]byte{}
		if says(late.user, "late", late.given[0], 2, ". open 0\n"); late.lock == cold {
			if isFree(says("jobs", "waits-0", 0, 0, ". for "+hot+"\n. hello\n")) {
				t.Error("a lock has a 57th number")
			}
			closes(5)
		}
		if told := string(d.out["jobs.1-waits-0"]); !strings.Contains(told, ". free\n") {
			t.Errorf("%v: who yielded hears %q", late, told)
		}
		if !isFree(says("jobs", "waits-0", 0, 0, ". for "+hot+"\n. hello\n")) {
			t.Errorf("%v: the number that is left is nobody's", late)
		}
	}
}

// While those that wait may have no number as their lock has too many, only sessions of this lock are asked for theirs. If somebody waits
// who may have any number, all are.
func TestWhoIsAskedForANumber(t *testing.T) {
	d, hot, cold, says := hotShard(t, 4, 1)
	asked := func() (ofHot, ofCold int) {
		for number := 0; number < 60; number++ {
			heard := says("jobs", fmt.Sprint("has-", number), number, 1, ". open 0\n") // and what was told before
			switch n := strings.Count(heard, ". wanted\n"); {
			case number < 56:
				ofHot += n
			default:
				ofCold += n
			}
		}
		d.shard(1).queue().told, d.out = time.Time{}, map[string][]byte{}
		return ofHot, ofCold
	}
	d.shard(1).queue().told, d.out = time.Time{}, map[string][]byte{}
	says("jobs", "waits-0", 0, 0, ". for "+hot+"\n. hello\n")
	if ofHot, ofCold := asked(); ofHot != 2*56 || ofCold != 0 {
		t.Errorf("four are free, and the hot lock has 56: %d and %d words", ofHot, ofCold)
	}
	for i := 0; i < 4; i++ {
		name, number := fmt.Sprint("more-", i), 60+i
		says("jobs", name, 0, 0, fmt.Sprintf(". for %s\n. hello\n. claim %d 1 64\n", cold, number))
		says("jobs", name, number, 1, ". open 0\n")
	}
	d.shard(1).queue().told, d.out = time.Time{}, map[string][]byte{}
	says("jobs", "late", 0, 0, ". for "+cold+"\n. hello\n")
	if ofHot, ofCold := asked(); ofHot != 2*56 || ofCold != 2*4 {
		t.Errorf("none is free: %d and %d words", ofHot, ofCold)
	}
}

// Which lock a number is for: what its session said with its hello, until it asks for another lock. The next session of a number does not
// have it from the one before, and no session names a lock of another shard.
func TestLocksOfNumbers(t *testing.T) {
	d, hot, cold, says := hotShard(t, 0, 0)
	s := d.shard(1)
	if shares := s.shares(s.states(), ""); shares.locks.counts[hot] != 56 || shares.users.counts["jobs"] != 56 {
		t.Errorf("%+v", shares)
	}
	says("jobs", "has-1", 1, 1, cold+" request 1 0 70\n")
	if s.seat(1).lock != cold || s.seat(2).lock != hot {
		t.Errorf("after a request: %q, %q", s.seat(1).lock, s.seat(2).lock)
	}
	says("jobs", "has-1", 1, 1, cold+" release 1 0 70\n")
	if s.seat(1).lock != cold {
		t.Errorf("after a RELEASE: %q", s.seat(1).lock)
	}
	for number := 1; number <= 3; number++ {
		says("jobs", fmt.Sprint("has-", number), number, 1, ". close\n")
	}
	if shares := s.shares(s.states(), ""); shares.locks.counts[hot] != 53 {
		t.Errorf("%+v", shares)
	}
	says("jobs", "older", 0, 0, ". hello\n. claim 1 2 64\n") // of an older program
	says("jobs", "older", 1, 2, ". open 0\n")
	says("jobs", "stray", 0, 0, ". for "+lockOf(d, 2)+"\n. hello\n. claim 2 2 64\n")
	if s.seat(1).lock != "" || s.seat(2).lock != "" {
		t.Errorf("the next sessions: %q, %q", s.seat(1).lock, s.seat(2).lock)
	}
	says("jobs", "claims", 0, 0, ". for "+hot+"\n. hello\n. claim 3 2 64\n")
	if shares := s.shares(s.states(), ""); shares.users.counts["jobs"] != 56 || shares.locks.counts[hot] != 54 || !shares.claims["jobs.1-claims"] ||
		shares.claims["jobs.1-has-5"] {
		t.Errorf("with a number that was claimed: %+v", shares)
	}
	if shares := s.shares(s.states(), "jobs.1-claims"); shares.users.counts["jobs"] != 55 || shares.locks.counts[hot] != 53 {
		t.Errorf("its session asks again: %+v", shares)
	}
	if says("jobs", "stray", 2, 2, ". open 0\n"); s.waiting.lockOf("jobs.1-stray") != "" {
		t.Error("who has a number waits")
	}
	if d.evict(64+5, false, "alice", time.Now()); s.seat(5).lock != "" || s.seat(6).lock != hot {
		t.Errorf("after an end: %q, %q", s.seat(5).lock, s.seat(6).lock)
	}
}
