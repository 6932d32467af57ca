package voter

import (
	"fmt"
	"math"
	"strings"
	"testing"
	"time"

	"calvundek.example/service/internal/wire"
	"calvundek.example/service/qlock"
	"calvundek.example/service/transport"
)

// wanting returns a voter alone, whose sessions say lines in messages of this number, epoch and SEQ, and hear its replies.
func wanting(t *testing.T) (*Daemon, func(session string, number int, epoch, seq uint64, lines string) string) {
	t.Helper()
	d, _ := alone(t, 10)
	return d, saysTo(d)
}

func saysTo(d *Daemon) func(session string, number int, epoch, seq uint64, lines string) string {
	return func(session string, number int, epoch, seq uint64, lines string) string {
		h := wire.Header{Cluster: "test", Coterie: d.mark, Kind: wire.FromClient, Number: number, Epoch: epoch, Seq: seq, Name: session}
		d.sort(transport.Message{Mailbox: wire.VoterBox("test", 0, "jobs"), Data: append(h.Append(nil), lines...)})
		d.takeAll()
		reply := string(d.out["jobs."+session])
		delete(d.out, "jobs."+session)
		return reply
	}
}

// broughtBy returns the number and the epoch of the first line of a reply that a want brought, and -1 if there is none.
func broughtBy(reply string) (number int, epoch uint64) {
	var base, reserved uint64
	if n, _ := fmt.Sscanf(reply, ". claimed %d %d %d %d\n", &number, &epoch, &base, &reserved); n != 4 {
		return -1, 0
	}
	return number, epoch
}

const wants = ". want 64\n. hello\n"

// startsAt returns a session for which a voter begins to look at this number.
func startsAt(number, place int) string {
	for i := 0; ; i++ {
		if name := fmt.Sprint("s-", i); FirstNumber("jobs."+name) == number {
			if place--; place < 0 {
				return name
			}
		}
	}
}

// A want brings the first free number at or behind that of the session's hash, under the next epoch, with so many stamps. Asked again the
// voter says the same, and nothing else of the number. Another session gets another one. Who wants none gets none.
func TestWantBringsANumber(t *testing.T) {
	d, says := wanting(t)
	d.shard(0).set(20, Session{Epoch: 7, Base: 90, Reserved: 100})
	me, other := startsAt(20, 0), startsAt(20, 1)
	for i := uint64(1); i < 4; i++ {
		reply := says(me, 0, 0, i, wants)
		if !strings.HasPrefix(reply, ". claimed 20 8 100 164\n. number 0 ") || strings.Count(reply, ". number ") != 63 ||
			strings.Contains(reply, ". number 20 ") || strings.Count(reply, ". claimed") != 1 {
			t.Fatalf("%d: %q", i, reply)
		}
	}
	if row := d.shard(0).row(20); !row.Open || row.Used || row.Hash != hashed("jobs."+me) || len(d.shard(0).changed) == 0 {
		t.Errorf("%+v", row)
	}
	if number, epoch := broughtBy(says(other, 0, 0, 1, wants)); number != 21 || epoch != 1 {
		t.Errorf("another session has %d, %d", number, epoch)
	}
	if reply := says("s", 0, 0, 1, ". hello\n"); strings.Contains(reply, "claimed") || strings.Count(reply, ". number ") != 64 {
		t.Errorf("who only asks: %q", reply)
	}
	if reply := says("s", 0, 0, 1, ". want 64\n"); reply != "" {
		t.Errorf("without hello: %q", reply)
	}
	if reply := says("s", 0, 0, 1, ". hello\n. want 64\n"); strings.Contains(reply, "claimed") {
		t.Errorf("behind hello: %q", reply)
	}
	if reply := says("s", 0, 0, 1, ". want 4097\n. hello\n"); !strings.Contains(reply, " 0 4096\n") {
		t.Errorf("more stamps than a claim has: %.40q", reply)
	}
}

// Numbers that can't be claimed are skipped. Those of silent sessions come behind all that are free.
func TestWantSkipsNumbers(t *testing.T) {
	d, says := wanting(t)
	s, me := d.shard(0), startsAt(20, 0)
	s.set(20, Session{Epoch: math.MaxUint64})
	s.seat(21).grown = 2 * mostEpochs // it may not grow
	for number := 22; number < 30; number++ {
		says(fmt.Sprint("dead-", number), 0, 0, 0, fmt.Sprintf(". claim %d 1 64\n", number))
	}
	passes(&s.table, d.now().Add(time.Hour))
	if number, _ := broughtBy(says(me, 0, 0, 1, wants)); number != 30 {
		t.Errorf("it has %d", number)
	}
	for number := 0; number < qlock.MaxClients; number++ {
		if number < 20 || number > 29 {
			s.set(number, Session{Epoch: 1, Hash: "x", Open: true})
			s.seat(number).heard, _ = s.clock.Shows()
		}
	}
	if number, epoch := broughtBy(says(startsAt(20, 1), 0, 0, 1, wants)); number != 22 || epoch != 2 {
		t.Errorf("where none is free: %d, %d", number, epoch)
	}
}

// Where hello shows no free number a want brings none. While sessions wait it brings none to anybody: who is first sees one that is free, and
// claims it.
func TestWantAndTheOrder(t *testing.T) {
	d, says := wanting(t)
	s := d.shard(0)
	for number := 1; number < 64; number++ {
		says(fmt.Sprint("has-", number), 0, 0, 0, fmt.Sprintf(". claim %d 1 64\n", number))
		says(fmt.Sprint("has-", number), number, 1, 1, ". open 0\n")
	}
	for _, name := range []string{"first", "second"} {
		if number, _ := broughtBy(says(name, 0, 0, 1, wants)); number >= 0 {
			t.Errorf("%s has %d, and none is free", name, number)
		}
	}
	says("has-9", 9, 1, 2, ". close\n")
	if told := string(d.out["jobs.first"]); !strings.Contains(told, ". free\n") {
		t.Errorf("who is first hears %q", told)
	}
	delete(d.out, "jobs.first")
	if reply := says("second", 0, 0, 2, wants); strings.Contains(reply, "claimed") {
		t.Errorf("who is second: %.40q", reply)
	}
	if reply := says("first", 0, 0, 2, wants); strings.Contains(reply, "claimed") || !strings.Contains(reply, ". number 9 1 1\n") {
		t.Errorf("who is first: %.40q", reply)
	}
	s.queue().short = time.Time{} // nobody waits any more
	number, _ := broughtBy(says("first", 0, 0, 3, wants))
	if number != 9 {
		t.Errorf("once nobody waits: %d", number)
	}
	if !s.waiting.leave("jobs.first") {
		t.Error("who did not use its number waits no more")
	}
}

// Numbers that wants brought do not count twice, as taken and for those that wait: 63 sessions get one each, though none used it yet.
func TestWantsOfManyAtOnce(t *testing.T) {
	d, says := wanting(t)
	seen := map[int]bool{0: true}
	for i := 0; i < 63; i++ {
		number, _ := broughtBy(says(fmt.Sprint("s-", i), 0, 0, 1, wants))
		if number < 0 || seen[number] {
			t.Fatalf("session %d has %d", i, number)
		}
		seen[number] = true
	}
	number, _ := broughtBy(says("s-7", 0, 0, 2, wants))
	if number < 0 || d.shard(0).waiting.isShort(time.Now(), d.leases.ttl) {
		t.Errorf("one of them has %d when it asks again, or counts as one that waits", number)
	}
	if number, _ := broughtBy(says("late", 0, 0, 1, wants)); number >= 0 {
		t.Errorf("one more has %d", number)
	}
}

// A want is for a lock of the session's shard, as `for` is.
func TestLockOfAWant(t *testing.T) {
	d, says := wanting(t)
	number, _ := broughtBy(says("one", 0, 0, 1, ". want 64 orders\n. hello\n"))
	if number < 0 || d.shard(0).seat(number).lock != "orders" {
		t.Errorf("number %d is for %q", number, d.shard(0).seat(number).lock)
	}
	number, _ = broughtBy(says("other", 0, 0, 1, ". for stock\n"+wants))
	if number < 0 || d.shard(0).seat(number).lock != "stock" {
		t.Errorf("number %d is for %q", number, d.shard(0).seat(number).lock)
	}
}

// `want 0` gives back what a want brought: not what came by a later message, or is used, or was claimed, or came before the last start.
func TestWantIsTakenBack(t *testing.T) {
	d, says := wanting(t)
	s := d.shard(0)
	isOpen := func(number int) bool { return s.row(number).Open }
	number, epoch := broughtBy(says("me", 0, 0, 5, wants))
	if says("other", 0, 0, 9, ". want 0\n"); !isOpen(number) {
		t.Error("another session gives it back")
	}
	if says("me", 0, 0, 4, ". want 0\n"); !isOpen(number) {
		t.Error("a late word gives back what was brought since")
	}
	if says("me", 0, 0, 5, ". want 0\n"); isOpen(number) || s.row(number).Dropped {
		t.Errorf("%+v", s.row(number))
	}
	if s.claim(number, "jobs.other", epoch, 0, d.now()) {
		t.Error("its epoch is claimed again")
	}
	again, later := broughtBy(says("me", 0, 0, 6, wants))
	if again != number || later != epoch+1 {
		t.Errorf("the next one is %d, %d", again, later)
	}
	says("me", 0, 0, 8, wants)
	if says("me", 0, 0, 7, ". want 0\n"); !isOpen(number) {
		t.Error("a late word gives back what was wanted again since")
	}
	says("me", number, later, 9, ". open 0\n")
	if says("me", 0, 0, 10, ". want 0\n"); !isOpen(number) {
		t.Error("a number in use is given back")
	}
	says("claims", 0, 0, 0, ". claim 50 1 64\n")
	if says("claims", 0, 0, 1, ". want 0\n"); !isOpen(50) {
		t.Error("a number that was claimed is given back")
	}
	if number, epoch := broughtBy(says("claims", 0, 0, 2, wants)); number != 50 || epoch != 1 {
		t.Errorf("who has number 50 by a claim has %d, %d", number, epoch)
	}
	number, _ = broughtBy(says("old", 0, 0, 1, wants))
	if err := d.save(); err != nil {
		t.Fatal(err)
	}
	d = reopened(t, d)
	says, s = saysTo(d), d.shard(0)
	if says("old", 0, 0, 2, ". want 0\n"); !isOpen(number) {
		t.Error("a number of before the start is given back: it may be in use")
	}
	if again, _ := broughtBy(says("old", 0, 0, 3, wants)); again != number {
		t.Errorf("after the start it has %d", again)
	}
}

// A session with a number gets no other one by a want. One that a want brought a number may claim that under a later epoch, until it used
// it. Nobody else may.
func TestWantOfASessionWithANumber(t *testing.T) {
	d, says := wanting(t)
	number, epoch := broughtBy(says("me", 0, 0, 1, wants))
	claim := fmt.Sprintf(". claim %d %d 64\n", number, epoch+1)
	if reply := says("other", 0, 0, 1, claim); !strings.HasPrefix(reply, ". refused ") {
		t.Errorf("another one claims it: %q", reply)
	}
	if reply := says("me", 0, 0, 2, claim); !strings.HasPrefix(reply, ". claimed ") {
		t.Errorf("it may not claim a later epoch: %q", reply)
	}
	if reply := says("me", 0, 0, 2, fmt.Sprintf(". claim %d %d 64\n", number, epoch+2)); !strings.HasPrefix(reply, ". refused ") {
		t.Errorf("a claim that it made itself gives way: %q", reply)
	}
	says("me", number, epoch+1, 3, ". open 0\n")
	if again, e := broughtBy(says("me", number, epoch+1, 4, wants)); again != number || e != epoch+1 {
		t.Errorf("it has %d, %d too", again, e)
	}
	used, e := broughtBy(says("uses", 0, 0, 1, wants))
	says("uses", used, e, 2, ". open 0\n")
	if reply := says("uses", 0, 0, 3, fmt.Sprintf(". claim %d %d 64\n", used, e+1)); !strings.HasPrefix(reply, ". refused ") {
		t.Errorf("a number in use is claimed under a later epoch: %q", reply)
	}
	passes(&d.shard(0).table, d.now().Add(time.Hour))
	if again, e := broughtBy(says("me", 0, 0, 5, wants)); again < 0 || again == number && e == epoch+1 {
		t.Errorf("one that others may claim: %d, %d", again, e)
	}
}

// Numbers that wants bring are claimed: the first ones see those that are free, and nobody else does, from then on.
func TestWantIsAClaim(t *testing.T) {
	d, says := wanting(t)
	d.shard(0).queue().unclaimed = time.Now().Add(-time.Hour)
	if number, _ := broughtBy(says("me", 0, 0, 1, wants)); number < 0 || !d.shard(0).queue().unclaimed.IsZero() {
		t.Errorf("it has %d, and the time is %v", number, d.shard(0).queue().unclaimed)
	}
}

// A voter of an older program ignores the word, and answers hello: as one ignores a word that no program knows.
func TestOlderVoterIgnoresWants(t *testing.T) {
	_, says := wanting(t)
	if reply := says("me", 0, 0, 1, ". wanted 64 orders\n. hello\n"); strings.Count(reply, ". number ") != 64 {
		t.Errorf("%q", reply)
	}
}

// In a cluster with shards a want is for a lock of the session's shard. A lock that has all its numbers gets none, and as only sessions of this
// lock wait, who wants another one has one at once.
func TestWantInAShard(t *testing.T) {
	d, hot, cold, _ := hotShard(t, 0, 1)
	s, says := d.shard(1), func(name, lock string) (number int) {
		h := wire.Header{Cluster: "test", Coterie: d.mark, Kind: wire.FromClient, Name: "1-" + name, Seq: 1}
		lines := ". want 64 " + lock + "\n. hello\n"
		d.sort(transport.Message{Mailbox: wire.VoterBox("test", 0, "jobs"), Data: append(h.Append(nil), lines...)})
		d.takeAll()
		number, _ = broughtBy(string(d.out["jobs.1-"+name]))
		delete(d.out, "jobs.1-"+name)
		return number
	}
	if number := says("late", hot); number >= 0 {
		t.Errorf("the lock has all its numbers, and %d too", number)
	}
	if number := says("neighbour", cold); number < 56 || s.seat(number).lock != cold {
		t.Errorf("the neighbour has %d", number)
	}
	if number := says("stray", lockOf(d, 2)); number < 56 || s.seat(number).lock != "" {
		t.Errorf("it has %d, for %q, and its lock is of another shard", number, s.seat(number).lock)
	}
	if s.end(7, s.name(7), 1); says("late", hot) >= 0 {
		t.Error("who comes later has one, and another one waits")
	}
}
