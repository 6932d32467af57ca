package voter

import (
	"fmt"
	"strings"
	"testing"
	"time"

	"calvundek.example/service/internal/moment"
	"calvundek.example/service/internal/wire"
	"calvundek.example/service/transport"
)

// watcherHears returns what who watches hears by itself at a time.
func (d *Daemon) watcherHears(now time.Time) string {
	d.tellWatchers(now)
	said := string(d.out["web.looker"])
	delete(d.out, "web.looker")
	return said
}

// Who watches a lock hears each change of who has the vote, and of its note, once, and nothing of those that wait.
func TestWatcherHearsChanges(t *testing.T) {
	d := sessions(t, 1, 2)
	if reply := d.lookerHears(". watch 3 orders\n"); reply != "" || len(d.votes) != 0 {
		t.Errorf("%q", reply)
	}
	for _, one := range []struct {
		number      int
		lines, want string
	}{
		{1, "stock request 1 0 4\n", ""},
		{1, "orders request 1 0 5\n", ". holder 3 orders 0 1 5 0 jobs\n"},
		{1, ". open 0\n", ""},
		{2, "orders request 2 0 9\n", ""},
		{1, ". note m1 17 root nightly\n", ". holder 3 orders 4 1 5 0 jobs m1 17 root nightly\n"},
		{1, ". note m1 17 root nightly\n", ""},
		{1, ". about orders 5 m1 17 root import\n", ". holder 3 orders 4 1 5 0 jobs m1 17 root import\n"},
		{2, ". about orders 9 m1 18 root import\n", ""},
		{1, "orders release 1 0 5\n", ". holder 3 orders 0 2 9 0 jobs m1 18 root import\n"},
		{2, "orders release 2 0 9\n", ". holder 3 orders 0\n"},
		{2, "orders request 2 0 11\norders release 2 0 11\n", ""},
	} {
		d.repliesTo("jobs", one.number, one.lines)
		if v := d.votes["orders"]; v != nil {
			v.granted = moment.Of(time.Now().Add(time.Hour)) // no clock
		}
		if said := d.watcherHears(time.Now()); said != one.want {
			t.Errorf("%q: %q", one.lines, said)
		}
		d.watches.lookAtAll(time.Now())
		if again := d.watcherHears(time.Now()); again != "" {
			t.Errorf("%q: %q without a change", one.lines, again)
		}
	}
}

// A vote goes to nobody also as its session falls silent. A watch lasts for a TTL from when it was said last.
func TestWatchEnds(t *testing.T) {
	d := sessions(t, 1)
	d.lookerHears(". watch 3 orders\n. watch 4 stock\n")
	d.repliesTo("jobs", 1, "orders request 1 0 5\n")
	now := time.Now()
	if said := d.watcherHears(now); !strings.Contains(said, ". holder 3 orders 0 1 5 ") {
		t.Errorf("%q", said)
	}
	passes(&d.shard(0).table, now.Add(2*d.leases.ttl))
	if said := d.watcherHears(now.Add(looksAgain)); said != ". holder 3 orders 0\n" {
		t.Errorf("%q", said)
	}
	d.watchFor("web.looker", wire.Ask{Kind: wire.Watches, ID: 4, Lock: "stock"}, now.Add(d.leases.ttl/2))
	if d.watcherHears(now.Add(d.leases.ttl + time.Second/2)); d.watches.all.Len() != 1 || len(d.watches.ofLock) != 1 || len(d.watches.ofLock["stock"]) != 1 {
		t.Errorf("%d watches, of %v", d.watches.all.Len(), d.watches.ofLock)
	}
	if d.watcherHears(now.Add(d.leases.ttl * 2)); d.watches.all.Len() != 0 || len(d.watches.ofLock)+len(d.watches.ofSession) != 0 {
		t.Errorf("%d watches", d.watches.all.Len())
	}
}

// The oldest watch goes where a session, or all of them, have too many. One that is said again is not the oldest, and what is said under its ID
// of another lock takes its place.
func TestManyWatches(t *testing.T) {
	d := sessions(t, 1)
	watch := func(session, id int, lock string) {
		d.watchFor(fmt.Sprint("web.s-", session), wire.Ask{Kind: wire.Watches, ID: uint64(id), Lock: lock}, time.Now())
	}
	has := func(session, id int) bool { return d.watches.find(fmt.Sprint("web.s-", session), uint64(id)) != nil }
	for id := 1; id <= mostWatchesOfOne; id++ {
		watch(0, id, "orders")
	}
	watch(0, 1, "orders")
	watch(0, 2, "stock")
	if watch(0, mostWatchesOfOne+1, "orders"); !has(0, 1) || !has(0, 2) || has(0, 3) || !has(0, 4) || d.watches.all.Len() != mostWatchesOfOne {
		t.Errorf("%d watches", d.watches.all.Len())
	}
	if len(d.watches.ofLock["orders"]) != mostWatchesOfOne-1 || len(d.watches.ofLock["stock"]) != 1 {
		t.Errorf("%d of orders", len(d.watches.ofLock["orders"]))
	}
	for n := 1; d.watches.all.Len() < mostWatches; n++ {
		watch(n, 1, "orders")
	}
	watch(0, 4, "orders")
	if watch(mostWatches, 1, "orders"); d.watches.all.Len() != mostWatches || !has(0, 4) || has(0, 5) || !has(0, 6) {
		t.Errorf("%d watches", d.watches.all.Len())
	}
	d.watches.lookAtAll(time.Now().Add(-time.Minute))
	d.tellWatchers(time.Now())
	if len(d.watches.due) != mostWatches-mostWatchesLooked {
		t.Errorf("%d are looked at later", len(d.watches.due))
	}
	d.repliesTo("jobs", 1, "orders request 1 0 5\n")
	for n := 0; len(d.watches.due) > 0; n++ {
		if d.tellWatchers(time.Now()); n > 100 {
			t.Fatal("it goes on")
		}
	}
	if count := len(d.out); count != mostWatches-mostWatchesOfOne+2 {
		t.Errorf("%d sessions hear of the change", count)
	}
}

// What who watches hears leaves after it is saved, also of a step of which nothing else leaves.
func TestWatcherHearsWhatIsSaved(t *testing.T) {
	d := sessions(t, 1)
	d.lookerHears(". watch 3 orders\n")
	h := wire.Header{Cluster: "test", Coterie: d.mark, Kind: wire.FromClient, Number: 1, Epoch: 1, Reserved: 1000, Name: "session-1"}
	for i, line := range []string{"orders request 1 0 5\n", "orders release 1 0 5\n"} {
		d.sort(transport.Message{Mailbox: wire.VoterBox("test", 0, "jobs"), Data: append(h.Append(nil), line...)})
		d.takeAll()
		v := d.votes["orders"]
		if d.tellWatchers(time.Now()); len(d.out["web.looker"]) == 0 {
			t.Fatalf("%q: nothing is said", line)
		}
		if _, may := d.draft.Has(v); may {
			t.Errorf("%q: it leaves before it is saved", line)
		}
		saves := d.store.saves
		if err := d.commit(time.Now()); err != nil {
			t.Fatal(err)
		}
		if d.store.saves == saves {
			t.Errorf("%d: nothing is saved", i)
		}
	}
}

// Watches of one lock end in any order: the one that moves to the place of another one is found there.
func TestWatchesOfOneLockEnd(t *testing.T) {
	d, now := sessions(t, 1), time.Now()
	for _, session := range []string{"web.a", "web.b", "web.c", "web.d"} {
		d.watchFor(session, wire.Ask{Kind: wire.Watches, ID: 1, Lock: "orders"}, now)
	}
	for left, session := range []string{"web.a", "web.d", "web.b", "web.c"} {
		d.watches.remove(d.watches.find(session, 1))
		of := d.watches.ofLock["orders"]
		if len(of) != 3-left {
			t.Fatalf("%d watches are left after that of %s", len(of), session)
		}
		for place, one := range of {
			if one.place != place {
				t.Errorf("after that of %s the watch of %s at place %d has place %d", session, one.session, place, one.place)
			}
		}
	}
}
