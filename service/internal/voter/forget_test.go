package voter

import (
	"fmt"
	"io"
	"path/filepath"
	"testing"
	"time"

	"calvundek.example/service/internal/config"
	"calvundek.example/service/internal/event"
	"calvundek.example/service/internal/moment"
	"calvundek.example/service/internal/wire"
	"go.etcd.io/bbolt"
)

// alone returns a voter that is a quorum by itself, and serves, and a function that hands lines of a
// session to it.
func alone(t testing.TB, most int) (*Daemon, func(lines string)) {
	t.Helper()
	plan := texts(t, "voters = [\"a\"]\nquorums = [[\"a\"]]\n")
	cluster := &config.Cluster{ID: "test", Servers: []string{"none"}, TTL: config.Duration{Duration: 2 * time.Second},
		Coterie: plan.Coterie, Plan: plan.Plan}
	if err := cluster.Check(); err != nil {
		t.Fatal(err)
	}
	second := config.Duration{Duration: time.Second}
	own := &config.Voter{Voter: "a", Data: filepath.Join(t.TempDir(), "a"), MaxLocks: most, First: second, Most: second}
	if _, err := Init(own, cluster); err != nil {
		t.Fatal(err)
	}
	d, err := Open(own, cluster, &post{}, event.To(io.Discard))
	if err != nil {
		t.Fatal(err)
	}
	t.Cleanup(func() { d.store.disk.Close() })
	d.start(time.Now())
	if !d.join.done {
		t.Fatal("it waits for nobody")
	}
	says := func(lines string) {
		h := wire.Header{Cluster: "test", Coterie: d.mark, Kind: wire.FromClient, Epoch: 1, Reserved: 1000, Name: "me"}
		hand(d, append(h.Append(nil), lines...))
		if err := d.commit(time.Now()); err != nil {
			t.Fatal(err)
		}
	}
	says(". claim 0 1 1000\n")
	return d, says
}

// Locks that are used once are forgotten: memory and file are those of the locks in use. One that is
// asked for again begins above all that it gave.
func TestOneTimeNames(t *testing.T) {
	d, says := alone(t, 10)
	now, last := time.Now(), uint64(0)
	for i := 1; i <= 200; i++ {
		says(fmt.Sprintf("lock-%d request 0 0 %d\n", i, i))
		v := d.votes[fmt.Sprint("lock-", i)]
		if v == nil || v.held().Stamp != uint64(i) {
			t.Fatalf("lock %d is not given", i)
		}
		last = v.held().Number
		says(fmt.Sprintf("lock-%d release 0 0 %d\n", i, i))
		if i%5 == 0 {
			now = now.Add(d.restsFor)
			d.round(now)
		}
	}
	if err := d.save(); err != nil {
		t.Fatal(err)
	}
	rows := 0
	_ = d.store.disk.(*fileDisk).db.View(func(tx *bbolt.Tx) error { rows = tx.Bucket(voteBucket).Stats().KeyN; return nil })
	if len(d.votes) > 10 || rows > 10 || len(d.resting) > 10 {
		t.Errorf("%d locks are kept, %d in the file", len(d.votes), rows)
	}
	says("lock-200 request 0 0 500\n")
	if v := d.votes["lock-200"]; v == nil || v.held().Number <= last {
		t.Errorf("grant %+v after %d", v, last)
	}
	if err := verify(file(d.own.Data)); err == nil {
		t.Error("the file is not in use")
	}
}

// Only locks in use fill a voter: another one takes the place of the one that rested longest.
func TestRoomOfRestingLocks(t *testing.T) {
	d, says := alone(t, 10)
	for i := 1; i <= 100; i++ {
		says(fmt.Sprintf("lock-%d request 0 0 %d\nlock-%d release 0 0 %d\n", i, i, i, i))
	}
	if len(d.votes) != 10 || d.votes["lock-100"] == nil || d.votes["lock-1"] != nil {
		t.Errorf("%d locks are kept", len(d.votes))
	}
	for i := 101; i <= 111; i++ {
		says(fmt.Sprintf("lock-%d request 0 0 %d\n", i, i))
	}
	if d.votes["lock-110"] == nil || d.votes["lock-111"] != nil {
		t.Error("a lock beyond the most is given, or one within is not")
	}
}

// A lock that somebody has again, or of which a line came meanwhile, is kept.
func TestWhatIsNotForgotten(t *testing.T) {
	d, says := alone(t, 10)
	says("held request 0 0 1\nheld release 0 0 1\nheld request 0 0 4\nused request 0 0 2\nused release 0 0 2\nleft request 0 0 3\nleft release 0 0 3\n")
	for _, name := range []string{"held", "left"} {
		d.votes[name].needs().heard = moment.Of(time.Now().Add(-d.restsFor))
	}
	for i := range d.resting {
		d.resting[i].since = moment.Of(time.Now().Add(-d.restsFor))
	}
	d.round(time.Now())
	if d.votes["held"] == nil || d.votes["used"] == nil || d.votes["left"] != nil {
		t.Errorf("kept: %v", d.votes)
	}
	says("left release 0 0 3\nleft relinquish 0 0 1\n")
	if d.votes["left"] != nil {
		t.Error("a late line makes a lock")
	}
}

// A voter that is asked for more than half of its grants asks for the next ceiling, and its votes go
// on above the last one.
func TestCeilings(t *testing.T) {
	d, says := alone(t, 10)
	before := d.ceiling
	d.floor = before - 3
	for i := 1; i <= 6; i++ {
		says(fmt.Sprintf("orders request 0 0 %d\n", i))
		if v := d.votes["orders"]; v == nil || v.held().Number != before-3+uint64(i) {
			t.Fatalf("grant %d: %+v", i, v)
		}
		says(fmt.Sprintf("orders release 0 0 %d\n", i))
	}
	if d.ceiling <= before || d.store.own.Ceiling != d.ceiling {
		t.Errorf("ceiling %d after %d", d.ceiling, before)
	}
}

// A lock is not forgotten for another one before what it granted is saved.
func TestNoLockIsForgottenUnsaved(t *testing.T) {
	d, says := alone(t, 1)
	h := wire.Header{Cluster: "test", Coterie: d.mark, Kind: wire.FromClient, Epoch: 1, Reserved: 1000, Name: "me"}
	hand(d, append(h.Append(nil), "a request 0 0 1\na release 0 0 1\nb request 0 0 2\n"...))
	if d.votes["a"] == nil || d.votes["b"] != nil {
		t.Errorf("%d locks", len(d.votes))
	}
	if err := d.commit(time.Now()); err != nil {
		t.Fatal(err)
	}
	says("b request 0 0 3\n")
	if d.votes["a"] != nil || d.votes["b"] == nil {
		t.Errorf("%d locks after the save", len(d.votes))
	}
}

// Who has a vote for which nobody waits is reminded after ten minutes, and then every ten, and soon once somebody came to wait for it.
func TestRemindersOfUnwantedVotes(t *testing.T) {
	d, says := alone(t, 10)
	says("orders request 0 0 1\n")
	now, v := time.Now(), d.votes["orders"]
	reminders := func(most time.Duration) (count int) {
		for end := now.Add(most); now.Before(end); {
			now = now.Add(100 * time.Millisecond)
			if d.roundOf(v, now); len(d.out) > 0 {
				count++
				d.out = map[string][]byte{}
			}
		}
		return count
	}
	if count := reminders(time.Hour); count < 4 || count > 6 {
		t.Errorf("%d reminders in an hour", count)
	}
	d.noteAsk(v, 1, 2, now)
	if count := reminders(3 * time.Second); count < 2 {
		t.Errorf("%d reminders in three seconds while somebody waits", count)
	}
}
