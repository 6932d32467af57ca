package voter

import (
	"bytes"
	"fmt"
	"testing"
	"time"

	"calvundek.example/service/internal/config"
	"calvundek.example/service/internal/event"
	"calvundek.example/service/internal/voter/outbox"
	"calvundek.example/service/qlock"
	"calvundek.example/service/transport"
	"github.com/prometheus/client_golang/prometheus/testutil"
)

// post is a carrier that keeps what was sent.
type post struct{ sent [][]byte }

func (p *post) Send(_ string, message []byte) error { p.sent = append(p.sent, message); return nil }

func (p *post) Listen(string) (<-chan transport.Message, error) { return nil, nil }

// posts returns where all is put that a voter sends from now on.
func (d *Daemon) posts() *post {
	p := &post{}
	d.sender = outbox.NewSender(p)
	return p
}

// nothing is a state in which nothing changed.
type nothing struct{}

func (nothing) MustSave() bool                { return false }
func (nothing) MaySave() bool                 { return false }
func (nothing) Save(map[*vote]struct{}) error { return nil }

// changed returns how many votes are not saved.
func (d *Daemon) changed() (count int) {
	for _, v := range d.votes {
		if must, may := d.draft.Has(v); must || may {
			count++
		}
	}
	return count
}

// save saves all that changed.
func (d *Daemon) save() error {
	d.draft.Hasten()
	_, err := d.draft.Commit(time.Now(), unsaved{d})
	return err
}

// deliver sends what leaves after a save without one.
func (d *Daemon) deliver() {
	d.address()
	saved, _ := d.draft.Commit(time.Now(), nothing{})
	d.sender.Deliver(saved)
}

// says lets the session that has a number say a line about a lock.
func says(d *Daemon, v *vote, client int, line string, now time.Time) {
	text, word := cutWord([]byte(line))
	from := qlock.Speaker{Session: d.shard(0).owner(client), Epoch: d.shard(0).row(client).Epoch, Inside: word == inside}
	shown, lines, err := d.call(v, func(out []byte) ([]byte, qlock.LockShown, error) {
		return d.proved(v).TakeFrom(d.shard(0).rows(), d.sinceOf(v), d.isQuiet(), from, text, out)
	})
	if err == nil && shown.IsTaken {
		d.note(v, client, shown, lines, now)
	}
}

// A lock without a grant left is logged once, and nothing is let go there.
func TestSpentLock(t *testing.T) {
	var log bytes.Buffer
	now := time.Unix(1000, 0)
	d := &Daemon{own: &config.Voter{}, store: &store{}, ceiling: 1, join: joining{done: true}, m: newMetrics(), log: event.To(&log), votes: map[string]*vote{},
		users: map[string]*usage{}, out: map[string][]byte{}, leases: newLeases(), cluster: &config.Cluster{}}
	voter, err := qlock.NewVoter(0, 1)
	if err != nil {
		t.Fatal(err)
	}
	v := d.add("orders", voter)
	for client := 0; client < 2; client++ {
		d.shard(0).set(client, of("jobs.s", 1, 0, 10))
		says(d, v, client, fmt.Sprintf("request %d 0 1", client), now)
		d.shard(0).set(client, Session{Reserved: 10})
	}
	for i := 0; i < 100; i++ {
		d.round(now)
	}
	if spent, expired := bytes.Count(log.Bytes(), []byte("grants-spent")), bytes.Count(log.Bytes(), []byte("lease-expired")); spent != 1 || expired != 0 {
		t.Errorf("logged %d and %d times", spent, expired)
	}
}

// While all grants below the ceiling are given, that is logged once, and not for each lock that is asked for.
func TestSpentCeilingIsLoggedOnce(t *testing.T) {
	d, _ := alone(t, 10)
	d.repliesTo("jobs", 1, ". claim 1 1 100\n")
	var log bytes.Buffer
	d.log, d.floor, d.join.done = event.To(&log), d.ceiling, true
	for i := 1; i <= 5; i++ {
		d.repliesTo("jobs", 1, fmt.Sprintf("lock-%d request 1 0 %d\n", i, i))
	}
	if spent := bytes.Count(log.Bytes(), []byte("grants-spent")); spent != 1 || len(d.votes) > 0 {
		t.Errorf("logged %d times, %d locks", spent, len(d.votes))
	}
}

// Each line of a vote leaves: LOCKED, FAIL to whom waits behind another one, and INQUIRE.
func TestEachLineLeaves(t *testing.T) {
	now := time.Unix(1000, 0)
	d := &Daemon{cluster: &config.Cluster{}, own: &config.Voter{}, store: &store{}, ceiling: 10, m: newMetrics(), votes: map[string]*vote{},
		users: map[string]*usage{}, out: map[string][]byte{},
		leases: leasesAt(now)}
	voter, err := qlock.NewVoter(0, 10)
	if err != nil {
		t.Fatal(err)
	}
	v := d.add("orders", voter)
	for _, one := range []struct {
		client      int
		stamp       uint64
		hears, line string
	}{
		{1, 105, "jobs.session-1", "orders locked 0 1 105 1 105\n"},
		{2, 107, "jobs.session-2", "orders fail 0 2 107 107\n"},
		{3, 103, "jobs.session-1", "orders inquire 0 1 1 107\n"},
	} {
		name := fmt.Sprint("jobs.session-", one.client)
		d.shard(0).set(one.client, of(name, 1, 100, 200))
		d.shard(0).named(one.client, name)
		says(d, v, one.client, fmt.Sprintf("request %d 0 %d", one.client, one.stamp), now)
		if got := string(d.out[one.hears]); got != one.line {
			t.Errorf("%s hears %q, not %q", one.hears, got, one.line)
		}
		delete(d.out, one.hears)
	}
	// who has the vote hears so again when it says so
	says(d, v, 1, "request 1 0 105", now)
	if got := string(d.out["jobs.session-1"]); got != "orders locked 0 1 105 1 107\n" {
		t.Errorf("a renewal hears %q", got)
	}
}

// heldUp is a carrier whose messages take long.
type heldUp struct {
	post
	takes func()
}

func (s *heldUp) Send(box string, message []byte) error {
	s.takes()
	return s.post.Send(box, message)
}

// A turn that took long, as the way to the broker did, puts no round off: who waits for somebody who is gone would wait on.
func TestRoundAfterASlowTurn(t *testing.T) {
	d := claimed(t, 2)
	d.repliesTo("jobs", 1, "orders request 1 0 5\n")
	d.repliesTo("jobs", 2, "orders request 2 0 6\n")
	now := d.now()
	d.around.Now = func() time.Time { return now }
	d.sender = outbox.NewSender(&heldUp{takes: func() { now = now.Add(3 * time.Second) }})
	before := testutil.ToFloat64(d.m.reminders)
	for i := 0; i < 2; i++ {
		if _, err := d.Turn(); err != nil {
			t.Fatal(err)
		}
		d.sender = outbox.NewSender(&post{})
		now = now.Add(2 * tick)
	}
	if testutil.ToFloat64(d.m.reminders) == before {
		t.Error("there was no round after it")
	}
}

// A shard knows the votes that somebody has or waits for, and counts those of a session by them.
func TestBusyVotesOfAShard(t *testing.T) {
	d := claimed(t, 2)
	s := d.shard(0)
	for i, one := range []struct {
		number   int
		lines    string
		busy     int
		requests [2]int32 // of the two sessions
	}{
		{1, "orders request 1 0 1\nstock request 1 0 2\n", 2, [2]int32{2, 0}},
		{2, "orders request 2 0 1\n", 2, [2]int32{2, 1}},
		{1, "orders release 1 0 1\n", 2, [2]int32{1, 1}},
		{2, "orders release 2 0 1\n", 1, [2]int32{1, 0}},
		{1, "stock release 1 0 2\n", 0, [2]int32{0, 0}},
	} {
		d.repliesTo("jobs", one.number, one.lines)
		for number := 1; number <= 2; number++ {
			if s.seat(number).requests > 0 {
				s.seat(number).requests = 99
			}
			d.recount(s, number)
		}
		if requests := [2]int32{s.seat(1).requests, s.seat(2).requests}; len(s.busy.all) != one.busy || requests != one.requests {
			t.Errorf("%d: %d votes, and %v requests", i, len(s.busy.all), requests)
		}
	}
}
