package voter

import (
	"encoding/base64"
	"encoding/json"
	"errors"
	"fmt"
	"io"
	"strings"
	"testing"
	"time"

	"calvundek.example/service/internal/config"
	"calvundek.example/service/internal/event"
	"calvundek.example/service/qlock"
)

const (
	two   = "voters = [\"a\", \"b\", \"c\"]\nquorums = [[\"a\", \"b\"], [\"a\", \"c\"], [\"b\", \"c\"]]\n"
	all   = "voters = [\"a\", \"b\", \"c\"]\nquorums = [[\"a\", \"b\", \"c\"]]\n"
	one   = "voters = [\"a\", \"b\", \"c\"]\nquorums = [[\"a\"]]\n"
	moved = "voters = [\"b\", \"a\", \"c\"]\nquorums = [[\"a\", \"b\", \"c\"]]\n"
)

// texts returns a coterie with its plan.
func texts(t testing.TB, coterie string) Texts {
	t.Helper()
	plan, err := qlock.FindPlan(coterie)
	if err != nil {
		t.Fatal(err)
	}
	return Texts{coterie, plan.Text}
}

// A voter takes the next plan if it is bridged with its own, and no other, and one after another.
func TestWhichPlansAreTaken(t *testing.T) {
	first := Generations{Now: texts(t, two), Settled: true}
	for _, wrong := range []struct {
		what   string
		number uint64
		next   Texts
		why    error
	}{
		{"a plan that is not bridged", 1, texts(t, one), config.ErrBridge},
		{"a plan with other places", 1, texts(t, moved), config.ErrPlaces},
		{"a later plan", 2, texts(t, all), ErrNumber},
		{"another plan of the same number", 0, texts(t, all), ErrNumber},
		{"no plan", 1, Texts{all, ""}, qlock.Refused},
	} {
		if _, err := first.next(wrong.number, wrong.next); !errors.Is(err, wrong.why) {
			t.Errorf("%s: %v", wrong.what, err)
		}
	}
	second, err := first.next(1, texts(t, all))
	if err != nil || second.oldest() != 0 || second.oldMark() != first.mark() {
		t.Fatal(second, err)
	}
	if again, err := second.next(1, texts(t, all)); err != nil || again.Old == nil {
		t.Error("the same plan again:", err)
	}
	if _, err := second.next(2, texts(t, two)); !errors.Is(err, ErrUnderWay) {
		t.Error("a second exchange:", err)
	}
	retired := second.retire()
	if _, err := retired.next(2, texts(t, two)); !errors.Is(err, ErrSettle) {
		t.Error("before all is known:", err)
	}
	retired.Settled = true
	third, err := retired.next(2, texts(t, two))
	if err != nil || third.mark() == first.mark() || !third.knows(first.mark()) {
		t.Error("back to the first coterie:", err)
	}
}

// A state is opened with the file of before an exchange, of it, or of a later one, and with no other.
func TestWhichFilesAreFollowed(t *testing.T) {
	first := Generations{Now: texts(t, two), Settled: true}
	second, err := first.next(1, texts(t, all))
	if err != nil {
		t.Fatal(err)
	}
	for _, one := range []struct {
		what        string
		state, file Generations
		number      uint64
		err         error
	}{
		{"the same", first, first, 0, nil},
		{"a newer file", first, second, 1, nil},
		{"a newer file without the old plan", first, second.retire(), 1, nil},
		{"an older file", second, first, 1, nil},
		{"an older file after all", second.retire(), first, 1, nil},
		{"another coterie", first, Generations{Now: texts(t, all)}, 0, ErrOther},
		{"another older coterie", second, Generations{Now: texts(t, all)}, 0, ErrOther},
		{"another coterie of this number", second, Generations{Number: 1, Now: texts(t, one)}, 0, ErrOther},
	} {
		g, _, err := one.state.follow(one.file)
		if !errors.Is(err, one.err) || err == nil && (g.Number != one.number || !g.knows(one.state.mark())) {
			t.Errorf("%s: plan %d, %v", one.what, g.Number, err)
		}
	}
}

// of returns a session in use.
func of(name string, epoch, base, reserved uint64) Session {
	return Session{Hash: hashed(name), Epoch: epoch, Base: base, Reserved: reserved, Open: true, Used: true}
}

// A voter that lost its state takes of two sessions the one in use, and begins it above what the
// other one reserved.
func TestNewer(t *testing.T) {
	claim := Session{Hash: hashed("c"), Epoch: 6, Base: 50, Reserved: 50, Open: true}
	for _, one := range []struct {
		what       string
		a, b, want Session
	}{
		{"a claim does not end a session in use", of("a", 5, 10, 20), claim, of("a", 5, 50, 50)},
		{"a newer session", of("a", 5, 10, 80), of("b", 6, 30, 40), of("b", 6, 80, 80)},
		{"one session", of("a", 5, 10, 20), of("a", 5, 15, 18), of("a", 5, 15, 20)},
		{"two of one epoch", of("a", 5, 10, 20), of("b", 5, 15, 18), Session{Epoch: 5, Base: 20, Reserved: 20}},
	} {
		if got, back := newer(one.a, one.b), newer(one.b, one.a); got != one.want || back != one.want {
			t.Errorf("%s: %v and %v", one.what, got, back)
		}
	}
}

// What a voter learns of sessions raises what is reserved, and ends no session but for a newer one.
func TestLearn(t *testing.T) {
	now := time.Unix(1000, 0)
	table := tableAt(now)
	table.claim(3, "a", 5, 0, now)
	admits(table, 3, "a", 5, 100, now)
	for _, one := range []struct {
		what string
		row  Session
		want Session
	}{
		{"an older session that reserved more", Session{Hash: hashed("b"), Epoch: 4, Reserved: 300}, of("a", 5, 0, 300)},
		{"one that is over elsewhere", Session{Hash: hashed("x"), Epoch: 5, Reserved: 200}, of("a", 5, 0, 300)},
		{"a newer one that only claimed", Session{Hash: hashed("c"), Epoch: 6, Base: 250, Reserved: 310, Open: true}, of("a",
			5, 0, 310)},
		{"a newer one", of("c", 6, 250, 260), of("c", 6, 310, 310)},
		{"one that is newer still", of("d", 7, 400, 410), of("d", 7, 400, 410)},
	} {
		table.learn(3, one.row, now)
		if table.row(3) != one.want {
			t.Errorf("%s: %v", one.what, table.row(3))
		}
	}
}

// A plan is retired once no session that is heard has a request of the old one, and sessions that are silent are ended.
func TestRetire(t *testing.T) {
	now := time.Unix(1000, 0)
	d := &Daemon{cluster: &config.Cluster{}, plans: Generations{Now: texts(t, two), Settled: true},
		leases: leasesAt(now), newPeers: map[int]Peer{}, store: &store{}, log: event.To(io.Discard)}
	if err := d.markPlans(); err != nil {
		t.Fatal(err)
	}
	first := d.plans.mark()
	encode := base64.StdEncoding.EncodeToString
	next := texts(t, all)
	obey := func(words ...string) error {
		switch reply := d.exchange(words, now).(type) {
		case Refused:
			return errors.New(reply.Error)
		default:
			return nil
		}
	}
	if err := obey("would", "1", encode([]byte(next.Coterie)), encode([]byte(next.Plan))); err != nil || d.newPlans ||
		d.plans.Number != 0 {
		t.Fatal("a question changes something:", err)
	}
	if err := obey("exchange", "1", encode([]byte(next.Coterie)), encode([]byte(next.Plan))); err != nil || !d.newPlans {
		t.Fatal(err)
	}
	d.shard(0).claim(3, "a", 1, 0, now)
	d.shard(0).claim(4, "b", 1, 0, now)
	now = now.Add(2 * time.Second)
	passes(&d.shard(0).table, now)
	d.shard(0).admit(4, "b", 1, now)
	mark := d.plans.mark()
	for _, word := range []string{"ready", "retire"} {
		if err := obey(word, "1", first); err == nil || err.Error() != ErrAnother.Error() {
			t.Errorf("%s by the mark of another plan: %v", word, err)
		}
	}
	if err := obey("retire", "1", mark); err == nil || err.Error() != fmt.Sprintf("%v: [4]", ErrLag) {
		t.Error("client 4 may have a request of the old plan:", err)
	}
	d.shard(0).asks(4, 1, 1)
	if err := obey("ready", "1", mark); err != nil || d.oldMark == "" || !d.shard(0).row(3).Open {
		t.Error("a question changes something:", err)
	}
	if err := obey("retire", "1", mark); err != nil || d.oldMark != "" || d.shard(0).row(3).Open ||
		!d.shard(0).row(4).Open {
		t.Error("client 3 is silent:", err)
	}
	if d.shard(0).admit(3, "a", 1, now) != qlock.SessionOver {
		t.Error("a session that was ended goes on")
	}
	rows, err := json.Marshal(Knows{Sessions: map[int]Session{7: {Hash: hashed("c"), Epoch: 2, Reserved: 50}},
		Peers: map[int]Peer{2: {Identity: identity("C"), Start: 4, Process: process("p"), Ceiling: 900}}})
	if err != nil {
		t.Fatal(err)
	}
	if err := obey("settle", "1", mark, string(rows)); err == nil || err.Error() != ErrBelow.Error() || d.plans.Settled {
		t.Error("settled before it serves:", err)
	}
	if d.join.done, d.ceiling = true, 900; obey("settle", "1", mark, string(rows)) == nil || d.plans.Settled {
		t.Error("settled with a ceiling that another voter may have reached")
	}
	d.ceiling = 1000
	if err := obey("settle", "1", first, string(rows)); err == nil || d.plans.Settled {
		t.Error("settled by the mark of another plan:", err)
	}
	if err := obey("settle", "1", mark, string(rows)); err != nil || !d.plans.Settled ||
		d.shard(0).row(7).Reserved != 50 || d.peers[2].Ceiling != 900 || d.floor != 900 {
		t.Errorf("%v, %+v, %+v, %d", err, d.shard(0).row(7), d.peers[2], d.floor)
	}
	for _, words := range [][]string{{"retire", "2", mark}, {"retire", "1"}, {"settle", "0", mark, "{}"}, {"exchange",
		"x"}, {"exchange", "2", "!", "!"}, {"other", "1"}} {
		if obey(words...) == nil {
			t.Error(words)
		}
	}
}

// Once a plan is settled no vote gives a number any more that a voter of an older plan may have given, whether it was
// used since the start or not. So turns grow.
func TestTurnsGrowOverARetirement(t *testing.T) {
	text, err := json.Marshal(Knows{Sessions: map[int]Session{},
		Peers: map[int]Peer{1: {Identity: identity("B"), Process: process("p"), Ceiling: 900}}})
	if err != nil {
		t.Fatal(err)
	}
	for _, isPacked := range []bool{false, true} {
		d := sessions(t, 1, 2)
		d.repliesTo("jobs", 1, "orders request 1 0 5\n")
		now, grant := time.Now(), d.votes["orders"].held().Number
		if err := d.save(); err != nil {
			t.Fatal(err)
		}
		if isPacked {
			now = d.packsAll(now)
		}
		d.plans.Number, d.plans.Settled = 1, false
		if err := d.settle(1, d.plans.mark(), string(text), now); err != nil || d.floor != 900 {
			t.Fatal(err, d.floor)
		}
		reply := d.turned(t, 1, fmt.Sprintf(". turn orders 5 %d %d\n", grant, grant+40))
		if want := fmt.Sprintf(". turned orders 5 %d\n", grant+40); reply != want {
			t.Errorf("packed %v: %q", isPacked, reply)
		}
		d.repliesTo("jobs", 2, "orders request 2 0 9\n")
		d.repliesTo("jobs", 1, "orders release 1 0 5\n")
		if next := d.votes["orders"].held(); next.Client != 2 || next.Number != 901 {
			t.Errorf("packed %v: %+v after the turn %d, and the floor 900", isPacked, next, grant+40)
		}
	}
}

// A session that an operator or another voter ended may be inside by the old plan, and not know so. So for a TTL, and
// no longer, that plan is not retired.
func TestEndedSessionMayBeInside(t *testing.T) {
	for by, end := range map[string]func(d *Daemon, now time.Time){
		"an operator": func(d *Daemon, now time.Time) { d.evict(1, false, "alice", now) },
		"another voter": func(d *Daemon, now time.Time) {
			d.shard(0).learn(1, Session{Epoch: 2, Base: 1000, Reserved: 1000, Used: true}, now)
		},
	} {
		d := sessions(t, 1, 2)
		d.repliesTo("jobs", 1, "orders request 1 0 5\n")
		before, now := d.plans.Now, time.Now()
		d.plans.Number, d.plans.Old = 1, &before
		for _, number := range []int{0, 2} {
			d.shard(0).asks(number, 1, 1)
		}
		end(d, now)
		if _, err := d.isReady(1, d.plans.mark()); !errors.Is(err, ErrLag) || err.Error() != ErrLag.Error()+": [1]" {
			t.Errorf("%s ended it: %v", by, err)
		}
		epoch := d.shard(0).row(1).Epoch
		passes(&d.shard(0).table, now.Add(d.leases.ttl+periodOf(d.leases.ttl)))
		if err := d.retire(1, d.plans.mark()); err != nil || d.plans.Old != nil || d.shard(0).row(1).Epoch != epoch {
			t.Errorf("%s ended it, a TTL before: %v, and it is ended again", by, err)
		}
	}
}

// A session that goes on to say that it has a request of the old plan, and has none, hinders a retirement for four TTLs
// and no longer. One that has one here is waited for.
func TestWhoHasNoRequestHindersBriefly(t *testing.T) {
	d := sessions(t, 1, 2)
	before := d.plans.Now
	d.plans.Number, d.plans.Old = 1, &before
	d.shard(0).asks(0, 1, 1)
	d.repliesTo("jobs", 2, "orders request 2 0 5\n")
	begun := time.Now()
	d.laggards[1] = laggard{7, begun.Add(-time.Hour)} // a session that had the number before
	named := func(ttls float64, want string) {
		t.Helper()
		now := begun.Add(time.Duration(ttls * float64(d.leases.ttl)))
		d.around.Now = func() time.Time { return now }
		_, err := d.isReady(1, d.plans.mark())
		if got := strings.TrimPrefix(fmt.Sprint(err), ErrLag.Error()); got != want {
			t.Errorf("after %v TTL: %v", ttls, err)
		}
	}
	named(0, ": [1 2]")
	named(longestLag, ": [1 2]")
	d.repliesTo("jobs", 1, "stock request 1 0 5\n")
	named(longestLag+0.1, ": [1 2]") // it asks
	d.repliesTo("jobs", 1, "stock release 1 0 5\n")
	named(longestLag+1, ": [1 2]")
	named(2*longestLag+1.1, ": [2]")
	d.repliesTo("jobs", 2, "orders release 2 0 5\n. open 1\n")
	err, s := d.retire(1, d.plans.mark()), d.shard(0)
	if err != nil || s.row(1).Open || !s.row(2).Open || !s.rare(1).byWord {
		t.Errorf("%v, %+v, %+v", err, s.row(1), s.row(2))
	}
}

// A session that came by another voter's word may have a request of the old plan, whatever the one before it said.
func TestSessionThatIsLearnedMayBeBehind(t *testing.T) {
	now := time.Unix(1000, 0)
	table := tableAt(now)
	table.claim(5, "jobs.first", 1, 0, now)
	table.asks(5, 1, 1)
	if behind := table.behindOf(1); behind != 0 {
		t.Errorf("%b are behind", behind)
	}
	table.learn(5, Session{Hash: hashed("jobs.later"), Epoch: 3, Base: 10, Reserved: 20, Open: true, Used: true}, now)
	if behind := table.behindOf(1); behind != 1<<5 {
		t.Errorf("%b are behind, and not the session that was learned", behind)
	}
}
