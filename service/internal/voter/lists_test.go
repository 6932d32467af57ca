package voter

import (
	"encoding/json"
	"fmt"
	"math/rand"
	"strings"
	"testing"
	"time"

	"calvundek.example/service/internal/config"
	"calvundek.example/service/internal/level"
	"calvundek.example/service/internal/wire"
	"calvundek.example/service/qlock"
	"calvundek.example/service/transport"
)

// mostSent is less than what NATS takes in one message.
const mostSent = 900 << 10

// allOf returns all that the pages of sessions and votes have.
func allOf(t testing.TB, d *Daemon) (all Lists) {
	t.Helper()
	for _, list := range []string{"sessions", "votes"} {
		for from, pages := 0, 0; pages == 0 || from > 0; pages++ {
			text := written(d.obey([]string{list, fmt.Sprint(from)}, "bob", d.now()))
			var page struct {
				Lists
				Next int `json:"next"`
			}
			if err := json.Unmarshal(text, &page); err != nil || len(text) > mostSent || pages > 1000 {
				t.Fatalf("page %d of %s: %d bytes, %v", pages, list, len(text), err)
			}
			all.Sessions, all.Votes, from = append(all.Sessions, page.Sessions...), append(all.Votes, page.Votes...), page.Next
		}
	}
	return all
}

// A status has counts, however many sessions there are. Pages have all sessions, in the order of their numbers, and each has room in a
// message.
func TestPagesOfManySessions(t *testing.T) {
	const shards, numbers = 256, 40
	d, _ := sharded(t, shards)
	d.rests(shards, numbers)
	want := 1 + (shards-1)*numbers // and one more in the first shard
	var status Status
	text := written(d.obey([]string{"status"}, "bob", d.now()))
	if err := json.Unmarshal(text, &status); err != nil || len(text) > 2000 || status.Open != want {
		t.Errorf("a status of %d sessions has %d bytes: %+v, %v", want, len(text), status, err)
	}
	sessions := allOf(t, d).Sessions
	if len(sessions) != want || sessions[1].Note == "" || sessions[1].Hash == "" {
		t.Fatalf("%d of %d sessions", len(sessions), want)
	}
	for i, one := range sessions[1:] {
		if at := fmt.Sprintf("%d/%d", 1+i/numbers, i%numbers); one.Session != at || one.Shard != 1+i/numbers || one.Number != i%numbers {
			t.Fatalf("%+v in place of %s", one, at)
		}
	}
}

// Who reads the pages of votes sees each that stays, whatever goes meanwhile. A page has room in a message, also if very many wait for each
// vote.
func TestPagesOfVotes(t *testing.T) {
	d, now := reader(), time.Unix(1000, 0)
	d.own, d.votes = &config.Voter{}, map[string]*vote{}
	const count = 3000
	for i := 0; i < count; i++ {
		v := &vote{name: fmt.Sprintf("%064d", i), shard: d.shard(0)}
		for client := 0; client < qlock.MaxClients; client++ {
			v.addAsk(ask{client: client, stamp: 1 << 60, since: 1})
		}
		d.busy.add(v, inBusy)
	}
	random, gone, seen := rand.New(rand.NewSource(1)), map[string]bool{}, map[string]int{}
	pages := 0
	for from := 0; pages == 0 || from > 0; pages++ {
		text := d.pageOfVotes(from, now)
		var page struct {
			Lists
			Next int `json:"next"`
		}
		if err := json.Unmarshal(text, &page); err != nil || len(text) > 2*mostPage {
			t.Fatalf("%d bytes: %v", len(text), err)
		}
		for _, v := range page.Votes {
			seen[v.Lock]++
		}
		for n := 0; n < 20; n++ {
			v := d.busy.all[random.Intn(len(d.busy.all))]
			gone[v.name] = true
			d.busy.remove(v, inBusy)
		}
		if from = page.Next; pages > count {
			t.Fatal("the pages have no end")
		}
	}
	if pages < 2 || len(gone) < 2 {
		t.Fatalf("%d pages, %d votes went", pages, len(gone))
	}
	for i := 0; i < count; i++ {
		if name := fmt.Sprintf("%064d", i); !gone[name] && seen[name] == 0 {
			t.Fatalf("%s is left out", name)
		}
	}
}

// What can't be a place in a list has no page, and the list ends.
func TestPagesFromNowhere(t *testing.T) {
	d, _ := alone(t, 10)
	for _, words := range []string{"sessions -1", "sessions x", "sessions 64", "sessions 9999999999", "votes -1", "votes x", "votes 7"} {
		if text := string(written(d.obey(strings.Fields(words), "bob", d.now()))); !strings.HasSuffix(text, `:[],"next":0}`) {
			t.Errorf("%s: %s", words, text)
		}
	}
}

// The reply to `level` names ten sessions, and how many there are.
func TestLevelNamesFew(t *testing.T) {
	d, _ := sharded(t, 4)
	d.rests(4, 40)
	for _, s := range d.inTurn {
		s.seats.each(func(_ int, seat *seat) { seat.level = level.Oldest })
	}
	err := d.mayLevel(level.Oldest + 1)
	if err == nil || !strings.Contains(err.Error(), "121 sessions") || strings.Count(err.Error(), "/") != 10 {
		t.Error(err)
	}
}

// put lets somebody ask something.
func put(d *Daemon, from From, user, name, words string) {
	h := wire.Header{Cluster: "test", Coterie: "mark", Kind: wire.FromOperator, Name: name}
	box := wire.ReadBox("test", 0, user)
	if from == Operators {
		box = wire.WriteBox("test", 0, user)
	}
	d.Take(from, transport.Message{Mailbox: box, Data: append(h.Append(nil), words+"\n"...)})
}

// Questions of those who only look take a tenth of the loop's time at most. Some wait, and of each user fewer, so that one who asks all the
// time keeps no other one's out.
func TestQuestionsWait(t *testing.T) {
	began, step := time.Unix(1000, 0), time.Millisecond // an answer takes one step at least
	d, now := reader(), began
	d.around.Now = func() time.Time { now = now.Add(step); return now }
	d.replies = map[string]answer{}
	for i := 0; i < 100; i++ {
		put(d, Readers, "bob", fmt.Sprint("b", i), "status")
	}
	for i := 0; i < 2; i++ {
		put(d, Readers, "eve", fmt.Sprint("e", i), "status")
	}
	if most := 1 + int(now.Sub(began)/(10*step)); len(d.replies) > most || len(d.questions.waiting) > questionsOfUser+2 || d.noRoom.Load() < 50 {
		t.Fatalf("%d are answered, and not %d, %d wait, %d are dropped", len(d.replies), most, len(d.questions.waiting), d.noRoom.Load())
	}
	for i := 0; i < 100; i++ {
		now = now.Add(time.Second)
		d.Take(Nobody, transport.Message{})
	}
	of := func(name string) bool { return d.replies[wire.ReplyBox("test", name, 0)].body != nil }
	if !of("bob.b0") || !of("eve.e0") || !of("eve.e1") || len(d.questions.waiting) > 0 {
		t.Errorf("%d answers, %d wait", len(d.replies), len(d.questions.waiting))
	}
	step = 0
	if put(d, Readers, "bob", "late", "status"); !of("bob.late") {
		t.Error("who asks now and then waits")
	}
	d.questions.next = now.Add(time.Hour)
	if put(d, Readers, "1", "knows", "knows"); !of("1.knows") {
		t.Error("a voter that starts waits for those who look")
	}
	if put(d, Operators, "alice", "order", "lock x"); !of("alice.order") {
		t.Error("who may write waits for those who look")
	}
}

// Of replies those to orders of operators are kept, so many at most, the last ones, and none of those who only look. So an order that the
// network repeats lets nothing else go.
func TestKeptReplies(t *testing.T) {
	d := reader()
	d.replies = map[string]answer{}
	put(d, Operators, "alice", "first", "evict 5")
	kept := func() (bytes int) {
		for _, one := range d.done {
			bytes += len(one.question) + len(one.reply)
		}
		return bytes
	}
	before := kept()
	for i := 0; i < 10*mostDone; i++ {
		put(d, Readers, "bob", fmt.Sprint("b", i), "evict 5 "+strings.Repeat("x", 900<<10))
		d.questions = questions{}
	}
	if len(d.done) != 1 || kept() != before {
		t.Errorf("of those who look %d replies are kept, of %d bytes", len(d.done), kept())
	}
	d.shard(0).claim(5, "jobs.s5", 9, 0, d.now())
	if put(d, Operators, "alice", "first", "evict 5"); !d.shard(0).row(5).Open {
		t.Error("an order that comes again ends the next session")
	}
	others := func(count int) {
		for i := 0; i < count; i++ {
			put(d, Operators, "alice", fmt.Sprint("a", len(d.replies)), "evict x "+strings.Repeat("x", 100<<10))
			if len(d.done) > mostDone || kept() > mostDone<<10 {
				t.Fatalf("%d replies are kept, of %d bytes", len(d.done), kept())
			}
		}
	}
	others(2 * mostDone)
	put(d, Operators, "alice", "second", "evict 6")
	others(mostDone - 1)
	d.shard(0).claim(6, "jobs.s6", 9, 0, d.now())
	if put(d, Operators, "alice", "second", "evict 6"); !d.shard(0).row(6).Open {
		t.Error("one of the last replies is not kept")
	}
}

// BenchmarkStatus is what a status costs the loop with ten thousand sessions, and BenchmarkPage a page of them.
func BenchmarkStatus(b *testing.B) { benchmarkQuestion(b, "status") }

func BenchmarkPage(b *testing.B) { benchmarkQuestion(b, "sessions 0") }

func benchmarkQuestion(b *testing.B, words string) {
	c := newThrong(b, 1<<15, 4)
	c.joins(b, 10_000, 4096)
	b.ResetTimer()
	b.ReportAllocs()
	length := 0
	for i := 0; i < b.N; i++ {
		length = len(written(c.d.obey(strings.Fields(words), "bob", c.d.now())))
	}
	b.ReportMetric(float64(length), "bytes")
}
