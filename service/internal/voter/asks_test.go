package voter

import (
	"fmt"
	"strings"
	"testing"
	"time"

	"calvundek.example/service/internal/moment"
	"calvundek.example/service/internal/wire"
	"calvundek.example/service/transport"
	"github.com/prometheus/client_golang/prometheus/testutil"
)

// lookerHears returns what a voter replies to a message of who has no number.
func (d *Daemon) lookerHears(lines string) string {
	h := wire.Header{Cluster: "test", Coterie: d.mark, Kind: wire.FromClient, Name: "looker"}
	d.sort(transport.Message{Mailbox: wire.VoterBox("test", 0, "web"), Data: append(h.Append(nil), lines...)})
	d.takeAll()
	reply := string(d.out["web.looker"])
	delete(d.out, "web.looker")
	return reply
}

// sessions returns a voter with sessions of "jobs" under these numbers.
func sessions(t *testing.T, numbers ...int) *Daemon {
	t.Helper()
	d, _ := alone(t, 2000)
	for _, number := range numbers {
		d.repliesTo("jobs", number, fmt.Sprintf(". claim %d 1 1000\n", number))
	}
	return d
}

// A session's note is shown to whoever asks who has a lock, and to operators. That of a request takes its place. Neither shows a name.
func TestWhoSeesNotes(t *testing.T) {
	d := sessions(t, 1, 2)
	if reply := d.repliesTo("jobs", 1, ". open 0\n. note m1 17 root nightly\norders request 1 0 5\n"); !strings.Contains(reply, ". noted\n") ||
		!strings.Contains(reply, "orders locked") {
		t.Fatalf("%q", reply)
	}
	d.repliesTo("jobs", 2, "orders request 2 0 9\n")
	want := ". has 7 orders 4 1 5 0 jobs m1 17 root nightly\n"
	d.votes["orders"].granted = moment.Of(time.Now().Add(time.Hour)) // no clock
	if reply := d.lookerHears(". who 7 orders\n"); reply != want {
		t.Errorf("%q", reply)
	}
	if reply := d.lookerHears(". who 8 stock\n"); reply != ". has 8 stock 0\n" || len(d.votes) != 1 {
		t.Errorf("%q", reply)
	}
	for i, about := range []string{"orders 6 no", "stock 5 no", "orders 5 yes"} {
		d.repliesTo("jobs", 1, ". about "+about+"\n")
		want := []string{"m1 17 root nightly", "m1 17 root nightly", "yes"}[i]
		if reply := d.lookerHears(". who 7 orders\n"); !strings.HasSuffix(reply, " jobs "+want+"\n") || strings.Contains(reply, "session-") {
			t.Errorf("%s: %q", about, reply)
		}
	}
	if s := allOf(t, d); s.Sessions[1].Number != 1 || s.Sessions[1].Note != "m1 17 root nightly" || s.Sessions[2].Note != "" ||
		s.Votes[0].Note != "yes" {
		t.Errorf("%+v", s)
	}
}

// A note ends with its session: a later one of the number does not have it. Nobody says one for another session, and one
// that is too long is no line.
func TestWhoseNoteItIs(t *testing.T) {
	d, says := alone(t, 10)
	d.repliesTo("jobs", 1, ". claim 1 1 1000\n")
	says(". note zero\n")
	d.repliesTo("jobs", 1, ". note one\norders request 1 0 5\n")
	d.lookerHears(". note evil\n") // the header of who has no number has number 0
	if d.shard(0).noteOf(1) != "one" || d.shard(0).noteOf(0) != "zero" {
		t.Errorf("%q, %q", d.shard(0).noteOf(1), d.shard(0).noteOf(0))
	}
	refused := testutil.ToFloat64(d.m.refused)
	reply := d.repliesTo("jobs", 1, ". note "+strings.Repeat("x", wire.MostNote+1)+"\nstock request 1 0 6\n")
	if d.shard(0).noteOf(1) != "one" || reply != "" || testutil.ToFloat64(d.m.refused) != refused+1 {
		t.Errorf("%q: %q", reply, d.shard(0).noteOf(1))
	}
	d.shard(0).end(1, d.shard(0).name(1), 1)
	h := wire.Header{Cluster: "test", Coterie: d.mark, Kind: wire.FromClient, Number: 1, Epoch: 2, Reserved: 2000, Name: "later"}
	d.sort(transport.Message{Mailbox: wire.VoterBox("test", 0, "jobs"), Data: append(h.Append(nil), ". claim 1 2 100\n. open 0\n"...)})
	d.takeAll()
	if d.shard(0).row(1).Epoch != 2 || d.shard(0).noteOf(1) != "" {
		t.Errorf("%+v has the note %q", d.shard(0).row(1), d.shard(0).noteOf(1))
	}
	if reply := d.lookerHears(". who 1 orders\n"); strings.Contains(reply, "one") {
		t.Errorf("%q", reply)
	}
}

// A voter that started has no note until the session says it again.
func TestNoteAfterAStart(t *testing.T) {
	d := sessions(t, 1)
	d.repliesTo("jobs", 1, ". note one\n")
	if err := d.save(); err != nil {
		t.Fatal(err)
	}
	again := reopened(t, d)
	if again.shard(0).noteOf(1) != "" {
		t.Errorf("%q", again.shard(0).noteOf(1))
	}
	if again.repliesTo("jobs", 1, ". open 0\n. note one\n"); again.shard(0).noteOf(1) != "one" {
		t.Errorf("%q", again.shard(0).noteOf(1))
	}
}

// A program that knows words which this one does not know is heard: what is behind them counts. And one that asks nothing hears none
// of the new words.
func TestOtherPrograms(t *testing.T) {
	d := sessions(t, 1, 2)
	if reply := d.repliesTo("jobs", 1, ". weather 17 fine\norders request 1 0 5\n"); !strings.Contains(reply, "orders locked") {
		t.Errorf("%q", reply)
	}
	reply := d.repliesTo("jobs", 2, ". open 0\norders request 2 0 6\nstock request 2 0 7\norders release 2 0 6\n")
	for _, word := range []string{". noted", ". has", ". listed"} {
		if strings.Contains(reply, word) {
			t.Errorf("%q", reply)
		}
	}
}

// Who tries hears who has the vote, before it hears that it is not to be had. Who waits, and who has it, hear nothing of it.
func TestWhoTriesHearsWho(t *testing.T) {
	d := sessions(t, 1, 2)
	d.repliesTo("jobs", 1, ". note one\norders request 1 0 5 try\n")
	if reply := d.repliesTo("jobs", 1, "orders request 1 0 5 try\n"); strings.Contains(reply, ". has") {
		t.Errorf("who has it: %q", reply)
	}
	if reply := d.repliesTo("jobs", 2, "orders request 2 0 6\n"); strings.Contains(reply, ". has") {
		t.Errorf("who waits: %q", reply)
	}
	reply := d.repliesTo("jobs", 2, "orders request 2 0 6 try\n")
	if has, held := strings.Index(reply, ". has 0 orders 4 1 5 "), strings.Index(reply, ". held orders 6"); has < 0 || held < has {
		t.Errorf("%q", reply)
	}
}

// Pages have all locks that somebody has, though votes come and go between them, and each costs so much at most.
func TestPages(t *testing.T) {
	d := sessions(t, 1)
	d.shard(0).seat(1).reserved = 0
	many := 3*mostScanned + 17
	for i := 0; i < many; i++ {
		name := fmt.Sprintf("a-%d", i)
		if i%8 == 0 {
			name = fmt.Sprintf("b-%d", i)
		}
		voter, err := d.newVoter()
		if err != nil {
			t.Fatal(err)
		}
		v := d.add(name, voter)
		d.noteAsk(v, 1, uint64(i+1), time.Now())
	}
	for prefix, want := range map[string]int{"": many, "b-": (many + 7) / 8, "c": 0} {
		seen, place, pages := map[string]bool{}, uint64(0), 0
		for {
			reply := d.lookerHears(strings.TrimRight(fmt.Sprintf(". list 3 %d %s", place, prefix), " ") + "\n")
			lines := strings.Split(strings.TrimSuffix(reply, "\n"), "\n")
			for _, line := range lines[:len(lines)-1] {
				told, ok := wire.ReadTold([]byte(strings.TrimPrefix(line, ". ")))
				if !ok || !strings.HasPrefix(told.Lock, prefix) {
					t.Fatalf("%q", line)
				}
				seen[told.Lock] = true
			}
			end, ok := wire.ReadTold([]byte(strings.TrimPrefix(lines[len(lines)-1], ". ")))
			if !ok || end.Kind != wire.IsListed || end.From != place || len(lines) > mostListed+1 || end.Next >= uint64(many) {
				t.Fatalf("%q", lines[len(lines)-1])
			}
			if place = end.Next; place == 0 {
				break
			}
			if pages++; pages == 2 && prefix == "" { // one that was shown goes, and one that was not
				d.busy.remove(d.votes[fmt.Sprintf("a-%d", many-2)], inBusy)
				d.busy.remove(d.votes["a-1"], inBusy)
			}
		}
		if prefix == "" {
			seen["a-1"] = true
		}
		if len(seen) != want || pages > many/mostScanned+want/mostListed+1 {
			t.Errorf("%q: %d of %d, in %d pages", prefix, len(seen), want, pages)
		}
		for name := range d.votes {
			d.busy.add(d.votes[name], inBusy)
		}
	}
	if reply := d.lookerHears(". list 1 0\n. list 2 0\n. who 3 x\n"); strings.Contains(reply, "listed 2") || strings.Contains(reply, "has 3 ") {
		t.Errorf("one message asks for two pages")
	}
}

// Who asks for a number hears how many sessions there are, for how long one was silent, and for how long a request has waited.
func TestCrowd(t *testing.T) {
	d := sessions(t, 1, 2)
	hears := func() (told wire.Told) {
		for _, line := range strings.Split(d.lookerHears(". hello\n"), "\n") {
			if one, ok := wire.ReadTold([]byte(strings.TrimPrefix(line, ". "))); ok {
				told = one
			}
		}
		return told
	}
	if told := hears(); told.Kind != wire.Sessions || told.Open != 3 || told.Silent > 1000 || told.Waits != 0 {
		t.Errorf("%+v", told)
	}
	d.repliesTo("jobs", 1, "orders request 1 0 5\n")
	d.repliesTo("jobs", 2, "orders request 2 0 6\n")
	d.votes["orders"].extras.others.of(2).since = moment.Of(time.Now().Add(-time.Minute))
	d.shard(0).seat(1).heard -= time.Hour
	d.measure(time.Now())
	if told := hears(); told.Open != 3 || told.Silent < 3500_000 || told.Waits < 60_000 || told.Waits > 70_000 {
		t.Errorf("%+v", told)
	}
}

// Who does not want to wait gets the vote of a session that is silent for a TTL, as who waits does. It is shown as nobody's.
func TestWhoTriesGetsTheVoteOfTheDead(t *testing.T) {
	d := sessions(t, 1, 2)
	d.repliesTo("jobs", 1, "orders request 1 0 5\n")
	if reply := d.repliesTo("jobs", 2, "orders request 2 0 9 try\n"); !strings.Contains(reply, ". held orders 9 ") {
		t.Errorf("the holder lives: %q", reply)
	}
	d.repliesTo("jobs", 2, "orders release 2 0 9\n")
	passes(&d.shard(0).table, time.Now().Add(2*d.leases.ttl))
	if reply := d.lookerHears(". who 7 orders\n"); reply != ". has 7 orders 0\n" {
		t.Errorf("the dead one is shown: %q", reply)
	}
	if reply := d.repliesTo("jobs", 2, "orders request 2 0 10 try\n"); !strings.Contains(reply, "orders locked ") {
		t.Errorf("the holder is gone: %q", reply)
	}
	if lapses := d.shard(0).row(1).Lapses; lapses != 1 {
		t.Errorf("%d lapses are told to it", lapses)
	}
}
