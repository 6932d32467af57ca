package voter

import (
	"fmt"
	"strings"
	"testing"
	"time"

	"calvundek.example/service/internal/voter/outbox"
	"calvundek.example/service/internal/wire"
	"calvundek.example/service/transport"
	"github.com/prometheus/client_golang/prometheus/testutil"
)

// mail is a carrier that keeps what was sent, by mailboxes.
type mail struct{ sent map[string][]string }

func (m *mail) Send(box string, message []byte) error {
	m.sent[box] = append(m.sent[box], string(message))
	return nil
}

func (m *mail) Listen(string) (<-chan transport.Message, error) { return nil, nil }

// speaks returns a message of a number's first session, as in repliesTo.
func speaks(d *Daemon, number int, lines string) []byte {
	h := wire.Header{Cluster: "test", Coterie: d.mark, Kind: wire.FromClient, Number: number, Epoch: 1, Reserved: 1000,
		Name: fmt.Sprint("session-", number)}
	return append(h.Append(nil), lines...)
}

// sends lets a bundle of these messages come to a voter.
func (d *Daemon) sends(user string, messages ...[]byte) {
	var b wire.Bundle
	for _, message := range messages {
		b.Add(message)
	}
	d.sort(transport.Message{Mailbox: wire.VoterBox("test", 0, user), Data: b.Take()})
	d.takeAll()
}

// claimed returns a voter at which numbers from 1 on have sessions of a user.
func claimed(t *testing.T, sessions int) *Daemon {
	t.Helper()
	d, _ := alone(t, 10)
	for number := 1; number <= sessions; number++ {
		if reply := d.repliesTo("jobs", number, fmt.Sprintf(". claim %d 1 100\n", number)); !strings.Contains(reply, "claimed") {
			t.Fatal(reply)
		}
	}
	return d
}

// Each message of a bundle is taken as if it had come alone: those that are refused are counted, and the others go on.
func TestMessagesOfABundle(t *testing.T) {
	d := claimed(t, 4)
	counts := func() [3]float64 {
		return [3]float64{testutil.ToFloat64(d.m.received), testutil.ToFloat64(d.m.foreign), testutil.ToFloat64(d.m.refused)}
	}
	before := counts()
	other := wire.Header{Cluster: "other", Coterie: d.mark, Kind: wire.FromClient, Number: 1, Epoch: 1, Name: "session-1"}
	d.sends("jobs", speaks(d, 1, "qlock2 request 1 0 1\n"), other.Append(nil), []byte("junk\n"), speaks(d, 2, "qlock2 release 1 0 1\n"),
		speaks(d, 3, ". open 0\nno line\n"), speaks(d, 4, "qlock2 request 4 0 2\nstock request 4 0 3\n"))
	for session, want := range map[string]string{"1": "qlock2 locked 0 1 1 ", "3": ". opened 3 1 ", "4": "stock locked 0 4 3 "} {
		if reply := string(d.out["jobs.session-"+session]); !strings.Contains(reply, want) {
			t.Errorf("session %s hears %q", session, reply)
		}
	}
	if held := d.votes["qlock2"].held(); held.Client != 1 {
		t.Errorf("the vote is had by %+v", held)
	}
	for i, more := range [3]float64{6, 2, 2} {
		if count := counts()[i] - before[i]; count != more {
			t.Errorf("of messages, foreign ones and refused lines (%d): %v are counted, and not %v", i, count, more)
		}
	}
	if d.sends("other", speaks(d, 1, "lists request 1 0 4\n"), speaks(d, 2, "lists request 2 0 5\n")); d.votes["lists"] != nil {
		t.Error("a user speaks for sessions of another one")
	}
}

// A bundle that has more messages than one may have is taken up to there, and that is counted. One that is too long is not taken.
func TestLongBundles(t *testing.T) {
	d := claimed(t, 1)
	var many [][]byte
	for i := 0; i < wire.MostBundled; i++ {
		many = append(many, speaks(d, 1, "stock release 1 0 1\n"))
	}
	d.sends("jobs", append(many, speaks(d, 1, "orders request 1 0 1\n"))...)
	if d.votes["orders"] != nil || d.noRoom.Load() != 1 {
		t.Errorf("the last one is taken: %v, and %d are counted", d.votes["orders"], d.noRoom.Load())
	}
	if d.sends("jobs", append(many[1:], speaks(d, 1, "orders request 1 0 1\n"))...); d.votes["orders"] == nil {
		t.Error("the last one is not taken")
	}
	long := speaks(d, 1, strings.Repeat("stock release 1 0 1\n", mostMessage/40))
	if d.sends("jobs", long, long, speaks(d, 1, "lists request 1 0 2\n")); d.votes["lists"] != nil {
		t.Error("a bundle is taken that is too long")
	}
}

// Of a bundle only the messages stay that wait, so what is counted of a sender is what is in memory of it.
func TestJunkOfABundleIsNotKept(t *testing.T) {
	d := claimed(t, 1)
	junk := []byte(strings.Repeat("x", wire.MostBytes-1000) + "\n")
	short := speaks(d, 1, ". open 0\n")
	var b wire.Bundle
	for _, message := range [][]byte{short, junk, short} {
		b.Add(message)
	}
	bundle := b.Take()
	d.sort(transport.Message{Mailbox: wire.VoterBox("test", 0, "jobs"), Data: bundle})
	for i := range bundle {
		bundle[i] = 'x'
	}
	if size := d.inbox.senders[1].size; d.inbox.count != 2 || size != 2*len(short) {
		t.Fatalf("%d messages wait, of %d bytes", d.inbox.count, size)
	}
	for _, l := range d.inbox.senders[1].letters {
		if string(l.lines) != ". open 0\n" || cap(l.lines) > 2*len(short) {
			t.Errorf("%q is in memory with %d bytes", l.lines, cap(l.lines))
		}
	}
}

// delivers returns what leaves a voter in a turn, by mailboxes.
func (d *Daemon) delivers(t *testing.T) map[string][]string {
	t.Helper()
	m := &mail{sent: map[string][]string{}}
	d.sender = outbox.NewSender(m)
	if err := d.commit(time.Now()); err != nil {
		t.Fatal(err)
	}
	return m.sent
}

// addressees returns to which sessions the messages of a bundle are, and fails if one has not the lines that it has to have.
func addressees(t *testing.T, bundle, line string) (sessions []string) {
	t.Helper()
	wire.Messages([]byte(bundle), func(message []byte) {
		h, lines, err := wire.Read(message)
		session, lines := wire.Addressee(lines)
		if sessions = append(sessions, session); err != nil || h.Kind != wire.FromVoter || !strings.HasPrefix(string(lines), line) {
			t.Errorf("%q in a bundle, %v", message, err)
		}
	})
	return sessions
}

// What a voter says in a turn to sessions of one process leaves in one message, if they said so, and what it says to one alone goes there.
// A process is of one user.
func TestRepliesToAProcess(t *testing.T) {
	d := claimed(t, 3)
	d.repliesTo("other", 4, ". claim 4 1 100\n")
	users := map[int]string{1: "jobs", 2: "jobs", 3: "jobs", 4: "other"}
	for _, number := range []int{1, 2, 4} {
		if reply := d.repliesTo(users[number], number, ". process p1\n"); !strings.Contains(reply, ". bundles\n") {
			t.Errorf("%d hears %q", number, reply)
		}
	}
	d.delivers(t)
	beat := func(numbers ...int) map[string][]string {
		for _, number := range numbers {
			d.sends(users[number], speaks(d, number, ". open 0\n"))
		}
		return d.delivers(t)
	}
	sent := beat(1, 2, 3, 4)
	if one := sent["qlock.test.c.jobs.p1.0"]; len(sent) != 3 || len(one) != 1 ||
		fmt.Sprint(addressees(t, one[0], ". opened ")) != "[session-1 session-2]" {
		t.Errorf("%q", sent)
	}
	for _, alone := range []string{"jobs.session-3", "other.session-4"} {
		if one := sent["qlock.test.c."+alone+".0"]; len(one) != 1 || fmt.Sprint(addressees(t, one[0], ". opened ")) != "[]" {
			t.Errorf("%s hears %q", alone, one)
		}
	}
	if sent := beat(2); len(sent) != 1 || len(sent["qlock.test.c.jobs.session-2.0"]) != 1 {
		t.Errorf("alone: %q", sent)
	}
	passes(&d.shard(0).table, time.Now().Add(2*d.leases.ttl))
	h := wire.Header{Cluster: "test", Coterie: d.mark, Kind: wire.FromClient, Number: 2, Epoch: 2, Reserved: 1000, Name: "later"}
	d.sends("jobs", append(h.Append(nil), ". claim 2 2 100\n"...))
	d.delivers(t)
	d.sends("jobs", append(h.Append(nil), ". open 0\n"...), speaks(d, 1, ". open 0\n"))
	if sent := d.delivers(t); len(sent["qlock.test.c.jobs.later.0"]) != 1 || len(sent["qlock.test.c.jobs.p1.0"]) != 0 {
		t.Errorf("a later session of the number: %q", sent)
	}
}

// What is too long for one message leaves in several, and each line in one of them.
func TestBundlesAreCut(t *testing.T) {
	d := claimed(t, 3)
	lines := strings.Repeat("orders fail 0 1 1 1\n", wire.MostBytes/50)
	for number := 1; number <= 3; number++ {
		d.repliesTo("jobs", number, ". process p1\n")
		d.put(fmt.Sprint("jobs.session-", number), []byte(lines))
	}
	d.put("jobs.session-1", []byte(strings.Repeat("orders fail 0 1 1 1\n", 2*wire.MostBytes/20)))
	sent, bytes := d.delivers(t), 0
	var all []string
	for box, messages := range sent {
		for _, message := range messages {
			if all = append(all, addressees(t, message, "orders fail ")...); len(message) > mostMessage {
				t.Errorf("%s: %d bytes", box, len(message))
			}
			bytes += strings.Count(message, "orders fail 0 1 1 1\n")
		}
	}
	if want := 2*wire.MostBytes/20 + 2*(wire.MostBytes/50); bytes != want || len(sent["qlock.test.c.jobs.p1.0"]) < 1 {
		t.Errorf("%d of %d lines leave, to %v", bytes, want, all)
	}
}
