package voter

import (
	"fmt"
	"io"
	"reflect"
	"strings"
	"testing"
	"time"

	"calvundek.example/service/internal/config"
	"calvundek.example/service/internal/event"
	"calvundek.example/service/internal/level"
	"calvundek.example/service/internal/wire"
	"calvundek.example/service/qlock"
	"calvundek.example/service/transport"
	"github.com/prometheus/client_golang/prometheus/testutil"
)

// reader returns a daemon that takes messages of no lock.
func reader() *Daemon {
	now := time.Unix(1000, 0)
	d := &Daemon{cluster: &config.Cluster{ID: "test"}, store: &store{meta: Meta{Cluster: "test"}}, mark: "mark",
		m:      newMetrics(),
		leases: newLeases(), out: map[string][]byte{},
		join: joining{done: true}, ceiling: 1 << 20, log: event.To(io.Discard)}
	d.leases.begin(now)
	return d
}

// message returns a message of a session.
func message(number int, epoch uint64, name, lines string) transport.Message {
	h := wire.Header{Cluster: "test", Coterie: "mark", Kind: wire.FromClient, Number: number, Epoch: epoch, Name: name}
	return transport.Message{Mailbox: wire.VoterBox("test", 0, "jobs"), Data: append(h.Append(nil), lines...)}
}

// Whoever sends much waits for himself alone: each turn takes a share of each session's lines, and
// of strangers' ones.
func TestEachSenderHasItsTurn(t *testing.T) {
	d := reader()
	for number := 1; number < 4; number++ {
		d.shard(0).claim(number, fmt.Sprint("jobs.s", number), 1, 0, time.Now())
	}
	for i := 0; i < 100; i++ {
		d.sort(message(1, 1, "s1", strings.Repeat("x release 1 0 0\n", 50)))
		d.sort(message(0, 0, "stranger", ". hello\n"))
	}
	d.sort(message(2, 1, "s2", ". open 0\n"))
	d.sort(message(3, 1, "s3", ". open 0\n"))
	for i := 0; i < 4; i++ {
		l := d.inbox.next()
		if _, ended := d.read(l, time.Now()); ended {
			d.inbox.done()
		}
	}
	if d.out["jobs.s2"] == nil || d.out["jobs.s3"] == nil || d.inbox.count < 190 {
		t.Errorf("after one round of turns %d messages wait, and these are replied to: %d", d.inbox.count, len(d.out))
	}
}

// The room of one sender is bounded, and what finds none is counted. Others have theirs.
func TestRoomOfASender(t *testing.T) {
	d := reader()
	long := strings.Repeat("x", wire.MostBytes-200) + "\n"
	for i := 0; i < 100; i++ {
		d.sort(message(0, 0, "stranger", long))
	}
	d.shard(0).claim(2, "jobs.s2", 1, 0, time.Now())
	d.sort(message(2, 1, "s2", ". open 0\n"))
	if d.noRoom.Load() < 90 || d.inbox.senders[strangersOf("jobs")].size > mostWaiting || len(d.inbox.senders[2].letters) != 1 {
		t.Errorf("%d are dropped, %d bytes wait", d.noRoom.Load(), d.inbox.senders[strangersOf("jobs")].size)
	}
	foreign := testutil.ToFloat64(d.m.foreign)
	if d.sort(message(2, 1, "s2", strings.Repeat("x",
		2*wire.MostBytes))); testutil.ToFloat64(d.m.foreign) != foreign+1 {
		t.Error("a message is taken that is too long")
	}
}

// Each session has its room, also one of the same number in another shard. All together have theirs, and the first message of a sender finds
// room when others' messages find none.
func TestRoomOfManySenders(t *testing.T) {
	var b inbox
	for n := 0; b.put(5, &letter{size: mostWaiting / 4}); n++ {
		if n == 4 {
			t.Fatal("a sender has more than its room")
		}
	}
	if !b.put(5+qlock.MaxClients, &letter{size: mostWaiting / 2}) {
		t.Error("there is no room for the session of that number in another shard")
	}
	for key := 1000; b.size < mostOfAll; key++ {
		b.put(key, &letter{size: mostWaiting})
	}
	if b.put(5+qlock.MaxClients, &letter{size: 1}) || !b.put(6, &letter{size: 1}) {
		t.Error("where all have too much, who has nothing there has no room, or who has something has some")
	}
	for key := 2000; b.put(key, &letter{size: mostWaiting}); key++ {
	}
	if b.size > 2*mostOfAll {
		t.Errorf("%d bytes wait", b.size)
	}
	for left := b.count; left > 0; left-- {
		if b.next() == nil {
			t.Fatalf("%d messages are left", left)
		}
		b.done()
	}
	if b.next() != nil || b.size != 0 || b.count != 0 || len(b.order) != 0 || len(b.senders) != 0 {
		t.Errorf("%+v", b)
	}
}

// Sessions of different shards wait apart, also those of one number.
func TestRoomOfShards(t *testing.T) {
	d, _ := sharded(t, 2)
	for shard := 0; shard < 2; shard++ {
		d.ofShard(shard, 5, 0, ". hello\n. claim 5 1 64\n")
	}
	say := func(shard int, lines string) {
		h := wire.Header{Cluster: "test", Coterie: d.mark, Kind: wire.FromClient, Number: 5, Epoch: 1, Reserved: 64, Level: level.Newest,
			Name: d.cluster.SessionName(shard, fmt.Sprintf("%016x%016x", shard, 5))}
		d.sort(transport.Message{Mailbox: wire.VoterBox("test", 0, "jobs"), Data: append(h.Append(nil), lines...)})
	}
	long := strings.Repeat("x", wire.MostBytes-300) + "\n"
	for i := 0; i < 2*mostWaiting/wire.MostBytes; i++ {
		say(0, long)
	}
	lost := d.noRoom.Load()
	if say(1, long); lost == 0 || d.noRoom.Load() != lost {
		t.Errorf("%d messages of a session find no room, and %d of that in another shard", lost, d.noRoom.Load()-lost)
	}
}

// Senders have their turns one after the other, in the order of their keys, strangers last, whoever comes meanwhile.
func TestTurnsOfSenders(t *testing.T) {
	var b inbox
	var got []int
	for _, key := range []int{strangers, 7, 70, 7, strangers, 3} {
		b.put(key, &letter{controls: key})
	}
	for l := b.next(); l != nil; l = b.next() {
		got = append(got, l.controls)
		if b.done(); len(got) == 2 {
			b.put(5, &letter{controls: 5}) // behind the one whose turn it was
		}
	}
	if want := []int{3, 7, 70, strangers, 5, 7, strangers}; !reflect.DeepEqual(got, want) {
		t.Errorf("%v, and not %v", got, want)
	}
}

// A message ends at its first line that can't be right, and may ask once.
func TestWhereAMessageEnds(t *testing.T) {
	for lines, want := range map[string]int{
		". hello\n. hello\n. hello\n":        2,
		". plan\n. hello\n. plan\n. hello\n": 3,
		"x y\n. hello\n":                     1,
		"x request 0 0 1\n. hello\n":         1, // of nobody's session
		". claim x 1\n. hello\n":             1,
		". what\n. hello\n":                  3,
		". \n. hello\n":                      1,
		strings.Repeat(". drop 1 1\n", 40):   17,
		". drop 1 1\n. " + strings.Repeat("x", 300) + "\n. drop 1 1\n": 2,
		". drop 1 1\n. drop 1 1\n":                                     3, // to its end
	} {
		d := reader()
		d.sort(message(0, 0, "stranger", lines))
		if got, ended := d.read(d.inbox.next(), time.Now()); got != want || !ended {
			t.Errorf("%.40q: %d lines are taken", lines, got)
		}
	}
}

// A turn ends after some lines, some time, or some bytes that leave, whatever waits.
func TestATurnEnds(t *testing.T) {
	d := reader()
	for i := 0; i < 5000; i++ {
		d.sort(message(0, 0, fmt.Sprint("stranger-", i), ". hello\n"))
	}
	before := d.inbox.count
	began := time.Now()
	d.work()
	if took := time.Since(began); took > 10*longestTurn || d.outBytes > 2*mostOut || d.inbox.count == 0 ||
		d.inbox.count == before {
		t.Errorf("a turn takes %v, %d bytes leave, and %d of %d messages wait", took, d.outBytes, d.inbox.count, before)
	}
}

// Whoever has no number waits behind others of his user alone: one user's made-up sessions take no room and no turn of another user's.
func TestNewcomersOfOtherUsers(t *testing.T) {
	d, began := reader(), time.Unix(1000, 0)
	d.around.Now = func() time.Time { return began }
	const flood = 20_000
	came := make(chan transport.Message, flood+2)
	d.messages = came
	of := func(user, name string) transport.Message {
		m := message(0, 0, name, ". hello\n")
		m.Mailbox = wire.VoterBox("test", 0, user)
		return m
	}
	for i := 0; i < flood; i++ {
		came <- of("web", fmt.Sprintf("made-up-%024d", i))
	}
	came <- of("jobs", "newcomer")
	d.Take(Nobody, transport.Message{})
	if d.out["jobs.newcomer"] == nil {
		t.Error("a newcomer of another user is not answered in the first turn")
	}
	d.out, d.outBytes = map[string][]byte{}, 0 // all was sent
	came <- of("bob", "another")
	if d.Take(Nobody, transport.Message{}); d.out["bob.another"] == nil {
		t.Error("a newcomer of a third user is not answered in the next turn")
	}
	counts := map[string]uint64{}
	if d.noRoom.AddTo(counts); counts["web"] < flood/5 || len(counts) != 1 || d.inbox.size > mostWaiting {
		t.Errorf("what is dropped: %v; %d bytes wait", counts, d.inbox.size)
	}
}

// BenchmarkNoRoom is what a message costs of who has no number, and whose user's room is used up.
func BenchmarkNoRoom(b *testing.B) {
	d := reader()
	for i := 0; d.noRoom.Load() == 0; i++ {
		d.sort(message(0, 0, fmt.Sprintf("made-up-%024d", i), ". hello\n"))
	}
	m := message(0, 0, fmt.Sprintf("made-up-%024d", 1<<40), ". hello\n")
	b.ResetTimer()
	for i := 0; i < b.N; i++ {
		d.sort(m)
	}
}
