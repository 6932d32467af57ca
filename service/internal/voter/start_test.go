package voter

import (
	"encoding/json"
	"fmt"
	"math/big"
	"strings"
	"testing"
	"time"

	"calvundek.example/service/internal/wire"
	"calvundek.example/service/qlock"
)

// pair returns a voter of three, a, which waits for the others.
func pair(t *testing.T) *Daemon {
	t.Helper()
	d, _ := alone(t, 10)
	plan := texts(t, two)
	read, err := qlock.ReadPlan(plan.Coterie, plan.Plan)
	if err != nil {
		t.Fatal(err)
	}
	d.inUse = plansInUse{read}
	d.ceiling, d.floor, d.letters = 0, 0, nil
	d.store.meta.Identity = identity("mine")
	d.startsFrom(100)
	return d
}

// startsFrom lets a voter start from a state that asked for this ceiling last.
func (d *Daemon) startsFrom(ceiling uint64) {
	d.join = joining{process: process("mine"), start: *qlock.NewStart(ceiling, d.firstBlock()), began: time.Now()}
	d.store.own = own{Start: 3, Ceiling: ceiling}
}

// identity returns an identity that has a name of at most 16 letters.
func identity(name string) string { return fmt.Sprintf("%032x", new(big.Int).SetBytes([]byte(name))) }

// process returns the word of a process that has a name of at most 8 letters.
func process(name string) string { return identity(name)[16:] }

// asked returns the ceiling that a voter asked for last.
func (d *Daemon) asked() uint64 { return d.join.start.Shows().Asked }

// heard returns the header of the voter of a place.
func heard(place int) wire.Header {
	return wire.Header{Cluster: "test", Kind: wire.FromVoter, Number: place, Start: 1, Name: identity(string(rune('A' + place)))}
}

// answered is what a voter knows that knew this of voter a.
func answered(place int, known Peer) word {
	h := heard(place)
	return word{Word: "known", Process: process("mine"), Start: 3, Known: &known,
		Knows: &Knows{Peers: map[int]Peer{place: {Identity: h.Name, Start: h.Start, Process: process("p")}}}}
}

// A higher ceiling that is heard of while one is asked for raises the floor, too.
func TestFloorIsAboveAllThatIsKnown(t *testing.T) {
	d, now := pair(t), time.Now()
	d.hearAnswer(heard(1), answered(1, Peer{Ceiling: 500}), now)
	d.start(now.Add(mostPatience + time.Second))
	if d.join.done || d.floor != 500 || d.asked() <= 500 {
		t.Fatalf("%+v, floor %d", d.join, d.floor)
	}
	d.hearAnswer(heard(2), answered(2, Peer{Ceiling: 1 << 30}), now)
	asked := d.asked()
	d.hearAnswer(heard(1), word{Word: "kept", Process: process("mine"), Ceiling: asked, Known: &Peer{Identity: d.store.meta.Identity,
		Process: process("mine")}}, now)
	if d.join.done || d.floor != 1<<30 || d.asked() <= 1<<30 {
		t.Fatalf("%+v, floor %d", d.join, d.floor)
	}
	d.hearAnswer(heard(1), word{Word: "kept", Process: process("mine"), Ceiling: asked, Known: &Peer{}}, now)
	if d.join.done {
		t.Error("a ceiling counts as kept that was asked for before")
	}
	d.hearAnswer(heard(1), word{Word: "kept", Process: process("mine"), Ceiling: d.asked(), Known: &Peer{Identity: d.store.meta.Identity,
		Process: process("mine")}}, now)
	if !d.join.done || d.ceiling != d.asked() || d.floor != 1<<30 {
		t.Fatalf("%+v, floor %d", d.join, d.floor)
	}
}

// A reply to a later process of this voter ends it. One to a process of before its state was lost may be late, and does not: that
// one had started more often.
func TestLaterProcessOfThisVoter(t *testing.T) {
	for _, one := range []struct {
		identity string // of whom the other voter knew
		ends     bool
	}{{identity("mine"), true}, {identity("lost"), false}, {"", false}} {
		d, now := pair(t), time.Now()
		d.hearAnswer(heard(1), answered(1, Peer{}), now)
		late := answered(1, Peer{Identity: one.identity, Start: 70})
		late.Process, late.Start = process("another"), 71
		d.hearAnswer(heard(1), late, now)
		if ended := d.join.refused != nil; ended != one.ends {
			t.Errorf("the other voter knew %q: %v", one.identity, d.join.refused)
		}
	}
}

// A state from before its voter first served may be a copy of one that did: if others know of a ceiling, it is quiet. One of which
// nobody knows is new.
func TestCopyFromBeforeTheFirstGrant(t *testing.T) {
	for ceiling, isQuiet := range map[uint64]bool{0: false, 64: true} {
		d, now := pair(t), time.Now()
		d.startsFrom(0)
		for place := 1; place <= 2; place++ {
			d.hearAnswer(heard(place), answered(place, Peer{Identity: d.store.meta.Identity, Start: 2, Process: process("before"), Ceiling: ceiling}), now)
		}
		d.start(now)
		d.hearAnswer(heard(1), word{Word: "kept", Process: process("mine"), Ceiling: d.asked(), Known: &Peer{Identity: d.store.meta.Identity,
			Process: process("mine")}}, now)
		if !d.join.done || d.isQuiet() != isQuiet {
			t.Errorf("a ceiling of %d is known: it serves %v, and is quiet %v", ceiling, d.join.done, d.isQuiet())
		}
	}
}

// A voter that never served waits until the silent ones and it contain no quorum, however long that takes.
func TestNewVoterNeedsMoreAnswers(t *testing.T) {
	d, now := pair(t), time.Now()
	d.startsFrom(0)
	d.hearAnswer(heard(1), answered(1, Peer{}), now)
	if d.start(now.Add(time.Hour)); d.asked() > 0 {
		t.Error("a quorum of answers is enough")
	}
	d.hearAnswer(heard(2), answered(2, Peer{}), now)
	if d.start(now.Add(time.Hour)); d.asked() == 0 {
		t.Error("all answers are not enough")
	}
}

// A voter that serves tells its start and its ceiling to those that did not answer, until they do, and the ceiling to all
// after its plans changed.
func TestCeilingIsToldToAll(t *testing.T) {
	d, now := pair(t), time.Now()
	d.hearAnswer(heard(1), answered(1, Peer{}), now)
	d.start(now.Add(mostPatience + time.Second))
	d.hearAnswer(heard(1), word{Word: "kept", Process: process("mine"), Ceiling: d.asked(), Known: &Peer{Identity: d.store.meta.Identity,
		Process: process("mine")}}, now)
	if !d.join.done {
		t.Fatal("it does not serve")
	}
	words := func(at time.Time) (to map[int]string) {
		d.letters, to = nil, map[int]string{}
		d.start(at)
		for _, one := range d.letters {
			to[one.voter] += one.word.Word + " "
		}
		return to
	}
	at := now.Add(time.Hour)
	d.join.toldAt = at
	if to := words(at); len(to) != 1 || to[2] != "start ceiling " {
		t.Errorf("told: %v", to)
	}
	d.hearAnswer(heard(2), answered(2, Peer{}), now)
	d.hearAnswer(heard(2), word{Word: "kept", Process: process("mine"), Ceiling: d.asked(), Known: &Peer{Identity: d.store.meta.Identity,
		Process: process("mine")}}, now)
	if to := words(at.Add(time.Second)); len(to) != 0 {
		t.Errorf("told again: %v", to)
	}
	if to := words(at.Add(time.Hour)); to[1] != "ceiling " || to[2] != "ceiling " {
		t.Errorf("told a TTL later: %v", to)
	}
	d.tellAll()
	if to := words(at.Add(2 * time.Hour)); to[1] != "ceiling " || to[2] != "ceiling " {
		t.Errorf("told after the plans changed: %v", to)
	}
}

// Voters are named, also those that only one of two plans has.
func TestNames(t *testing.T) {
	plans := plansInUse{{Names: []string{"a", "b"}}, {Names: []string{"a", "b", "c"}}}
	for voters, want := range map[uint64]string{0: "", 0b10: "b", 0b101: "a,c"} {
		if got := plans.names(voters); got != want {
			t.Errorf("%b: %q", voters, got)
		}
	}
}

// A voter that is starting itself does not forget what it keeps of another one, whatever process of that comes.
func TestWhoStartsKeepsItsWord(t *testing.T) {
	d := pair(t)
	start := func(start uint64, name string, ceiling uint64) (why string) {
		h := heard(1)
		h.Start, d.letters = start, nil
		d.meet(h, word{Word: "start", Process: process(name), Ceiling: ceiling})
		return d.letters[0].word.Why
	}
	if why := start(5, "first", 9000); why != "" {
		t.Fatal(why)
	}
	if why := start(5, "copy", 10); why == "" || d.peers[1].Ceiling != 9000 || d.peers[1].Process != process("first") {
		t.Errorf("a copy: %q, %+v", why, d.peers[1])
	}
	if why := start(6, "first", 10); why != "" || d.peers[1].Ceiling != 9000 {
		t.Errorf("the next start: %q, %+v", why, d.peers[1])
	}
	// another cluster's voter does not keep out the one that was known at the start
	d.loaded[2] = Peer{Identity: identity("C"), Start: 4, Process: process("p"), Ceiling: 70}
	d.peers[2] = Peer{Identity: identity("twin"), Run: 0, Start: 1, Process: process("t")}
	h := heard(2)
	h.Start, d.letters = 5, nil
	if d.meet(h, word{Word: "start", Process: process("q")}); d.letters[0].word.Why != "" || d.peers[2].Identity != identity("C") || d.peers[2].Ceiling != 70 {
		t.Errorf("%+v: %q", d.peers[2], d.letters[0].word.Why)
	}
}

// A ceiling that was heard since this voter began is kept, also if it was that of another voter of the place.
func TestCeilingHeardMeanwhileIsKept(t *testing.T) {
	d := pair(t)
	d.loaded[2] = Peer{Identity: identity("C"), Start: 4, Process: process("p"), Ceiling: 70}
	d.peers[2] = Peer{Identity: identity("twin"), Start: 1, Process: process("t"), Ceiling: 9000}
	h := heard(2)
	h.Start = 5
	if d.meet(h, word{Word: "start", Process: process("q"), Ceiling: 80}); d.peers[2].Identity != identity("C") || d.peers[2].Ceiling != 9000 {
		t.Errorf("%+v", d.peers[2])
	}
}

// The reply to a start is the same when it is asked for again, also if a copy was refused meanwhile: a clean end is not forgotten by it.
func TestReplyIsRepeated(t *testing.T) {
	d := pair(t)
	d.peers[1] = Peer{Identity: identity("B"), Start: 4, Process: process("p"), Ended: 77}
	for i, name := range []string{"q", "q", "copy", "q"} {
		h := heard(1)
		h.Start, d.letters = 5, nil
		d.meet(h, word{Word: "start", Process: process(name)})
		reply := d.letters[0].word
		if name == "copy" {
			if reply.Why == "" {
				t.Error("a copy is not refused")
			}
		} else if reply.Why != "" || reply.Known.Ended != 77 || reply.Known.Start != 4 {
			t.Errorf("reply %d: %+v", i, reply.Known)
		}
	}
	if d.peers[1].Ended != 0 {
		t.Error("an end before the start is kept")
	}
}

// A voter that keeps the ceiling, and did not hear of the start before, says which ceiling it knew. The floor is above that.
func TestKeeperThatDidNotHearOfTheStart(t *testing.T) {
	d, now := pair(t), time.Now()
	d.hearAnswer(heard(1), answered(1, Peer{Ceiling: 500}), now)
	d.start(now.Add(mostPatience + time.Second))
	d.peers[2] = Peer{Identity: heard(2).Name, Start: 1, Process: process("p")}
	d.hearAnswer(heard(2), word{Word: "kept", Process: process("mine"), Ceiling: d.asked(), Known: &Peer{Identity: d.store.meta.Identity,
		Start: 2, Process: process("before"), Ceiling: 9000}}, now)
	if d.join.done || d.floor != 9000 || d.asked() <= 9000 {
		t.Errorf("%+v, floor %d", d.join.start.Shows(), d.floor)
	}
}

// In the quiet time nobody is reminded of a grant from before the start.
func TestNoReminderWhileQuiet(t *testing.T) {
	d, says := alone(t, 10)
	says("orders request 0 0 1\n")
	v := d.votes["orders"]
	later := time.Now().Add(time.Hour)
	for _, isOld := range []bool{true, false} {
		d.out = map[string][]byte{}
		if d.beQuiet(time.Now()); !isOld {
			v.isOld = false
		}
		if d.round(later); len(d.out) > 0 == isOld {
			t.Errorf("old: %v, %q", isOld, d.out)
		}
	}
}

// quietIsOver lets a quiet time begin that is over after the next turn: markers come back until then.
func quietIsOver(d *Daemon) {
	now := time.Now()
	for d.beQuiet(now); !d.leases.clock.IsSilent(d.leases.quiet.since, d.leases.ttl); now = now.Add(periodOf(d.leases.ttl)) {
		d.leases.clock.Returns(d.leases.clock.Send(now.Sub(d.leases.began)))
	}
}

// A quiet time lasts for a TTL by the lease clock, also if the machine stands still, or nobody can be heard.
func TestQuietForATTL(t *testing.T) {
	d, _ := alone(t, 10)
	now, period := time.Now(), periodOf(d.leases.ttl)
	d.beQuiet(now)
	for _, after := range []time.Duration{0, time.Minute, time.Hour} {
		if d.endQuiet(now.Add(after)); !d.isQuiet() {
			t.Errorf("it ends after %v, and no marker came back", after)
		}
	}
	begun := now
	for ; d.isQuiet() && now.Sub(begun) < time.Hour; now = now.Add(period) {
		d.leases.clock.Returns(d.leases.clock.Send(now.Sub(d.leases.began)))
		d.endQuiet(now)
	}
	if took := now.Sub(begun); took < d.leases.ttl || took > d.leases.ttl+2*period {
		t.Errorf("it ends after %v", took)
	}
}

// A quiet time that began as the voter went on, after it had stood still, lasts for no longer than others.
func TestQuietAfterAStandstill(t *testing.T) {
	d, _ := alone(t, 10)
	mark := func() { d.isMarker(d.markerLine(d.leases.clock.Send(d.now().Sub(d.leases.began)))) }
	mark()
	d.leases.began = d.leases.began.Add(-time.Minute)
	d.beQuiet(d.now())
	mark()
	if now := d.now(); d.leases.quiet.since > d.leases.at(now) || d.quietLeft(now) > d.leases.ttl {
		t.Errorf("it lasts for %v longer than a TTL", d.leases.quiet.since-d.leases.at(now))
	}
}

// When the quiet time ends, a voter lets grants of before its start go, and no other one: not that of who asked when the time
// was over and the old grants were still there, nor that of who waited for an old one, and said that he is inside.
func TestEndOfTheQuietTime(t *testing.T) {
	first, _ := alone(t, 10)
	for number := 1; number <= 3; number++ {
		first.repliesTo("jobs", number, fmt.Sprintf(". claim %d 1 100\n", number))
	}
	first.repliesTo("jobs", 1, "left request 1 0 1\ngiven request 1 0 2\nfree request 1 0 3\nfree release 1 0 3\n")
	if err := first.save(); err != nil {
		t.Fatal(err)
	}
	d := reopened(t, first)
	quietIsOver(d)
	for i, one := range []struct {
		number      int
		lines, want string
	}{
		{2, "free request 2 0 1\n", ". quiet "},
		{2, "given request 2 0 2 inside\n", "given fail "},
		{1, "given release 1 0 2\n", ""},
		{2, ". open 0\n", "given locked "},
		{2, "given request 2 0 2\n", ". quiet "},
	} {
		if reply := d.repliesTo("jobs", one.number, one.lines); !strings.Contains(reply, one.want) {
			t.Errorf("line %d: %q", i, reply)
		}
	}
	d.round(time.Now())
	for name, want := range map[string]uint64{"left": 0, "given": 2} {
		if held := d.votes[name].held(); held.Stamp != want {
			t.Errorf("%s: the vote is held under stamp %d", name, held.Stamp)
		}
	}
	if d.shard(0).row(1).Lapses != 1 || d.shard(0).row(2).Lapses != 0 {
		t.Errorf("lapses: %d and %d", d.shard(0).row(1).Lapses, d.shard(0).row(2).Lapses)
	}
	if reply := d.repliesTo("jobs", 3, "free request 3 0 1\n"); !strings.Contains(reply, "free locked ") {
		t.Errorf("afterwards: %q", reply)
	}
	if d.round(time.Now()); d.votes["free"].held().Client != 3 {
		t.Error("a grant is let go twice")
	}
}

// No silence ends anything in a quiet time that goes on, as where an old grant can't be let go: not the grant of who said that he is inside,
// nor what others said who wait for it. Who has left is let go at once, and who is silent still once that time has ended.
func TestSilenceInTheQuietTime(t *testing.T) {
	d, _ := alone(t, 10)
	for number := 1; number <= 4; number++ {
		d.repliesTo("jobs", number, fmt.Sprintf(". claim %d 1 100\n", number))
	}
	d.beQuiet(time.Now())
	for i, one := range []struct {
		number      int
		lines, want string
	}{
		{1, "left request 1 0 1 inside\n", "left locked "},
		{2, "left request 2 0 2 inside\n", "left fail "},
		{3, "stays request 3 0 3 inside\n", "stays locked "},
		{2, "stays request 2 0 4 inside\n", "stays fail "},
	} {
		if reply := d.repliesTo("jobs", one.number, one.lines); !strings.Contains(reply, one.want) {
			t.Fatalf("line %d: %q", i, reply)
		}
	}
	later := time.Now().Add(2 * d.leases.ttl)
	passes(&d.shard(0).table, later)
	d.leases.quiet.since = d.leases.at(later)
	holders := func(when string, isAwaited bool, want map[string]uint64) {
		t.Helper()
		d.round(later)
		for name, client := range want {
			if v := d.votes[name]; v.held().Client != client || v.isAwaited() != isAwaited || d.isQuiet() != isAwaited {
				t.Errorf("%s: %s is had by %d, somebody inside waits: %v, quiet: %v", when, name, v.held().Client, v.isAwaited(), d.isQuiet())
			}
		}
	}
	holders("silent for a TTL", true, map[string]uint64{"left": 1, "stays": 3})
	if reply := d.repliesTo("other", 50, ". hello\n. claim 1 2 100\n"); !strings.Contains(reply, ". number 1 1 0\n") || strings.Contains(reply, ". claimed 1 2") {
		t.Errorf("silent for a TTL, its number is given on: %q", reply)
	}
	d.repliesTo("jobs", 1, ". close\n")
	holders("closed", true, map[string]uint64{"stays": 3})
	if client := d.votes["left"].held().Client; client != 2 {
		t.Errorf("closed: it is had by %d", client)
	}
	later = later.Add(2 * d.leases.ttl)
	passes(&d.shard(0).table, later)
	d.round(later)
	d.repliesTo("jobs", 4, "stays request 4 0 5\n")
	holders("afterwards", false, map[string]uint64{"left": 2, "stays": 4})
}

// Who gives a grant of before the start back in the quiet time does not get the vote again by it. Somebody else may be inside
// by a later grant, of which an older copy of the state knows nothing.
func TestWhatComesBackWhileQuiet(t *testing.T) {
	first, _ := alone(t, 10)
	for number := 1; number <= 2; number++ {
		first.repliesTo("jobs", number, fmt.Sprintf(". claim %d 1 100\n", number))
	}
	first.repliesTo("jobs", 1, "orders request 1 0 9\n")
	grant := first.votes["orders"].held().Number
	if err := first.save(); err != nil {
		t.Fatal(err)
	}
	d := reopened(t, first)
	d.beQuiet(time.Now())
	reply := d.repliesTo("jobs", 1, fmt.Sprintf("orders relinquish 1 0 %d\norders request 1 0 9\n", grant))
	if strings.Contains(reply, "locked") || !strings.Contains(reply, ". gone orders 9") || !strings.Contains(reply, ". quiet ") {
		t.Errorf("who gave it back: %q", reply)
	}
	if reply := d.repliesTo("jobs", 2, "orders request 2 0 1 inside\n"); !strings.Contains(reply, "orders locked ") {
		t.Errorf("who is inside: %q", reply)
	}
	if lapses := d.shard(0).row(1).Lapses; lapses > 0 {
		t.Errorf("%d lapses of who gave it back", lapses)
	}
}

// A voter that ends in its quiet time does not say that it ended cleanly: the next start is quiet, too.
func TestEndWhileQuiet(t *testing.T) {
	for _, isQuiet := range []bool{true, false} {
		d := pair(t)
		d.join.done = true
		if isQuiet {
			d.beQuiet(time.Now())
		}
		carrier := d.posts()
		carrier.sent = nil
		if err := d.End(); err != nil {
			t.Fatal(err)
		}
		said := 0
		for _, message := range carrier.sent {
			if strings.Contains(string(message), `"ended"`) {
				said++
			}
		}
		if (said == 0) != isQuiet {
			t.Errorf("quiet: %v, and %d voters hear of a clean end", isQuiet, said)
		}
	}
}

// A voter that ends while one who said that he is inside waits for a vote does not say that it ended cleanly: a clean start would give the
// vote to somebody else.
func TestEndWhileSomebodyInsideWaits(t *testing.T) {
	d := pair(t)
	d.join.done, d.ceiling = true, 1000
	for number := 1; number <= 2; number++ {
		d.repliesTo("jobs", number, fmt.Sprintf(". claim %d 1 100\n", number))
	}
	d.repliesTo("jobs", 1, "orders request 1 0 1\n")
	quietIsOver(d)
	d.repliesTo("jobs", 1, "orders request 1 0 1 inside\n")
	d.repliesTo("jobs", 2, "orders request 2 0 2 inside\n")
	if d.round(time.Now()); d.isQuiet() || !d.votes["orders"].isAwaited() {
		t.Fatalf("quiet %v, %+v", d.isQuiet(), d.votes["orders"])
	}
	carrier := d.posts()
	carrier.sent = nil
	if err := d.End(); err != nil {
		t.Fatal(err)
	}
	for _, message := range carrier.sent {
		if strings.Contains(string(message), `"ended"`) {
			t.Error("it says that it ended cleanly")
		}
	}
}

// No voter says a ceiling above all numbers of grants: a place that learned one could give none any more.
func TestCeilingBeyondAllGrants(t *testing.T) {
	for ceiling, isRight := range map[uint64]bool{qlock.MaxStamp: true, qlock.MaxStamp + 1: false} {
		var p Peer
		text := fmt.Sprintf(`{"identity":%q,"process":%q,"ceiling":%d}`, identity("x"), process("y"), ceiling)
		if err := json.Unmarshal([]byte(text), &p); (err == nil) != isRight {
			t.Errorf("%d: %v", ceiling, err)
		}
	}
}

// A session that another voter or an operator ended, or whose number another one has at another voter, may still be inside. Its votes and its number go when it would have been silent for a
// TTL, also after a restart.
func TestWhatOthersEnd(t *testing.T) {
	learns := func(d *Daemon, row string, now time.Time) error {
		_, err := d.learn(`{"sessions":{"1":{"epoch":2,"used":true,"base":1000,"reserved":1000`+row+`}}}`, now)
		return err
	}
	for by, end := range map[string]func(d *Daemon, now time.Time) error{
		"another voter": func(d *Daemon, now time.Time) error { return learns(d, "", now) },
		"another voter, of which another session has the number": func(d *Daemon, now time.Time) error {
			return learns(d, `,"hash":"jobs.later","open":true`, now)
		},
		"an operator": func(d *Daemon, now time.Time) (err error) {
			if gone := d.evict(1, false, "alice", now); gone != (LetGo{Later: 1}) {
				err = fmt.Errorf("%+v", gone)
			}
			return err
		},
		"two operators": func(d *Daemon, now time.Time) (err error) {
			d.evict(1, false, "alice", now)
			if gone := d.evict(1, false, "bob", now); gone != (LetGo{Later: 1, Nobody: true}) {
				err = fmt.Errorf("%+v", gone)
			}
			return err
		},
	} {
		t.Run(by, func(t *testing.T) { whatOthersEnd(t, end) })
	}
}

func whatOthersEnd(t *testing.T, end func(d *Daemon, now time.Time) error) {
	d, _ := alone(t, 10)
	for number := 1; number <= 2; number++ {
		d.repliesTo("jobs", number, fmt.Sprintf(". claim %d 1 100\n", number))
	}
	d.repliesTo("jobs", 1, "orders request 1 0 1\n")
	d.repliesTo("jobs", 2, "orders request 2 0 2\n")
	now := time.Now()
	if err := end(d, now); err != nil {
		t.Fatal(err)
	}
	stays := func(when string) {
		t.Helper()
		d.round(now)
		if v := d.votes["orders"]; v.held().Client != 1 || d.shard(0).state(1) != 0 || claimAt(&d.shard(0).table, 1, "other", 9, now) {
			t.Errorf("%s: the vote is held by %+v, and its number is to be had: %d", when, v.held(), d.shard(0).state(1))
		}
	}
	stays("at once")
	if err := d.save(); err != nil {
		t.Fatal(err)
	}
	d = reopened(t, d)
	d.repliesTo("jobs", 2, "orders request 2 0 2\n")
	stays("after a restart")
	later := time.Now().Add(2 * d.leases.ttl)
	passes(&d.shard(0).table, later)
	if d.round(later); d.votes["orders"].held().Client != 2 || d.shard(0).state(1) == 0 || !claimAt(&d.shard(0).table, 1, "other", 9, later) {
		t.Errorf("after a TTL: the vote is held by %+v, and its number is free: %d", d.votes["orders"].held(), d.shard(0).state(1))
	}
}

// What an operator ended, and a number of which two sessions use one epoch, win over a session that somebody still knows.
func TestLearnsWhatIsOver(t *testing.T) {
	now := time.Now()
	table := tableAt(now)
	one := of("one", 4, 10, 100)
	one.Used = true
	table.put(3, one)
	other := tableAt(now)
	other.put(3, one)
	other.expel(3, false)
	if !table.learn(3, other.row(3), now) || table.row(3).Open || table.row(3).Base < 100 {
		t.Errorf("an eviction: %+v", table.row(3))
	}
	table.put(3, one)
	two := of("two", 4, 10, 300)
	two.Used = true
	if table.learn(3, two, now); table.row(3).Open || table.row(3).Base < 300 || table.row(3).Reserved < 300 {
		t.Errorf("two sessions of one epoch: %+v", table.row(3))
	}
}

// Once another session has a number, its messages keep no vote of the session before.
func TestNumberIsPassedOn(t *testing.T) {
	d, _ := alone(t, 10)
	for number := 1; number <= 2; number++ {
		d.repliesTo("jobs", number, fmt.Sprintf(". claim %d 1 100\n", number))
	}
	d.repliesTo("jobs", 1, "orders request 1 0 1\n")
	d.repliesTo("jobs", 2, "orders request 2 0 2\n")
	now := time.Now()
	if _, err := d.learn(`{"sessions":{"1":{"epoch":2,"used":true,"base":1000,"reserved":1000,"hash":"jobs.later","open":true}}}`, now); err != nil {
		t.Fatal(err)
	}
	s, later := d.shard(0), now.Add(2*d.leases.ttl)
	passes(&s.table, later)
	s.hear(1, later)
	if d.round(later); d.votes["orders"].held().Client != 2 || s.state(1) != 0 {
		t.Errorf("the vote is held by %+v, and the number is to be had: %d", d.votes["orders"].held(), s.state(1))
	}
}

// A session whose number was passed on to it long ago may work, also once it is ended here, or elsewhere.
func TestPassedOnSessionIsEnded(t *testing.T) {
	now := time.Now()
	for by, ends := range map[string]func(t *table, at time.Time){
		"an operator":   func(t *table, at time.Time) { t.expel(5, false) },
		"another voter": func(t *table, at time.Time) { t.learn(5, Session{Epoch: 4, Base: 100, Reserved: 100, Used: true}, at) },
	} {
		table, later := tableAt(now), now.Add(time.Hour)
		table.learn(5, Session{Hash: "jobs.x", Epoch: 3, Base: 10, Reserved: 100, Open: true, Used: true}, now)
		passes(table, later)
		table.hear(5, later)
		if ends(table, later); table.isOver(5, 50) || table.isDead(5) {
			t.Errorf("%s ends it: its grants go at once, %v", by, table.isOver(5, 50))
		}
		if passes(table, later.Add(2*table.ttl)); !table.isOver(5, 50) || !table.isDead(5) {
			t.Errorf("%s ends it: its grants never go", by)
		}
	}
}
