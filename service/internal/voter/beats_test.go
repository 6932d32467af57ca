package voter

import (
	"fmt"
	"strings"
	"testing"
	"time"

	"calvundek.example/service/internal/moment"
	"calvundek.example/service/internal/wire"
	"calvundek.example/service/transport"
)

// rolled lets a session say its place on the roll of a process, and returns the number of its entry.
func rolled(t *testing.T, d *Daemon, user string, number int, process string, place int) (entry uint64) {
	t.Helper()
	reply := d.repliesTo(user, number, fmt.Sprintf(". open 0\n. roll %s %d\n", process, place))
	_, said, _ := strings.Cut(reply, ". rolled ")
	var told int
	if _, err := fmt.Sscanf(said, "%d %d\n", &told, &entry); err != nil || told != place {
		t.Fatalf("the session hears %q", reply)
	}
	return entry
}

// beats lets a beat of a process come to a voter, and returns what that says to the process.
func (d *Daemon) beats(user, process, lines string) string {
	h := wire.Header{Cluster: "test", Coterie: d.mark, Kind: wire.FromClient, Name: process, Seq: 7}
	d.sort(transport.Message{Mailbox: wire.VoterBox("test", 0, user), Data: append(h.Append(nil), lines...)})
	d.takeAll()
	name := wire.SessionName(user, process)
	reply := string(d.out[name])
	delete(d.out, name)
	return reply
}

// beatOf returns the lines of a beat for some places, below the 64th one, with the sum of these entries.
func beatOf(entries map[int]uint64) string { return string(beatFor(entries).Append(nil)) }

// beatFor returns the beat for some places of a share, with the sum of these entries.
func beatFor(entries map[int]uint64) wire.Ask {
	ask := wire.Ask{Kind: wire.Beats}
	for place, entry := range entries {
		ask.Mask, ask.Sum = ask.Mask|1<<place, ask.Sum+entry
	}
	return ask
}

// heardAgo lets all sessions of the first shard have been heard last so long ago.
func (d *Daemon) heardAgo(numbers int, ago time.Duration) {
	for number := 0; number < numbers; number++ {
		d.shard(0).seat(number).heard = d.leases.at(d.now()) - ago
	}
}

// wasHeard returns whether a number's session was heard since heardAgo.
func (d *Daemon) wasHeard(number int) bool {
	return d.leases.at(d.now())-d.shard(0).heardAt(number) < time.Second
}

// A beat is a heartbeat of those for whom it is, and of nobody else. It is acknowledged if each of them heard of its entry, and is as it was
// then.
func TestBeatIsAHeartbeatOfMany(t *testing.T) {
	d := claimed(t, 4)
	entries := map[int]uint64{5: rolled(t, d, "jobs", 1, "p", 5), 63: rolled(t, d, "jobs", 2, "p", 63)}
	third := rolled(t, d, "jobs", 3, "p", 64)
	d.heardAgo(5, time.Minute)
	if reply := d.beats("jobs", "p", beatOf(entries)); reply != ". beaten 7 0\n" {
		t.Errorf("the process hears %q", reply)
	}
	for number, want := range []bool{false, true, true, false, false} {
		if d.wasHeard(number) != want {
			t.Errorf("number %d was heard: %v", number, !want)
		}
	}
	both := beatOf(entries) + string(wire.Ask{Kind: wire.Beats, Place: 64, Mask: 1, Sum: third}.Append(nil))
	if reply := d.beats("jobs", "p", both); reply != ". beaten 7 0\n. beaten 7 64\n" || !d.wasHeard(3) {
		t.Errorf("the process hears %q", reply)
	}
}

// A beat that is not right in all is refused. Those for whom it is right are heard.
func TestBeatsThatAreNotAcknowledged(t *testing.T) {
	for name, change := range map[string]func(t *testing.T, d *Daemon, entries map[int]uint64){
		"it names a place that nobody has":      func(_ *testing.T, _ *Daemon, entries map[int]uint64) { entries[7] = 0 },
		"its sum is another one":                func(_ *testing.T, _ *Daemon, entries map[int]uint64) { entries[6]++ },
		"a session did not hear of its entry":   func(t *testing.T, d *Daemon, _ map[int]uint64) { rolled(t, d, "jobs", 2, "p", 6) },
		"a place is another session's":          func(t *testing.T, d *Daemon, _ map[int]uint64) { rolled(t, d, "jobs", 3, "p", 6) },
		"a session is at another place":         func(t *testing.T, d *Daemon, _ map[int]uint64) { rolled(t, d, "jobs", 2, "p", 9) },
		"a session is of another process":       func(t *testing.T, d *Daemon, _ map[int]uint64) { rolled(t, d, "jobs", 2, "q", 6) },
		"a grant of a session was let go":       func(_ *testing.T, d *Daemon, _ map[int]uint64) { d.shard(0).lapse(2) },
		"a session has a request of a plan":     func(_ *testing.T, d *Daemon, _ map[int]uint64) { d.repliesTo("jobs", 2, ". open 3\n") },
		"a session is over":                     func(_ *testing.T, d *Daemon, _ map[int]uint64) { d.shard(0).expel(2, true) },
		"a session ended":                       func(_ *testing.T, d *Daemon, _ map[int]uint64) { d.repliesTo("jobs", 2, ". close\n") },
		"a session ended, and others have that": func(_ *testing.T, d *Daemon, _ map[int]uint64) { d.passOn(2) },
		"a number is another session's":         func(_ *testing.T, d *Daemon, _ map[int]uint64) { d.passOnSilently(2) },
	} {
		d := claimed(t, 3)
		entries := map[int]uint64{5: rolled(t, d, "jobs", 1, "p", 5), 6: rolled(t, d, "jobs", 2, "p", 6)}
		before := beatOf(entries)
		if reply := d.beats("jobs", "p", before); reply != ". beaten 7 0\n" {
			t.Fatalf("the process hears %q", reply)
		}
		change(t, d, entries)
		d.heardAgo(4, time.Minute)
		for i := 0; i < 2; i++ {
			if reply := d.beats("jobs", "p", beatOf(entries)); reply != ". unbeaten 7 0\n" {
				t.Errorf("%s: the process hears %q", name, reply)
			}
		}
		if !d.wasHeard(1) {
			t.Errorf("%s: a session was not heard for whom it is right", name)
		}
	}
}

// Who beats without end has his sessions heard a few times in a span of time, and delays nobody. A message says each place once.
func TestBeatsAreBounded(t *testing.T) {
	d := claimed(t, 4)
	entries := map[int]uint64{5: rolled(t, d, "jobs", 1, "p", 5), 63: rolled(t, d, "jobs", 2, "p", 63)}
	d.beats("jobs", "p", beatOf(entries))
	if reply := d.beats("jobs", "p", strings.Repeat(beatOf(entries), 3)); reply != ". beaten 7 0\n" {
		t.Errorf("a place that is said again is heard: %q", reply)
	}
	heard := 2
	for d.beats("jobs", "p", beatOf(entries)) != "" {
		if heard++; heard > 1000 {
			t.Fatal("all beats are taken")
		}
	}
	if lost := d.noRoom.Load(); heard < mostHeard || lost != 1 {
		t.Errorf("%d beats are heard, and %d are lost", heard, lost)
	}
	other := map[int]uint64{0: rolled(t, d, "jobs", 3, "q", 0)}
	if reply := d.beats("jobs", "q", beatOf(other)); reply != ". beaten 7 0\n" {
		t.Errorf("another process hears %q", reply)
	}
	d.leases.rolls["jobs.p"].since -= moment.Moment(d.leases.ttl / spansOfTTL)
	if reply := d.beats("jobs", "p", beatOf(entries)); reply != ". beaten 7 0\n" {
		t.Errorf("a span later the process hears %q", reply)
	}
	d.outBytes = mostOut + 1
	if reply := d.beats("jobs", "nobody", beatOf(entries)); reply != "" {
		t.Errorf("a voter that has much to send sends %q, too", reply)
	}
}

// passOn ends the session of a number, and lets another one have it, under the next epoch.
func (d *Daemon) passOn(number int) {
	d.repliesTo("jobs", number, ". close\n")
	d.claimsNext(number)
}

// passOnSilently lets another session have a number, whose session was silent for long.
func (d *Daemon) passOnSilently(number int) {
	passes(&d.shard(0).table, d.now().Add(2*d.leases.ttl))
	d.claimsNext(number)
	passes(&d.shard(0).table, d.now())
}

// claimsNext claims a number for another session than that which had it first, under the next epoch.
func (d *Daemon) claimsNext(number int) {
	h := wire.Header{Cluster: "test", Coterie: d.mark, Kind: wire.FromClient, Name: "later"}
	d.sort(transport.Message{Mailbox: wire.VoterBox("test", 0, "jobs"), Data: append(h.Append(nil), fmt.Sprintf(". claim %d 2 100\n", number)...)})
	d.takeAll()
}

// Nobody beats for the sessions of another user, or of another process.
func TestBeatsOfStrangers(t *testing.T) {
	d := claimed(t, 2)
	entries := map[int]uint64{5: rolled(t, d, "jobs", 1, "p", 5)}
	d.heardAgo(3, time.Minute)
	for _, one := range [][2]string{{"web", "p"}, {"jobs", "q"}, {"jobs", "session-1"}} {
		if reply := d.beats(one[0], one[1], beatOf(entries)); reply != ". unbeaten 7 0\n" || d.wasHeard(1) {
			t.Errorf("%v hears %q", one, reply)
		}
	}
	if reply := d.beats("jobs", "p", "junk\n"+beatOf(entries)); strings.Contains(reply, "beaten") || d.wasHeard(1) {
		t.Errorf("behind junk it hears %q", reply)
	}
}

// Each number has one entry, whatever its session says: so what a voter keeps of processes is bounded by its numbers.
func TestEntriesAreBounded(t *testing.T) {
	d := claimed(t, 2)
	for i := 0; i < 300; i++ {
		rolled(t, d, "jobs", 1, fmt.Sprint("p", i/9%7), i*71)
		rolled(t, d, "jobs", 2, fmt.Sprint("p", i/7%5), i*71)
	}
	entries := 0
	for _, r := range d.leases.rolls {
		for _, part := range r.parts {
			if *part == (rollPart{}) {
				t.Errorf("the roll of %s has a part without entries", r.name)
			}
			for _, key := range part {
				if key > 0 {
					entries++
				}
			}
		}
	}
	if entries > 2 || len(d.leases.rolls) > 3 { // the third one is that of number 0
		t.Errorf("%d entries in %d rolls", entries, len(d.leases.rolls))
	}
}

// Who ends in the message in which it says its place has no entry.
func TestEntryOfWhoEnds(t *testing.T) {
	d := claimed(t, 1)
	d.repliesTo("jobs", 1, ". open 0\n. close\n. roll p 5\n")
	if reply := d.beats("jobs", "p", beatOf(map[int]uint64{5: d.entries})); reply != ". unbeaten 7 0\n" {
		t.Errorf("the process hears %q", reply)
	}
}

// Who lost its place to another session takes nothing from that as its own entry goes.
func TestPlaceOfAnotherSession(t *testing.T) {
	d := claimed(t, 3)
	rolled(t, d, "jobs", 2, "p", 6)
	entries := map[int]uint64{6: rolled(t, d, "jobs", 3, "p", 6)}
	for _, lines := range []string{". open 3\n", ". open 0\n. roll p 9\n", ". close\n"} {
		d.repliesTo("jobs", 2, lines)
		if reply := d.beats("jobs", "p", beatOf(entries)); reply != ". beaten 7 0\n" {
			t.Errorf("%q: the process hears %q", lines, reply)
		}
	}
}

// The numbers of entries grow over starts and runs: what a session heard of an earlier one is no entry of a later one.
func TestEntriesOfStartsDiffer(t *testing.T) {
	last := uint64(0)
	for _, one := range [][2]uint64{{0, 1}, {0, 2}, {0, 3000}, {1, 1}, {2, 1}} {
		s := &store{meta: Meta{Run: one[0]}, own: own{Start: one[1]}}
		if first := entriesBefore(s); first < last+1<<32 {
			t.Errorf("run %d, start %d begins with %d, behind %d", one[0], one[1], first, last)
		} else {
			last = first
		}
	}
}

// A session may be on the roll of another process than that of which it said that it is: what a voter says to it goes to the one, and the
// other one beats for it.
func TestRollOfAnotherProcess(t *testing.T) {
	d := claimed(t, 2)
	isFor := func(process string) bool { return d.processOf("jobs.session-1") == process }
	isHeard := func(process string, entries map[int]uint64) bool {
		return strings.HasPrefix(d.beats("jobs", process, beatOf(entries)), ". beaten ")
	}
	entries := map[int]uint64{5: rolled(t, d, "jobs", 1, "p", 5)}
	if !isFor("") || d.processOf("jobs.session-7") != "" {
		t.Errorf("who did not say its process is of %q", d.processOf("jobs.session-1"))
	}
	for _, process := range []string{"q", "p", "q"} {
		if d.repliesTo("jobs", 1, ". process "+process+"\n"); !isFor(process) || !isHeard("p", entries) {
			t.Errorf("of %s: it is of %q", process, d.processOf("jobs.session-1"))
		}
	}
	entries = map[int]uint64{7: rolled(t, d, "jobs", 1, "q", 7)}
	if !isFor("q") || !isHeard("q", entries) {
		t.Errorf("on the roll of q: it is of %q", d.processOf("jobs.session-1"))
	}
	others := map[int]uint64{8: rolled(t, d, "jobs", 1, "s", 8)}
	if !isFor("q") || !isHeard("s", others) || isHeard("q", entries) {
		t.Errorf("on the roll of s: it is of %q", d.processOf("jobs.session-1"))
	}
	if d.repliesTo("jobs", 1, ". open 3\n. process r\n"); !isFor("r") || isHeard("s", others) {
		t.Errorf("on no roll: it is of %q", d.processOf("jobs.session-1"))
	}
	if rolled(t, d, "jobs", 1, "t", 9); !isFor("r") {
		t.Errorf("on the roll of t: it is of %q", d.processOf("jobs.session-1"))
	}
	if d.passOn(1); !isFor("") || d.processOf("jobs.later") != "" || d.shard(0).rare(1).process != "" {
		t.Errorf("the next session of the number is of %q", d.processOf("jobs.later"))
	}
}

// Sessions of one process have the same note, or others. Each has its own, also once it is of another process.
func TestNotesOfAProcess(t *testing.T) {
	d := claimed(t, 3)
	s := d.shard(0)
	has := func(want ...string) {
		t.Helper()
		for i, note := range want {
			if got := s.noteOf(i + 1); got != note {
				t.Errorf("session %d has the note %q, and not %q", i+1, got, note)
			}
		}
	}
	d.repliesTo("jobs", 1, ". note a\n")
	d.repliesTo("jobs", 2, ". note b\n")
	d.repliesTo("jobs", 3, ". note a\n")
	has("a", "b", "a")
	for number := 3; number > 0; number-- {
		d.repliesTo("jobs", number, ". process p\n")
	}
	has("a", "b", "a")
	d.repliesTo("jobs", 3, ". note b\n")
	d.repliesTo("jobs", 1, ". note\n")
	has("", "b", "b")
	d.repliesTo("jobs", 1, fmt.Sprintf(". roll q %d\n. note c\n", 4))
	has("c", "b", "b")
	d.passOn(2)
	has("c", "", "b")
	s.end(3, "jobs.session-3", 1)
	if has("c", "", "b"); !s.claim(3, "jobs.session-3", 2, 0, time.Now()) || s.name(3) != "jobs.session-3" {
		t.Fatal("a session gets no later epoch")
	}
	has("c", "", "")
}

// A beat of a process with a hundred sessions, each in a shard of its own, among those of others.
func BenchmarkBeat(b *testing.B) {
	d := measured(time.Now(), 257)
	var beats [][]byte
	for _, process := range d.rests(257, 30) {
		h := wire.Header{Cluster: "test", Coterie: d.mark, Kind: wire.FromClient, Name: process, Seq: 7}
		beats = append(beats, append(h.Append(nil), d.beatOfAll(process)...))
	}
	b.ReportAllocs()
	b.ResetTimer()
	for i := 0; i < b.N; i++ {
		d.sort(transport.Message{Mailbox: wire.VoterBox("test", 0, "jobs"), Data: beats[i%len(beats)]})
		if len(d.out) != 1 {
			b.Fatal(d.out)
		}
		for process := range d.out {
			delete(d.out, process)
		}
	}
}
