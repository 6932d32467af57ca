package voter

import (
	"encoding/json"
	"errors"
	"io"
	"path/filepath"
	"strings"
	"testing"
	"time"

	"calvundek.example/service/internal/config"
	"calvundek.example/service/internal/event"
	"calvundek.example/service/internal/operator"
	"calvundek.example/service/internal/wire"
	"calvundek.example/service/qlock"
)

// three of four voters: a voter and any two others are a quorum, and so are the three others
const threeOfFour = "voters = [\"a\", \"b\", \"c\", \"d\"]\n" +
	"quorums = [[\"a\", \"b\", \"c\"], [\"a\", \"b\", \"d\"], [\"a\", \"c\", \"d\"], [\"b\", \"c\", \"d\"]]\n"

// star has voter a in each quorum
const star = "voters = [\"a\", \"b\", \"c\", \"d\"]\nquorums = [[\"a\", \"b\"], [\"a\", \"c\"], [\"a\", \"d\"]]\n"

// lost returns voter a of a coterie, which was made again after its state was lost, by what all others replied, and
// waits for them.
func lost(t *testing.T, coterie string) *Daemon {
	t.Helper()
	own, cluster := ofCoterie(t, coterie)
	known, err := json.Marshal(Knows{Sessions: map[int]Session{}, Peers: map[int]Peer{0: theOneBefore}})
	if err != nil {
		t.Fatal(err)
	}
	var replies []operator.Reply
	for place := 1; place < len(cluster.Names()); place++ {
		replies = append(replies, operator.Reply{Voter: place, Body: known})
	}
	if _, err := MakeAgain(Surroundings{}, own, cluster, replies); err != nil {
		t.Fatal(err)
	}
	return opened(t, own, cluster)
}

// made returns voter a of a coterie, which is new, and waits for the others.
func made(t *testing.T, coterie string) *Daemon {
	t.Helper()
	own, cluster := ofCoterie(t, coterie)
	if _, err := Init(own, cluster); err != nil {
		t.Fatal(err)
	}
	return opened(t, own, cluster)
}

// theOneBefore is what others know of voter a of before its state was lost.
var theOneBefore = Peer{Identity: identity("before"), Process: process("before"), Start: 7, Ceiling: firstCeiling}

// ofCoterie returns the settings of voter a of a coterie.
func ofCoterie(t *testing.T, coterie string) (*config.Voter, *config.Cluster) {
	t.Helper()
	text, second := texts(t, coterie), config.Duration{Duration: time.Second}
	cluster := &config.Cluster{ID: "test", Servers: []string{"none"}, TTL: config.Duration{Duration: 2 * time.Second},
		Coterie: text.Coterie, Plan: text.Plan}
	if err := cluster.Check(); err != nil {
		t.Fatal(err)
	}
	data := filepath.Join(t.TempDir(), "a")
	return &config.Voter{Voter: "a", Data: data, MaxLocks: 10, First: second, Most: second}, cluster
}

// opened opens the state of a voter, in a process that has the name "mine".
func opened(t *testing.T, own *config.Voter, cluster *config.Cluster) *Daemon {
	t.Helper()
	d, err := Open(own, cluster, &post{}, event.To(io.Discard))
	if err != nil {
		t.Fatal(err)
	}
	t.Cleanup(func() { d.store.disk.Close() })
	d.join.process = process("mine")
	return d
}

// isKeptBy lets other voters say that they keep the ceiling that a voter asked for.
func (d *Daemon) isKeptBy(places ...int) {
	for _, place := range places {
		d.hearAnswer(heard(place), word{Word: "kept", Process: process("mine"), Ceiling: d.asked(), Known: &Peer{Identity: d.store.meta.Identity,
			Process: process("mine")}}, time.Now())
	}
}

// Each message to a session begins with the voters that were made again, and how often. What is said there is of other voters.
func TestRunsAreSaid(t *testing.T) {
	d := claimed(t, 1)
	d.putPeer(2, Peer{Identity: identity("C"), Run: 4, Start: 1, Process: process("p")})
	d.putPeer(1, Peer{Identity: identity("B"), Start: 1, Process: process("p")})
	d.sends("jobs", speaks(d, 1, ". open 0\n"))
	long := strings.Repeat(". open 0\n", 3)
	d.sends("jobs", speaks(d, 1, long))
	messages := 0
	for box, sent := range d.delivers(t) {
		for _, message := range sent {
			_, lines, err := wire.Read([]byte(message))
			if messages++; err != nil || !strings.HasPrefix(string(lines), ". run 2 4\n. ") || strings.Count(string(lines), ". run ") != 1 {
				t.Errorf("%s hears %q, %v", box, lines, err)
			}
		}
	}
	if messages == 0 {
		t.Error("nobody hears anything")
	}
}

// A voter that lost its state can't say what another one forgot: it replies to no start, and to no operator who asks what it knows, before
// it serves.
func TestLostVoterSaysNothing(t *testing.T) {
	says := func(d *Daemon) (words int, isRefused bool) {
		d.letters = nil
		d.meet(heard(1), word{Word: "start", Process: process("p")})
		_, isRefused = d.obey([]string{"knows"}, "", time.Now()).(Refused)
		return len(d.letters), isRefused
	}
	if words, isRefused := says(made(t, two)); words != 1 || isRefused {
		t.Errorf("a new one says %d words, and refuses %v", words, isRefused)
	}
	d := lost(t, two)
	if words, isRefused := says(d); words != 0 || !isRefused {
		t.Errorf("it says %d words, and refuses %v", words, isRefused)
	}
	d.store.disk.Close()
	d = opened(t, d.own, d.cluster)
	if words, isRefused := says(d); words != 0 || !isRefused {
		t.Errorf("in its next start it says %d words, and refuses %v", words, isRefused)
	}
	for _, place := range []int{1, 2} {
		d.hearAnswer(heard(place), answered(place, theOneBefore), time.Now())
	}
	d.start(time.Now())
	d.isKeptBy(1)
	if words, isRefused := says(d); words != 1 || isRefused || !d.join.done {
		t.Errorf("once it serves it says %d words, and refuses %v", words, isRefused)
	}
	if err := d.commit(time.Now()); err != nil {
		t.Fatal(err)
	}
	d.store.disk.Close()
	if words, isRefused := says(opened(t, d.own, d.cluster)); words != 1 || isRefused {
		t.Errorf("after it served it says %d words, and refuses %v", words, isRefused)
	}
}

// A voter that lost its state waits for the replies of a quorum, or of all others. A new one waits until the silent ones and it contain no
// quorum.
func TestLostVoterWaitsForAQuorum(t *testing.T) {
	for _, one := range []struct {
		isLost  bool
		coterie string
		replies []int
		asks    bool
	}{
		{false, threeOfFour, []int{1}, false}, {false, threeOfFour, []int{1, 2}, true}, {true, threeOfFour, []int{1, 2}, false},
		{true, threeOfFour, []int{1, 2, 3}, true}, {true, two, []int{1}, false}, {true, two, []int{1, 2}, true}, {true, star, []int{1, 2}, false},
		{true, star, []int{1, 2, 3}, true}, // there is no quorum of others
	} {
		d := made(t, one.coterie)
		if one.isLost {
			d = lost(t, one.coterie)
		}
		for _, place := range one.replies {
			d.hearAnswer(heard(place), answered(place, theOneBefore), time.Now())
		}
		if d.start(time.Now().Add(time.Hour)); d.asked() > 0 != one.asks {
			t.Errorf("lost %v, after replies of %v of %q, it asks for a ceiling: %v", one.isLost, one.replies, one.coterie, !one.asks)
		}
	}
}

// The grants of a voter that lost its state begin above the ceiling of the one before, and it is quiet at first.
func TestLostVoterGoesAboveTheOneBefore(t *testing.T) {
	d := lost(t, two)
	for _, place := range []int{1, 2} {
		d.hearAnswer(heard(place), answered(place, theOneBefore), time.Now())
	}
	d.start(time.Now())
	d.isKeptBy(2)
	if !d.join.done || d.floor != firstCeiling || d.ceiling <= firstCeiling || !d.isQuiet() {
		t.Errorf("it serves %v from %d to %d, quiet %v", d.join.done, d.floor, d.ceiling, d.isQuiet())
	}
}

// A voter that lost its state may have retired a plan. So it takes none that is older than those which a voter that
// answers has in use: it ends, and starts with the newest file. One that only slept through an exchange did not retire
// that plan, and goes on.
func TestLostVoterTakesNoRetiredPlan(t *testing.T) {
	answer := func(d *Daemon, oldest uint64) error {
		one := answered(1, theOneBefore)
		one.Knows.Oldest = oldest
		d.hearAnswer(heard(1), one, time.Now())
		return d.join.refused
	}
	if err := answer(made(t, two), 1); err != nil {
		t.Errorf("a new one: %v", err)
	}
	if err := answer(lost(t, two), 0); err != nil {
		t.Errorf("no plan is retired: %v", err)
	}
	d := lost(t, two)
	if err := answer(d, 1); !errors.Is(err, ErrBefore) {
		t.Fatalf("a plan is retired: %v", err)
	}
	if _, err := d.Turn(); !errors.Is(err, ErrBefore) {
		t.Errorf("it goes on: %v", err)
	}
	d.store.disk.Close()
	d.cluster.Generation = 1
	if d = opened(t, d.own, d.cluster); d.knows(0, nil).Oldest != 1 || answer(d, 1) != nil {
		t.Errorf("with the newest file: %v", d.join.refused)
	}
}

// A voter that lost its state learns of no stamp as another session's that a session may use by another voter's row.
func TestStampsThatAreLearnedStaySpent(t *testing.T) {
	earlier := Session{Hash: hashed("jobs.earlier"), Epoch: 2, Base: 10, Reserved: 500, Open: true, Used: true}
	later := Session{Hash: hashed("jobs.later"), Epoch: 3, Base: 20, Reserved: 100, Open: true, Used: true}
	for _, one := range []struct {
		what string
		rows []Session
		want [2]uint64
	}{
		{"an earlier session", []Session{later, earlier}, [2]uint64{500, 500}},
		{"a later session", []Session{earlier, later}, [2]uint64{500, 500}},
		{"a later claim alone", []Session{earlier, {Hash: later.Hash, Epoch: 3, Base: 500, Reserved: 600, Open: true}}, [2]uint64{600, 600}},
		{"the same session, with another base", []Session{later, {Hash: later.Hash, Epoch: 3, Base: 60, Reserved: 90, Open: true, Used: true}}, [2]uint64{60, 100}},
	} {
		d := lost(t, two)
		s, number := d.shardOfKey(5)
		for _, row := range one.rows {
			d.learnRow(s, number, row, time.Now())
		}
		if row := s.row(number); row.Base != one.want[0] || row.Reserved != one.want[1] {
			t.Errorf("%s: stamps are above %d, and up to %d, and not above %d up to %d", one.what, row.Base, row.Reserved, one.want[0], one.want[1])
		}
	}
	d := lost(t, two)
	s, number := d.shardOfKey(5)
	if d.learnFloor(s.table.number, Floor{Stamp: 300}, time.Now()); s.row(number).Base != 300 {
		t.Errorf("by a floor of 300 stamps are above %d", s.row(number).Base)
	}
}

// A voter whose state was lost is made again of what a quorum of others replied, or all others, if the silent ones and it contain no quorum.
func TestWhoMakesAVoterAgain(t *testing.T) {
	for _, one := range []struct {
		coterie string
		replied []int
		want    error
	}{
		{threeOfFour, []int{1}, ErrFewer},
		{threeOfFour, []int{1, 2}, ErrFewer},
		{threeOfFour, []int{1, 2, 3}, ErrNew}, // enough, but none of them knows of a voter there
		{two, []int{1}, ErrFewer},
		{two, []int{1, 2}, ErrNew},
		{star, []int{1, 2}, ErrFewer},
		{star, []int{1, 2, 3}, ErrNew}, // there is no quorum of others
	} {
		text := texts(t, one.coterie)
		plan, err := qlock.ReadPlan(text.Coterie, text.Plan)
		if err != nil {
			t.Fatal(err)
		}
		var replies []operator.Reply
		for _, place := range one.replied {
			replies = append(replies, operator.Reply{Voter: place, Body: []byte(`{"sessions":{}}`)})
		}
		cluster := &config.Cluster{Planned: plan}
		if _, err := MakeAgain(Surroundings{}, &config.Voter{Voter: "a"}, cluster, replies); !errors.Is(err, one.want) {
			t.Errorf("by %v of %q: %v, and not %v", one.replied, one.coterie, err, one.want)
		}
	}
}
