package voter

import (
	"fmt"
	"strings"
	"testing"
	"time"

	"calvundek.example/service/qlock"
	"github.com/prometheus/client_golang/prometheus/testutil"
)

// turned returns what a voter replies, after a save, to a session that asks for a turn.
func (d *Daemon) turned(t *testing.T, number int, lines string) string {
	t.Helper()
	session := fmt.Sprintf("jobs.session-%d", number)
	if reply := d.repliesTo("jobs", number, lines); strings.Contains(reply, "turned") {
		t.Fatalf("%q: %q leaves before the save", lines, reply)
	}
	if d.changed() > 0 || len(d.skips) > 0 {
		if err := d.save(); err != nil {
			t.Fatal(err)
		}
	}
	d.tellSkips()
	reply := string(d.out[session])
	delete(d.out, session)
	return reply
}

// Who has a vote has the numbers up to a turn skipped, and hears so once that is saved. The next grant is above it, also after a restart.
func TestTurnsAreSkipped(t *testing.T) {
	d := sessions(t, 1, 2)
	d.repliesTo("jobs", 1, "orders request 1 0 5\n")
	grant := d.votes["orders"].held().Number
	ask := fmt.Sprintf(". turn orders 5 %d %d\n", grant, grant+40)
	want := fmt.Sprintf(". turned orders 5 %d\n", grant+40)
	for i := 0; i < 2; i++ { // it may be lost, and asked for again
		if reply := d.turned(t, 1, ask); reply != want {
			t.Fatalf("%q", reply)
		}
	}
	if held, err := d.votes["orders"].extras.voter.Held(); err != nil || held.Number != grant {
		t.Errorf("%v, %v", held, err)
	}
	d.repliesTo("jobs", 2, "orders request 2 0 9\n")
	d.repliesTo("jobs", 1, "orders release 1 0 5\n")
	if next := d.votes["orders"].held(); next.Client != 2 || next.Number != grant+41 {
		t.Errorf("%+v after %d", next, grant)
	}
	if reply := d.turned(t, 1, ask); reply != "" {
		t.Errorf("%q for a grant that is over", reply)
	}
}

// Who asks who has a lock hears the turn that was said of the grant, and none of an earlier one.
func TestTurnIsShown(t *testing.T) {
	d := sessions(t, 1, 2)
	d.repliesTo("jobs", 1, "orders request 1 0 5\n")
	d.repliesTo("jobs", 2, "orders request 2 0 9\n")
	grant := d.votes["orders"].held().Number
	shows := func(want string) {
		t.Helper()
		for _, ask := range []string{". who 7 orders\n", ". list 7 0\n"} {
			reply := d.lookerHears(ask)
			line, rest, _ := strings.Cut(reply, "\n")
			if want != "" && (line != want || !strings.HasPrefix(rest, ". has 7 orders ")) || want == "" && strings.Contains(reply, "skipped") {
				t.Errorf("%q: %q", ask, reply)
			}
		}
	}
	shows("")
	d.turned(t, 1, fmt.Sprintf(". turn orders 5 %d %d\n", grant, grant+40))
	shows(fmt.Sprintf(". skipped 7 orders 5 %d", grant+40))
	d.repliesTo("jobs", 1, "orders release 1 0 5\n")
	shows("")
	d.repliesTo("jobs", 2, "orders release 2 0 9\n")
	shows("")
}

// A turn is told to nobody else, and for no other grant. One that ends before the save is not told.
func TestTurnsAreOfTheHolder(t *testing.T) {
	d := sessions(t, 1, 2)
	d.repliesTo("jobs", 1, "orders request 1 0 5\n")
	d.repliesTo("jobs", 2, "orders request 2 0 9\n")
	grant := d.votes["orders"].held().Number
	for number, words := range map[int]string{2: fmt.Sprintf("orders 9 %d %d", grant, grant+1), 1: fmt.Sprintf("orders 6 %d %d", grant, grant+1)} {
		if reply := d.turned(t, number, ". turn "+words+"\n"); reply != "" || d.highestOf(d.votes["orders"]) != grant {
			t.Errorf("%d, %s: %q", number, words, reply)
		}
	}
	for _, words := range []string{fmt.Sprintf("orders 5 %d %d", grant+1, grant+1), "stock 5 1 1"} {
		if reply := d.turned(t, 1, ". turn "+words+"\n"); reply != "" || len(d.votes) != 1 || d.highestOf(d.votes["orders"]) != grant {
			t.Errorf("%s: %q", words, reply)
		}
	}
	if reply := d.turned(t, 1, fmt.Sprintf(". turn orders 5 %d %d\norders release 1 0 5\n", grant, grant+7)); reply != "" {
		t.Errorf("%q though the grant was over at the save", reply)
	}
	if next := d.votes["orders"].held(); next.Number != grant+8 {
		t.Errorf("%+v", next)
	}
}

// For a turn beyond its ceiling, of a voter that is ahead, a voter asks the others for a higher one first, and tells
// the turn once they keep it.
func TestTurnsRaiseTheCeiling(t *testing.T) {
	d := sessions(t, 1)
	d.repliesTo("jobs", 1, "orders request 1 0 5\n")
	grant, top := d.votes["orders"].held().Number, d.ceiling+3*firstCeiling
	d.peers[1].Ceiling = top
	ask := fmt.Sprintf(". turn orders 5 %d %d\n", grant, top)
	if reply, want := d.turned(t, 1, ask), fmt.Sprintf(". turned orders 5 %d\n", top); reply != want || d.ceiling <= top {
		t.Errorf("%q under the ceiling %d", reply, d.ceiling) // there is no other voter
	}
}

// What is above all ceilings is no turn: no number is skipped for it, and it is counted. A ceiling of which this voter
// hears later lets the client have its turn as it asks again.
func TestTurnsAreBelowSomeCeiling(t *testing.T) {
	d := sessions(t, 1)
	d.repliesTo("jobs", 1, "orders request 1 0 5\n")
	d.peers[1].Ceiling = 3 * firstCeiling
	grant, before, refused := d.votes["orders"].held().Number, d.ceiling, testutil.ToFloat64(d.m.refused)
	ask := func(top uint64) string { return fmt.Sprintf(". turn orders 5 %d %d\n", grant, top) }
	for i, top := range []uint64{3*firstCeiling + 1, 1 << 42, 1 << 62, 1<<63 + 1} {
		reply := d.repliesTo("jobs", 1, ask(top)+". open 0\n")
		if !strings.Contains(reply, ". opened") || len(d.skips) > 0 || d.asked() > before || d.m.most > grant {
			t.Errorf("%d: %q, %d turns, asked for %d, %d are skipped", top, reply, len(d.skips), d.asked(), d.m.most)
		}
		if counted := testutil.ToFloat64(d.m.refused) - refused; counted != float64(i+1) {
			t.Errorf("%d: %v are counted", top, counted)
		}
	}
	later := uint64(4 * firstCeiling)
	d.peers[2].Ceiling = later
	for _, top := range []uint64{grant, later} {
		if reply := d.turned(t, 1, ask(top)); reply != fmt.Sprintf(". turned orders 5 %d\n", top) {
			t.Errorf("%d: %q", top, reply)
		}
	}
}

// Who asks for greater turns again and again has no more numbers skipped than there were tokens for, also where none is beyond the ceiling.
func TestTurnsAreBounded(t *testing.T) {
	d := sessions(t, 1)
	d.skippable = *qlock.NewBucket(0, 2*(5<<24), 0) // 5 * 2^24 numbers, and never more
	d.repliesTo("jobs", 1, "orders request 1 0 5\n")
	grant, told := d.votes["orders"].held().Number, 0
	for i := 0; i < 40; i++ {
		if reply := d.turned(t, 1, fmt.Sprintf(". turn orders 5 %d %d\n", grant, d.ceiling)); reply != "" {
			told++
		}
		d.start(time.Now())
	}
	if skipped := d.m.most - grant; told == 0 || skipped > 5<<24 {
		t.Errorf("%d turns, by which %d numbers were skipped", told, skipped)
	}
}

// Nor do two voters take one another further, of which each has the other one's ceiling as a turn.
func TestVotersDoNotLeapfrog(t *testing.T) {
	both, asks := [2]*Daemon{sessions(t, 1), sessions(t, 1)}, [2]string{}
	const few = 3 * lastBlock
	for i, d := range both {
		d.skippable = *qlock.NewBucket(0, 2*few, 0)
		d.repliesTo("jobs", 1, "orders request 1 0 5\n")
		asks[i] = fmt.Sprintf(". turn orders 5 %d ", d.votes["orders"].held().Number) + "%d\n"
	}
	for i := 0; i < 80; i++ {
		d, other := both[i%2], both[1-i%2]
		d.peers[1].Ceiling = other.ceiling
		d.turned(t, 1, fmt.Sprintf(asks[i%2], d.highestCeiling()))
		d.start(time.Now())
	}
	if most := greatest(both[0].m.most, both[1].m.most); most < few || most > 2*few+2*lastBlock {
		t.Errorf("turns up to %d, with tokens for %d", most, 2*few)
	}
}

// What is further than there are tokens for comes nearer each time, and is reached in the end. To the last block of
// another voter it is no way.
func TestTurnsComeNearer(t *testing.T) {
	d := sessions(t, 1)
	d.skippable = *qlock.NewBucket(100, 1000, 0)
	far := greatest(d.floor, d.m.most) + 2000
	for seconds := 0; seconds <= 15; seconds += 5 {
		if may := d.mayReach(far, d.ceiling, d.leases.began.Add(time.Duration(seconds)*time.Second)); may != (seconds == 15) {
			t.Errorf("after %d seconds: %v", seconds, may)
		}
	}
	d.peers[1].Ceiling = 1 << 50
	highest := d.highestCeiling()
	if !d.mayReach(highest-lastBlock, highest, d.leases.began) || d.mayReach(highest-lastBlock+2000, highest, d.leases.began) {
		t.Error("it does not follow another voter, or its last block is free")
	}
}
