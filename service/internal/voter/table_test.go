package voter

import (
	"math"
	"math/rand"
	"testing"
	"time"

	"calvundek.example/service/qlock"
)

func tableAt(now time.Time) *table {
	l := leasesAt(now)
	t := newTable(&l, 0, Floor{})
	return &t
}

// newLeases returns leases that have not begun, and leasesAt those that began at a time.
func newLeases() leases {
	return leases{ttl: time.Second, changed: map[int]Session{}, later: map[int]Session{}}
}

func leasesAt(now time.Time) leases {
	l := newLeases()
	l.begin(now)
	return l
}

// all returns the rows of all numbers.
func (t *table) all() (rows [qlock.MaxClients]Session) {
	for number := range rows {
		rows[number] = t.row(number)
	}
	return rows
}

// copied returns a table that is the same as this one, and stays so.
func (t *table) copied() *table {
	other := *t
	other.seats, other.rarities = seats{}, nil
	t.seats.each(func(number int, one *seat) {
		seat := *one
		other.seats.add(number, &seat)
		other.keep(number, t.rare(number))
	})
	return &other
}

// named gives the session of a number its name, as if it was heard.
func (t *table) named(number int, name string) { t.setName(number, t.called(name)) }

// passes lets a table's lease clock go on to a time.
func passes(t *table, now time.Time) { t.clock = *qlock.NewClock(periodOf(t.ttl), now.Sub(t.began)) }

// claimAt claims at a time, up to which all that was sent was heard.
func claimAt(t *table, number int, name string, epoch uint64, now time.Time) bool {
	passes(t, now)
	return t.claim(number, name, epoch, 0, now)
}

// isDeadAt returns whether a number is dead at a time, up to which all that was sent was heard.
func isDeadAt(t *table, number int, now time.Time) bool {
	passes(t, now)
	return t.isDead(number)
}

// admits returns what a table says of a message that reserves stamps, too.
func admits(t *table, number int, name string, epoch, reserved uint64, now time.Time) qlock.Standing {
	judged := t.admit(number, name, epoch, now)
	if judged == qlock.SessionKnown {
		t.reserve(number, name, epoch, reserved, now)
	}
	return judged
}

func TestClaims(t *testing.T) {
	now := time.Unix(1000, 0)
	table := tableAt(now)
	later := now.Add(2 * time.Second)
	row := func() Session { return table.row(3) } // calls take place in their order
	for _, one := range []struct {
		what string
		got  bool
		want bool
	}{
		{"a message of a session that claimed nothing", admits(table, 3, "a", 1, 100, now) == qlock.SessionUnknown, true},
		{"it leaves nothing behind", row() == Session{}, true},
		{"a free number", claimAt(table, 3, "a", 1, now), true},
		{"the same claim again", claimAt(table, 3, "a", 1, now), true},
		{"the epoch again", claimAt(table, 3, "b", 1, now), false},
		{"a number in use", claimAt(table, 3, "b", 2, now), false},
		{"a message of the session", admits(table, 3, "a", 1, 100, now) == qlock.SessionKnown, true},
		{"a message of another one", admits(table, 3, "b", 1, 0, now) == qlock.SessionOver, true},
		{"a number whose session was silent for less than a TTL", claimAt(table, 3, "b", 2,
			now.Add(900*time.Millisecond)), false},
		{"a silent session's number", claimAt(table, 3, "b", 2, later), true},
		{"the old session", admits(table, 3, "a", 1, 0, later) == qlock.SessionOver, true},
		{"what it reserved is kept", row().Base == 100 && row().Reserved == 100, true},
		{"a later session that did not claim here", admits(table, 3, "c", 4, 500, later) == qlock.SessionUnknown, true},
		{"it takes nothing over", row().Hash == hashed("b") && row().Reserved == 100, true},
		{"a claim far above the epoch", claimAt(table, 5, "x", 1<<20+1, now), false},
		{"one that is not", claimAt(table, 5, "x", 1<<18, now), true},
	} {
		if one.got != one.want {
			t.Error(one.what)
		}
	}
	if claimAt(table, 6, "x", 1, now); table.row(6).Open {
		if table.drop(6, "x", 1); table.row(6).Open {
			t.Error("a claim stays that was dropped")
		}
	}
	if !claimAt(table, 6, "y", 1, now) || table.admit(6, "y", 1, now) != qlock.SessionKnown || table.admit(6, "x", 1, now) != qlock.SessionOver {
		t.Error("whoever has the quorum does not get an epoch that another one took back")
	}
	if table.drop(6, "y", 1); !table.row(6).Open {
		t.Error("a session that a quorum accepted was dropped")
	}
	if !claimAt(table, 7, "x", 1, later) || isDeadAt(table, 7, later.Add(900*time.Millisecond)) || !isDeadAt(table, 7,
		later.Add(1100*time.Millisecond)) {
		t.Error("a lease is not as long as the TTL")
	}
	table.expel(3, false)
	if table.admit(3, "b", 2, later) != qlock.SessionOver || table.row(3).Open || isDeadAt(table, 3, later) {
		t.Error("a session that was expelled goes on, or what it has goes before it was silent")
	}
	if table.expel(3, true); !isDeadAt(table, 3, later) {
		t.Error("what a session has stays that was expelled at once")
	}
	if claimAt(table, 3, "d", 4, later) || !claimAt(table, 3, "d", 5, later) {
		t.Error("an epoch was given twice")
	}
}

// However often somebody claims and reserves, the highest stamp grows at most by 2^16 a second, and
// no epoch by more than 2^20 at once. Others may follow what one reserved.
func TestGrowthIsBounded(t *testing.T) {
	now := time.Unix(1000, 0)
	table := tableAt(now)
	table.claim(3, "a", 1, 0, now)
	for i := 0; i < 100000; i++ {
		now = now.Add(100 * time.Microsecond)
		table.admit(3, "a", 1, now)
		table.reserve(3, "a", 1, table.row(3).Reserved+mostStamps, now)
	}
	if most := uint64(mostStamps + 10*stampRate); table.row(3).Reserved > most || table.row(3).Reserved < most/2 {
		t.Errorf("after ten seconds %d stamps are reserved", table.row(3).Reserved)
	}
	table.claim(4, "b", 1, 0, now)
	if table.reserve(4, "b", 1, table.row(3).Reserved, now); table.row(4).Reserved != table.row(3).Reserved {
		t.Error("a session can't follow the stamps of another one")
	}
	table.reserve(4, "b", 1, 1<<62, now.Add(1000000*time.Hour))
	if table.reserve(4, "b", 1, 1<<63, now.Add(2000000*time.Hour)); table.row(4).Reserved > qlock.MaxStamp {
		t.Error("a stamp is reserved that there is not")
	}
	for i := 0; i < 1000; i++ {
		table.claim(5, "x", table.row(5).Epoch+mostEpochs, 0, now)
		table.claim(5, "x", table.row(5).Epoch+mostEpochs/2, 0, now)
		table.end(5, "x", table.row(5).Epoch)
	}
	if table.row(5).Epoch > mostEpochs {
		t.Errorf("a number has the epoch %d", table.row(5).Epoch)
	}
	if other := tableAt(now); !other.claim(5, "y", table.row(5).Epoch+1, 0, now.Add(time.Second)) {
		t.Error("a session that saw this epoch gets the number from no other voter")
	}
}

// sessions begin and reserve at quorums of three tables, while messages are lost. No two of a number use one stamp.
func TestNoStampIsUsedTwice(t *testing.T) {
	worst := stampsUsedTwice(0b111)
	if worst > 0 {
		t.Errorf("%d stamps were used twice", worst)
	}
	if stampsUsedTwice(0b011) == 0 {
		t.Error("a quorum of one voter uses no stamp twice: these runs show nothing")
	}
}

// stampsUsedTwice plays random sessions. A quorum is any two of the three tables; if `meet` lacks a table, what that one
// says counts for two.
func stampsUsedTwice(meet int) (twice int) {
	random, now := rand.New(rand.NewSource(1)), time.Unix(1000, 0)
	for world := 0; world < 300; world++ {
		var tables [qlock.MaxVoters]*table
		for i := 0; i < 3; i++ {
			tables[i] = tableAt(now)
		}
		used := map[uint64]int{}
		for session := 1; session < 12; session++ {
			now = now.Add(2 * time.Second) // the one before is silent, and may come back
			epoch, answers, base := uint64(session), 0, uint64(0)
			for i := 0; i < 3; i++ {
				if random.Intn(3) > 0 && claimAt(tables[i], 0, string(rune('a'+session)), epoch, now) {
					answers += weight(i, meet)
					if tables[i].row(0).Reserved > base {
						base = tables[i].row(0).Reserved
					}
				}
			}
			if answers < 2 {
				continue
			}
			acknowledged := 0
			for i := 0; i < 3; i++ {
				name := string(rune('a' + session))
				if random.Intn(3) > 0 && admits(tables[i], 0, name, epoch, base+10, now) == qlock.SessionKnown &&
					tables[i].row(0).Reserved >= base+10 {
					acknowledged += weight(i, meet)
				}
			}
			for stamp := base + 1; acknowledged >= 2 && stamp <= base+10; stamp++ {
				if used[stamp] != 0 {
					twice++
				}
				used[stamp] = session
			}
		}
	}
	return twice
}

func weight(i, meet int) int {
	if meet>>i&1 == 0 {
		return 2
	}
	return 1
}

// A session that has two numbers here, as one of which it did not get it counts, too, hears the greater count of its lapses.
func TestLapsesOfTwoNumbers(t *testing.T) {
	now := time.Now()
	for _, name := range []string{"jobs.me", usual[0]} {
		table := tableAt(now)
		for _, number := range []int{3, 9, 12} {
			if !claimAt(table, number, name, 1, now) {
				t.Fatal("no number")
			}
		}
		table.lapse(9)
		if lapses := table.lapses(name); lapses != 1 {
			t.Errorf("%d lapses", lapses)
		}
		table.lapse(12)
		table.lapse(12)
		if lapses, others := table.lapses(name), table.lapses("jobs.other"); lapses != 2 || others != 0 {
			t.Errorf("%d lapses, and %d of another session", lapses, others)
		}
		if table.end(12, name, 1); table.lapses(name) != 1 {
			t.Errorf("%d lapses, where one number is over", table.lapses(name))
		}
	}
}

// A number whose epochs are spent is nobody's any more: a voter says that it is taken.
func TestSpentEpochs(t *testing.T) {
	now := time.Unix(1000, 0)
	table := tableAt(now)
	for _, epoch := range []uint64{math.MaxUint64 - 1, math.MaxUint64} {
		table.set(3, Session{Epoch: epoch})
		if got, want := table.state(3), map[uint64]int{math.MaxUint64 - 1: 1}[epoch]; got != want {
			t.Errorf("epoch %d: state %d", epoch, got)
		}
	}
}
