package qlock

import (
	"errors"
	"math"
	"math/rand"
	"testing"
)

// tableRow is a row as the table of a voter of the service has it: by its rules, but for clocks and rates. Who has the
// number is forgotten once it is free.
type tableRow struct {
	epoch, base, reserved uint64
	isOpen, isUsed        bool
	isAgain               bool // its session took the claim back
	session               Session
}

func (t *tableRow) isOf(session Session, epoch uint64) bool {
	return t.isOpen && t.epoch == epoch && t.session == session
}

// reserve notes which stamps the session of a number reserves, as far as it may.
func (t *tableRow) reserve(wanted, most uint64) {
	for _, bound := range []uint64{most, MaxStamp} {
		if wanted > bound {
			wanted = bound
		}
	}
	if wanted > t.reserved {
		t.reserved = wanted
	}
}

// claim gives the number to a session, with so many stamps, and returns whether it did.
func (t *tableRow) claim(c Claim) bool {
	if t.isOf(c.Session, c.Epoch) {
		return true
	}
	most, stamps := c.Epochs, c.Stamps
	if most > 1<<20 {
		most = 1 << 20
	}
	if stamps > 1<<12 {
		stamps = 1 << 12
	}
	isNew := c.Epoch > t.epoch || c.Epoch == t.epoch && t.isAgain
	if !isNew || t.isOpen && !c.IsSilent || c.Epoch-t.epoch > most {
		return false
	}
	*t = tableRow{epoch: c.Epoch, base: t.reserved, reserved: t.reserved, isOpen: true, session: c.Session}
	t.reserve(t.reserved+stamps, c.Most)
	return true
}

// learn takes what another voter knows of the number.
func (t *tableRow) learn(other tableRow) {
	before := *t
	newer := other.epoch > t.epoch && (other.isUsed || !t.isUsed)
	if other.epoch == t.epoch && t.isOpen && other.isOpen && other.session != t.session && other.isUsed && t.isUsed {
		other, newer = tableRow{epoch: other.epoch, base: other.reserved, reserved: other.reserved, isUsed: true}, true
	}
	if newer {
		*t = other
		t.base = greatest(before.reserved, other.base)
		if other.isAgain { // others may claim that epoch here, too
			t.epoch, t.isAgain = other.epoch-1, before.isAgain && before.epoch == other.epoch-1
		}
	}
	t.reserved = greatest(before.reserved, greatest(other.reserved, t.base))
}

// relearn takes another voter's row after this voter lost its state: a session that stays goes on above both bases, and any other one above
// all that is reserved there.
func (t *tableRow) relearn(other tableRow) {
	before := *t
	if t.learn(other); t.isOpen && t.session == before.session && t.epoch == before.epoch {
		if other.isOpen && other.session == t.session && other.epoch == t.epoch {
			t.base = greatest(before.base, other.base)
		} else {
			t.base = greatest(before.base, other.reserved)
		}
	}
}

func greatest(a, b uint64) uint64 {
	if a > b {
		return a
	}
	return b
}

// pair has a row by the table's rules beside the proved one.
type pair struct {
	model tableRow
	row   *Row
}

// agrees fails the test unless both rows have the same. The base of a number that nobody has means nothing.
func (p *pair) agrees(t *testing.T, call string) {
	t.Helper()
	shown, err := p.row.Shows()
	if err != nil {
		t.Fatal(call, err)
	}
	m := p.model
	if shown.Epoch != m.epoch || shown.Reserved != m.reserved || shown.IsHeld != m.isOpen || shown.IsAgain != m.isAgain ||
		m.isOpen && (shown.Base != m.base || shown.Session != m.session) {
		t.Fatalf("%s: %+v, and by the table %+v", call, shown, m)
	}
}

// near returns a number at most two away from this one, not below 0, or sometimes one that is far above.
func near(random *rand.Rand, number uint64) uint64 {
	if random.Intn(8) == 0 {
		return number + 1<<uint(random.Intn(24))
	}
	if number < 2 {
		return uint64(random.Intn(5))
	}
	return number - 2 + uint64(random.Intn(5))
}

// outcome is a call, and whether it was done.
type outcome struct {
	call   string
	isDone bool
}

// A row does what the table of a voter does, on random calls: it gives, reserves and frees numbers, and learns, as that
// does. Sometimes it is saved and restored.
func TestRowAndTable(t *testing.T) {
	random := rand.New(rand.NewSource(76))
	seen := map[outcome]int{}
	for run := 0; run < 200; run++ {
		var pairs [2]pair
		for i := range pairs {
			floor := uint64(random.Intn(10))
			row, err := NewRow(floor, 10*floor)
			if err != nil {
				t.Fatal(err)
			}
			pairs[i] = pair{tableRow{epoch: floor, base: 10 * floor, reserved: 10 * floor}, row}
		}
		for step := 0; step < 200; step++ {
			p, other := &pairs[step%2], &pairs[1-step%2]
			session := Session{0: byte(random.Intn(2)), 15: byte(random.Intn(2))}
			m := &p.model
			epoch, stamp := near(random, m.epoch), near(random, m.reserved)
			if random.Intn(2) == 0 {
				session, epoch = m.session, m.epoch
			}
			takes, err := p.row.Takes(session, epoch, stamp)
			if err != nil || takes != (m.isOf(session, epoch) && m.base < stamp && stamp <= m.reserved) {
				t.Fatalf("takes %v %d %d: %v, %v, and by the table %+v", session, epoch, stamp, takes, err, *m)
			}
			seen[outcome{"takes", takes}]++
			made := p.step(t, random, session, epoch, stamp, other)
			seen[made]++
			p.agrees(t, made.call)
		}
	}
	for _, call := range []string{"takes", "claim", "reserve", "close", "take back"} {
		for _, isDone := range []bool{true, false} {
			if seen[outcome{call, isDone}] < 100 {
				t.Errorf("%s was %v only %d times", call, isDone, seen[outcome{call, isDone}])
			}
		}
	}
}

// step makes a random call of both rows, which have to answer the same, and returns what it was.
func (p *pair) step(t *testing.T, random *rand.Rand, session Session, epoch, stamp uint64, other *pair) outcome {
	t.Helper()
	m := &p.model
	owns := m.isOf(session, epoch)
	same := func(call string, err error, isDone bool) outcome {
		t.Helper()
		if (err == nil) != isDone {
			t.Fatalf("%s: %v, and by the table %v, of %+v", call, err, isDone, *m)
		}
		return outcome{call, isDone}
	}
	switch random.Intn(8) {
	case 0, 1:
		c := Claim{session, epoch, uint64(random.Intn(8)), random.Intn(2) == 0, math.MaxUint64, math.MaxUint64}
		if random.Intn(4) == 0 {
			c.Epochs, c.Most, c.Stamps = uint64(random.Intn(4)), stamp, math.MaxUint64
		}
		return same("claim", p.row.Claim(c), m.claim(c))
	case 2, 3:
		most := near(random, stamp)
		if owns {
			m.reserve(stamp, most)
		}
		return same("reserve", p.row.Reserve(session, epoch, stamp, most), owns)
	case 4:
		if random.Intn(2) == 0 {
			m.isOpen, m.isAgain = m.isOpen && !owns, m.isAgain || owns
			return same("take back", p.row.TakeBack(session, epoch), owns)
		}
		m.isOpen = m.isOpen && !owns
		return same("close", p.row.Close(session, epoch), owns)
	case 5:
		m.isUsed = m.isUsed || owns
		restored, err := RestoreRow(p.row.State())
		if shown, _ := restored.Shows(); random.Intn(2) == 0 {
			restored, err = shown.Row()
		}
		p.row = restored
		return same("restore", err, true)
	case 6:
		if random.Intn(4) > 0 {
			floor := m.epoch // the newest epoch if the call raises none
			m.epoch, m.base, m.reserved, m.isOpen = greatest(m.epoch, epoch), greatest(m.reserved, stamp), greatest(m.reserved, stamp), false
			m.isAgain = m.isAgain && m.epoch == floor
			return same("drop", p.row.Drop(epoch, stamp), true)
		}
		*m = tableRow{epoch: m.epoch + 1, base: m.reserved, reserved: m.reserved, isUsed: true}
		return same("evict", p.row.Evict(), true)
	}
	here, there := m.isUsed, other.model.isUsed
	if random.Intn(2) == 0 {
		m.relearn(other.model)
		return same("relearn", p.row.Relearn(other.row, here, there), true)
	}
	m.learn(other.model)
	return same("learn", p.row.Learn(other.row, here, there), true)
}

// Each call of a row that is refused returns the refusal by its name, and changes nothing.
func TestRowRefusals(t *testing.T) {
	row, err := NewRow(5, 100)
	if err != nil {
		t.Fatal(err)
	}
	last, err := NewRow(math.MaxUint64, MaxStamp)
	if err != nil {
		t.Fatal(err)
	}
	one, two := Session{1}, Session{2}
	claim := func(session Session, epoch uint64, isSilent bool) error {
		return row.Claim(Claim{session, epoch, 10, isSilent, math.MaxUint64, math.MaxUint64})
	}
	for _, it := range []struct {
		call string
		want Refusal
		got  error
	}{
		{"a floor above the last stamp", BadArgument, second(NewRow(0, MaxStamp+1))},
		{"a state that is too short", BadState, second(RestoreRow(row.State()[1:]))},
		{"a base above what is reserved", BadState, second(RestoreRow(append([]byte{0, 0, 0, 0, 0, 0, 0, 0, 1}, make([]byte, RowBytes-9)...)))},
		{"the floor's epoch", OldEpoch, claim(one, 5, true)},
		{"an epoch far above", FarEpoch, claim(one, 5+1<<20+1, true)},
		{"the next epoch", 0, claim(one, 6, false)},
		{"the same claim again", 0, claim(one, 6, false)},
		{"another session under this epoch", OldEpoch, claim(two, 6, true)},
		{"one that is in use", InUse, claim(two, 7, false)},
		{"another session's stamps", NotOwner, row.Reserve(two, 6, 200, MaxStamp)},
		{"stamps of an older epoch", NotOwner, row.Reserve(one, 5, 200, MaxStamp)},
		{"its own stamps", 0, row.Reserve(one, 6, 200, MaxStamp)},
		{"another session's end", NotOwner, row.Close(two, 6)},
		{"one that is silent", 0, claim(two, 7, true)},
		{"another session takes the claim back", NotOwner, row.TakeBack(one, 7)},
		{"it takes its claim back", 0, row.TakeBack(two, 7)},
		{"another one claims the epoch", 0, claim(one, 7, false)},
		{"its end", 0, row.Close(one, 7)},
		{"the epoch again", OldEpoch, claim(two, 7, true)},
		{"a drop above the last stamp", BadArgument, row.Drop(0, MaxStamp+1)},
		{"an eviction after the last epoch", EpochsSpent, last.Evict()},
	} {
		if it.want == 0 && it.got != nil || it.want != 0 && !errors.Is(it.got, it.want) {
			t.Errorf("%s: %v, not %v", it.call, it.got, it.want)
		}
	}
	if shown, err := row.Shows(); err != nil || shown != (RowShown{Epoch: 7, Base: 210, Reserved: 220}) {
		t.Error(shown, err)
	}
}

// A row that is put without a look at its numbers is the one that a look finds, also in a table, where it changes no other row. Numbers
// of no row are refused by the calls.
func TestRowsThatArePut(t *testing.T) {
	random := rand.New(rand.NewSource(3))
	number := func(of ...uint64) uint64 { return of[random.Intn(len(of))] }
	found := 0
	for i := 0; i < 10000; i++ {
		shown := RowShown{Epoch: number(0, 1, math.MaxUint64, random.Uint64()), Base: number(0, 7, MaxStamp, MaxStamp+1, random.Uint64()>>2),
			Reserved: number(0, 7, 8, MaxStamp, MaxStamp+1, random.Uint64()>>2), IsHeld: random.Intn(2) == 0}
		if shown.IsHeld {
			random.Read(shown.Session[:])
		} else {
			shown.IsAgain = random.Intn(2) == 0
		}
		want, err := shown.Row()
		var row Row
		row.Put(shown)
		if _, refused := row.Shows(); (err == nil) != (refused == nil) {
			t.Fatalf("%+v: %v, and put without a look %v", shown, err, refused)
		}
		if err != nil {
			continue
		}
		found++
		place := random.Intn(MaxClients)
		var table, before Table
		random.Read(before.rows[:])
		table = before
		table.Put(place, shown)
		copy(before.rows[RowBytes*place:], want.State())
		if row != *want || table != before {
			t.Fatalf("%+v: %x, and put without a look %x", shown, want.State(), row.State())
		}
	}
	if found < 1000 {
		t.Errorf("%d are rows: this shows little", found)
	}
}

// How a session stands, and whether a grant may go, by the row of its number.
func TestRowJudges(t *testing.T) {
	one, two := Session{1}, Session{2}
	held := RowShown{Epoch: 5, Base: 10, Reserved: 20, IsHeld: true, Session: one}
	var row Row
	row.Put(held)
	for _, it := range []struct {
		from Speaker
		want Standing
	}{
		{Speaker{Session: one, Epoch: 5}, SessionKnown},
		{Speaker{Session: two, Epoch: 5}, SessionOver},
		{Speaker{Session: one, Epoch: 4}, SessionOver},
		{Speaker{Session: two, Epoch: 6}, SessionUnknown},
	} {
		if got, err := row.Judge(it.from); got != it.want || err != nil {
			t.Errorf("%+v stands as %v, %v", it.from, got, err)
		}
	}
	for _, it := range []struct {
		stamp                             uint64
		isSilent, elsewhere, isHeld, want bool
	}{
		{15, false, false, true, false},
		{15, true, false, true, true},
		{10, false, false, true, true}, // of an earlier session
		{10, false, true, true, false},
		{15, false, false, false, true},
		{15, false, true, false, false},
		{15, true, true, false, true},
	} {
		if row.Put(held); !it.isHeld {
			row.Put(RowShown{Epoch: 5, Base: 10, Reserved: 20})
		}
		if got, err := row.LetsGo(it.stamp, it.isSilent, it.elsewhere); got != it.want || err != nil {
			t.Errorf("%+v: %v, %v", it, got, err)
		}
	}
	row.Put(RowShown{Base: 2, Reserved: 1})
	if _, err := row.Judge(Speaker{}); !errors.Is(err, BadState) {
		t.Error(err)
	}
	if _, err := row.LetsGo(1, true, false); !errors.Is(err, BadState) {
		t.Error(err)
	}
}
