package voter

import (
	"encoding/json"
	"math"
	"time"

	"calvundek.example/service/qlock"
)

// Session is what a voter keeps of a client's number. Others see it, too.
type Session struct {
	Hash     string `json:"hash,omitempty"`    // the session's user, and a hash of its name, which is its secret
	Epoch    uint64 `json:"epoch"`             // grows with each session of the number
	Base     uint64 `json:"base"`              // all stamps of the session are above it
	Reserved uint64 `json:"reserved"`          // no stamp of the number so far is above it
	Open     bool   `json:"open"`              // it is neither over nor ended
	Used     bool   `json:"used"`              // messages of it came, so a quorum accepted it
	Dropped  bool   `json:"dropped,omitempty"` // it took its claim back, so another session may claim the epoch
	Lapses   uint64 `json:"lapses,omitempty"`  // how often this voter let a grant of it go, as it was silent
}

// UnmarshalJSON reads a row. An older one has the session's name, and here its hash.
func (s *Session) UnmarshalJSON(text []byte) error {
	type row Session // it has no such method
	var read struct {
		row
		Name string `json:"name"`
	}
	if err := json.Unmarshal(text, &read); err != nil {
		return err
	}
	if *s = Session(read.row); s.Hash == "" && read.Name != "" {
		s.Hash = hashed(read.Name)
	}
	return nil
}

// The bounds of what a claim or a header may name: how much is left of it is in proved buckets, which begin with half. So a voter
// that was not asked for long has enough left to follow one that was. A session of a number that was idle follows the stamps that
// others used: what is bounded is how fast the highest stamp grows.
const (
	mostEpochs  = 1 << 20 // above the row's, at once
	epochRate   = 1 << 4  // a second, for a number
	mostStamps  = 1 << 20 // above the highest, at once
	mostClaimed = 1 << 12 // with a claim
	stampRate   = 1 << 16 // a second
)

// leases is what the tables of all shards share: the lease clock, and which rows are to be saved.
type leases struct {
	ttl     time.Duration
	began   time.Time        // when this run began: times of the lease clock are since then
	clock   qlock.Clock      // says who was silent
	quiet   quiet            // of the voter: no silence ends anything in it
	heard   hearings         // what is to be said of all tables of when sessions were heard
	changed map[int]Session  // to be saved before anything leaves, by their keys
	later   map[int]Session  // to be saved with the next save: after a crash a TTL makes up for it
	dropped map[int]struct{} // rows that go with the next save, as a floor stands for them

	rolls  map[string]*roll        // of the processes of sessions, by their names
	proved [mostProved]*provedRows // of the tables that were used last
	single qlock.Row               // the proved row that was looked at last
}

// table has a row for each client number of a shard. A session claims its number, and is never learned from a
// header. Which session has a number, under which epoch, and which stamps are its own, the proved rows
// of package qlock say: so a voter takes no stamp from two sessions. Two quorums meet, so no two
// sessions use one stamp. How fast epochs and stamps may grow, its buckets say. Here are clocks, and
// whose messages were heard.
type table struct {
	*leases
	number   int               // of the shard
	behind   uint64            // the numbers of open sessions that may have a request of an older plan than that, as bits
	plan     uint64            // which plan that is
	vacant   Floor             // says the rows of the numbers that have no seat
	seats    seats             // of the numbers that were used, or learned of
	rarities map[int]*rarities // of the numbers that need some; nil while none does
	stamps   qlock.Bucket      // how far the highest stamp may grow
	heardAs  time.Duration     // when a number counts as heard that has no seat, on the lease clock
	caughtUp uint64            // with how many hearings (heard.go)
	summed   [sumOfShard]byte  // the sum of the rows, if isSummed (sums.go)
	isSummed bool
}

// newTable returns the table of a shard that no session has used since it has this floor. What numbers may grow begins with the run.
func newTable(l *leases, shard int, floor Floor) table {
	return table{leases: l, number: shard, vacant: floor, stamps: *qlock.NewBucket(stampRate, mostStamps, 0), caughtUp: l.heard.count}
}

// seat returns the seat of a number. It makes it if there is none.
func (t *table) seat(number int) *seat {
	if one := t.seats.at(number); one != nil {
		return one
	}
	t.catchUp()
	row := t.vacant.row(number)
	one := &seat{epoch: row.Epoch, base: row.Base, reserved: row.Reserved, heard: t.heardAs}
	one.marks.set(isUsed, row.Used)
	t.seats.add(number, one)
	return one
}

// row returns the row of a number.
func (t *table) row(number int) Session {
	row := t.bare(number)
	row.Hash = t.hash(number)
	return row
}

// bare returns the row of a number without its hash, of which a text would have to be made.
func (t *table) bare(number int) Session {
	seat := t.seats.at(number)
	if seat == nil {
		return t.vacant.row(number)
	}
	return Session{Epoch: seat.epoch, Base: seat.base, Reserved: seat.reserved, Open: seat.marks.has(isOpen), Used: seat.marks.has(isUsed),
		Dropped: seat.marks.has(isDropped), Lapses: t.rare(number).lapses}
}

// endedByWord notes whether a number's session was ended and may not know so.
func (t *table) endedByWord(number int, byWord bool) {
	rare := t.rare(number)
	rare.byWord = byWord
	t.keep(number, rare)
	t.noteBehind(number)
}

// asks notes by which plan, the oldest one, the session of a number has a request, where this is the newest plan.
func (t *table) asks(number int, oldest, newest uint64) {
	t.behindOf(newest)
	if seat := t.seat(number); seat.asksBy != short(oldest) {
		seat.strike()
		seat.asksBy = short(oldest)
	}
	t.noteBehind(number)
}

// behindOf returns the numbers of sessions that may have a request of an older plan than this one, as bits: of open
// ones, and of those that were ended and may not know so. They are kept, so that it takes little time to ask all shards
// at once.
func (t *table) behindOf(plan uint64) uint64 {
	if t.plan != plan {
		t.plan = plan
		t.seats.each(func(number int, _ *seat) { t.noteBehind(number) })
	}
	return t.behind
}

// noteBehind notes whether a number is behind, once its row or what its session has may be another one.
func (t *table) noteBehind(number int) {
	seat := t.seats.at(number)
	mayAsk := seat != nil && (seat.marks.has(isOpen) || t.rare(number).byWord)
	if t.behind &^= 1 << number; mayAsk && uint64(seat.asksBy) < t.plan {
		t.behind |= 1 << number
	}
}

// key returns the key of a row among those of all shards.
func (t *table) key(number int) int { return t.number*qlock.MaxClients + number }

// periodOf returns how long it is from one marker of a voter to the next. What came to the voter before a marker was sent is
// heard once the marker is back. So a slow disk delays the end of a lease and does not prevent it, a link that is down ends
// none, and one that flaps delays it.
func periodOf(ttl time.Duration) time.Duration {
	if ttl/8 > 250*time.Millisecond {
		return 250 * time.Millisecond
	}
	return ttl / 8
}

// begin begins a run of a voter: all leases begin anew.
func (l *leases) begin(now time.Time) {
	l.began, l.clock, l.heard = now, *qlock.NewClock(periodOf(l.ttl), 0), hearings{}
	l.saved()
}

// isDead returns whether the votes of a number may be let go: its session has ended, or was silent for a TTL. One that another
// voter ended counts as silent since then, and one that an operator ended since it was heard last. No session has stamps above the greatest one.
func (t *table) isDead(number int) bool { return t.isOver(number, math.MaxUint64) }

// lapse counts that a grant of a number's session is let go since it was silent. Whoever hears the
// voter later hears the count.
func (t *table) lapse(number int) {
	row := t.row(number)
	row.Lapses++
	t.put(number, row)
}

// lapses returns the count of a session, 0 if it has no number here. If it has two, as one of which it did not get it counts,
// too, it is the greater one.
func (t *table) lapses(name string) (count uint64) {
	for number, rare := range t.rarities {
		if rare.lapses > count && t.bare(number).Open && t.session(number, name) == t.owner(number) {
			count = rare.lapses
		}
	}
	return count
}

// isEarlier returns whether a stamp of a number is that of an earlier session than the one that it
// has now.
func (t *table) isEarlier(number int, stamp uint64) bool { return stamp <= t.bare(number).Base }

// state returns what a claimer has to know of a number: 1 if it is free, 2 if its session was silent for a TTL, else 0.
func (t *table) state(number int) int {
	switch row := t.bare(number); {
	case !t.isDead(number) || row.Epoch == math.MaxUint64: // no session can have it
		return 0
	case !row.Open:
		return 1
	}
	return 2
}

// states returns the states of all numbers.
func (t *table) states() []int {
	states := make([]int, qlock.MaxClients)
	for number := range states {
		states[number] = t.state(number)
	}
	return states
}

// set sets a row. One that the proved rows refuse reads as nobody's.
func (t *table) set(number int, row Session) {
	seat, before := t.seat(number), t.bare(number)
	isOther := !t.hasHash(number, row.Hash)
	if isOther || row.Epoch != before.Epoch || row.Open != before.Open || row.Lapses != before.Lapses {
		seat.strike()
	}
	if isOther {
		t.setHash(number, row.Hash)
	}
	seat.epoch, seat.base, seat.reserved = row.Epoch, row.Base, row.Reserved
	seat.marks.set(isOpen, row.Open)
	seat.marks.set(isUsed, row.Used)
	seat.marks.set(isDropped, row.Dropped)
	_, err := row.shown(t.owner(number)).Row()
	rare := t.rare(number)
	if rare.lapses, rare.isRefused = row.Lapses, err != nil; isOther || row.Epoch != before.Epoch || !row.Open {
		rare.brought = 0
	}
	t.keep(number, rare)
	if row.Epoch != before.Epoch && t.noteOf(number) != "" {
		t.setNote(number, "") // it was said in an earlier epoch
	}
	t.isSummed = false
	t.prove(number)
	t.noteBehind(number)
}

// put changes a row. It is saved before anything leaves.
func (t *table) put(number int, row Session) {
	t.set(number, row)
	t.changed[t.key(number)] = row
	delete(t.later, t.key(number))
}

// note changes a row of which nothing that leaves says anything that a crash may not undo.
func (t *table) note(number int, row Session) {
	if _, changed := t.changed[t.key(number)]; changed {
		t.put(number, row)
		return
	}
	t.set(number, row)
	t.later[t.key(number)] = row
}

// unsaved returns the rows that are not saved as they are, by their keys.
func (l *leases) unsaved() map[int]Session {
	for key, row := range l.later {
		l.changed[key] = row
	}
	return l.changed
}

// saved notes that all rows are saved.
func (l *leases) saved() {
	l.changed, l.later, l.dropped = map[int]Session{}, map[int]Session{}, map[int]struct{}{}
}

// judge judges a message by the session that sent it.
func (t *table) judge(number int, name string, epoch uint64) qlock.Standing {
	if number < 0 || number >= qlock.MaxClients {
		return qlock.SessionOver // there is no such number
	}
	standing, err := t.one(number).Judge(t.speaker(number, name, epoch))
	if err != nil {
		return qlock.SessionOver // never: what is refused reads as nobody's
	}
	return standing
}

// isOver returns whether a grant of a number may be let go, by its stamp: the session that got it has left, or was silent for a TTL. It has
// left if it closed, or if the number has a later session, which claimed it here. One that another voter or an operator ended may not know
// so, and has not left; nor has one if another voter said that a later session has the number.
// In the quiet time only who has left is over: what he has who said that he is inside, and his number, go for his silence once that time
// has ended.
func (t *table) isOver(number int, stamp uint64) bool {
	heard, rare := t.heardAt(number), t.rare(number)
	byWord := rare.byWord
	if rare.passed.is && t.isEarlier(number, stamp) {
		if !byWord {
			heard = rare.passed.at // what is heard is another session
		}
		byWord = true
	}
	isSilent := !t.quiet.is && t.clock.IsSilent(heard, t.ttl)
	letsGo, err := t.one(number).LetsGo(stamp, isSilent, byWord)
	return err == nil && letsGo
}

// admit judges a message, and notes that its session was heard.
func (t *table) admit(number int, name string, epoch uint64, now time.Time) qlock.Standing {
	judged := t.judge(number, name, epoch)
	if judged != qlock.SessionKnown {
		return judged
	}
	t.hear(number, now)
	t.brings(number, 0)
	if one := t.called(name); !t.isOf(number, one) {
		t.setName(number, one)
	}
	if row := t.bare(number); !row.Used {
		row.Hash, row.Used = t.hash(number), true
		t.note(number, row)
	}
	return qlock.SessionKnown
}

// reserve notes which stamps the session of a number reserves, as far as it may.
func (t *table) reserve(number int, name string, epoch, wanted uint64, now time.Time) {
	before := t.bare(number).Reserved
	if wanted <= before {
		return
	}
	highest := t.highest()
	most := highest + t.stamps.Left(now.Sub(t.began))
	row, err := t.after(number, func(r *qlock.Row) error { return r.Reserve(t.session(number, name), epoch, wanted, most) })
	if err != nil || row.Reserved == before || t.spend(&t.stamps, highest, row.Reserved, now) != nil {
		return
	}
	t.put(number, row)
}

// spend takes what something grows from a bucket. It fails if it grows further than that bucket lets it.
func (t *table) spend(bucket *qlock.Bucket, before, after uint64, now time.Time) error {
	if after <= before {
		return nil
	}
	return bucket.Spend(now.Sub(t.began), after-before)
}

// highest returns the highest stamp that any number reserved.
func (t *table) highest() (stamp uint64) {
	for number := 0; number < qlock.MaxClients; number++ {
		stamp = greatest(stamp, t.bare(number).Reserved)
	}
	return stamp
}

// claim gives a number to a session, with so many stamps, and returns whether it did: its session was silent for a TTL, or it is
// free, and the proved row takes the claim. The same claim again is granted again. A session that a want brought another epoch of the
// number may claim a later one: nothing came under that.
func (t *table) claim(number int, name string, epoch, stamps uint64, now time.Time) bool {
	if t.judge(number, name, epoch) == qlock.SessionKnown {
		return true
	}
	if !t.isDead(number) && !(t.isBrought(number) && t.session(number, name) == t.owner(number)) {
		return false
	}
	before, highest, grown, hash := t.bare(number).Epoch, t.highest(), t.grown(number), hashed(name)
	claim := qlock.Claim{
		Session: sessionOf(hash), Epoch: epoch, Stamps: smallest(stamps, mostClaimed), IsSilent: true,
		Epochs: grown.left(now.Sub(t.began)),
		Most:   highest + t.stamps.Left(now.Sub(t.began)),
	}
	row, err := t.after(number, func(r *qlock.Row) error { return r.Claim(claim) })
	if err != nil {
		return false
	}
	if grown, err = grown.spend(now.Sub(t.began), row.Epoch-before); err != nil {
		return false
	}
	if t.seat(number).grown = grown; t.spend(&t.stamps, highest, row.Reserved, now) != nil {
		return false
	}
	row.Hash, row.Used, row.Lapses = hash, false, 0
	t.put(number, row)
	t.setName(number, t.called(name))
	t.endedByWord(number, false)
	t.hear(number, now)
	return true
}

// grown returns how far the epochs of a number grew in this run.
func (t *table) grown(number int) growth {
	if seat := t.seats.at(number); seat != nil {
		return seat.grown
	}
	return 0
}

// drop frees a number that was claimed here, and that the claimer did not get from a quorum. It
// claims this epoch never again, and others may. It returns whether the number was that session's.
func (t *table) drop(number int, name string, epoch uint64) bool {
	if t.bare(number).Used || t.judge(number, name, epoch) != qlock.SessionKnown {
		return false
	}
	row, err := t.after(number, func(r *qlock.Row) error { return r.TakeBack(t.session(number, name), epoch) })
	if err == nil {
		t.put(number, row)
	}
	return err == nil
}

// end frees a number whose session says that it is over. After a crash it is silent.
func (t *table) end(number int, name string, epoch uint64) {
	if row, err := t.after(number, func(r *qlock.Row) error { return r.Close(t.session(number, name), epoch) }); err == nil {
		t.note(number, row)
	}
}

// takes returns whether a REQUEST of this session of a number counts under this stamp.
func (t *table) takes(number int, name string, epoch, stamp uint64) bool {
	takes, err := t.one(number).Takes(t.session(number, name), epoch, stamp)
	return err == nil && takes
}

// speaker returns how the proved rows name a session that speaks, under its epoch.
func (t *table) speaker(number int, name string, epoch uint64) qlock.Speaker {
	return qlock.Speaker{Session: t.session(number, name), Epoch: epoch}
}

// learn takes what another voter knows of a number, and returns whether it has another session now. A
// session that is in use gives way to no claim alone. What was reserved here is below the stamps of
// another session.
func (t *table) learn(number int, there Session, now time.Time) bool {
	return t.learnBy((*qlock.Row).Learn, number, there, now)
}

// relearn is learn for a voter that lost its state: stamps that another voter's row lets a session use stay used.
func (t *table) relearn(number int, there Session, now time.Time) bool {
	return t.learnBy((*qlock.Row).Relearn, number, there, now)
}

// learnBy takes what another voter knows of a number by a call of its row.
func (t *table) learnBy(call func(row, other *qlock.Row, here, there bool) error, number int, there Session, now time.Time) bool {
	before := t.row(number)
	other, err := there.proved()
	if err != nil {
		return false // it is no row
	}
	row, err := t.after(number, func(r *qlock.Row) error { return call(r, other, before.Used, there.Used) })
	if err != nil {
		return false
	}
	isOther := row.Epoch != before.Epoch || row.Open != before.Open
	if isOther {
		row.Hash, row.Used, row.Lapses = there.Hash, there.Used, 0
		if there.Epoch == before.Epoch {
			row.Hash = "" // two sessions have the epoch, so nobody has it
		}
		t.endedByWord(number, !row.Open && (before.Open || t.rare(number).byWord))
		t.hear(number, now)
		if row.Open {
			t.seat(number).asksBy = 0 // it did not say
			t.passes(number, now)
		}
	}
	if row != before {
		t.put(number, row)
	}
	return isOther
}

func greatest(a, b uint64) uint64 {
	if a > b {
		return a
	}
	return b
}

func smallest(a, b uint64) uint64 {
	if a < b {
		return a
	}
	return b
}

// expel ends a number's session. No message of its epoch counts any more. Unless what it has may go at once it goes by the lease, as if
// another voter had ended the session.
func (t *table) expel(number int, atOnce bool) {
	wasOpen := t.bare(number).Open
	if row, err := t.after(number, (*qlock.Row).Evict); err == nil {
		row.Hash, row.Used, row.Lapses = "", true, 0
		t.put(number, row)
		t.endedByWord(number, !atOnce && (wasOpen || t.rare(number).byWord))
	}
}

// owner returns how the proved rows name the session that a number has.
func (t *table) owner(number int) qlock.Session {
	if seat := t.seats.at(number); seat != nil && seat.marks.has(hashInDigits) {
		return seat.hash.over(seat.roll.mask)
	}
	return sessionOf(t.rare(number).hash)
}

// session returns how the proved rows name the session that speaks for a number.
func (t *table) session(number int, name string) qlock.Session {
	if t.isOf(number, t.called(name)) {
		return t.owner(number)
	}
	return sessionOf(hashed(name))
}
