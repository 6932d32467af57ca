package voter

import (
	"encoding/json"
	"fmt"
	"math"
	"time"

	"calvundek.example/service/internal/event"
	"calvundek.example/service/internal/level"
	"calvundek.example/service/qlock"
)

// How a voter forgets the numbers of shards that nobody uses.
//
// A shard in which no session has a number, and of which no lock is known, is dropped once nothing was heard of it for a while. It takes no
// memory then, and in place of the rows of its 64 numbers the state keeps its floor. Epochs and stamps of whoever uses the shard later are
// above that, and so above all that sessions had before. For each number that is the proved call Row.Drop, and the row of a number that is
// used again is one that begins at the floor. Other voters are told floors as they are told rows.
//
// Only from the level Floors on: all programs know floors then.

// longestSilent is for how long a session is silent before its shard may be dropped. It comes back as one that is over, and takes a number
// anew.
const longestSilent = 24 * time.Hour

// rowsOfFloor is for how many rows a floor counts in what a message tells.
const rowsOfFloor = 5

// Floor is what a voter keeps of a shard that it dropped: no session of it has a stamp above this one, nor, under a number, a later epoch.
type Floor struct {
	Stamp  uint64   `json:"stamp"`
	Epochs []uint64 `json:"epochs"` // by number, without zeros at the end
}

// UnmarshalJSON reads a floor that was saved, or that another voter tells.
func (f *Floor) UnmarshalJSON(text []byte) error {
	type plain Floor
	if err := json.Unmarshal(text, (*plain)(f)); err != nil {
		return err
	}
	if f.Stamp > qlock.MaxStamp || len(f.Epochs) > qlock.MaxClients {
		return fmt.Errorf("a floor has stamps up to %d, and %d epochs", uint64(qlock.MaxStamp), qlock.MaxClients)
	}
	return nil
}

// row returns the row of a number that nobody had since the shard was dropped.
func (f Floor) row(number int) Session {
	row := Session{Base: f.Stamp, Reserved: f.Stamp}
	if number < len(f.Epochs) {
		row.Epoch = f.Epochs[number]
	}
	row.Used = row.Epoch > 0
	return row
}

// isZero returns whether a floor is that of a shard that was never dropped.
func (f Floor) isZero() bool { return f.Stamp == 0 && len(f.Epochs) == 0 }

// with returns the floor above both.
func (f Floor) with(other Floor) Floor {
	both := Floor{Stamp: greatest(f.Stamp, other.Stamp), Epochs: make([]uint64, qlock.MaxClients)}
	for number := range both.Epochs {
		both.Epochs[number] = greatest(f.row(number).Epoch, other.row(number).Epoch)
	}
	return both.short()
}

// short returns the floor without the zeros at its end.
func (f Floor) short() Floor {
	for len(f.Epochs) > 0 && f.Epochs[len(f.Epochs)-1] == 0 {
		f.Epochs = f.Epochs[:len(f.Epochs)-1]
	}
	return f
}

// isAbove returns whether a floor is no lower than another one.
func (f Floor) isAbove(other Floor) bool {
	for number, epoch := range other.Epochs {
		if epoch > f.row(number).Epoch {
			return false
		}
	}
	return f.Stamp >= other.Stamp
}

// floor returns the floor of a shard that is dropped, and false if a row can't be dropped to it.
func (t *table) floor() (floor Floor, ok bool) {
	floor.Epochs = make([]uint64, qlock.MaxClients)
	for number := range floor.Epochs {
		row := t.bare(number)
		if floor.Epochs[number] = row.Epoch; row.Dropped && row.Epoch < math.MaxUint64 {
			floor.Epochs[number]++ // no session may claim the epoch again that another one took back
		}
		floor.Stamp = greatest(floor.Stamp, row.Reserved)
	}
	for number := range floor.Epochs {
		dropped, err := t.after(number, func(r *qlock.Row) error { return r.Drop(floor.Epochs[number], floor.Stamp) })
		begun := floor.row(number)
		begun.Hash, begun.Used, begun.Lapses = dropped.Hash, dropped.Used, dropped.Lapses // are not the row's
		if err != nil || dropped != begun {
			return floor, false
		}
	}
	return floor.short(), true
}

// isUnused returns whether no session has a number of the table, or may have one: all ended, or were silent for a day.
func (t *table) isUnused() bool {
	for number := 0; number < qlock.MaxClients; number++ {
		if row := t.bare(number); (row.Open || row.Dropped) && t.silent(number) < longestSilent || !t.isDead(number) {
			return false
		}
	}
	return true
}

// dropUnused drops a shard that nobody uses. It looks at one of them each time.
func (d *Daemon) dropUnused(now time.Time) {
	if d.store.own.level() < level.Floors || d.isQuiet() || len(d.inTurn) == 0 {
		return
	}
	d.nextUnused = (d.nextUnused + 1) % len(d.inTurn)
	s := d.inTurn[d.nextUnused]
	if s.votes > 0 || now.Sub(s.used.Time()) < 2*d.restsFor || d.inbox.has(s) || !s.isUnused() {
		return
	}
	floor, ok := s.floor()
	if !ok {
		return
	}
	for _, seat := range s.seats.all {
		seat.strike()
		s.join(seat, nil)
	}
	for number := 0; number < qlock.MaxClients; number++ {
		d.leases.drop(s.key(number))
	}
	s.unprove()
	d.setFloor(s.table.number, floor)
	delete(d.shards, s.table.number)
	d.inTurn = append(d.inTurn[:d.nextUnused], d.inTurn[d.nextUnused+1:]...)
	d.census.add(s, -1)
	d.m.dropped.Inc()
	d.log.Write(event.Debug, "shard-dropped", "shard", s.table.number, "stamp", floor.Stamp)
}

// setFloor notes the floor of a shard. It is saved with the next save.
func (d *Daemon) setFloor(shard int, floor Floor) {
	d.floors[shard] = floor
	d.newFloors[shard] = floor
}

// learnFloor takes the floor of a shard that another voter dropped.
func (d *Daemon) learnFloor(shard int, floor Floor, now time.Time) {
	s := d.shards[shard]
	if s == nil {
		if before := d.floors[shard]; !before.isAbove(floor) {
			d.setFloor(shard, before.with(floor))
		}
		return
	}
	for number := 0; number < qlock.MaxClients; number++ {
		if row := floor.row(number); (row.Epoch > 0 || d.isLost()) && d.learnRow(s, number, row, now) {
			d.recount(s, number)
		}
	}
}

// has returns whether a message of a session of a shard waits.
func (b *inbox) has(s *shard) bool {
	for _, from := range b.senders {
		for _, l := range from.letters {
			if l.shard == s {
				return true
			}
		}
	}
	return false
}

// drop notes that the row of a number is gone. It goes with the next save.
func (l *leases) drop(key int) {
	delete(l.changed, key)
	delete(l.later, key)
	l.dropped[key] = struct{}{}
}

// floorKey returns under what the floor of a shard is saved, among the rows of sessions.
func floorKey(shard int) []byte { return []byte{byte(shard >> 8), byte(shard)} }

// shardOfFloor returns the shard of which floorKey returns this, and whether it is one.
func shardOfFloor(saved []byte) (shard int, ok bool) {
	if len(saved) != 2 {
		return 0, false
	}
	return int(saved[0])<<8 | int(saved[1]), true
}

// putFloors saves floors, and takes out the rows that they stand for.
func (b *batch) putFloors(floors map[int]Floor, dropped map[int]struct{}) error {
	for key := range dropped {
		if err := b.remove(sessionBucket, rowKey(key)); err != nil {
			return err
		}
	}
	for shard, floor := range floors {
		value, err := json.Marshal(floor)
		if err != nil {
			return err
		}
		if err := b.put(sessionBucket, floorKey(shard), value); err != nil {
			return err
		}
	}
	return nil
}
