package voter

import (
	"bytes"
	"math/bits"
	"time"

	"calvundek.example/service/internal/moment"
	"calvundek.example/service/internal/wire"
)

// One heartbeat for many sessions of a process.
//
// A session that has its number says at which place of its process's roll it is. The voter makes an entry for it, and tells its number.
// Numbers of entries grow. From then on the process may send a beat in place of heartbeats of its sessions that have nothing else to say: it
// names places, and the sum of the entries' numbers as the sessions heard them. An entry that was made later has a greater number, so the sum
// is right only if each session heard of the entry that is there now. An entry is struck off as its session gets another row than it had
// then, but for its stamps, or has a request of another plan. So if all of them are there, and the sum is right, the voter says that it heard
// them all. Else it says that it is not so, and these sessions send heartbeats of their own, and say their places again. Entries are in memory
// alone: a roll has the keys of its sessions' numbers, and the seats of these have the rest.

// rollPart has the entries of some places: of each one the key of its session's number and 1 more, 0 if there is none.
type rollPart [wire.RollShare]int32

// entriesBefore returns a number that no entry of an earlier start of a state has, nor of an earlier run.
func entriesBefore(s *store) uint64 { return (s.meta.Run<<20 + s.own.Start) << 32 }

// at returns the key of the number whose session is at a place of the roll, -1 if there is none.
func (r *roll) at(place int) int {
	if part := r.parts[place/wire.RollShare]; part != nil {
		return int(part[place%wire.RollShare]) - 1
	}
	return -1
}

// enter makes the session of a key the one at a place of the roll.
func (r *roll) enter(place, key int) {
	if r.parts == nil {
		r.parts = map[int]*rollPart{}
	}
	part := r.parts[place/wire.RollShare]
	if part == nil {
		part = new(rollPart)
		r.parts[place/wire.RollShare] = part
	}
	part[place%wire.RollShare] = int32(key + 1)
}

// leave takes the session at a place off the roll.
func (r *roll) leave(place int) {
	part := r.parts[place/wire.RollShare]
	if part[place%wire.RollShare] = 0; *part == (rollPart{}) {
		delete(r.parts, place/wire.RollShare)
	}
}

// enroll makes the entry of a session that says its place. If the session ended in the same message there is none.
func (d *Daemon) enroll(l *letter, ask wire.Ask) {
	seat := l.shard.seat(l.Number)
	seat.strike()
	r := d.leases.roll(userOf(l.Name), ask.Text)
	l.shard.moves(l.Number, r)
	if key := r.at(ask.Place); key >= 0 {
		s, number := d.shardOfKey(key)
		s.seat(number).strike()
	}
	if d.entries++; seat.marks.has(isOpen) {
		r.enter(ask.Place, l.shard.key(l.Number))
		seat.entry, seat.place = d.entries, uint16(ask.Place)
	}
	d.put(l.Name, wire.Told{Kind: wire.Rolled, Place: ask.Place, Entry: d.entries}.Append(d.out[l.Name]))
}

// strike takes the entry of a session off its roll, if there is one.
func (s *seat) strike() {
	if s.entry > 0 {
		s.roll.leave(int(s.place))
		s.entry = 0
	}
}

// isBeat returns whether these are the lines of a beat.
func isBeat(lines []byte) bool { return bytes.HasPrefix(lines, []byte(". beat ")) }

// A beat waits for no turn, as what came before a marker was sent has to be heard before that is back. So how much of beats a voter takes is
// bounded: a message says each place once, and of a process so many sessions are heard in a span of time that each of its beats has
// room for them, also one that leaves in parts. The rest is lost.
const (
	spansOfTTL = 16                 // in a TTL
	mostHeard  = 4                  // how often all sessions of a process are heard in a span
	leastHeard = 2 * wire.RollShare // how many places may be said besides
)

// mayHear returns whether so many more places of a process may be said now.
func (r *roll) mayHear(places int, now time.Time, ttl time.Duration) bool {
	if since := moment.Of(now) - moment.Moment(ttl/spansOfTTL); r.since <= since {
		r.since, r.said = moment.Of(now), 0
	}
	r.said += places
	return r.said <= mostHeard*r.seats+leastHeard
}

// beat takes a beat of a process.
func (d *Daemon) beat(h wire.Header, lines []byte, now time.Time) {
	r := d.leases.rolls[h.Name] // nil if no session is of the process
	d.hears(h)
	at := d.leases.heard.note(d.leases.at(now)) // which is a call: once for all
	for first := 0; ; {
		_, line, rest, found := wire.Next(lines)
		ask, err := wire.ReadAsk(line)
		if !found || err != nil || ask.Kind != wire.Beats || ask.Place < first {
			break
		}
		if d.outBytes > mostOut || r != nil && !r.mayHear(bits.OnesCount64(ask.Mask), now, d.leases.ttl) {
			d.noRoom.Add(userOf(h.Name))
			return
		}
		reply := wire.Told{Kind: wire.Unbeaten, ID: h.Seq, Place: ask.Place}
		if lines, first = rest, ask.Place+wire.RollShare; r != nil && d.hearShare(r, ask, at, now) {
			reply.Kind = wire.Beaten
		}
		d.put(h.Name, reply.Append(d.out[h.Name]))
	}
	if len(lines) > 0 {
		d.m.refused.Inc()
	}
	d.announce(h.Name)
}

// hearShare hears the sessions for which a beat is, at a reading of the lease clock, and returns whether these are all, and each heard of
// its entry.
func (d *Daemon) hearShare(r *roll, beat wire.Ask, at time.Duration, now time.Time) bool {
	isAll, sum, used := true, uint64(0), moment.Of(now)
	var part rollPart
	if there := r.parts[beat.Place/wire.RollShare]; there != nil {
		part = *there
	}
	for rest := beat.Mask; rest != 0; rest &= rest - 1 {
		entry := part[bits.TrailingZeros64(rest)]
		if entry == 0 {
			isAll = false
			continue
		}
		s, number := d.shardOfKey(int(entry) - 1)
		seat := s.seat(number)
		sum += seat.entry
		s.hearAt(seat, at)
		s.used = used
		d.tellWanted(s, number, now)
	}
	return isAll && sum == beat.Sum
}
