package voter

import (
	"sort"
	"time"

	"calvundek.example/service/internal/wire"
)

// Who gets a number where there are fewer than are wanted, or than one lock may have.
//
// Who says hello and gets none waits. Of one lock who came first goes first, and locks take turns: of those who wait, the first k see the
// k numbers that are free, and the others see none. Who wants a lock that has as many as it may have sees none, and users that have their
// share come behind others (shares.go). Who does not say hello again for half a TTL waits no more. Once a number is free the first ones
// hear so (`free`). While somebody waits, sessions whose numbers would help hear that (`wanted`), and those that want nothing give theirs
// back. Nothing of this decides who has a vote, and it is in memory alone.

// mostQueued is how many sessions wait in order, of each shard. Others take the last place from each other until there is room.
const mostQueued = 4096

// mostUnclaimed is for how long numbers are shown to the first ones alone. If none of them claims one, all see them, but of each lock no more
// than it may have: the first ones may be gone, or wait in another order at other voters.
const mostUnclaimed = 2 * time.Second

// numberQueue has the sessions that wait for a number. A nil one has none.
type numberQueue struct {
	all       []queued  // by their turns, and of one turn the first one first
	turn      uint64    // the highest one of those that got a number
	short     time.Time // when somebody waited last
	scarce    time.Time // when somebody waited last who may have any number
	hot       string    // the lock of who waited last and may not: as this lock has too many
	told      time.Time // when sessions that want nothing were told so last
	unclaimed time.Time // since when the first ones may claim a number, and none did; zero if nobody may
}

// queued is a session that waits for a number.
type queued struct {
	session string
	user    string // of the session
	lock    string // for which it wants a number, "" if it did not say so
	turn    uint64 // above those of the same lock that came before
	heard   time.Time
	isFirst bool // it sees the numbers that are free, since those were given out last
}

// ask notes that a session wants a number for a lock. These are the states of the numbers, and the shares of those that are taken. If
// the session can have no number now, it sees none that is free, and ask returns how many come before it.
func (q *numberQueue) ask(session, lock string, states []int, taken shares, now time.Time, ttl time.Duration) (ahead int) {
	place, room := q.enter(session, lock, now, ttl), taken.locks.room(lock)
	isUnclaimed := q.isUnclaimed(q.giveOut(freeOf(states), &taken), now)
	switch {
	case q.all[place].isFirst:
		return 0
	case isUnclaimed && room > 0:
		show(states, room)
		return 0
	}
	if q.short = now; taken.locks.isFull(lock) {
		q.hot = lock
	} else {
		q.scarce = now
	}
	show(states, 0)
	return q.ahead(place, &taken)
}

// show hides the numbers that are free but so many.
func show(states []int, most int) {
	for number, state := range states {
		if state != 0 && most == 0 {
			states[number] = 0
		} else if state != 0 {
			most--
		}
	}
}

// isUnclaimed returns whether some may claim a number, and none of them did for long.
func (q *numberQueue) isUnclaimed(first int, now time.Time) bool {
	switch {
	case first == 0:
		q.unclaimed = time.Time{}
	case q.unclaimed.IsZero():
		q.unclaimed = now
	}
	return first > 0 && now.Sub(q.unclaimed) > mostUnclaimed
}

// freeOf returns how many numbers are free, by their states.
func freeOf(states []int) (free int) {
	for _, state := range states {
		if state != 0 {
			free++
		}
	}
	return free
}

// enter puts a session behind those of its turn, unless it waits already, and takes those out that are gone. So locks take turns, and who
// comes for a lock for which many wait comes after one for each other lock. If there is no room it takes the place of the last one, which
// has none until it asks again. It returns the place of the session.
func (q *numberQueue) enter(session, lock string, now time.Time, ttl time.Duration) (place int) {
	place = -1
	kept, turn := q.all[:0], q.turn+1
	for _, one := range q.all {
		if one.session == session {
			one.heard, one.lock = now, lock
		} else if now.Sub(one.heard) > ttl/2 {
			continue
		}
		if one.session == session {
			place = len(kept)
		}
		if one.lock == lock && one.turn >= turn {
			turn = one.turn + 1
		}
		kept = append(kept, one)
	}
	if q.all = kept; place >= 0 {
		return place
	}
	if place = sort.Search(len(q.all), func(i int) bool { return q.all[i].turn > turn }); place == mostQueued {
		place--
	}
	q.all = append(q.all, queued{})
	copy(q.all[place+1:], q.all[place:])
	q.all[place] = queued{session: session, user: userOf(session), lock: lock, turn: turn, heard: now}
	if len(q.all) > mostQueued {
		q.all = q.all[:mostQueued]
	}
	return place
}

// giveOut chooses those that see the numbers that are free, as many as there are, adds them to the shares, and returns how many these are.
// Who wants a lock that has all that it may have is never one of them. First come those whose user is below its bound, then the rest.
// Whose user is at it sees none while another one comes first.
func (q *numberQueue) giveOut(free int, taken *shares) (first int) {
	for i := range q.all {
		q.all[i].isFirst = false
	}
	var chosen variety
	for _, isRest := range []bool{false, true} {
		before := chosen
		for i := 0; i < len(q.all) && first < free; i++ {
			one := &q.all[i]
			if one.isFirst || taken.claims[one.session] || taken.locks.isFull(one.lock) ||
				taken.users.isFull(one.user) && (!isRest || before.hasOther(one.user)) {
				continue
			}
			one.isFirst = true
			first++
			taken.add(one.user, one.lock)
			chosen.add(one.user)
		}
	}
	return first
}

// ahead returns how many come before the one at a place, which sees no number.
func (q *numberQueue) ahead(place int, taken *shares) (count int) {
	own := taken.over(&q.all[place])
	for i := range q.all {
		one := &q.all[i]
		if over := taken.over(one); one.isFirst || over < own || over == own && i < place {
			count++
		}
	}
	return count
}

// lockOf returns the lock for which a session waits, "" if it is not known.
func (q *numberQueue) lockOf(session string) string {
	for i := 0; q != nil && i < len(q.all); i++ {
		if q.all[i].session == session {
			return q.all[i].lock
		}
	}
	return ""
}

// leave takes a session out that has a number. It returns whether the session waited.
func (q *numberQueue) leave(session string) bool {
	for i := 0; q != nil && i < len(q.all); i++ {
		if one := q.all[i]; one.session == session {
			q.turn = greatest(q.turn, one.turn)
			q.all = append(q.all[:i], q.all[i+1:]...)
			return true
		}
	}
	return false
}

// claimed notes that some session claimed a number.
func (q *numberQueue) claimed() {
	if q != nil {
		q.unclaimed = time.Time{}
	}
}

// isIdle returns whether a new queue would be as good as this one: nobody waits, nor did so a moment ago.
func (q *numberQueue) isIdle(now time.Time, ttl time.Duration) bool {
	return len(q.all) == 0 && q.unclaimed.IsZero() && now.Sub(q.short) > ttl/2 && now.Sub(q.told) >= ttl/64
}

// isShort returns whether somebody waited for a number a moment ago.
func (q *numberQueue) isShort(now time.Time, ttl time.Duration) bool {
	return q != nil && len(q.all) > 0 && now.Sub(q.short) <= ttl/2
}

// needs returns whether somebody waited a moment ago who may have a number that is for a lock now.
func (q *numberQueue) needs(lock string, now time.Time, ttl time.Duration) bool {
	return q.isShort(now, ttl) && (now.Sub(q.scarce) <= ttl/2 || lock == q.hot)
}

// tellFree tells those who come first that numbers are free.
func (d *Daemon) tellFree(s *shard, now time.Time) {
	if !s.waiting.isShort(now, d.leases.ttl) {
		return
	}
	states := s.states()
	taken := s.shares(states, "")
	s.waiting.giveOut(freeOf(states), &taken)
	for _, one := range s.waiting.all {
		if one.isFirst {
			d.put(one.session, wire.Told{Kind: wire.Free}.Append(d.out[one.session]))
		}
	}
}

// hasNumber notes that a session has a number: it waits no more. Others may have yielded to it.
func (d *Daemon) hasNumber(l *letter, now time.Time) {
	if l.shard.waiting.leave(l.Name) {
		d.tellFree(l.shard, now)
		l.shard.tidy(now)
	}
}

// queue returns who waits for a number of a shard.
func (s *shard) queue() *numberQueue {
	if s.waiting == nil {
		s.waiting = new(numberQueue)
	}
	return s.waiting
}

// tidy forgets the queue of a shard that it does not need any more.
func (s *shard) tidy(now time.Time) {
	if s.waiting != nil && s.waiting.isIdle(now, s.ttl) {
		s.waiting = nil
	}
}

// tellIdle tells the sessions of a shard that want nothing that others wait for a number that they have.
func (d *Daemon) tellIdle(s *shard, now time.Time) {
	if !s.waiting.isShort(now, d.leases.ttl) || now.Sub(s.waiting.told) < d.leases.ttl/64 {
		return
	}
	s.waiting.told = now
	s.seats.each(func(number int, seat *seat) {
		if seat.marks.has(isOpen) && seat.marks.has(isUsed) && seat.requests == 0 && s.isHeard(number) {
			d.tellWanted(s, number, now)
		}
	})
}

// tellWanted tells the session of a number, which was heard, that others wait for that.
func (d *Daemon) tellWanted(s *shard, number int, now time.Time) {
	if s.waiting != nil && s.waiting.needs(s.seat(number).lock, now, d.leases.ttl) {
		session := s.name(number)
		d.put(session, wire.Told{Kind: wire.Wanted}.Append(d.out[session]))
	}
}
