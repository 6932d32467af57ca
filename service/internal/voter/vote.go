package voter

import (
	"time"

	"calvundek.example/service/internal/moment"
	"calvundek.example/service/internal/remind"
	"calvundek.example/service/qlock"
)

// vote is the vote for one lock, and beside the proved voter what the loop looks at often. There may be a million of them. So what is there
// only while a vote is used, and what few votes have, is among its extras.
type vote struct {
	name    string
	packed  string // the proved voter while it is packed, and what was said since the start (idle.go)
	shard   *shard
	extras  *extras
	user    *usage        // of its first request (askers.go)
	stamp   uint64        // of that, 0 if there is none
	since   moment.Moment // when that came
	number  uint64        // of its last grant; before the first one, above which number it begins
	granted moment.Moment // when it was granted last
	next    remind.Next   // when whoever has it is reminded next
	places  [kinds]int32  // in the lists of votes, from 1 on, 0 where it is not there

	client    uint8 // of the first request
	isHeld    bool  // that request has the vote, by the last grant
	isOld     bool  // its grant is from before the start, and nobody said that he is inside by it (Stands)
	isRaised  bool  // it goes on above another number since it was saved (start.go)
	isResting bool  // nobody has it or waits for it, and it is among those that are forgotten after a while
	isSaid    bool  // what was said since the start is packed
}

// extras are what a vote has while it is used, and what few votes have.
type extras struct {
	voter   *qlock.Voter      // nil while it is packed
	since   *qlock.SinceStart // what was said since the start, nil while that is nothing, or packed
	others  askers            // the requests besides the first one
	note    string            // what its client says of the first one
	turned  turned            // the last turn that was said
	skipped uint64            // up to which number it skipped for turns
	heard   moment.Moment     // when a line of the lock came
	letGo   moment.Moment     // when a grant of it was let go

	isSpent   bool // it was logged that all grants are given
	isAwaited bool // somebody waits who said since the start that he is inside (Stands)
	isUsed    bool // its voter was used since it was looked at whether to pack it
}

// none are the extras of a vote that has none.
var none = extras{heard: moment.Never, letGo: moment.Never}

// extra returns the extras of a vote, to be read.
func (v *vote) extra() *extras {
	if v.extras == nil {
		return &none
	}
	return v.extras
}

// needs returns the extras of a vote, to be changed. It makes them if there are none.
func (v *vote) needs() *extras {
	if v.extras == nil {
		made := none
		v.extras = &made
	}
	return v.extras
}

// held returns who has the vote.
func (v *vote) held() qlock.Grant {
	if !v.isHeld {
		return qlock.Grant{}
	}
	return qlock.Grant{Client: uint64(v.client), Stamp: v.stamp, Number: v.number}
}

// isHolder returns whether the client has the vote.
func (v *vote) isHolder(client int) bool { return v.isHeld && int(v.client) == client }

// isBusy returns whether somebody has the vote or waits for it.
func (v *vote) isBusy() bool { return v.stamp > 0 || len(v.extra().others) > 0 }

// isWanted returns whether somebody waits for the vote.
func (v *vote) isWanted() bool { return len(v.extra().others) > 0 || v.stamp > 0 && !v.isHeld }

// isAwaited returns whether somebody waits for the vote who said since the start that he is inside.
func (v *vote) isAwaited() bool { return v.extra().isAwaited }

// highestOf returns up to which number a vote gave grants, or skipped. All votes go on above the floor that was noted
// last (raiseAll), and later ones begin there.
func (d *Daemon) highestOf(v *vote) uint64 {
	return greatest(d.raised.floor, greatest(v.number, v.extra().skipped))
}

// add makes a lock known to the daemon.
func (d *Daemon) add(name string, voter *qlock.Voter) *vote {
	v := d.voteOf(name, voter)
	d.keep(v)
	return v
}

// voteOf returns what is kept of a lock beside its voter, which is nil if it is packed.
func (d *Daemon) voteOf(name string, voter *qlock.Voter) *vote {
	v := &vote{name: name, shard: d.shardOfLock(name), number: d.floor}
	if voter != nil {
		v.needs().voter = voter
	}
	return v
}

// keep makes a lock known.
func (d *Daemon) keep(v *vote) {
	d.votes[v.name] = v
	v.shard.votes++
	delete(d.gone, v.name)
	if v.extra().voter != nil {
		d.unpacked = append(d.unpacked, v)
	}
}

// restore adds a vote that was saved. It stays packed.
func (d *Daemon) restore(one savedVote, now time.Time) {
	v := d.voteOf(one.name, nil)
	v.packed = one.packed
	d.keep(v)
	if one.held.Number == 0 {
		d.rest(v, now)
		return
	}
	d.noteAsk(v, int(one.held.Client), one.held.Stamp, now)
	d.noteGrant(v, one.held, now)
}

// noteAsk notes under which stamp a client has the vote or waits for it, 0 for none, after a step that may have changed it.
func (d *Daemon) noteAsk(v *vote, client int, stamp uint64, now time.Time) {
	before := v.ask(client)
	if before.stamp == stamp {
		return
	}
	if before.stamp > 0 {
		v.shard.count(before, -1)
		v.removeAsk(client)
		d.leaves(v, before.user)
	}
	if stamp > 0 {
		one := ask{client: client, stamp: stamp, since: moment.Of(now), user: d.usageOf(v.shard.asker(client, stamp))}
		d.counts(v, one.user)
		v.addAsk(one)
		v.shard.count(one, 1)
		v.next.Sooner(d.own.First.Duration, now)
	}
	isBusy := v.isBusy()
	d.busy.put(v, inBusy, isBusy)
	v.shard.busy.put(v, inShard, isBusy)
	if !isBusy {
		d.rest(v, now)
	}
}

// count counts the requests of the session that a number has now. Those of its earlier sessions don't count: nobody of
// this session waits for them.
func (s *shard) count(one ask, by int) {
	if one.stamp > s.bare(one.client).Base {
		s.seat(one.client).requests += int32(by)
	}
}

// recount counts anew, once a number has a new session. The base of a number never falls, so what did not count does not count now.
func (d *Daemon) recount(s *shard, client int) {
	seat := s.seat(client)
	before := seat.requests
	if seat.requests, seat.lock = 0, ""; before == 0 {
		return
	}
	for _, v := range s.busy.all {
		if one := v.ask(client); one.stamp > 0 {
			s.count(one, 1)
		}
	}
}

// noteGrant notes who has the vote, after a step that may have changed it. His request was noted.
func (d *Daemon) noteGrant(v *vote, held qlock.Grant, now time.Time) {
	if before := v.held(); held.Number != before.Number {
		if before.Number > 0 {
			d.held--
		}
		v.goesTo(held, now)
		v.next.Begin(d.own.First.Duration, now)
		d.watches.touch(v.name)
		if held.Number > 0 {
			d.held++
			d.m.grants.Inc()
			d.granted++
			d.noteNumber(held.Number, now)
		}
	}
	d.lists(v)
}

// goesTo notes that another grant has the vote, or none. The request of who has it becomes the first one.
func (v *vote) goesTo(held qlock.Grant, now time.Time) {
	v.isOld = false
	if v.isHeld = held.Number > 0; !v.isHeld {
		return
	}
	if client := int(held.Client); !v.isFirst(client) {
		before, one := v.first(), v.ask(client)
		v.removeAsk(client)
		if v.setFirst(one); before.stamp > 0 {
			v.needs().others.add(before)
		}
	}
	v.number, v.granted = held.Number, moment.Of(now)
}

// lists notes in which lists a vote is that each round goes over.
func (d *Daemon) lists(v *vote) {
	d.soon.put(v, inSoon, v.isWanted() || v.isAwaited())
	d.old.put(v, inOld, v.isOld)
}

// noteNumber notes that a number of a grant was given, or skipped.
func (d *Daemon) noteNumber(number uint64, now time.Time) {
	d.m.left.Set(float64(d.ceiling) - float64(d.m.highest(number)))
	d.needsCeiling(d.m.most, now)
}
