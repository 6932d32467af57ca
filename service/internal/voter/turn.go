package voter

import (
	"time"

	"calvundek.example/service/internal/wire"
)

// A turn is one number, for a place that can't keep a guard. Who has a lock asks each voter of its quorum to skip the numbers up to the
// greatest of its grants, which is the turn. So what a voter of both gives later has a greater number, and a later turn is greater: the law
// turns_grow of the crate passes. It is of moments at which a voter has saved that it skipped, and that the grant has its vote.

// How far turns may take a voter. A turn is a number of a grant, so no voter's ceiling is below it: what is above all
// ceilings that this voter keeps, its own and the others', is no turn. It may know of a ceiling late, as its keepers
// are a quorum without this voter. Then the client asks again, and that ceiling comes: whose it is tells all others
// each second until they reply (Daemon.start).
//
// Voters number their grants each by itself, and one that started more often is ahead of others. So to follow them
// costs nothing but for the last block below the highest ceiling. Numbers of that cost tokens: else who asks for the
// ceiling as a turn, at one voter after the other, would raise it by a block each time. 2^63 numbers last for ever.
const (
	lastBlock = 1 << 24 // the most by which a ceiling is raised
	skipRate  = 1 << 18 // a second
	mostSkip  = 1 << 28 // at once
)

// skip is a turn that is told once it is saved, if the grant has the vote then.
type skip struct {
	vote    *vote
	session string
	ask     wire.Ask
}

// turned is up to which number a vote skipped for the turn of a grant. It is in memory alone, and shown to who asks.
type turned struct{ grant, top uint64 }

// mostSkipsWaiting is how many calls wait for the next ceiling. Others ask again.
const mostSkipsWaiting = 256

// skipWaiting is a call that waits for the next ceiling.
type skipWaiting struct {
	letter *letter
	ask    wire.Ask
}

// skipWaiters lets those that waited for the ceiling skip numbers now.
func (d *Daemon) skipWaiters(now time.Time) {
	waiting := d.skipsWaiting
	d.skipsWaiting = nil
	for _, one := range waiting {
		d.skipFor(one.letter, one.ask, now)
	}
}

// skipFor has a vote skip numbers, for who has it. It says so after the next save. Who would have to go beyond the ceiling waits until the
// other voters keep a higher one. As long as it may not skip as many it says nothing: the client asks again.
func (d *Daemon) skipFor(l *letter, ask wire.Ask, now time.Time) {
	v := d.votes[ask.Lock]
	if !d.join.done || v == nil || !v.isHolder(l.Number) || v.stamp != ask.Number || v.number != ask.Grant ||
		v.shard != l.shard || l.shard.isEarlier(l.Number, ask.Number) {
		return // it hears otherwise that it does not have this vote, or has to find out
	}
	highest := d.highestCeiling()
	if ask.Top > highest {
		d.m.refused.Inc()
		return
	}
	if !d.mayReach(ask.Top, highest, now) {
		return
	}
	if ask.Top > d.ceiling {
		if d.join.start.Shows().Asked <= d.ceiling { // else it was asked for one already
			d.needsCeiling(ask.Top, now)
		}
		if ask.Top > d.ceiling { // else they keep it already
			if len(d.skipsWaiting) < mostSkipsWaiting {
				d.skipsWaiting = append(d.skipsWaiting, skipWaiting{&letter{Header: l.Header, shard: l.shard}, ask})
			}
			return
		}
	}
	voter := d.proved(v)
	if ask.Top > d.highestOf(v) { // else it gave, or skipped, as many before
		err := voter.Raise(ask.Top)
		if err != nil && d.extends(v) {
			err = voter.Raise(ask.Top)
		}
		if err != nil {
			return
		}
		v.extras.skipped = ask.Top
		d.noteNumber(ask.Top, now)
	}
	d.draft.Must(v)
	v.isRaised = false
	d.skips = append(d.skips, skip{v, l.Name, ask})
}

// highestCeiling returns the highest ceiling that this voter keeps, its own one or another voter's.
func (d *Daemon) highestCeiling() uint64 {
	highest := d.ceiling
	for _, peer := range d.peers {
		highest = greatest(highest, peer.Ceiling)
	}
	return highest
}

// mayReach returns whether numbers may be skipped up to this one, where this is the highest ceiling: those that some
// lock here has used, those below the last block, and as many more as there were tokens for. What is too far away comes
// nearer each time.
func (d *Daemon) mayReach(number, highest uint64, now time.Time) bool {
	d.reach = greatest(d.reach, greatest(d.floor, d.m.most))
	d.reach = greatest(d.reach, highest-smallest(highest, lastBlock))
	if number <= d.reach {
		return true
	}
	since := now.Sub(d.leases.began)
	further := smallest(number-d.reach, d.skippable.Left(since))
	if d.skippable.Spend(since, further) == nil {
		d.reach += further
	}
	return number <= d.reach
}

// tellSkips puts the turns that are saved with what leaves.
func (d *Daemon) tellSkips() {
	for _, s := range d.skips {
		if s.vote.held().Number == s.ask.Grant {
			s.vote.needs().turned = turned{s.ask.Grant, s.ask.Top}
			told := wire.Told{Kind: wire.Turned, Lock: s.ask.Lock, Stamp: s.ask.Number, Top: s.ask.Top}
			d.put(s.session, told.Append(d.out[s.session]))
		}
	}
	d.skips = d.skips[:0]
}
