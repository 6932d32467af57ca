package voter

import (
	"time"

	"calvundek.example/service/internal/moment"
)

// How a voter forgets locks that nobody uses.
//
// A vote that nobody has, and of which nothing was heard for a while, is dropped, earlier where there
// is no room for another lock: no client has anything of it that counts (`free_votes_are_over`). If it is asked for again it begins above the
// floor, which is at least what each dropped vote has given. After a start all votes begin above the
// ceiling, so the floor needs no disk.

// shortestRest is for how long nothing may be heard of a lock before it is forgotten, unless two TTLs
// are more.
const shortestRest = 30 * time.Second

// resting is a lock of which nothing was heard since some time.
type resting struct {
	vote  *vote
	since moment.Moment
}

// rest notes that nobody has a vote or waits for it.
func (d *Daemon) rest(v *vote, now time.Time) {
	if !v.isResting {
		v.isResting = true
		d.resting = append(d.resting, resting{v, moment.Of(now)})
	}
}

// forget drops votes that rested for long enough. Their rows go with the next save.
func (d *Daemon) forget(now time.Time) {
	for n := 0; n < mostLooked && len(d.resting) > 0 && now.Sub(d.resting[0].since.Time()) >= d.restsFor; n++ {
		v := d.resting[0].vote
		d.resting, v.isResting = d.resting[1:], false
		switch {
		case v.isBusy():
			d.tidy(v, now)
		case now.Sub(v.extra().heard.Time()) < d.restsFor:
			d.rest(v, v.extras.heard.Time())
		default:
			d.forgetVote(v)
		}
	}
	if len(d.resting) == 0 {
		d.resting = nil // and with it what was taken out
	}
}

// makeRoom forgets the lock that rested longest, and returns whether there was one. One of which a
// grant was let go within a TTL stays: its client may not know yet. So does one of which lines wait for a save.
func (d *Daemon) makeRoom(now time.Time) bool {
	for n := len(d.resting); n > 0; n-- {
		first := d.resting[0]
		v := first.vote
		switch d.resting = d.resting[1:]; {
		case v.isBusy():
			v.isResting = false
		case now.Sub(v.extra().letGo.Time()) < d.leases.ttl || d.mustBeSaved(v):
			d.resting = append(d.resting, first)
		default:
			v.isResting = false
			d.forgetVote(v)
			return true
		}
	}
	return false
}

// mustBeSaved returns whether lines of a vote leave after the next save: then the vote has to be in it.
func (d *Daemon) mustBeSaved(v *vote) bool {
	must, _ := d.draft.Has(v)
	return must
}

// forgetVote forgets a vote.
func (d *Daemon) forgetVote(v *vote) {
	d.floor = greatest(d.floor, d.highestOf(v))
	delete(d.votes, v.name)
	v.shard.votes--
	d.draft.Forget(v)
	d.gone[v.name] = struct{}{}
	d.m.forgotten.Inc()
}
