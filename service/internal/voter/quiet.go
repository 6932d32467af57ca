package voter

import (
	"time"

	"calvundek.example/service/qlock"
)

// The quiet time of a voter that was killed, or began from an older copy: only who says that he is inside gets a vote. What a vote takes
// then, which grants are from before the start, and which of them go at the end, the proved calls say (TakeFrom, EndQuiet, Stands). Here
// is when it begins and ends, and that no silence ends anything meanwhile.

// quiet is the quiet time of a voter. It ends when the grants of before the start are let go, and no moment before: what was granted in
// between would count as one of those.
type quiet struct {
	is    bool
	since time.Duration // when it began, on the lease clock
	begun uint64        // how many grants votes gave before, or skipped
	ends  pass          // over the grants of before the start, which go at its end
}

// returned is called once a marker came back. The time that it skips is skipped for the quiet time, too: it counts as begun now, at the
// latest. Else one that began as the voter went on, after it had stood still, would last for that much longer than a TTL.
func (q *quiet) returned(latest time.Duration) {
	if q.since > latest {
		q.since = latest
	}
}

// isQuiet returns whether only those inside get a vote.
func (d *Daemon) isQuiet() bool { return d.leases.quiet.is }

// quietLeft returns for how long only those inside get a vote, at least for a tick while that has not ended.
func (d *Daemon) quietLeft(now time.Time) time.Duration {
	if !d.isQuiet() {
		return 0
	}
	if left := d.leases.quiet.since + d.leases.ttl - d.leases.at(now); left > tick {
		return left
	}
	return tick
}

// quietFor returns for how long a REQUEST that is put off gets no vote: until the quiet time ends, or a little while if somebody waits who
// said in it that he is inside.
func (d *Daemon) quietFor(now time.Time) time.Duration {
	if left := d.quietLeft(now); left > 0 {
		return left
	}
	return stillQuiet
}

// beQuiet begins a quiet time: what votes granted so far is from before it. It is over after a TTL by the lease clock, so that whoever is
// inside could be heard for as long.
func (d *Daemon) beQuiet(now time.Time) {
	d.leases.quiet = quiet{is: true, since: d.leases.at(now), begun: d.floor}
	begun, since := uint64(0), new(qlock.SinceStart)
	for _, v := range d.busy.all {
		v.forgetSince()
		v.isOld = v.isHeld
		if of := d.begunOf(v); of != begun {
			begun, since = of, qlock.NewSinceStart(of)
		}
		d.standSince(v, since) // nothing is kept of what was said of none: it is long
	}
}

// begunOf returns how many grants a vote gave, or skipped, before the quiet time began. What it gave since has greater numbers.
func (d *Daemon) begunOf(v *vote) uint64 {
	if v.isOld {
		return greatest(d.leases.quiet.begun, v.number)
	}
	return d.leases.quiet.begun
}

// sinceOf returns what was said of a lock since the start. Nothing is noted in what it returns for a vote of which nothing was said, but in
// the quiet time.
func (d *Daemon) sinceOf(v *vote) *qlock.SinceStart {
	d.proved(v) // it may be packed
	if v.extras.since == nil && d.isQuiet() {
		v.extras.since = qlock.NewSinceStart(d.begunOf(v))
	}
	if v.extras.since == nil {
		return &d.nothing
	}
	return v.extras.since
}

// stand notes how a vote stands since the start, once a call may have changed that.
func (d *Daemon) stand(v *vote) { d.standSince(v, d.sinceOf(v)) }

// standSince notes how a vote stands where this was said since the start.
func (d *Daemon) standSince(v *vote, since *qlock.SinceStart) {
	var isAwaited bool
	v.look(func(voter *qlock.Voter) {
		v.isOld, isAwaited, _ = voter.Stands(since) // it never fails: the bytes are a voter
	})
	if isAwaited != v.isAwaited() {
		v.needs().isAwaited = isAwaited
	}
	d.lists(v)
}

// forgetDead forgets those who said of a lock that they are inside, and whose session is over.
func (d *Daemon) forgetDead(v *vote) {
	v.asks(func(one ask) {
		if v.shard.isOver(one.client, one.stamp) {
			_ = v.extras.since.Forget(uint8(one.client)) // it never fails: there is such a client
		}
	})
	d.stand(v)
}

// awaits returns whether somebody who said that he is inside waits for some vote.
func (d *Daemon) awaits() bool {
	for _, v := range d.soon.all {
		if v.isAwaited() {
			return true
		}
	}
	return false
}
