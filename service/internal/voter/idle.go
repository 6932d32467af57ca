package voter

import (
	"sync"
	"time"

	"calvundek.example/service/internal/moment"
	"calvundek.example/service/qlock"
)

// A voter keeps the proved voter of a vote that was not used for a while in a short form (pack.go), which takes a fortieth of the memory.
// Behind it is what was said since the start. The next call unpacks both. What else a vote needs only while it is used goes, too.

// packsAfter is for how long a vote is not used before it is packed, at least.
const packsAfter = time.Second

// spare are voters whose memory may be used again.
var spare = sync.Pool{New: func() interface{} { return new(qlock.Voter) }}

// proved returns the proved voter of a vote, for a call that may change it.
func (d *Daemon) proved(v *vote) *qlock.Voter {
	extras := v.needs()
	if extras.isUsed = true; extras.voter == nil {
		d.unpack(v)
		d.unpacked = append(d.unpacked, v)
	}
	return extras.voter
}

// look hands the proved voter of a vote to a function that does not change it, and that depends on no number of a later grant: one that is
// packed goes on above what this start asks for when it is unpacked.
func (v *vote) look(at func(*qlock.Voter)) {
	if voter := v.extra().voter; voter != nil {
		at(voter)
		return
	}
	voter := spare.Get().(*qlock.Voter)
	readVoter(voter, v.packed)
	at(voter)
	spare.Put(voter)
}

// unpack unpacks the proved voter of a vote, which goes on above what this start asks for, and what was said since the start.
func (d *Daemon) unpack(v *vote) {
	extras := v.needs()
	extras.voter = spare.Get().(*qlock.Voter)
	if said := readVoter(extras.voter, v.packed); said != "" {
		extras.since = readSince(said)
	}
	if v.packed, v.isSaid = "", false; v.isRaised {
		d.raised.raise(extras.voter)
	}
}

// pack packs the proved voter of a vote, and what was said since the start.
func (v *vote) pack() {
	v.packed, v.isSaid = shortOf(v.extras.voter, v.extras.since), v.extras.since != nil
	spare.Put(v.extras.voter)
	v.extras.voter, v.extras.since = nil, nil
}

// forgetSince forgets what was said since the start.
func (v *vote) forgetSince() {
	if v.isSaid {
		v.look(func(voter *qlock.Voter) { v.packed = shortOf(voter, nil) })
		v.isSaid = false
	}
	if v.extras != nil {
		v.extras.since = nil
	}
}

// saved returns what to save of a vote.
func (v *vote) saved() (packed []byte) {
	v.look(func(voter *qlock.Voter) { packed = pack(voter.State()) })
	return packed
}

// packSome packs votes that were not used for a while.
func (d *Daemon) packSome(now time.Time) {
	if d.toPack == 0 && now.Sub(d.packs) >= packsAfter {
		d.packs, d.toPack = now, len(d.unpacked)
	}
	for n := 0; n < mostLooked && d.toPack > 0; n++ {
		v := d.unpacked[0]
		d.unpacked[0], d.unpacked = nil, d.unpacked[1:]
		if d.toPack--; v.extras.isUsed || !d.isIdle(v) {
			v.extras.isUsed = false
			d.unpacked = append(d.unpacked, v)
			continue
		}
		v.pack()
		d.tidy(v, now)
	}
	if len(d.unpacked) == 0 {
		d.unpacked = nil // and with it what was taken out
	}
}

// isIdle returns whether a vote is saved, and nobody waits for it.
func (d *Daemon) isIdle(v *vote) bool {
	must, may := d.draft.Has(v)
	return !must && !may && !v.isWanted() && !v.isAwaited()
}

// tidy drops the extras of a vote for which nobody waits, if it is packed and has none that it needs.
func (d *Daemon) tidy(v *vote, now time.Time) {
	extras := v.extra()
	switch {
	case extras.voter != nil, len(extras.others) > 0, extras.note != "", extras.isSpent:
	case extras.skipped > v.number, v.isHeld && extras.turned.grant == v.number:
	case v.isResting && extras.heard != moment.Never:
	case now.Sub(extras.letGo.Time()) < d.leases.ttl:
	default:
		v.extras = nil
	}
}
