package voter

import "time"

// For how long a voter that starts waits for others.
//
// Those that answered and it contain a quorum, so it could serve. It waits for the rest for one reason: its state may
// be an older copy, and of the voters that keep the ceiling of the newest one none may have answered. Where the two
// quorums share this voter alone, the law later_processes_give_above is silent. Who keeps that ceiling helps only if it
// answers before this voter serves. So it waits for as long as one may still come: eight seconds for each that was
// heard lately, by this voter or by one that answered. It may be slow, or start, too.
//
// Who was heard by none of them for longer than serving voters are silent is gone, and may be for good: nobody waits
// for its answer. As it is not there it knows of no ceiling that was asked for since, but perhaps of an earlier one:
// whoever asks for one tells all others, each TTL, so one that answered knows it, too, unless it was cut off then. What
// is lost by this is the answer of a voter that was gone for longer and comes back within these seconds, where this
// state is an older copy, and all that answered were cut off as the newest one asked for its ceiling.
//
// A voter that ended by itself saves when that was: since then it heard nobody. One that was killed can't say what it
// heard, so it goes by what it hears since its start.

const (
	mostPatience  = 8 * time.Second // after which a quorum of answers is enough
	leastPatience = time.Second     // for which all others are waited for: they may start just now
)

// unheard is for how long a voter that serves is silent at most: it tells others its ceiling each TTL, and looks each
// second whether to.
func (d *Daemon) unheard() time.Duration { return d.cluster.TTL.Duration + 2*tellAgain }

// spokeLast returns when another voter was heard last in this run, zero if none was.
func (d *Daemon) spokeLast() (last time.Time) {
	for _, spoke := range d.spoke {
		if spoke.After(last) {
			last = spoke
		}
	}
	return last
}

// whoSpoke returns the other voters that were heard lately, and those that were not for so long.
func (d *Daemon) whoSpoke(now time.Time) (heard, missed uint64) {
	since := d.started
	if !d.join.left.IsZero() {
		since = d.join.left
	}
	for voter, spoke := range d.spoke {
		switch {
		case now.Sub(since) > d.unheard() && now.Sub(spoke) > d.unheard():
			missed |= 1 << voter
		case !spoke.IsZero():
			heard |= 1 << voter
		}
	}
	return heard & d.others(), missed & d.others()
}

// expected returns the voters that did not answer the start, and may come soon.
func (d *Daemon) expected(now time.Time) uint64 {
	heard, missed := d.whoSpoke(now)
	heard, missed = heard|d.join.heard, missed|d.join.missed
	return d.others() &^ d.join.start.Shows().Answered &^ (missed &^ heard)
}

// patience returns for how long this voter waits for others in all.
func (d *Daemon) patience(now time.Time) time.Duration {
	if d.expected(now) == 0 {
		return leastPatience
	}
	return mostPatience
}

// Awaits is what an operator sees of a voter that does not serve yet: for which other voters it waits, why, and for how
// many seconds more. Without seconds they have to come.
type Awaits struct {
	Voters  string  `json:"voters"`
	Why     string  `json:"why"`
	Seconds float64 `json:"seconds,omitempty"`
}

// awaitsVoters returns for whom this voter waits, nil if it serves.
func (d *Daemon) awaitsVoters(now time.Time) *Awaits {
	shown := d.join.start.Shows()
	answered, silent := shown.Answered, d.others()&^shown.Answered
	switch left := d.patience(now) - now.Sub(d.join.began); {
	case d.join.done:
		return nil
	case shown.Asked > 0:
		return &Awaits{Voters: d.inUse.names(d.others() &^ shown.Kept), Why: "too few keep its ceiling yet"}
	case d.isLost():
		return &Awaits{Voters: d.inUse.names(silent), Why: "its state was lost: a quorum of others has to answer, or all"}
	case d.store.own.Ceiling == 0:
		return &Awaits{Voters: d.inUse.names(silent), Why: "it is new: the silent ones and it must contain no quorum"}
	case !d.inUse.haveQuorums(answered | d.bit()):
		return &Awaits{Voters: d.inUse.names(silent), Why: "those that answered and it contain no quorum"}
	case d.expected(now) > 0:
		return &Awaits{d.inUse.names(d.expected(now)), "it was heard lately, and may know more", left.Seconds()}
	default:
		return &Awaits{d.inUse.names(silent), "it may start just now", left.Seconds()}
	}
}
