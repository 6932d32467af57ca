package voter

import (
	"math"
	"sort"
	"time"
)

// When sessions were heard, on the lease clock.
//
// The time that a marker skips as it comes back is skipped for those, too, that were heard since the one before: they count as heard at the
// reading of that moment, at the latest. Else a session that was heard last when this voter went on, after it had stood still, would live
// for that much longer than a TTL. The same holds of when a number was passed on.
//
// A marker comes back each moment, and a voter may have many tables. So what a marker says of all is noted once, and a table takes it into
// account before it is looked at (catchUp). Only a marker that comes back at a reading below one at which somebody counts as heard says
// something. That is one after a standstill.

// hearings is what is to be said of all tables of when sessions were heard.
type hearings struct {
	count  uint64        // of cuts, and of the times that all were heard
	latest time.Duration // nothing counts as heard at a later reading
	cuts   []cut         // without those behind which there is a lower one: so their readings grow
	all    cut           // when all were heard last
}

// cut is a reading at which whatever was heard before counts as heard, at the latest.
type cut struct {
	number uint64 // which of the hearings it is
	at     time.Duration
}

// never is a cut's reading that is no bound.
const never = time.Duration(math.MaxInt64)

// note notes that something is heard at a reading, and returns that.
func (h *hearings) note(at time.Duration) time.Duration {
	h.latest = later(h.latest, at)
	return at
}

// returned notes that a marker came back at a reading.
func (h *hearings) returned(at time.Duration) {
	if h.latest <= at {
		return
	}
	for len(h.cuts) > 0 && h.cuts[len(h.cuts)-1].at >= at {
		h.cuts = h.cuts[:len(h.cuts)-1]
	}
	h.count++
	h.latest, h.cuts = at, append(h.cuts, cut{h.count, at})
}

// hearAll notes that all are heard at a reading.
func (h *hearings) hearAll(at time.Duration) {
	h.count++
	h.all = cut{h.count, h.note(at)}
}

// after returns the place of the first cut after so many hearings.
func (h *hearings) after(count uint64) int {
	return sort.Search(len(h.cuts), func(i int) bool { return h.cuts[i].number > count })
}

// since returns at which reading, at the latest, counts as heard what was heard after so many hearings, and before the later ones.
func (h *hearings) since(count uint64) time.Duration {
	if first := h.after(count); first < len(h.cuts) {
		return h.cuts[first].at
	}
	return never
}

// forget forgets the cuts among so many hearings, which all tables took into account.
func (h *hearings) forget(count uint64) { h.cuts = append(h.cuts[:0], h.cuts[h.after(count):]...) }

// at returns the reading of the lease clock at which a session is heard that is heard now.
func (l *leases) at(now time.Time) time.Duration { return l.clock.At(now.Sub(l.began)) }

// hearAll lets all leases begin anew.
func (l *leases) hearAll(now time.Time) { l.heard.hearAll(l.at(now)) }

// returned is called once a marker came back.
func (l *leases) returned(now time.Time) { l.heard.returned(l.at(now)) }

// catchUp takes into account what was noted for all tables since it was called last.
func (t *table) catchUp() {
	if t.caughtUp != t.heard.count {
		t.takeHearings()
	}
}

// takeHearings takes into account what was noted.
func (t *table) takeHearings() {
	all, latest := t.heard.all, t.heard.since(t.caughtUp)
	isAll, latestOfAll := all.number > t.caughtUp, t.heard.since(all.number)
	t.caughtUp = t.heard.count
	hears := func(at time.Duration) time.Duration {
		if isAll {
			return sooner(all.at, latestOfAll)
		}
		return sooner(at, latest)
	}
	t.heardAs = hears(t.heardAs)
	for _, seat := range t.seats.all {
		seat.heard = hears(seat.heard)
	}
	for _, rare := range t.rarities {
		rare.passed.at = sooner(rare.passed.at, latest)
	}
}

// catchUp lets one table catch up, the next one each time, and forgets the cuts that all took into account: so there are about twice as many
// as tables, at most. It goes downwards. So none is left out if a shard is dropped meanwhile.
func (d *Daemon) catchUp() {
	if d.nextCaught--; d.nextCaught < 0 {
		d.leases.heard.forget(d.caughtUp)
		d.nextCaught, d.caughtUp = len(d.inTurn), d.leases.heard.count
	} else if d.nextCaught < len(d.inTurn) {
		d.inTurn[d.nextCaught].catchUp()
	}
}

// hear notes that a number's session was heard.
func (t *table) hear(number int, now time.Time) { t.hearAt(t.seat(number), t.heard.note(t.at(now))) }

// hearAt notes that the session of a seat was heard at a reading.
func (t *table) hearAt(seat *seat, at time.Duration) {
	t.catchUp()
	seat.heard = at
}

// passes notes that this voter learned that another session has a number.
func (t *table) passes(number int, now time.Time) {
	t.catchUp()
	rare := t.rare(number)
	rare.passed = passed{true, t.heard.note(t.at(now))}
	t.keep(number, rare)
}

// heardAt returns at which reading a number's session was heard.
func (t *table) heardAt(number int) time.Duration {
	t.catchUp()
	if seat := t.seats.at(number); seat != nil {
		return seat.heard
	}
	return t.heardAs
}

// silent returns for how long nothing came of a number's session, up to when all that was sent was
// heard.
func (t *table) silent(number int) time.Duration {
	reading, _ := t.clock.Shows()
	return reading - t.heardAt(number)
}

func sooner(a, b time.Duration) time.Duration {
	if b < a {
		return b
	}
	return a
}

func later(a, b time.Duration) time.Duration {
	if b > a {
		return b
	}
	return a
}
