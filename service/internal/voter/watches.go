package voter

import (
	"container/list"
	"time"

	"calvundek.example/service/internal/wire"
)

// Who watches a lock hears at once when another session has its vote, or the note of who has it is another one. It says again and again that it
// watches, and a voter keeps that in memory alone. No vote depends on it. What is lost the next question of the session makes up for.

// What watches cost at most.
const (
	mostWatches       = 4096                   // of a voter
	mostWatchesOfOne  = 64                     // of a session
	mostWatchesLooked = 512                    // that are looked at in one turn
	looksAgain        = 500 * time.Millisecond // after how long all are looked at: silence makes a vote nobody's, too
)

// watching is a lock that a session watches.
type watching struct {
	session string
	id      uint64
	lock    string
	until   time.Time     // when it ends, unless the session says it again
	heard   wire.Told     // who has the vote, as the session last heard it
	isDue   bool          // it is among those that are looked at next
	all     *list.Element // among those of the voter
	place   int           // among those of its lock
}

// watches are those of a voter. The zero value has none.
type watches struct {
	all       list.List              // *watching: what was said last is the last one
	ofSession map[string][]*watching // in the same order
	ofLock    map[string][]*watching
	due       []*watching // those that are looked at next
	looked    time.Time   // when all were looked at last
}

// watchFor notes that a session watches a lock. It asks who has it itself, so it hears changes alone.
func (d *Daemon) watchFor(session string, ask wire.Ask, now time.Time) {
	w := d.watches.find(session, ask.ID)
	if w != nil {
		d.watches.remove(w)
	}
	if w == nil || w.lock != ask.Lock {
		w = &watching{session: session, id: ask.ID, lock: ask.Lock}
		w.heard = d.watchedBy(w, now)
	}
	w.until = now.Add(d.leases.ttl)
	d.watches.add(w)
}

// watchedBy returns what this voter says of who has a lock that is watched.
func (d *Daemon) watchedBy(w *watching, now time.Time) wire.Told {
	told := d.holderOf(w.id, w.lock, d.votes[w.lock], now)
	told.Kind = wire.HasChanged
	return told
}

// isSameHolder returns whether two words say the same of who has a vote, except for how long, and who waits.
func isSameHolder(one, other wire.Told) bool {
	one.Milliseconds, one.Waiting = other.Milliseconds, other.Waiting
	return one == other
}

// tellWatchers tells those that watch a lock that another session has it, or that its note is another one. It looks at some of those of which
// the lock may have changed, and at all of them now and then.
func (d *Daemon) tellWatchers(now time.Time) {
	if now.Sub(d.watches.looked) >= looksAgain {
		d.watches.lookAtAll(now)
	}
	for n := 0; n < mostWatchesLooked && len(d.watches.due) > 0; n++ {
		w := d.watches.due[0]
		d.watches.due[0], w.isDue = nil, false
		d.watches.due = d.watches.due[1:]
		if w.all != nil {
			d.tellWatcher(w, now)
		}
	}
}

// tellWatcher tells a session of a change of a lock that it watches, if there is one. That leaves after what it tells is saved.
func (d *Daemon) tellWatcher(w *watching, now time.Time) {
	told := d.watchedBy(w, now)
	if isSameHolder(told, w.heard) {
		return
	}
	w.heard = told
	if v := d.votes[w.lock]; v != nil {
		d.draft.Tells(v)
	}
	d.put(w.session, told.Append(d.out[w.session]))
}

// find returns a watch of a session, nil if it has none with this ID.
func (w *watches) find(session string, id uint64) *watching {
	for _, one := range w.ofSession[session] {
		if one.id == id {
			return one
		}
	}
	return nil
}

// add adds a watch. The oldest of the session, and of the voter, goes if there are too many.
func (w *watches) add(one *watching) {
	if of := w.ofSession[one.session]; len(of) >= mostWatchesOfOne {
		w.remove(of[0])
	}
	if w.all.Len() >= mostWatches {
		w.remove(w.all.Front().Value.(*watching))
	}
	if w.ofSession == nil {
		w.ofSession, w.ofLock = map[string][]*watching{}, map[string][]*watching{}
	}
	one.all = w.all.PushBack(one)
	w.ofSession[one.session] = append(w.ofSession[one.session], one)
	one.place = len(w.ofLock[one.lock])
	w.ofLock[one.lock] = append(w.ofLock[one.lock], one)
}

// remove takes a watch out.
func (w *watches) remove(one *watching) {
	w.all.Remove(one.all)
	one.all = nil
	of := w.ofSession[one.session]
	for i := range of {
		if of[i] == one {
			of = append(of[:i], of[i+1:]...)
			break
		}
	}
	if w.ofSession[one.session] = of; len(of) == 0 {
		delete(w.ofSession, one.session)
	}
	of = w.ofLock[one.lock]
	last := len(of) - 1
	of[one.place], of[last].place = of[last], one.place
	of[last] = nil
	if w.ofLock[one.lock] = of[:last]; last == 0 {
		delete(w.ofLock, one.lock)
	}
}

// touch notes that another session may have a lock, or its note may be another one.
func (w *watches) touch(lock string) {
	for _, one := range w.ofLock[lock] {
		w.isDueNow(one)
	}
}

// isDueNow puts a watch among those that are looked at next.
func (w *watches) isDueNow(one *watching) {
	if !one.isDue {
		one.isDue = true
		w.due = append(w.due, one)
	}
}

// lookAtAll lets all watches be looked at, and ends those that were not said again.
func (w *watches) lookAtAll(now time.Time) {
	w.looked = now
	for w.all.Len() > 0 && !now.Before(w.all.Front().Value.(*watching).until) {
		w.remove(w.all.Front().Value.(*watching))
	}
	for e := w.all.Front(); e != nil; e = e.Next() {
		w.isDueNow(e.Value.(*watching))
	}
}
