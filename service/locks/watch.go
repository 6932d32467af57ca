package locks

import (
	"sync"
	"time"
)

// watch closes Lost in time, whatever holds the loops up: it has a goroutine of its own while a lock is held, which touches no socket. The
// loops tell it what is held, and a lock up to when. All sessions of a process have one.
type watch struct {
	lease time.Duration // for how long an acknowledged heartbeat counts

	mutex sync.Mutex
	held  map[*Held]struct{}
	looks bool // it looks while something is held
	goes  bool // it has a goroutine
}

// pause is how long the watch waits between two looks, and so do loops.
const pause = 25 * time.Millisecond

// leaseOf returns for how long a vote counts after its client's heartbeat left: a voter keeps it
// for a TTL.
func leaseOf(ttl time.Duration) time.Duration { return ttl * 8 / 10 }

func newWatch(ttl time.Duration) *watch {
	return &watch{lease: leaseOf(ttl), held: map[*Held]struct{}{}}
}

// begin notes that a lock is held, and end that it is not any more.
func (w *watch) begin(h *Held) {
	w.mutex.Lock()
	defer w.mutex.Unlock()
	w.held[h] = struct{}{}
	if w.looks && !w.goes {
		w.goes = true
		go w.run()
	}
}

func (w *watch) end(h *Held) {
	w.mutex.Lock()
	defer w.mutex.Unlock()
	delete(w.held, h)
}

// left returns for how long a lock lasts from a time on, if no voter is heard any more.
func (w *watch) left(h *Held, up time.Duration) time.Duration {
	w.mutex.Lock()
	defer w.mutex.Unlock()
	left := shorter(time.Duration(h.until.Load())-up, w.lease)
	if _, isHeld := w.held[h]; !isHeld || h.over.Load() || left < 0 {
		return 0
	}
	return left
}

// look ends what may be lost at a time, and returns whether something is held.
func (w *watch) look(up time.Duration) bool {
	w.mutex.Lock()
	defer w.mutex.Unlock()
	for h := range w.held {
		if time.Duration(h.until.Load()) <= up {
			h.lapse()
		}
	}
	w.goes = len(w.held) > 0
	return w.goes
}

// run looks again and again while something is held.
func (w *watch) run() {
	ticker := time.NewTicker(pause)
	defer ticker.Stop()
	for goesOn := true; goesOn; goesOn = w.look(uptime()) {
		<-ticker.C
	}
}
