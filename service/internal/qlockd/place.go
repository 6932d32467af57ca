package qlockd

import (
	"context"
	"crypto/rand"
	"encoding/hex"
	"errors"
	"fmt"
	"os"
	"sort"
	"sync"
	"sync/atomic"
	"time"

	"calvundek.example/service/internal/event"
	"calvundek.example/service/internal/view"
	"calvundek.example/service/locks"
)

// state is what a client of the agent does with a lock.
type state string

const (
	waiting state = "waiting"
	holding state = "held"
	losing  state = "lost" // it has to stop, as the lock may be somebody else's, and may still work
)

// place is a request for a lock, and the lock once it is held.
type place struct {
	id      string
	number  uint64 // in the order in which they came
	name    string
	peer    peer
	since   time.Time     // in this state
	asked   time.Duration // when the request came, by boot.Uptime
	state   state         // of the list
	held    *locks.Held   // nil while it waits
	turn    uint64        // of held, 0 if nobody asked for it
	note    string        // what others see of who has it, besides process and user
	session *session      // of held
	why     string        // why the client has to stop, "" as long as it need not
	lost    chan struct{} // closed once it has to
	idles   chan struct{} // closed once it wrote no line in time, nil if it need not
	freed   atomic.Bool   // somebody gives the lock back
	ended   chan struct{} // closed once that is done
	once    sync.Once
	isLost  bool // the lock may have been lost before it was given back
}

// enter notes a request. It returns nil if the agent ends.
func (a *Agent) enter(name string, from peer) *place {
	bits := make([]byte, 8)
	if _, err := rand.Read(bits); err != nil {
		return nil
	}
	a.mutex.Lock()
	defer a.mutex.Unlock()
	if a.isOver {
		return nil
	}
	a.handlers.Add(1)
	a.last++
	p := &place{id: hex.EncodeToString(bits), number: a.last, name: name, peer: from, since: time.Now(), state: waiting,
		lost: make(chan struct{}), ended: make(chan struct{})}
	a.places[p.id] = p
	return p
}

// leave forgets a request, after its lock was given back.
func (a *Agent) leave(p *place) {
	a.unlock(p, "")
	a.mutex.Lock()
	delete(a.places, p.id)
	if a.holders[p.name] == p {
		delete(a.holders, p.name)
	}
	a.mutex.Unlock()
	a.handlers.Done()
}

// hold notes that a request got its lock. Who had it in an earlier session may still work, until its own place ended: the
// request waits for that, unless it only tries.
func (a *Agent) hold(ctx context.Context, p *place, held *locks.Held, s *session, tries bool) error {
	for {
		before := a.begin(p, held, s)
		if before == nil {
			a.note(event.Debug, "held", p)
			go a.watch(p)
			return nil
		}
		if err := before.end(ctx, held, tries); err != nil {
			_ = held.Unlock()
			return err
		}
	}
}

// begin notes that a place has its lock. It notes nothing, and returns another place, if that one has the lock of another
// session of the agent.
func (a *Agent) begin(p *place, held *locks.Held, s *session) *place {
	a.mutex.Lock()
	defer a.mutex.Unlock()
	if other := a.holders[p.name]; other != nil && other.session != s && !isClosed(other.ended) {
		return other
	}
	p.held, p.session, p.state, p.since = held, s, holding, time.Now()
	a.holders[p.name] = p
	return nil
}

// end waits until the lock of a place was given back. It fails with ErrHeld if the request only tries, and with ErrLapsed if it
// loses what it was given itself.
func (p *place) end(ctx context.Context, held *locks.Held, tries bool) error {
	if tries {
		return fmt.Errorf("%s: %w", p.name, locks.ErrHeld)
	}
	select {
	case <-p.ended:
		return nil
	case <-held.Lost():
		return locks.ErrLapsed
	case <-ctx.Done():
		return ctx.Err()
	}
}

// watch notes that a client has to stop, and gives its lock back a TTL later at the latest. Who reads nothing holds its stream
// up, but not this.
func (a *Agent) watch(p *place) {
	select {
	case <-p.held.Lost(): // an unlock closes it, too
	case <-p.idles:
	case <-a.closing:
	case <-p.ended:
	}
	why := a.whyLost(p)
	if why == "" {
		return
	}
	a.lose(p, why)
	select {
	case <-p.ended:
	case <-time.After(p.session.ttl()):
		a.unlock(p, "")
	}
}

// whyLost returns why a client has to stop that did not give its lock back, "" if it did.
func (a *Agent) whyLost(p *place) string {
	switch {
	case p.freed.Load():
		return ""
	case p.session.Err() != nil:
		return sessionEnded
	case isClosed(p.held.Lost()):
		return leaseEnded
	case isClosed(p.idles):
		return clientIdle
	case isClosed(a.closing):
		return agentEnds
	}
	return ""
}

// lose notes, once, that a client has to stop: its lock may be somebody else's.
func (a *Agent) lose(p *place, why string) {
	a.mutex.Lock()
	isFirst := p.why == ""
	if isFirst {
		p.state, p.since, p.why = losing, time.Now(), why
		close(p.lost)
	}
	a.mutex.Unlock()
	if isFirst {
		a.lost.Add(1)
		a.note(event.Warning, "lost", p, "why", why)
	}
}

// unlock gives a lock back, once, and returns whether it may have been lost before. Unless it is "", why is what its client
// hears that did not ask for it.
func (a *Agent) unlock(p *place, why string) (isLost bool) {
	a.mutex.Lock()
	held := p.held
	a.mutex.Unlock()
	if held == nil {
		return false
	}
	p.once.Do(func() {
		if why != "" {
			a.lose(p, why)
		}
		p.freed.Store(true)
		if p.isLost = held.Unlock() != nil; p.isLost {
			a.lose(p, leaseEnded)
		}
		a.note(event.Debug, "unlocked", p)
		close(p.ended)
	})
	return p.isLost
}

// note logs an event of a place.
func (a *Agent) note(level event.Level, name string, p *place, pairs ...interface{}) {
	pairs = append([]interface{}{"lock", p.name, "id", p.id, "pid", p.peer.Pid, "uid", p.peer.UID, "user", p.peer.User}, pairs...)
	a.config.Log.Write(level, name, pairs...)
}

// listed is a place as the list shows it.
type listed struct {
	Lock  string `json:"lock"`
	State state  `json:"state"`
	ID    string `json:"id,omitempty"` // of one that has the lock
	For   int64  `json:"for_ms"`       // in this state
	Left  int64  `json:"left_ms"`
	peer
	number uint64
}

// list returns what the clients hold or wait for: of one lock, or of all if the name is "". Who waits comes in the order of
// the queue.
func (a *Agent) list(name string) []listed {
	all := []listed{}
	a.mutex.Lock()
	defer a.mutex.Unlock()
	for _, p := range a.places {
		if name != "" && p.name != name {
			continue
		}
		one := listed{Lock: p.name, State: p.state, For: time.Since(p.since).Milliseconds(), peer: p.peer, number: p.number}
		if p.held != nil {
			one.ID, one.Left = p.id, p.held.Left().Milliseconds()
		}
		all = append(all, one)
	}
	sort.Slice(all, func(i, j int) bool {
		if all[i].Lock != all[j].Lock {
			return all[i].Lock < all[j].Lock
		} else if isFirst := all[i].State != waiting; isFirst != (all[j].State != waiting) {
			return isFirst
		}
		return all[i].number < all[j].number
	})
	return all
}

// sizes returns how many places there are of each state.
func (a *Agent) sizes() map[state]int {
	a.mutex.Lock()
	defer a.mutex.Unlock()
	sizes := map[state]int{waiting: 0, holding: 0, losing: 0}
	for _, p := range a.places {
		sizes[p.state]++
	}
	return sizes
}

// heldHere returns why a client that tries does not get a lock, with who of this host has it.
func (a *Agent) heldHere(name string, why error) error {
	a.mutex.Lock()
	defer a.mutex.Unlock()
	p := a.holders[name]
	if p == nil || isClosed(p.ended) || holderOf(why) != nil {
		return why
	}
	host, _ := os.Hostname()
	since := p.since.UTC().Truncate(time.Millisecond)
	return &heldHere{why, view.Holder{Lock: name, Held: true, Host: host, Pid: p.peer.Pid, Login: p.peer.login(), Note: p.note, Since: &since}}
}

// The errors of a DELETE.
var (
	errUnknown = errors.New("nobody has a lock by this id")
	errOther   = errors.New("the lock is another user's")
)

// giveBack gives back the lock with an id, for its user or root. Whoever has it may still work, and hears that it is lost.
func (a *Agent) giveBack(name, id string, from peer) error {
	a.mutex.Lock()
	p := a.places[id]
	if p == nil || p.name != name || p.held == nil {
		a.mutex.Unlock()
		return errUnknown
	}
	a.mutex.Unlock()
	if from.UID == nobody || from.UID != p.peer.UID && from.UID != 0 {
		return errOther
	}
	if a.unlock(p, givenBack) {
		return locks.ErrLapsed
	}
	return nil
}
