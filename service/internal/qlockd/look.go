package qlockd

// Who has which lock of the cluster, as voters say, whichever host he is on. What clients of this agent have is in place.go.

import (
	"context"
	"errors"
	"fmt"
	"net/http"
	"net/url"
	"time"

	"calvundek.example/service/internal/view"
	"calvundek.example/service/internal/wire"
	"calvundek.example/service/locks"
	"calvundek.example/service/transport"
)

// askFor is for how long voters may take to reply if nobody says.
const askFor = 3 * time.Second

// looked is a request that asks voters.
type looked struct {
	prefix string
	wait   time.Duration // for a quorum of them
}

// readLooked reads a request that asks voters. A word that nothing reads is refused.
func readLooked(r *http.Request, hasPrefix bool) (looked, error) {
	of := looked{wait: askFor}
	query, err := url.ParseQuery(r.URL.RawQuery)
	if err != nil {
		return of, fmt.Errorf("%w: %v", errRequest, err)
	}
	for key, values := range query {
		switch value := values[len(values)-1]; {
		case key == "wait":
			if of.wait, err = readTime(key, value); err != nil {
				return of, err
			}
		case key == "prefix" && hasPrefix:
			of.prefix = value
		default:
			return of, fmt.Errorf("%w: there is no %q", errRequest, key)
		}
	}
	return of, nil
}

// asker returns a session to ask voters by: that of the agent, or one without a number while there is none. So who asks hears who has a lock
// also while all numbers are in use.
func (a *Agent) asker(ctx context.Context) (*session, error) {
	if _, why, _ := a.current(); errors.Is(why, transport.ErrRefused) {
		return a.session(ctx, false)
	}
	a.looking.Lock()
	defer a.looking.Unlock()
	if s, _, _ := a.current(); s != nil {
		return s, nil
	}
	if isClosed(a.closing) {
		return nil, errClosing
	}
	if a.looks == nil || a.looks.Err() != nil {
		s, err := a.openedBy(func() (*locks.Client, error) { return locks.Look(a.config.Locks) })
		if err != nil {
			return nil, noSession(err)
		}
		a.looks = s
	}
	return a.looks, nil
}

// looksNoMore closes the session that only looks, if there is one.
func (a *Agent) looksNoMore() {
	a.looking.Lock()
	defer a.looking.Unlock()
	if a.looks != nil {
		go a.looks.Close(context.Background()) // it has nothing to give back
	}
	a.looks = nil
}

// asks lets a session ask voters. If the session ends meanwhile the next one asks.
func (a *Agent) asks(ctx context.Context, name string, ask func(s *session) error) error {
	if name != "" && !wire.IsName([]byte(name)) {
		return fmt.Errorf("%w: %q", locks.ErrName, name)
	}
	for {
		s, err := a.asker(ctx)
		if err != nil {
			return err
		}
		if err = ask(s); err == nil || s.Err() == nil || ctx.Err() != nil {
			return err
		}
	}
}

// who asks who has a lock.
func (a *Agent) who(ctx context.Context, name string) (holder locks.Holder, err error) {
	if name == "" {
		return holder, fmt.Errorf("%w: %q", locks.ErrName, name)
	}
	err = a.asks(ctx, name, func(s *session) error {
		holder, err = s.Who(ctx, name)
		return err
	})
	return holder, err
}

// listAll asks for the locks of which the name begins with a prefix, and that somebody has or waits for.
func (a *Agent) listAll(ctx context.Context, prefix string) (rows []view.Holder, err error) {
	err = a.asks(ctx, prefix, func(s *session) error {
		rows = []view.Holder{}
		return s.List(ctx, prefix, func(lock string, holder locks.Holder) error {
			rows = append(rows, view.Of(lock, holder))
			return nil
		})
	})
	return rows, err
}

// limited calls a function that asks voters with a context that ends with a connection, the time that they have, or the agent.
func (a *Agent) limited(connection context.Context, wait time.Duration, ask func(ctx context.Context) error) error {
	ctx, cancel := a.within(connection, wait)
	defer cancel()
	err := ask(ctx)
	if ended := a.hasEnded(connection); err != nil && ended != nil {
		return ended
	}
	return err
}

// answerWho answers who has a lock.
func (a *Agent) answerWho(w http.ResponseWriter, r *http.Request, name string) {
	of, err := readLooked(r, false)
	var holder locks.Holder
	if err == nil {
		err = a.limited(r.Context(), of.wait, func(ctx context.Context) (err error) {
			holder, err = a.who(ctx, name)
			return err
		})
	}
	if err != nil {
		a.refuse(w, err)
		return
	}
	answer(w, view.Of(name, holder))
}

// answerAll answers which locks of the cluster somebody has or waits for.
func (a *Agent) answerAll(w http.ResponseWriter, r *http.Request) {
	of, err := readLooked(r, true)
	var rows []view.Holder
	if err == nil {
		err = a.limited(r.Context(), of.wait, func(ctx context.Context) (err error) {
			rows, err = a.listAll(ctx, of.prefix)
			return err
		})
	}
	if err != nil {
		a.refuse(w, err)
		return
	}
	answer(w, map[string][]view.Holder{"locks": rows})
}

// watched is a lock that clients watch. The agent watches it once for all of them.
type watched struct {
	clients int
	stop    context.CancelFunc
	changes uint64        // how many it saw
	holder  locks.Holder  // by the last one
	changed chan struct{} // closed with the next one
}

// watchToo notes that one client more watches a lock, and how many changes came before.
func (a *Agent) watchToo(name string) (w *watched, before uint64) {
	a.mutex.Lock()
	defer a.mutex.Unlock()
	if w = a.watched[name]; w == nil {
		ctx, stop := context.WithCancel(context.Background())
		w = &watched{stop: stop, changed: make(chan struct{})}
		a.watched[name] = w
		go a.follow(ctx, name, w)
	}
	w.clients++
	return w, w.changes
}

// watchNoMore notes that a client ended that watched a lock. With the last one the agent's watch ends.
func (a *Agent) watchNoMore(name string, w *watched) {
	a.mutex.Lock()
	defer a.mutex.Unlock()
	if w.clients--; w.clients == 0 {
		w.stop()
		delete(a.watched, name)
	}
}

// follow watches a lock until nobody of this agent does, by one session after the other.
func (a *Agent) follow(ctx context.Context, name string, w *watched) {
	for ctx.Err() == nil {
		err := a.asks(ctx, name, func(s *session) error {
			holders, err := s.Watch(ctx, name)
			if err != nil {
				return err
			}
			for holder := range holders {
				a.see(w, holder)
			}
			return s.Err()
		})
		if err != nil {
			sleep(ctx, pause)
		}
	}
}

// see notes who has a lock that is watched.
func (a *Agent) see(w *watched, holder locks.Holder) {
	a.mutex.Lock()
	defer a.mutex.Unlock()
	w.changes, w.holder = w.changes+1, holder
	close(w.changed)
	w.changed = make(chan struct{})
}

// newest returns who has a lock by the last change, how many came so far, and what is closed with the next one.
func (a *Agent) newest(w *watched) (locks.Holder, uint64, <-chan struct{}) {
	a.mutex.Lock()
	defer a.mutex.Unlock()
	return w.holder, w.changes, w.changed
}

// watchHolder writes a line for who has a lock, and another one after each change, until the connection or the agent ends. Who reads late
// gets the newest one.
func (a *Agent) watchHolder(w http.ResponseWriter, r *http.Request, name string) {
	connection, ignore := attend(r.Context())
	defer ignore()
	of, err := readLooked(r, false)
	var last locks.Holder
	if err == nil {
		err = a.limited(connection, of.wait, func(ctx context.Context) (err error) {
			last, err = a.who(ctx, name)
			return err
		})
	}
	if err != nil {
		a.refuse(w, err)
		return
	}
	say := linesTo(w)
	lock, before := a.watchToo(name)
	defer a.watchNoMore(name, lock)
	for says := say(view.Of(name, last)); says; {
		holder, changes, changed := a.newest(lock)
		if changes > before && !holder.IsSame(last) {
			last, says = holder, say(view.Of(name, holder))
			continue
		}
		select {
		case <-changed:
		case <-connection.Done():
			return
		case <-a.closing:
			return
		}
	}
}

// hasEnded returns why who asks gets no answer any more, nil if he may get one.
func (a *Agent) hasEnded(connection context.Context) error {
	switch {
	case connection.Err() != nil:
		return errGone
	case isClosed(a.closing):
		return errClosing
	}
	return nil
}

// heldHere is the error of who tries to take a lock that another client of this agent has. errors.Is finds ErrHeld.
type heldHere struct {
	why    error
	holder view.Holder
}

func (h *heldHere) Error() string { return h.why.Error() }
func (h *heldHere) Unwrap() error { return h.why }

// holderOf returns who has a lock that was tried: as a voter said, or a client of this agent. It returns nil if that is not known.
func holderOf(err error) *view.Holder {
	var by *locks.HeldBy
	var here *heldHere
	switch {
	case errors.As(err, &by):
		holder := view.Of(by.Lock, by.Holder)
		return &holder
	case errors.As(err, &here):
		return &here.holder
	}
	return nil
}
