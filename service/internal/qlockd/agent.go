// Package qlockd is the agent of a host: one session of the lock service, which many processes share over a Unix socket, by
// HTTP and JSON. A lock lasts as long as the connection that asked for it, so a process that dies gives its locks back.
package qlockd

import (
	"context"
	"errors"
	"fmt"
	"net"
	"net/http"
	"sync"
	"sync/atomic"
	"time"

	"calvundek.example/service/internal/bounded"
	"calvundek.example/service/internal/config"
	"calvundek.example/service/internal/event"
	"calvundek.example/service/internal/wire"
	"calvundek.example/service/locks"
	"calvundek.example/service/transport"
	"github.com/prometheus/client_golang/prometheus"
)

// How long the agent tries to open a session before it says that it has none, waits until it tries again, at first and at
// most, and waits for votes to be given back as it ends, or for a request.
const (
	trial     = 10 * time.Second
	pause     = 500 * time.Millisecond
	mostPause = 10 * time.Second
	brief     = 5 * time.Second
)

// errNoSession is returned while no quorum of voters gave the agent a number.
var errNoSession = errors.New("the agent has no session")

// Config is how the agent reaches its cluster, and where it logs.
type Config struct {
	Locks       locks.Config
	Log         *event.Log
	Connections int64 // how many there may be at once, any number if 0; of one user of the host three times as many as are left
}

// Agent has one session at a time, and the places of its clients.
type Agent struct {
	config      Config
	registry    *prometheus.Registry
	counts      counts
	connections bounded.Connections
	lost        atomic.Uint64 // locks that were lost while a client had them
	begun       atomic.Uint64 // sessions
	closing     chan struct{} // closed when the agent ends
	handlers    sync.WaitGroup

	mutex   sync.Mutex
	isOver  bool
	now     *session // nil while there is none
	why     error    // why there is none
	changed chan struct{}
	looking sync.Mutex // for whoever opens or closes looks
	looks   *session   // asks voters while there is no session, nil if nobody asked, and once there is one
	places  map[string]*place
	holders map[string]*place // by the names of locks: who has it, or had it last
	watched map[string]*watched
	last    uint64 // of the places so far
}

// session is a session of the lock service, and its cluster as it began.
type session struct {
	*locks.Client
	cluster *config.Cluster
	since   time.Time
}

// ttl returns the TTL of the cluster.
func (s *session) ttl() time.Duration { return s.cluster.TTL.Duration }

// shows returns what the log says of the session: its number, unless it has one in each shard.
func (s *session) shows() []interface{} {
	if number := s.Number(); number >= 0 {
		return []interface{}{"number", number}
	}
	return nil
}

// New returns an agent that has no session yet.
func New(c Config) *Agent {
	a := &Agent{config: c, closing: make(chan struct{}), changed: make(chan struct{}), places: map[string]*place{}, holders: map[string]*place{},
		watched: map[string]*watched{},
		why:     errors.New("it has just started, and waits for voters")}
	a.registry = a.newRegistry()
	return a
}

// Serve answers what comes to a socket until the context ends. Then it tells who has a lock, and waits for them for a TTL.
func (a *Agent) Serve(ctx context.Context, listener net.Listener) error {
	server := bounded.Server(readsFirst(a.handler(), a.refuse))
	server.ConnContext = withCaller
	failed := make(chan error, 1)
	go func() { failed <- server.Serve(a.bounded(listener, a.config.Connections, &a.connections)) }()
	sessions, stop := context.WithCancel(context.Background())
	ended := make(chan struct{})
	go func() { a.haveSessions(sessions); close(ended) }()
	var err error
	select {
	case err = <-failed:
	case <-ctx.Done():
	}
	a.drain()
	stop()
	<-ended
	a.looksNoMore()
	_ = server.Close()
	return err
}

// Show answers /metrics and /healthz at an address, for those who can't connect to the socket, until the context ends.
func (a *Agent) Show(ctx context.Context, address string) error {
	listener, err := net.Listen("tcp", address)
	if err != nil {
		return err
	}
	mux := http.NewServeMux()
	a.show(mux)
	server := bounded.Shows(mux)
	go a.keepsShowing(server, listener)
	go func() { <-ctx.Done(); _ = server.Close() }()
	return nil
}

// keepsShowing answers what comes to a listener until the server is closed.
func (a *Agent) keepsShowing(server *http.Server, listener net.Listener) {
	if err := server.Serve(a.bounded(listener, bounded.MostShown, new(bounded.Connections))); !errors.Is(err, http.ErrServerClosed) {
		a.config.Log.Write(event.Error, "metrics-failed", "why", err)
	}
}

// bounded returns a listener with so many connections at most.
func (a *Agent) bounded(listener net.Listener, most int64, now *bounded.Connections) bounded.Listener {
	return bounded.Listener{Listener: listener, Most: most, Now: now, UserOf: userOf, Refused: func() { a.counts.add("connections") }}
}

// drain lets nobody in any more, and waits until all locks are given back. Who has one may go on for a TTL.
func (a *Agent) drain() {
	a.mutex.Lock()
	a.isOver = true
	close(a.closing)
	most := pause
	if a.now != nil {
		most += a.now.ttl()
	}
	a.mutex.Unlock()
	empty := make(chan struct{})
	go func() { a.handlers.Wait(); close(empty) }()
	select {
	case <-empty:
	case <-time.After(most):
	}
}

// haveSessions has one session after the other until the context ends.
func (a *Agent) haveSessions(ctx context.Context) {
	for wait := pause; ctx.Err() == nil; {
		s, err := a.open(ctx)
		a.change(s, err)
		if ctx.Err() != nil && err != nil {
			return
		} else if err != nil {
			a.config.Log.Write(event.Warning, "no-session", "why", err)
			sleep(ctx, wait)
			if wait *= 2; wait > mostPause {
				wait = mostPause
			}
			continue
		}
		wait = pause
		a.config.Log.Write(event.Info, "session", s.shows()...)
		select {
		case <-s.Done():
			a.config.Log.Write(event.Warning, "session-over", append(s.shows(), "why", s.Err())...)
			a.change(nil, s.Err())
		case <-ctx.Done():
			last, cancel := context.WithTimeout(context.Background(), brief)
			if err := s.Close(last); err != nil {
				a.config.Log.Write(event.Warning, "left-to-ttl", "why", err)
			}
			cancel()
		}
	}
}

// open opens a session. It reads the cluster's file again: the plan may have been exchanged.
func (a *Agent) open(ctx context.Context) (*session, error) {
	limit, cancel := context.WithTimeout(ctx, trial)
	defer cancel()
	s, err := a.openedBy(func() (*locks.Client, error) { return locks.Open(limit, a.config.Locks) })
	if err == nil {
		a.begun.Add(1)
	}
	return s, err
}

// openedBy returns the session that a function opens, and its cluster.
func (a *Agent) openedBy(open func() (*locks.Client, error)) (*session, error) {
	cluster, err := config.ReadCluster(a.config.Locks.Cluster)
	if err != nil {
		return nil, err
	}
	client, err := open()
	if err != nil {
		return nil, err
	}
	return &session{client, cluster, time.Now()}, nil
}

// change notes which session there is, or why there is none.
func (a *Agent) change(s *session, why error) {
	a.mutex.Lock()
	a.now, a.why = s, why
	close(a.changed)
	a.changed = make(chan struct{})
	a.mutex.Unlock()
	if s != nil {
		a.looksNoMore()
	}
}

// current returns the session that there is, or why there is none.
func (a *Agent) current() (s *session, why error, changed <-chan struct{}) {
	a.mutex.Lock()
	defer a.mutex.Unlock()
	if a.now != nil && a.now.Err() != nil {
		return nil, a.now.Err(), a.changed
	}
	return a.now, a.why, a.changed
}

// session waits until there is a session, or the context ends. Who only tries does not wait while all numbers are in use.
func (a *Agent) session(ctx context.Context, tries bool) (*session, error) {
	for {
		s, why, changed := a.current()
		if s != nil {
			return s, nil
		}
		if tries && errors.Is(why, locks.ErrNumbers) {
			return nil, noSession(why)
		}
		select {
		case <-changed:
		case <-ctx.Done():
			return nil, noSession(why)
		}
	}
}

// noSession returns why there is no session: errNoSession, unless there is a word of its own for that.
func noSession(why error) error {
	for _, known := range []error{locks.ErrNumbers, transport.ErrRefused} {
		if errors.Is(why, known) {
			return fmt.Errorf("the agent has no session: %w", why)
		}
	}
	return fmt.Errorf("%w: %v", errNoSession, why)
}

// take takes a lock for a place. If the session ends meanwhile it asks anew in the next one.
func (a *Agent) take(ctx context.Context, p *place, asked asked) (*session, error) {
	if !wire.IsName([]byte(asked.name)) {
		return nil, fmt.Errorf("%w: %q", locks.ErrName, asked.name)
	}
	for {
		s, err := a.session(ctx, asked.tries)
		if err != nil {
			return nil, err
		}
		take := s.LockFor
		if asked.tries {
			take = s.TryLockFor
		}
		held, err := take(ctx, asked.name, asked.whom)
		if err == nil && asked.turns {
			p.turn, err = turnOf(ctx, held)
		}
		if err == nil {
			err = a.hold(ctx, p, held, s, asked.tries)
		}
		if again := s.Err() != nil || errors.Is(err, locks.ErrLapsed); err == nil || !again || ctx.Err() != nil {
			return s, err
		}
	}
}

// turnOf returns a lock's turn. If there is none it gives the lock back.
func turnOf(ctx context.Context, held *locks.Held) (uint64, error) {
	turn, err := held.Turn(ctx)
	if err != nil {
		_ = held.Unlock()
	}
	if errors.Is(err, locks.ErrNoQuorum) {
		err = errNoTurn
	}
	return turn, err
}

// sleep waits, at most until the context ends.
func sleep(ctx context.Context, d time.Duration) {
	select {
	case <-time.After(d):
	case <-ctx.Done():
	}
}
