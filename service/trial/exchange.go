package main

import (
	"errors"
	"fmt"
	"time"
)

var errExchange = errors.New("a plan is not exchanged")

// exchanged is what the plan's exchanges are counted as, and repeated the orders that had to be given again.
const (
	exchanged = "plans exchanged and retired"
	repeated  = "orders of an exchange given again"
)

// orderFor is for how long the order that begins an exchange is given again.
const orderFor = 20 * time.Second

// mover exchanges the plan of a trial and back, one step for each burst of incidents; if everything
// is to happen at once, again and again. Voters that only the new coterie has come and go.
type mover struct {
	*player
	coteries []string // of the exchanges that are still to be made
	retires  bool     // the next step is to retire the old plan
}

func newMover(p *player) *mover {
	m := &mover{player: p}
	m.plan()
	return m
}

// plan notes that the plan is to be exchanged and back.
func (m *mover) plan() {
	if m.options.exchange != "" {
		m.coteries = []string{m.options.exchange, m.options.Coterie}
	}
}

// begin begins the next step while all is calm, and leaves the rest to a goroutine that goes on during the burst.
func (m *mover) begin() error {
	if m.options.everything && len(m.coteries) == 0 && !m.retires {
		m.plan() // and once more
	}
	switch {
	case m.retires && len(m.coteries) > 0 && m.random.Intn(2) == 0:
		return m.hurry()
	case m.retires:
		m.retires = false
		m.insist(m.retire)
	case len(m.coteries) > 0:
		_ = m.cluster.Retire() // once more, as operators are told: a voter that was away did not hear of it
		return m.exchange()
	}
	return nil
}

func (m *mover) retire() error {
	err := m.cluster.Retire()
	if err == nil {
		m.witness.note("plan", "retire")
		m.note(exchanged)
	}
	return err
}

// hurry ends a session, retires the old plan, and begins the next exchange, all within a TTL.
func (m *mover) hurry() error {
	m.evict("evict")
	if err := m.order(m.retire); err != nil {
		return nil // somebody has a request of the old plan: later
	}
	m.retires = false
	return m.exchange()
}

// exchange begins an exchange.
func (m *mover) exchange() error {
	coterie := m.coteries[0]
	m.witness.note("plan", "exchange")
	if err := m.order(func() error { return m.cluster.Exchange(coterie) }); err != nil {
		return err
	}
	m.coteries, m.retires = m.coteries[1:], true
	m.insist(func() error { return m.cluster.Install(coterie) })
	return nil
}

// dismiss ends the voters that no plan has any more, once all exchanges are made.
func (m *mover) dismiss() {
	if m.options.exchange != "" && len(m.coteries) == 0 && !m.retires {
		m.cluster.Dismiss()
	}
}

// order gives an order again until it succeeds, as operators are told to do. It waits a second for replies, and on a busy disk
// the saves before them can take longer. How often it was given again is counted.
func (m *mover) order(give func() error) error {
	err := give()
	for end := time.Now().Add(orderFor); err != nil && time.Now().Before(end); err = give() {
		m.note(repeated)
		time.Sleep(200 * time.Millisecond)
	}
	return err
}

// insist does something again until it succeeds: voters are killed meanwhile.
func (m *mover) insist(do func() error) {
	m.back.Add(1)
	go func() {
		defer m.back.Done()
		var err error
		for end := time.Now().Add(2 * time.Minute); time.Now().Before(end) && m.failed() == nil; time.Sleep(200 * time.Millisecond) {
			if err = do(); err == nil {
				return
			}
		}
		m.fail(fmt.Errorf("%w: %v", errExchange, err))
	}()
}

// note counts something that happened.
func (p *player) note(what string) {
	p.mutex.Lock()
	defer p.mutex.Unlock()
	p.counts[what]++
}
