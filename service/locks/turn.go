package locks

import (
	"context"
	"encoding/binary"
	"fmt"
	"time"

	"calvundek.example/service/internal/wire"
	"calvundek.example/service/qlock"
)

// turning is a call of Held.Turn that waits for the voters of the lock's quorum.
type turning struct {
	turn    uint64
	grants  map[int]uint64    // the number of each voter's grant
	awaited map[int]time.Time // when a voter was asked last, of those that did not reply
	callers int               // how many calls wait
	over    chan struct{}
	why     error
}

// Turn returns the lock's turn: one number, for a place that can compare one number and keeps no guard, as a version or an ETag. Of two
// holders of a lock that ask for it the later one gets the greater turn: that is proved of grants by voters that lose no state, also over
// exchanges, of voters that settle each plan (qlockctl retire). The same lock always gets the same turn. A place that refuses what shows a
// smaller turn than it saw before refuses who came late, as a guard does; both have to compare and write in one step.
//
// It takes one trip to the voters of the quorum, and a save at each. It fails with ErrLapsed if the lock may have been lost, with
// ErrNotHeld if it was given back, and with ErrNoQuorum if some voter did not reply until the context ended. Voters of older programs never
// reply.
func (h *Held) Turn(ctx context.Context) (uint64, error) {
	var t *turning
	err := h.client.call(func() error {
		var why error
		t, why = h.client.wantTurn(h)
		return why
	})
	if err != nil {
		return 0, err
	}
	select {
	case <-t.over:
		return t.turn, t.why
	case <-h.client.ended:
		return 0, h.client.why
	case <-ctx.Done():
		_ = h.client.call(func() error { // if it fails nothing is asked any more
			h.client.leaveTurn(h, t)
			return nil
		})
		if t.isOver() {
			return t.turn, t.why
		}
		return 0, h.client.explained(fmt.Errorf("%s: %w", h.lock.name, because{ErrNoQuorum, ctx.Err()}))
	}
}

// grants returns the number of each voter's grant in the lock's pass.
func (h *Held) grants() map[int]uint64 {
	grants := map[int]uint64{}
	for voter := 0; voter < qlock.MaxVoters; voter++ {
		if grant := binary.LittleEndian.Uint64(h.token[8*voter:]); grant > 0 {
			grants[voter] = grant
		}
	}
	return grants
}

// wantTurn returns the call that waits for a lock's turn. There is one for all calls, also for those that come later.
func (c *Client) wantTurn(h *Held) (*turning, error) {
	if why := h.hasNoTurn(); why != nil {
		return nil, why
	}
	if h.turning == nil {
		h.turning = &turning{grants: h.grants(), awaited: map[int]time.Time{}, over: make(chan struct{})}
		for voter, grant := range h.turning.grants {
			h.turning.awaited[voter] = time.Time{}
			if grant > h.turning.turn {
				h.turning.turn = grant
			}
		}
	}
	if !h.turning.isOver() {
		h.turning.callers++
		c.turns[h] = true
	}
	return h.turning, nil
}

// hasNoTurn returns why there is no turn of a lock any more, nil if there is.
func (h *Held) hasNoTurn() error {
	switch {
	case h.lock.held != h:
		return fmt.Errorf("%s: %w", h.lock.name, ErrNotHeld)
	case h.over.Load():
		return fmt.Errorf("%s: %w", h.lock.name, ErrLapsed)
	}
	return nil
}

// leaveTurn ends one call that waits. For the last one the voters are asked no more; what they said stays.
func (c *Client) leaveTurn(h *Held, t *turning) {
	if t.callers--; t.callers == 0 {
		delete(c.turns, h)
	}
}

// isOver returns whether all voters replied, or it failed.
func (t *turning) isOver() bool {
	select {
	case <-t.over:
		return true
	default:
		return false
	}
}

// end ends a call.
func (t *turning) end(why error) {
	if t.why = why; why != nil {
		t.turn = 0
	}
	close(t.over)
}

// sendTurns asks the voters again that did not reply, and ends the calls that are over.
func (c *Client) sendTurns(now time.Time) {
	for h := range c.turns {
		if why := h.hasNoTurn(); why != nil || len(h.turning.awaited) == 0 {
			h.turning.end(why)
			delete(c.turns, h)
			continue
		}
		c.askForTurn(h, now)
	}
}

// askForTurn asks the voters that did not reply, those for which this turn of the loop has room.
func (c *Client) askForTurn(h *Held, now time.Time) {
	for voter, asked := range h.turning.awaited {
		if now.Sub(asked) < repeatAsk || voter >= len(c.peers) || !c.hasRoom(voter, 1) {
			continue
		}
		h.turning.awaited[voter] = now
		ask := wire.Ask{Kind: wire.WantsTurn, Lock: h.lock.name, Number: h.stamp, Grant: h.turning.grants[voter], Top: h.turning.turn}
		c.out[voter] = ask.Append(c.out[voter])
		c.mayWait = false
	}
}

// hearTurned takes it that a voter skipped numbers for a lock.
func (c *Client) hearTurned(voter int, told wire.Told) {
	l := c.locks[told.Lock]
	if l == nil || l.held == nil || !c.turns[l.held] || l.held.stamp != told.Stamp || l.held.turning.turn != told.Top {
		return
	}
	delete(l.held.turning.awaited, voter)
}
