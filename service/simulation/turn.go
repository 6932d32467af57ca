package simulation

import (
	"encoding/binary"
	"time"

	"calvundek.example/service/internal/wire"
	"calvundek.example/service/qlock"
)

// asksAgain is how long a client waits for voters that did not say a turn.
const asksAgain = 100 * time.Millisecond

// turning is how far a client is with the turn of a lock that it has, as in package locks (turn.go).
type turning struct {
	turn    uint64 // 0 if nobody wants it
	grants  [qlock.MaxVoters]uint64
	awaited uint64 // the voters that did not say it yet
}

// wantsTurn begins to ask for the turn: the greatest of the grants.
func (h *held) wantsTurn() {
	t := &h.turning
	for v := range t.grants {
		if t.grants[v] = binary.LittleEndian.Uint64(h.pass[8*v:]); t.grants[v] > 0 {
			t.awaited |= 1 << v
			t.turn = greatest(t.turn, t.grants[v])
		}
	}
	h.asksForTurn()
}

// asksForTurn asks the voters that did not say the turn yet.
func (h *held) asksForTurn() {
	c, t := h.client, &h.turning
	if h.isOut || h.isLost || t.awaited == 0 {
		return
	}
	for v := range c.peers {
		if t.awaited>>v&1 == 1 {
			ask := wire.Ask{Kind: wire.WantsTurn, Lock: h.name, Number: h.stamp, Grant: t.grants[v], Top: t.turn}
			c.out[v] = ask.Append(c.out[v])
		}
	}
	c.atShown(c.shows()+asksAgain, h.asksForTurn)
}

// turned takes it that a voter skipped the numbers up to a turn.
func (c *client) turned(v int, told wire.Told) {
	for _, l := range c.locks {
		h := l.held
		if h == nil || h.name != told.Lock || h.stamp != told.Stamp {
			continue
		}
		t := &h.turning
		if t.turn != told.Top || t.awaited>>v&1 == 0 {
			continue
		}
		if t.awaited &^= 1 << v; t.awaited == 0 {
			h.witness.hasTurn(h, told.Top)
		}
	}
}

// hasTurn notes the turn of who has a lock. While he works it is greater than all before.
func (l *witness) hasTurn(h *held, turn uint64) {
	if !h.works(l.now) {
		return
	}
	l.log("client %d has turn %d of %s (stamp %d)", h.client.id, turn, l.name, h.stamp)
	if l.Turns++; turn <= l.highest {
		l.violated("turns", "client %d has turn %d of %s under stamp %d, after turn %d",
			h.client.id, turn, l.name, h.stamp, l.highest)
	}
	l.highest = turn
}
