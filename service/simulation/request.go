package simulation

import (
	"bytes"
	"fmt"
	"time"

	"calvundek.example/service/internal/remind"
	"calvundek.example/service/internal/wire"
	"calvundek.example/service/qlock"
)

// request returns a line by which a client asks for a vote, under a stamp above all others. Nobody sends it.
func request(voter, client int) []byte {
	return []byte(fmt.Sprintf("request %d %d %d", client, voter, uint64(qlock.MaxStamp)))
}

// lock is one lock, as a client sees it, and the part of its program that wants it from time to time.
type lock struct {
	*qlock.LockClient // nil until the session is open and the program wants it
	*witness
	client *client
	above  uint64  // the stamps of its requests are above this one
	wants  bool    // the program waits for it
	since  instant // when it began to
	served bool    // it got it since the faults stopped
	held   *held   // the program has it
	timer  remind.Timer
	asked  time.Duration
	shown  qlock.Shown
}

// held is a lock that a program has.
type held struct {
	*lock
	quorum  uint64
	stamp   uint64
	pass    []byte
	isOut   bool
	isLost  bool          // Lost is closed
	lostAt  time.Duration // when its lease ended, by the client's clock
	wasLast bool          // a guard admitted it
	turning turning
}

// works returns whether the program works: it is inside, and its lease by its own clock, with the time to stop, has not ended.
func (h *held) works(t instant) bool {
	if h.isOut {
		return false
	}
	if h.Wrong.GoesOn {
		return true
	}
	ends := h.lostAt
	if !h.isLost {
		ends = h.leaseEnds()
	}
	return h.client.clock.shows(t) < ends+stopOf(h.ttl)
}

// leaseEnds returns until when the lock lasts if no voter is heard any more, by the client's clock.
func (h *held) leaseEnds() time.Duration { return h.Until(&h.client.leases) }

// think lets the program want the lock after a while.
func (l *lock) think() {
	c := l.client
	most := c.incidents.thinks
	if l.isRare {
		most = 90 * time.Second // it is forgotten meanwhile
	}
	if c.healed > 0 {
		most = 50 * time.Millisecond
	}
	c.atShown(c.shows()+time.Millisecond+c.upTo(most), func() {
		if c.draining || l.wants || l.held != nil {
			return
		}
		l.want()
		if c.healed == 0 && c.random.Intn(20) == 0 { // it gives up after a while
			since := l.since
			c.atShown(c.shows()+c.upTo(c.ttl), func() {
				if l.wants && l.since == since {
					l.unwant()
					l.pump()
					l.think()
				}
			})
		}
		l.pump()
	})
}

// want lets the program wait for the lock, and unwant lets it wait no more.
func (l *lock) want() {
	l.wants, l.since = true, l.client.now
	if l.LockClient != nil {
		l.Wants(false)
	}
}

func (l *lock) unwant() {
	if l.wants && l.LockClient != nil {
		l.Unwants(false)
	}
	l.wants = false
}

// begins lets the program work for a while, and give the lock back.
func (h *held) begins() {
	c := h.client
	stays := c.upTo(c.incidents.stays)
	if c.incidents.longStays > 0 && c.random.Intn(c.incidents.longStays) == 0 {
		stays = c.ttl + c.upTo(3*c.ttl)
	}
	if c.healed > 0 {
		stays = c.upTo(20 * time.Millisecond)
	}
	h.witness.shows(h)
	if c.random.Intn(4) == 0 {
		h.wantsTurn()
	}
	if c.random.Intn(2) == 0 {
		c.atShown(c.shows()+c.upTo(stays), func() { h.write() })
	}
	c.atShown(c.shows()+stays, func() {
		if h.isLost && !h.Wrong.GoesOn || h.isOut {
			return // it stops by itself, or is over
		}
		h.write()
		h.ends()
	})
}

// endsSoon lets the program give the lock back, however long it wanted to stay.
func (h *held) endsSoon() {
	h.client.atShown(h.client.shows()+h.client.upTo(50*time.Millisecond), func() {
		if !h.isOut {
			h.ends()
		}
	})
}

// write shows the pass. A program that lost the lock, and did not notice, does so too.
func (h *held) write() {
	if !h.isOut {
		h.witness.shows(h)
	}
}

// lose closes Lost. The program stops soon.
func (h *held) lose() {
	if !h.Loses() {
		return
	}
	c := h.client
	h.lostAt = c.shows()
	if ends := h.leaseEnds(); ends < h.lostAt {
		h.lostAt = ends // no later reply brings the lease back
	}
	h.isLost = true
	c.Lost++
	c.log("client %d may have lost %s (stamp %d)", c.id, h.name, h.stamp)
	if h.Wrong.GoesOn {
		return
	}
	stops := c.upTo(stopOf(c.ttl))
	if c.random.Intn(2) == 0 {
		stops = stopOf(c.ttl) - time.Millisecond
	}
	c.atShown(c.shows()+stops, func() {
		if !h.isOut {
			h.ends()
		}
	})
}

// ends gives the lock back.
func (h *held) ends() {
	l, c := h.lock, h.client
	c.lapse()
	l.held = nil
	h.isOut = true
	h.witness.leaves(h)
	c.Passes++
	c.log("client %d leaves %s (stamp %d)", c.id, h.name, h.stamp)
	if c.random.Intn(20) == 0 { // somebody goes on with the pass, who did not hear that the lock is given back
		c.in(c.upTo(3*c.ttl), func() { h.witness.shows(h) })
	}
	l.Unlocks(h.stamp)
	l.pump() // it leaves
	l.pump()
	l.think()
}

// isOver ends what a session has.
func (l *lock) isOver() {
	if h := l.held; h != nil {
		h.isOut = true
		h.witness.leaves(h)
		l.client.in(l.client.upTo(3*l.client.ttl), func() { h.witness.shows(h) }) // what it sent before may be late
	}
	l.LockClient, l.held, l.wants, l.shown, l.timer = nil, nil, false, qlock.Shown{}, remind.Timer{}
}

// isBusy returns whether the lock is asked for, held or wanted.
func (l *lock) isBusy() bool { return l.shown.Phase != qlock.Idle || l.wants }

// pump does what a lock needs next.
func (l *lock) pump() {
	c := l.client
	if c.stage == isOpen && l.isThere() {
		switch l.Next(&c.leases, c.shows()) {
		case qlock.Ask:
			l.ask()
		case qlock.GiveUp:
			l.giveUp()
		case qlock.Leave:
			l.leave() // the next round asks anew, after its heartbeat
		case qlock.Hand:
			l.hand()
		}
	}
	if c.draining && !c.isBusy() && c.idle == 0 {
		c.heartbeat()
	}
}

// isThere begins the lock if the program wants it, above all stamps of the session's number. It returns whether it is there.
func (l *lock) isThere() bool {
	if l.LockClient != nil || !l.wants {
		return l.LockClient != nil
	}
	c := l.client
	client, err := qlock.NewLockClient(uint8(c.header.Number), c.used)
	if err != nil {
		l.violated("client", "client %d begins no lock: %v", c.id, err)
		return false
	}
	l.LockClient, l.above = client, c.used
	return l.Wants(false) == qlock.CallTaken
}

// hand gives the lock to the program.
func (l *lock) hand() {
	c := l.client
	pass, err := l.Pass()
	if err != nil {
		l.violated("client", "client %d is inside %s without a pass: %v", c.id, l.name, err)
		return
	}
	if l.Hand(&c.leases, c.shows()) == 0 {
		return
	}
	wait := time.Duration(c.now - l.since)
	if c.healed > 0 {
		if l.served = true; l.since < c.calmed {
			wait = time.Duration(c.now - c.calmed)
		}
		if wait > c.Longest {
			c.Longest = wait
		}
	}
	l.wants = false
	l.held = &held{lock: l, quorum: l.shown.Quorum, stamp: l.shown.Stamp, pass: pass}
	c.log("client %d has %s (stamp %d, voters %b)", c.id, l.name, l.shown.Stamp, l.shown.Quorum)
	l.enters(l.held)
	l.held.begins()
}

// ask starts a request, if a quorum may be asked under its stamp. If not, it reserves more.
func (l *lock) ask() {
	c := l.client
	before := *l.LockClient
	quorum := c.nextQuorum(c.avoided())
	stamp, lines, err := l.begin(quorum)
	if err == nil && !c.mayAsk(quorum, stamp) {
		*l.LockClient = before
		quorum = c.nextQuorum(c.avoided() | ^c.owners(stamp))
		stamp, lines, err = l.begin(quorum)
	}
	switch {
	case err != nil:
		l.violated("client", "client %d does not ask: %v", c.id, err)
	case !c.mayAsk(quorum, stamp):
		*l.LockClient = before
		c.reserve(stamp)
	default:
		c.ticket++
		l.asked = c.shows()
		l.send(lines)
		c.use(stamp)
	}
}

// begin begins a request under a stamp above all bases.
func (l *lock) begin(quorum uint64) (stamp uint64, lines []byte, err error) {
	before := *l.LockClient
	if stamp, lines, err = l.tries(quorum); err != nil || stamp > l.client.floor() {
		return stamp, lines, err
	}
	*l.LockClient = before
	if err := l.Raise(l.client.floor()); err != nil {
		return 0, nil, err
	}
	return l.tries(quorum)
}

func (l *lock) tries(quorum uint64) (stamp uint64, lines []byte, err error) {
	if lines, err = l.Ask(quorum, l.client.room[:0]); err != nil {
		return 0, nil, err
	}
	l.client.room = lines
	return l.Shows().Stamp, lines, nil
}

// nextQuorum returns the quorum of the next ticket that has none of these voters, or that of the next one.
func (c *client) nextQuorum(avoided uint64) uint64 {
	c.ticket, _ = c.cluster.Planned.Next(c.ticket, avoided, 0) // voters have room for each lock
	return c.cluster.Planned.Quorums[c.ticket]
}

func (l *lock) leave() {
	if lines, err := l.Leave(l.client.room[:0]); err == nil {
		l.client.room = lines
		l.send(lines)
	}
}

func (l *lock) giveUp() {
	if lines, err := l.GiveUp(l.client.room[:0]); err == nil {
		l.client.room = lines
		l.send(lines)
	}
}

// askAgain gives a request up, and asks anew if the program still wants the lock.
func (l *lock) askAgain() {
	l.giveUp()
	l.pump()
}

// send puts lines with those that leave, and notes what the client is doing now.
func (l *lock) send(lines []byte) {
	c := l.client
	for len(lines) > 0 {
		end := bytes.IndexByte(lines, '\n') + 1
		if said := wire.ReadLine(lines[:end]); said.To >= 0 && said.To < len(c.peers) {
			out := append(append(append(c.out[said.To], l.name...), ' '), lines[:end-1]...)
			if string(said.Word) == "request" && l.shown.Phase == qlock.Inside {
				out = append(out, " inside"...)
			}
			c.out[said.To] = append(out, '\n')
		}
		lines = lines[end:]
	}
	l.looks()
}

// looks looks at what a client is doing, and notes what there is to remind of.
func (l *lock) looks() {
	shown, now := l.Shows(), dateOf(l.client.shows())
	if shown.Phase != l.shown.Phase {
		l.timer.Of(0, now)
	}
	l.shown = shown
	switch shown.Phase {
	case qlock.Asking:
		l.timer.First, l.timer.Most = 100*time.Millisecond, 2*time.Second
	case qlock.Inside:
		l.timer.First, l.timer.Most = l.ttl/4, l.ttl
	default:
		l.timer.Of(0, now)
		return
	}
	l.timer.Of(shown.Stamp, now)
}

// find returns a lock of the client by its name, nil if it never asked for it.
func (c *client) find(name string) *lock {
	for _, l := range c.locks {
		if l.name == name && l.LockClient != nil {
			return l
		}
	}
	return nil
}

// take takes a line of a voter.
func (c *client) take(v int, name string, line []byte) {
	l := c.find(name)
	if l == nil {
		return
	}
	if said := wire.ReadLine(line); string(said.Word) == "locked" && said.Stamp > greatest(l.above, l.shown.Stamp) {
		c.violated("protocol", "voter %d gives client %d its vote for no request: %s", v, c.id, line)
		return
	}
	lines, _, err := l.Take(&c.leases, c.peers[v].said, c.shows(), line, c.room[:0])
	if err != nil {
		return
	}
	c.room = lines
	l.send(lines)
	l.pump()
}

// gone notes that a voter let a request go.
func (c *client) gone(name string, stamp uint64) {
	if l := c.find(name); l != nil && l.shown.Stamp == stamp && l.shown.Phase != qlock.Idle {
		l.spoil()
	}
}

// spoil ends a request of which a vote may be somebody else's.
func (l *lock) spoil() {
	switch l.Spoiled() {
	case qlock.Lose:
		l.held.lose()
	case qlock.GiveUp:
		l.askAgain()
	case qlock.Leave:
		l.leave()
		l.pump()
	}
}

// lapse ends the requests that have a vote of a voter which may have let it go.
func (c *client) lapse() {
	for _, l := range c.locks {
		if l.LockClient != nil && l.IsDoubtful(&c.leases, c.shows()) {
			l.spoil()
		}
	}
}

// look closes Lost of what may be lost, as the goroutine does that looks after leases.
func (c *client) look() {
	for _, l := range c.locks {
		if l.held != nil && l.held.leaseEnds() <= c.shows() {
			l.held.lose()
		}
	}
}

// waitsFor returns whether a request waits for one of these voters, and others would do.
func (l *lock) waitsFor(silent uint64) bool {
	return l.shown.Phase == qlock.Asking && l.client.cluster.Planned.WaitsFor(l.waiting(), silent, 0)
}

// isStuck returns whether it does so for longer than the fail-over time.
func (l *lock) isStuck(silent uint64) bool {
	c := l.client
	return l.shown.Phase == qlock.Asking && c.cluster.Planned.IsStuck(l.waiting(), silent, 0, late, uint64(c.over))
}

func (l *lock) waiting() qlock.Waiting {
	return qlock.Waiting{Quorum: l.shown.Quorum, Votes: l.Votes(), Asked: l.client.since(l.asked)}
}

// remind repeats the requests that wait for a vote, or shows that the holder is there.
func (l *lock) remind() {
	again := l.Remind
	if l.shown.Phase == qlock.Inside {
		if l.held != nil && l.held.isLost {
			return
		}
		again = l.Renew
	}
	if lines, err := again(l.client.room[:0]); err == nil {
		l.client.room = lines
		l.send(lines)
	}
}
