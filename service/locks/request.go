package locks

import (
	"bytes"
	"fmt"
	"time"

	"calvundek.example/service/internal/remind"
	"calvundek.example/service/internal/wire"
	"calvundek.example/service/qlock"
	"calvundek.example/service/transport"
)

// mostIdle is how many locks that nobody wants are kept, of 6 KB each. A lock that comes back begins anew above all stamps that this
// session used.
const mostIdle = 256

// lock is one lock, as this client sees it. What it asks, which votes count, which call has it and what is next for the calls are calls of the
// proved library.
type lock struct {
	*qlock.LockClient
	name    string
	above   uint64    // the stamps of its requests are above this one
	queue   []*waiter // the calls that wait, first come, first served
	held    *Held     // the one that has it
	isAlone bool      // it is held, and nobody waits for it
	timer   remind.Timer
	asked   time.Time
	shown   qlock.Shown
	plan    uint64 // the number of the plan by which it asked last

	holder Holder // who has it, as a voter said to this request

	noRoom uint64 // the voters that had no room for it, and when one said so last
	saidAt time.Time
}

// waiter is a call of Lock that waits.
type waiter struct {
	got   chan *Held // closed if the call fails, and why says why
	why   error
	since time.Time
	tries bool   // it does not wait for who has the lock
	note  string // of the lock, "" for that of the session
}

// find returns a lock by its name. One that is new begins above all stamps of its number.
func (c *Client) find(name string) (*lock, error) {
	if l := c.locks[name]; l != nil {
		return l, nil
	}
	if len(c.locks) >= mostIdle+len(c.busy) {
		c.forget()
	}
	client, err := qlock.NewLockClient(uint8(c.header.Number), c.used)
	if err != nil {
		return nil, err
	}
	l := &lock{LockClient: client, name: name, above: c.used}
	if c.draining {
		l.Closes()
	}
	c.locks[name] = l
	return l, nil
}

// forget forgets the locks that nobody wants.
func (c *Client) forget() {
	for name, l := range c.locks {
		if _, busy := c.busy[l]; !busy {
			delete(c.locks, name)
		}
	}
}

// enqueue puts a call of Lock behind the others.
func (c *Client) enqueue(name string, w *waiter) error {
	if c.looks && !c.draining {
		return ErrLooks
	}
	l, err := c.find(name)
	if err != nil && c.draining {
		return ErrClosed
	}
	if err != nil {
		return err
	}
	switch l.Wants(w.tries) {
	case qlock.CallTaken:
	case qlock.CallClosed:
		return ErrClosed
	case qlock.CallHeld:
		return fmt.Errorf("%s: %w", name, ErrHeld)
	default:
		return fmt.Errorf("%s: too many calls wait", name)
	}
	c.wasUsed = true
	c.wake(time.Now())
	l.queue = append(l.queue, w)
	c.pump(l)
	return nil
}

// dequeue takes a call of Lock back. If it just got the lock, the lock goes back.
func (c *Client) dequeue(name string, w *waiter) {
	select {
	case held, open := <-w.got:
		if open {
			_ = c.unlock(held)
		}
		return
	default:
	}
	l := c.locks[name]
	if l == nil {
		return
	}
	for i, other := range l.queue {
		if other == w {
			l.queue = append(l.queue[:i:i], l.queue[i+1:]...)
			l.Unwants(w.tries)
			break
		}
	}
	c.pump(l)
}

// unlock gives a lock back. A holder that may have lost it hears so, also if no round noticed it yet.
func (c *Client) unlock(h *Held) error {
	l := h.lock
	if l.MayEnd(h.stamp) { // h does not have it under its request
		return ErrNotHeld
	}
	c.doubt(l)
	if !h.lapse() {
		c.lose(h)
	}
	var err error
	if _, wasLost := l.Unlocks(h.stamp); wasLost {
		err = ErrLapsed
	}
	l.held = nil
	c.watch.end(h)
	c.stats.Passes++
	c.pump(l) // it leaves
	if len(l.queue) > 0 {
		c.pump(l) // and asks for who waits
	}

	c.giveNumberBack(time.Now()) // who wants the lock again at once comes behind those that wait for a number
	return err
}

// lose closes Lost of a lock that is still held.
func (c *Client) lose(h *Held) {
	h.lapse()
	h.isTold = true
	if h.lock.Loses() {
		c.stats.Lost++
		c.note("lost", "lock=%s", h.lock.name)
	}
}

// pump does what a lock needs next.
func (c *Client) pump(l *lock) {
	switch c.nextOf(l) {
	case qlock.Ask:
		c.ask(l)
	case qlock.GiveUp:
		c.stats.GivenUp++
		c.giveUp(l)
	case qlock.Leave:
		c.leave(l) // the next round asks anew for who waits, after its heartbeat
	case qlock.Hand:
		c.hand(l)
	}
	c.noteHolds(l)
	if l.shown.Phase != qlock.Idle || len(l.queue) > 0 {
		c.busy[l] = struct{}{}
		return
	}
	if _, wasBusy := c.busy[l]; wasBusy && len(c.busy) == 1 {
		c.unused = time.Now()
	}
	delete(c.busy, l)
	if c.draining && len(c.busy) == 0 && c.idle == 0 {
		c.heartbeat(time.Now()) // the voters say at once that they have nothing of this session any more
	}
}

// noteHolds counts the locks that are held and that nobody waits for.
func (c *Client) noteHolds(l *lock) {
	before := l.isAlone
	l.isAlone = l.held != nil && l.shown.Phase == qlock.Inside && len(l.queue) == 0
	switch {
	case l.isAlone && !before:
		c.holds++
	case !l.isAlone && before:
		c.holds--
	}
}

// nextOf returns what is next for the calls of a lock. It is nothing for one that is asked for while somebody waits, as most LOCKEDs find it.
func (c *Client) nextOf(l *lock) qlock.Next {
	if l.shown.Phase == qlock.Asking && len(l.queue) > 0 {
		return qlock.Nothing
	}
	return l.Next(&c.leases, uptime())
}

// hand gives a lock that this client entered to the first who waits.
func (c *Client) hand(l *lock) {
	pass, err := l.Pass()
	if err != nil {
		c.refuse(l, fmt.Errorf("%s: %w", l.name, err))
		c.leave(l)
		return
	}
	until := l.Hand(&c.leases, uptime())
	if until == 0 {
		return
	}
	w := l.queue[0]
	l.queue = l.queue[1:]
	l.held = &Held{client: c, lock: l, quorum: l.shown.Quorum, stamp: l.shown.Stamp, token: pass, lost: make(chan struct{}),
		note: w.note, noteDue: map[int]due{}}
	l.held.until.Store(int64(until))
	c.watch.begin(l.held)
	c.waits.Observe(time.Since(w.since).Seconds())
	c.sayAboutToAll(l.held)
	w.got <- l.held
}

// refuse lets all calls fail that wait for a lock.
func (c *Client) refuse(l *lock, why error) {
	for _, w := range l.queue {
		w.why = why
		close(w.got)
	}
	l.queue = nil
	l.Empties()
}

// ask starts a request, if a quorum may be asked under its stamp. If not, it reserves more, and
// pump comes again. A lock that has no stamp left fails alone.
func (c *Client) ask(l *lock) {
	now, before := time.Now(), *l.LockClient
	full := c.without(l, now)
	quorum, found := c.nextQuorum(c.avoided(now), full)
	if !found {
		c.refuse(l, fmt.Errorf("%s: %w", l.name, ErrFull))
		return
	}
	stamp, lines, err := c.begins(l, quorum)
	if err == nil && !c.mayAsk(quorum, stamp) {
		*l.LockClient = before // these voters may lag behind others
		quorum, _ = c.nextQuorum(c.avoided(now)|^c.owners(stamp), full)
		stamp, lines, err = c.begins(l, quorum)
	}
	switch {
	case err != nil:
		*l.LockClient = before
		c.refuse(l, fmt.Errorf("%s: %w", l.name, err))
	case !c.mayAsk(quorum, stamp):
		*l.LockClient = before
		c.reserve(stamp, now)
	default:
		c.ticket++
		c.stats.Requests++
		l.asked, l.plan, l.holder = now, c.generation, Holder{}
		c.send(l, lines, now)
		c.use(stamp, now)
	}
}

// without returns the voters that had no room for a lock, in the last TTL.
func (c *Client) without(l *lock, now time.Time) uint64 {
	if now.Sub(l.saidAt) > c.cluster.TTL.Duration {
		l.noRoom = 0
	}
	return l.noRoom
}

// full notes that a voter has no room for a lock. It is asked for by another quorum, as long as
// there is one.
func (c *Client) full(voter int, name string, stamp uint64) {
	if l := c.locks[name]; l != nil && l.shown.Stamp == stamp && l.shown.Phase == qlock.Asking {
		l.noRoom, l.saidAt = l.noRoom|1<<voter, time.Now()
		c.askAgain(l)
	}
}

// begins begins a request of a lock, under a stamp above all bases, and returns the stamp and what
// to send.
func (c *Client) begins(l *lock, quorum uint64) (stamp uint64, lines []byte, err error) {
	before := *l.LockClient
	if stamp, lines, err = c.tries(l, quorum); err != nil || stamp > c.floor() {
		return stamp, lines, err
	}
	*l.LockClient = before
	if err := l.Raise(c.floor()); err != nil {
		return 0, nil, err
	}
	return c.tries(l, quorum)
}

// tries begins a request of a lock under its next stamp.
func (c *Client) tries(l *lock, quorum uint64) (stamp uint64, lines []byte, err error) {
	if lines, err = l.Ask(quorum, c.room[:0]); err != nil {
		return 0, nil, err
	}
	c.room = lines
	return l.Shows().Stamp, lines, nil
}

// nextQuorum returns the quorum of the next ticket that has none of these voters. If there is none it returns that of the next one without
// those that have no room, as the others may give a vote later, and if there is none of these either it returns false.
func (c *Client) nextQuorum(avoided, full uint64) (quorum uint64, found bool) {
	place, found := c.plan.Next(c.ticket, avoided, full)
	if !found {
		return 0, false
	}
	c.ticket = place
	return c.plan.Quorums[place], true
}

func (c *Client) leave(l *lock) {
	if lines, err := l.Leave(c.room[:0]); err == nil {
		c.room = lines
		c.send(l, lines, time.Now())
	}
}

func (c *Client) giveUp(l *lock) {
	if lines, err := l.GiveUp(c.room[:0]); err == nil {
		c.room = lines
		c.send(l, lines, time.Now())
	}
}

// askAgain gives a request up, and asks anew if somebody still wants the lock.
func (c *Client) askAgain(l *lock) {
	c.giveUp(l)
	c.pump(l)
}

// send puts lines with those that leave at the end of this turn, and notes what the client is doing now.
func (c *Client) send(l *lock, lines []byte, now time.Time) {
	c.mayWait = c.mayWait && len(lines) == 0
	for len(lines) > 0 {
		end := bytes.IndexByte(lines, '\n') + 1
		if said := wire.ReadLine(lines[:end]); said.To >= 0 && said.To < len(c.peers) {
			c.out[said.To] = append(append(append(c.out[said.To], l.name...), ' '), lines[:end-1]...)
			switch isRequest := string(said.Word) == "request"; {
			case isRequest && l.shown.Phase == qlock.Inside:
				c.out[said.To] = append(c.out[said.To], " inside"...)
			case isRequest && l.isTried():
				c.out[said.To] = append(c.out[said.To], " try"...)
			}
			c.out[said.To] = append(c.out[said.To], '\n')
		}
		lines = lines[end:]
	}
	c.look(l, now)
}

// longestRenewal is how long it is at most from one time to the next at which a holder says that it is inside. Heartbeats keep its votes. A
// voter that started hears it at once, and soon again.
const longestRenewal = 10 * time.Minute

// look looks at what a client is doing, and notes what there is to remind of: its request, or that it is inside.
func (c *Client) look(l *lock, now time.Time) {
	shown := l.Shows()
	if shown.Phase != l.shown.Phase {
		l.timer.Of(0, now)
	}
	l.shown = shown
	switch shown.Phase {
	case qlock.Asking:
		l.timer.First, l.timer.Most = 100*time.Millisecond, 2*time.Second
	case qlock.Inside:
		l.timer.First, l.timer.Most = c.cluster.TTL.Duration/4, longestRenewal
	default:
		l.timer.Of(0, now)
		return
	}
	l.timer.Of(shown.Stamp, now)
}

// take takes a line of a voter.
func (c *Client) take(voter int, name, line []byte) {
	l, err := c.find(string(name))
	if err != nil {
		c.stats.Refused++
		return
	}
	said := wire.ReadLine(line)
	if string(said.Word) == "locked" && said.Stamp > greatest(l.above, l.shown.Stamp) {
		c.stats.Refused++ // there was no such request: its RELEASE would end the votes of all requests up to this stamp
		return
	}
	if said.Stamp == l.shown.Stamp && string(said.Word) == "fail" && l.shown.Phase == qlock.Asking {
		defer c.refuseTries(l) // once the line is taken
	}
	lines, _, err := l.Take(&c.leases, c.peers[voter].said, uptime(), line, c.room[:0])
	if err != nil {
		c.stats.Refused++
		return
	}
	c.room = lines
	c.noteEnd(l)
	c.send(l, lines, time.Now())
	c.pump(l)
}

// longHeld is for how long somebody has a vote who is inside, as it seems: who asks at the same time gets it no later.
const longHeld = 250 * time.Millisecond

// isHeld notes that somebody else has had the vote of a voter for so many milliseconds.
func (c *Client) isHeld(name string, stamp, since uint64) {
	if l := c.locks[name]; l != nil && l.shown.Stamp == stamp && l.shown.Phase == qlock.Asking &&
		since >= uint64(longHeld.Milliseconds()) {
		c.refuseTries(l)
	}
}

// isTried returns whether a call that waits for a lock only tries to take it.
func (l *lock) isTried() bool {
	return len(l.queue) > 0 && l.queue[0].tries // it comes before all others
}

// refuseTries lets a call fail that only tries to take a lock which somebody else has. Others wait on.
func (c *Client) refuseTries(l *lock) {
	if !l.RefusesTries() {
		return
	}
	w := l.queue[0] // a call that only tries comes before all others
	l.queue = l.queue[1:]
	w.why = l.heldBy()
	close(w.got)
	c.pump(l)
}

// gone notes that a voter let a request go. Who is inside may have lost the lock; who asks does so anew.
func (c *Client) gone(name string, stamp uint64) {
	l := c.locks[name]
	if l == nil || l.shown.Stamp != stamp || l.shown.Phase == qlock.Idle {
		return
	}
	c.stats.LetGo++
	c.spoil(l)
}

// spoil does what is to be done if a vote may be somebody else's.
func (c *Client) spoil(l *lock) {
	switch l.Spoiled() {
	case qlock.Lose:
		c.lose(l.held)
	case qlock.GiveUp:
		c.askAgain(l)
	case qlock.Leave:
		c.leave(l)
		c.pump(l)
	}
}

// lapse ends the requests that have a vote of a voter which may have let it go. No vote of a lock that somebody has is in doubt before the
// time up to which he has it.
func (c *Client) lapse() {
	up := int64(uptime())
	for l := range c.busy {
		if l.held == nil || l.held.until.Load() <= up {
			c.doubt(l)
		}
	}
}

// doubt ends the request of a lock if it has a vote of a voter which may have let it go.
func (c *Client) doubt(l *lock) {
	if l.IsDoubtful(&c.leases, uptime()) {
		c.spoil(l)
	}
}

// noteEnds notes up to when holders have their locks, as voters acknowledged something since the last round.
func (c *Client) noteEnds() {
	for l := range c.busy {
		if l.shown.Quorum&c.renewed != 0 {
			c.noteEnd(l)
		}
	}
	c.renewed = 0
}

// noteEnd notes up to when the holder of a lock has it: the first end of the votes of its quorum.
func (c *Client) noteEnd(l *lock) {
	if l.held != nil {
		l.held.until.Store(int64(l.Until(&c.leases)))
	}
}

// round does what time asks for: heartbeats, reminders, and other quorums in place of those with a silent voter.
func (c *Client) round(now time.Time) {
	if c.looks {
		c.move(now)
		c.followPlans(now)
		return
	}
	if c.renewed != 0 {
		c.noteEnds()
	}
	c.hastens = c.isLate()
	switch hasGap := c.hasGap(now); {
	case hasGap:
		c.heartbeat(now)
	case c.isDue(now):
		c.mayWait = true
		c.show(now)
	default:
		c.lapse()
	}
	c.noteSilent(c.silent(now))
	if c.missed != 0 {
		c.move(now)
	}
	avoided := c.avoided(now)
	for l := range c.busy {
		switch {
		case l.shown.Phase == qlock.Idle:
			c.pump(l)
		case c.isStuck(l, avoided, now):
			c.stats.FailOvers++
			c.askAgain(l)
		case l.timer.IsDue(now):
			c.remind(l, now)
		}
	}
}

// noteSilent logs which voters have become silent, or came back.
func (c *Client) noteSilent(silent uint64) {
	names := c.names()
	for v := range c.peers {
		if bit := uint64(1) << v; (silent^c.missed)&bit != 0 && v < len(names) {
			event := "voter-back"
			if silent&bit != 0 {
				event = "voter-silent"
			}
			c.note(event, "voter=%s", names[v])
		}
	}
	c.missed = silent
}

// gaps is when a loop last looked at the clock, and how often the connection had come back by then.
type gaps struct {
	last time.Time
	back uint64
}

// hasGap returns whether voters may have let votes go that this client's clock knows nothing of:
// the machine was paused, so that only the time of day went on, or the connection came back. A
// heartbeat at once shows it. The loop of a session of a shard finds it for all of its sessions.
func (c *Client) hasGap(now time.Time) bool {
	if c.loop != nil {
		return c.loop.hasGap
	}
	return c.gaps.found(now, c)
}

// found returns whether there was a gap since the last look, for a client and all that have its connection.
func (g *gaps) found(now time.Time, c *Client) bool {
	last, back := g.last, g.back
	g.last = now
	if link, ok := c.carrier.(transport.Link); ok {
		g.back = link.Returns()
	}
	ofDay, here := now.Round(0).Sub(last.Round(0)), now.Sub(last)
	return !last.IsZero() && (g.back != back || ofDay-here > c.config.Heartbeat)
}

// isStuck returns whether a request waits for one of these voters for longer than the fail-over time, and others would do, which have room.
func (c *Client) isStuck(l *lock, avoided uint64, now time.Time) bool {
	return l.asks(avoided) && c.plan.IsStuck(c.waiting(l, now), avoided, c.without(l, now), late, uint64(c.config.FailOver))
}

// waitsFor returns whether a request waits for one of these voters, and others would do, which have room.
func (c *Client) waitsFor(l *lock, avoided uint64, now time.Time) bool {
	return l.asks(avoided) && c.plan.WaitsFor(c.waiting(l, now), avoided, c.without(l, now))
}

// asks returns whether a request asks one of these voters. If not, it waits for none of them.
func (l *lock) asks(voters uint64) bool {
	return l.shown.Phase == qlock.Asking && l.shown.Quorum&voters != 0
}

// waiting returns the request of a lock.
func (c *Client) waiting(l *lock, now time.Time) qlock.Waiting {
	return qlock.Waiting{Quorum: l.shown.Quorum, Votes: l.Votes(), Asked: since(l.asked, now)}
}

// remind repeats the requests that wait for a vote, or shows that the holder is there.
func (c *Client) remind(l *lock, now time.Time) {
	again := l.Remind
	if l.shown.Phase == qlock.Inside {
		if l.held != nil && l.held.over.Load() {
			return // a voter that forgot this request would grant it anew
		}
		again = l.Renew
	}
	if lines, err := again(c.room[:0]); err == nil {
		c.room = lines
		c.stats.Reminders++
		c.send(l, lines, now)
	}
}
