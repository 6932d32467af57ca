package locks

// The sessions of a process's shards go round in a few loops, each session in one of them.
//
// A session has no goroutine and no ticker of its own. What comes to it waits in its mailbox, and so do calls. The loop takes the sessions
// for which something waits, one after the other, and those of which time asks something, each 25 ms at most. Nothing in a turn waits, so
// no session holds up another one.

import (
	"runtime"
	"sync"
	"time"

	"calvundek.example/service/qlock"
	"calvundek.example/service/transport"
)

const (
	mostLoops   = 4
	mostWaiting = 1 << 8  // messages in the mailbox of a session
	roomWaiting = 1 << 20 // bytes of these
	restsFor    = 10      // pauses from one look of a loop at the clock to the next, at most
)

// desk is what a session needs for a turn. Nothing of it is left afterwards, so all sessions of a loop have one.
type desk struct {
	out     [qlock.MaxVoters][]byte // lines that leave at the end of this turn of the loop, by voter
	sent    [qlock.MaxVoters]int    // lines of control besides those of the session, in this turn, by voter
	mayWait bool                    // these may wait a moment for those of other sessions: a heartbeat that was due, and nothing urgent
	room    []byte
}

// mailbox has what waits for a session of a shard. Whoever opens the session takes it, and then its loop does.
type mailbox struct {
	mutex    sync.Mutex
	messages []transport.Message
	bytes    int
	calls    []call
	grown    chan struct{} // says that something waits to whoever opens the session
	lists    func()        // says so to the loop, nil before the session is open
	isListed bool          // the loop knows it
	isOver   bool          // nobody takes anything any more
	place    int           // of the session on the roll of the process, -1 if it has none (beats.go)
}

// call is a function that a loop runs.
type call struct {
	f    func() error
	done chan error
}

func newMailbox() *mailbox { return &mailbox{place: -1, grown: make(chan struct{}, 1)} }

// put puts a message behind the others, and returns whether there was room.
func (m *mailbox) put(message transport.Message) bool {
	m.mutex.Lock()
	defer m.mutex.Unlock()
	if m.isOver || len(m.messages) == mostWaiting || m.bytes+len(message.Data) > roomWaiting && m.bytes > 0 {
		return false
	}
	m.messages = append(m.messages, message)
	m.bytes += len(message.Data)
	m.says()
	return true
}

// asks puts a call behind the others, if somebody takes it.
func (m *mailbox) asks(f func() error) (done <-chan error, taken bool) {
	m.mutex.Lock()
	defer m.mutex.Unlock()
	if m.isOver {
		return nil, false
	}
	one := call{f, make(chan error, 1)}
	m.calls = append(m.calls, one)
	m.says()
	return one.done, true
}

// says says once that something waits.
func (m *mailbox) says() {
	switch {
	case m.isListed:
	case m.lists != nil:
		m.isListed = true
		m.lists()
	default:
		select {
		case m.grown <- struct{}{}:
		default:
		}
	}
}

// take takes all that waits.
func (m *mailbox) take() (messages []transport.Message, calls []call) {
	m.mutex.Lock()
	defer m.mutex.Unlock()
	messages, calls = m.messages, m.calls
	m.messages, m.bytes, m.calls, m.isListed = nil, 0, nil, false
	return messages, calls
}

// isOpen lets a loop take from now on what waits.
func (m *mailbox) isOpen(lists func()) {
	m.mutex.Lock()
	defer m.mutex.Unlock()
	m.lists, m.grown = lists, nil
	m.says()
}

// ends takes nothing any more, and returns the calls that wait.
func (m *mailbox) ends() []call {
	m.mutex.Lock()
	defer m.mutex.Unlock()
	m.isOver = true
	return m.calls
}

// grown says to whoever opens a session of a shard that something waits. Other clients have none.
func (c *Client) grown() <-chan struct{} {
	if c.box == nil {
		return nil
	}
	return c.box.grown
}

// takesWaiting takes what waits for a session of a shard.
func (c *Client) takesWaiting() {
	messages, calls := c.box.take()
	for i := 0; i < len(messages) && c.why == nil; i++ {
		c.message(messages[i])
	}
	for _, one := range calls {
		if c.why != nil {
			one.done <- c.why
		} else {
			one.done <- one.f()
		}
	}
}

// later lets the loop run a function.
func (c *Client) later(f func()) {
	if c.box == nil {
		c.read <- f
		return
	}
	_, _ = c.box.asks(func() error { f(); return nil })
}

// loop lets sessions take their turns. It has a goroutine while it has a session.
type loop struct {
	desk   desk
	hasGap bool      // found at the last look at the clock (Client.hasGap)
	next   time.Time // when time asks something of a session next, as far as the loop knows

	mutex   sync.Mutex
	grown   chan struct{} // says that something waits for a session
	waiting []*Client     // for which something waits
	members []member
	goes    bool
}

// member is a session of a loop.
type member struct {
	session *Client
	due     time.Time // when time asks for something
}

// countLoops returns how many loops the sessions of a process have.
func countLoops() int {
	if n := runtime.GOMAXPROCS(0); n < mostLoops {
		return n
	}
	return mostLoops
}

func newLoop() *loop { return &loop{grown: make(chan struct{}, 1)} }

// adds takes a session that was opened. What it made so far has left.
func (l *loop) adds(c *Client) {
	c.loop, c.desk = l, &l.desk
	l.mutex.Lock()
	c.place = len(l.members)
	l.members = append(l.members, member{session: c})
	if !l.goes {
		l.goes = true
		go l.run()
	}
	l.mutex.Unlock()
	c.box.isOpen(func() { l.list(c) })
}

// list notes that something waits for a session.
func (l *loop) list(c *Client) {
	l.mutex.Lock()
	defer l.mutex.Unlock()
	l.waiting = append(l.waiting, c)
	select {
	case l.grown <- struct{}{}:
	default:
	}
}

// listed returns the sessions for which something waits.
func (l *loop) listed() (sessions []*Client) {
	l.mutex.Lock()
	defer l.mutex.Unlock()
	sessions, l.waiting = l.waiting, nil
	return sessions
}

// look returns the sessions of which time asks something now, all of them after a gap. Without any session the loop ends.
func (l *loop) look(now time.Time, clock *gaps) (sessions []*Client, goesOn bool) {
	l.mutex.Lock()
	defer l.mutex.Unlock()
	if l.goes = len(l.members) > 0; !l.goes {
		return nil, false
	}
	l.hasGap, l.next = clock.found(now, l.members[0].session), time.Time{}
	for _, m := range l.members {
		if l.hasGap || !now.Before(m.due) {
			sessions = append(sessions, m.session)
		} else {
			l.next = earlier(l.next, m.due)
		}
	}
	return sessions, true
}

// nextLook returns when the loop looks again after a look: when time asks something, after a pause at least, and soon enough for gaps.
func (l *loop) nextLook(looked time.Time) time.Time {
	next := earlier(l.next, looked.Add(restsFor*pause))
	if first := looked.Add(pause); next.Before(first) {
		return first
	}
	return next
}

// run lets the sessions take their turns until there is none.
func (l *loop) run() {
	timer, looked, wakes := time.NewTimer(pause), time.Now(), time.Time{}
	defer timer.Stop()
	for clock := (gaps{}); ; {
		select {
		case <-l.grown:
			for _, c := range l.listed() {
				l.turn(c, c.takesWaiting)
			}
		case <-timer.C: // also one that was set before, and is early now
			looked, wakes = time.Now(), time.Time{}
			sessions, goesOn := l.look(looked, &clock)
			if !goesOn {
				return // another goroutine may have the loop by now
			}
			for _, c := range sessions {
				l.turn(c, func() { c.tick(looked) })
			}
		}
		if next := l.nextLook(looked); next != wakes {
			wakes = next
			timer.Reset(time.Until(next))
		}
	}
}

// turn lets a session do something, and sends what that made.
func (l *loop) turn(c *Client, does func()) {
	if c.place < 0 {
		return // it ended in an earlier turn
	}
	does()
	c.flush()
	if c.why != nil {
		l.removes(c)
		return
	}
	due := c.nextRound(time.Now())
	l.next = earlier(l.next, due)
	l.mutex.Lock()
	defer l.mutex.Unlock()
	l.members[c.place].due = due
}

// removes ends a session that is over.
func (l *loop) removes(c *Client) {
	l.mutex.Lock()
	last := len(l.members) - 1
	l.members[c.place] = l.members[last]
	l.members[c.place].session.place = c.place
	l.members[last], l.members, c.place = member{}, l.members[:last], -1
	l.mutex.Unlock()
	for _, one := range c.box.ends() {
		one.done <- c.why
	}
	close(c.stopped)
	c.atEnd()
}

// nextRound returns when time asks something of a session next. That is at once if it wants something, and else with its next heartbeat or
// reminder, or when a lock may be lost, a voter is silent, or the number is given back.
func (c *Client) nextRound(now time.Time) time.Time {
	if c.draining || c.renewed != 0 || len(c.turns) > 0 || c.holds < len(c.busy) || c.isDue(now) {
		return now
	}
	next := earlier(c.nextBeat(now), c.nextSilence(now))
	if len(c.busy) == 0 {
		return earlier(next, c.keepsUntil(now))
	}
	up := uptime()
	for l := range c.busy {
		next = earlier(next, l.timer.Due())
		if !l.held.isTold {
			left := time.Duration(l.held.until.Load()) - up
			if late := c.lateFrom(); left > late {
				left -= late
			}
			next = earlier(next, now.Add(left))
		}
	}
	return next
}

// nextSilence returns when it shows next that a voter is silent, or is not any more.
func (c *Client) nextSilence(now time.Time) (next time.Time) {
	for v := range c.peers {
		silent := c.peers[v].heard.Add(time.Duration(c.silence()))
		if isMissed := c.missed>>v&1 == 1; isMissed != silent.Before(now) {
			return now
		} else if !isMissed {
			next = earlier(next, silent)
		}
	}
	return next
}

// earlier returns the first of two times, of which one that is zero never comes.
func earlier(a, b time.Time) time.Time {
	if a.IsZero() || !b.IsZero() && b.Before(a) {
		return b
	}
	return a
}
