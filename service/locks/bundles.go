package locks

// One message in place of many, between a process and a voter.
//
// The sessions of a process beat at the same times, and what they say then to a voter leaves in one bundle (wire). What a voter says to them
// in one turn comes in one, too, to a mailbox of the process. Both are so only once that voter said that it reads bundles, and until it is
// started again: it may be of an older program then, and gets messages as before. A bundle changes nothing of its messages. These may be
// lost, late and out of order in any case.
//
// Sending may take long, so nothing is sent under the mutex, and one goroutine holds up no other. What a session says in a turn leaves in that
// turn, by its own loop. Only a heartbeat that waits may leave by another goroutine, and come after what the session said later. A voter replies
// to a heartbeat with its count, so it does not matter when that comes. Nor does it of beats.

import (
	"sync"
	"time"

	"calvundek.example/service/internal/wire"
	"calvundek.example/service/qlock"
	"calvundek.example/service/transport"
)

// mostHeld is for how long a heartbeat waits for those of other sessions: each goes round once in that time.
const mostHeld = 40 * time.Millisecond

// bundles has what leaves to voters, for all sessions of a process.
type bundles struct {
	cluster string    // its name
	process string    // the name of the process's mailbox
	began   time.Time // heartbeats leave at whole pauses since then
	carrier transport.Transport
	mutex   sync.Mutex
	to      [qlock.MaxVoters]leaving
	places  places // of the roll of the process (beats.go)
	beats   uint64 // how many left
	letters []letter
}

// letter is a message that leaves once the mutex is free.
type letter struct {
	box     string
	message []byte
}

// posts lets a message leave once the mutex is free.
func (b *bundles) posts(box string, message []byte) {
	b.letters = append(b.letters, letter{box, message})
}

// unlock frees the mutex, and then sends what leaves. A reminder repeats what is lost.
func (b *bundles) unlock() {
	letters := b.letters
	b.letters = nil
	b.mutex.Unlock()
	for _, one := range letters {
		_ = b.carrier.Send(one.box, one.message)
	}
}

// leaving is what waits for the other sessions' heartbeats, to one voter.
type leaving struct {
	wire.Bundle
	box    string
	reader voterStart // the voter, as it said that it reads bundles: the empty one if it did not since it started
	waits  bool       // it leaves after a moment
	beat   *beat      // leaves with it, nil if no session joined one
	sent   []*beat    // those that left last
}

// reads returns whether a voter said that it reads bundles since this start. That of a voter that was not heard yet is empty.
func (to *leaving) reads(since voterStart) bool { return since.identity != "" && to.reader == since }

// reads returns whether a voter said to a session of the process that it reads bundles since this start.
func (b *bundles) reads(voter int, since voterStart) bool {
	b.mutex.Lock()
	defer b.mutex.Unlock()
	return b.to[voter].reads(since)
}

// readsNow notes that a voter reads bundles since this start.
func (b *bundles) readsNow(voter int, since voterStart) {
	b.mutex.Lock()
	defer b.mutex.Unlock()
	b.to[voter].reader = since
}

// heard notes that a session heard a voter of this start for the first time. If the voter said before another start that it reads bundles,
// that counts no more, and what waits for it leaves one by one.
func (b *bundles) heard(voter int, since voterStart) {
	b.mutex.Lock()
	defer b.unlock()
	to := &b.to[voter]
	if to.reads(since) {
		return
	}
	to.beat, to.sent = nil, nil // their sessions send heartbeats
	if to.reader = (voterStart{}); to.Count() > 0 {
		wire.Messages(to.Take(), func(message []byte) { b.posts(to.box, message) })
	}
}

// send sends a message to a voter, of a session that knows it by this start. One that may wait goes with those of other sessions, a moment
// later. One that may not takes those along that wait. To a voter that did not say since then that it reads bundles each goes alone.
func (b *bundles) send(voter int, since voterStart, box string, message []byte, mayWait bool) {
	b.mutex.Lock()
	defer b.unlock()
	to := &b.to[voter]
	if !to.reads(since) || !mayWait && to.Count() == 0 {
		b.posts(box, message)
		return
	}
	if !to.HasRoom(message) {
		b.leave(to)
	}
	to.box = box
	if to.Add(message); mayWait {
		b.leaveLater(to)
	} else {
		b.leave(to)
	}
}

// leaveLater sends what waits for one voter after a moment.
func (b *bundles) leaveLater(to *leaving) {
	if to.waits {
		return
	}
	to.waits = true
	time.AfterFunc(mostHeld, func() {
		b.mutex.Lock()
		defer b.unlock()
		to.waits = false
		b.leave(to)
	})
}

// leave lets leave what waits for one voter.
func (b *bundles) leave(to *leaving) {
	if b.takeBeat(to); to.Count() > 0 {
		b.posts(to.box, to.Take())
	}
}

// isDue returns whether it is time for a heartbeat. Those of all sessions of a process are due at the same times, so that they go into one
// bundle.
func (c *Client) isDue(now time.Time) bool {
	pause := c.pause()
	if c.bundles == nil {
		return now.Sub(c.beat) >= pause
	}
	return now.Sub(c.bundles.began)/pause != c.beat.Sub(c.bundles.began)/pause
}

// nextBeat returns when it may be time for the next heartbeat.
func (c *Client) nextBeat(now time.Time) time.Time {
	pause := c.pause()
	if c.bundles == nil {
		return c.beat.Add(pause)
	}
	return now.Add(pause - now.Sub(c.bundles.began)%pause)
}

// post sends a message to a voter.
func (c *Client) post(voter int, message []byte) {
	box := wire.VoterBox(c.cluster.ID, voter, c.user)
	if c.bundles == nil {
		_ = c.carrier.Send(box, message) // a reminder repeats what is lost
		return
	}
	c.bundles.send(voter, c.peers[voter].voterStart, box, message, c.mayWait)
}

// sayProcess says of which process the session is, with a heartbeat, to a voter that has its number and did not say that it reads bundles.
// One of an older program never does: it hears less and less of it.
func (c *Client) sayProcess(voter int) {
	p := &c.peers[voter]
	if c.bundles == nil || !p.accepts || p.bundles && c.bundles.reads(voter, p.voterStart) {
		return
	}
	if p.processes++; p.processes&(p.processes-1) == 0 { // the first time, the second, the fourth..
		c.out[voter] = wire.Ask{Kind: wire.SaysProcess, Text: c.bundles.process}.Append(c.out[voter])
	}
}

// hearBundles notes that a voter reads bundles.
func (c *Client) hearBundles(voter int) {
	if c.bundles != nil {
		c.peers[voter].bundles = true
		c.bundles.readsNow(voter, c.peers[voter].voterStart)
	}
}

// forgetBundles notes that a voter may read none: the session did not hear this start of it before.
func (c *Client) forgetBundles(voter int) {
	p := &c.peers[voter]
	c.forgetRoll(voter)
	if p.bundles, p.processes, p.refuses = false, 0, false; c.bundles != nil {
		c.bundles.heard(voter, p.voterStart)
	}
}

// unbundle puts the messages of a bundle into the mailboxes of the sessions to which they are.
func (s *shards) unbundle(m transport.Message) {
	wire.Messages(m.Data, func(message []byte) {
		session := ""
		if _, lines, err := wire.Read(message); err == nil {
			session, _ = wire.Addressee(lines)
		}
		one := transport.Message{Mailbox: m.Mailbox, Data: message}
		if session != "" || !s.hearBeat(one) {
			s.pass(session, one)
		}
	})
}

// pass puts a message into the mailbox of a session.
func (s *shards) pass(session string, m transport.Message) {
	s.mutex.Lock()
	to := s.boxes[session]
	s.mutex.Unlock()
	s.put(to, m)
}

// put puts a message into a mailbox. What is to none, or finds no room, is lost, and counted.
func (s *shards) put(to *mailbox, m transport.Message) {
	if to == nil || !to.put(m) {
		s.mutex.Lock()
		defer s.mutex.Unlock()
		s.past.Refused++
	}
}

// listens begins to take what comes to a session, also in bundles, and lets it send bundles.
func (s *shards) listens(session *Client) error {
	box := newMailbox()
	if s.bundles != nil {
		box.place = s.bundles.takePlace()
	}
	leave, err := transport.Pass(session.carrier, session.boxes(), func(m transport.Message) { s.put(box, m) })
	if err != nil {
		return err
	}
	session.bundles, session.box, session.leaveBox = s.bundles, box, leave
	s.mutex.Lock()
	defer s.mutex.Unlock()
	s.boxes[session.header.Name] = box
	return nil
}

// leaves ends the mailbox of a session.
func (s *shards) leaves(session *Client) {
	session.leaveBox()
	s.mutex.Lock()
	defer s.mutex.Unlock()
	if session.bundles != nil {
		session.bundles.givePlaceBack(session.box.place)
	}
	delete(s.boxes, session.header.Name)
	s.end()
}

// stops notes that the client has ended. Its sessions may go on for a while.
func (s *shards) stops() {
	s.mutex.Lock()
	defer s.mutex.Unlock()
	s.isStopped = true
	s.end()
}

// end ends the mailbox of the process, if nobody is left who takes what comes there.
func (s *shards) end() {
	if s.isStopped && len(s.boxes) == 0 && !s.isOver {
		s.isOver = true
		close(s.over)
	}
}
