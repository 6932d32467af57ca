package locks

// One heartbeat of a process, a beat, in place of those of many sessions.
//
// A session that was acknowledged, and has nothing new to say, joins the beat of its process to a voter. Each session has a place on the
// roll of the process. The voter made an entry for it, and told it the number of that (package voter, beats.go). The beat names the places,
// and the sum of these numbers. The voter replies only if it heard all of them, and each is as it was when its entry was made. To each
// session that reply is what the voter said to its last heartbeat, with the count of the one that it left out. So the rest of a session knows
// nothing of beats.
//
// Where it is not so the voter says that, too (`unbeaten`), and these sessions send heartbeats of their own the next time. What it does not
// reply to was lost, or the voter is slow: then they join the next beat. So a voter that stood still for a while hears beats when it goes on,
// and not a heartbeat of each session. Voters of older programs say nothing where it is not so: what they do not acknowledge, each session
// sends itself the next time.

import (
	"sort"

	"calvundek.example/service/internal/wire"
	"calvundek.example/service/qlock"
	"calvundek.example/service/transport"
)

// mostBeats is how many beats to a voter may wait for their replies. Those before are forgotten.
const mostBeats = 8

// places are those of a process's roll. One that is free again is given out first.
type places struct {
	count int // how many were given out
	free  []int
}

// take returns a place that no session has, -1 if there is none.
func (p *places) take() (place int) {
	switch last := len(p.free) - 1; {
	case last >= 0:
		place, p.free = p.free[last], p.free[:last]
	case p.count == wire.MostRoll:
		return -1
	default:
		place = p.count
		p.count++
	}
	return place
}

// giveBack takes a place back.
func (p *places) giveBack(place int) {
	if place >= 0 {
		p.free = append(p.free, place)
	}
}

// takePlace returns a place that no session of the process has, -1 if there is none.
func (b *bundles) takePlace() int {
	b.mutex.Lock()
	defer b.mutex.Unlock()
	return b.places.take()
}

// givePlaceBack takes the place of a session back that is over.
func (b *bundles) givePlaceBack(place int) {
	b.mutex.Lock()
	defer b.mutex.Unlock()
	b.places.giveBack(place)
}

// joined is a session that joined a beat, and what the voter said to its last heartbeat, with the count of the one that it left out.
type joined struct {
	session string
	lapses  uint64
	opened  qlock.VoterSays
}

// share is what a beat says of the places that come one behind the other.
type share struct {
	mask, sum uint64
	sessions  []joined
}

// beat is one of a process to a voter, by the first places of its shares.
type beat struct {
	coterie string // the mark of the plan by which its sessions speak
	level   uint64
	count   uint64 // of the beats of the process, once it left
	shares  map[int]*share
}

// add adds a session, at its place and with the number of its entry.
func (b *beat) add(place int, entry uint64, one joined) {
	first := place - place%wire.RollShare
	if b.shares == nil {
		b.shares = map[int]*share{}
	}
	if b.shares[first] == nil {
		b.shares[first] = &share{}
	}
	to := b.shares[first]
	to.mask, to.sum = to.mask|1<<(place-first), to.sum+entry
	to.sessions = append(to.sessions, one)
}

// message returns the beat as it leaves.
func (b *beat) message(cluster, process string) []byte {
	header := wire.Header{Cluster: cluster, Coterie: b.coterie, Kind: wire.FromClient, Name: process, Seq: b.count, Level: b.level}
	out := header.Append(nil)
	firsts := make([]int, 0, len(b.shares))
	for first := range b.shares {
		firsts = append(firsts, first)
	}
	sort.Ints(firsts)
	for _, first := range firsts {
		out = wire.Ask{Kind: wire.Beats, Place: first, Mask: b.shares[first].mask, Sum: b.shares[first].sum}.Append(out)
	}
	return out
}

// joins lets the session join the beat to a voter in place of a heartbeat of its own, and returns whether it does. It does if its last
// one was acknowledged, or was in a beat to which no reply came, and the next one would say nothing new, and change nothing that the voter
// has of it.
func (c *Client) joins(voter int) bool {
	p := &c.peers[voter]
	switch said := p.opened; {
	case c.bundles == nil || !c.mayWait || c.draining || p.entry == 0 || p.stale || !p.answers || !p.accepts || len(c.out[voter]) > 0:
		return false
	case said.First != c.header.Epoch || c.isUnacknowledged(voter) || said.Third < c.header.Reserved || said.Fifth != c.requestsAt(voter):
		return false
	case p.since != c.oldest() || c.owesNote(voter):
		return false
	}
	one := joined{c.header.Name, p.said.Lapses, p.opened}
	one.opened.Fourth = c.header.Seq
	to := wire.VoterBox(c.cluster.ID, voter, c.user)
	p.joined = c.bundles.joins(voter, p.voterStart, to, c.speaks(voter), c.header.Level, c.box.place, p.entry, one)
	return p.joined
}

// isUnacknowledged returns whether a voter has to hear a heartbeat of the session itself, as it did not acknowledge the last one. If that was
// in a beat, and the voter would have said so if it refused that, the next beat will do.
func (c *Client) isUnacknowledged(voter int) bool {
	p := &c.peers[voter]
	return p.opened.Fourth+1 != c.header.Seq && !(p.joined && p.refuses)
}

// sayRoll says the session's place on the roll of its process to a voter that reads bundles, with a heartbeat, until the voter says that it
// made an entry. One of an older program never does: it hears less and less of it. If the last heartbeat was in a beat, and was not
// acknowledged, the entry may be another one by now.
func (c *Client) sayRoll(voter int) {
	p := &c.peers[voter]
	if p.entry > 0 && p.joined && c.isUnacknowledged(voter) {
		c.forgetRoll(voter)
	}
	if p.joined = false; c.bundles == nil || c.box.place < 0 || !p.accepts || !p.bundles || p.entry > 0 {
		return
	}
	if p.rolls++; p.rolls&(p.rolls-1) == 0 { // the first time, the second, the fourth..
		c.out[voter] = wire.Ask{Kind: wire.SaysRoll, Text: c.bundles.process, Place: c.box.place}.Append(c.out[voter])
	}
}

// hearRoll notes that a voter made an entry for the session.
func (c *Client) hearRoll(voter int, told wire.Told) {
	if p := &c.peers[voter]; c.box != nil && told.Place == c.box.place && !p.stale {
		p.entry = greatest(p.entry, told.Entry)
	}
}

// forgetRoll notes that a voter may have no entry for the session, or one that is out of date.
func (s *session) forgetRoll(voter int) {
	p := &s.peers[voter]
	p.entry, p.rolls, p.joined = 0, 0, false
}

// requestsAt returns how many requests of the session a voter has, if nothing was lost.
func (c *Client) requestsAt(voter int) (count uint64) {
	for l := range c.busy {
		if l.shown.Phase != qlock.Idle && l.shown.Quorum>>voter&1 == 1 {
			count++
		}
	}
	return count
}

// joins adds a session to the beat that leaves to a voter after a moment, and returns whether it did: the voter reads bundles since this
// start, and the sessions of the beat speak by one plan.
func (b *bundles) joins(voter int, since voterStart, box, coterie string, level uint64, place int, entry uint64, one joined) bool {
	b.mutex.Lock()
	defer b.mutex.Unlock()
	to := &b.to[voter]
	if !to.reads(since) || place < 0 || to.beat != nil && to.beat.coterie != coterie {
		return false
	}
	if to.beat == nil {
		to.beat = &beat{coterie: coterie, level: level}
	}
	to.beat.add(place, entry, one)
	to.box = box
	b.leaveLater(to)
	return true
}

// takeBeat puts the beat to a voter behind what leaves with it, and remembers it.
func (b *bundles) takeBeat(to *leaving) {
	if to.beat == nil {
		return
	}
	b.beats++
	to.beat.count = b.beats
	message := to.beat.message(b.cluster, b.process)
	if !to.HasRoom(message) {
		b.posts(to.box, to.Take())
	}
	to.Add(message)
	if to.sent = append(to.sent, to.beat); len(to.sent) > mostBeats {
		to.sent = to.sent[1:]
	}
	to.beat = nil
}

// joinedTo returns the sessions of the share of a beat to which a voter replies, and forgets them. It returns none if it did so before.
func (b *bundles) joinedTo(voter int, told wire.Told) (sessions []joined) {
	b.mutex.Lock()
	defer b.mutex.Unlock()
	for _, one := range b.to[voter].sent {
		if to := one.shares[told.Place]; one.count == told.ID && to != nil {
			sessions, to.sessions = to.sessions, nil
		}
	}
	return sessions
}

// hearBeat takes what a voter says to the process: which sessions of a beat it heard. To each of them it is a reply to a heartbeat, and to
// those of which the voter says that it did not, it is that. Either comes with the other lines of the message. It returns whether it is a
// reply to a beat.
func (s *shards) hearBeat(m transport.Message) (isReply bool) {
	h, lines, err := wire.Read(m.Data)
	if err != nil || h.Kind != wire.FromVoter || h.Number >= qlock.MaxVoters || s.bundles == nil {
		return false
	}
	replies, rest := repliesIn(lines)
	for _, one := range replies {
		for _, session := range s.bundles.joinedTo(h.Number, one) {
			h.Lapses = session.lapses
			if message, err := session.hears(one, append(h.Append(nil), rest...)); err == nil {
				s.pass(session.session, transport.Message{Mailbox: m.Mailbox, Data: wire.AddressTo(session.session, message)})
			}
		}
	}
	return len(replies) > 0
}

// repliesIn returns what a voter says in a message to beats, and the other lines.
func repliesIn(lines []byte) (replies []wire.Told, rest []byte) {
	for {
		lock, line, behind, found := wire.Next(lines)
		if !found {
			return replies, rest
		}
		told, is := wire.ReadTold(line)
		if string(lock) == "." && is && (told.Kind == wire.Beaten || told.Kind == wire.Unbeaten) {
			replies = append(replies, told)
		} else {
			rest = append(rest, lines[:len(lines)-len(behind)]...)
		}
		lines = behind
	}
}

// hears appends what a reply to a beat is to a session that joined it.
func (j joined) hears(reply wire.Told, out []byte) ([]byte, error) {
	if reply.Kind == wire.Unbeaten {
		return reply.Append(out), nil
	}
	return j.opened.Append(out)
}

// hearUnbeaten notes that a voter does not have the session as its entry says, or that of another session of its share.
func (c *Client) hearUnbeaten(voter int) {
	if !c.peers[voter].stale {
		c.forgetRoll(voter)
	}
}
