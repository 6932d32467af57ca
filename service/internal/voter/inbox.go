package voter

import (
	"crypto/hmac"
	"crypto/sha256"
	"fmt"
	"hash/fnv"
	"math"
	"sort"
	"time"

	"calvundek.example/service/internal/moment"
	"calvundek.example/service/internal/wire"
	"calvundek.example/service/qlock"
	"calvundek.example/service/transport"
)

// What a turn of the loop takes at most: then it saves and sends, and looks for heartbeats.
const (
	mostLines    = 4096                  // lines of one turn
	longestTurn  = 20 * time.Millisecond // for which one turn takes lines
	mostOut      = 1 << 20               // bytes that one turn makes to be sent
	share        = 64                    // lines of one sender before the next one's turn
	mostWaiting  = 1 << 20               // bytes of one sender that wait
	mostOfAll    = 1 << 26               // bytes of all senders that wait, and for the first message of a sender twice as many
	mostMessage  = wire.MostBytes + 4096 // bytes of one message
	mostControls = 16                    // lines of control in one message
	mostLine     = 256                   // bytes of one line
	keyBytes     = 32                    // of the key of markers
)

// letter is a message of a client that waits, or of which some lines are taken.
type letter struct {
	wire.Header
	shard    *shard // of the session
	lines    []byte
	size     int
	begun    bool
	controls int
	lock     string          // for which it wants a number, "" if it did not say so
	wanted   uint64          // with how many stamps it wants one that this voter chooses, 0 if it does not
	said     map[string]bool // what may be said once in a message
}

// once returns whether a word is said for the first time in this message.
func (l *letter) once(word string) bool {
	if l.said[word] {
		return false
	}
	if l.said == nil {
		l.said = map[string]bool{}
	}
	l.said[word] = true
	return true
}

// inbox has the messages of clients that wait: those of each number's sessions apart, in each shard, and behind them those of each user's
// others.
// Whoever sends much waits for himself alone, and delays no other one's heartbeats. The zero value has none.
type inbox struct {
	senders map[int]*sender // of which a message waits, by the keys of their numbers
	order   []int           // these keys, in their order
	size    int
	count   int
	turn    int // whose turn it is
}

// sender has the messages of one sender that wait.
type sender struct {
	letters []*letter
	size    int
}

// strangers is the first key of those that have no number here: these are behind all others.
const strangers = 1 << 62

// strangersOf returns the key of those of a user that have no number here.
func strangersOf(user string) int {
	sum := fnv.New64a()
	sum.Write([]byte(user))
	return strangers | int(sum.Sum64()>>2)
}

// put puts a message behind those of its sender, and returns false if there is no room.
func (b *inbox) put(key int, l *letter) bool {
	from := b.senders[key]
	switch {
	case from == nil && b.size+l.size > 2*mostOfAll, from != nil && (from.size+l.size > mostWaiting || b.size+l.size > mostOfAll):
		return false
	case from == nil:
		from = b.add(key)
	}
	from.letters = append(from.letters, l)
	from.size, b.size, b.count = from.size+l.size, b.size+l.size, b.count+1
	return true
}

// add adds a sender.
func (b *inbox) add(key int) *sender {
	if b.senders == nil {
		b.senders = map[int]*sender{}
	}
	one, place := new(sender), sort.SearchInts(b.order, key)
	b.order = append(b.order, 0)
	copy(b.order[place+1:], b.order[place:])
	b.senders[key], b.order[place] = one, key
	return one
}

// next returns the first message of the next sender, nil if none waits.
func (b *inbox) next() *letter {
	if b.count == 0 {
		return nil
	}
	place := sort.Search(len(b.order), func(i int) bool { return b.order[i] > b.turn })
	b.turn = b.order[place%len(b.order)]
	return b.senders[b.turn].letters[0]
}

// done takes the message out that next returned.
func (b *inbox) done() {
	from := b.senders[b.turn]
	size := from.letters[0].size
	from.letters[0] = nil
	from.letters = from.letters[1:]
	from.size, b.size, b.count = from.size-size, b.size-size, b.count-1
	if len(from.letters) == 0 {
		place := sort.SearchInts(b.order, b.turn)
		b.order = append(b.order[:place], b.order[place+1:]...)
		delete(b.senders, b.turn)
	}
}

// receive puts all messages that are there into the inbox, and drops what is not of this protocol.
func (d *Daemon) receive() {
	for began := d.now(); len(d.messages) > 0 && d.now().Sub(began) < longestTurn; {
		d.sort(<-d.messages)
	}
}

// sendMarker sends a marker to this voter itself, if it is time for one.
func (d *Daemon) sendMarker(now time.Time) {
	if number := d.leases.clock.Send(now.Sub(d.leases.began)); number > 0 {
		if d.sender.Marker(d.header(), d.markerLine(number)) != nil {
			d.m.unsent.Add(1)
		}
	}
}

// markerLine returns the line of a marker. Nobody else can make one.
func (d *Daemon) markerLine(number uint64) string {
	mac := hmac.New(sha256.New, d.markers[:])
	fmt.Fprint(mac, number)
	return fmt.Sprintf(". marker %d %x\n", number, mac.Sum(nil)[:16])
}

// isMarker takes the lines of a marker, and returns whether they are one of this run.
func (d *Daemon) isMarker(lines string) bool {
	var number uint64
	if _, err := fmt.Sscanf(lines, ". marker %d ", &number); err != nil || lines != d.markerLine(number) {
		return false
	}
	d.leases.clock.Returns(number)
	now := d.now()
	d.leases.returned(now)
	d.catchUp()
	d.leases.quiet.returned(d.leases.at(now))
	_, left := d.leases.clock.Shows()
	d.marked.Store(int64(d.leases.began.Add(left).Sub(d.started)))
	return true
}

// sort puts the messages of a bundle into the inbox, each as if it had come alone. Those behind the most that a bundle may have are lost.
func (d *Daemon) sort(m transport.Message) {
	if len(m.Data) > mostMessage {
		d.sortOne(m)
		return
	}
	all := wire.Messages(m.Data, func(message []byte) { d.sortOne(transport.Message{Mailbox: m.Mailbox, Data: message}) })
	if !all {
		d.noRoom.Add(m.Sender())
	}
}

// sortOne puts a message into the inbox. Who is of another plan is told which there are.
func (d *Daemon) sortOne(m transport.Message) {
	d.m.received.Inc()
	h, lines, err := wire.Read(m.Data)
	if err == nil && h.Kind == wire.FromVoter && h.Name == d.store.meta.Identity && d.isMarker(string(lines)) {
		return
	}
	user := m.Sender()
	isClient := err == nil && h.Kind == wire.FromClient && h.Cluster == d.cluster.ID && wire.IsSession(user, h.Name)
	h.Name = wire.SessionName(user, h.Name)
	if !isClient || len(m.Data) > mostMessage || !d.isOurs(h) {
		d.m.foreign.Inc()
		if isClient && d.outBytes < mostOut {
			d.announce(h.Name) // its plan is retired, or not yet here
		}
		return
	}
	if !d.join.done {
		return // nothing is taken before the others answered
	}
	if h.Epoch == 0 && isBeat(lines) {
		d.beat(h, lines, d.now())
		return
	}
	shard, sender := d.shardOfSession(h.Name), strangersOf(user)
	if shard == nil {
		d.m.foreign.Inc()
		return
	}
	if h.Epoch > 0 && shard.judge(h.Number, h.Name, h.Epoch) == qlock.SessionKnown {
		sender = shard.key(h.Number)
		shard.hear(h.Number, d.now()) // it may wait for its turn
	}
	shard.used = moment.Of(d.now())
	if !d.inbox.put(sender, &letter{Header: h, shard: shard, lines: lines, size: len(m.Data)}) {
		d.noRoom.Add(user)
	}
}

// work takes lines of the messages that wait, of one sender after the other, until there is none or
// this turn had enough.
func (d *Daemon) work() {
	began, taken := d.now(), 0
	for taken < mostLines && d.outBytes < mostOut && d.now().Sub(began) < longestTurn {
		l := d.inbox.next()
		if l == nil {
			return
		}
		lines, ended := d.read(l, d.now())
		if taken += lines; ended {
			d.inbox.done()
		}
	}
}

// read takes a share of a message's lines. It returns how many it took, and whether the message is
// at its end: after the last line, or the first one that can't be right.
func (d *Daemon) read(l *letter, now time.Time) (lines int, ended bool) {
	speaker, ok := d.greet(l, now)
	if !ok {
		return 1, true
	}
	for lines < share {
		lock, line, rest, found := wire.Next(l.lines)
		if !found {
			if len(l.lines) > 0 {
				d.m.refused.Inc()
			}
			return lines + 1, true
		}
		l.lines, lines = rest, lines+1
		if !d.line(l, speaker, lock, line, now) {
			d.m.refused.Inc()
			return lines, true
		}
	}
	return lines, false
}

// greet judges who sent a message, before a share of its lines is taken: much may have changed
// since the last one. It returns false if no line counts.
func (d *Daemon) greet(l *letter, now time.Time) (speaker qlock.Standing, ok bool) {
	if !d.isOurs(l.Header) {
		d.m.foreign.Inc()
		return qlock.SessionOver, false
	}
	d.hears(l.Header)
	if l.Epoch == 0 {
		return qlock.SessionUnknown, true
	}
	speaker = l.shard.admit(l.Number, l.Name, l.Epoch, now)
	first := !l.begun
	l.begun = true
	switch {
	case speaker == qlock.SessionKnown:
		l.shard.seat(l.Number).level = uint8(smallest(l.Level, math.MaxUint8))
		d.hasNumber(l, now)
		l.shard.reserve(l.Number, l.Name, l.Epoch, l.Reserved, now)
	case speaker == qlock.SessionUnknown && first:
		d.say(l.Name, qlock.VoterSays{Kind: qlock.Unknown, Number: l.Number, First: l.Epoch})
	case speaker == qlock.SessionOver && first:
		d.say(l.Name, qlock.VoterSays{Kind: qlock.Taken, Number: l.Number, First: l.Epoch})
	}
	return speaker, speaker != qlock.SessionOver
}
