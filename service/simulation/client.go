package simulation

import (
	"encoding/hex"
	"math"
	"strconv"
	"strings"
	"time"

	"calvundek.example/service/internal/claims"
	"calvundek.example/service/internal/level"
	"calvundek.example/service/internal/voter"
	"calvundek.example/service/internal/wire"
	"calvundek.example/service/qlock"
	"calvundek.example/service/transport"
)

// The clients of a run.
//
// They follow the rules of package locks (session.go, request.go, watch.go), whose client has goroutines and reads the
// machine's clock, and so can't be stepped. Shared with it are the proved client of package qlock, the messages (wire), the
// plans, whom a session asks, a lock of a session whole, what is kept of claims (claims), and the timer of reminders (remind). What is here
// is the simulation's own: it is kept in the order of package locks, under the same names, so that both can be laid side by side. There are
// no plans that are exchanged, and no calls that only try.

const (
	firstBlock = 64 // as in package locks
	mostBlock  = 4096
	brief      = 2 * time.Second
	soon       = 20 * time.Millisecond
	ticks      = 25 * time.Millisecond // of the loop, and of who looks after leases
)

// leaseOf returns for how long a vote counts after its client's heartbeat left.
func leaseOf(ttl time.Duration) time.Duration { return ttl * 8 / 10 }

// stopOf returns how long a program takes to stop, at most.
func stopOf(ttl time.Duration) time.Duration { return ttl / 10 }

// stage says how far a session is.
type stage int

const (
	choosing  stage = iota // it asks which numbers are free
	waiting                // there is none
	claiming               // it claims one
	reserving              // it reserves its first stamps
	isOpen
	isEnded
)

// peer is a voter, as a session knows it.
type peer struct {
	identity string
	run      uint64
	start    uint64
	quiet    time.Duration            // until then it takes only requests of who is inside
	heard    time.Duration            // when a message came
	said     qlock.Incarnation        // the latest one that it said
	answers  bool                     // it acknowledged a heartbeat, or the claim, since then
	sent     map[uint64]time.Duration // when heartbeats left that it did not acknowledge
	accepts  bool                     // it accepted this session's claim of its number
	base     uint64                   // all stamps of this session are above it there
	claimed  uint64                   // with which heartbeat the number was claimed there again
	taken    bool                     // it said that this session is over
	stale    bool                     // the message that is taken is of an earlier incarnation
	brought  brought                  // the number that it chose for this session, which wants one
	requests uint64                   // how many of this session it said that it has
	drained  bool                     // it has no request of this session any more
	closed   bool                     // it ended this session
}

// brought is a number that a voter chose for a session, and claimed for it. Without an epoch it is none.
type brought struct {
	number                int
	epoch, base, reserved uint64
}

// client is a process with one session, and a program that wants each lock from time to time.
type client struct {
	*world
	id    int
	clock clock
	cut   bool
	still instant // it stands still until then
	queue []transport.Message
	box   *box
	beats time.Duration // how long it is from one heartbeat to the next one
	over  time.Duration // after which silence a voter is passed over

	wants    bool   // it wants a number with its hello. Half of the clients are of the version before, and do not
	name     string // of the session
	hasty    bool   // it is given up soon after it claims a number, as by a call that waits no longer
	keeps    bool   // the next session has this name, and keeps what was claimed under it: this one was given up before it was open
	tries    int    // how many sessions it began to open
	header   wire.Header
	peers    []peer
	leases   qlock.Leases    // of the voters
	stamps   qlock.AllStamps // under which stamps this session may ask each voter
	stage    stage
	replied  uint64 // the voters that replied to what is asked now
	claims   *claims.Numbers
	states   [qlock.MaxClients]int // the worst that a voter said of a number: 0 taken, 2 silent for the TTL, 1 free
	asked    int
	failed   int                      // the number whose claim failed last, -1 if none did
	seen     [qlock.MaxClients]uint64 // the newest epoch that a voter said of a number
	left     time.Duration            // when the claim left; if it wants numbers, when the first word of this name left
	refused  bool
	saysAt   time.Duration // when what is asked is asked again
	pause    time.Duration
	ends     time.Duration // when a claim is given up
	beat     time.Duration // when the last heartbeat left
	used     uint64
	block    uint64
	idle     uint64 // the first heartbeat since nothing is asked or held any more, 0 if something is
	draining bool

	locks  []*lock
	ticket int
	out    [qlock.MaxVoters][]byte
	room   []byte
}

// newClient starts a process.
func newClient(w *world, id int) *client {
	c := &client{world: w, id: id, clock: clock{since: w.now, base: 2*time.Hour + w.upTo(time.Hour), rate: w.rate(false)}}
	c.beats = w.ttl / 4
	if c.beats > 500*time.Millisecond {
		c.beats = 500 * time.Millisecond
	}
	c.over = 4 * c.beats
	c.wants = w.random.Intn(2) == 0
	for i := range w.locks {
		c.locks = append(c.locks, &lock{witness: w.locks[i], client: c})
	}
	c.open()
	c.tick()
	for _, l := range c.locks {
		l.think()
	}
	return c
}

// open begins a session. Until one is open, all tries have one name, as in package locks (shards.go).
func (c *client) open() {
	seq := uint64(0) // of the last message under the name
	if !c.keeps {
		c.left = 0
		c.name, c.claims = c.newName(), claims.New()
	} else if seq = c.header.Seq; c.Wrong.ForgetsClaims {
		c.claims = claims.New()
	}
	c.keeps = false
	c.tries++
	_, name, _ := strings.Cut(c.name, ".")
	c.header = wire.Header{Cluster: c.cluster.ID, Coterie: c.cluster.Marks()[0], Kind: wire.FromClient, Name: name, Level: level.Newest, Seq: seq}
	c.peers, c.leases, c.stamps = make([]peer, len(c.cluster.Names())), qlock.NewLeases(leaseOf(c.ttl)), qlock.NewAllStamps()
	now := c.shows()
	for v := range c.peers {
		c.peers[v] = peer{sent: map[uint64]time.Duration{}, heard: now}
		c.leases.Since[v] = now
	}
	c.asked, c.failed, c.draining, c.idle, c.beat = -1, -1, false, 0, 0
	c.sessions[c.name] = c
	c.box = &box{takes: c.takes}
	c.broker.listen(c.boxes(), c.box)
	c.stage = choosing
	c.choose()
}

// newName returns a name. Voters that choose numbers for it begin at one of the first few, so that numbers are given on.
func (c *client) newName() string {
	for few := 1 + c.random.Intn(8); ; {
		random := make([]byte, 16)
		_, _ = c.random.Read(random)
		if name := wire.SessionName(wire.NoUser, hex.EncodeToString(random)); voter.FirstNumber(name) < few {
			return name
		}
	}
}

func (c *client) boxes() string { return wire.SessionBoxes(c.cluster.ID, c.name) }

// shows returns what the client's clock shows.
func (c *client) shows() time.Duration { return c.clock.shows(c.now) }

// atShown plans an event by the client's clock. A session that is over by then does nothing.
func (c *client) atShown(shown time.Duration, do func()) {
	session := c.tries
	c.at(c.clock.when(shown), func() { c.whenUp(session, do) })
}

// whenUp does something for a session once the process does not stand still.
func (c *client) whenUp(session int, do func()) {
	switch {
	case c.tries != session || c.stage == isEnded:
	case c.now < c.still:
		c.at(c.still, func() { c.whenUp(session, do) })
	default:
		do()
		c.flush()
	}
}

// tick goes round: it does what time asks for.
func (c *client) tick() {
	c.atShown(c.shows()+ticks, func() {
		c.look()
		c.round()
		c.tick()
	})
}

// takes takes a message of a voter. While the process stands still it waits.
func (c *client) takes(m transport.Message) {
	switch {
	case c.cut || c.stage == isEnded:
	case c.now < c.still:
		if len(c.queue) < room {
			c.queue = append(c.queue, m)
		}
	default:
		c.takeQueue()
		c.message(m)
		c.flush()
	}
}

// takeQueue takes what came while the process stood still.
func (c *client) takeQueue() {
	for len(c.queue) > 0 && c.stage != isEnded {
		m := c.queue[0]
		c.queue = c.queue[1:]
		c.message(m)
	}
}

// standsStill lets the process stand still for a while.
func (c *client) standsStill(d time.Duration) {
	c.still = after(c.now, d)
	session := c.tries
	c.at(c.still, func() { c.whenUp(session, c.takeQueue) })
}

// isOver ends the session, and with it what it has. The process opens another one.
func (c *client) isOver() {
	for _, l := range c.locks {
		l.isOver()
	}
	c.broker.leave(c.boxes(), c.box)
	delete(c.sessions, c.name)
	c.stage = isEnded
	c.queue = nil
	for v := range c.out {
		c.out[v] = nil
	}
}

// opensAgain opens another session after a while.
func (c *client) opensAgain(d time.Duration) {
	c.in(d, func() {
		switch {
		case c.stage != isEnded:
			return
		case c.rests > c.now:
			c.opensAgain(time.Duration(c.rests-c.now) + c.upTo(c.ttl))
			return
		}
		c.log("client %d opens another session", c.id)
		c.open()
		c.flush()
		c.tick()
		for _, l := range c.locks {
			l.think()
		}
	})
}

// givesUpSoon gives a session up a moment after it claimed a number, or wants one, unless it is open by then. The next try follows soon.
func (c *client) givesUpSoon() {
	session := c.tries
	c.in(c.upTo(soon), func() {
		c.whenUp(session, func() {
			isEarly := c.stage == choosing && c.wants || c.stage == claiming || c.stage == reserving
			if !isEarly || c.healed > 0 {
				return
			}
			c.log("client %d gives its session up", c.id)
			c.Incidents["sessions given up"]++
			if c.claims.Claimed(c.asked) > 0 {
				c.takeBack()
			}
			c.wantsNone()
			c.isOver()
			c.keeps = true
			c.opensAgain(c.upTo(soon))
		})
	})
}

// choose asks the voters for a number, and which ones are free.
func (c *client) choose() {
	c.stage, c.replied, c.seen = choosing, 0, [qlock.MaxClients]uint64{}
	for i := range c.states {
		c.states[i] = 1
	}
	if c.wants {
		c.header.Seq++
		c.forgetAll()
		if c.left == 0 {
			c.left = c.shows()
		}
	}
	c.begins()
	if c.wants && c.hasty {
		c.hasty = false
		c.givesUpSoon()
	}
}

// begins begins to say what the stage says, again and again.
func (c *client) begins() {
	c.pause, c.saysAt = 0, c.shows()
	c.goesOn()
}

// goesOn says what the stage says, once it is time to.
func (c *client) goesOn() {
	now := c.shows()
	if c.stage == claiming && now >= c.ends {
		c.abandon()
		return
	}
	if now < c.saysAt {
		return
	}
	c.pause += 100 * time.Millisecond
	c.saysAt = now + c.pause
	switch c.stage {
	case choosing:
		c.askForNumbers()
	case waiting:
		c.choose()
	case claiming:
		c.say(qlock.ClientSays{Kind: qlock.ClaimStamps, Number: c.asked, First: c.claims.Claimed(c.asked), Second: firstBlock})
	case reserving:
		c.heartbeat()
	}
}

// hears goes on to the next stage once enough is known.
func (c *client) hears() {
	switch {
	case c.stage == choosing && c.isAnswered():
		c.chooses()
	case c.stage == claiming && c.refused:
		c.abandon()
	case c.stage == claiming && c.hasQuorum(c.claims[c.asked].Shows().Accepted):
		c.reserveFirst()
	case c.stage == reserving && c.refused:
		c.abandon()
	case c.stage == reserving && c.hasQuorum(c.owners(c.used+1)):
		c.stage = isOpen
		c.ticket = c.header.Number * len(c.cluster.Planned.Quorums) / qlock.MaxClients
		c.log("client %d has number %d and epoch %d", c.id, c.header.Number, c.header.Epoch)
		for _, l := range c.locks {
			l.pump()
		}
	}
}

func (c *client) hasQuorum(voters uint64) bool { return c.cluster.Planned.HasQuorum(voters) }

// isAnswered returns whether a quorum replied.
func (c *client) isAnswered() bool { return c.hasQuorum(c.replied) }

// askForNumbers asks all voters for a number, and which ones are free.
func (c *client) askForNumbers() {
	for v := range c.peers {
		if c.wants {
			c.out[v] = wire.Ask{Kind: wire.WantsNumber, Number: firstBlock}.Append(c.out[v])
		}
		c.tell(v, qlock.ClientSays{Kind: qlock.Hello})
	}
}

// chooses goes on with the number that a quorum chose, or claims one that is free, or waits for one.
func (c *client) chooses() {
	isBrought := c.takesBrought()
	isChosen := isBrought || c.pick()
	for number, epoch := range c.seen {
		c.claims[number].Sees(epoch)
	}
	switch {
	case isBrought:
		c.refused, c.block, c.beat = false, firstBlock, c.shows()
		c.Incidents["numbers in one trip"]++
		c.reserveFirst()
	case isChosen:
		c.claim()
	default:
		c.stage, c.pause, c.saysAt = waiting, 0, c.shows()+c.ttl/10
	}
}

// takesBrought takes the number that each voter of a quorum chose under one epoch, and returns whether there is one.
func (c *client) takesBrought() bool {
	for v := range c.peers {
		got := c.peers[v].brought
		voters := c.bringers(got)
		if got.epoch == 0 || !c.hasQuorum(voters) || c.claims[got.number].Shows().Newest >= got.epoch {
			continue
		}
		c.asked = got.number
		c.claims[c.asked].Sees(got.epoch - 1)
		c.claims[c.asked].Next()
		c.takeBackBut(got.number, got.epoch)
		for w := range c.peers {
			if p := &c.peers[w]; voters>>w&1 == 1 && c.claims[c.asked].Accepts(uint8(w), got.epoch, p.brought.base) {
				c.noteStamps(w, p.brought.base, p.brought.reserved)
			}
		}
		return true
	}
	return false
}

// bringers returns the voters that chose a number under the same epoch.
func (c *client) bringers(got brought) (mask uint64) {
	for v := range c.peers {
		if p := &c.peers[v]; p.brought.number == got.number && p.brought.epoch == got.epoch {
			mask |= 1 << v
		}
	}
	return mask
}

// takeBackBut gives back what voters chose except a number under an epoch, that of older epochs first.
func (c *client) takeBackBut(number int, epoch uint64) {
	for {
		least := -1
		for v := range c.peers {
			got := c.peers[v].brought
			isLeft := got.epoch > 0 && (got.number != number || got.epoch != epoch)
			if isLeft && (least < 0 || got.epoch < c.peers[least].brought.epoch) {
				least = v
			}
		}
		if least < 0 {
			return
		}
		got := c.peers[least].brought
		c.peers[least].brought = brought{}
		c.takesBack(least, got.number, got.epoch)
	}
}

// takesBack gives a number back that a voter chose for this session, and that it does not take.
func (c *client) takesBack(v, number int, epoch uint64) {
	own := &c.claims[number]
	switch shown := own.Shows(); {
	case shown.Epoch > 0:
	case shown.Newest >= epoch:
		c.endWant(v)
	default:
		own.Sees(epoch - 1)
		own.Next()
		own.GivesUp()
		c.tell(v, qlock.ClientSays{Kind: qlock.Drop, Number: number, First: epoch})
	}
}

// endWant lets a voter end what it chose for this session, if nothing came under that.
func (c *client) endWant(v int) { c.out[v] = wire.Ask{Kind: wire.WantsNumber}.Append(c.out[v]) }

// wantsNone gives back what voters chose for this session, also what it did not hear of.
func (c *client) wantsNone() {
	for v := range c.peers {
		if got := c.peers[v].brought; got.epoch > 0 {
			c.takesBack(v, got.number, got.epoch)
		}
		if c.peers[v].brought = (brought{}); c.wants {
			c.endWant(v)
		}
	}
	c.flush()
}

// pick chooses the number that most voters chose for this session, or else one that is free, and returns whether there is one.
func (c *client) pick() bool {
	c.spurn()
	c.asked = c.mostBrought()
	few := 1 + c.random.Intn(8) // so that numbers are given on
	for _, want := range []int{1, 2} {
		for i, first := 0, c.random.Intn(few); i < qlock.MaxClients && c.asked < 0; i++ {
			if number := (first + i) % qlock.MaxClients; c.states[number] == want {
				c.asked = number
			}
		}
	}
	if c.asked < 0 {
		c.takeBackBut(-1, 0)
		return false
	}
	var epoch uint64 // the newest one under which a voter chose it
	for v := range c.peers {
		if got := c.peers[v].brought; got.number == c.asked {
			epoch = greatest(epoch, got.epoch)
		}
	}
	if newest := greatest(c.seen[c.asked], c.claims[c.asked].Shows().Newest); epoch > newest {
		c.takeBackBut(c.asked, epoch)
		c.claims[c.asked].Sees(epoch - 1)
	} else {
		c.takeBackBut(-1, 0)
		c.claims[c.asked].Sees(newest)
	}
	return true
}

// spurn takes a number as taken that a voter has as this session's by a claim that it took back: the voter did not hear so, and would refuse
// another claim.
func (c *client) spurn() {
	for v := range c.peers {
		if got := c.peers[v].brought; got.epoch > 0 && c.claims[got.number].Shows().Newest >= got.epoch {
			c.states[got.number] = 0
		}
	}
}

// mostBrought returns the number that most voters chose, of those that no voter said are taken, -1 if there is none.
func (c *client) mostBrought() int {
	number, most := -1, 0
	var counts [qlock.MaxClients]int
	for v := range c.peers {
		got := c.peers[v].brought
		if got.epoch == 0 || c.states[got.number] == 0 || got.number == c.failed {
			continue
		}
		if counts[got.number]++; counts[got.number] > most {
			number, most = got.number, counts[got.number]
		}
	}
	return number
}

// claim claims a number under a new epoch.
func (c *client) claim() {
	c.claims[c.asked].Next()
	c.stage, c.refused, c.block = claiming, false, firstBlock
	c.forgetAll()
	c.ends, c.beat = c.shows()+brief, c.shows()
	if !c.wants {
		c.left = c.shows()
	}
	if c.begins(); c.hasty {
		c.hasty = false
		c.givesUpSoon()
	}
}

// reserveFirst reserves the first stamps of a number that a quorum gave to this session.
func (c *client) reserveFirst() {
	now := c.shows()
	for v := range c.peers {
		c.peers[v].heard = now
	}
	c.stage, c.refused = reserving, false
	claim := c.claims[c.asked].Shows()
	c.checkOwn(claim.Epoch)
	c.used = claim.Base
	c.header.Number, c.header.Epoch, c.header.Reserved = c.asked, claim.Epoch, c.used+firstBlock
	if c.hears(); c.stage == reserving {
		c.begins()
	}
}

// abandon takes a claim back, and chooses another number.
func (c *client) abandon() {
	c.takeBack()
	c.choose()
}

// takeBack gives a number back that some voters gave to this session, or will give it.
func (c *client) takeBack() {
	for _, l := range c.locks {
		l.LockClient = nil
		l.shown = qlock.Shown{}
	}
	if c.header.Epoch > 0 {
		for v := range c.peers {
			c.out[v] = c.out[v][:0]
		}
		c.say(qlock.ClientSays{Kind: qlock.Close})
		c.flush()
	}
	c.header.Number, c.header.Epoch, c.header.Reserved = 0, 0, 0
	epoch := c.claims.Claimed(c.asked)
	for v := range c.peers {
		c.peers[v].sent = map[uint64]time.Duration{}
		c.forgetSaid(v)
		c.forgetLease(v)
		c.out[v] = c.out[v][:0]
		c.tell(v, qlock.ClientSays{Kind: qlock.Drop, Number: c.asked, First: epoch})
	}
	c.claims[c.asked].GivesUp()
	c.failed = c.asked
	c.wantsNone()
}

// say says a control line to all voters.
func (c *client) say(says qlock.ClientSays) {
	for v := range c.peers {
		c.tell(v, says)
	}
}

// tell says a control line to a voter.
func (c *client) tell(v int, says qlock.ClientSays) {
	out, err := says.Append(c.out[v])
	if err != nil {
		c.violated("protocol", "client %d says what has no line: %+v", c.id, says)
		return
	}
	c.out[v] = out
}

// forgetSaid forgets what a voter said of a number.
func (c *client) forgetSaid(v int) {
	p := &c.peers[v]
	c.stamps[v].Forget()
	p.accepts, p.taken, p.base, p.claimed = false, false, 0, 0
	p.brought = brought{}
}

// forgetAll forgets what voters said of numbers, and to sessions before.
func (c *client) forgetAll() {
	for v := range c.peers {
		c.forgetSaid(v)
		c.forgetLease(v)
	}
}

// forgetLease forgets what a voter said to the session before, for another one.
func (c *client) forgetLease(v int) {
	c.leases.Of[v], c.leases.Since[v] = qlock.NewLease(), c.shows()
	c.peers[v].said, c.peers[v].answers = qlock.Incarnation{}, false
}

// use notes that a stamp is used. It reserves more before the block is spent.
func (c *client) use(stamp uint64) {
	if stamp > c.used {
		c.used = stamp
	}
	c.reserve(stamp)
}

// reserve asks the voters to keep that stamps above this one may be used.
func (c *client) reserve(stamp uint64) {
	if c.header.Reserved >= stamp+c.block/2 {
		return
	}
	if c.block < mostBlock {
		c.block *= 2
	}
	c.header.Reserved = stamp + c.block
	c.heartbeat()
}

// noteStamps notes which stamps are this session's at a voter.
func (c *client) noteStamps(v int, base, reserved uint64) {
	p := &c.peers[v]
	if reserved > qlock.MaxStamp || base > reserved {
		return
	}
	accepted, before := p.accepts, c.stamps[v]
	p.accepts, p.taken, p.base = true, false, greatest(p.base, base)
	if c.stamps[v].Hear(p.run, base, reserved); accepted && c.stamps[v] == before {
		return
	}
	for _, l := range c.locks {
		switch {
		case l.isBusy() && l.shown.Phase == qlock.Idle:
			l.pump()
		case c.isBelow(l, v):
			l.askAgain()
		}
	}
}

// isBelow returns whether a request waits for a voter that does not take it any more: its stamp is not above the base there.
func (c *client) isBelow(l *lock, v int) bool {
	return l.shown.Phase == qlock.Asking && l.shown.Stamp <= c.peers[v].base && (l.shown.Quorum&^l.Votes())>>v&1 == 1
}

func greatest(a, b uint64) uint64 {
	if a > b {
		return a
	}
	return b
}

// owners returns the voters that said that a stamp is this session's.
func (c *client) owners(stamp uint64) (mask uint64) {
	for v := range c.peers {
		if c.peers[v].answers {
			mask |= 1 << v
		}
	}
	return mask & c.stamps.Owners(stamp)
}

// floor returns the highest base that a voter told this session.
func (c *client) floor() (base uint64) {
	for v := range c.peers {
		base = greatest(base, c.peers[v].base)
	}
	return base
}

// mayAsk returns whether a quorum may be asked under a stamp.
func (c *client) mayAsk(quorum, stamp uint64) bool {
	owners := c.owners(stamp)
	return quorum&^owners == 0 && c.hasQuorum(owners)
}

// isBusy returns whether something is asked, held or wanted.
func (c *client) isBusy() bool {
	for _, l := range c.locks {
		if l.isBusy() {
			return true
		}
	}
	return false
}

// heartbeat shows that the session is there. What may have been lost before is lost first.
func (c *client) heartbeat() {
	c.lapse()
	now := c.shows()
	c.beat = now
	c.header.Seq++
	switch {
	case c.isBusy():
		c.idle = 0
	case c.idle == 0:
		c.idle = c.header.Seq
	default:
		c.disclaim()
	}
	for v := range c.peers {
		p := &c.peers[v]
		for seq, left := range p.sent {
			if now-left > c.ttl {
				delete(p.sent, seq)
			}
		}
		if p.closed {
			continue
		}
		p.sent[c.header.Seq] = now
		c.tell(v, qlock.ClientSays{Kind: qlock.Open})
		if c.draining && p.drained {
			c.tell(v, qlock.ClientSays{Kind: qlock.Close})
		}
	}
}

// disclaim ends what voters still have of a session that wants nothing.
func (c *client) disclaim() {
	var voters uint64
	for v := range c.peers {
		if c.peers[v].requests > 0 {
			voters |= 1 << v
		}
	}
	for _, l := range c.locks {
		if voters != 0 {
			l.disclaim(voters)
		}
	}
}

// disclaim tells voters again that the requests of a lock are over.
func (l *lock) disclaim(voters uint64) {
	if l.LockClient == nil {
		return
	}
	if lines, err := l.Disclaim(voters, l.client.room[:0]); err == nil {
		l.client.room = lines
		l.send(lines)
	}
}

// avoided returns the voters that are asked only if nobody else would do: they are silent, or quiet.
func (c *client) avoided() uint64 {
	heard, quiet := c.heard()
	return qlock.Avoided(heard, quiet, late, uint64(c.over))
}

// late is what the time is now to the calls that say who is silent: times before it are of the past.
const late uint64 = math.MaxInt64

// since returns a time of the client's clock as these calls take it.
func (c *client) since(at time.Duration) uint64 { return late - uint64(c.shows()-at) }

// heard returns when each voter was heard, and when its quiet time ends.
func (c *client) heard() (heard, quiet []uint64) {
	for v := range c.peers {
		heard, quiet = append(heard, c.since(c.peers[v].heard)), append(quiet, c.since(c.peers[v].quiet))
	}
	return heard, quiet
}

// message takes a message of a voter.
func (c *client) message(m transport.Message) {
	h, lines, err := wire.Read(m.Data)
	if err != nil || h.Cluster != c.header.Cluster || h.Kind != wire.FromVoter || h.Number >= len(c.peers) ||
		m.Sender() != strconv.Itoa(h.Number) || h.Coterie != c.header.Coterie || !c.recognise(h) {
		return
	}
	c.peers[h.Number].heard = c.shows()
	c.noteIncarnation(h)
	for c.stage != isEnded {
		lock, line, rest, found := wire.Next(lines)
		if !found {
			break
		}
		lines = rest
		if string(lock) == "." {
			c.control(h.Number, line)
		} else if wire.ReadLine(line).From == h.Number && c.header.Epoch > 0 && !c.peers[h.Number].stale {
			c.take(h.Number, string(lock), line)
		}
	}
	c.hears()
}

// recognise returns whether a message is of the voter that was there before, or of one that takes its place.
func (c *client) recognise(h wire.Header) bool {
	p := &c.peers[h.Number]
	before := *p
	switch {
	case h.Name == p.identity && h.Start == p.start:
		return true
	case p.identity == "" || h.Name != p.identity && h.Run > p.run || h.Name == p.identity && h.Start > p.start:
		p.identity, p.run, p.start = h.Name, h.Run, h.Start
		c.noteRun(h.Number, h.Run)
	default:
		return false
	}
	switch {
	case before.identity == "":
	case before.identity != h.Name:
		c.forgetSaid(h.Number)
		c.spoilAll(1 << h.Number)
	default:
		c.restarted(h.Number)
	}
	return true
}

// noteRun notes how often a voter was made again after its state was lost, as some voter says.
func (c *client) noteRun(v int, run uint64) {
	if v >= len(c.peers) {
		return
	}
	before := c.stamps[v]
	if c.stamps[v].Renew(run); c.stamps[v] != before {
		c.refused = c.refused || (c.stage == claiming || c.stage == reserving) && c.peers[v].accepts
	}
}

// restarted lets a voter that started again say again that it has the requests that are inside by its vote. Others that have it are given
// up.
func (c *client) restarted(v int) {
	for _, l := range c.locks {
		switch {
		case l.shown.Phase == qlock.Idle:
			l.disclaim(1 << v)
		case l.Votes()>>v&1 == 0:
		case l.shown.Phase == qlock.Inside:
			l.remind()
		default:
			l.askAgain()
		}
	}
}

// noteIncarnation notes which incarnation of a voter a message is of. One of which only the lapses grew let a vote of this session go.
func (c *client) noteIncarnation(h wire.Header) {
	p := &c.peers[h.Number]
	before, said := p.said, qlock.Incarnation{Run: h.Run, Start: h.Start, Lapses: h.Lapses}
	if p.stale = false; said == before {
		return
	}
	for _, l := range c.locks {
		if l.LockClient == nil {
			continue
		}
		l.Keeps(h.Number, &c.leases)
		if l.shown.Phase == qlock.Inside && l.shown.Quorum>>h.Number&1 == 1 {
			l.timer.Sooner(dateOf(c.shows()))
		}
	}
	if p.stale = !c.leases.Of[h.Number].Hears(said); p.stale {
		return
	}
	p.said, p.answers, c.leases.Since[h.Number] = said, false, c.shows()
	if said.Run == before.Run && said.Start == before.Start {
		for _, l := range c.locks {
			if l.shown.Phase != qlock.Idle && l.Votes()>>h.Number&1 == 1 {
				l.spoil()
			}
		}
	}
	if c.isBusy() {
		c.heartbeat()
	}
}

// acknowledge notes that a voter acknowledged a heartbeat, or a claim, that left at this time.
func (c *client) acknowledge(v int, left time.Duration) {
	p := &c.peers[v]
	isFirst := !p.answers
	c.leases.Of[v].Renews(p.said, left)
	p.answers = true
	for _, l := range c.locks {
		if isFirst && l.shown.Phase == qlock.Idle || l.shown.Phase == qlock.Inside && l.held == nil {
			l.pump() // it may have waited for this
		}
	}
}

// spoilAll ends all requests to these voters.
func (c *client) spoilAll(voters uint64) {
	for _, l := range c.locks {
		if l.shown.Phase != qlock.Idle && l.shown.Quorum&voters != 0 {
			l.spoil()
		}
	}
}

// control takes a control line of a voter: one with numbers only, or that a request is gone.
func (c *client) control(v int, line []byte) {
	if says, err := qlock.ReadVoterSays(line); err == nil {
		c.hear(v, says)
		return
	}
	if says, err := qlock.ReadLockSays(line); err == nil && says.Kind == qlock.LockGone {
		c.gone(string(says.Lock), says.Stamp)
	}
	if told, ok := wire.ReadTold(line); ok && told.Kind == wire.Turned {
		c.turned(v, told)
	}
}

// hear takes a control line of a voter that has numbers only.
func (c *client) hear(v int, says qlock.VoterSays) {
	mine := says.Number == c.header.Number && says.First == c.header.Epoch && c.header.Epoch > 0
	switch says.Kind {
	case qlock.Leaving:
		c.peers[v].heard = -time.Hour
		c.avoid()
	case qlock.Quiet:
		c.isQuiet(v, says.First)
	case qlock.RunIs:
		c.noteRun(says.Number, says.First)
	case qlock.NumberIs:
		if c.stage == choosing {
			c.noteNumber(v, says.Number, says.First, int(says.Second))
		}
	case qlock.Claimed, qlock.Denied:
		if c.stage == claiming && says.Number == c.asked && says.First == c.claims.Claimed(c.asked) || mine {
			c.noteClaim(v, says.Kind == qlock.Claimed, says.First, says.Second, says.Third)
		} else if says.Kind == qlock.Claimed && c.wants {
			c.noteBrought(v, brought{says.Number, says.First, says.Second, says.Third})
		}
	case qlock.Opened:
		if mine && !c.peers[v].stale {
			c.opened(v, says.Second, says.Third, says.Fourth, says.Fifth)
		}
	case qlock.Unknown:
		if mine {
			c.claimAgain(v)
		}
	case qlock.Closed, qlock.Taken:
		if mine {
			c.isOverAt(v)
		}
	}
}

// isQuiet notes that a voter takes no new request for so many milliseconds, at most a TTL.
func (c *client) isQuiet(v int, left uint64) {
	if most := uint64(c.ttl.Milliseconds()); left > most {
		left = most
	}
	c.peers[v].quiet = c.shows() + time.Duration(left)*time.Millisecond
	c.avoid()
}

// avoid lets requests that wait for a silent voter ask others, if they would do.
func (c *client) avoid() {
	for _, l := range c.locks {
		if l.waitsFor(c.avoided()) {
			l.askAgain()
		}
	}
}

// noteNumber notes what a voter says of a number.
func (c *client) noteNumber(v, which int, epoch uint64, state int) {
	c.seen[which] = greatest(c.seen[which], epoch)
	if state == 0 || c.states[which] == 1 {
		c.states[which] = state
	}
	c.replied |= 1 << v
}

// noteClaim notes a voter's reply to a claim.
func (c *client) noteClaim(v int, granted bool, epoch, base, reserved uint64) {
	if !granted {
		c.refused = c.refused || c.header.Epoch == 0
		return
	}
	if base > qlock.MaxStamp || !c.claims[c.asked].Accepts(uint8(v), epoch, base) {
		return // no stamp is above that base
	}
	if p := &c.peers[v]; p.claimed == 0 && !p.stale {
		c.acknowledgeFirst(v)
	}
	c.noteStamps(v, base, reserved)
}

// noteBrought notes the number that a voter chose for this session. One that came after the session chose another one is given back.
func (c *client) noteBrought(v int, got brought) {
	p := &c.peers[v]
	switch {
	case got.epoch == 0 || got.base > qlock.MaxStamp:
	case c.stage != choosing:
		c.takesBack(v, got.number, got.epoch)
	default:
		if before := p.brought; before.epoch > 0 && (before.number != got.number || before.epoch != got.epoch) {
			c.takesBack(v, before.number, before.epoch)
		}
		if p.brought = got; !p.stale {
			c.acknowledgeFirst(v)
		}
	}
}

// acknowledgeFirst notes that a voter heard this session since its first word left, unless that was long ago.
func (c *client) acknowledgeFirst(v int) {
	if !c.wants || c.shows()-c.left < c.ttl/4 {
		c.acknowledge(v, c.left)
	}
}

// claimAgain claims the number at a voter that does not know this session, once for each heartbeat.
func (c *client) claimAgain(v int) {
	if p := &c.peers[v]; p.claimed < c.header.Seq {
		p.claimed = c.header.Seq
		c.tell(v, qlock.ClientSays{Kind: qlock.ClaimStamps, Number: c.header.Number, First: c.header.Epoch, Second: firstBlock})
	}
}

// opened takes the reply to a heartbeat.
func (c *client) opened(v int, base, reserved, seq, requests uint64) {
	p := &c.peers[v]
	if left, ok := p.sent[seq]; ok {
		if c.Wrong.LeaseFromReply {
			left = c.shows()
		}
		c.acknowledge(v, left)
	}
	p.requests = requests
	if c.draining && requests == 0 && c.idle > 0 && seq >= c.idle {
		p.drained = true
	}
	if p.drained && !p.closed {
		c.tell(v, qlock.ClientSays{Kind: qlock.Close})
	}
	c.noteStamps(v, base, reserved)
}

// isOverAt notes that this session is over at a voter. It ends once the other voters contain no quorum. One that is opened takes another
// number then, and waits for no silent voter.
func (c *client) isOverAt(v int) {
	p := &c.peers[v]
	if c.draining && p.drained {
		p.closed = true
		c.finish()
		return
	}
	p.accepts, p.taken = false, true
	c.stamps[v].Forget()
	c.spoilAll(1 << v)
	switch others := ^c.takers(); {
	case c.stage == reserving:
		c.refused = c.refused || !c.hasQuorum(others&^c.silent())
	case !c.hasQuorum(others):
		c.log("client %d lost its session", c.id)
		c.isOver()
		c.opensAgain(c.upTo(c.ttl))
	}
}

// takers returns the voters that said that this session is over.
func (c *client) takers() (mask uint64) {
	for v := range c.peers {
		if c.peers[v].taken {
			mask |= 1 << v
		}
	}
	return mask
}

// silent returns the voters of which nothing came for a while.
func (c *client) silent() uint64 {
	heard, _ := c.heard()
	return qlock.Silent(heard, late, uint64(c.over))
}

// drain begins to close the session.
func (c *client) drain() {
	c.log("client %d closes its session", c.id)
	c.draining, c.idle = true, 0
	for _, l := range c.locks {
		l.unwant()
		l.pump()
	}
	c.heartbeat()
}

// finish ends a drain once all voters that are there have closed the session, and they contain a quorum.
func (c *client) finish() {
	var closed, open uint64
	for v := range c.peers {
		if p := &c.peers[v]; p.closed {
			closed |= 1 << v
		} else if p.accepts {
			open |= 1 << v
		}
	}
	if c.draining && open&^c.silent() == 0 && c.hasQuorum(closed) {
		c.log("client %d closed its session", c.id)
		c.Incidents["sessions closed"]++
		c.isOver()
		c.opensAgain(c.upTo(c.ttl))
	}
}

// round does what time asks for: heartbeats, reminders, and other quorums in place of those with a silent voter.
func (c *client) round() {
	if c.stage != isOpen {
		c.goesOn()
		return
	}
	if c.rests > c.now && !c.draining {
		c.drain()
	}
	if c.shows()-c.beat >= c.beats {
		c.heartbeat()
	} else {
		c.lapse()
	}
	avoided := c.avoided()
	for _, l := range c.locks {
		switch {
		case !l.isBusy():
		case l.shown.Phase == qlock.Idle:
			l.pump()
		case l.isStuck(avoided):
			l.askAgain()
		case l.timer.IsDue(dateOf(c.shows())):
			l.remind()
		}
	}
	if c.draining {
		c.finish()
	}
}

// flush sends what was made to be sent.
func (c *client) flush() {
	if c.stage == isEnded {
		return
	}
	for v := range c.peers {
		if len(c.out[v]) == 0 {
			continue
		}
		box := wire.VoterBox(c.cluster.ID, v, wire.NoUser)
		c.header.Split(nil, c.out[v], func(message []byte) {
			if !c.cut {
				c.broker.send(c.now, box, message)
			}
		})
		c.out[v] = c.out[v][:0]
	}
}
