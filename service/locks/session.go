package locks

// How a client gets its number, and why it needs no file.
//
// A session is a number of 0 to 63, an epoch and a name. Each voter keeps, for each number, the newest epoch, the name of
// its session, and the highest stamp that was reserved.
//
//  1. want STAMPS, and hello: each voter claims a number for the session, the first one that is free at or
//     behind a hash of the session, under the next epoch there, unless others wait for one. It says which
//     numbers are free besides, and their epochs. If a quorum claimed the same number under the same epoch,
//     the session claims that, too, and has it: one trip.
//  2. Else claim NUMBER EPOCH STAMPS, of the number that most voters chose, or of one that is free, under one
//     more than any epoch that was seen. A voter accepts an epoch once, and only if the number is free, or its
//     session was silent for the TTL. It says its base, which is what was reserved there so far, and reserves
//     so many stamps above it. Voters of older programs know no want, so with them it is these two trips.
//  3. A quorum accepted. Any two quorums share a voter, so an epoch has one session. The number is
//     claimed at the other voters, too, as soon as they say that they don't know the session.
//     What voters claimed besides is given back: the session claims it, takes that back, and says so (drop). What
//     it may not claim any more, and what it did not hear of, the voter ends (want 0).
//  4. Heartbeats carry what is to be reserved besides. A quorum is asked under a stamp only if each of its
//     voters said that the stamp is above the session's base there, and reserved there. Voters take
//     no other one.
//
// While a plan is exchanged, a quorum is one of each plan (plans.go).
//
// Two quorums that are asked share a voter. There the base of the later session is at least what
// the earlier one reserved, so no stamp is used twice. That is all that a client made anew needs
// (qlock_client_anew).

import (
	"bytes"
	"context"
	"errors"
	"fmt"
	"math"
	"math/rand"
	"strconv"
	"sync/atomic"
	"time"

	"calvundek.example/service/internal/boot"
	"calvundek.example/service/internal/claims"
	"calvundek.example/service/internal/config"
	"calvundek.example/service/internal/level"
	"calvundek.example/service/internal/wire"
	"calvundek.example/service/qlock"
	"calvundek.example/service/transport"
)

const (
	firstBlock = 64              // stamps that are reserved with a claim
	mostBlock  = 4096            // stamps that are reserved at once; until then each block is twice the one before
	brief      = 2 * time.Second // for which a claim waits for a quorum
)

// errTaken is why a claim failed: another session was faster.
var errTaken = errors.New("locks: another session has the number")

// voterStart is one start of a voter.
type voterStart struct {
	identity string
	run      uint64 // how often the voter was made again
	start    uint64 // how often it started
}

// peer is a voter, as a session knows it.
type peer struct {
	voterStart // the latest one that was heard

	quiet    time.Time                // until then it takes only requests of who is inside
	mark     string                   // of the newest plan that it has, once it said so
	oldest   uint64                   // the number of the oldest plan that it said is not retired
	asked    time.Time                // when it was asked for its plan
	awaited  bool                     // it was asked, and did not send it yet
	heard    time.Time                // when a message came
	said     qlock.Incarnation        // the latest one that it said
	answers  bool                     // it acknowledged a heartbeat, or the claim, since then
	sent     map[uint64]time.Duration // when heartbeats left that it did not acknowledge, by uptime
	accepts  bool                     // it accepted this session's claim of its number
	base     uint64                   // all stamps of this session are above it there
	claimed  uint64                   // with which heartbeat the number was claimed there again
	taken    bool                     // it said that this session is over
	level    uint64                   // of the cluster, as it knows it
	stale    bool                     // the message that is taken is of an earlier incarnation
	brought  brought                  // the number that it chose for this session, which wants one
	requests uint64                   // how many of this session it said that it has
	drained  bool                     // it has no request of this session any more
	closed   bool                     // it ended this session
	noted    bool                     // it has the session's note
	notes    int                      // how many heartbeats it heard without saying so

	bundles   bool // it reads bundles, and knows the session's process
	processes int  // how many heartbeats it heard without saying so

	opened  qlock.VoterSays // what it said last to a heartbeat
	entry   uint64          // the number of the session's entry on the roll of its process there, 0 if it said none
	joined  bool            // the last heartbeat to it was in a beat
	refuses bool            // it says which beats it does not acknowledge
	since   uint64          // the oldest plan of which a request is left, as the last heartbeat said that was in none
	rolls   int             // how many heartbeats it heard without making an entry
}

// brought is a number that a voter chose for a session, and claimed for it. Without an epoch it is none.
type brought struct {
	number                int
	epoch, base, reserved uint64
}

// session is a client's number, and what the voters say of it.
type session struct {
	header wire.Header // also what is to be reserved
	peers  []peer
	leases qlock.Leases    // the leases of the voters, and since when their incarnations are known, by uptime
	stamps qlock.AllStamps // under which stamps this session may ask each voter

	renewed  uint64    // the voters that acknowledged something since the last round
	beat     time.Time // when the last heartbeat left
	used     uint64    // no stamp that this number used so far is above it
	block    uint64    // how many stamps were reserved last
	idle     uint64    // the first heartbeat since nothing is asked or held any more, 0 if something is
	draining bool
	drained  chan struct{} // closed once all is given back
	done     bool          // it is closed

	// while a number is claimed
	opening bool
	claims  *claims.Numbers
	*choice
	asked    int
	failed   int           // the number whose claim failed last, -1 if none did
	choosing bool          // it wants a number, of which none is chosen yet
	left     time.Duration // when the first word left that could bring this name a number, by uptime; 0 if none did
	refused  bool
	crowd    wire.Told // how many sessions there are, as a voter said
	isFree   bool      // a voter said that a number is free
	wants    string    // the lock for which a number is wanted, "" if that is not known
	wishes   *wishes   // the locks of all calls for which one is wanted, nil without shards

	short *atomic.Pointer[shortage] // of this call, nil before no number was to be had

	wanted  time.Time // when a voter said last that others wait for a number
	wasUsed bool      // a lock was asked for

	givesBack bool      // it is drained since it wants nothing any more
	unused    time.Time // since when nothing is asked or held, at most a round ago
	replied   uint64    // the voters that replied to what is asked now
}

// choice is what voters say of numbers while one is chosen.
type choice struct {
	states [qlock.MaxClients]int    // the worst that a voter said of a number: 0 taken, 2 silent for the TTL, 1 free
	seen   [qlock.MaxClients]uint64 // the newest epoch that a voter said of a number
}

func newSession(cluster *config.Cluster, name string, own *claims.Numbers) session {
	s := session{asked: -1, failed: -1, choice: &choice{}, claims: own, short: &atomic.Pointer[shortage]{}, unused: time.Now(),
		drained: make(chan struct{}), leases: qlock.NewLeases(leaseOf(cluster.TTL.Duration)), stamps: qlock.NewAllStamps(),
		header: wire.Header{Cluster: cluster.ID, Kind: wire.FromClient, Name: name, Level: level.Newest}}
	s.meet(len(cluster.Names()))
	return s
}

// meet lets a session have at least so many voters. New ones were heard just now.
func (s *session) meet(voters int) {
	for len(s.peers) < voters {
		s.leases.Since[len(s.peers)] = uptime()
		s.peers = append(s.peers, peer{sent: map[uint64]time.Duration{}, heard: time.Now()})
	}
}

// begin gets a number, and reserves its first stamps. If another session was faster it takes another number.
func (c *Client) begin(ctx context.Context) error {
	c.opening = true
	for c.short.Store(nil); ; {
		if err := c.choose(ctx); err != nil {
			c.wantsNone()
			return c.withoutNumber(ctx, err)
		}
		err := c.claim(ctx)
		if err == nil {
			err = c.reserveFirst(ctx)
		}
		if err == nil {
			c.opening, c.unused = false, time.Now() // it wanted a number until now
			c.choice = nil
			c.short.Store(nil)
			c.note("session", "number=%s epoch=%d", c.shownNumber(), c.header.Epoch)
			return nil
		}
		if errors.Is(err, errTaken) {
			c.notesShort()
		}
		c.abandon() // also if the client has ended meanwhile: else the number stays taken for a TTL
		if c.why != nil {
			return c.why
		}
		if ctx.Err() != nil {
			return c.withoutNumber(ctx, err)
		}
	}
}

// notesShort notes that a quorum said that no number is to be had, or others were faster.
func (c *Client) notesShort() {
	c.short.Store(&shortage{c.crowd, c.wants, time.Now()})
}

// shortage is that no number was to be had last.
type shortage struct {
	crowd wire.Told // which sessions there were
	lock  string    // for which it was wanted, "" if that is not known
	at    time.Time
}

// withoutNumber returns why a session has no number. If the context ended, and voters had said before that none is to be had, it is that,
// whatever was asked last.
func (c *Client) withoutNumber(ctx context.Context, err error) error {
	if short := c.short.Load(); short != nil && c.why == nil && ctx.Err() != nil {
		return crowded(short.crowd, ctx.Err())
	}
	return err
}

// reserveFirst reserves the first stamps of a number that a quorum gave to this session. Where voters know of other stamps, what came
// with the claim is not enough.
func (c *Client) reserveFirst(ctx context.Context) error {
	now := time.Now()
	for v := range c.peers {
		c.peers[v].heard = now
	}
	claim := c.claims[c.asked].Shows()
	if c.used = claim.Base; c.used < c.crowd.Highest && c.crowd.Highest < qlock.MaxStamp/2 {
		c.used = c.crowd.Highest // where numbers go round, who got one later asks behind those that wait for a lock already
	}
	c.header.Number, c.header.Epoch, c.header.Reserved = c.asked, claim.Epoch, c.used+firstBlock
	first := c.used + 1
	isReserved := func() bool { return c.refused || c.hasQuorum(c.owners(first)) }
	if isReserved() {
		return nil
	}
	err := c.rounds(ctx, func() { c.heartbeat(time.Now()) }, isReserved)
	if err == nil && c.refused {
		err = errTaken
	}
	return err
}

// abandon gives a number back that some voters gave to this session, or will give it by a claim that is under way. It never
// claims this epoch again: the line that gives it back may come late. Locks of this number are forgotten.
func (c *Client) abandon() {
	c.locks, c.busy, c.holds = map[string]*lock{}, map[*lock]struct{}{}, 0
	if c.header.Epoch > 0 { // a quorum gave the number, and voters that heard the session since then take no claim back
		for v := range c.peers {
			c.out[v] = c.out[v][:0]
		}
		c.say(qlock.ClientSays{Kind: qlock.Close})
		c.flush()
	}
	c.header.Number, c.header.Epoch, c.header.Reserved = 0, 0, 0
	epoch := c.claimed()
	for v := range c.peers {
		c.peers[v].sent = map[uint64]time.Duration{}
		c.forgetSaid(v)
		c.forgetLease(v)
		c.out[v] = c.out[v][:0]
		c.tell(v, qlock.ClientSays{Kind: qlock.Drop, Number: c.asked, First: epoch})
	}
	c.claims[c.asked].GivesUp()
	c.failed = c.asked
	c.wantsNone()
}

// wantsNone gives back what voters chose for this session, also what it did not hear of. They take words in the order in which they leave.
func (c *Client) wantsNone() {
	for v := range c.peers {
		if got := c.peers[v].brought; got.epoch > 0 {
			c.takesBack(v, got.number, got.epoch)
		}
		c.peers[v].brought = brought{}
		c.endWant(v)
	}
	c.flush()
}

// endWant lets a voter end what it chose for this session, if nothing came under that.
func (c *Client) endWant(voter int) {
	c.out[voter] = wire.Ask{Kind: wire.WantsNumber}.Append(c.out[voter])
}

// takesBack gives a number back that a voter chose for this session, and that it does not take: it claims that, and takes it back at once.
// One that it may not claim under this epoch any more it can't take back, and the voter ends it. While it claims the number under another
// epoch it says nothing: once that is over, or the voter heard nothing of it for a TTL, the number is free there.
func (c *Client) takesBack(voter, number int, epoch uint64) {
	own := &c.claims[number]
	switch shown := own.Shows(); {
	case shown.Epoch > 0:
	case shown.Newest >= epoch:
		c.endWant(voter)
	default:
		own.Sees(epoch - 1)
		own.Next()
		own.GivesUp()
		c.tell(voter, qlock.ClientSays{Kind: qlock.Drop, Number: number, First: epoch})
	}
}

// choose asks the voters which numbers are free, and chooses one. It waits for one if there is none.
func (c *Client) choose(ctx context.Context) error {
	for {
		c.header.Seq++ // what takes wants of before back, and comes late, is of an earlier message
		c.replied, c.crowd, c.seen = 0, wire.Told{}, [qlock.MaxClients]uint64{}
		for i := range c.states {
			c.states[i] = 1
		}
		c.forgetAll()
		c.choosing = true
		err := c.rounds(ctx, c.askForNumbers, c.isAnswered)
		c.choosing = false
		if err != nil {
			return err
		}
		isChosen := c.takesBrought() || c.pick()
		for number, epoch := range c.seen {
			c.claims[number].Sees(epoch)
		}
		if isChosen {
			return nil
		}
		c.flush()
		c.notesShort()
		if c.config.DontWait {
			return crowded(c.crowd, nil)
		}
		if err := c.awaitsFree(ctx); err != nil {
			return err
		}
		if c.wishes != nil && !c.isFree {
			c.wants = c.wishes.next(c.wants) // that lock may have a number
		}
	}
}

// askForNumbers asks all voters for a number, and which ones are free, and says for which lock one is wanted.
func (c *Client) askForNumbers() {
	if c.left == 0 {
		c.left = uptime()
	}
	for v := range c.peers {
		if c.wants != "" {
			c.out[v] = wire.Ask{Kind: wire.WantsFor, Lock: c.wants}.Append(c.out[v])
		}
		c.out[v] = wire.Ask{Kind: wire.WantsNumber, Number: firstBlock, Lock: c.wants}.Append(c.out[v])
		c.tell(v, qlock.ClientSays{Kind: qlock.Hello})
	}
}

// awaitsFree waits until a voter says that a number is free, or one is wanted for another lock, and at most for a tenth of the TTL.
func (c *Client) awaitsFree(ctx context.Context) error {
	timer := time.NewTimer(c.cluster.TTL.Duration / 10)
	defer timer.Stop()
	var grown <-chan struct{}
	if c.wishes != nil {
		grown = c.wishes.grown
	}
	for c.isFree = false; !c.isFree && c.why == nil; {
		select {
		case <-grown:
			return nil
		case m := <-c.messages:
			c.message(m)
			c.flush()
		case <-c.grown():
			c.takesWaiting()
			c.flush()
		case f := <-c.read:
			f()
		case <-timer.C:
			return nil
		case <-ctx.Done():
			return ctx.Err()
		}
	}
	return nil
}

// takesBrought takes the number that each voter of a quorum chose under one epoch, and returns whether there is one. The other numbers that
// voters chose it gives back.
func (c *Client) takesBrought() bool {
	for v := range c.peers {
		got := c.peers[v].brought
		voters := c.bringers(got)
		if got.epoch == 0 || !c.hasQuorum(voters) || c.claims[got.number].Shows().Newest >= got.epoch {
			continue
		}
		c.asked = got.number
		c.claims[c.asked].Sees(got.epoch - 1)
		c.claims[c.asked].Next()
		c.takeBackBut(got.number, got.epoch)
		for w := range c.peers {
			if p := &c.peers[w]; voters>>w&1 == 1 && c.claims[c.asked].Accepts(uint8(w), got.epoch, p.brought.base) {
				c.noteStamps(w, p.brought.base, p.brought.reserved)
			}
		}
		return true
	}
	return false
}

// bringers returns the voters that chose a number under the same epoch.
func (c *Client) bringers(got brought) (mask uint64) {
	for v := range c.peers {
		if p := &c.peers[v]; p.brought.number == got.number && p.brought.epoch == got.epoch {
			mask |= 1 << v
		}
	}
	return mask
}

// takeBackBut gives back what voters chose except a number under an epoch, that of older epochs first: who claims a later one claims no
// older one any more.
func (c *Client) takeBackBut(number int, epoch uint64) {
	for {
		least := -1
		for v := range c.peers {
			got := c.peers[v].brought
			isLeft := got.epoch > 0 && (got.number != number || got.epoch != epoch)
			if isLeft && (least < 0 || got.epoch < c.peers[least].brought.epoch) {
				least = v
			}
		}
		if least < 0 {
			return
		}
		got := c.peers[least].brought
		c.peers[least].brought = brought{}
		c.takesBack(least, got.number, got.epoch)
	}
}

// pick chooses a number that is free, or else one whose session is silent, and returns whether there is one. First comes the one that most
// voters chose for this session, and what they chose besides is given back. A number whose epochs are spent has no session any more.
func (c *Client) pick() bool {
	c.spurn()
	c.asked = c.mostBrought()
	for _, want := range []int{1, 2} {
		for i, first := 0, rand.Intn(qlock.MaxClients); i < qlock.MaxClients && c.asked < 0; i++ {
			if number := (first + i) % qlock.MaxClients; c.states[number] == want && c.newestEpoch(number) < math.MaxUint64 {
				c.asked = number
			}
		}
	}
	if c.asked < 0 {
		c.takeBackBut(-1, 0)
		return false
	}
	var epoch uint64 // the newest one under which a voter chose it
	for v := range c.peers {
		if got := c.peers[v].brought; got.number == c.asked {
			epoch = greatest(epoch, got.epoch)
		}
	}
	if newest := c.newestEpoch(c.asked); epoch > newest {
		c.takeBackBut(c.asked, epoch)
		c.claims[c.asked].Sees(epoch - 1)
	} else {
		c.takeBackBut(-1, 0)
		c.claims[c.asked].Sees(newest)
	}
	return true
}

// spurn takes a number as taken that a voter has as this session's by a claim that it took back: the voter did not hear so, and would refuse
// another claim.
func (c *Client) spurn() {
	for v := range c.peers {
		if got := c.peers[v].brought; got.epoch > 0 && c.claims[got.number].Shows().Newest >= got.epoch {
			c.states[got.number] = 0
		}
	}
}

// mostBrought returns the number that most voters chose, of those that no voter said are taken, -1 if there is none. One whose claim just
// failed is none: who refused it may not show why.
func (c *Client) mostBrought() int {
	number, most := -1, 0
	var counts [qlock.MaxClients]int
	for v := range c.peers {
		got := c.peers[v].brought
		if got.epoch == 0 || c.states[got.number] == 0 || got.number == c.failed || c.newestEpoch(got.number) == math.MaxUint64 {
			continue
		}
		if counts[got.number]++; counts[got.number] > most {
			number, most = got.number, counts[got.number]
		}
	}
	return number
}

// newestEpoch returns the newest epoch of a number of which this session knows.
func (c *Client) newestEpoch(number int) uint64 {
	return greatest(c.seen[number], c.claims[number].Shows().Newest)
}

// claim claims the number that was chosen, under a new epoch, unless a quorum has done that for it.
func (c *Client) claim(ctx context.Context) error {
	if c.refused, c.block = false, firstBlock; c.isAccepted() {
		return nil
	}
	epoch := c.claims[c.asked].Next()
	c.forgetAll()
	short, cancel := context.WithTimeout(ctx, brief)
	defer cancel()
	claim := qlock.ClientSays{Kind: qlock.ClaimStamps, Number: c.asked, First: epoch, Second: firstBlock}
	if err := c.rounds(short, func() { c.say(claim) }, func() bool { return c.refused || c.isAccepted() }); err != nil {
		return err
	}
	if !c.isAccepted() {
		return errTaken
	}
	c.refused = false
	return nil
}

// claimed returns the epoch that is claimed, 0 if none is.
func (c *Client) claimed() uint64 { return c.claims.Claimed(c.asked) }

// isAccepted returns whether a quorum accepted the claim.
func (c *Client) isAccepted() bool { return c.hasQuorum(c.claims[c.asked].Shows().Accepted) }

// isAnswered returns whether a quorum replied.
func (c *Client) isAnswered() bool { return c.hasQuorum(c.replied) }

// say says a control line to all voters.
func (c *Client) say(says qlock.ClientSays) {
	for v := range c.peers {
		c.tell(v, says)
	}
}

// tell says a control line to a voter.
func (c *Client) tell(voter int, says qlock.ClientSays) {
	out, err := says.Append(c.out[voter])
	if err != nil {
		panic(fmt.Sprintf("%+v has no line: %v", says, err))
	}
	c.out[voter] = out
}

// rounds says something again and again until it is done.
func (c *Client) rounds(ctx context.Context, say func(), done func() bool) error {
	for wait := 100 * time.Millisecond; ; wait += 100 * time.Millisecond {
		c.move(time.Now())
		say()
		c.flush()
		timer := time.NewTimer(wait)
		for waits := true; waits && !done(); {
			select {
			case m := <-c.messages:
				c.message(m)
			case <-c.grown():
				c.takesWaiting()
			case f := <-c.read:
				f()
			case <-timer.C:
				waits = false
			case <-ctx.Done():
				timer.Stop()
				return because{ErrNoQuorum, ctx.Err()}
			}
		}
		timer.Stop()
		if c.why != nil {
			return c.why
		}
		if done() {
			return nil
		}
	}
}

// forgetSaid forgets what a voter said of a number.
func (s *session) forgetSaid(voter int) {
	p := &s.peers[voter]
	s.stamps[voter].Forget()
	p.accepts, p.taken, p.base, p.claimed = false, false, 0, 0
	p.noted, p.notes = false, 0
	p.bundles, p.processes, p.refuses = false, 0, false
	p.opened = qlock.VoterSays{}
	s.forgetRoll(voter)
	p.brought = brought{}
}

// forgetAll forgets what voters said of numbers, and to sessions before.
func (c *Client) forgetAll() {
	for v := range c.peers {
		c.forgetSaid(v)
		c.forgetLease(v)
	}
}

// forgetLease forgets what a voter said to the session before, for another one.
func (s *session) forgetLease(voter int) {
	s.leases.Of[voter], s.leases.Since[voter] = qlock.NewLease(), uptime()
	s.peers[voter].said, s.peers[voter].answers = qlock.Incarnation{}, false
}

// use notes that a stamp is used. It reserves more before the block is spent.
func (c *Client) use(stamp uint64, now time.Time) {
	if stamp > c.used {
		c.used = stamp
	}
	c.reserve(stamp, now)
}

// reserve asks the voters to keep that stamps above this one may be used.
func (c *Client) reserve(stamp uint64, now time.Time) {
	if c.header.Reserved >= stamp+c.block/2 {
		return // asked already; heartbeats repeat it
	}
	c.stats.Reservations++
	if c.block < mostBlock {
		c.block *= 2
	}
	c.header.Reserved = stamp + c.block
	c.heartbeat(now)
}

// noteStamps notes which stamps are this session's at a voter: those above a base, up to what is
// reserved.
func (c *Client) noteStamps(voter int, base, reserved uint64) {
	p := &c.peers[voter]
	if reserved > qlock.MaxStamp || base > reserved {
		c.stats.Refused++
		return
	}
	accepted, before := p.accepts, c.stamps[voter]
	p.accepts, p.taken, p.base = true, false, greatest(p.base, base)
	if c.stamps[voter].Hear(p.run, base, reserved); accepted && c.stamps[voter] == before {
		return
	}
	for l := range c.busy {
		switch {
		case l.shown.Phase == qlock.Idle:
			c.pump(l)
		case c.isBelow(l, voter):
			c.askAgain(l)
		}
	}
}

// isBelow returns whether a request waits for a voter that does not take it any more: its stamp is not above the base there. Such a
// voter started from an older copy of its state, and got to know this session anew.
func (c *Client) isBelow(l *lock, voter int) bool {
	return l.shown.Phase == qlock.Asking && l.shown.Stamp <= c.peers[voter].base && (l.shown.Quorum&^l.Votes())>>voter&1 == 1
}

func greatest(a, b uint64) uint64 {
	if a > b {
		return a
	}
	return b
}

// owners returns the voters that said that a stamp is this session's, and that acknowledged something: their votes count at once. Who waits
// for that holds up others by the votes that it has.
func (c *Client) owners(stamp uint64) (mask uint64) {
	for v := range c.peers {
		if c.peers[v].answers {
			mask |= 1 << v
		}
	}
	return mask & c.stamps.Owners(stamp)
}

// floor returns the highest base that a voter told this session.
func (c *Client) floor() (base uint64) {
	for v := range c.peers {
		base = greatest(base, c.peers[v].base)
	}
	return base
}

// mayAsk returns whether a quorum may be asked under a stamp: it is this session's at each voter of
// it, and at a quorum of each plan.
func (c *Client) mayAsk(quorum, stamp uint64) bool {
	owners := c.owners(stamp)
	return quorum&^owners == 0 && c.hasQuorum(owners)
}

// heartbeat shows that the session is there, and waits for no other session: something needs it now.
func (c *Client) heartbeat(now time.Time) {
	c.show(now)
	c.mayWait = false
}

// show shows that the session is there. What may have been lost before is lost first: replies to this heartbeat say nothing of the time
// before it. It counts from now, and leaves later, so no vote counts for longer than voters grant it.
func (c *Client) show(now time.Time) {
	c.lapse()
	c.beat = now
	c.header.Seq++
	switch {
	case len(c.busy) > 0:
		c.idle = 0
	case c.idle == 0:
		c.idle = c.header.Seq
	default:
		c.disclaim(now)
	}
	up, open := uptime(), qlock.ClientSays{Kind: qlock.Open, First: c.oldest()}
	for v := range c.peers {
		p := &c.peers[v]
		for seq, left := range p.sent {
			if up-left > c.cluster.TTL.Duration {
				delete(p.sent, seq)
			}
		}
		if p.closed {
			continue
		}
		if p.sent[c.header.Seq] = up; c.joins(v) {
			continue
		}
		p.since = open.First
		c.tell(v, open)
		c.sayNotes(v, now)
		c.sayProcess(v)
		c.sayRoll(v)
		if level.Newest >= level.Greets && p.level >= level.Greets {
			c.tell(v, qlock.ClientSays{Kind: qlock.Greet})
		}
		if c.draining && p.drained {
			c.closeAt(v)
		}
	}
}

// closeAt tells a voter to end the session, and waits for no other session. Heartbeats repeat it.
func (c *Client) closeAt(voter int) {
	c.tell(voter, qlock.ClientSays{Kind: qlock.Close})
	c.mayWait = false
}

// disclaim ends what voters still have of a session that wants nothing: a RELEASE was lost.
func (c *Client) disclaim(now time.Time) {
	var voters uint64
	for v := range c.peers {
		if c.peers[v].requests > 0 {
			voters |= 1 << v
		}
	}
	if voters == 0 {
		return
	}
	for _, l := range c.locks {
		c.disclaimOf(l, voters, now)
	}
}

// disclaimOf tells voters again that the requests of a lock are over.
func (c *Client) disclaimOf(l *lock, voters uint64, now time.Time) {
	if lines, err := l.Disclaim(voters, c.room[:0]); err == nil {
		c.room = lines
		c.send(l, lines, now)
	}
}

// uptime is a clock that also goes on while the machine sleeps.
func uptime() time.Duration { return boot.Uptime() }

// late is what the time is now to the calls that say who is silent: times before it are of the past.
const late uint64 = math.MaxInt64

// since returns a time as these calls take it. One that is nobody's is 0.
func since(at, now time.Time) uint64 { return late - uint64(now.Sub(at)) }

// silence is for how long nothing comes of a voter until it is silent: for the fail-over time, or, if the session rests, since the heartbeat
// before it.
func (c *Client) silence() uint64 {
	most := c.config.FailOver
	if c.rests() {
		most += c.pause()
	}
	return uint64(most)
}

// heard returns when each voter was heard, and when its quiet time ends.
func (c *Client) heard(now time.Time) (heard, quiet []uint64) {
	times := make([]uint64, 2*len(c.peers))
	heard, quiet = times[:len(c.peers)], times[len(c.peers):]
	for v := range c.peers {
		heard[v], quiet[v] = since(c.peers[v].heard, now), since(c.peers[v].quiet, now)
	}
	return heard, quiet
}

// deaf is for how long no quorum of voters is heard until the server of the broker is left: it may live, and reach none of them. Who opens a
// session, or only looks, has no lock to lose, and little time.
func (c *Client) deaf() time.Duration {
	if c.opening || c.looks && c.shards == nil {
		return c.cluster.TTL.Duration / 2
	}
	return 2 * c.cluster.TTL.Duration
}

// isDeaf returns whether no quorum of voters was heard for so long. Who only looks hears voters if something is asked.
func (c *Client) isDeaf(now time.Time) bool {
	if c.looks {
		for _, q := range c.questions {
			if now.Sub(q.began) > c.deaf() {
				return true
			}
		}
		return false
	}
	heard, _ := c.heard(now)
	return !c.hasQuorum(^qlock.Silent(heard, late, uint64(c.deaf())))
}

// move goes to the next server of the broker if this one reaches no quorum. Each one has as long.
func (c *Client) move(now time.Time) {
	if c.isDeaf(now) {
		transport.Move(c.carrier, c.deaf())
	}
}

// silent returns the voters of which nothing came for so long.
func (c *Client) silent(now time.Time) uint64 {
	heard, _ := c.heard(now)
	return qlock.Silent(heard, late, c.silence())
}

// avoided returns the voters that are asked only if nobody else would do: they are silent, or quiet.
func (c *Client) avoided(now time.Time) uint64 {
	heard, quiet := c.heard(now)
	return qlock.Avoided(heard, quiet, late, c.silence())
}

// message takes a message of a voter.
func (c *Client) message(m transport.Message) {
	h, lines, err := wire.Read(m.Data)
	session, lines := wire.Addressee(lines)
	if err != nil || h.Cluster != c.header.Cluster || h.Kind != wire.FromVoter || h.Number >= len(c.peers) ||
		m.Sender() != strconv.Itoa(h.Number) || session != "" && session != c.header.Name {
		c.stats.Refused++
		return
	}
	if !c.accepts(h.Coterie) {
		c.stats.Refused++
		if c.recognise(h) {
			c.noteIncarnation(h)
			c.findPlans(h.Number, lines)
		}
		return
	}
	if !c.recognise(h) {
		c.stats.Refused++
		return
	}
	c.peers[h.Number].heard, c.peers[h.Number].level = time.Now(), h.Level
	c.noteIncarnation(h)
	for c.why == nil {
		lock, line, rest, found := wire.Next(lines)
		if !found {
			if len(lines) > 0 {
				c.stats.Refused++
			}
			return
		}
		lines = rest
		if string(lock) == "." {
			c.control(h.Number, line)
		} else if wire.ReadLine(line).From == h.Number && c.header.Epoch > 0 && !c.peers[h.Number].stale {
			c.take(h.Number, lock, line)
		} else {
			c.stats.Refused++
		}
	}
}

// recognise returns whether a message is of the voter that was there before. One that was made again after its state was
// lost takes its place: it forgot whom it granted its votes, so all requests that have one are over. One that started
// again may not know whom it granted its last ones.
func (c *Client) recognise(h wire.Header) bool {
	p := &c.peers[h.Number]
	before := *p
	switch {
	case h.Name == p.identity && h.Start == p.start:
		return true
	case p.identity == "" || h.Name != p.identity && h.Run > p.run || h.Name == p.identity && h.Start > p.start:
		p.voterStart = voterStart{h.Name, h.Run, h.Start}
		c.noteRun(h.Number, h.Run)
	default:
		return false
	}
	c.forgetNotes(h.Number)
	c.forgetBundles(h.Number)
	switch {
	case before.identity == "":
	case before.identity != h.Name:
		c.forgetSaid(h.Number)
		c.spoilAll(1 << h.Number)
	default:
		c.restarted(h.Number)
	}
	return true
}

// noteRun notes how often a voter was made again after its state was lost, as some voter says. What it said of stamps before that counts no
// more: it may not know them.
func (c *Client) noteRun(voter int, run uint64) {
	if voter >= len(c.peers) {
		return
	}
	before := c.stamps[voter]
	if c.stamps[voter].Renew(run); c.stamps[voter] != before {
		c.refused = c.refused || c.opening && c.peers[voter].accepts // it may have accepted another claim of the epoch since
	}
}

// restarted tells a voter that started again which requests are over, and lets it say again that it has those that are inside by its
// vote: until then its replies to heartbeats say nothing of them. Others that have its vote are given up: it may be somebody else's.
func (c *Client) restarted(voter int) {
	now := time.Now()
	for _, l := range c.locks {
		if l.shown.Phase == qlock.Idle {
			c.disclaimOf(l, 1<<voter, now) // that a request is over was perhaps not saved
		}
	}
	for l := range c.busy {
		switch {
		case l.shown.Phase == qlock.Idle || l.Votes()>>voter&1 == 0:
		case l.shown.Phase == qlock.Inside:
			c.remind(l, now)
		default:
			c.askAgain(l)
		}
	}
}

// noteIncarnation notes which incarnation of a voter a message is of. A later one acknowledged no heartbeat yet, so one leaves at once if
// votes are wanted. If only its lapses grew, the voter let a vote of this session go, which may be that of any request: all that have
// its vote from before are over.
func (c *Client) noteIncarnation(h wire.Header) {
	p := &c.peers[h.Number]
	before, said := p.said, qlock.Incarnation{Run: h.Run, Start: h.Start, Lapses: h.Lapses}
	if p.stale = false; said == before {
		return
	}
	for l := range c.busy {
		l.Keeps(h.Number, &c.leases)
		if l.shown.Phase == qlock.Inside && l.shown.Quorum>>h.Number&1 == 1 {
			l.timer.Sooner(time.Now()) // it counts again once the voter says so
		}
	}
	if p.stale = !c.leases.Of[h.Number].Hears(said); p.stale {
		return
	}
	p.said, p.answers, c.leases.Since[h.Number] = said, false, uptime()
	c.forgetRoll(h.Number) // its entry is of before
	if said.Run == before.Run && said.Start == before.Start {
		c.spoilVotes(h.Number)
	}
	if len(c.busy) > 0 {
		c.heartbeat(time.Now())
	}
}

// spoilVotes ends all requests that have the vote of a voter.
func (c *Client) spoilVotes(voter int) {
	for l := range c.busy {
		if l.shown.Phase != qlock.Idle && l.Votes()>>voter&1 == 1 {
			c.spoil(l)
		}
	}
}

// acknowledge notes that a voter acknowledged a heartbeat, or a claim, that left at this time. So votes count for longer.
func (c *Client) acknowledge(voter int, left time.Duration) {
	p := &c.peers[voter]
	isFirst := !p.answers
	c.leases.Of[voter].Renews(p.said, left)
	p.answers = true
	c.renewed |= 1 << voter // the next round tells those that have a lock
	for l := range c.busy {
		switch {
		case isFirst && l.shown.Phase == qlock.Idle:
			c.pump(l) // this voter may be asked now
		case l.shown.Phase == qlock.Inside && l.held == nil && l.shown.Quorum>>voter&1 == 1:
			c.pump(l) // it may have waited for this
		}
	}
}

// spoilAll ends all requests to these voters.
func (c *Client) spoilAll(voters uint64) {
	for l := range c.busy {
		if l.shown.Phase != qlock.Idle && l.shown.Quorum&voters != 0 {
			c.spoil(l)
		}
	}
}

// control takes a control line of a voter: one with numbers only, one with the name of a lock, one of who has a lock, or one of plans.
func (c *Client) control(voter int, line []byte) {
	if says, err := qlock.ReadVoterSays(line); err == nil {
		c.hear(voter, says)
	} else if says, err := qlock.ReadLockSays(line); err == nil {
		c.hearOf(voter, says)
	} else if told, ok := wire.ReadTold(line); ok {
		c.hearTold(voter, told)
	} else {
		c.controlPlans(voter, bytes.Fields(line))
	}
}

// hearOf takes what a voter says of a lock.
func (c *Client) hearOf(voter int, says qlock.LockSays) {
	switch says.Kind {
	case qlock.LockGone:
		c.gone(string(says.Lock), says.Stamp)
	case qlock.LockFull:
		c.full(voter, string(says.Lock), says.Stamp)
	case qlock.LockHeld:
		c.isHeld(string(says.Lock), says.Stamp, says.Milliseconds)
	}
}

// hear takes a control line of a voter that has numbers only.
func (c *Client) hear(voter int, says qlock.VoterSays) {
	mine := says.Number == c.header.Number && says.First == c.header.Epoch && c.header.Epoch > 0
	switch says.Kind {
	case qlock.Leaving:
		c.leaves(voter)
	case qlock.Quiet:
		c.isQuiet(voter, says.First)
	case qlock.RunIs:
		c.noteRun(says.Number, says.First)
	case qlock.NumberIs:
		if c.claimed() > 0 || c.choice == nil {
			return // a late reply, which says nothing of the claim
		}
		c.noteNumber(voter, says.Number, says.First, int(says.Second))
	case qlock.Claimed, qlock.Denied:
		claims := c.header.Epoch == 0 && says.Number == c.asked && says.First == c.claimed() && says.First > 0
		switch {
		case claims || mine:
			c.noteClaim(voter, says.Kind == qlock.Claimed, says.First, says.Second, says.Third)
		case says.Kind == qlock.Claimed:
			c.noteBrought(voter, brought{says.Number, says.First, says.Second, says.Third})
		}
	case qlock.Opened:
		if mine && !c.peers[voter].stale {
			if p := &c.peers[voter]; says.Fourth >= p.opened.Fourth {
				p.opened = says
			}
			c.opened(voter, says.Second, says.Third, says.Fourth, says.Fifth)
		}
	case qlock.Unknown:
		if mine {
			c.claimAgain(voter)
		}
	case qlock.Closed, qlock.Taken:
		if mine {
			c.over(voter)
		}
	}
}

// isQuiet notes that a voter takes no new request for so many milliseconds, at most a TTL.
func (c *Client) isQuiet(voter int, left uint64) {
	if most := uint64(c.cluster.TTL.Duration.Milliseconds()); left > most {
		left = most
	}
	c.peers[voter].quiet = time.Now().Add(time.Duration(left) * time.Millisecond)
	c.avoid()
}

// leaves notes that a voter ends. It is silent at once.
func (c *Client) leaves(voter int) {
	c.peers[voter].heard = time.Time{}
	c.avoid()
}

// avoid lets requests that wait for a silent voter ask others, if they would do.
func (c *Client) avoid() {
	now := time.Now()
	for l := range c.busy {
		if c.waitsFor(l, c.avoided(now), now) {
			c.stats.FailOvers++
			c.askAgain(l)
		}
	}
}

// noteNumber notes what a voter says of a number.
func (c *Client) noteNumber(voter, which int, epoch uint64, state int) {
	c.seen[which] = greatest(c.seen[which], epoch)
	if state == 0 || c.states[which] == 1 {
		c.states[which] = state
	}
	c.replied |= 1 << voter
}

// noteClaim notes a voter's reply to a claim. Once a quorum accepted the session, one that refuses
// it is only not asked.
func (c *Client) noteClaim(voter int, granted bool, epoch, base, reserved uint64) {
	if !granted {
		c.refused = c.refused || c.header.Epoch == 0
		return
	}
	if base > qlock.MaxStamp || !c.claims[c.asked].Accepts(uint8(voter), epoch, base) {
		return // no stamp is above that base
	}
	if p := &c.peers[voter]; p.claimed == 0 && !p.stale {
		c.acknowledgeFirst(voter) // of a claim that was said again it is not known when that left: the next heartbeat is acknowledged
	}
	c.noteStamps(voter, base, reserved)
}

// noteBrought notes the number that a voter chose for this session. One that came after the session chose another one is given back.
func (c *Client) noteBrought(voter int, got brought) {
	p := &c.peers[voter]
	switch {
	case got.epoch == 0 || got.base > qlock.MaxStamp || c.looks:
	case !c.choosing:
		c.takesBack(voter, got.number, got.epoch)
	default:
		if before := p.brought; before.epoch > 0 && (before.number != got.number || before.epoch != got.epoch) {
			c.takesBack(voter, before.number, before.epoch)
		}
		if p.brought = got; !p.stale {
			c.acknowledgeFirst(voter)
		}
	}
}

// acknowledgeFirst notes that a voter heard this session since its first word left. It does not say which one it heard: if that was long
// ago, the next heartbeat is acknowledged.
func (c *Client) acknowledgeFirst(voter int) {
	if uptime()-c.left < c.cluster.TTL.Duration/4 {
		c.acknowledge(voter, c.left)
	}
}

// claimAgain claims the number at a voter that does not know this session, once for each heartbeat.
func (c *Client) claimAgain(voter int) {
	if p := &c.peers[voter]; p.claimed < c.header.Seq {
		p.claimed = c.header.Seq
		c.tell(voter, qlock.ClientSays{Kind: qlock.ClaimStamps, Number: c.header.Number, First: c.header.Epoch, Second: firstBlock})
	}
}

// opened takes the reply to a heartbeat: which stamps are this session's there, which heartbeat the
// voter heard, and how many requests of this session it has.
func (c *Client) opened(voter int, base, reserved, seq, requests uint64) {
	p := &c.peers[voter]
	if left, ok := p.sent[seq]; ok {
		c.acknowledge(voter, left)
	}
	p.requests = requests
	if c.draining && requests == 0 && c.idle > 0 && seq >= c.idle {
		p.drained = true // for good, as nothing is asked any more
	}
	if p.drained && !p.closed {
		c.closeAt(voter)
	}
	c.noteStamps(voter, base, reserved)
}

// over notes that this session is over at a voter. What it has of that voter is lost, unless it is
// being closed. The session ends once the other voters contain no quorum: one voter alone ends no
// session. Nor does it end one that is opened: where two sessions claimed a number at once, a voter may
// have it as that of the other one, until that takes its claim back.
func (c *Client) over(voter int) {
	p := &c.peers[voter]
	if c.draining && p.drained {
		p.closed = true
		c.finish()
		return
	}
	p.accepts, p.taken = false, true
	c.stamps[voter].Forget()
	c.spoilAll(1 << voter)
	switch others := ^c.takers(); {
	case c.opening: // it waits for no silent voter, as it may take another number
		c.refused = c.refused || !c.hasQuorum(others&^c.silent(time.Now()))
	case !c.hasQuorum(others):
		c.end(ErrLost)
	}
}

// takers returns the voters that said that this session is over.
func (c *Client) takers() (mask uint64) {
	for v := range c.peers {
		if c.peers[v].taken {
			mask |= 1 << v
		}
	}
	return mask
}

// drain begins to close the session.
func (c *Client) drain() {
	c.draining, c.idle = true, 0
	for _, l := range c.locks {
		l.Closes()
	}
	if c.looks {
		c.isDrained()
		return
	}
	for l := range c.busy {
		c.refuse(l, ErrClosed)
		c.pump(l)
	}
	c.heartbeat(time.Now())
}

// finish ends a drain once all voters that are there and accepted the session have closed it, and
// they contain a quorum.
func (c *Client) finish() {
	var closed, open uint64
	for v := range c.peers {
		if p := &c.peers[v]; p.closed {
			closed |= 1 << v
		} else if p.accepts {
			open |= 1 << v
		}
	}
	if open&^c.silent(time.Now()) == 0 && c.hasQuorum(closed) {
		c.isDrained()
	}
}

// isDrained notes that nothing is left to give back.
func (c *Client) isDrained() {
	if !c.done {
		c.done = true
		close(c.drained)
	}
}
