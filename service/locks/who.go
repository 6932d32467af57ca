package locks

import (
	"context"
	"fmt"
	"math/bits"
	"sort"
	"strings"
	"time"

	"calvundek.example/service/internal/wire"
	"calvundek.example/service/qlock"
	"calvundek.example/service/transport"
)

// Holder is who has a lock, by what voters say. The zero Holder is nobody. What it says was so a moment ago: decide nothing by it, and
// show it to people.
type Holder struct {
	User    string    // of NATS: the broker vouches for it. "" without users
	Host    string    // Host, Pid, Login and Note are what the holder says of itself, and empty if it says nothing
	Pid     int       // of its process
	Login   string    // its user of the system
	Note    string    // Config.Note, or that of Campaign
	Since   time.Time // since when it has these votes, about; later if a voter started meanwhile
	Waiting int       // how many other sessions wait for the lock
	Asked   bool      // the voters that replied do not say that it has the votes of a quorum: it asks for the lock, or has it by others
	Turn    uint64    // its turn, as the voters of a quorum know it; 0 if nobody asked for it (Held.Turn), and in Watch
	Number  int       // of its session
	Session string    // that number as operators see it, and as evict takes it: with the shard in front where there are several

	stamp uint64 // of its request, above 0
}

// IsNobody returns whether nobody has the lock.
func (h Holder) IsNobody() bool { return h == Holder{} }

// String returns the holder in a line, "nobody" if there is none.
func (h Holder) String() string {
	if h.IsNobody() {
		return "nobody"
	}
	var words []string
	add := func(format string, value interface{}, isThere bool) {
		if isThere {
			words = append(words, fmt.Sprintf(format, value))
		}
	}
	add("client %v", h.Session, h.Session != "")
	add("user=%v", h.User, h.User != "")
	add("host=%v", h.Host, h.Host != "")
	add("pid=%v", h.Pid, h.Pid != 0)
	add("login=%v", h.Login, h.Login != "")
	add("note=%q", h.Note, h.Note != "")
	add("for %v", time.Since(h.Since).Round(time.Second), !h.Since.IsZero())
	add("waiting=%v", h.Waiting, h.Waiting > 0)
	add("turn=%v", h.Turn, h.Turn > 0)
	add("asked=%v", h.Asked, h.Asked)
	return strings.Join(words, " ")
}

// IsSame returns whether two are the same except for times, turns, and those that wait: no change for Watch.
func (h Holder) IsSame(other Holder) bool {
	h.Since, h.Waiting, h.Turn = other.Since, other.Waiting, other.Turn
	return h == other
}

// HeldBy is the error of TryLock if a voter said who has its vote: with Asked, unless one voter is a quorum. errors.Is finds ErrHeld.
type HeldBy struct {
	Lock   string
	Holder Holder
}

func (h *HeldBy) Error() string {
	holder := h.Holder
	holder.Asked = false // one voter said so
	return fmt.Sprintf("%s: %v: %v", h.Lock, ErrHeld, holder)
}

// Is returns whether an error is ErrHeld.
func (h *HeldBy) Is(target error) bool { return target == ErrHeld }

// heldBy returns why who tries does not get a lock.
func (l *lock) heldBy() error {
	if l.holder.IsNobody() {
		return fmt.Errorf("%s: %w", l.name, ErrHeld)
	}
	return &HeldBy{l.name, l.holder}
}

// Who asks the voters who has a lock. It returns the zero Holder if nobody has it, and one with Asked if somebody has votes, and no
// quorum says that it has all of theirs. Voters that do not reply are not waited for longer than the fail-over time once a
// quorum replied. It fails with ErrNoQuorum if none does until the context ends.
func (c *Client) Who(ctx context.Context, lock string) (Holder, error) {
	if !wire.IsName([]byte(lock)) {
		return Holder{}, fmt.Errorf("%w: %q", ErrName, lock)
	}
	q := newQuestion(wire.AskWho, lock)
	if err := c.asks(ctx, q); err != nil {
		return Holder{}, err
	}
	return q.holders[lock], nil
}

// List asks the voters for the locks of which the name begins with a prefix, and that somebody has or waits for. It hands them to a
// function in the order of their names, each with its holder, and ends with the first error of that. Locks that are taken or given back
// meanwhile may be there or not. All names are in memory.
func (c *Client) List(ctx context.Context, prefix string, each func(lock string, holder Holder) error) error {
	if prefix != "" && !wire.IsName([]byte(prefix)) {
		return fmt.Errorf("%w: %q", ErrName, prefix)
	}
	q := newQuestion(wire.AskNames, prefix)
	if err := c.asks(ctx, q); err != nil {
		return err
	}
	names := make([]string, 0, len(q.holders))
	for name := range q.holders {
		names = append(names, name)
	}
	sort.Strings(names)
	for _, name := range names {
		if err := each(name, q.holders[name]); err != nil {
			return err
		}
	}
	return nil
}

// repeatAsk is after how long a voter is asked again that did not reply.
const repeatAsk = 250 * time.Millisecond

// aMoment is for how long voters are waited for that can't change the answer.
const aMoment = 100 * time.Millisecond

// asker has the questions to which voters did not reply yet.
type asker struct {
	questions map[uint64]*question
	newest    uint64 // the ID of the last one
	observers map[*observer]struct{}
	places    []*observer // those of which voters say each change, nil before there is one
}

// question is one that all voters are asked, until enough replied.
type question struct {
	wire.Ask
	began   time.Time
	voters  map[int]*answer
	said    map[string]map[int]wire.Told // by lock and voter
	turns   map[string]map[int]wire.Told // those that voters know, in the same way
	over    chan struct{}
	holders map[string]Holder // once it is over

	observer *observer // whose question it is, nil if it is of Who or List
	isBrief  bool      // nobody is waited for once a quorum replied
}

// answer is how far a voter replied to a question.
type answer struct {
	place uint64    // of the next page
	asked time.Time // when it was asked last
	heard time.Time // when a page came
	done  bool
}

func newQuestion(kind wire.AskKind, lock string) *question {
	return &question{Ask: wire.Ask{Kind: kind, Lock: lock}, began: time.Now(), voters: map[int]*answer{},
		said: map[string]map[int]wire.Told{}, turns: map[string]map[int]wire.Told{}, over: make(chan struct{})}
}

// asks asks all voters, and waits until enough replied.
func (c *Client) asks(ctx context.Context, q *question) error {
	err := c.call(func() error {
		c.newest++
		q.ID = c.newest
		c.questions[q.ID] = q
		return nil
	})
	if err != nil {
		return err
	}
	select {
	case <-q.over:
		return nil
	case <-c.ended:
		return c.why
	case <-ctx.Done():
		_ = c.call(func() error { delete(c.questions, q.ID); return nil })
		return c.explained(because{ErrNoQuorum, ctx.Err()})
	}
}

// explained returns an error with why no server of the broker is there, if that is known.
func (c *Client) explained(err error) error {
	if link, ok := c.carrier.(*transport.NATS); ok {
		return link.Explain(err)
	}
	return err
}

// sendQuestions asks the voters that did not reply, if this turn has room for it, and ends the questions to which enough replied.
func (c *Client) sendQuestions(now time.Time) {
	for id, q := range c.questions {
		if c.isAnsweredBy(q, now) {
			c.decide(q, now)
			delete(c.questions, id)
			if close(q.over); q.observer != nil {
				q.observer.hearAnswer(q)
			}
			continue
		}
		for v := range c.peers {
			a := q.of(v)
			if a.done || now.Sub(a.asked) < repeatAsk || !c.hasRoom(v, q.lines()) {
				continue
			}
			a.asked = now
			c.out[v] = q.append(c.out[v], a.place)
			c.mayWait = false
		}
	}
}

// lines returns how many lines of control the question has.
func (q *question) lines() int {
	if q.observer != nil && q.observer.place > 0 {
		return 2
	}
	return 1
}

// append appends the question, from a page on. What is watched is said in front of it.
func (q *question) append(out []byte, page uint64) []byte {
	if q.lines() > 1 {
		out = wire.Ask{Kind: wire.Watches, ID: uint64(q.observer.place), Lock: q.Lock}.Append(out)
	}
	ask := q.Ask
	ask.Number = page
	return ask.Append(out)
}

// of returns how far a voter replied.
func (q *question) of(voter int) *answer {
	if q.voters[voter] == nil {
		q.voters[voter] = &answer{heard: q.began}
	}
	return q.voters[voter]
}

// isAnsweredBy returns whether a quorum of each plan replied, and all others did or are silent, unless the question is brief. Once somebody
// has the votes of a quorum others have a moment to say who waits.
func (c *Client) isAnsweredBy(q *question, now time.Time) bool {
	var done, awaited uint64
	silent := c.silent(now)
	for v := range c.peers {
		switch a := q.of(v); {
		case a.done:
			done |= 1 << v
		case silent>>v&1 == 0 || c.looks:
			if now.Sub(a.heard) <= c.config.FailOver {
				awaited |= 1 << v
			}
		}
	}
	if q.isBrief {
		return c.hasQuorum(done)
	}
	if q.Kind == wire.AskWho && len(q.said) > 0 && awaited != 0 {
		holder := c.holderBy(q.said[q.Lock], now)
		return !holder.IsNobody() && !holder.Asked && now.Sub(q.began) > aMoment
	}
	return awaited == 0 && c.hasQuorum(done)
}

// decide notes who has the locks of a question.
func (c *Client) decide(q *question, now time.Time) {
	q.holders = map[string]Holder{}
	for lock, said := range q.said {
		holder := c.holderBy(said, now)
		if q.observer == nil {
			holder.Turn = c.turnBy(q.turns[lock], said, holder)
		}
		q.holders[lock] = holder
	}
}

// hearTold takes what a voter says of notes, and of who has a lock.
func (c *Client) hearTold(voter int, told wire.Told) {
	p, q := &c.peers[voter], c.questions[told.ID]
	switch {
	case told.Kind == wire.Noted:
		p.noted = true
	case told.Kind == wire.Bundles:
		c.hearBundles(voter)
	case told.Kind == wire.SaysUnbeaten:
		p.refuses = true
	case told.Kind == wire.Rolled:
		c.hearRoll(voter, told)
	case told.Kind == wire.Unbeaten:
		c.hearUnbeaten(voter)
	case told.Kind == wire.Turned:
		c.hearTurned(voter, told)
	case told.Kind == wire.Sessions:
		c.hearCrowd(told)
	case told.Kind == wire.Free:
		c.isFree = true
	case told.Kind == wire.Wanted:
		c.wanted = time.Now()
	case told.Kind == wire.HasChanged:
		c.hearChange(voter, told)
	case told.Kind == wire.HasVote && told.ID == 0:
		if l := c.locks[told.Lock]; l != nil && l.shown.Phase == qlock.Asking && told.IsHeld {
			l.holder = c.holderBy(map[int]wire.Told{voter: told}, time.Now())
		}
	case q == nil || q.of(voter).done:
	case told.Kind == wire.HasVote:
		c.hearHolder(voter, q, told)
	case told.Kind == wire.HasTurn && q.isAbout(told.Lock):
		put(q.turns, voter, told)
	case told.Kind == wire.IsListed && q.Kind == wire.AskNames && told.From == q.of(voter).place:
		a := q.of(voter)
		a.place, a.asked, a.heard, a.done = told.Next, time.Time{}, time.Now(), told.Next == 0
	}
}

// hearCrowd takes what a voter says of the sessions that there are. Of the highest stamps the least one counts: no voter alone leads a
// session far up.
func (c *Client) hearCrowd(told wire.Told) {
	ahead, highest := greatest(c.crowd.Ahead, told.Ahead), told.Highest
	if c.crowd.Kind == wire.Sessions && c.crowd.Highest < highest {
		highest = c.crowd.Highest
	}
	if told.Open >= c.crowd.Open {
		c.crowd = told
	}
	c.crowd.Ahead, c.crowd.Highest = ahead, highest
}

// NoNumber is the error of a call that got no number, if voters said which sessions have them. errors.Is finds ErrNumbers, and why the call
// waits no longer if it did.
type NoNumber struct {
	Open   int           // how many sessions there are
	Ahead  int           // how many wait for a number before this one
	Silent time.Duration // for how long one that has a number was silent, at most
	Waits  time.Duration // for how long a request of one has waited, at most
	why    error         // of the context, nil if the call did not wait
}

func (n *NoNumber) Error() string {
	text := fmt.Sprintf("%v: %d sessions are open, one of them was silent for %v, and a request has waited for %v", ErrNumbers, n.Open, n.Silent, n.Waits)
	if n.Ahead > 0 {
		text += fmt.Sprintf("; %d wait for a number before this one", n.Ahead)
	}
	if n.why != nil {
		text += fmt.Sprint(": ", n.why)
	}
	return text
}

// Is returns whether an error is ErrNumbers.
func (n *NoNumber) Is(target error) bool { return target == ErrNumbers }

func (n *NoNumber) Unwrap() error { return n.why }

// crowded returns why no number is to be had, and what voters said of the sessions that have them.
func crowded(crowd wire.Told, why error) error {
	milliseconds := func(n uint64) time.Duration {
		return (time.Duration(n) * time.Millisecond).Round(100 * time.Millisecond)
	}
	switch {
	case crowd.Kind == wire.NotTold && why == nil:
		return ErrNumbers
	case crowd.Kind == wire.NotTold:
		return because{ErrNumbers, why}
	}
	return &NoNumber{int(crowd.Open), int(crowd.Ahead), milliseconds(crowd.Silent), milliseconds(crowd.Waits), why}
}

// HasNumber returns whether the client has a number for a lock. In a cluster with shards it has none until a call of Lock opened the session
// of the lock's shard, and none again once that is over.
func (c *Client) HasNumber(lock string) bool {
	switch {
	case c.shards != nil:
		return c.current(c.shards.part(c.cluster.ShardOfLock(lock))) != nil
	default:
		return !c.looks
	}
}

// hearHolder takes what a voter says of a lock that a question is about.
func (c *Client) hearHolder(voter int, q *question, told wire.Told) {
	if !q.isAbout(told.Lock) {
		return
	}
	if q.Kind == wire.AskWho {
		q.of(voter).done = true
	}
	put(q.said, voter, told)
	for o := range c.observers {
		if o.lock == told.Lock {
			c.hearsOf(o, voter, told)
		}
	}
}

// isAbout returns whether a question is about a lock.
func (q *question) isAbout(lock string) bool {
	return q.Kind == wire.AskWho && lock == q.Lock || q.Kind == wire.AskNames && strings.HasPrefix(lock, q.Lock)
}

// put notes the last word of a voter on a lock.
func put(said map[string]map[int]wire.Told, voter int, told wire.Told) {
	if said[told.Lock] == nil {
		said[told.Lock] = map[int]wire.Told{}
	}
	said[told.Lock][voter] = told
}

// turnBy returns the turn of a holder that the voters of a quorum know, 0 if there is none.
func (c *Client) turnBy(turns, said map[int]wire.Told, holder Holder) (turn uint64) {
	voters := map[uint64]uint64{}
	for voter, told := range turns {
		has := said[voter]
		if has.IsHeld && has.Number == holder.Number && has.Stamp == holder.stamp && told.Stamp == has.Stamp {
			voters[told.Top] |= 1 << voter
		}
	}
	for top, mask := range voters {
		if c.hasAnyQuorum(mask) {
			turn = greatest(turn, top)
		}
	}
	return turn
}

// hasAnyQuorum returns whether a set of voters contains a quorum of some plan that is in use.
func (p *plans) hasAnyQuorum(voters uint64) bool {
	return p.plan.HasQuorum(voters) || p.older != nil && p.older.HasQuorum(voters) || p.next != nil && p.next.HasQuorum(voters)
}

// holderBy returns who has a lock by what voters say of it: who has the votes of a quorum, and else who has most.
func (c *Client) holderBy(said map[int]wire.Told, now time.Time) Holder {
	type request struct {
		number int
		stamp  uint64
	}
	votes, waiting, shard := map[request]uint64{}, uint64(0), 0
	for voter, told := range said {
		waiting, shard = waiting|told.Waiting, c.cluster.ShardOfLock(told.Lock)
		if told.IsHeld {
			votes[request{told.Number, told.Stamp}] |= 1 << voter
		}
	}
	var best request
	for one, mask := range votes {
		if isLater := one.stamp > best.stamp || one.stamp == best.stamp && one.number > best.number; votes[best] == 0 ||
			c.weighs(mask) > c.weighs(votes[best]) || c.weighs(mask) == c.weighs(votes[best]) && isLater {
			best = one
		}
	}
	if votes[best] == 0 {
		return Holder{}
	}
	h := Holder{Number: best.number, Session: c.cluster.NumberOf(shard*qlock.MaxClients + best.number), stamp: best.stamp, Asked: !c.hasAnyQuorum(votes[best]),
		Waiting: bits.OnesCount64(waiting &^ (1 << best.number))}
	for voter := range c.peers {
		if told := said[voter]; votes[best]>>voter&1 == 1 {
			h.hear(told, now)
		}
	}
	return h
}

// weighs returns how much votes count: those of a quorum more than any others.
func (c *Client) weighs(votes uint64) int {
	if c.hasAnyQuorum(votes) {
		return qlock.MaxVoters + 1
	}
	return bits.OnesCount64(votes)
}

// hear takes what a voter says of who has its vote. It has the lock since the last one of them.
func (h *Holder) hear(told wire.Told, now time.Time) {
	since := now.Add(-time.Duration(told.Milliseconds) * time.Millisecond)
	if since.After(h.Since) {
		h.Since = since
	}
	if told.User != wire.NoUser {
		h.User = told.User
	}
	if told.Note != "" && h.Host == "" && h.Note == "" {
		h.readNote(told.Note)
	}
}
