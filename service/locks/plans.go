package locks

// How a client goes from one plan to the next one.
//
//  1. A voter says that it has a newer plan. The client fetches it, and checks that both are bridged (qlock_bridge).
//  2. The voters that say so contain a quorum of each plan. From then on the client asks by the new plan. Claims and
//     reservations need a quorum of both. A voter takes one plan after another, each once. Any two quorums of the old plan
//     meet, so no client uses another new plan.
//  3. Heartbeats say the oldest plan of which a request is left. Voters retire a plan only if none is left.
//  4. A voter says that the old plan is retired. The client forgets it.
//
// Why one is inside: two requests of one plan meet in a voter, and so do two of the old and the new plan, as they are
// bridged. Nobody has a request of the old plan when a third one begins: the voters that retire it meet each of its
// quorums, and each of them heard from each session either that no such request is left, or nothing for a TTL. In that
// case Lost has closed.
//
// Why no stamp is used twice: what was reserved with a quorum of the old plan alone, before a client knew of the new one,
// is known to the voters that retire it: they meet that quorum, and refuse the old plan from then on. `qlockctl retire`
// reads their sessions afterwards, and a quorum of the new plan saves them before the next exchange.

import (
	"bytes"
	"encoding/base64"
	"errors"
	"time"

	"calvundek.example/service/internal/config"
	"calvundek.example/service/internal/wire"
	"calvundek.example/service/qlock"
)

var errLong = errors.New("locks: a plan is longer than one that is sent")

// known is a plan, and what messages say of it.
type known struct {
	*qlock.Plan
	mark string
}

// plans are those that a client knows of.
type plans struct {
	plan       known       // by which it asks
	generation uint64      // its number
	older      *known      // the one before it, until it is retired
	next       *known      // the one after it, until enough voters have it
	isReading  bool        // a plan is being read
	read       chan func() // what is to be done once it was, nil for a session of a shard
}

func newPlans(c *config.Cluster) plans {
	marks := c.Marks()
	newest := known{c.Planned, marks[0]}
	if c.OldPlanned == nil {
		return plans{plan: newest, generation: c.Generation, read: make(chan func(), 1)}
	}
	return plans{plan: known{c.OldPlanned, marks[1]}, generation: c.Generation - 1, next: &newest,
		read: make(chan func(), 1)}
}

// copied returns the same plans for another session.
func (p *plans) copied() plans {
	return plans{plan: p.plan, generation: p.generation, older: p.older, next: p.next}
}

// hasQuorum returns whether a set of voters contains a quorum of each plan that is in use.
func (p *plans) hasQuorum(voters uint64) bool {
	return p.plan.HasQuorum(voters) && (p.older == nil || p.older.HasQuorum(voters))
}

// names returns the names of all voters by their numbers.
func (p *plans) names() []string {
	names := p.plan.Names
	for _, other := range []*known{p.older, p.next} {
		if other != nil && len(other.Names) > len(names) {
			names = other.Names
		}
	}
	return names
}

// accepts returns whether a voter's message is of a plan that the client knows.
func (p *plans) accepts(mark string) bool {
	return mark == p.plan.mark || p.older != nil && mark == p.older.mark || p.next != nil && mark == p.next.mark
}

// speaks returns the mark in a message to a voter: of the plan by which the client asks, or of the one before if the voter did
// not say yet that it has it. A client that ends while it claims a number only takes that back, which no plan is needed for: it speaks by
// the plan of the voter, as its own may be retired there.
func (c *Client) speaks(voter int) string {
	switch mark := c.peers[voter].mark; {
	case c.opening && c.why != nil && wire.IsID([]byte(mark)):
		return mark
	case c.older != nil && mark != c.plan.mark:
		return c.older.mark
	}
	return c.plan.mark
}

// oldest returns the number of the oldest plan of which a request is left.
func (c *Client) oldest() uint64 {
	oldest := c.generation
	for l := range c.busy {
		if l.shown.Phase != qlock.Idle && l.plan < oldest {
			oldest = l.plan
		}
	}
	return oldest
}

// firstTicket lets clients begin at different places of the cycle.
func (c *Client) firstTicket() { c.ticket = c.header.Number * len(c.plan.Quorums) / qlock.MaxClients }

// findPlans takes from a message of another plan only what it says of plans.
func (c *Client) findPlans(voter int, lines []byte) {
	for {
		lock, line, rest, found := wire.Next(lines)
		if !found {
			return
		}
		if lines = rest; string(lock) == "." {
			c.controlPlans(voter, bytes.Fields(line))
		}
	}
}

// controlPlans takes `generation NUMBER MARK OLDEST` and `plan NUMBER COTERIE PLAN`, and returns whether it was one of these.
func (c *Client) controlPlans(voter int, words [][]byte) bool {
	if len(words) != 4 || string(words[0]) != "generation" && string(words[0]) != "plan" {
		return false
	}
	newest, ok := wire.Decimal(words[1])
	if !ok {
		return true
	}
	if string(words[0]) == "plan" {
		c.fetched(voter, newest, string(words[2]), string(words[3]))
	} else if oldest, ok := wire.Decimal(words[3]); ok {
		c.noteGeneration(voter, newest, string(words[2]), oldest)
	}
	return true
}

// noteGeneration notes the newest plan that a voter has, and the oldest one that is not retired there.
func (c *Client) noteGeneration(voter int, newest uint64, mark string, oldest uint64) {
	p := &c.peers[voter]
	p.mark, p.oldest = mark, oldest
	retired := oldest > c.generation
	if c.older != nil && oldest == c.generation && newest > c.generation {
		c.older = nil // it is retired, and the next exchange began
	}
	switch {
	case c.next != nil && mark == c.next.mark:
		if c.next.HasQuorum(c.having(mark)) && (retired || c.plan.HasQuorum(c.having(mark))) {
			c.adopt(retired)
		}
	case retired && !c.hasQuorum(^c.retirers()):
		if c.shards == nil || !c.readAgain() {
			c.end(ErrRetired)
		}
	case newest == c.generation+1 && c.next == nil && !c.isReading && time.Since(p.asked) > c.config.Heartbeat:
		p.asked, p.awaited = time.Now(), true
		c.tell(voter, qlock.ClientSays{Kind: qlock.AskPlan})
	case newest == c.generation && oldest == newest && mark == c.plan.mark && c.older != nil:
		c.older = nil
	}
}

// retirers returns the voters that said that the plan by which this client asks is retired. One
// voter alone ends no client.
func (c *Client) retirers() (mask uint64) {
	for v := range c.peers {
		if c.peers[v].oldest > c.generation {
			mask |= 1 << v
		}
	}
	return mask
}

// having returns the voters that said that they have a plan.
func (c *Client) having(mark string) (mask uint64) {
	for v := range c.peers {
		if c.peers[v].mark == mark {
			mask |= 1 << v
		}
	}
	return mask
}

// restAfterJunk is for how long a voter is not asked again that sent no plan which can be used.
const restAfterJunk = time.Minute

// fetched reads the next plan of a voter that was asked for it. That takes time, up to a second, so the loop goes on
// meanwhile, and a voter may spend it once a minute.
func (c *Client) fetched(voter int, number uint64, coterie, plan string) {
	p := &c.peers[voter]
	if !p.awaited || c.next != nil || c.isReading || number != c.generation+1 {
		return
	}
	p.awaited, c.isReading = false, true
	go func() {
		next, err := readPlan(coterie, plan)
		c.later(func() { c.wasRead(voter, number, next, err) })
	}()
}

// wasRead takes a plan that was read, if it is one that may be used beside this one.
func (c *Client) wasRead(voter int, number uint64, next *qlock.Plan, err error) {
	c.isReading = false
	if err != nil || config.CheckExchange(c.plan.Plan, next) != nil {
		c.peers[voter].asked = time.Now().Add(restAfterJunk)
		return
	}
	if c.next == nil && number == c.generation+1 {
		c.next = &known{next, c.cluster.Mark(config.Mark(number, next.Coterie))}
		c.meet(len(next.Names))
	}
}

// readPlan reads a plan as a voter sends it.
func readPlan(coterie, plan string) (*qlock.Plan, error) {
	first, err := base64.StdEncoding.DecodeString(coterie)
	if err != nil {
		return nil, err
	}
	second, err := base64.StdEncoding.DecodeString(plan)
	if err != nil {
		return nil, err
	}
	if len(first)+len(second) > config.MostPlan {
		return nil, errLong
	}
	return qlock.ReadPlan(string(first), string(second))
}

// adopt asks by the next plan from now on.
func (c *Client) adopt(retired bool) {
	before := c.plan
	c.plan, c.generation, c.older, c.next = *c.next, c.generation+1, &before, nil
	c.firstTicket()
	c.note("plan", "generation=%d", c.generation)
	if retired {
		c.older = nil
	}
}
