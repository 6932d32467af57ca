package locks

// A client of a cluster with several shards: a session for each shard whose locks it uses.
//
// The first call of Lock in a shard opens the session, and takes a number there. It gives the number back once nothing of the shard was
// wanted for two TTLs, or at once if voters say that others wait for a number. A session that is over ends the locks of its shard alone,
// and the next call opens another one.

import (
	"context"
	"errors"
	"hash/fnv"
	"sync"
	"sync/atomic"
	"time"

	"calvundek.example/service/internal/claims"
	"calvundek.example/service/internal/config"
	"calvundek.example/service/internal/wire"
	"calvundek.example/service/transport"
)

const (
	keepsNumber = 2               // for how many TTLs a session keeps its number that wants nothing
	isWanted    = 5 * time.Second // for how long the word counts that others wait for a number
	takesUse    = 5 * time.Second // within which a new session is used
)

// shards are the sessions of a client, by shard.
type shards struct {
	mutex sync.Mutex
	all   map[int]*part
	open  map[*Client]struct{} // the sessions that are not over, also those that give their numbers back
	past  Stats                // of the sessions that are over, and what was lost of messages
	going sync.WaitGroup       // sessions that go on, and that are opened

	closing   chan struct{} // closed once no call of Lock is taken any more
	isClosing bool

	loops     [mostLoops]*loop    // in which the sessions go round, each nil before it has one
	bundles   *bundles            // nil if the process sends none
	boxes     map[string]*mailbox // of the sessions that there are, by their names
	isStopped bool                // the client has ended
	over      chan struct{}       // closed once no session is left then, either
	isOver    bool
	left      chan struct{} // closed once the mailbox of the process was left
}

// awaitLeft waits until the mailbox of the process was left, or the context ends.
func (s *shards) awaitLeft(ctx context.Context) {
	select {
	case <-s.left:
	case <-ctx.Done():
	}
}

// part is a client's session of a shard.
type part struct {
	gate   chan struct{}   // whoever opens the session is in it
	name   string          // of the session that is opened: it keeps its place among those that wait for a number
	claims *claims.Numbers // those that it made
	left   time.Duration   // when the first word under that name left that could bring a number, 0 if none did
	seq    uint64          // of the last message under that name
	heard  []time.Time     // when each voter was heard last under that name
	plan   uint64          // the number of the plan by which it was opened last
	client *Client         // nil if there is none

	short  atomic.Pointer[shortage] // of whoever opens the session (session.short)
	wishes wishes
}

// wishes are the locks for which calls wait that have no session.
type wishes struct {
	mutex sync.Mutex
	locks []string      // of each call one
	grown chan struct{} // says that there is another one
}

// add adds the lock of a call. The function that it returns takes it out.
func (w *wishes) add(lock string) (remove func()) {
	w.mutex.Lock()
	defer w.mutex.Unlock()
	if w.locks = append(w.locks, lock); len(w.locks) > 1 {
		select {
		case w.grown <- struct{}{}:
		default:
		}
	}
	return func() {
		w.mutex.Lock()
		defer w.mutex.Unlock()
		for i, one := range w.locks {
			if one == lock {
				w.locks = append(w.locks[:i], w.locks[i+1:]...)
				return
			}
		}
	}
}

// next returns another lock than this one, if there is one: that for which a call waits that came after those for this one, or else the
// first one.
func (w *wishes) next(lock string) string {
	w.mutex.Lock()
	defer w.mutex.Unlock()
	first, after := lock, lock
	for _, one := range w.locks {
		if one == lock {
			after = lock
		} else if after == lock {
			after = one
		}
		if first == lock {
			first = one
		}
	}
	if after == lock {
		return first
	}
	return after
}

// openShards connects, and waits until a quorum of voters replies.
func openShards(ctx context.Context, cluster *config.Cluster, c Config) (*Client, error) {
	client, err := newLook(cluster, c)
	if err != nil {
		return nil, err
	}
	if err := client.beginShards(); err != nil {
		client.close()
		return nil, err
	}
	client.followed, client.looked = time.Now(), firstOf(client.header.Name, len(client.peers))
	client.opening = true
	go client.run()
	greeting := newQuestion(wire.AskWho, "-") // any question does: each reply says which plans there are
	greeting.isBrief = true
	if err := client.asks(ctx, greeting); err != nil {
		_ = client.Close(ctx)
		return nil, err
	}
	return client, client.call(func() error { client.opening = false; return nil })
}

// beginShards begins to take what comes to the mailbox of the process.
func (c *Client) beginShards() error {
	nonce, err := config.Nonce()
	if err != nil {
		return err
	}
	process := c.cluster.SessionName(0, nonce)
	boxes := wire.SessionBoxes(c.cluster.ID, wire.SessionName(c.user, process))
	c.shards = &shards{all: map[int]*part{}, open: map[*Client]struct{}{}, boxes: map[string]*mailbox{},
		over: make(chan struct{}), closing: make(chan struct{}), left: make(chan struct{}),
		bundles: &bundles{cluster: c.cluster.ID, process: process, began: time.Now(), carrier: c.carrier}}
	leave, err := transport.Pass(c.carrier, boxes, c.shards.unbundle)
	if err != nil {
		return err
	}
	c.watch.looks = true
	go func() {
		<-c.stopped
		c.shards.stops()
		<-c.shards.over
		leave()
		close(c.shards.left)
	}()
	return nil
}

// part returns what there is of a shard.
func (s *shards) part(shard int) *part {
	s.mutex.Lock()
	defer s.mutex.Unlock()
	if s.all[shard] == nil {
		s.all[shard] = &part{gate: make(chan struct{}, 1), wishes: wishes{grown: make(chan struct{}, 1)}}
	}
	return s.all[shard]
}

// lockInShard takes a lock by the session of its shard. If that gave its number back meanwhile, or is over, another one is opened.
func (c *Client) lockInShard(ctx context.Context, name string, w *waiter) (*Held, error) {
	for {
		session, err := c.sessionFor(ctx, name, w.tries)
		if err != nil {
			return nil, err
		}
		held, err := session.lock(ctx, name, &waiter{tries: w.tries, note: w.note})
		isOver := errors.Is(err, ErrClosed) || errors.Is(err, ErrLost)
		if !isOver || c.whyClosed() != nil || ctx.Err() != nil {
			return held, err
		}
		c.forgetSession(c.cluster.ShardOfLock(name), session)
	}
}

// whyClosed returns why no call of Lock is taken any more, nil if they are.
func (c *Client) whyClosed() error {
	select {
	case <-c.shards.closing:
		return ErrClosed
	default:
		return c.Err()
	}
}

// untilClosed returns a context that also ends once no call of Lock is taken any more.
func (c *Client) untilClosed(ctx context.Context) (context.Context, context.CancelFunc) {
	ctx, cancel := context.WithCancel(ctx)
	go func() {
		select {
		case <-c.shards.closing:
		case <-c.ended:
		case <-ctx.Done():
		}
		cancel()
	}()
	return ctx, cancel
}

// begins notes that a session is opened, if the client is not closed. Whoever closes it waits until that is done.
func (s *shards) begins() bool {
	s.mutex.Lock()
	defer s.mutex.Unlock()
	if !s.isClosing {
		s.going.Add(1)
	}
	return !s.isClosing
}

// closes lets no session be opened any more.
func (s *shards) closes() {
	s.mutex.Lock()
	defer s.mutex.Unlock()
	if !s.isClosing {
		s.isClosing = true
		close(s.closing)
	}
}

// sessionFor returns the session of a lock's shard, and opens one if there is none. It waits for a number, unless the call only tries.
func (c *Client) sessionFor(ctx context.Context, lock string, tries bool) (*Client, error) {
	shard := c.cluster.ShardOfLock(lock)
	p := c.shards.part(shard)
	defer p.wishes.add(lock)()
	if err := c.enter(ctx, p, lock, tries); err != nil {
		return nil, err
	}
	defer func() { <-p.gate }()
	if why := c.whyClosed(); why != nil {
		return nil, why
	}
	if session := c.current(p); session != nil {
		return session, nil
	}
	return c.openFor(ctx, p, shard, lock, tries)
}

// enter waits until the caller is in the gate of a shard. Who only tries does not wait behind a call that waits for a number.
func (c *Client) enter(ctx context.Context, p *part, lock string, tries bool) error {
	began := time.Now()
	ticker := time.NewTicker(aMoment / 4)
	defer ticker.Stop()
	for {
		select {
		case p.gate <- struct{}{}:
			return nil
		case <-ticker.C:
			if short := p.short.Load(); tries && short.endsTry(lock, began) {
				return crowded(short.crowd, nil)
			}
		case <-ctx.Done():
			if short := p.short.Load(); short != nil {
				return crowded(short.crowd, ctx.Err()) // another call waits for the number, too
			}
			return ctx.Err()
		case <-c.shards.closing:
			return ErrClosed
		case <-c.ended:
			return c.why
		}
	}
}

// endsTry returns whether who began to try to get a lock gets no number for it: none was to be had for the lock since then, or none for
// another one, which has a moment to be asked for, too.
func (s *shortage) endsTry(lock string, began time.Time) bool {
	return s != nil && (s.lock == lock && s.at.After(began) || time.Since(began) > aMoment)
}

// openFor opens the session of a shard, whose gate the caller is in.
func (c *Client) openFor(ctx context.Context, p *part, shard int, lock string, tries bool) (*Client, error) {
	if !c.shards.begins() {
		return nil, ErrClosed
	}
	defer c.shards.going.Done()
	ctx, cancel := c.untilClosed(ctx)
	defer cancel()
	if p.name == "" {
		nonce, err := config.Nonce()
		if err != nil {
			return nil, err
		}
		p.name, p.claims = c.cluster.SessionName(shard, nonce), claims.New()
	}
	session, err := c.openPart(ctx, p, shard, lock, tries)
	if errors.Is(err, ErrRetired) && c.hasNewer(p.plan) {
		session, err = c.openPart(ctx, p, shard, lock, tries)
	}
	why := c.whyClosed()
	switch {
	case err != nil && why != nil:
		return nil, why
	case err != nil:
		return nil, err
	case !c.adds(p, session): // the client was closed meanwhile
		brief, cancel := context.WithTimeout(context.Background(), c.config.FailOver)
		defer cancel()
		_ = session.Close(brief)
		return nil, c.whyClosed()
	}
	return session, nil
}

// adds makes a session that of its shard, if the client is not closed.
func (c *Client) adds(p *part, session *Client) bool {
	c.shards.mutex.Lock()
	defer c.shards.mutex.Unlock()
	if c.whyClosed() != nil {
		return false
	}
	p.name, p.claims, p.left, p.seq, p.heard = "", nil, 0, 0, nil
	select {
	case <-session.stopped: // it is over already
	default:
		p.client = session
	}
	return true
}

// openPart opens the session of a shard for a lock, with the plans that this client knows.
func (c *Client) openPart(ctx context.Context, p *part, shard int, lock string, tries bool) (*Client, error) {
	session, err := c.newPart(p, lock, tries)
	if err == nil {
		err = c.shards.listens(session)
	}
	if err != nil {
		return nil, err
	}
	if err := session.begin(ctx); err != nil {
		p.left, p.seq, p.heard = session.left, session.header.Seq, nil
		for v := range session.peers {
			p.heard = append(p.heard, session.peers[v].heard)
		}
		c.shards.leaves(session) // the next try listens again, under the same name
		return nil, session.explained(err)
	}
	session.firstTicket()
	session.flush()
	session.atEnd = func() { c.shards.forgets(p, session) }
	c.shards.goesOn(session)
	c.shards.loopOf(shard).adds(session)
	return session, nil
}

// newPart returns the session of a shard, which was not opened yet.
func (c *Client) newPart(p *part, lock string, tries bool) (*Client, error) {
	own := c.config
	own.Transport, own.DontWait = c.carrier, own.DontWait || tries
	session := newSessionOf(c.cluster, own, p.name, p.claims)
	session.user, session.ownNote, session.watch, session.waits = c.user, c.ownNote, c.watch, c.waits
	session.wants, session.wishes, session.short = lock, &p.wishes, &p.short
	session.left, session.header.Seq = p.left, p.seq
	if err := c.call(func() error { session.plans = c.plans.copied(); return nil }); err != nil {
		return nil, err
	}
	p.plan = session.generation
	session.meet(len(session.names()))
	for v := 0; v < len(p.heard) && v < len(session.peers); v++ {
		session.peers[v].heard = p.heard[v] // many short calls are as deaf as a long one
	}
	return session, nil
}

// loopOf returns the loop in which the session of a shard goes round.
func (s *shards) loopOf(shard int) *loop {
	s.mutex.Lock()
	defer s.mutex.Unlock()
	one := &s.loops[shard%countLoops()]
	if *one == nil {
		*one = newLoop()
	}
	return *one
}

// Plans are exchanged while a client has no session. So it asks one voter a minute which there are, each in its turn, and all of them more
// often while it follows. Its name says with which voter it begins, so that many clients ask them all alike. If it missed more than one
// exchange it reads the cluster's file again.
const (
	looksForPlans = time.Minute
	followsPlans  = 500 * time.Millisecond
)

// firstOf returns with which of so many voters a session of this name begins.
func firstOf(name string, voters int) int {
	hash := fnv.New32a()
	_, _ = hash.Write([]byte(name))
	return int(hash.Sum32() % uint32(voters))
}

// followPlans lets voters say which plans there are, if it is time for that. Any question does, and each reply says it. One takes the place of
// the one before, also if that has no quorum's replies.
func (c *Client) followPlans(now time.Time) {
	follows, since := c.next != nil || c.isReading || c.older != nil, now.Sub(c.followed)
	switch {
	case !c.cluster.HasShards():
	case follows && since >= followsPlans:
		c.followed = now
		delete(c.questions, c.follows)
		c.newest++
		q := newQuestion(wire.AskWho, "-")
		q.ID, c.follows = c.newest, c.newest
		c.questions[q.ID] = q
	case since >= looksForPlans:
		c.followed = now
		c.looked = (c.looked + 1) % len(c.peers)
		c.newest++ // nobody waits for the reply
		c.out[c.looked] = wire.Ask{Kind: wire.AskWho, ID: c.newest, Lock: "-"}.Append(c.out[c.looked])
	}
}

// readAgain takes the plans of the cluster's file, and returns whether they are newer. The client was away for more than one exchange.
func (c *Client) readAgain() bool {
	if c.config.Cluster == "" {
		return false
	}
	cluster, err := config.ReadCluster(c.config.Cluster)
	if err != nil || cluster.ID != c.cluster.ID || cluster.Mark("x") != c.cluster.Mark("x") || newPlans(cluster).generation <= c.generation {
		return false
	}
	c.plans = newPlans(cluster)
	c.meet(len(c.names()))
	return true
}

// hasNewer returns whether there is a newer plan than one, in the cluster's file or by what voters said meanwhile.
func (c *Client) hasNewer(plan uint64) bool {
	return c.call(func() error {
		if c.generation <= plan && !c.readAgain() {
			return ErrRetired
		}
		return nil
	}) == nil
}

// current returns the session of a shard, nil if there is none that goes on.
func (c *Client) current(p *part) *Client {
	c.shards.mutex.Lock()
	defer c.shards.mutex.Unlock()
	return p.client
}

// forgetSession lets the next call open another session of a shard than this one.
func (c *Client) forgetSession(shard int, session *Client) {
	p := c.shards.part(shard)
	c.shards.mutex.Lock()
	defer c.shards.mutex.Unlock()
	if p.client == session {
		p.client = nil
	}
}

// goesOn notes that a session is open, until it is over.
func (s *shards) goesOn(session *Client) {
	s.mutex.Lock()
	defer s.mutex.Unlock()
	s.going.Add(1)
	s.open[session] = struct{}{}
}

// forgets notes that a session is over, and keeps what it counted.
func (s *shards) forgets(p *part, session *Client) {
	defer s.going.Done()
	s.leaves(session)
	s.mutex.Lock()
	defer s.mutex.Unlock()
	s.past = s.past.with(session.stats)
	delete(s.open, session)
	if p.client == session {
		p.client = nil
	}
}

// counted returns the sessions that are not over, and what all others counted.
func (s *shards) counted() (open []*Client, past Stats) {
	s.mutex.Lock()
	defer s.mutex.Unlock()
	for session := range s.open {
		open = append(open, session)
	}
	return open, s.past
}

// sessions returns the sessions by which locks are taken.
func (s *shards) sessions() (sessions []*Client) {
	s.mutex.Lock()
	defer s.mutex.Unlock()
	for _, p := range s.all {
		if p.client != nil {
			sessions = append(sessions, p.client)
		}
	}
	return sessions
}

// closeAll lets no session be opened any more, closes all that there are, and returns the first error of one.
func (c *Client) closeAll(ctx context.Context) error {
	c.shards.closes()
	sessions, _ := c.shards.counted()
	errs := make(chan error, len(sessions))
	for _, session := range sessions {
		session := session
		go func() { errs <- session.Close(ctx) }()
	}
	var first error
	for range sessions {
		if err := <-errs; first == nil && !errors.Is(err, ErrClosed) {
			first = err
		}
	}
	ended := make(chan struct{})
	go func() { c.shards.going.Wait(); close(ended) }()
	select {
	case <-ended: // also those that were opened
	case <-ctx.Done():
	}
	return first
}

// giveNumberBack closes the session of a shard that wants nothing, if others wait for a number, or after a while.
func (c *Client) giveNumberBack(now time.Time) {
	switch {
	case !c.cluster.HasShards() || c.looks || c.why != nil:
	case c.draining:
		if c.givesBack && (c.done || now.Sub(c.unused) > (keepsNumber+1)*c.cluster.TTL.Duration) {
			c.end(ErrClosed)
		}
	case len(c.busy) == 0 && !now.Before(c.keepsUntil(now)):
		c.givesBack = true
		c.drain()
	}
}

// keepsUntil returns until when a session keeps its number that wants nothing: shorter if others wait for one.
func (c *Client) keepsUntil(now time.Time) time.Time {
	until := c.unused.Add(keepsNumber * c.cluster.TTL.Duration)
	switch {
	case now.Sub(c.wanted) >= isWanted:
		return until
	case c.wasUsed:
		return c.unused
	}
	return earlier(until, c.unused.Add(takesUse))
}

// rests returns whether a session of a shard asks for nothing now: it wants no lock, or only has some whose votes count for long. There may be
// many of these, so each sends few heartbeats.
func (c *Client) rests() bool {
	return c.cluster.HasShards() && !c.looks && c.holds == len(c.busy) && !c.hastens && !c.draining && c.why == nil
}

// lateFrom returns for how long votes count at least after a heartbeat that came in time was acknowledged, until the next one is.
func (c *Client) lateFrom() time.Duration {
	late := leaseOf(c.cluster.TTL.Duration) - c.cluster.TTL.Duration/4 - 2*c.config.Heartbeat
	if late < 0 {
		return 0
	}
	return late
}

// isLate returns whether a vote of a lock that somebody has ends soon: a heartbeat was not acknowledged in time.
func (c *Client) isLate() bool {
	if !c.cluster.HasShards() {
		return false
	}
	up, late := uptime(), c.lateFrom()
	for l := range c.busy {
		if h := l.held; h != nil && !h.over.Load() && time.Duration(h.until.Load())-up < late {
			return true
		}
	}
	return false
}

// pause returns how long it is from one heartbeat to the next.
func (c *Client) pause() time.Duration {
	if c.rests() && c.wasUsed {
		return c.cluster.TTL.Duration / 4
	}
	return c.config.Heartbeat
}

// wake is called before a session that rested asks for something: its next message has a heartbeat, and voters have the fail-over time to
// reply. One that did not reply to the heartbeat before has no more time: else it would never be silent to who rests again and again.
func (c *Client) wake(now time.Time) {
	if !c.rests() || now.Sub(c.beat) < c.config.Heartbeat {
		return
	}
	last := c.beat
	c.heartbeat(now)
	for v := range c.peers {
		if !c.peers[v].heard.Before(last) {
			c.peers[v].heard = now
		}
	}
}

// with returns two counts together.
func (s Stats) with(t Stats) Stats {
	return Stats{s.Passes + t.Passes, s.Requests + t.Requests, s.FailOvers + t.FailOvers, s.GivenUp + t.GivenUp, s.LetGo + t.LetGo,
		s.Reminders + t.Reminders, s.Reservations + t.Reservations, s.Refused + t.Refused, s.Lost + t.Lost}
}

// statsOfAll returns what all sessions counted.
func (c *Client) statsOfAll() Stats {
	open, all := c.shards.counted()
	for _, session := range open {
		all = all.with(session.Stats())
	}
	return all
}

// silentInAll returns which voters are silent to each session, by their names: none while there is no session.
func (c *Client) silentInAll() map[string]bool {
	voters := map[string]bool{}
	for i, session := range c.shards.sessions() {
		for name, silent := range session.silentVoters() {
			voters[name] = silent && (i == 0 || voters[name])
		}
	}
	return voters
}

// areCutOff returns whether no session reaches a quorum. While there is none it is not known.
func (c *Client) areCutOff() bool {
	sessions := c.shards.sessions()
	for _, session := range sessions {
		if !session.IsCutOff() {
			return false
		}
	}
	return len(sessions) > 0 || c.Err() != nil
}
