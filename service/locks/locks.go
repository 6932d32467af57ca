// Package locks is the client of the lock service. A Client is one session: the voters lease it a number of 0 to 63. In a cluster with
// shards it has a session for each shard whose locks it uses. It keeps nothing on disk.
//
//	client, err := locks.Open(ctx, locks.Config{Cluster: "/etc/qlock/cluster.toml"})
//	held, err := client.Lock(ctx, "orders")
//	err = write(held.Token(), ...)          // the guard admits the token and writes, in one transaction
//	err = held.Unlock()
//	err = client.Close(ctx)                 // waits until all votes are given back
//
// A client that stands still for longer than the TTL may lose a lock and write late. Held.Lost says so once it can, and
// only a guard beside the data (package guard) refuses such a write.
package locks

import (
	"context"
	"errors"
	"fmt"
	"log"
	"sort"
	"sync/atomic"
	"time"

	"calvundek.example/service/internal/claims"
	"calvundek.example/service/internal/config"
	"calvundek.example/service/internal/wire"
	"calvundek.example/service/qlock"
	"calvundek.example/service/transport"
	"github.com/prometheus/client_golang/prometheus"
)

// The errors of this package. errors.Is finds them.
var (
	ErrClosed   = errors.New("locks: the client is closed")
	ErrLost     = errors.New("locks: the session is over: another one has its number, or an operator ended it")
	ErrName     = errors.New("locks: a lock's name has 1 to 64 of A-Z a-z 0-9 _ - . : and no dot first")
	ErrNested   = errors.New("locks: the context is that of a holder of this lock, who would wait for himself")
	ErrNotHeld  = errors.New("locks: the lock was given back before")
	ErrLapsed   = errors.New("locks: the lock may have been somebody else's before it was given back")
	ErrNoQuorum = errors.New("locks: no quorum of voters replied")
	ErrHeld     = errors.New("locks: somebody else has the lock")
	ErrFull     = errors.New("locks: no quorum of voters has room for another lock, or for one of this user: max_locks, max_locks_user")
	ErrLooks    = errors.New("locks: the client only looks: it has no number, and takes no locks")
	ErrRetired  = errors.New("locks: the plan of the cluster's file is retired; take the newest file")
	ErrNumbers  = errors.New("locks: all client numbers are in use, or as many as one lock may have (wait longer, share one by an agent on " +
		"each host, or make a cluster with more shards: init --shards)")
)

// because is an error, and why it came about. errors.Is finds both.
type because struct{ what, why error }

func (b because) Error() string        { return fmt.Sprintf("%v: %v", b.what, b.why) }
func (b because) Is(target error) bool { return b.what == target }
func (b because) Unwrap() error        { return b.why }

// Config is how to reach a cluster.
type Config struct {
	Cluster   string              // the cluster's file, the same for all processes
	User      string              // the user of NATS; none if empty
	Secret    string              // the file of the user's password
	Seed      string              // the file of the seed of an nkey, in place of a password
	Creds     string              // the file of credentials (a JWT and its seed), in place of a password
	Cert, Key string              // the files of a certificate and its key; none if empty
	Heartbeat time.Duration       // a quarter of the TTL, at most 500 ms, if 0
	Note      string              // shown to whoever asks who has a lock, behind host, process and user of the system
	NoNote    bool                // nothing is shown of this process, and no Note
	DontWait  bool                // Open fails with ErrNumbers at once if all numbers are in use
	Log       *log.Logger         // gets a line for each event of the session; none if nil
	FailOver  time.Duration       // for how long a voter is silent before it is passed over; 4 heartbeats if 0
	Transport transport.Transport // NATS with the cluster's servers if nil; not closed with the client, which only leaves its mailboxes
}

// FromEnvironment returns how to reach a cluster, by the variables QLOCK_CLUSTER, QLOCK_USER, QLOCK_SECRET,
// QLOCK_SEED, QLOCK_CREDS, QLOCK_CERT and QLOCK_KEY. What has no variable is empty. Another variable QLOCK_.. is
// an error if nothing of this project reads it.
func FromEnvironment() (Config, error) {
	read := config.FromEnvironment
	return Config{Cluster: read("cluster"), User: read("user"), Secret: read("secret"),
		Seed: read("seed"), Creds: read("creds"), Cert: read("cert"), Key: read("key")}, config.CheckEnvironment()
}

// Stats counts what a client did.
type Stats struct {
	Passes       uint64 // locks that were given back
	Requests     uint64
	FailOvers    uint64 // requests given up since a voter of their quorum was silent
	GivenUp      uint64 // requests given up since nobody wanted the lock any more
	LetGo        uint64 // requests that a voter let go
	Reminders    uint64
	Reservations uint64 // blocks of stamps that were reserved after the first one
	Refused      uint64 // messages and lines that were dropped
	Lost         uint64 // locks that may have been lost while they were held
}

// Client has locks. Many goroutines may call it at once.
type Client struct {
	shards  *shards // of a cluster with several shards: this client only looks then, and these have its sessions
	cluster *config.Cluster
	config  Config
	carrier transport.Transport
	close   func() // of the carrier, or of the session's mailboxes if others use that, too

	user     string // as a word of mailboxes
	messages <-chan transport.Message
	calls    chan func()
	ended    chan struct{} // closed at the end, and why says why
	why      error
	stopped  chan struct{} // closed when the loop has ended
	isShut   chan struct{} // closed when what was said last has left then, and the carrier was closed

	session
	plans
	watch *watch
	gaps
	missed uint64 // the voters that were silent when the loop last went round

	followed time.Time // when voters were asked last which plans there are
	follows  uint64    // the question of then, if it was one to all of them
	looked   int       // the one that was asked alone last
	locks    map[string]*lock
	busy     map[*lock]struct{} // locks that ask, are inside, or are wanted
	holds    int                // of these, those that are held and that nobody waits for
	ticket   int
	asker
	turns   map[*Held]bool // the locks whose turn is asked for
	ownNote string         // what the session says of itself, "" for nothing
	looks   bool           // it has no number
	*desk
	bundles *bundles // of the process, nil if it sends none
	stats   Stats
	waits   prometheus.Histogram

	// of a session of a shard
	box      *mailbox // what waits for it, nil for other clients
	leaveBox func()   // ends what comes there
	loop     *loop    // in which it goes round, nil while it is opened
	place    int      // there, -1 once it is over
	atEnd    func()   // is called then
	hastens  bool     // a vote of a lock that somebody has ends soon
}

// Held is a lock that is held. It belongs to whoever called Lock.
type Held struct {
	client *Client
	lock   *lock
	quorum uint64
	stamp  uint64
	token  []byte
	lost   chan struct{}
	until  atomic.Int64 // up to when its votes count, by uptime
	over   atomic.Bool  // lost is closed
	isTold bool         // the loop knows that it may be lost

	unlocked atomic.Bool // Unlock was called

	turning *turning // the last call of Turn

	note    string      // of the lock, "" if it has none of its own
	noteDue map[int]due // when voters hear it again
}

// lapse closes Lost, and returns whether it was open.
func (h *Held) lapse() bool {
	first := h.over.CompareAndSwap(false, true)
	if first {
		close(h.lost)
	}
	return first
}

// Open connects, and gets a number from a quorum of voters.
func Open(ctx context.Context, c Config) (*Client, error) {
	cluster, err := config.ReadCluster(c.Cluster)
	if err != nil {
		return nil, err
	}
	return open(ctx, cluster, c)
}

func open(ctx context.Context, cluster *config.Cluster, c Config) (*Client, error) {
	if cluster.HasShards() {
		return openShards(ctx, cluster, c)
	}
	client, err := newClient(cluster, c)
	if err != nil {
		return nil, err
	}
	return client.connect(ctx)
}

// connect opens the session of a client.
func (c *Client) connect(ctx context.Context) (*Client, error) {
	var err error
	if c.messages, err = c.carrier.Listen(c.boxes()); err == nil {
		err = c.begin(ctx)
	}
	if err != nil {
		err = c.explained(err)
		c.shut()
		c.awaitShut(ctx)
		return nil, err
	}
	c.firstTicket()
	c.watch.looks = true
	go c.run()
	return c, nil
}

func newClient(cluster *config.Cluster, c Config) (*Client, error) {
	nonce, err := config.Nonce()
	if err != nil {
		return nil, err
	}
	return newNamed(cluster, c, cluster.SessionName(0, nonce), claims.New())
}

// newNamed returns a client whose session has this name, under which these claims were made.
func newNamed(cluster *config.Cluster, c Config, name string, own *claims.Numbers) (*Client, error) {
	if c.Heartbeat == 0 {
		c.Heartbeat = shorter(cluster.TTL.Duration/4, 500*time.Millisecond)
	}
	if c.FailOver == 0 {
		c.FailOver = 4 * c.Heartbeat
	}
	access := config.Access{User: c.User, Secret: c.Secret, Seed: c.Seed, Creds: c.Creds, Cert: c.Cert, Key: c.Key}
	user, err := access.Speaker()
	if err != nil {
		return nil, err
	}
	client := newSessionOf(cluster, c, name, own)
	client.user, client.plans, client.calls = user, newPlans(cluster), make(chan func())
	client.watch, client.waits = newWatch(cluster.TTL.Duration), newWaits()
	if !c.NoNote {
		client.ownNote = ownNote(c.Note)
	}
	if client.carrier != nil {
		client.close = func() { transport.Leave(client.carrier, client.boxes()) }
		return client, nil
	}
	link, err := transport.Connect(cluster, access, "qlock client")
	if err != nil {
		return nil, err
	}
	client.carrier, client.close = link, link.Close
	return client, nil
}

// newSessionOf returns what each client has, also that of a session of a shard.
func newSessionOf(cluster *config.Cluster, c Config, name string, own *claims.Numbers) *Client {
	return &Client{cluster: cluster, config: c, carrier: c.Transport, close: func() {}, session: newSession(cluster, name, own), desk: &desk{},
		ended: make(chan struct{}), stopped: make(chan struct{}), isShut: make(chan struct{}), locks: map[string]*lock{}, busy: map[*lock]struct{}{},
		asker: asker{questions: map[uint64]*question{}, observers: map[*observer]struct{}{}}, turns: map[*Held]bool{}}
}

// boxes returns the mailboxes of the session.
func (c *Client) boxes() string {
	return wire.SessionBoxes(c.cluster.ID, wire.SessionName(c.user, c.header.Name))
}

func shorter(a, b time.Duration) time.Duration {
	if a < b {
		return a
	}
	return b
}

// Lock waits until the caller has the lock, or the context ends. A goroutine that has it and calls Lock of it again would
// wait for itself: with a context of Held.Context that is ErrNested.
func (c *Client) Lock(ctx context.Context, name string) (*Held, error) {
	return c.lock(ctx, name, &waiter{})
}

// TryLock takes a lock that nobody has. It fails with ErrHeld as soon as a voter says that somebody else has its vote, or
// asked before, or another goroutine of this client has the lock or waits for it. If a voter said who has its vote, the
// error is a HeldBy, by what this voter alone said. TryLock waits for votes until the context ends, and for nobody to leave.
// Of several callers that try a free lock at once, one gets it.
func (c *Client) TryLock(ctx context.Context, name string) (*Held, error) {
	return c.lock(ctx, name, &waiter{tries: true})
}

// lock takes a lock. It waits for who has it, unless the call only tries.
func (c *Client) lock(ctx context.Context, name string, w *waiter) (*Held, error) {
	if !wire.IsName([]byte(name)) {
		return nil, fmt.Errorf("%w: %q", ErrName, name)
	}
	if c.shards != nil {
		return c.lockInShard(ctx, name, w)
	}
	if isNested(ctx, c, name) {
		return nil, fmt.Errorf("%w: %q", ErrNested, name)
	}
	w.got, w.since = make(chan *Held, 1), time.Now()
	if err := c.call(func() error { return c.enqueue(name, w) }); err != nil {
		return nil, err
	}
	select {
	case held, open := <-w.got:
		if !open {
			return nil, w.why
		}
		return held, nil
	case <-c.ended:
		return nil, c.why
	case <-ctx.Done():
		_ = c.call(func() error { c.dequeue(name, w); return nil })
		return nil, ctx.Err()
	}
}

// Token returns the pass: what is shown to the guard, with each write.
func (h *Held) Token() []byte { return append([]byte(nil), h.token...) }

// Lost is closed when the lock may be somebody else's. The guard refuses what is written later, if somebody else wrote
// since. End the work then, and call Unlock: until then votes that are left keep others out. It is also closed by Unlock.
func (h *Held) Lost() <-chan struct{} { return h.lost }

// Left returns for how long the lock lasts if no voter is heard any more: then Lost closes. It is 0 once Lost is closed. Each
// acknowledged heartbeat of the client makes it longer again, up to 0.8 of the TTL. An operator may end a lock before.
func (h *Held) Left() time.Duration { return h.client.watch.left(h, uptime()) }

// Unlock gives the lock back. It returns ErrLapsed if the lock may have been lost before, also if Lost did not say so yet. If the session is
// over, errors.Is also finds why. It returns ErrNotHeld for the second time.
func (h *Held) Unlock() error {
	if h.unlocked.Swap(true) {
		return ErrNotHeld
	}
	isOver := true
	err := h.client.call(func() error { isOver = false; return h.client.unlock(h) })
	if isOver {
		return because{ErrLapsed, err}
	}
	return err
}

// nest is the key of what a holder's context says.
type nest struct {
	client *Client
	name   string
}

// Context returns a context for work that needs the lock: it ends when the lock may be lost, is given back, or the parent
// ends. The function that it returns frees what the context needs.
func (h *Held) Context(parent context.Context) (context.Context, context.CancelFunc) {
	ctx, cancel := context.WithCancel(context.WithValue(parent, nest{h.client, h.lock.name}, h))
	go func() {
		select {
		case <-h.lost:
			cancel()
		case <-ctx.Done():
		}
	}()
	return ctx, cancel
}

// isNested returns whether a context is that of a holder who has not given the lock back.
func isNested(ctx context.Context, c *Client, name string) bool {
	held, found := ctx.Value(nest{c, name}).(*Held)
	if !found {
		return false
	}
	select {
	case <-held.lost:
		return false
	default:
		return true
	}
}

// Done returns a channel that is closed when the session is over: by Close, or by ErrLost or ErrRetired, as Err then says.
func (c *Client) Done() <-chan struct{} { return c.ended }

// Err returns why the session is over, nil as long as it goes on.
func (c *Client) Err() error {
	select {
	case <-c.ended:
		return c.why
	default:
		return nil
	}
}

// note writes a line to the log that the client was given.
func (c *Client) note(event, format string, words ...interface{}) {
	if c.config.Log != nil {
		c.config.Log.Printf("event="+event+" "+format, words...)
	}
}

// shownNumber returns the session's number as operators see it: with the shard in front where there are several.
func (c *Client) shownNumber() string {
	shard, _ := c.cluster.ShardOfSession(c.header.Name)
	return c.cluster.NumberOf(shard*qlock.MaxClients + c.header.Number)
}

// Number returns the number of the client's session. Operators see it. In a cluster with shards a client has several, and this returns -1.
func (c *Client) Number() int {
	if c.shards != nil {
		return -1
	}
	return c.header.Number
}

// Silent returns the names of the voters of which nothing came for the fail-over time, none once
// the client is closed.
func (c *Client) Silent() (names []string) {
	for name, silent := range c.silentVoters() {
		if silent {
			names = append(names, name)
		}
	}
	sort.Strings(names)
	return names
}

// IsCutOff returns whether the voters that are not silent contain no quorum, by the plans that are in use now. It is true once
// the client is closed.
func (c *Client) IsCutOff() bool {
	if c.shards != nil {
		return c.areCutOff()
	}
	hasQuorum := false
	_ = c.call(func() error { hasQuorum = c.hasQuorum(^c.silent(time.Now())); return nil })
	return !hasQuorum
}

// Stats returns what the client did so far.
func (c *Client) Stats() (s Stats) {
	if c.call(func() error { s = c.stats; return nil }) != nil {
		<-c.stopped
		s = c.stats
	}
	if c.shards != nil {
		s = s.with(c.statsOfAll())
	}
	return s
}

// Close refuses calls of Lock, also those that wait, waits until all locks are given back and each voter that is there says so, and ends the
// session. If the context ends first, the TTL frees what is left.
func (c *Client) Close(ctx context.Context) error {
	if c.shards != nil {
		defer c.shards.awaitLeft(ctx)
		if err := c.closeAll(ctx); err != nil {
			_ = c.call(func() error { c.end(ErrClosed); return nil })
			c.awaitShut(ctx)
			return err
		}
	}
	if err := c.call(func() error { c.drain(); return nil }); err != nil {
		return err
	}
	var err error
	select {
	case <-c.drained:
	case <-c.ended:
		err = c.why
	case <-ctx.Done():
		err = ctx.Err()
	}
	_ = c.call(func() error { c.end(ErrClosed); return nil })
	<-c.stopped
	if c.box == nil { // a session of a shard leaves the carrier to others
		c.awaitShut(ctx)
	}
	return err
}

// shut begins to close the carrier, which may wait for a server.
func (c *Client) shut() {
	go func() {
		c.close()
		close(c.isShut)
	}()
}

// lastWords is for how long what was said last may leave after a context ended.
const lastWords = 50 * time.Millisecond

// awaitShut waits until what was said last has left, as long as the context lasts, and a moment longer.
func (c *Client) awaitShut(ctx context.Context) {
	select {
	case <-c.isShut:
		return
	case <-ctx.Done():
	}
	select {
	case <-c.isShut:
	case <-time.After(lastWords):
	}
}

// call runs a function in the loop.
func (c *Client) call(f func() error) error {
	if c.box != nil {
		done, taken := c.box.asks(f)
		if !taken {
			return c.why
		}
		return <-done
	}
	var err error
	done := make(chan struct{})
	select {
	case c.calls <- func() { err = f(); close(done) }:
	case <-c.ended:
		return c.why
	}
	<-done
	return err
}

// run is the loop.
func (c *Client) run() {
	every := pause
	if c.looks && c.cluster.HasShards() {
		every = repeatAsk / 2
	}
	ticker := time.NewTicker(every)
	defer c.shut()
	defer close(c.stopped)
	defer ticker.Stop()
	for c.why == nil {
		select {
		case m := <-c.messages:
			c.message(m)
			for i := len(c.messages); i > 0 && c.why == nil; i-- {
				c.message(<-c.messages)
			}
		case f := <-c.calls:
			f()
		case f := <-c.read:
			f()
		case now := <-ticker.C:
			c.tick(now)
		}
		c.flush()
	}
}

// tick does what time asks for.
func (c *Client) tick(now time.Time) {
	c.round(now)
	c.giveNumberBack(now)
	if c.draining {
		c.finish() // a voter may have become silent since the last one closed the session
	}
}

// end ends the client: all calls return why.
func (c *Client) end(why error) {
	if c.why != nil {
		return
	}
	c.why = why
	if c.header.Epoch > 0 {
		c.note("session-over", "number=%s epoch=%d why=%q", c.shownNumber(), c.header.Epoch, why)
	} else {
		c.note("session-over", "why=%q", why)
	}
	for l := range c.busy {
		if l.held != nil {
			c.lose(l.held)
			c.watch.end(l.held)
		}
	}
	close(c.ended)
}

// flush sends what this turn of the loop made. A client has nothing to save: its stamps are reserved (session.go).
func (c *Client) flush() {
	now := time.Now()
	c.observe(now)
	c.sendQuestions(now)
	c.sendTurns(now)
	for voter := range c.peers {
		if len(c.out[voter]) == 0 {
			continue
		}
		header := c.header
		header.Coterie = c.speaks(voter)
		header.Split(nil, c.out[voter], func(message []byte) { c.post(voter, message) })
		c.out[voter] = c.out[voter][:0]
	}
	c.sent, c.mayWait = [qlock.MaxVoters]int{}, false
}
