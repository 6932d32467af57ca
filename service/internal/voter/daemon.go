// Package voter is the daemon of a voter. Its loop takes all messages that are there, steps the proved voters of their
// locks, saves all that changed in one transaction, and then sends.
package voter

import (
	"bytes"
	"errors"
	"fmt"
	"io"
	"sync/atomic"
	"time"

	"calvundek.example/service/internal/config"
	"calvundek.example/service/internal/event"
	"calvundek.example/service/internal/level"
	"calvundek.example/service/internal/moment"
	"calvundek.example/service/internal/voter/outbox"
	"calvundek.example/service/internal/wire"
	"calvundek.example/service/qlock"
	"calvundek.example/service/transport"
)

// ErrSave ends a voter whose state can't be saved. It sent nothing that depends on it.
var ErrSave = errors.New("the state can't be saved")

const (
	tick        = 50 * time.Millisecond
	longestAway = 10 * time.Second // of the broker, before it is logged
)

// Daemon is a voter.
type Daemon struct {
	cluster *config.Cluster
	own     *config.Voter
	store   *store
	draft   outbox.Draft[*vote]
	sender  outbox.Sender
	link    transport.Link // nil if the transport has none
	log     *event.Log
	m       *metrics
	around  Surroundings

	votes      map[string]*vote
	busy       voteList          // those that somebody has or waits for
	soon       voteList          // those that somebody waits for
	old        voteList          // those with a grant of before the start by which nobody said that he is inside
	looks      pass              // over the busy ones
	lasting    time.Time         // since when the grant lasts that lasts longest of those of this pass, zero if there is none
	held       int               // votes that somebody has
	unpacked   []*vote           // those whose voter is not packed, first those that were looked at longest ago
	packs      time.Time         // when it was looked at last which of them to pack
	toPack     int               // how many of the first ones are looked at next
	users      map[string]*usage // of the users that have some vote or wait for one
	leases     leases
	shards     map[int]*shard // that were used in this run, or have a row
	inTurn     []*shard       // the same ones
	census     census         // of all of them, as they were counted last
	nextShard  int            // whose sessions are counted next
	nextUnused int            // which was looked at last, whether nobody uses it
	nextSummed int            // of which there is a sum since last
	nextCaught int            // those before this place have yet to catch up
	caughtUp   uint64         // with how many hearings
	floors     map[int]Floor  // of shards that were dropped
	newFloors  map[int]Floor  // they changed since the last save
	waitsSince time.Time      // since when the request waits that waited longest at the last round, zero if none did

	plans         Generations
	inUse         plansInUse
	newPlans      bool // they changed since the last save
	mark, oldMark string
	marks         map[string]string // by which plan a session speaks, while there are two
	laggards      map[int]laggard   // the sessions, by their keys, without a request here that hinder a retirement

	out      map[string][]byte // lines that leave after the save, by session
	sealed   []sealed          // those that leave before, with the lapses of when they were said
	outBytes int
	order    []string          // of what leaves
	bundles  []bundle          // what leaves to processes, in their order
	ofBox    map[string]int    // which of these is for a mailbox
	replies  map[string]answer // what operators get after the save, by mailbox
	room     []byte
	said     []byte // the control line that was said last

	isFull          bool // it was logged that there is no room for another lock
	isSpent         bool // it was logged that no grant is left for a lock that is not known
	join            joining
	peers           [places]Peer
	loaded          [places]Peer        // as they were at the start
	told            [places]toldOf      // what was said to others that started
	spoke           [places]time.Time   // when each of the others was heard last in this run
	resting         []resting           // the votes that nobody has, the oldest first
	gone            map[string]struct{} // locks that are forgotten, whose rows are still there
	restsFor        time.Duration
	newPeers        map[int]Peer // they changed since the last save
	newOwn          bool         // what the state has of its own starts changed
	letters         []posted     // words to other voters that leave after the save
	skips           []skip       // turns that are told after the save
	skipsWaiting    []skipWaiting
	watches         watches      // the locks that sessions watch
	entries         uint64       // how many were made of sessions on the rolls of processes
	skippable       qlock.Bucket // how many more numbers may be skipped for turns
	reach           uint64       // up to which number they may be now
	voters          <-chan transport.Message
	floor, ceiling  uint64           // its grants are above the floor, and up to the ceiling
	raised          raised           // the same of votes that were there as it was noted last
	nothing         qlock.SinceStart // of votes of which nothing was said since the start
	markers         [keyBytes]byte   // the key of this run's markers
	done            done
	questions       questions
	messages, reads <-chan transport.Message
	writes          <-chan transport.Message // what operators want done
	inbox           inbox
	started         time.Time
	next            time.Time    // when the next round is due
	granted         uint64       // grants given since then
	returns         uint64       // of the link, as they were logged
	away            time.Time    // when there was a connection last, or it was logged that there is none
	lively          atomic.Int64 // when the loop last went round, as a moment.Moment
	marked          atomic.Int64 // when the last marker left that came back, since the start, whatever the clock on the wall does
	waits           atomic.Int64 // messages in the inbox
	noRoom          transport.Drops
}

// Owner returns whose state a voter has to have.
func Owner(own *config.Voter, cluster *config.Cluster) Meta {
	return Meta{Format: formatOf(level.Oldest), Cluster: cluster.ID, Coterie: config.Mark(cluster.Generation, cluster.Coterie),
		Voter: cluster.Number(own.Voter)}
}

// Open opens the state of a voter, and listens. Its state has to be there (Init, InitLost).
func Open(own *config.Voter, cluster *config.Cluster, carrier transport.Transport, log *event.Log) (*Daemon, error) {
	return OpenIn(Surroundings{}, own, cluster, carrier, log)
}

// OpenIn is Open in other surroundings than those of this machine.
func OpenIn(around Surroundings, own *config.Voter, cluster *config.Cluster, carrier transport.Transport, log *event.Log) (*Daemon, error) {
	var state *store
	var err error
	if around = around.complete(); around.Disk == nil {
		state, err = openStore(own.Data, Owner(own, cluster))
	} else {
		state, err = openOn(around.Disk, own.Data, Owner(own, cluster))
	}
	if err != nil {
		return nil, err
	}
	now := around.Now()
	d := &Daemon{cluster: cluster, own: own, store: state, sender: outbox.NewSender(carrier), log: log, m: newMetrics(), around: around,
		votes: map[string]*vote{}, users: map[string]*usage{},
		leases: leases{ttl: cluster.TTL.Duration},
		out:    map[string][]byte{}, replies: map[string]answer{}, started: now, away: now,
		entries: entriesBefore(state), newPeers: map[int]Peer{}, gone: map[string]struct{}{}, restsFor: shortestRest,
		floors: map[int]Floor{}, newFloors: map[int]Floor{}}
	if d.restsFor < 2*cluster.TTL.Duration {
		d.restsFor = 2 * cluster.TTL.Duration
	}
	d.lively.Store(int64(moment.Never))
	if err := d.begin(); err != nil {
		state.disk.Close()
		return nil, err
	}
	if err := d.markPlans(); err != nil {
		state.disk.Close()
		return nil, err
	}
	d.link, _ = carrier.(transport.Link)
	d.watch()
	if err := d.load(d.now()); err != nil {
		d.store.disk.Close()
		return nil, err
	}
	if err := d.listen(carrier); err != nil {
		d.store.disk.Close()
		return nil, err
	}
	d.next = d.now()
	return d, nil
}

// begin begins a run of the state: it takes the plans of the cluster's file.
func (d *Daemon) begin() (err error) {
	d.plans, d.newPlans, err = d.store.plans.follow(NewGenerations(d.cluster))
	if err != nil {
		return fmt.Errorf("%s: %w: of another plan than that of the cluster's file", file(d.own.Data), err)
	}
	if _, err := io.ReadFull(d.around.Random, d.markers[:]); err != nil {
		return err
	}
	ceiling := d.store.own.Ceiling
	if d.isLost() {
		ceiling = 0 // it needs as many answers as a new one. Those that are enough know the ceiling of the one before
	}
	d.join = joining{start: *qlock.NewStart(ceiling, d.firstBlock()), began: d.now(), saves: d.store.saves}
	if left := time.UnixMilli(d.store.left); d.store.left > 0 && !left.After(d.started) {
		d.join.left = left
	}
	d.join.process, err = d.newProcess()
	return err
}

// load reads the sessions and the votes. All leases begin anew.
func (d *Daemon) load(now time.Time) error {
	d.leases.begin(now)
	d.skippable = *qlock.NewBucket(skipRate, mostSkip, 0)
	err := d.store.load(func(shard int, floor Floor) { d.floors[shard] = floor }, func(one savedSession) error {
		s, number := d.shardOfKey(one.key)
		if s.set(number, one.row); one.isOld {
			d.leases.later[one.key] = one.row
		}
		return nil
	}, func(one savedVote) error {
		d.restore(one, now)
		return nil
	}, func(place int, p Peer) { d.peers[place], d.loaded[place] = p, p })
	d.sumAll()
	return err
}

// isOurs returns whether a message is of this cluster, and of a plan that is not retired.
func (d *Daemon) isOurs(h wire.Header) bool {
	if h.Kind == wire.FromClient && greatest(h.Level, level.Oldest) < d.store.own.level() {
		return false // of an older program
	}
	return h.Cluster == d.store.meta.Cluster && (h.Coterie == d.mark || h.Coterie == d.oldMark && d.oldMark != "")
}

// line takes one line of a message. It returns false if the line can't be right: then the rest of
// the message doesn't count.
func (d *Daemon) line(l *letter, speaker qlock.Standing, lock, line []byte, now time.Time) bool {
	if len(line) > mostLine {
		return false
	}
	if string(lock) == "." {
		return d.control(l, speaker, line, now)
	}
	line, word := cutWord(line)
	said := wire.ReadLine(line)
	if speaker != qlock.SessionKnown || said.From != l.Number || said.To != d.store.meta.Voter || !isToVoter(said) {
		return false
	}
	isRequest := string(said.Word) == "request"
	v := d.votes[string(lock)]
	if v == nil && d.shardOfLock(string(lock)) != l.shard || v != nil && v.shard != l.shard {
		return false // its session is of another shard
	}
	isClosed := d.isQuiet() || v != nil && v.isAwaited() // then the call puts it off, unless he is inside
	if isRequest && (word == inside || !isClosed) && d.isAtBound(v, userOf(l.Name)) {
		if l.shard.takes(said.From, l.Name, l.Epoch, said.Stamp) {
			d.fullForUser(l, lock, said)
		} else {
			d.m.refused.Inc()
		}
		return true
	}
	isNew := v == nil
	if isNew && isRequest {
		v = d.newVote(string(lock))
	}
	if v == nil {
		d.m.refused.Inc()
		return true
	}
	if isRequest && word == try && !isClosed {
		d.expireFor(v, said.From, now) // who waits for nobody waits for nobody who is gone
	}
	before := v.held()
	from := l.shard.speaker(l.Number, l.Name, l.Epoch)
	from.Inside = word == inside
	shown, lines, err := d.call(v, func(out []byte) ([]byte, qlock.LockShown, error) {
		return d.proved(v).TakeFrom(v.shard.rows(), d.sinceOf(v), d.isQuiet(), from, line, out)
	})
	switch {
	case err != nil:
		v.extras.heard = moment.Of(now)
		return true
	case shown.IsPutOff:
		d.putOff(l, now)
		return true
	case !shown.IsTaken:
		return true
	case isNew && !d.admit(v, l, said, now):
		return true
	}
	v.extras.heard = moment.Of(now)
	if isRequest {
		l.shard.seat(l.Number).lock = v.name
	}
	d.tellHolder(v, l, said.From, word, now)
	d.note(v, said.From, shown, lines, now)
	if before.Client == uint64(said.From) && before.Number > 0 && string(said.Word) == "relinquish" && shown.Stamp != before.Stamp {
		d.isGone(v, before, now) // it is from before the start, and given back: it does not wait on
	}
	d.deny(v, l.Header, said, shown)
	if word == try {
		d.tellHeld(v, l, said, now)
	}
	return true
}

// putOff answers a REQUEST that gets no vote now, as only who is inside gets one.
func (d *Daemon) putOff(l *letter, now time.Time) {
	if l.once("quiet") {
		d.say(l.Name, qlock.VoterSays{Kind: qlock.Quiet, First: uint64(d.quietFor(now).Milliseconds() + 1)})
	}
}

// What a client may write behind a REQUEST.
const (
	inside = " inside" // it is inside
	try    = " try"    // it does not wait for somebody who is inside
)

// cutWord takes such a word off a line, and returns which one was there.
func cutWord(line []byte) (rest []byte, word string) {
	for _, word := range []string{inside, try} {
		if bytes.HasSuffix(line, []byte(word)) {
			return line[:len(line)-len(word)], word
		}
	}
	return line, ""
}

// tellHeld tells who does not want to wait that somebody else has the vote, and for how long, in milliseconds.
func (d *Daemon) tellHeld(v *vote, l *letter, said wire.Line, now time.Time) {
	if v.isHeld && !v.isHolder(said.From) {
		since := now.Sub(v.granted.Time()).Milliseconds()
		if since < 0 {
			since = 0
		}
		d.sayOf(l.Name, qlock.LockSays{Kind: qlock.LockHeld, Lock: []byte(v.name), Stamp: said.Stamp, Milliseconds: uint64(since)})
	}
}

// isToVoter returns whether a line has a word that voters take.
func isToVoter(said wire.Line) bool {
	word := string(said.Word)
	return word == "request" || word == "release" || word == "relinquish"
}

// newVote returns the vote for a lock that is not known. It is not kept yet.
func (d *Daemon) newVote(lock string) *vote {
	voter, err := d.newVoter()
	if err != nil {
		return nil
	}
	return d.voteOf(lock, voter)
}

// admit keeps the vote for a new lock, of which this is the first REQUEST, if there is room. If there is none, it says so.
func (d *Daemon) admit(v *vote, l *letter, said wire.Line, now time.Time) bool {
	if len(d.votes) >= d.own.MaxLocks && !d.makeRoom(now) {
		d.full(l, []byte(v.name), said, d.m.full, &d.isFull, "locks", len(d.votes))
		return false
	}
	d.keep(v)
	return true
}

// newVoter makes a vote, whose grants are above the floor.
func (d *Daemon) newVoter() (*qlock.Voter, error) {
	return qlock.RebornVoter(uint8(d.store.meta.Voter), d.floor, d.ceiling)
}

// call makes a call of a lock, and returns what is shown of it then, and its lines. They leave after the next save (note). Nothing happens
// if the call is refused, or the line is not its session's to say, or is put off.
func (d *Daemon) call(v *vote, call func(out []byte) ([]byte, qlock.LockShown, error)) (qlock.LockShown, []byte, error) {
	lines, shown, err := call(d.room[:0])
	if errors.Is(err, qlock.GrantsSpent) && d.extends(v) {
		v.extras.isSpent = false
		lines, shown, err = call(d.room[:0])
	}
	if err != nil || !shown.IsTaken && !shown.IsPutOff {
		d.refuse(v, err)
		return shown, nil, err
	}
	d.room = lines
	return shown, lines, nil
}

// extends lets a vote give grants up to the ceiling, and returns whether that is more than before.
func (d *Daemon) extends(v *vote) bool {
	voter := d.proved(v)
	before := *voter
	_ = voter.Extend(d.ceiling) // it never fails: the limit is not above the ceiling
	return *voter != before
}

// note notes what a step changed that a client's line, or letting its grant go, led to, and has its lines sent.
func (d *Daemon) note(v *vote, client int, shown qlock.LockShown, lines []byte, now time.Time) {
	if shown.MustSave || v.isRaised { // what was saved last differs in nothing else from the state before a step
		v.isRaised = false
		d.draft.May(v)
	}
	d.noteAsk(v, client, shown.Stamp, now)
	d.noteGrant(v, shown.Held, now)
	if v.extra().since != nil || d.isQuiet() {
		d.stand(v)
	}
	d.send(v, lines)
}

func (d *Daemon) refuse(v *vote, why error) {
	d.m.refused.Inc()
	if errors.Is(why, qlock.GrantsSpent) {
		d.m.spent.Inc()
		isLogged := &v.needs().isSpent
		if d.votes[v.name] != v {
			isLogged = &d.isSpent // it is not kept
		}
		if !*isLogged {
			*isLogged = true
			d.log.Write(event.Error, "grants-spent", "lock", v.name)
		}
	}
}

// deny tells a client that its REQUEST is over here: it was let go. It would wait for a reply for ever.
func (d *Daemon) deny(v *vote, h wire.Header, said wire.Line, shown qlock.LockShown) {
	if string(said.Word) == "request" && shown.Stamp != said.Stamp && shown.Finished >= said.Stamp {
		d.draft.Tells(v)
		d.sayOf(h.Name, qlock.LockSays{Kind: qlock.LockGone, Lock: []byte(v.name), Stamp: said.Stamp})
	}
}

// send puts the lines of a vote with those that leave after the save: each is for the session that its number has now. Who was not
// heard in this run hears nothing: a reminder, or the reply to what he says next, repeats it.
func (d *Daemon) send(v *vote, lines []byte) {
	if len(lines) > 0 {
		d.draft.Tells(v)
	}
	for len(lines) > 0 {
		end := bytes.IndexByte(lines, '\n') + 1
		if to := wire.ReadLine(lines[:end]).To; to >= 0 && to < qlock.MaxClients && v.shard.isHeard(to) {
			name := v.shard.name(to)
			out := append(append(d.out[name], v.name...), ' ')
			d.out[name] = append(out, lines[:end]...)
			d.outBytes += len(v.name) + 1 + end
		}
		lines = lines[end:]
	}
}

// tell puts a control line with those that leave after the save.
func (d *Daemon) tell(name, text string, words ...interface{}) {
	line := fmt.Sprintf(". "+text+"\n", words...)
	d.out[name] = append(d.out[name], line...)
	d.outBytes += len(line)
}

// say puts a control line that has numbers only with those that leave after the save.
func (d *Daemon) say(name string, says qlock.VoterSays) {
	d.said = mustAppend(says, d.said[:0])
	d.put(name, append(d.out[name], d.said...))
}

// mustAppend appends a control line that has numbers only.
func mustAppend(says qlock.VoterSays, out []byte) []byte {
	out, err := says.Append(out)
	if err != nil {
		panic(fmt.Sprintf("%+v has no line: %v", says, err))
	}
	return out
}

// sayOf puts a control line with the name of a lock with those that leave after the save. A session without a name was not heard in
// this run, and hears nothing.
func (d *Daemon) sayOf(name string, says qlock.LockSays) {
	if name == "" {
		return
	}
	line, err := says.Append(d.said[:0])
	if err != nil {
		panic(fmt.Sprintf("%+v has no line: %v", says, err))
	}
	d.said = line
	d.put(name, append(d.out[name], line...))
}

// put puts more lines in place of those that leave to a session after the save.
func (d *Daemon) put(name string, out []byte) {
	d.outBytes += len(out) - len(d.out[name])
	d.out[name] = out
}

// control takes a control line of a client, and returns whether it is one. Who has no number here
// may ask, and claim.
func (d *Daemon) control(l *letter, speaker qlock.Standing, line []byte, now time.Time) bool {
	said, err := qlock.ReadClientSays(line)
	if l.controls++; l.controls > mostControls || err != nil {
		return false
	}
	switch said.Kind {
	case qlock.Hello:
		return l.once("hello") && d.hello(l, now)
	case qlock.AskPlan:
		return l.once("plan") && d.tellPlan(l.Name)
	case qlock.Open:
		return d.open(l, speaker, said.First, now)
	case qlock.Close:
		return d.shut(l, speaker, now)
	case qlock.ClaimNone, qlock.ClaimStamps:
		d.claim(l, said, now)
		return true
	case qlock.Drop:
		if l.shard.drop(said.Number, l.Name, said.First) {
			d.tellFree(l.shard, now)
		}
		return true
	case qlock.Greet:
		if level.Newest >= level.Greets && d.store.own.level() >= level.Greets {
			d.say(l.Name, qlock.VoterSays{Kind: qlock.Greeted})
			return true
		}
	}
	isKnown, isRight := d.ask(l, speaker, line, now)
	if !isKnown {
		d.m.refused.Inc() // of a newer program
	}
	return isRight
}

// hello says which numbers are free, and which of these may be had now: who came first goes first. A session that wants one gets it at
// once, unless others wait for it, and hears nothing else of that.
func (d *Daemon) hello(l *letter, now time.Time) bool {
	states := l.shard.states()
	own := d.again(l, now)
	if own >= 0 {
		states[own] = 1 // it may have that
	}
	ahead := l.shard.queue().ask(l.Name, l.lock, states, l.shard.shares(states, l.Name), now, d.leases.ttl)
	if own < 0 {
		own = d.bring(l, states, now)
	}
	for number := range states {
		if number != own {
			d.say(l.Name, qlock.VoterSays{Kind: qlock.NumberIs, Number: number, First: l.shard.bare(number).Epoch, Second: uint64(states[number])})
		}
	}
	d.tellIdle(l.shard, now)
	d.tellSessions(l, ahead, now)
	d.announce(l.Name)
	return true
}

// open takes a heartbeat, which says the oldest plan of which the session has a request.
func (d *Daemon) open(l *letter, speaker qlock.Standing, oldest uint64, now time.Time) bool {
	if l.Epoch == 0 {
		return false
	}
	if speaker == qlock.SessionKnown {
		l.shard.asks(l.Number, oldest, d.plans.Number)
		seat := l.shard.seat(l.Number)
		d.say(l.Name, qlock.VoterSays{Kind: qlock.Opened, Number: l.Number, First: l.Epoch, Second: seat.base, Third: seat.reserved,
			Fourth: l.Seq, Fifth: uint64(seat.requests)})
	}
	if speaker == qlock.SessionKnown {
		d.tellWanted(l.shard, l.Number, now)
	}
	d.announce(l.Name)
	return true
}

// shut ends a session that says that it is over.
func (d *Daemon) shut(l *letter, speaker qlock.Standing, now time.Time) bool {
	if speaker == qlock.SessionKnown {
		l.shard.end(l.Number, l.Name, l.Epoch)
		d.log.Write(event.Debug, "session-ended", "client", l.Number, "epoch", l.Epoch)
		d.say(l.Name, qlock.VoterSays{Kind: qlock.Closed, Number: l.Number, First: l.Epoch})
		d.tellFree(l.shard, now)
	}
	return l.Epoch > 0
}

// claim takes a claim of a number, with its first stamps, or with none.
func (d *Daemon) claim(l *letter, said qlock.ClientSays, now time.Time) {
	if !d.gives(l, said.Number, said.First, said.Second, now) {
		d.say(l.Name, qlock.VoterSays{Kind: qlock.Denied, Number: said.Number, First: said.First})
	}
}

// gives gives a number to a session by a claim, with so many stamps, or again, and tells it so. It returns false if the session does not
// get it.
func (d *Daemon) gives(l *letter, number int, epoch, stamps uint64, now time.Time) bool {
	before := l.shard.row(number)
	if !l.shard.claim(number, l.Name, epoch, stamps, now) {
		return false
	}
	row, seat := l.shard.row(number), l.shard.seat(number)
	if before.Hash != row.Hash || before.Epoch != epoch {
		l.shard.asks(number, 0, d.plans.Number)
		d.recount(l.shard, number)
		seat.lock = l.shard.waiting.lockOf(l.Name)
		l.shard.waiting.claimed()
		d.log.Write(event.Debug, "session-claimed", "client", number, "epoch", epoch)
	}
	d.say(l.Name, qlock.VoterSays{Kind: qlock.Claimed, Number: number, First: epoch, Second: row.Base, Third: row.Reserved})
	return true
}

// round does what time asks for: it lets grants of dead clients go that are in the way of others, and reminds.
func (d *Daemon) round(now time.Time) {
	if !d.join.done {
		return
	}
	d.endQuiet(now)
	d.forget(now)
	d.dropUnused(now)
	d.lookAround(now)
	d.measure(now)
	d.packSome(now)
	d.sumSome()
}

// mostLooked is how many votes one step of a round looks at. With more of them the next rounds go on.
const mostLooked = 4096

// lookAround looks at all votes that somebody waits for, and at a share of the busy ones. A pass over all of these finds the grant that
// lasts longest, too.
func (d *Daemon) lookAround(now time.Time) {
	if len(d.busy.all) > mostLooked {
		d.soon.each(func(v *vote) { d.roundOf(v, now) })
	}
	isEnd := d.looks.share(&d.busy, mostLooked, func(v *vote) {
		d.roundOf(v, now)
		if v.isHeld && (d.lasting.IsZero() || v.granted.Time().Before(d.lasting)) {
			d.lasting = v.granted.Time()
		}
	})
	if isEnd {
		d.m.lasting.note(d.lasting, now)
		d.lasting = time.Time{}
	}
}

// longestReminder is for how long a vote for which nobody waits is had before its holder is reminded, and how long it is at most from one
// such reminder to the next. A RELEASE that was lost is found sooner: a session that wants nothing hears in each reply to its heartbeat how
// many requests the voter has of it. The first of those that come to wait has the vote reminded soon.
const longestReminder = 10 * time.Minute

// roundOf does what time asks for of a vote.
func (d *Daemon) roundOf(v *vote, now time.Time) {
	if v.isAwaited() {
		d.forgetDead(v)
	}
	switch {
	case v.isOld && d.isQuiet():
		return // it may be somebody else's by now
	case !v.isAwaited() && !d.isQuiet():
		v.forgetSince()
	}
	for v.isHeld && (v.isWanted() || d.isInTheWay(v)) && v.isOver() {
		if !d.expire(v, now) {
			break
		}
	}
	most := d.own.Most.Duration
	if !v.isWanted() && most < longestReminder {
		most = longestReminder
	}
	if v.isHeld && v.next.IsDue(most, now) && (v.isWanted() || now.Sub(v.granted.Time()) >= longestReminder) {
		if lines := v.reminder(); len(lines) > 0 {
			d.m.reminders.Inc()
			d.send(v, lines)
		}
	}
}

// reminder returns the lines that remind whoever has a vote.
func (v *vote) reminder() (lines []byte) {
	v.look(func(voter *qlock.Voter) { lines, _ = voter.RemindHolder(v.shard.rows(), nil) })
	return lines
}

// expire lets the current grant of a vote go whose session is over, and returns whether it did.
func (d *Daemon) expire(v *vote, now time.Time) bool {
	held := v.held()
	d.seal(v.shard, int(held.Client))
	if !d.letGo(v, now) {
		return false
	}
	if row := v.shard.row(int(held.Client)); row.Open && held.Stamp > row.Base {
		v.shard.lapse(int(held.Client))
	}
	d.m.expired.Inc()
	d.log.Write(event.Warning, "lease-expired", "lock", v.name, "client", held.Client, "stamp", held.Stamp, "grant", held.Number)
	return true
}

// seal lets what waits for a number's session leave with the count of its lapses until now, before that grows: a line says how often
// grants of the session were let go when it was said.
func (d *Daemon) seal(s *shard, number int) {
	if name := s.name(number); name != "" && len(d.out[name]) > 0 {
		d.sealed = append(d.sealed, sealed{name, d.out[name], s.lapses(name)})
		delete(d.out, name)
	}
}

// expireFor lets the grants of others go whose sessions are over, for a client that tries to get the vote.
func (d *Daemon) expireFor(v *vote, client int, now time.Time) {
	for v.isHeld && !v.isHolder(client) && v.isOver() && d.expire(v, now) {
	}
}

// endQuiet lets the grants of before the start go of which nobody said that he is inside, a share of them in each round. If one can't be
// let go, as no grant is left for who waits, this voter stays quiet.
func (d *Daemon) endQuiet(now time.Time) {
	if !d.isQuiet() || !d.leases.clock.IsSilent(d.leases.quiet.since, d.leases.ttl) {
		return
	}
	d.leases.quiet.ends.share(&d.old, mostLooked, func(v *vote) {
		held := v.held()
		d.seal(v.shard, int(held.Client))
		isOver, _ := d.letGoBy(v, now, func(out []byte) ([]byte, qlock.LockShown, error) {
			return d.proved(v).EndQuiet(v.shard.rows(), d.sinceOf(v), uint8(held.Client), out)
		})
		if isOver {
			if row := v.shard.row(int(held.Client)); row.Open && held.Stamp > row.Base {
				v.shard.lapse(int(held.Client)) // what tells its client so may be lost
			}
			d.log.Write(event.Warning, "not-renewed", "lock", v.name, "client", held.Client, "stamp", held.Stamp, "grant", held.Number)
		}
	})
	if len(d.old.all) == 0 {
		d.leases.quiet = quiet{}
	}
}

// isOver returns whether the grant of a vote may be let go, as its session is over.
func (v *vote) isOver() bool { return v.shard.isOver(int(v.client), v.stamp) }

// letGo lets the current grant of a vote go, and tells its client. It returns false if that did not succeed.
func (d *Daemon) letGo(v *vote, now time.Time) bool {
	held := v.held()
	isOver, _ := d.letGoBy(v, now, func(out []byte) ([]byte, qlock.LockShown, error) {
		return d.proved(v).LetGo(v.shard.rows(), held.Number, uint8(held.Client), out)
	})
	return isOver
}

// letGoBy makes a call that may let the current grant of a vote go, tells its client if it does, and returns whether it did.
func (d *Daemon) letGoBy(v *vote, now time.Time, call func(out []byte) ([]byte, qlock.LockShown, error)) (isOver bool, err error) {
	held := v.held()
	shown, lines, err := d.call(v, call)
	if err != nil {
		return false, err
	}
	d.note(v, int(held.Client), shown, lines, now)
	if isOver = v.held().Number != held.Number; isOver {
		d.isGone(v, held, now)
	}
	return isOver, nil
}

// isGone tells the client of a grant that its request is over, or an operator.
func (d *Daemon) isGone(v *vote, held qlock.Grant, now time.Time) {
	v.needs().letGo = moment.Of(now)
	d.draft.Tells(v)
	if row := v.shard.row(int(held.Client)); row.Open && held.Stamp > row.Base {
		d.sayOf(v.shard.name(int(held.Client)), qlock.LockSays{Kind: qlock.LockGone, Lock: []byte(v.name), Stamp: held.Stamp})
	}
}
