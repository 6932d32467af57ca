package voter

// The host of the proved calls: a loop, a disk, mailboxes and a clock. It takes what comes, lets the rest of this package decide by the
// proved calls what that means, makes what changed durable, and then sends. What it is trusted with is in docs/service-design.md.

import (
	"context"
	"fmt"
	"sort"
	"time"

	"calvundek.example/service/internal/event"
	"calvundek.example/service/internal/moment"
	"calvundek.example/service/internal/wire"
	"calvundek.example/service/qlock"
	"calvundek.example/service/transport"
)

func (d *Daemon) listen(carrier transport.Transport) (err error) {
	if d.messages, err = carrier.Listen(wire.VoterBoxes(d.cluster.ID, d.store.meta.Voter)); err != nil {
		return err
	}
	if d.voters, err = carrier.Listen(wire.PeerBoxes(d.cluster.ID, d.store.meta.Voter)); err != nil {
		return err
	}
	if d.reads, err = carrier.Listen(wire.ReadBox(d.cluster.ID, d.store.meta.Voter, "*")); err != nil {
		return err
	}
	d.writes, err = carrier.Listen(wire.WriteBox(d.cluster.ID, d.store.meta.Voter, "*"))
	return err
}

// Run is the loop. It returns nil when the context ends, and ErrSave when a save fails.
func (d *Daemon) Run(ctx context.Context) error {
	defer d.store.disk.Close()
	d.log.Write(event.Info, "start", "voter", d.own.Voter, "number", d.store.meta.Voter, "cluster", d.cluster.ID,
		"run", d.store.meta.Run, "start", d.store.own.Start, "identity", d.store.meta.Identity, "locks", len(d.votes))
	for {
		until, err := d.Turn()
		if err != nil {
			return err
		}
		if !d.wait(ctx, until) {
			return d.End()
		}
	}
}

// Turn does what time asks for, saves what changed, and sends. It returns until when it need not be called again if nothing
// comes, or why the voter ends.
func (d *Daemon) Turn() (until time.Time, err error) {
	now := d.now()
	d.look(now)
	if !now.Before(d.next) {
		d.sendMarker(now)
		d.round(now)
		d.next = now.Add(tick)
	}
	if d.start(now); d.join.refused != nil {
		return now, d.endRefused()
	}
	d.tellWatchers(now)
	if err := d.commit(now); err != nil {
		d.log.Write(event.Error, "save-failed", "why", err)
		return now, err
	}
	d.lively.Store(int64(moment.Of(now)))
	switch until = d.next; {
	case d.inbox.count > 0 || len(d.watches.due) > 0:
		until = now // the rest of the last turn waits
	case !d.join.done:
		until = earlier(until, d.join.next)
	}
	if len(d.questions.waiting) > 0 {
		until = earlier(until, d.questions.next)
	}
	return until, nil
}

// endRefused notes in the state that it never starts again, and returns why.
func (d *Daemon) endRefused() error {
	d.log.Write(event.Error, "refused", "why", d.join.refused)
	if d.store.own.Refused != "" {
		if err := d.store.update(d.store.saves, func(b *batch) error { return b.putOwn(d.store.own) }); err != nil {
			d.log.Write(event.Error, "save-failed", "why", err)
		}
	}
	return d.join.refused
}

// From says in which mailbox of a voter a message came.
type From int

// The mailboxes.
const (
	Nobody    From = iota // nothing came: it is time for a turn
	Clients               // what users' sessions say, and markers
	Voters                // what other voters say
	Readers               // what operators want to know
	Operators             // what operators want done
)

// wait waits for messages until a time, and takes all that are there. It returns false when the context has ended.
func (d *Daemon) wait(ctx context.Context, until time.Time) bool {
	timer := time.NewTimer(until.Sub(d.now()))
	defer timer.Stop()
	select {
	case <-ctx.Done():
		return false
	case m := <-d.messages:
		d.Take(Clients, m)
	case m := <-d.voters:
		d.Take(Voters, m)
	case m := <-d.reads:
		d.Take(Readers, m)
	case m := <-d.writes:
		d.Take(Operators, m)
	case <-timer.C:
		d.Take(Nobody, transport.Message{})
	}
	return true
}

// Take takes a message, and all of clients that are there besides. A turn has to follow. The clock is read after the message was
// taken.
func (d *Daemon) Take(from From, m transport.Message) {
	switch from {
	case Clients:
		d.sort(m)
	case Voters:
		d.hearPeer(m, d.now())
	case Readers:
		d.question(m)
	case Operators:
		d.operate(m, true, d.now())
	}
	d.answerNext()
	d.receive()
	d.work()
	d.waits.Store(int64(d.inbox.count))
}

// End saves what nothing waited for, and tells all sessions that this voter leaves, so that they
// ask others at once.
func (d *Daemon) End() error {
	d.draft.Hasten()
	d.store.own.Left, d.newOwn = d.now().UnixMilli(), true
	for _, s := range d.inTurn {
		s.seats.each(func(number int, seat *seat) {
			if seat.marks.has(isOpen) && s.isHeard(number) {
				d.say(s.name(number), qlock.VoterSays{Kind: qlock.Leaving})
			}
		})
	}
	now := d.now()
	if err := d.commit(now); err != nil {
		return err
	}
	if d.join.done && !d.isQuiet() && !d.awaits() { // else the next start has to be quiet, too: who is inside may wait for a vote
		for voter := 0; voter < places; voter++ {
			if d.others()>>voter&1 == 1 {
				d.write(voter, word{Word: "ended", Process: d.join.process, Saves: d.store.saves})
			}
		}
		if err := d.commit(now); err != nil {
			return err
		}
	}
	d.log.Write(event.Info, "end", "voter", d.own.Voter)
	return nil
}

// look logs that the broker is back, or has been away for long. No lease ends meanwhile: no marker
// comes back. A server of it that reaches no other voter is left for the next one: each says a word within a TTL and tellAgain.
func (d *Daemon) look(now time.Time) {
	if alone := 2 * (d.cluster.TTL.Duration + tellAgain); d.others() != 0 && now.Sub(d.spokeLast()) > alone {
		d.sender.Move(alone)
	}
	if d.link != nil && d.link.Returns() != d.returns {
		d.returns = d.link.Returns()
		d.log.Write(event.Info, "broker-back", "returns", d.returns)
	}
	if d.link == nil || d.link.Connected() {
		d.away = now
	} else if now.Sub(d.away) > longestAway {
		d.away = now
		var why error
		if link, ok := d.link.(interface{ Why() error }); ok {
			why = link.Why()
		}
		d.log.Write(event.Warning, "broker-away", "why", why)
	}
}

// silentFor returns how long ago the loop last went round.
func (d *Daemon) silentFor(now time.Time) time.Duration {
	return now.Sub(moment.Moment(d.lively.Load()).Time())
}

// IsLively returns whether the loop went round within some time.
func (d *Daemon) IsLively(within time.Duration) bool {
	return d.silentFor(d.now()) < within
}

// commit saves all that changed, if something leaves that may depend on it, and then sends. What may be lost in a crash waits for the next
// save: steps that send nothing, and rows of which a TTL makes up for the loss.
func (d *Daemon) commit(now time.Time) error {
	if len(d.out)+len(d.sealed)+len(d.replies)+len(d.letters)+len(d.skips) > 0 {
		d.tellSkips()
		d.address()
	}
	saved, err := d.draft.Commit(now, unsaved{d})
	if err != nil {
		return err
	}
	d.m.unsent.Add(uint64(d.sender.Deliver(saved)))
	return nil
}

// unsaved is what a voter has to save.
type unsaved struct{ *Daemon }

// MustSave returns whether something changed on which what leaves may depend.
func (u unsaved) MustSave() bool {
	return len(u.leases.changed)+len(u.newPeers)+len(u.newFloors) > 0 || u.newPlans || u.newOwn
}

// MaySave returns whether something else did.
func (u unsaved) MaySave() bool { return len(u.leases.later)+len(u.gone) > 0 }

// Save saves all that is not saved.
func (u unsaved) Save(votes map[*vote]struct{}) error {
	d := u.Daemon
	began := d.now()
	c := changes{votes: votes, gone: d.gone, sessions: d.leases.unsaved(), floors: d.newFloors, dropped: d.leases.dropped, peers: d.newPeers}
	if d.newPlans {
		c.plans = &d.plans
	}
	if d.newOwn {
		c.own = &d.store.own
	}
	if err := d.store.save(c); err != nil {
		return fmt.Errorf("%w: %v", ErrSave, err)
	}
	d.m.commit.Observe(d.now().Sub(began).Seconds())
	d.m.batch.Observe(float64(len(votes)))
	d.leases.saved()
	d.newPeers = map[int]Peer{}
	d.gone, d.newFloors = emptied(d.gone), map[int]Floor{}
	d.newPlans, d.newOwn = false, false
	return nil
}

// emptied returns an empty map in place of one that is not needed any more. It is the same one if it has room for as much as it is likely to
// have next: one with few entries may have room for very many, and would take as long to go over.
func emptied[K comparable, V any](m map[K]V) map[K]V {
	const few, many = 1 << 8, 1 << 16
	if len(m) < few || len(m) > many {
		return map[K]V{}
	}
	for key := range m {
		delete(m, key)
	}
	return m
}

// address makes messages of all that leaves after the save.
func (d *Daemon) address() {
	header, runs := d.header(), d.runs()
	d.outBytes = 0
	d.deliverLetters()
	for _, s := range d.sealed {
		d.deliverTo(header, s.session, runs, s.lines, s.lapses)
	}
	d.sealed = d.sealed[:0]
	d.order = d.order[:0]
	for session := range d.out {
		d.order = append(d.order, session)
	}
	sort.Strings(d.order)
	for _, session := range d.order {
		var lapses uint64
		if s := d.shardOfSession(session); s != nil {
			lapses = s.lapses(session)
		}
		d.deliverTo(header, session, runs, d.out[session], lapses)
		delete(d.out, session)
	}
	d.deliverBundles()
	d.order = d.order[:0]
	for box := range d.replies {
		d.order = append(d.order, box)
	}
	sort.Strings(d.order)
	for _, box := range d.order {
		header.Coterie, header.Lapses = d.replies[box].mark, 0
		d.post(box, append(header.Append(nil), d.replies[box].body...))
		delete(d.replies, box)
	}
}

// sealed are lines for a session that were said before its lapses grew.
type sealed struct {
	session string
	lines   []byte
	lapses  uint64
}

// deliverTo lets lines leave to a session, with this count of its lapses. What goes to a session of a process that takes bundles waits for
// the others of this turn.
func (d *Daemon) deliverTo(header wire.Header, session string, runs, lines []byte, lapses uint64) {
	header.Coterie, header.Lapses = d.speaks(session), lapses
	box, to := wire.SessionBox(header.Cluster, session, header.Number), d.processOf(session)
	header.Split(runs, lines, func(message []byte) {
		if to == "" {
			d.post(box, message)
			return
		}
		d.bundle(wire.SessionBox(header.Cluster, wire.SessionName(userOf(session), to), header.Number), box, nameOf(session), message)
	})
}

// post lets one message leave after the save. What can't be sent is lost: a reminder repeats it.
func (d *Daemon) post(box string, message []byte) { d.draft.Say(box, message) }
